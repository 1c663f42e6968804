#!/usr/bin/env python3
"""Compares what `compose` and `decompose` make of authors' texts with a plain model.

usage: authors.py PROGRAM

300 random authors' texts are composed, or all their mistakes reported with line and column; 300 random rows are composed; 300 random rows of
codes are decomposed and composed again. Each composed text, decomposed and composed again, is the same service. The plain model knows the
national sets and Unicode's names of block mosaics, and shares no code with the program.
"""
import os
import random
import re
import subprocess
import sys
import tempfile
import tomllib
import unicodedata

PLACES = "#$@[\\]^_`{|}~"
SETS = ["£$@←½→↑#―¼‖¾÷", "#$§ÄÖÜ^_°äöüß", "#¤ÉÄÖÅÜ_éäöåü", "£$é°ç→↑#ùàòèì", "éïàëêùî#èâôûç", "ç$¡áéíóú¿üñèà", "#ůčťžýířéáěúš"]
COLOURS = "red green yellow blue magenta cyan white".split()
NAMES = {name: [1 + i] for i, name in enumerate(COLOURS)}
NAMES.update({"mosaic " + name: [0x11 + i] for i, name in enumerate(COLOURS)})
NAMES.update({"flash": [8], "steady": [9], "/box": [10, 10], "box": [11, 11], "normal": [12], "double": [13], "conceal": [0x18], "contiguous": [0x19],
              "separated": [0x1a], "black background": [0x1c], "new background": [0x1d], "hold": [0x1e], "release": [0x1f]})
NAMES.update({f"{code:02X}": [code] for code in (0, 10, 11, 14, 15, 16, 27)})


def letters(option):
    """The character of each code from 20 to 7F outside mosaic mode."""
    shown = {code: chr(code) for code in range(0x20, 0x7f)}
    shown[0x7f] = "■"
    shown.update({ord(place): c for place, c in zip(PLACES, SETS[option % 7])})
    return shown


def blocks():
    """Each block mosaic of Unicode with its code, by the places that its name lists."""
    found = {" ": 0x20, "▌": 0x35, "▐": 0x6a, "█": 0x7f}
    for point in range(0x1fb00, 0x1fb3c):
        name = unicodedata.name(chr(point))
        bits = sum(1 << (int(n) - 1) for n in re.fullmatch(r"BLOCK SEXTANT-(\d+)", name)[1])
        found[chr(point)] = 0x20 + (bits & 31) + (0x40 if bits & 32 else 0)
    return found


BLOCKS = blocks()


def mosaics(option):
    """The same in mosaic mode: blocks, and the letters from 40 to 5F."""
    shown = {code: c for code, c in letters(option).items() if 0x40 <= code < 0x60}
    shown.update({code: c for c, code in BLOCKS.items()})
    return shown


def codes(text, option):
    by_mode = [{c: code for code, c in shown(option).items()} for shown in (letters, mosaics)]
    row, mode, at = [], 0, 0
    while at < len(text):
        tag = re.match(r"\{([^}]*)\}", text[at:])
        if text.startswith("{{", at):
            size, sign = 2, "{"
        elif text[at] != "{":
            size, sign = 1, text[at]
        elif tag and tag[1] in NAMES:
            size, sign = len(tag[0]), None
        else:
            return f"lack {at} room" if len(row) == 40 else f"lack {at} tag"
        for code in [None] if sign else NAMES[tag[1]]:
            if len(row) == 40:
                return f"lack {at} room"
            if sign:
                code = by_mode[mode].get(sign)
                if code is None:
                    return f"lack {at} " + ("character" if sign not in by_mode[1 - mode] else "letter" if mode else "mosaic")
            row.append(code)
            mode = 0 if 1 <= code <= 7 else 1 if 0x11 <= code <= 0x17 else mode
        at += size
    return "ok " + bytes(row + [0x20] * (40 - len(row))).hex()


def some_text(rng):
    option = rng.randrange(8)
    pools = [list(letters(option).values()), list(BLOCKS), list("éčß½£#{}ñ■ \u2019"), list("abcXYZ 019")]
    parts = []
    for _ in range(rng.choice([2, 5, 12, 30, 42])):
        kind = rng.random()
        if kind < 0.2:
            parts.append("{" + rng.choice(list(NAMES)) + "}")
        elif kind < 0.22:
            parts.append(rng.choice(["{{", "{rde}", "{red", "{", "}"]))
        else:
            parts.append(rng.choice(pools[rng.choices(range(4), [6, 1.5, 0.15, 6])[0]]))
    return option, "".join(parts)


def mixed_text(rng):
    """A text in which most of what is written has a meaning in its mode."""
    option, mode, parts = rng.randrange(8), 0, []
    for _ in range(rng.randrange(1, 52)):
        if rng.random() < 0.2:
            name = rng.choice(list(NAMES))
            code = NAMES[name][0]
            mode = 0 if 1 <= code <= 7 else 1 if 0x11 <= code <= 0x17 else mode
            parts.append("{" + name + "}")
        else:
            parts.append(rng.choice(list((mosaics if mode else letters)(option).values())))
    return option, "".join(parts)


WORDS = {"room": "no cell is left", "character": " has no ", "letter": "in mosaic mode", "mosaic": "outside mosaic mode", "tag": ""}
OPTIONS = "english german swedish italian french spanish czech".split()


class File:
    """A text that knows where each character of a value stands."""

    def __init__(self):
        self.text = ""

    def add(self, text):
        self.text += text

    def value(self, rng, text, several=False):
        """Writes a TOML text in one of its forms; answers the place of each character."""
        form = "lines" if several else rng.choice(["basic", "basic", "literal"])
        if form == "literal" and ("'" in text or any(c < " " for c in text)):
            form = "basic"
        opening, closing = {"basic": ('"', '"'), "literal": ("'", "'"), "lines": ('"""\n', '"""')}[form]
        self.add(opening)
        places = []
        for c in text:
            places.append(len(self.text))
            if form == "literal" or (form == "lines" and c == "\n"):
                self.add(c)
            elif c in '"\\':
                self.add("\\" + c)
            elif c < " " or rng.random() < 0.05:
                self.add(f"\\u{ord(c):04X}" if ord(c) < 0x10000 else f"\\U{ord(c):08X}")
            else:
                if form == "lines" and rng.random() < 0.02:
                    self.add("\\\n   ")
                    if c in " ":
                        self.add("\\u0020")
                        places[-1] = len(self.text) - 6
                        continue
                    places[-1] = len(self.text)
                self.add(c)
        places.append(len(self.text))
        self.add(closing)
        return places

    def at(self, place):
        before = self.text[:place]
        return f"{before.count(chr(10)) + 1}:{place - before.rfind(chr(10))}"


def width_codes(text, option, width):
    """The codes of a text in some cells, without spaces behind them, or where it has none."""
    cells, place, mode, codes_so_far = 0, 0, 0, []
    answer = codes(text, option)
    # the model of rows counts 40 cells: for less, look for the mark that has no room
    by_mode = [{c: code for code, c in shown(option).items()} for shown in (letters, mosaics)]
    while place < len(text):
        tag = re.match(r"\{([^}]*)\}", text[place:])
        if text.startswith("{{", place):
            size, marks = 2, ["{"]
        elif text[place] != "{":
            size, marks = 1, [text[place]]
        elif tag and tag[1] in NAMES:
            size, marks = len(tag[0]), NAMES[tag[1]]
        else:
            return ("room" if cells == width else "tag"), place
        for mark in marks:
            if cells == width:
                return "room", place
            code = mark if isinstance(mark, int) else by_mode[mode].get(mark)
            if code is None:
                return ("character" if mark not in by_mode[1 - mode] else "letter" if mode else "mosaic"), place
            codes_so_far.append(code)
            cells += 1
            mode = 0 if 1 <= code <= 7 else 1 if 0x11 <= code <= 0x17 else mode
        place += size
    if width == 40:
        assert answer.startswith("ok "), (text, answer)
    return "ok", bytes(codes_so_far).decode("ascii")


def good_text(rng, option, width):
    """A text that mostly has a meaning."""
    mode, parts, cells = 0, [], 0
    for _ in range(rng.randrange(0, width + 1)):
        if rng.random() < 0.15:
            name = rng.choice([name for name in NAMES if "box" not in name])
            code = NAMES[name][0]
            mode = 0 if 1 <= code <= 7 else 1 if 0x11 <= code <= 0x17 else mode
            parts.append("{" + name + "}")
        else:
            sign = rng.choice(list((mosaics if mode else letters)(option).values()))
            parts.append("{{" if sign == "{" else sign)
        cells += 1
        if cells == width:
            break
    if rng.random() < 0.04:
        parts.insert(rng.randrange(len(parts) + 1), rng.choice(["é", "☃", "{rde}", "{", "🬀", "ä", "\t"]))
    return "".join(parts)


def some_page(rng, file, number, due, service):
    option = rng.randrange(8)
    file.add(f"\n# page {number}\n[[page]]\nnumber = \"{number}\"\n")
    page = {"number": str(number)}
    kind = rng.random()
    if kind < 0.4:
        file.add(f"option = {option}\n")
        page["option"] = option
    elif kind < 0.8:
        option = rng.randrange(7)
        file.add("option = ")
        named = rng.random() >= 0.03
        place = len(file.text)
        file.value(rng, OPTIONS[option] if named else "frensh")
        file.add("\n")
        page["option"] = option
        if not named:
            due.append((file.at(place), "no national option is called frensh"))
            option = None
    else:
        option = 0

    def note(text, places, width, key=None):
        if option is None:
            return None
        why, what = width_codes(text, option, width)
        if why == "ok":
            return what
        due.append((file.at(places[what]), WORDS[why]))
        return None

    if rng.random() < 0.7:
        text = good_text(rng, option or 0, 24)
        file.add("head = ")
        page["head"] = note(text, file.value(rng, text), 24)
        file.add("\n")
    if rng.random() < 0.3:
        file.add("row24 = true\n")
        page["row24"] = True
    rows, found = {}, []
    file.add("[page.rows]\n")
    lines = []
    if rng.random() < 0.6:
        lines = [good_text(rng, option or 0, 40) if rng.random() < 0.7 else "" for _ in range(rng.randrange(1, 25))]
        if rng.random() < 0.03:
            lines += ["a"] * (26 - len(lines))
        lines = [line if "\n" not in line and "\r" not in line else "" for line in lines]
        text = "\n".join(lines)
        file.add("text = ")
        places = file.value(rng, text, several=True)
        file.add("\n")
        start = 0
        for index, line in enumerate(lines):
            here = places[start:start + len(line) + 1]
            start += len(line) + 1
            if line and index < 24:
                found.append((index, line, here, False))
            if index == 24 and option is not None:
                found.append((24, None, here, False))
    numbered = []
    for index in sorted(rng.sample(range(24), rng.randrange(4))):
        blank = index >= len(lines) or not lines[index].strip(" ")
        if blank or rng.random() < 0.1:
            text = good_text(rng, option or 0, 40)
            file.add(f"{index + 1} = ")
            here = file.value(rng, text)
            file.add("\n")
            found = [f for f in found if f[0] != index]
            found.append((index, text, here, not blank))
    for index, text, here, twice in sorted(found, key=lambda f: f[0]):
        if index == 24:
            due.append((file.at(here[0]), "more than 24 lines"))
            continue
        if twice and option is not None:
            due.append((file.at(here[0]), "stands in `text` too"))
        row = note(text, here, 40)
        rows[str(index + 1)] = row
    page["rows"] = rows
    service["page"].append(page)


def random_file(rng):
    """An author's text, the mistakes that are due, and the service."""
    file, due = File(), []
    file.add(f"author = 1\nlines = {rng.randrange(1, 33)}\nserial = true\n")
    service = {"lines": int(file.text.split("lines = ")[1].split()[0]), "serial": True, "page": []}
    if rng.random() < 0.4:
        file.add('[info]\nnetwork = "12F4"\nmjd = 46000\nutc = 123045\ntext = ')
        text = good_text(rng, 0, 20)
        places = file.value(rng, text)
        why, what = width_codes(text, 0, 20)
        if why != "ok":
            due.append((file.at(places[what]), WORDS[why]))
        service["info"] = {"network": "12F4", "mjd": 46000, "utc": 123045, "text": what}
        file.add("\n")
    for number in range(100, 100 + rng.randrange(1, 6)):
        some_page(rng, file, number, due, service)
    return file.text, due, service


def run(program, status, *words):
    """What a command says. It ends with this status, and writes nothing to standard error."""
    ran = subprocess.run([program, *words], capture_output=True, encoding="utf-8", timeout=120)
    assert (ran.returncode, ran.stderr) == (status, ""), (read(words[1]), ran)
    return ran.stdout


def save(name, text):
    with open(name, "w", encoding="utf-8", newline="\n") as out:
        out.write(text)


def read(name):
    with open(name, encoding="utf-8", newline="\n") as text:
        return text.read()


def composed(program, author, out):
    """The service text of an author's text without mistakes."""
    said = run(program, 0, "compose", author, out)
    text = read(out)
    service = tomllib.loads(text)
    assert said == f"composed {len(service.get('page', []))} pages\n", (said, text)
    return text, service


def check_back(program, service_text, service):
    """Decomposed and composed again, a service text is the same service."""
    said = run(program, 0, "decompose", service_text, "back.toml")
    assert said == f"decomposed {len(service['page'])} pages\n", (read(service_text), said)
    assert composed(program, "back.toml", "again.toml")[1] == service, (read(service_text), read("back.toml"))


def check_warnings(program, pages):
    """`check` warns of an author's text as of the service text, but not of codes: what the author wrote is what viewers see."""
    good = f"ok pages {pages}"
    short = [line.removeprefix("warning ") for line in run(program, 0, "check", "out.toml").split("\n")[:-1]]
    assert short, read("out.toml")
    wanted = [line for line in short if line != good and " is shown as " not in line and " is an escape only " not in line]
    lines = run(program, 0, "check", "desk.toml").split("\n")[:-1]
    if wanted:
        assert lines.pop() == f"0 errors, {len(wanted)} warning" + "s" * (len(wanted) != 1), (read("desk.toml"), lines)
        lines = [re.fullmatch(r"desk\.toml:\d+:\d+: warning: (.*)", line)[1] for line in lines]
        assert lines == wanted, (read("desk.toml"), lines, wanted)
    else:
        assert lines == [good], (read("desk.toml"), lines)


def check_mistakes(program, told):
    """`check` tells all mistakes of `compose`, and what else is wrong."""
    lines = run(program, 2, "check", "desk.toml").split("\n")[:-1]
    assert lines[:len(told)] == told, (read("desk.toml"), lines, told)
    last = re.fullmatch(r"(\d+) errors?, (\d+) warnings?(; the first 100 are shown)?", lines[-1])
    assert last and (last[3] or len(lines) == 1 + int(last[1]) + int(last[2])), lines


def check_text(program, rng, kinds):
    text, due, service = random_file(rng)
    save("desk.toml", text)
    if not due:
        told, read_service = composed(program, "desk.toml", "out.toml")
        assert told.startswith("# Composed from desk.toml "), told
        assert read_service == service, (text, told)
        # the comment before each page is kept
        for number, before in enumerate(told.split("[[page]]")[:-1], 100):
            assert before.endswith(f"# page {number}\n"), before
        check_back(program, "out.toml", service)
        check_warnings(program, len(service["page"]))
        kinds["composed"] += 1
        return
    lines = run(program, 1, "compose", "desk.toml", "out.toml").split("\n")[:-1]
    count = len(due)
    assert read("out.toml") == "", (text, lines)
    assert lines.pop() == f"{count} mistake" + "s" * (count != 1), (text, lines, due)
    assert len(lines) == min(count, 100), (text, lines)
    for line, (at, words) in zip(lines, due):
        assert line.startswith(f"desk.toml:{at}: error: ") and words in line, (text, line, at, words)
    check_mistakes(program, lines)
    kinds["refused"] += 1
    kinds["mistakes"] += count


def check_row(program, option, text, kinds):
    """A row that is composed has these codes; otherwise its first mistake has its column, which counts from 1 behind five characters."""
    body = text.replace("\\", "\\\\").replace('"', '\\"')
    save("row.toml", f'author = 1\nlines = 2\nserial = true\n[[page]]\nnumber = "100"\noption = {option}\n[page.rows]\n1 = "{body}"\n')
    wanted = codes(text, option)
    if wanted.startswith("ok "):
        row = composed(program, "row.toml", "out.toml")[1]["page"][0]["rows"]["1"]
        assert row.encode("ascii").ljust(40).hex() == wanted[3:], (text, option, row, wanted)
        kinds["rows"] += 1
    else:
        _, place, why = wanted.split()
        column = 6 + len(text[:int(place)].replace("\\", "\\\\").replace('"', '\\"'))
        said = run(program, 1, "compose", "row.toml", "out.toml")
        assert said.startswith(f"row.toml:8:{column}: error: ") and WORDS[why] in said, (text, option, said, wanted)
        kinds["rows refused"] += 1


def check_codes(program, rng):
    """Rows of any codes, decomposed, are what the model reads as these codes."""
    weights = [rng.random() < 0.6 for _ in range(40)]
    row = [rng.choice([10, 11, 1, 0x11, rng.randrange(32)]) if not w else rng.choice([0x20, rng.randrange(0x20, 0x80)]) for w in weights]
    row = bytes(row[: rng.randrange(1, 41)])
    option = rng.randrange(8)
    quoted = "".join(f"\\u{code:04X}" for code in row)
    save("codes.toml", f'lines = 2\nserial = true\n[[page]]\nnumber = "100"\noption = {option}\n[page.rows]\n1 = "{quoted}"\n')
    said = run(program, 0, "decompose", "codes.toml", "back.toml")
    assert said == "decomposed 1 pages\n", (row, said)
    text = tomllib.loads(read("back.toml"))["page"][0]["rows"]["1"]
    assert codes(text, option) == "ok " + row.ljust(40).hex(), (row, option, text)
    assert composed(program, "back.toml", "again.toml")[1]["page"][0]["rows"]["1"].encode("ascii") == row, (row, text)


def main():
    program = os.path.abspath(sys.argv[1])
    kinds = dict.fromkeys(["composed", "refused", "mistakes", "rows", "rows refused"], 0)
    with tempfile.TemporaryDirectory() as folder:
        os.chdir(folder)
        rng = random.Random(4949)
        for _ in range(300):
            check_text(program, rng, kinds)
        rng = random.Random(49)
        for case in range(300):
            option, text = (some_text if case % 2 else mixed_text)(rng)
            check_row(program, option, text, kinds)
        for _ in range(300):
            check_codes(program, rng)
        os.chdir("/")
    print("authors:", ", ".join(f"{count} {kind}" for kind, count in kinds.items()) + ", 300 rows of codes; none failed")


if __name__ == "__main__":
    if len(sys.argv) != 2:
        sys.exit(__doc__)
    main()
