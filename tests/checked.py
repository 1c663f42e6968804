#!/usr/bin/env python3
"""Runs `check` over random service texts. The expected warnings come from a plain reader in this script, which knows what it wrote. For a
text with one mistake, the line must name the place where the mistake was written. The long report has the same warnings, or the same first
mistake, each with the line of its place and a caret. Of a key that is given twice it tells both places.

usage: checked.py PROGRAM [COUNT]
"""
import random
import re
import subprocess
import sys
from collections import Counter

TAKES = {
    "service": "lines serial info page".split(),
    "info": "designation initial network halves mjd utc text".split(),
    "page": "number sub often within stays option newsflash subtitle suppress update interrupted inhibit head rows links row24 crc".split(),
}
FIRST = {"number": "100", "sub": "0000", "often": 1, "newsflash": False, "subtitle": False, "inhibit": False, "head": "", "rows": {}, "links": [], "row24": False}
CODES = "AB \t\n\n\b\v\v\r#[_\x11\x02"
# What options 0 and 1 show in place of ASCII.
SHOWN = {0: dict(zip("#[\\]^_`{|}~", "£←½→↑#\u2015¼\u2016¾÷")), 1: dict(zip("@[\\]`{|}~", "§ÄÖÜ°äöüß"))}


def value_text(value):
    if isinstance(value, bool):
        return str(value).lower()
    if isinstance(value, str):
        return '"' + "".join(c if " " <= c and c not in '"\\' else f"\\u{ord(c):04X}" for c in value) + '"'
    if isinstance(value, list):
        return "[" + ", ".join(map(value_text, value)) + "]"
    return str(value)


def key_text(key):
    return key if re.fullmatch("[A-Za-z0-9_-]+", key) else f'"{key}"'


class Text:
    """A text, and the places of its values. The key at the path `twice` is given again at the end of its table; `given` has both places."""

    def __init__(self, twice=None):
        self.text, self.places = "", {}
        self.twice, self.given = twice, []

    def add(self, more):
        self.text += more

    def key(self, path, words):
        if path == self.twice:
            self.given.append(len(self.text))
        self.add(words)

    def again(self, path, before, words, after):
        if self.twice and self.twice[:-1] == path and self.given:
            self.add(before)
            self.key(self.twice, f"{words}{key_text(self.twice[-1])} = 1{after}")

    def value(self, path, value, inline):
        self.places[path] = len(self.text)
        if isinstance(value, dict):
            self.add("{")
            for at, (key, inner) in enumerate(value.items()):
                self.add(", " if at else " ")
                self.key((*path, key), key_text(key) + " = ")
                self.value((*path, key), inner, inline)
            self.again(path, ", ", "", "")
            self.add(" }")
        elif isinstance(value, list):
            self.add("[")
            for at, inner in enumerate(value):
                self.add((", " if at else "") + ("\n  # a remark, ] = \"\n  " if inline and random.random() < 0.2 else ""))
                self.value((*path, at + 1), inner, inline)
            self.add("]")
        else:
            self.add(value_text(value))

    def table(self, path, table, below):
        for key, value in table.items():
            if isinstance(value, dict) and value and random.random() < below:
                for inner, text in value.items():
                    self.key((*path, key, inner), f"{key_text(key)} . {key_text(inner)} = ")
                    self.value((*path, key, inner), text, True)
                    self.add("\n")
                self.again((*path, key), "", f"{key}.", "\n")
                continue
            self.key((*path, key), f"{key_text(key)}{random.choice(['=', ' = '])}")
            self.value((*path, key), value, True)
            self.add(random.choice(["\n", " # 'a' remark\n", "\n\n"]))
        self.again(path, "", "", "\n")

    def line(self, path, label, words):
        before = self.text[:self.places[path]]
        return f"line {before.count(chr(10)) + 1} column {len(before) - before.rfind(chr(10))} {label}: {words}\n"


def written(service, inline, twice=None):
    text = Text(twice)
    text.add(random.choice(["", "# [[page]]\n", "\n"]))
    top = {key: value for key, value in service.items() if key not in ("page", "info")}
    text.table((), top, 0)
    if inline and "page" in service:
        text.add("page = ")
        text.value(("page",), service["page"], True)
        text.add("\n")
    if "info" in service:
        text.places[("info",)] = len(text.text)
        text.add("[info]\n")
        text.table(("info",), service["info"], 0)
    for at, page in enumerate(() if inline else service.get("page", ())):
        text.places[("page", at + 1)] = len(text.text)
        text.add("[[page]]\n")
        apart = isinstance(page.get("rows"), dict) and random.random() < 0.4
        text.table(("page", at + 1), {key: value for key, value in page.items() if not (apart and key == "rows")}, 0.5)
        if apart:
            text.places[("page", at + 1, "rows")] = len(text.text)
            text.add("[page.rows]\n")
            text.table(("page", at + 1, "rows"), page["rows"], 0)
    return text


def random_page(number, sub):
    page = {"number": number} | ({"sub": sub} if sub != "0000" or random.random() < 0.3 else {})
    if random.random() < 0.4:
        page["often"] = random.choice([1, 2, 4, 8])
    if random.random() < 0.3:
        page["stays"] = random.choice([0.02, 1, 2, 2.98, 3, 3.0, 8.5, 60.0, 20000])
    for key in ("newsflash", "subtitle", "inhibit", "row24"):
        if random.random() < 0.2:
            page[key] = random.random() < 0.7
    if random.random() < 0.3:
        page["option"] = random.randrange(2)
    if random.random() < 0.6:
        rows = sorted(random.sample(range(1, 25), random.randrange(1, 6)))
        page["rows"] = {str(row): "".join(random.choices(CODES, k=random.randrange(12))) for row in rows}
    if random.random() < 0.4:
        links = ["", "100", "101/0001", "200", "7AB/0001", "100/3F7F"]
        page["links"] = random.choices(links, k=random.randrange(7))
    if random.random() < 0.2:
        page["head"] = "".join(random.choices("A\v[", k=6))
    items = list(page.items())
    random.shuffle(items)
    return dict(items)


def random_service():
    service = {"lines": random.randrange(1, 33), "serial": random.random() < 0.5}
    if random.random() < 0.4:
        service["info"] = {"network": "0000", "mjd": 1, "utc": 1} | ({"initial": random.choice(["", "100", "200", "300/0001"])} if random.random() < 0.7 else {})
    ids = random.sample([(number, sub) for number in ("100", "101", "200", "2AB") for sub in ("0000", "0001", "0002")], random.randrange(7))
    if ids or random.random() < 0.5:
        service["page"] = [random_page(*one) for one in ids]
    return service


def distance(a, b):
    best = {(0, n): n for n in range(len(b) + 1)} | {(n, 0): n for n in range(len(a) + 1)}
    for x in range(1, len(a) + 1):
        for y in range(1, len(b) + 1):
            best[x, y] = min(best[x - 1, y] + 1, best[x, y - 1] + 1, best[x - 1, y - 1] + (a[x - 1] != b[y - 1]))
    return best[len(a), len(b)]


def home(key):
    """Where a key stands that another table has."""
    for kind, place in (("page", "in [[page]], above [page.rows]"), ("service", "above [info] and [[page]]")):
        if key in TAKES[kind]:
            return f": it stands {place}"
    if key in map(str, range(1, 25)):
        return ": it stands in [page.rows]"
    return ": it stands in [info]" if key in TAKES["info"] else ""


def key_lines(place, kind, table):
    for key in sorted(set(table) - set(TAKES[kind])):
        near = [name for most in (1, 2)[:1 + (len(key) >= 5)] for name in TAKES[kind] if len(key) <= 16 and distance(key, name) <= most]
        yield f"warning {place}: no key {key}" + (home(key) or (f": is it {near[0]}?" if near else "")) + "\n"


def identity(page):
    return page["number"] + "/" + page.get("sub", "0000")


def filled(page):
    """Rows 1 to 24 by number, and the rows that double height hides."""
    rows = {number: page.get("rows", {}).get(str(number), "").ljust(40) for number in range(1, 25)}
    hidden = set()
    for number in range(1, 23):
        if number not in hidden and "\r" in rows[number]:
            hidden.add(number + 1)
    return rows, hidden


def packets(page):
    _rows, hidden = filled(page)
    shown = 0 if page.get("inhibit") else 23 - len(hidden) + bool(page.get("row24"))
    return page.get("often", 1) * (2 + shown)


def is_there(link, pages):
    number, _, sub = link.partition("/")
    return any(page["number"] == number and (sub in ("", "3F7F") or identity(page) == link) for page in pages)


def behind(pages, serial):
    """How often each page comes directly behind another subpage of its number in its magazine, and behind itself."""
    order = [page for turn in range(8) for page in pages if turn % (8 // page.get("often", 1)) == 0]
    subpages, copies = Counter(), Counter()
    for magazine in "12345678":
        queue = [page for page in order if page["number"][0] == magazine]
        for first, second in zip(queue, queue[1:]):
            if first["number"] == second["number"] and first is not second:
                subpages[identity(second)] += 1
            if first is second and not serial:
                copies[identity(second)] += 1
    if serial:
        copies = Counter(identity(second) for first, second in zip(order, order[1:]) if first is second)
    return subpages, copies


def sign_lines(place, page, text):
    """Lines about characters that are shown otherwise, escapes in single quotation marks, and boxes without an end."""
    option, mosaic = page.get("option", 0), False
    for c in text:
        if c in SHOWN[option] and (not mosaic or "@" <= c < "`"):
            yield f"warning {place}: {c} is shown as {SHOWN[option][c]} under option {option}\n"
            break
        mosaic = ord(c) >= 8 and ("\x10" <= c < "\x18" or mosaic)
    if re.search(r"\\u[0-9A-Fa-f]{4}", text):
        yield f"warning {place}: \\u is an escape only in double quotation marks\n"
    starts = [at for at in range(len(text) - 1) if text[at:at + 2] == "\v\v"]
    ends = [at for at in range(len(text) - 1) if text[at:at + 2] == "\n\n"]
    if starts and starts[-1] > max(ends, default=-1):
        yield f"warning {place}: the box has no end: code 0A twice ends it\n"


def row_lines(place, page):
    rows, hidden = filled(page)
    for number, row in rows.items():
        if number in hidden and row.strip(" "):
            yield f"warning {place} row {number}: double height in the row above hides it\n"
        if number == 24 and row.strip(" ") and not page.get("row24"):
            yield f"warning {place} row 24: it is shown only with row24 = true\n"
        if "\t" in row.split("\b")[0]:
            yield f"warning {place} row {number}: code 09 does nothing before a flash: is it a tab?\n"
        if "\n" in row.split("\v")[0]:
            yield f"warning {place} row {number}: code 0A does nothing before a box: is it a line break?\n"
        yield from sign_lines(f"{place} row {number}", page, row)


def page_lines(page, pages, subpages, copies):
    name = identity(page)
    place = f"page {name}"
    for number, link in enumerate(page.get("links", [])):
        if link and not is_there(link, pages):
            yield f"warning {place} link {number + 1}: the service has no such page\n"
    yield from sign_lines(f"{place} head", page, page.get("head", ""))
    yield from row_lines(place, page)
    if page.get("row24") and not page.get("rows", {}).get("24", "").strip(" "):
        yield f"warning {place} row24: row 24 is blank\n"
    for key, digits in (("number", page["number"]), ("sub", page.get("sub", "0000"))):
        if re.search("[A-F]", digits):
            yield f"warning {place} {key}: no remote control dials the digits A to F\n"
    boxed = any("\v\v" in text for text in [page.get("head", ""), *page.get("rows", {}).values()])
    if (page.get("newsflash") or page.get("subtitle")) and not boxed:
        yield f"warning {place}: a newsflash or subtitle without a box shows nothing\n"
    if subpages[name]:
        yield f"warning {place}: sent directly behind another subpage, which receivers that show late then miss, but for plan --late\n"
    if copies[name]:
        yield f"warning {place}: often doesn't help: it is sent directly behind itself {copies[name]} times\n"


def stay_lines(service, numbers):
    """Lines about numbers with several pages that have no stay of three seconds, and about stays that no plan keeps."""
    pages = service.get("page", [])
    stays = [(page, int(page["stays"] * 1e6 + 0.5) // 20000) for page in pages if "stays" in page]
    for number, count in numbers.items():
        kept = any(page["number"] == number and fields >= 150 for page, fields in stays)
        if count > 1 and not kept:
            yield f"warning number {number}: its {count} pages may change before they are read: give one stays = 3.0 or more, and plan --spread\n"
    for page, fields in stays:
        count = numbers[page["number"]]
        slots = count * fields * service["lines"]
        if count == 1:
            yield f"warning page {identity(page)} stays: no other page has its number\n"
        elif slots > 65536:
            yield f"warning page {identity(page)} stays: the {count} pages of its number take {slots} slots, and a cycle has at most 65536\n"


def lines(service):
    pages = service.get("page", [])
    yield from key_lines("service", "service", service)
    yield from key_lines("info", "info", service.get("info", {}))
    for page in pages:
        yield from key_lines(f"page {identity(page)}", "page", page)
    initial = service.get("info", {}).get("initial", "")
    if initial and not is_there(initial, pages):
        yield "warning info initial: the service has no such page\n"
    subpages, copies = behind(pages, service["serial"])
    for page in pages:
        yield from page_lines(page, pages, subpages, copies)
    if service["serial"]:
        total = sum(map(packets, pages))
        for magazine in "12345678":
            own = sum(packets(page) for page in pages if page["number"][0] == magazine)
            if total < 2 * own and own < total:
                yield f"warning magazine {magazine}: it has more than half of all packets: compare ttx wait with serial = false\n"
    yield from stay_lines(service, Counter(page["number"] for page in pages))


def report(service):
    return "".join(lines(service)) or f"ok pages {len(service.get('page', []))}\n"


def misspelt(service):
    """Adds an unknown key."""
    where, kind = random.choice([(service, "service")] + [(page, "page") for page in service.get("page", [])] + ([(service["info"], "info")] if "info" in service else []))
    key = list(random.choice(TAKES[kind]))
    for _edit in range(random.randrange(1, 4)):
        key[random.randrange(len(key)):][:1] = []
        key.insert(random.randrange(len(key) + 1), random.choice("aeiorstn"))
    if "".join(key) not in TAKES[kind]:
        where["".join(key)] = random.choice([1, "a", False])


def mistake(service):
    """One mistake: its path, its name in the line, and the words of the line."""
    pages = service["page"]
    at = random.randrange(len(pages))
    page = pages[at]
    name = f"page {identity(page)}"
    long = random.choice(["A", "é"]) * random.randrange(41, 60)
    kind = random.randrange(12)
    row = str(random.randrange(1, 25))
    path = ("page", at + 1)
    if kind == 0:
        page["rows"] = {row: long}
        return (*path, "rows", row), f"{name} row {row}", f"the text is too long: {len(long)} characters, 40 fit"
    if kind == 1:
        page["rows"] = {row: "Aé"}
        return (*path, "rows", row), f"{name} row {row}", "a character can't be sent"
    if kind == 2:
        page["often"] = 3
        return (*path, "often"), f"{name} often", "often takes 1, 2, 4 or 8"
    if kind == 3:
        page["number"] = random.choice(["1FF", "900", "10", "10a"])
        return (*path, "number"), f"page {at + 1} number", "this names no page"
    if kind == 4:
        page["sub"] = random.choice(["0080", "4000", "3F7F", "1"])
        return (*path, "sub"), f"page {at + 1} sub", "this is no subcode"
    if kind == 5:
        pages.append({"links": [], "number": page["number"], "sub": page.get("sub", "0000")})
        return ("page", len(pages), "number"), f"{name} number", "an earlier page has this number and subcode"
    if kind == 6:
        page["links"] = ["100", "", random.choice(["1FF", "100-0000", "1000"])]
        return (*path, "links", 3), f"{name} link 3", "this names no page"
    if kind == 7:
        page["links"] = ["100/0080"]
        return (*path, "links", 1), f"{name} link 1", "this is no subcode"
    if kind == 8:
        row = random.choice(["25", "2/5", "~1"])
        page["rows"] = {row: ""}
        return (*path, "rows", row), f"{name} row {row}", "rows is out of range: it takes a table of texts of at most 40 characters at keys from \"1\" to \"24\""
    if kind == 9:
        del page["number"]
        return path, f"page {at + 1}", "number is missing: it takes a text: a page number as \"100\""
    if kind == 10:
        service["lines"] = random.choice([33, 0, -1])
        return ("lines",), "lines", "lines is out of range: it takes an integer from 1 to 32"
    page["head"] = 1
    return (*path, "head"), f"{name} head", "head takes another kind of value: it takes a text of at most 24 characters"


def check(program, text, *options):
    done = subprocess.run([program, "check", "-", *options], input=text.encode(), capture_output=True, timeout=60, check=False)
    return done.returncode, done.stdout.decode(), done.stderr.decode()


def number_of(count, word):
    return f"{count} {word}" + "s" * (count != 1)


def long_notes(given, told):
    """The notes of a long report, each as the place, the kind and the words; each has the line of its place and a caret below the column."""
    lines = told.split("\n")
    notes, shown = [], given.split("\n")
    for first, source, caret in zip(lines[0:-2:3], lines[1:-2:3], lines[2:-2:3]):
        line, column, kind, words = re.fullmatch(r"<stdin>:(\d+):(\d+): (error|warning): (.*)", first).groups()
        wanted = shown[int(line) - 1]
        assert source == re.sub(r"[\x00-\x08\x0b-\x1f\x7f]", "?", wanted), (source, wanted)
        assert caret == re.sub("[^\t]", " ", wanted[:int(column) - 1]) + "^", (caret, wanted)
        notes.append((int(line), int(column), kind, words))
    return notes


def long_is_wrong(program, given, want):
    """Whether the long report has other warnings than the short one, or another first error, or whether warnings do not count with --strict."""
    status, told, errors = check(program, given, "--long", "--strict")
    if errors:
        return True
    if want.startswith("ok "):
        return (status, told) != (0, want)
    notes = long_notes(given, told)
    count = sum(kind == "error" for _line, _column, kind, _words in notes)
    if told.split("\n")[-2] != f"{number_of(count, 'error')}, {number_of(len(notes) - count, 'warning')}":
        return True
    if want.startswith("warning "):
        return status != 1 or [f"warning {words}" for *_place, words in notes] != want.split("\n")[:-1]
    line, column, words = re.fullmatch(r"line (\d+) column (\d+) (.*)\n", want).groups()
    first = next(note for note in notes if note[2] == "error")
    # the long report is at the character that is wrong, and says more about it
    return status != 2 or first[0] != int(line) or first[1] < int(column) or first[2] != "error" or not first[3].startswith(words)


def keys_below(path, table):
    """The paths of all keys whose value is no table."""
    for key, value in table.items():
        for at, inner in enumerate(value if key == "page" else [value]):
            below = (*path, key, at + 1) if key == "page" else (*path, key)
            if isinstance(inner, dict):
                yield from keys_below(below, inner)
            else:
                yield below


def told_at(text, place, words):
    """The three lines of a long report about a place."""
    before = text[:place]
    start = before.rfind("\n") + 1
    source = re.sub(r"[\x00-\x08\x0b-\x1f\x7f]", "?", text[start:].split("\n")[0])
    caret = re.sub("[^\t]", " ", before[start:]) + "^"
    return f"<stdin>:{before.count(chr(10)) + 1}:{place - start + 1}: {words}\n{source}\n{caret}\n"


def twice_is_wrong(program, service):
    """Whether the long report on the service with a key given twice does not tell both places."""
    text = written(service, random.random() < 0.3, random.choice(list(keys_below((), service))))
    first, second = text.given
    want = told_at(text.text, second, "error: this isn't TOML: duplicate key") + told_at(text.text, first, "note: the key is first given here")
    told = check(program, text.text, "--long")
    if told == (2, want + "1 error, 0 warnings\n", ""):
        return False
    print(f"{text.text}\nwanted {want}\ntold {told}", file=sys.stderr)
    return True


def main():
    program, count = sys.argv[1], int(sys.argv[2]) if len(sys.argv) > 2 else 300
    random.seed(1)
    failed = 0
    told = Counter()
    for _run in range(count):
        service = random_service()
        if random.random() < 0.4:
            misspelt(service)
        wanted = report(service)
        text = written(service, random.random() < 0.3)
        runs = [(text.text, (0, wanted, ""))]
        if service.get("page"):
            path, label, words = mistake(service)
            if len(path) > 1 and random.random() < 0.3:
                # a key whose name has the slashes of the path
                service["/".join(map(str, path))] = 1
            text = written(service, random.random() < 0.3)
            runs.append((text.text, (2, text.line(path, label, words), "")))
        failed += twice_is_wrong(program, service)
        for given, want in runs:
            told.update(" ".join(line.split()[0:1] + line.split(": ", 1)[-1].split()[:3]) for line in want[1].splitlines())
            if check(program, given) != want:
                failed += 1
                print(f"{given}\nwanted {want}\ntold {check(program, given)}", file=sys.stderr)
            elif long_is_wrong(program, given, want[1]):
                failed += 1
                print(f"{given}\nwanted {want}\ntold {check(program, given, '--long', '--strict')}", file=sys.stderr)
    print(f"checked: {count} services, {failed} failed, {len(told)} kinds of lines")
    sys.exit(failed != 0)


if __name__ == "__main__":
    main()
