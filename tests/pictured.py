#!/usr/bin/env python3
"""Compares what `replay --as text` and `--as html` say of counter-runs with a plain model, byte for byte.

usage: pictured.py PROGRAM [CASES]

The counter-runs are those that `refute` finds in the small cycles of refute.py, and runs of the test data in which a receiver misses many
packets. Pages have only letters and spaces, so what is shown is what is held. The sentences come from the counter-run and a plain receiver
(plain_receiver.py), the pictures from book_page.py: which slots, fields and packets are named, which rows and links differ.
"""
import random
import re
import subprocess
import sys
import tempfile
from collections import Counter
from dataclasses import dataclass
from pathlib import Path

sys.dont_write_bytecode = True
from book_page import KEYS, SHEET, cells, escaped, key, picture  # noqa: E402
from make_data import counter as counter_text  # noqa: E402
from plain_receiver import SPACES, Receiver, packet_in, shown  # noqa: E402
from refute import certificate, made, read_counter  # noqa: E402
from report_page import STYLE  # noqa: E402

DATA = Path(__file__).resolve().parent / "data"
KINDS = {"a wrong bit", "a choice", "any subpage", "links", "a row", "a long list"}
MOST = 20
FIGURES = (
    ".b{display:flex;flex-wrap:wrap;gap:1em;margin-top:1em}figure{flex:1 1 18em;margin:0}figcaption{font-weight:bold;padding-bottom:.4em}"
    ".p{position:relative}.p i{position:absolute;top:0;left:0;right:0;padding-top:3%;outline:2px solid #d0a}"
    "nav{-webkit-print-color-adjust:exact;print-color-adjust:exact}nav a{pointer-events:none}"
)


class Noting(Receiver):
    """A receiver that notes the choices that it takes: the slot of the run, and how many slots its header is behind."""

    def __init__(self, counter, page):
        super().__init__(counter, page)
        self.index, self.taken = -1, []

    def hear(self, slot):
        self.index += 1
        super().hear(slot)

    def choose(self):
        chosen = super().choose()
        if chosen:
            self.taken.append((self.index, self.age))
        return chosen


def seconds(fields):
    return f"{fields // 50}.{fields % 50 * 2:02d}"


def name_of(page):
    mag, number, sub = page["id"]
    return f"{mag}{number:02X}/{sub:04X}"


def hits_of(counter):
    places = counter["hits"][1:]
    return [tuple(places[i : i + 3]) for i in range(0, len(places), 3)]


def byte_name(slot, byte):
    kind, mag, more = packet_in(slot)
    if kind == "header":
        return f"row 0 of magazine {mag}, " + (f"column {byte - 2}" if byte >= 10 else f"byte {byte}")
    if kind == "row":
        return f"row {more} of magazine {mag}, " + (f"column {byte - 2}" if byte >= 2 else f"byte {byte}")
    return (f"links of magazine {mag}" if kind == "links" else "another packet") + f", byte {byte}"


def choice_name(slot, age, own):
    kind, mag, more = packet_in(slot)
    if kind == "header":
        return f"header of magazine {mag}, " + ("cleared what it held" if mag == own else "taken for the end of the page")
    packet = f"row {more}" if kind == "row" else "links"
    return f"{packet} of magazine {mag}, missed; slots behind its header: {age}"


def listed(items):
    rest = [f"and {len(items) - MOST} more"] if len(items) > MOST else []
    return [(item, True) for item in items[:MOST] + rest]


@dataclass
class Side:
    """A page that is shown: 25 rows of 40 codes, and six links."""

    rows: list[list[int]]
    six: list[tuple[int, int, int] | None]


@dataclass
class Failure:
    """The sentences, each with whether it is an item of a list; the page as shown and as authored; the rows that differ."""

    told: list[tuple[str, bool]]
    held: Side
    own: Side
    marked: list[int]


def side_of(rows, control, six, row_24):
    """All columns of what is displayed. Columns 0 to 7 of row 0 belong to the receiver and stay empty."""
    _, middle, links = shown(rows, control, six, row_24)
    return Side([SPACES if control >> 3 & 1 else [*SPACES[:8], *rows[0][8:]], *middle], links)


def received_of(counter, cycle):
    """The slots that are received, and a sentence for each wrong bit."""
    start, lines, period = counter["start"][0], counter["lines"][0], len(cycle)
    received = [bytearray(cycle[(start + i) % period]) for i in range(counter["slots"][0])]
    wrong = []
    for index, byte, bit in hits_of(counter):
        sent = cycle[(start + index) % period]
        received[index][byte] ^= 1 << (bit - 1)
        bytes_of = f"sent {sent[byte]:02X}, received {sent[byte] ^ 1 << (bit - 1):02X}"
        wrong.append(f"{moment(start, period, lines, index)}: {byte_name(sent, byte)}: {bytes_of}")
    return received, wrong


def place(slot, lines):
    return f"slot {slot}, field {slot // lines}"


def moment(start, period, lines, n):
    return f"{place((start + n) % period, lines)}, {seconds(n // lines)} s after tuning"


def told_of(counter, cycle, page, wrong, taken):
    """The sentences before the last one."""
    lines, repeat, deadline = (counter[word][0] for word in ("lines", "repeat", "deadline"))
    start, slots, period, name = counter["start"][0], counter["slots"][0], len(cycle), name_of(page)
    told = [
        (f"A receiver that keeps all rules does not show page {name} as it was authored.", False),
        (f"It is set to page number {name[:3]}, whatever the subpage." if counter["any-subpage"][0] else f"It is set to page {name}.", False),
        (f"It is tuned at {place(start % period, lines)} of the cycle.", False),
        ("Anything that it has not received since then is left over from before.", False),
        (f"Bytes received wrong: {len(wrong)}.", False),
    ]
    if wrong:
        rule = f"One bit of a byte may be wrong; of {repeat} successive transmissions of a character one is received right."
        told.append((rule if repeat > 1 else "One bit of a byte may be wrong, but each character is received right.", False))
        told += listed(wrong)
    told.append((f"Packets missed, and other choices: {len(taken)}.", False))
    if taken:
        may = f"A receiver may miss a row or links up to {lines} slots behind their header, clear what it holds at the first header of its page, "
        told.append((may + "and take a header of another magazine with C11 for the end of the page.", False))
        sent = [(index, cycle[(start + index) % period], age) for index, age in taken]
        told += listed([f"{moment(start, period, lines, index)}: {choice_name(slot, age, page['id'][0])}" for index, slot, age in sent])
    limit = deadline * lines
    passes = f"The deadline of {deadline} fields ({seconds(deadline)} s) passes at {place((start + limit) % period, lines)} of the cycle, "
    return [*told, (passes + f"{limit} slots after tuning; {slots} slots are received.", False)]


def failure_of(counter, cycle, page):
    received, wrong = received_of(counter, cycle)
    receiver = Noting(counter, page)
    for slot in received:
        receiver.hear(bytes(slot))
    held = side_of(receiver.rows, receiver.control, receiver.six, receiver.row_24)
    own = side_of([[*SPACES[:8], *page["head"], *SPACES[:8]], *page["rows"]], page["control"], [None] * 6, 0)
    pairs = [both if n else (both[0][8:32], both[1][8:32]) for n, both in enumerate(zip(held.rows, own.rows))]
    marked = [n for n, both in enumerate(pairs) if both[0] != both[1]]
    names = [f"row {n}, " for n in marked] + ["links, "] * (held.six != own.six)
    told = told_of(counter, cycle, page, wrong, receiver.taken)
    return Failure([*told, (f"It shows otherwise: {''.join(names)}as marked below.", False)], held, own, marked)


def link_name(link):
    mag, number, sub = link
    return f"{mag}{number:02X}" + (f"/{sub:04X}" if sub != 0x3F7F else "")


def text_of(failure):
    """The output of `replay --as text`."""
    heads, marked = [*(f"{n:2}  " for n in range(25)), " " * 4], [*failure.marked]
    marked += [25] if failure.held.six != failure.own.six else []
    sides = []
    for side in (failure.own, failure.held):
        rows = ["".join(map(chr, row)).rstrip() for row in side.rows]
        sides.append([*rows, " ".join(["links", *(link_name(link) if link else "-" for link in side.six)])])
    lines = [f"{'  ' * item}{words}\n" for words, item in failure.told]
    lines.append(f"\n      {'as authored':40} | as the receiver shows it\n")
    for n, (head, left, right) in enumerate(zip(heads, *sides)):
        lines.append(f"{'*' if n in marked else ' '} {head}{left:40} | {right}\n")
    return "".join(lines)


def figure(caption, side, marked):
    """A page of letters and spaces with its links, and a frame round each row that is marked."""
    drawn = [cells(row) for row in side.rows]
    keys = "".join(key(*one, link and link_name(link)) for one, link in zip(KEYS, side.six))
    text = "".join(escaped("".join(c for c, _, _ in row).rstrip()) + "\n" for row in drawn)
    frames = "".join(f'<i style="margin-top:{3 * number}%"></i>' for number in marked)
    return (
        f'<figure><figcaption>{caption}</figcaption><div class="p">{picture(drawn)}<nav>{keys}</nav>'
        f"<details><summary>Text</summary><pre>{text}</pre></details>{frames}</div></figure>\n"
    )


def html_of(failure):
    """The output of `replay --as html`."""
    tags = ("p", "li")
    lines = "".join(f"<{tags[item]}>{words}</{tags[item]}>\n" for words, item in failure.told)
    lines = re.sub(r"(?:<li>.*</li>\n)+", lambda items: f"<ul>\n{items[0]}</ul>\n", lines)
    title = "A receiver that fails"
    return (
        f'<!DOCTYPE html>\n<html lang="en"><head><meta charset="utf-8"/><meta name="viewport" content="width=device-width"/><title>{title}'
        f"</title><style>\n{SHEET}{STYLE}{FIGURES}\n</style></head><body><main><h1>{title}</h1>\n{lines}"
        f'<div class="b">{figure("As authored", failure.own, failure.marked)}'
        f"{figure('As the receiver shows it', failure.held, failure.marked)}</div>\n</main></body></html>\n"
    )


def run(program, *words):
    done = subprocess.run([program, *words], capture_output=True, text=True, timeout=60)
    return done.returncode, done.stdout, done.stderr


def answer(program, seed, beginnings, *words):
    """The status of a command for a case, and its line, which begins in one way with status 0 and in another one with status 1. Anything else ends
    the test."""
    status, line, errors = run(program, *words)
    if status not in (0, 1) or errors or not line.startswith(beginnings[status]):
        sys.exit(f"FAILED case {seed}: {words[0]} says {status} {line!r} {errors!r}")
    return status, line


def replay_fails(program, names, cycle, page):
    """What is wrong with the pictures of a counter-run, and what there is to say of it."""
    counter = read_counter(Path(names[2]).read_text())
    failure = failure_of(counter, cycle, page)
    for form, wanted in (("text", text_of(failure)), ("html", html_of(failure))):
        told = run(program, "replay", *names, "--as", form)
        if told != (0, wanted, ""):
            return f"--as {form} says {told} and not {wanted!r}", set()
    words = {"a wrong bit": counter["hits"][0], "a choice": counter["choices"][0], "any subpage": counter["any-subpage"][0]}
    kinds = {kind for kind, count in words.items() if count}
    kinds |= {"links"} if failure.held.six != failure.own.six else set()
    kinds |= {"a row"} if failure.marked else set()
    return None, kinds | ({"a long list"} if any(words.startswith("and ") for words, _ in failure.told) else set())


def found_case(program, folder, seed):
    """The names of the files of a counter-run for a generated cycle, the cycle and the page, or None if there is none."""
    rng = random.Random(seed)
    (text, pages, cycle, lines), repeat = made(rng), rng.choice([1, 1, 2, 3])
    (folder / "cycle.t42").write_bytes(b"".join(cycle))
    (folder / "service.toml").write_text(text)
    names = [str(folder / name) for name in ("cycle.t42", "service.toml", "found.cert", "counter")]
    status, line = answer(program, seed, ("found deadline ", "no "), "find", *names[:3], "--repeat", str(repeat))
    deadline = int(line.split()[-1]) - 1 if status == 0 else 30
    if deadline == 0:
        return None
    Path(names[2]).write_text(certificate(lines, repeat, deadline))
    status, _ = answer(program, seed, ("none\n", "counter "), "refute", *names[:3], "--save", names[3])
    if status == 0:
        return None
    page = pages[read_counter(Path(names[3]).read_text())["page"][0]]
    return [*names[:2], names[3]], cycle, page


def missing_case(folder, any_subpage):
    """A receiver, set to page 100 of the test data or to its number, that misses row 1 again and again, more often than is listed."""
    cycle = (DATA / "row-near-header.t42").read_bytes()
    text = counter_text(0, 27 * 60, 27, 1, [1] * 60, code=0x58, control=0)
    (folder / "missing").write_text(text.replace("any-subpage 0", f"any-subpage {any_subpage:d}"))
    page = {"id": (1, 0, 0), "control": 128, "head": SPACES[:24], "rows": [SPACES] * 24}
    names = [str(DATA / "row-near-header.t42"), str(DATA / "base.toml"), str(folder / "missing")]
    return names, [cycle[at : at + 42] for at in range(0, len(cycle), 42)], page


def main():
    program, cases = sys.argv[1], int(sys.argv[2]) if len(sys.argv) > 2 else 150
    kinds, compared, failed = Counter(), 0, 0
    with tempfile.TemporaryDirectory() as name:
        folder = Path(name)
        for seed in ["one page", "a number", *range(cases)]:
            case = found_case(program, folder, seed) if isinstance(seed, int) else missing_case(folder, seed == "a number")
            if case is None:
                continue
            why, some = replay_fails(program, *case)
            kinds.update(some)
            compared += 1
            if why:
                failed += 1
                print(f"FAILED case {seed}: {why}")
    print(f"pictured: {compared} counter-runs, {failed} failed;", ", ".join(f"{count} {kind}" for kind, count in sorted(kinds.items())))
    return 1 if failed or not KINDS <= kinds.keys() else 0


if __name__ == "__main__":
    sys.exit(main())
