#!/usr/bin/env python3
"""Checks that the pages of a splice are seen: pairs of cycles that the program accepts as a splice are joined, and received around the change
from every slot of a period on either side, by each kind of receiver that the program has, with a former memory full of another page, and
with errors within the error rule; and by plain receivers with scripts, with former memories of any kind. At the deadline and later the
page must be displayed as from its own cycle, ignoring the header clock.

usage: spliced.py PROGRAM
"""
import os
import random
import subprocess
import sys
import tempfile
from pathlib import Path

sys.dont_write_bytecode = True
from plain_receiver import Receiver, shown  # noqa: E402

TOP = Path(__file__).resolve().parent.parent
WORDS = bytes.fromhex("1502495e6473382fd0c78c9ba1b6fdea")
EMPTY = bytes(42)
LINES = 2
KINDS = ("eager", "careful", "cleared")

# the old and the new cycle, each with the slots by which it is turned; repeat; deadline
PAIRS = [
    ("base", 0, "base", 0, 1, 27), ("base", 0, "base", 10, 1, 36), ("base", 10, "base", 0, 1, 54), ("base", 5, "base", 5, 1, 27),
    ("base", 0, "base", 27, 1, 54), ("base", 27, "base", 1, 1, 54), ("base", 13, "base", 20, 1, 54), ("base", 0, "base", 0, 2, 41),
    ("base", 10, "base", 3, 2, 82), ("base", 0, "two-pages", 0, 1, 68),
]


def slots_of(name, turn):
    """The slots of a file of tests/data, turned."""
    data = (TOP / "tests/data" / f"{name}.t42").read_bytes()
    slots = [data[at : at + 42] for at in range(0, len(data), 42)]
    return slots[turn:] + slots[:turn]


def is_text(slot, at):
    """Whether the byte is a text byte, for which the repeat count holds."""
    number = WORDS.index(slot[0]) // 8 + 2 * WORDS.index(slot[1])
    return 10 <= at < 34 if number == 0 else number < 25 and at >= 2


def with_errors(slot, text_is_right):
    """One wrong bit in each byte, except in text bytes that must be right."""
    if slot == EMPTY:
        return slot
    wrong = (byte ^ 1 << at % 8 for at, byte in enumerate(slot))
    return bytes(slot[at] if text_is_right and is_text(slot, at) else byte for at, byte in enumerate(wrong))


def full_page(page):
    """A memory with 7F at all places, which is storing."""
    address = lambda number: bytes([WORDS[1 + 8 * (number % 2)], WORDS[number // 2]])
    head = address(0) + bytes(WORDS[n] for n in (page % 16, page // 16, 0, 0, 0, 0, 8, 15))
    link = bytes(WORDS[n] for n in (0, 0, 15, 7, 15, 3))
    links = address(27) + bytes([WORDS[0]]) + link * 6 + bytes([WORDS[15], 0, 0])
    rows = [address(number) + bytes([0x7F] * 40) for number in range(1, 25)]
    return [head + bytes([0x7F] * 32), EMPTY, EMPTY, *rows, links]


def scripted(rng, page):
    """A receiver set to the page, with a random former memory and random choices."""
    links = [rng.choice([(0, 0, 0), (1, rng.randrange(255), 0)]) for _ in range(6)]
    former = {
        "lines": [LINES], "rows": [[rng.choice((32, 65, 90)) for _ in range(40)] for _ in range(25)], "control": [rng.randrange(1024) << 1],
        "links": [n for link in links for n in link], "row-24": [rng.randrange(2)], "storing": [rng.randrange(2)], "age": [rng.randrange(65)],
        "fresh": [rng.randrange(2)], "any-subpage": [0], "choices": [0, *(rng.randrange(2) for _ in range(400))],
    }
    return Receiver(former, {"id": (1, int(page[1:], 16), 0)})


def displayed(receiver):
    return shown(receiver.rows, receiver.control, receiver.six, receiver.row_24)


class Spliced:
    """An accepted pair, and what is received of it."""

    def __init__(self, program, folder, pair):
        self.program, self.folder = program, folder
        old, old_turn, new, new_turn, self.repeat, self.deadline = pair
        self.old, self.new = slots_of(old, old_turn), slots_of(new, new_turn)
        self.names = old, new
        words = []
        for side, slots, name in (("old", self.old, old), ("new", self.new, new)):
            (folder / f"{side}.t42").write_bytes(b"".join(slots))
            service = TOP / "tests/data" / f"{name}.toml"
            self.run("find", f"{side}.t42", service, f"{side}.cert", "--repeat", str(self.repeat))
            text = (folder / f"{side}.cert").read_text().split("\n")
            text[3] = f"deadline {self.deadline}"
            (folder / f"{side}.cert").write_text("\n".join(text))
            words.append(service)
        self.verdict = self.run("splice", "old.t42", "new.t42", *words, "old.cert", "new.cert")

    def run(self, *words):
        """What the program prints. A status other than 0 or an error ends the test."""
        done = subprocess.run([self.program, *words], cwd=self.folder, capture_output=True, text=True, check=False)
        if done.returncode or done.stderr:
            sys.exit(f"FAILED {self.names}: {' '.join(map(str, words))}: status {done.returncode}, {done.stdout[:80]!r} {done.stderr[:200]!r}")
        return done.stdout

    def sent(self, at):
        """A slot of the joined stream; every other transmission of a text byte is right."""
        side = self.new if at >= 0 else self.old
        return with_errors(side[at % len(side)], self.repeat == 1 or at // len(side) % 2 == 0)

    def view(self, name, page, slots, kind):
        """What is displayed after this many slots, without the receiver's own columns and the clock."""
        lines = self.run("receive", name, page, "--lines", str(LINES), "--slots", str(slots), "--kind", kind).splitlines()
        if [line.split(" ")[0] for line in lines] != ["row"] * 25 + ["links"]:
            sys.exit(f"FAILED {self.names}: receive {page} prints {lines[:2]}")
        first = lines[0].split(" ")
        return [first[:2] + first[10:34], *lines[1:]]

    def misses(self, page, wanted, tuning, begin):
        """How often the page is not displayed, at the deadline after slot `begin` and later."""
        last = begin + self.deadline * LINES + 17
        ends = (last - 17 - tuning, last - tuning)
        full = full_page(int(page[1:], 16))
        missed = 0
        # the receiver is storing when it is tuned, or not until a header of the page comes
        for former in (full, [*full, *full_page(0xFE)[:1]]):
            (self.folder / "joined.t42").write_bytes(b"".join([*former, *(self.sent(at) for at in range(tuning, last))]))
            missed += sum(self.view("joined.t42", page, len(former) + n, kind) != wanted for kind in KINDS for n in ends)
        return missed

    def scripted_misses(self, page, tuning, begin):
        """The same for three receivers with scripts, after each slot from the deadline on."""
        own = scripted(random.Random(0), page)
        for at in range(3 * len(self.new)):
            own.hear(self.new[at % len(self.new)])
        rng = random.Random(f"{page} {tuning} {begin}")
        end, missed = begin + self.deadline * LINES, 0
        for receiver in (scripted(rng, page) for _ in range(3)):
            for at in range(tuning, end + 17):
                receiver.hear(self.sent(at))
                missed += at + 1 >= end and displayed(receiver) != displayed(own)
        return missed

    def all_misses(self):
        missed = 0
        for page in ("100", "101") if self.names[1] == "two-pages" else ("100",):
            wanted = self.view("new.t42", page, 5000, "eager")
            for tuning in range(-len(self.old), len(self.new)):
                begin = tuning if page == "100" else max(tuning, 0)
                missed += self.misses(page, wanted, tuning, begin) + self.scripted_misses(page, tuning, begin)
        return missed


def main():
    program = os.path.abspath(sys.argv[1])
    failed = 0
    for pair in PAIRS:
        with tempfile.TemporaryDirectory() as folder:
            spliced = Spliced(program, Path(folder), pair)
            missed = spliced.all_misses()
        if spliced.verdict != "yes\n" or missed:
            failed += 1
            print(f"{pair}: {spliced.verdict.strip()}, {missed} times not displayed")
    print(f"spliced: {len(PAIRS)} pairs, {failed} failed")
    sys.exit(failed != 0)


main()
