#!/usr/bin/env python3
"""Checks that the pages of a schedule of editions are seen: 500 random schedules, in which the program accepts each change and each edition
lasts at least a deadline, received from random slots, with random former memories, by plain receivers with random choices and with errors
within the error rule. From the deadline on, and as long as a page stays, it must be displayed as its service has it.

If an edition lasts only one period, some pages are missed even though both changes are accepted, so the hold is needed. One such schedule
is laid out slot by slot, and others are searched for.

usage: schedules.py PROGRAM
"""
import os
import random
import subprocess
import sys
import tempfile
from pathlib import Path

sys.dont_write_bytecode = True
from make_data import EMPTY, header, links, odd, time_filling  # noqa: E402
from plain_receiver import SPACES, Receiver, packet_in, shown  # noqa: E402

SCHEDULES, FAMILIES = 500, 10
EDITIONS = 14
NEWS = ("Morning", "Midday", "Evening")
INHIBIT = 1 << 6


def head_of(text):
    return odd(text.encode().ljust(32))


class Edition:
    """A cycle by its letters, and its service: page 100 with one of the texts, page 101 if the cycle has its header."""

    def __init__(self, letters, news):
        self.letters, self.news, self.name = letters, news, f"{letters}-{news}"
        of = {
            "H": header(1, 0, 0, INHIBIT, 0, head_of(NEWS[news])), "G": header(1, 1, 0, INHIBIT, 0, head_of("Weather")), "K": links(1),
            "F": time_filling(1, 0), "E": EMPTY,
        }
        self.slots = [of[letter] for letter in letters]
        self.pages = {0: NEWS[news]} | ({1: "Weather"} if "G" in letters else {})

    def service(self, lines):
        pages = "".join(f'[[page]]\nnumber = "10{page}"\ninhibit = true\nhead = "{text}"\n' for page, text in self.pages.items())
        return f"lines = {lines}\nserial = false\n{pages}"


class Family:
    """Editions with the same numbers, and which of their changes the program accepts."""

    def __init__(self, program, folder, lines, repeat, editions=(), deadline=None):
        self.program, self.folder, self.lines, self.repeat = program, folder, lines, repeat
        self.least = {}
        for edition in editions:
            self.find(edition)
        self.deadline = deadline
        self.known = {}

    def run(self, *words):
        """The answer of the program: status 0 with `found ..` or `yes`, or 1 with `no ..`. Anything else ends the test."""
        done = subprocess.run([self.program, *words], cwd=self.folder, capture_output=True, text=True, check=False, timeout=60)
        answers = {0: ("found deadline ", "yes\n"), 1: ("no ",)}
        if not done.stdout.startswith(answers.get(done.returncode, ())) or done.stderr:
            case = f"{self.lines} lines, repeat {self.repeat}: {' '.join(words)}"
            sys.exit(f"FAILED {case}: status {done.returncode}, {done.stdout!r} {done.stderr!r}")
        return done.stdout

    def find(self, edition):
        (self.folder / f"{edition.name}.t42").write_bytes(b"".join(edition.slots))
        (self.folder / f"{edition.name}.toml").write_text(edition.service(self.lines))
        words = (f"{edition.name}.{kind}" for kind in ("t42", "toml", "cert"))
        answer = self.run("find", *words, "--repeat", str(self.repeat)).split()
        if answer[0] == "found":
            self.least[edition] = int(answer[2])

    def grow(self, rng):
        """Random editions; those that keep to the deadline of the middle one are kept."""
        while len(self.least) < EDITIONS:
            letters = "".join(rng.choice("HKFEKEHKEGK") for _ in range(rng.randrange(4, 11)))
            if "H" in letters and "K" in letters:
                self.find(Edition(letters, rng.randrange(len(NEWS))))
        self.deadline = sorted(self.least.values())[EDITIONS // 2] + rng.randrange(2)
        self.least = {e: least for e, least in self.least.items() if least <= self.deadline}

    def verdict(self, old, new):
        """The program's verdict on the change; the certificates have the deadline of the family."""
        if (old, new) not in self.known:
            for edition in (old, new):
                text = (self.folder / f"{edition.name}.cert").read_text().split("\n")
                text[3] = f"deadline {self.deadline}"
                (self.folder / f"{edition.name}.cert").write_text("\n".join(text))
            words = (f"{edition.name}.{kind}" for kind in ("t42", "toml", "cert") for edition in (old, new))
            self.known[old, new] = self.run("splice", *words)
        return self.known[old, new]

    def schedule(self, rng, count, periods):
        """A random schedule of at most this many editions with accepted changes, or None."""
        editions = [rng.choice(list(self.least))]
        while len(editions) < count:
            after = [e for e in self.least if e is not editions[-1] and self.verdict(editions[-1], e) == "yes\n"]
            if not after:
                break
            editions.append(rng.choice(after))
        return Schedule(self, editions, [periods(e) for e in editions[1:]])

    @property
    def limit(self):
        return self.deadline * self.lines


class Schedule:
    def __init__(self, family, editions, periods):
        self.family, self.editions = family, editions
        self.begins = [None, 0]
        for edition, count in zip(editions[1:], periods):
            self.begins.append(self.begins[-1] + count * len(edition.slots))
        self.begins = self.begins[: len(editions)]

    def sent(self, at):
        n = max((n for n in range(1, len(self.editions)) if self.begins[n] <= at), default=0)
        slots = self.editions[n].slots
        return slots[(at - (self.begins[n] or 0)) % len(slots)]

    def stays(self, page, n):
        """The first and the last of the successive editions around this one that have the same page."""
        alike = lambda i: self.editions[i].pages.get(page) == self.editions[n].pages[page]
        low = high = n
        while low > 0 and alike(low - 1):
            low -= 1
        while high + 1 < len(self.editions) and alike(high + 1):
            high += 1
        return low, high

    def end(self, n):
        """The first slot of the next edition, or a slot far away."""
        return self.begins[n + 1] if n + 1 < len(self.editions) else (self.begins[-1] or 0) + 5 * self.family.limit


class Errors:
    """Errors on the way: at most one wrong bit in a byte, and of K successive transmissions of a text at least one is right."""

    def __init__(self, rng, repeat):
        self.rng, self.repeat, self.owner, self.wrong = rng, repeat, {}, {}

    def receive(self, slot):
        kind, mag, more = packet_in(slot)
        if kind == "nothing":
            return slot
        if kind == "header":
            self.owner[mag] = more[0]
        received = bytearray(slot)
        for at in range(42):
            place = mag, self.owner.get(mag), kind, at
            is_text = kind == "header" and 10 <= at < 34
            if self.rng.random() < 0.5 and not (is_text and self.wrong.get(place, 0) + 1 >= self.repeat):
                received[at] ^= 1 << self.rng.randrange(8)
                self.wrong[place] = self.wrong.get(place, 0) + 1
            else:
                self.wrong[place] = 0
        return bytes(received)


def receiver(rng, lines, page, choices):
    link = lambda: rng.choice([(0, 0, 0), (1, rng.randrange(255), 0)])
    former = {
        "lines": [lines], "rows": [[rng.choice((32, 65, 90)) for _ in range(40)] for _ in range(25)], "control": [rng.randrange(1024) << 1],
        "links": [n for _ in range(6) for n in link()], "row-24": [rng.randrange(2)], "storing": [rng.randrange(2)], "age": [rng.randrange(65)],
        "fresh": [rng.randrange(2)], "any-subpage": [0], "choices": [0, *choices],
    }
    return Receiver(former, {"id": (1, page, 0)})


def displays(told, text):
    """Whether the page is displayed: its text in row 0, no other rows, no links."""
    return shown(told.rows, told.control, told.six, told.row_24) == ([*text.encode().ljust(24)], [SPACES] * 24, [None] * 6)


def misses(schedule, page, n, tau, told, errors):
    """For how many slots the page is not displayed, from the deadline on and as long as it stays; None if there is no such slot."""
    first, last = schedule.stays(page, n)
    begin = tau if first == 0 else max(tau, schedule.begins[first])
    end, missed = begin + schedule.family.limit, 0
    if end > schedule.end(last):
        return None
    for at in range(tau, min(end + 60, schedule.end(last))):
        told.hear(errors.receive(schedule.sent(at)))
        missed += at + 1 >= end and not displays(told, schedule.editions[n].pages[page])
    return missed


def held_misses(rng, schedule):
    """Receptions of a schedule that keeps the hold: their number, and how many of them missed a page."""
    heard = missed = 0
    family = schedule.family
    for _ in range(12):
        n = rng.randrange(len(schedule.editions))
        page = rng.choice(list(schedule.editions[n].pages))
        tau = rng.randrange((schedule.begins[n] or 0) - 2 * family.limit, schedule.end(n))
        choices = rng.choice(([1] * 400, [0] * 400, [rng.randrange(2) for _ in range(400)]))
        count = misses(schedule, page, n, tau, receiver(rng, family.lines, page, choices), Errors(rng, family.repeat))
        heard += count is not None
        missed += bool(count)
    return heard, missed


def short_misses(rng, schedule):
    """The same for a schedule whose middle editions last one period, from each slot, with receivers that miss what they may."""
    family, missed = schedule.family, 0
    for page, text in schedule.editions[0].pages.items():
        if schedule.stays(page, 0)[1] == len(schedule.editions) - 1 and text:
            for tau in range(-family.limit, schedule.begins[-1]):
                told = receiver(rng, family.lines, page, [1] * 400)
                missed += bool(misses(schedule, page, 0, tau, told, Errors(rng, family.repeat)))
    return missed


def worked_example(program, folder):
    """One line in a field, and a deadline of 9 fields, so 9 slots. Links are sent at least two slots after their header.

    Slot 0 is the first of the middle edition, which has 5 slots and is sent once. A receiver that is tuned at slot -1 gets K of the first
    edition, E K F K H of the middle one and H E E of the last one. No K comes after a header of the page before slot 8, but the deadline
    ends with slot 7. If the middle edition is sent twice, its K in slot 6 comes in time.
    """
    editions = [Edition(letters, 0) for letters in ("HEEKHK", "EKFKH", "HEEKHK")]
    family = Family(program, folder, 1, 1, editions, 9)
    verdicts = [family.verdict(*pair) for pair in zip(editions, editions[1:])]
    assert verdicts == ["yes\n"] * 2, verdicts
    rng = random.Random("worked")
    links_of = lambda periods, tau: misses(Schedule(family, editions, [periods, 1]), 0, 0, tau, receiver(rng, 1, 0, [0] * 400), Errors(rng, 1))
    told = receiver(rng, 1, 0, [0] * 400)
    told.six, told.storing = [(1, 5, 0)] * 6, 0
    short = misses(Schedule(family, editions, [1, 1]), 0, 0, -1, told, Errors(rng, 1))
    assert short, "the page isn't missed"
    held = [links_of(2, tau) for tau in range(-9, 11)]
    assert not any(held), held


def main():
    program = os.path.abspath(sys.argv[1])
    heard = missed = changes = dropped = 0
    for n in range(FAMILIES):
        with tempfile.TemporaryDirectory() as folder:
            rng = random.Random(n)
            family = Family(program, Path(folder), 1 + n % 3, 1 + n // 5)
            family.grow(rng)
            held = lambda e: -(-family.limit // len(e.slots)) + rng.choice((0, 0, 1))
            for _ in range(SCHEDULES // FAMILIES):
                schedule = family.schedule(rng, rng.randrange(2, 7), held)
                changes += len(schedule.editions) - 1
                some, wrong = held_misses(rng, schedule)
                heard, missed = heard + some, missed + wrong
                dropped += short_misses(rng, family.schedule(rng, 3, lambda e: 1))
    with tempfile.TemporaryDirectory() as folder:
        worked_example(program, Path(folder))
    print(f"schedules: {SCHEDULES}, {changes} changes, {heard} receptions, {missed} missed; {dropped} missed without the hold")
    sys.exit(bool(missed) or not dropped or heard < SCHEDULES)


main()
