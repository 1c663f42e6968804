#!/usr/bin/env python3
"""Runs the built program on services with subpages, beside a plain receiver that is set to a page number without subcode.

usage: keyed.py PROGRAM [SERVICES]

Services (300) are drawn with a fixed seed, serial and parallel, with two to four subpages of one or two numbers. Each is planned in one of
three ways: `plan --late`, the same with `--spread`, and the same with a page that `stays`. Compared are:
- what `certify --late --numbers` and `wait --numbers` say of each number, with the headers of the cycle;
- what they say with what a plain receiver shows, which shows a page where it ends: from so many slots on every frame is one of the subpages,
  whole; each comes again in time, and is shown for as long as `certify` says. The receiver takes or misses packets near a header, and ends a page at a
  header of another magazine, as it is drawn to;
- a cycle that keeps stays with that of a plain program of the carousel, slot by slot, and the numbers that stay too short.
"""
import functools
import os
import random
import sys
import tempfile
from collections import Counter
from pathlib import Path

import plain_receiver
from plain_receiver import Receiver, packet_in, store
from planned import answer, run, wrong_in
from spread import bound, numbers_of, parallel, places, serial

plain_receiver.packet_in = functools.cache(packet_in)
packet = plain_receiver.packet_in
LETTERS = "ABCDEFGHIJKLMNOPQRSTUVWXYZabcdefghijklmnopqrstuvwxyz    "
WAYS = [["--late"], ["--late", "--spread"], ["--late", "--spread"]]


@functools.cache
def codes_in(received):
    """The codes of a row in which each byte has odd parity, or None."""
    return [c & 0x7F for c in received] if all(bin(c).count("1") % 2 for c in received) else None


plain_receiver.store = lambda held, received: codes_in(received) or store(held, received)


def draw_pages(draw):
    """Pages in up to three magazines. One or two numbers have subpages."""
    magazines = draw.sample(range(1, 9), draw.randint(1, 3))
    numbers = draw.sample([(mag, number) for mag in magazines for number in range(0x10, 0x20)], draw.randint(2, 6))
    several = numbers[: draw.randint(1, 2)]
    pages = []
    for mag, number in numbers:
        count = draw.randint(2, 4) if (mag, number) in several else 1
        for sub in draw.sample(range(1, 6), count):
            often = draw.choice([1, 1, 1, 2, 4, 8])
            pages.append({"mag": mag, "number": number, "sub": sub, "often": often, "rows": 23, "stays": 0})
    draw.shuffle(pages)
    for page in pages:
        page["text"] = {row: "".join(draw.choices(LETTERS, k=40)) for row in draw.sample(range(1, 24), draw.randint(1, 4))}
    return pages, several


def text_of(pages, service):
    text = f"lines = {service['lines']}\nserial = {str(service['serial']).lower()}\n"
    text += '[info]\nnetwork = "12F4"\nmjd = 46000\nutc = 123045\n' if service["info"] else ""
    for number, page in zip(numbers_of(pages), pages):
        text += f'[[page]]\nnumber = "{number}"\nsub = "{page["sub"]:04X}"\noften = {page["often"]}\n'
        text += f"stays = {page['stays'] / 50:.2f}\n" if page["stays"] else ""
        text += "[page.rows]\n" + "".join(f'{row} = "{line}"\n' for row, line in sorted(page["text"].items()))
    return text


def number_of(page):
    return page["mag"], page["number"]


# a plain program of the carousel


def turns_of(pages):
    """How many turns a cycle has."""
    staying = {number_of(page) for page in pages if page["stays"]}
    return max(Counter(number_of(page) for page in pages if number_of(page) in staying).values(), default=1)


def order(pages, laps):
    """The pages in the order of a cycle with so many laps a turn."""
    at = places(pages)
    staying = {number_of(page) for page in pages if page["stays"]}
    mates = {number: sorted((i for i, page in enumerate(pages) if number_of(page) == number), key=lambda i: pages[i]["sub"]) for number in staying}
    turns = turns_of(pages)
    sent = []
    for turn in range(turns):
        for turn_round in range(8 * laps):
            for index, page in enumerate(pages):
                own = mates.get(number_of(page))
                if own is None:
                    stands = turn_round % (8 // page["often"]) == at[index]
                else:
                    stands = turn == own.index(index) * turns // len(own) and turn_round == at[min(own)]
                sent += [index] if stands else []
    return sent


def length_bound(pages, lines, sent):
    """The bound on the length of a cycle that `plan` keeps to."""
    fields = [{**pages[index], "often": 1} for index in sent]
    latest, again = {}, 0
    for page in fields:
        again += latest.get(page["mag"]) == page["number"]
        latest[page["mag"]] = page["number"]
    return bound(fields, lines) + 2 * again


def headers_in(slots, pages, is_serial):
    """The slot, the magazine, page number and subcode, and C11 of each header of a planned cycle."""
    found = []
    for at, (index, item) in ((at, what) for at, what in enumerate(slots) if what):
        if index is None:
            found.append((at, item, 0xFF, 0x3F7F, int(is_serial)))
        elif item == 0:
            found.append((at, pages[index]["mag"], pages[index]["number"], pages[index]["sub"], int(is_serial)))
    return found


def with_laps(pages, service, laps):
    """The headers of the cycle with so many laps a turn, its length, and the numbers that stay too short; None if it might be too long."""
    sent = order(pages, laps)
    if length_bound(pages, service["lines"], sent) > 65536:
        return None
    slots = (serial if service["serial"] else parallel)(pages, service["lines"], service["info"], sent, late=True)
    headers, short = headers_in(slots, pages, service["serial"]), {}
    for page in pages:
        fields = amounts_of(headers, number_of(page), len(slots))[0] // service["lines"] if page["stays"] else 0
        if fields < page["stays"]:
            short.setdefault(number_of(page), (fields, page["stays"]))
    return headers, len(slots), short


def others_of(pages):
    """The pages of numbers without stays."""
    staying = {number_of(page) for page in pages if page["stays"]}
    return [page for page in pages if number_of(page) not in staying]


def most_laps(pages, service):
    """The most laps that fit. From the second one on each lap adds as much to the bound."""
    if not others_of(pages):
        return 1
    second, third = (length_bound(pages, service["lines"], order(pages, laps)) for laps in (2, 3))
    return max(1, 2 + (65536 - second) // (third - second))


def laps_of(pages, headers):
    """How many laps a turn has in a cycle with these headers."""
    others = others_of(pages)
    if not others:
        return 1
    times = sum(header[1:4] == (others[0]["mag"], others[0]["number"], others[0]["sub"]) for header in headers)
    return times // (others[0]["often"] * turns_of(pages))


def kept_with_fewer(draw, pages, service, laps):
    """Some smaller number of laps, of those that are tried, with which all stays are kept."""
    fewer = {laps - 1, *draw.choices(range(1, laps), k=2)} if laps > 1 else ()
    return next((some for some in fewer if not with_laps(pages, service, some)[2]), None)


# how long the subpages of a number stay, by the headers of a cycle


def headers_of(cycle):
    """The same of a packet file."""
    found = []
    for at, slot in enumerate(cycle):
        kind, _, more = packet(slot)
        if kind == "header":
            found.append((at, *more[0], more[1] >> 7 & 1))
    return found


def next_after(slots, at, period):
    """The first slot after one, round the cycle."""
    return min((slot - at - 1) % period + at + 1 for slot in slots)


def amounts_of(headers, number, period):
    """How long each subpage of a number stays, and how soon each comes again, in slots."""
    own = [at for at, mag, page, _, _ in headers if (mag, page) == number]
    ends = [at for at, mag, _, _, _ in headers if mag == number[0]]
    may_end = [at for at, mag, _, _, is_serial in headers if mag == number[0] or is_serial]
    stays = min(next_after(may_end, next_after(own, at, period), period) - next_after(ends, at, period) for at in own)
    again = 0
    for sub in {sub for _, mag, page, sub, _ in headers if (mag, page) == number}:
        mine = [at for at, mag, page, other, _ in headers if (mag, page, other) == (*number, sub)]
        again = max([again, *(next_after(mine, at, period) - at for at in mine)])
    return stays, again


# a receiver that shows a page where it ends


class Viewer(Receiver):
    """A receiver that is set to a page number, with former rows, and choices that are drawn."""

    def __init__(self, draw, lines, number):
        rows = [draw.choices(range(32, 127), k=40) for _ in range(25)]
        counter = {"lines": [lines], "choices": [0], "rows": rows, "control": [0], "links": [0] * 18}
        counter |= {"row-24": [0], "storing": [draw.randint(0, 1)], "age": [draw.randint(0, 64)], "fresh": [1], "any-subpage": [1]}
        super().__init__(counter, {"id": (*number, 0)})
        self.draw, self.shown = draw, None

    def choose(self):
        return self.draw.randint(0, 1)

    def hear(self, slot):
        if packet(slot)[0] != "header":
            super().hear(slot)
            return
        was_storing, rows = self.storing, self.rows[1:24]
        super().hear(slot)
        if was_storing and (not self.storing or self.age == 0):
            self.shown = rows


def watch(draw, cycle, start, count, lines, number):
    """What a viewer has on the screen after each slot."""
    viewer = Viewer(draw, lines, number)
    for at in range(start, start + count):
        viewer.hear(cycle[at % len(cycle)])
        yield viewer.shown


def rows_of(page):
    return [[ord(c) for c in page["text"].get(row, "").ljust(40)] for row in range(1, 24)]


def wrong_frames(draw, cycle, lines, pages, number, every, stays):
    """What a viewer of a number sees that differs from these amounts, from a slot that is drawn on; None if nothing does."""
    authored = {page["sub"]: rows_of(page) for page in pages if number_of(page) == number}
    begun, latest, changed, seen, sub, before = False, None, None, {}, None, None
    for at, shown in enumerate(watch(draw, cycle, draw.randrange(len(cycle)), every + 2 * len(cycle), lines, number)):
        if shown is not before:
            sub, before = next((sub for sub, rows in authored.items() if rows == shown), None), shown
        if at >= every:
            begun = True
            if sub is None:
                return f"{number} slot {at}: a mixture, or nothing"
            late = [other for other in authored if at - seen.get(other, -1) > every]
            if late:
                return f"{number} slot {at}: {late[0]} is not shown for {every} slots"
        if sub is not None:
            seen[sub] = at
        if sub != latest:
            if begun and latest is not None and changed is not None and at - changed < stays:
                return f"{number} slot {at}: {latest} stays {at - changed} slots of {stays}"
            latest, changed = sub, at
    return None


def said_of(lines, number, stays, again, every):
    """The lines of a number, by what its headers tell."""
    name, tenth = f"{number[0]}{number[1]:02X}", 5 * lines
    up, count = -(-again // tenth), 0
    return (f"number {name} pages {{}} every {every} slots stays {stays}",
            f"{name} {{}} subpages, each at least {stays // tenth // 10}.{stays // tenth % 10} s, again within {up // 10}.{up % 10} s")


def short_lines(pages, short):
    return "".join(f"stays {mag}{number:02X} {fields} fields of {promise}\n" for (mag, number), (fields, promise) in short.items())


def wrong_refusal(draw, pages, service, said):
    """What is wrong with the lines of numbers that stay too short."""
    laps = most_laps(pages, service)
    wanted = short_lines(pages, with_laps(pages, service, laps)[2])
    fewer = kept_with_fewer(draw, pages, service, laps)
    if said != wanted:
        return f"{said!r} in place of {wanted!r}"
    return f"the stays are kept with {fewer} laps" if fewer else None


def wrong_cycle(draw, pages, service, found, said):
    """What is wrong with a cycle that keeps the stays, by its headers."""
    laps = laps_of(pages, found)
    headers, length, short = with_laps(pages, service, laps)
    fewer = kept_with_fewer(draw, pages, service, laps)
    if (found, said, short) != (headers, f"planned {length} slots\n", {}):
        return f"not the cycle of {length} slots with {laps} laps a turn: {said!r}, {short}"
    return f"the stays are kept with {fewer} laps of {laps}" if fewer else None


def compare(program, draw, way, tally):
    """A drawn service, planned in one way; what is wrong, or None."""
    pages, several = draw_pages(draw)
    service = {"lines": draw.choice([2, 3, 5, 8, 12, 16]), "serial": draw.random() < 0.5, "info": draw.random() < 0.3}
    if way == 2:
        for number in draw.sample(several, draw.randint(1, len(several))):
            for page in [page for page in pages if number_of(page) == number][: draw.randint(1, 2)]:
                page["stays"] = draw.choice([1, 20, 100, 200, *[draw.randint(1, 400)] * 4, 4000])
    Path("service.toml").write_text(text_of(pages, service))
    Path("cycle.t42").unlink(missing_ok=True)
    status, said = answer(program, "plan", "service.toml", "cycle.t42", *WAYS[way])
    if status == 1 and said:
        tally["too short"] += 1
        return wrong_refusal(draw, pages, service, said)
    if status:
        return f"plan: status {status}, {said!r}"
    data = Path("cycle.t42").read_bytes()
    cycle = [data[at : at + 42] for at in range(0, len(data), 42)]
    found = headers_of(cycle)
    if way == 2:
        tally["stays kept"] += 1
        wrong = wrong_cycle(draw, pages, service, found, said)
        if wrong:
            return wrong
    return wrong_numbers(program, draw, cycle, found, pages, several, service["lines"], tally)


def wrong_numbers(program, draw, cycle, headers, pages, several, lines, tally):
    deadline = int(run(program, "find", "cycle.t42", "service.toml", "found.cert").split()[2])
    said = run(program, "certify", "cycle.t42", "service.toml", "found.cert", "--late", "--numbers")
    verdict, *lines_said = said.splitlines()
    gap = int(verdict.split()[-1])
    waits = run(program, "wait", "cycle.t42", "service.toml", "--numbers").splitlines()[len(pages) + 1 :]
    firsts = list(dict.fromkeys(number_of(page) for page in pages if number_of(page) in several))
    wanted, wanted_waits, every = [], [], deadline * lines + gap
    for number in firsts:
        stays, again = amounts_of(headers, number, len(cycle))
        count = sum(number_of(page) == number for page in pages)
        for line, lines_of in zip(said_of(lines, number, stays, again, every), (wanted, wanted_waits)):
            lines_of.append(line.format(count))
    if (lines_said, waits) != (wanted, wanted_waits):
        return f"{said} {waits} in place of {wanted} {wanted_waits}"
    tally["numbers"] += len(firsts)
    for number in firsts:
        stays, again = amounts_of(headers, number, len(cycle))
        wrong = wrong_frames(draw, cycle, lines, pages, number, min(every, again + gap), stays)
        if wrong:
            return wrong
        tally["viewers"] += 1
    return None


def main():
    program = os.path.abspath(sys.argv[1])
    services = int(sys.argv[2]) if len(sys.argv) > 2 else 300
    tally, failed = Counter(), 0
    with tempfile.TemporaryDirectory() as folder:
        os.chdir(folder)
        for number in range(services):
            wrong = wrong_in(compare, program, random.Random(number), number % len(WAYS), tally)
            if wrong:
                failed += 1
                print(f"FAILED service {number} {' '.join(WAYS[number % len(WAYS)])}: {wrong}")
    counts = ", ".join(f"{count} {name}" for name, count in sorted(tally.items()))
    print(f"{services} services ({counts}), {failed} failed")
    sys.exit(failed > 0)


if __name__ == "__main__":
    main()
