#!/usr/bin/env python3
"""Compares spread plans of the program, and the promises that they keep, with a plain program of its own.

usage: spread.py PROGRAM

Services are drawn with a fixed seed, every third with subpages. The plain program lays out the rounds, looks at every slot, and doubles `often` one page at a time, with a
whole plan after each step. Compared are: the slots of `plan --spread`; the deadline that `find` gives, and what it says with a deadline one
field less and seven more; that `certify` says yes; and for promises the cycle with the pages sent as often as that takes, or the late pages.
In the plain program's places no two pages of one number stand in one round while another round has none of them.
"""
import os
import random
import sys
import tempfile

sys.dont_write_bytecode = True
from planned import answer, run, wrong_in  # noqa: E402

CASES = 120


def length_of(page):
    return 2 + page["rows"]


def places(pages):
    """Each page's place: those sent most often first, each where its number has the fewest pages so far, then nearest behind its turn, then
    where the rounds have the fewest packets. Pages of a number sent equally often have their turns at equal distances, by their subcodes."""
    loads, at = [0] * 8, [None] * len(pages)
    for often in (8, 4, 2, 1):
        for index, page in enumerate(pages):
            if page["often"] == often:
                at[index] = place_of(pages, at, loads, index)
                for turn in range(at[index], 8, 8 // often):
                    loads[turn] += length_of(page)
    return at


def place_of(pages, at, loads, index):
    """The place of one page, from those that have theirs."""
    page, numbers = pages[index], numbers_of(pages)
    period = 8 // page["often"]
    mates = [other for other, number in enumerate(numbers) if number == numbers[index]]
    group = sorted((other for other in mates if pages[other]["often"] == page["often"]), key=lambda other: pages[other]["sub"])
    first = min(group)
    steps = (group.index(index) - group.index(first)) % len(group)

    def weighed(place):
        earlier = sum(at[other] is not None and place % (8 // pages[other]["often"]) == at[other] for other in mates)
        late = 0 if index == first else (place - at[first] - steps * period // len(group)) % period
        return earlier, late, loads[place], place

    return min(range(period), key=weighed)


def unshared(pages, at):
    """A number whose pages stand in one round together while another round has none of them; None if there is none."""
    numbers = numbers_of(pages)
    for number in set(numbers):
        counts = [sum(numbers[index] == number and turn % (8 // page["often"]) == at[index] for index, page in enumerate(pages)) for turn in range(8)]
        if max(counts) > 1 and min(counts) == 0:
            return number
    return None


def blocks(pages):
    at = places(pages)
    return [index for turn in range(8) for index, page in enumerate(pages) if turn % (8 // page["often"]) == at[index]]


def fillers(pages, order):
    """The pages in an order, each with whether its magazine has just sent its page number, as far as receivers that show late go."""
    latest = {}
    for index in order:
        page = pages[index]
        yield index, latest.get(page["mag"]) == page["number"]
        latest[page["mag"]] = page["number"]


def serial(pages, lines, info, order=None, late=False):
    """The slots: (page, item) where a packet of a page stands; items are 0 for the page header, rows, and 25 for X/27/0. `late`: a
    time-filling header, (None, magazine), stands between two headers of one page number too."""
    slots = []

    def put(what):
        if info and len(slots) % (50 * lines) == 0:
            slots.append(None)
        slots.append(what)

    for index, again in fillers(pages, order or blocks(pages)):
        if late and again:
            put((None, pages[index]["mag"]))
        put((index, 0))
        for _ in range(lines):
            put(None)
        for row in range(1, pages[index]["rows"] + 1):
            put((index, row))
        put((index, 25))
    for mag in sorted({page["mag"] for page in pages}):
        put((None, mag) if late else None)
    return slots + [None] * (-len(slots) % lines)


def parallel(pages, lines, info, order=None, late=False):
    queues = {mag: [] for mag in range(1, 9)}
    for index, again in fillers(pages, order or blocks(pages)):
        queue = queues[pages[index]["mag"]]
        queue += [(None, 0)] if late and again else []
        queue += [(index, item) for item in [*range(pages[index]["rows"] + 1), 25]]
    for queue in queues.values():
        if queue:
            queue.append((None, 0))
        queue.reverse()
    slots, latest, headed = [], 0, {}
    while any(queues.values()):
        place = len(slots)
        if info and place % (50 * lines) == 0:
            slots.append(None)
            continue
        for above in range(8):
            mag = (latest + above) % 8 + 1
            if queues[mag] and (queues[mag][-1][1] == 0 or place - headed.get(mag, -lines - 1) > lines):
                break
        else:
            slots.append(None)
            continue
        index, item = queues[mag].pop()
        latest = mag
        if item == 0 and index is not None:
            headed[mag] = place
        slots.append((index, item) if index is not None else (None, mag) if late else None)
    return slots + [None] * (-len(slots) % lines)


def waits(slots, pages, lines, repeat=1):
    """The fields that a viewer of each page waits at most: from a page header to the end of what a receiver needs after it."""
    sent = [{} for _ in pages]
    header = {}
    for slot, what in enumerate(slots):
        if what:
            index, item = what
            if item == 0:
                header[index] = slot
            sent[index].setdefault(item, []).append((header[index], slot))
    told = []
    for items in sent:
        most = 0
        for item, list_ in items.items():
            run = 1 if item == 25 else repeat
            for number, (owner, _) in enumerate(list_):
                later = number + run
                end = list_[later % len(list_)][1] + later // len(list_) * len(slots)
                most = max(most, end - owner)
        told.append(max(1, -(-most // lines)))
    return told


def bound(pages, lines):
    packets = sum(page["often"] * length_of(page) for page in pages)
    count = sum(page["often"] for page in pages)
    return 2 * (packets + count * lines + len({page["mag"] for page in pages})) + 2 * lines


def choose(pages, lines, is_serial, info, repeat=1):
    """Sends pages with a promise as often as that takes. Returns the steps, and the pages that come too late."""
    steps = 0
    while True:
        slots = (serial if is_serial else parallel)(pages, lines, info)
        told = waits(slots, pages, lines, repeat)
        late = [(wait - page["within"], -index) for index, (page, wait) in enumerate(zip(pages, told)) if page["within"] and wait > page["within"]]
        free = [(by, index) for by, index in late if not pages[-index]["fixed"] and pages[-index]["often"] < 8]
        if not free:
            return steps, late, slots, told
        page = pages[-max(free)[1]]
        page["often"] *= 2
        if bound(pages, lines) > 65536:
            page["often"] //= 2
            return steps, late, slots, told
        steps += 1


def named(slots, pages):
    """The slots as `inspect` begins their lines: magazines in the order of their numbers end a cycle with a time-filling header."""
    told, numbers = [], numbers_of(pages)
    for what in slots:
        if what is None:
            told.append(None)  # an empty slot, a time-filling header or 8/30
        else:
            index, item = what
            page, mag = pages[index], pages[index]["mag"]
            header = f"{mag}/0 header {numbers[index]}/{page['sub']:04X}"
            told.append(header if item == 0 else f"{mag}/27 links" if item == 25 else f"{mag}/{item} row")
    return told


def numbers_of(pages):
    return [f"{page['mag']}{page['number']:02X}" for page in pages]


def text_of(pages, lines, is_serial):
    text = f"lines = {lines}\nserial = {str(is_serial).lower()}\n"
    for number, page in zip(numbers_of(pages), pages):
        text += f'[[page]]\nnumber = "{number}"\nsub = "{page["sub"]:04X}"\n'
        text += f"often = {page['often']}\n" if page["fixed"] else ""
        text += f"within = {page['within'] / 50:.2f}\n" if page["within"] else ""
        text += "inhibit = true\n" if page["rows"] == 0 else ""
    return text


def wrong_slots(program, slots, pages):
    """What is wrong with the cycle that was planned, or None."""
    shown = [line.split(" ", 1)[1] for line in run(program, "inspect", "cycle").splitlines()]
    wanted = named(slots, pages)
    if len(shown) != len(wanted):
        return f"{len(shown)} slots and not {len(wanted)}"
    for at, (has, want) in enumerate(zip(shown, wanted)):
        if want is not None and not has.startswith(want):
            return f"slot {at} has {has} and not {want}"
    return None


def wrong_deadlines(program, deadline):
    """What is wrong with what is found for the cycle, or None."""
    answers = [
        ([], 0, f"found deadline {deadline}\n"),
        (["--deadline", str(deadline + 7)], 0, f"found deadline {deadline + 7}\n"),
        (["--deadline", str(deadline - 1)], 1, "no 10 late "),
    ]
    for words, wanted, begin in answers[: 3 if deadline > 1 else 2]:
        line = run(program, "find", "cycle", "service", "cert", *words, status=wanted)
        if not line.startswith(begin):
            return f"find {words}: {line}"
        if wanted == 0:
            line = run(program, "certify", "cycle", "service", "cert")
            if " " + begin.strip().split(" ", 1)[1] + " " not in line:
                return f"certify: {line}"
    return None


def wrong_plan(program, pages, lines, is_serial):
    """What is wrong with the spread plan of a service, or None. The folder is the current one."""
    with open("service", "w", encoding="ascii") as file:
        file.write(text_of(pages, lines, is_serial))
    said = answer(program, "plan", "service", "cycle", "--spread")
    _, late, slots, told = choose(pages, lines, is_serial, False)
    if unshared(pages, places(pages)):
        return f"pages of {unshared(pages, places(pages))} stand together"
    if late:
        numbers = numbers_of(pages)
        order = sorted(-index for _, index in late)
        wanted = "".join(f"late {numbers[at]}/{pages[at]['sub']:04X} {told[at]} fields of {pages[at]['within']}\n" for at in order)
        return None if said == (1, wanted) else f"plan: {said} and not {wanted!r}"
    if said != (0, f"planned {len(slots)} slots\n"):
        return f"plan: {said}"
    return wrong_slots(program, slots, pages) or wrong_deadlines(program, max(told))


def drawn_page(draw, mags, with_promises):
    promised = with_promises and draw.random() < 0.5
    fixed = not promised or draw.random() < 0.2
    return {
        "mag": draw.choice(mags),
        "rows": draw.choice([0, 23]),
        "often": draw.choice([1, 1, 2, 4, 8]) if fixed else 1,
        "fixed": fixed,
        "within": draw.choice([draw.randint(1, 60), draw.randint(60, 400), 5000]) if promised else 0,
    }


def number(draw, pages, with_subpages):
    """Gives each page a number in its magazine, some of them that of an earlier page, and subcodes in any order."""
    subcodes = draw.sample(range(1, 0x40), len(pages))
    for index, page in enumerate(pages):
        earlier = [other["number"] for other in pages[:index] if other["mag"] == page["mag"]]
        shared = with_subpages and earlier and draw.random() < 0.5
        page["number"] = draw.choice(earlier) if shared else len(set(earlier))
        page["sub"] = subcodes[index] if with_subpages else 0


def main():
    draw, told = random.Random(3), []
    program = os.path.realpath(sys.argv[1])
    with tempfile.TemporaryDirectory() as place:
        os.chdir(place)
        for case in range(CASES):
            mags = draw.sample(range(1, 9), draw.randint(1, 8))
            pages = [drawn_page(draw, mags, case % 2 == 1) for _ in range(draw.randint(1, 40))]
            number(draw, pages, case % 3 == 2)
            what = wrong_in(wrong_plan, program, pages, draw.choice([1, 2, 3, 8, 12, 16]), draw.random() < 0.5)
            told += [f"case {case}: {what}"] if what else []
        os.chdir("/")
    for line in told:
        print(f"FAILED {line.strip()}")
    print(f"spread: {CASES} cases, {len(told)} failed")
    return 1 if told else 0


if __name__ == "__main__":
    sys.exit(main())
