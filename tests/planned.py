#!/usr/bin/env python3
"""Runs the built program on services of one to eight magazines: the cycle of `plan` has a least deadline, and is refused with less.

usage: planned.py PROGRAM

The services are serial and parallel, with and without packet 8/30, with lines and pages drawn from a fixed seed. Pages are sent
1, 2, 4 or 8 times a cycle, and some have subpages, blank rows, rows in double height, boxes, links, or a suppressed header.
For both classes of receivers and repeat counts 1, 2 and 8: `find` finds a deadline D for the plan, `certify` says yes to the
certificate found, and no to the same with D - 1, if that is at least 1. Of the items of each page that `wait --items` lists, the first
that needs the most is the page's. Parallel cycles of one to eight magazines are compared slot by slot with a plain program of the rule
of turns.
"""
import collections
import itertools
import os
import random
import re
import subprocess
import sys
import tempfile

INFO = '[info]\ninitial = "100"\nnetwork = "12F4"\nmjd = 46000\nutc = 123045\ntext = "Our TV"\n'
ROWS = ["a row", "\\u0001red \\u0012mosaic", "\\u000DTall", "", "\\u000B\\u000Bboxed\\u000A\\u000A", "x" * 40]


def page(draw, number, sub):
    """The table of a page."""
    lines = ["[[page]]", f'number = "{number}"', f'sub = "{sub}"', f"often = {draw.choice([1, 2, 4, 8])}"]
    lines.append(f'head = "page {number}"')
    for key in ["suppress", "subtitle", "inhibit", "row24"]:
        if draw.random() < 0.15:
            lines.append(f"{key} = true")
    if draw.random() < 0.5:
        lines.append('links = ["100", "", "2A0/0001"]')
    lines.append("[page.rows]")
    for row in sorted(draw.sample(range(1, 25), draw.randint(0, 5))):
        lines.append(f'{row} = "{draw.choice(ROWS)}"')
    return "\n".join(lines) + "\n"


def service(draw, magazines, serial, info):
    """The text of a service with pages in this many magazines."""
    text = f"lines = {draw.choice([1, 2, 3, 8, 12, 16, 32])}\nserial = {'true' if serial else 'false'}\n"
    text += INFO if info else ""
    for magazine in sorted(draw.sample(range(1, 9), magazines)):
        for tens in range(draw.randint(1, 2)):
            for sub in range(1, draw.choice([1, 1, 3]) + 1):
                text += page(draw, f"{magazine}{tens}{magazine}", f"000{sub}")
    return text


class Failed(Exception):
    """A command that ends in another way than it should."""


def answer(program, *words):
    """The status and the output of a command. It fails with anything on standard error."""
    done = subprocess.run([program, *words], capture_output=True, text=True, timeout=60, check=False)
    if done.stderr:
        raise Failed(f"{' '.join(words)}: status {done.returncode}, {done.stdout[:200]!r} {done.stderr[:200]!r}")
    return done.returncode, done.stdout


def run(program, *words, status=0):
    """The output of a command. It fails with another status too."""
    ended, text = answer(program, *words)
    if ended != status:
        raise Failed(f"{' '.join(words)}: status {ended}, {text[:200]!r}")
    return text


def wrong_in(check, *words):
    """What a check says is wrong in a case, or the command that fails in it; None if nothing is wrong."""
    try:
        return check(*words)
    except Failed as failed:
        return str(failed)


def wait_lines(program, *words):
    """For each page the fields and item that `wait` prints; with `--items` also the fields of its items, in order."""
    text = run(program, "wait", "cycle", "service", *words, "--items")
    pages, items = {}, {}
    for line in text.splitlines()[:-1]:
        page, told = line.split(" ", 1)
        if told[0].isdigit():
            fields, _, _, _, item = told.split(" ", 4)
            pages[page] = (int(fields), item)
        else:
            item, fields = re.fullmatch(r"(head|row \d+|links) (\d+) fields [\d.]+ s", told).groups()
            items.setdefault(page, []).append((int(fields), item))
    return pages, items


def wrong_items(program, kind, repeat):
    """A page whose fields and item differ from those of its first item that needs the most, or None."""
    pages, items = wait_lines(program, "--repeat", str(repeat), "--class", kind)
    for page, told in pages.items():
        if told != max(items[page], key=lambda one: one[0]):
            return f"wait --items: {page} {told} {items[page]}"
    return None


def wrong(program, kind, repeat):
    """What is wrong with the certificate found for a planned cycle, or None."""
    line = run(program, "find", "cycle", "service", "cert", "--repeat", str(repeat), "--class", kind)
    if not line.startswith("found deadline "):
        return f"find: {line}"
    deadline = int(line.split()[2])
    line = run(program, "certify", "cycle", "service", "cert")
    if not line.startswith("yes ") or f" deadline {deadline} " not in line:
        return f"certify: {line}"
    what = wrong_items(program, kind, repeat)
    if what or deadline == 1:
        return what
    with open("cert", encoding="ascii") as file:
        text = file.read()
    with open("less", "w", encoding="ascii") as file:
        file.write(text.replace(f"\ndeadline {deadline}\n", f"\ndeadline {deadline - 1}\n", 1))
    line = run(program, "certify", "cycle", "service", "less", status=1)
    return None if line.startswith("no ") else f"certify with a field less: {line}"


def wrong_plan(program, kind):
    """What is wrong with what `plan` says for a class, or None."""
    line = run(program, "plan", "service", "cycle", "--class", kind)
    return None if line.startswith("planned ") else f"plan: {line}"


def failures(program, name, kind):
    """Plans the service for a class, and checks what `find` finds for each repeat count."""
    what = wrong_in(wrong_plan, program, kind)
    if what:
        return [f"{name}, class {kind}: {what}"]
    found = [(repeat, wrong_in(wrong, program, kind, repeat)) for repeat in [1, 2, 8]]
    return [f"{name}, class {kind}, repeat {repeat}: {what}" for repeat, what in found if what]


def often(magazine):
    """How often page 00 of a magazine is sent; page 01 is sent once. Magazines 2, 4, 6 and 8 have no rows in page 00."""
    return (1, 2, 4, 8)[magazine % 4]


def parallel_text(lines, most):
    """The pages of magazines 1 to `most`, with packet 8/30."""
    text = f"lines = {lines}\nserial = false\n" + INFO
    for magazine in range(1, most + 1):
        inhibit = "true" if magazine % 2 == 0 else "false"
        text += f'[[page]]\nnumber = "{magazine}00"\noften = {often(magazine)}\ninhibit = {inhibit}\n[[page]]\nnumber = "{magazine}01"\n'
    return text


def packets(magazine):
    """The packets of a magazine, in their order, as `inspect` names them."""
    rows = [f"{magazine}/{row} row" for row in range(1, 24)]
    block = lambda number, has_rows: [f"{magazine}/0 header {magazine}{number}", *(rows if has_rows else []), f"{magazine}/27 links"]
    told = []
    for turn in range(8):
        told += block("00", magazine % 2 == 1) if turn * often(magazine) % 8 == 0 else []
        told += block("01", True) if turn == 0 else []
    return collections.deque([*told, f"{magazine}/0 header {magazine}FF"])


def by_turns(lines, most):
    """The slots of the cycle. The next magazine to send is the first one with a packet left that need not wait, in rising order round from
    the one after the magazine that sent last. A row or X/27/0 waits while one of the last `lines` slots has a page header of its
    magazine. Packet 8/30 is sent at each multiple of 50 fields."""
    left = {magazine: packets(magazine) for magazine in range(1, most + 1)}
    slots, latest, headed = [], 0, {}
    while any(left.values()):
        place = len(slots)
        if place % (50 * lines) == 0:
            slots.append("8/30 info")
            continue
        for above in range(8):
            magazine = (latest + above) % 8 + 1
            queue = left.get(magazine)
            if queue and (" header " in queue[0] or place - headed.get(magazine, -lines - 1) > lines):
                break
        else:
            slots.append("empty")
            continue
        packet, latest = queue.popleft(), magazine
        if " header " in packet and not packet.endswith("FF"):
            headed[magazine] = place
        slots.append(packet)
    return slots + ["empty"] * (-len(slots) % lines)


def wrong_turns(program, lines, most):
    """The first slot of such a cycle that breaks the rule, or None."""
    with open("service", "w", encoding="ascii") as file:
        file.write(parallel_text(lines, most))
    run(program, "plan", "service", "cycle")
    shown = [re.sub(r"^\d+ ", "", line) for line in run(program, "inspect", "cycle").splitlines()]
    wanted = by_turns(lines, most)
    if len(shown) != len(wanted):
        return f"{len(shown)} slots and not {len(wanted)}"
    pairs = zip(shown, wanted)
    return next((f"slot {at} has {has} and not {want}" for at, (has, want) in enumerate(pairs) if not has.startswith(want)), None)


def main():
    program = os.path.realpath(sys.argv[1])
    draw = random.Random(1)
    cases, told = 0, []
    with tempfile.TemporaryDirectory() as place:
        os.chdir(place)
        for magazines, serial, info, number in itertools.product(range(1, 9), [True, False], [True, False], [1, 2]):
            with open("service", "w", encoding="ascii") as file:
                file.write(service(draw, magazines, serial, info))
            way = "serial" if serial else "parallel"
            name = f"{magazines} magazines, {way}, {'with' if info else 'without'} 8/30, service {number}"
            for kind in ["any", "clearing"]:
                cases += 3
                told += failures(program, name, kind)
        for most, lines in itertools.product(range(1, 9), range(1, 4)):
            what = wrong_in(wrong_turns, program, lines, most)
            cases += 1
            told += [f"turns of {most} magazines, {lines} lines: {what}"] if what else []
        os.chdir("/")
    for line in told:
        print(f"FAILED {line.strip()}")
    print(f"planned: {cases} cases, {len(told)} failed")
    return 1 if told else 0


if __name__ == "__main__":
    sys.exit(main())
