#!/usr/bin/env python3
"""Runs `wait --items` of the built program on cycles of tests/data, and compares the lines of items with a plain model.

usage: waits.py PROGRAM

The model reads a packet file as a list of slots and follows the latest header of each magazine, through two periods. An item cannot be
missed if it comes more than L slots after its own page's header, with no header of another magazine with C11 between; a header can never
be missed. A viewer who tunes in just after the owner of a run of K such packets waits until the end of the next run.
"""
import math
import subprocess
import sys
from pathlib import Path

WORDS = bytes.fromhex("1502495e6473382fd0c78c9ba1b6fdea")
DATA = Path(__file__).parent / "data"
# the cycle, the service, its lines, its pages
CYCLES = [
    ("base.t42", "base.toml", 2, ["100/0000"]),
    ("row-near-header.t42", "base.toml", 2, ["100/0000"]),
    ("two-pages.t42", "two-pages.toml", 2, ["100/0000", "101/0000"]),
]


def packet(slot):
    """A slot as its magazine, its number, and for a header the page and C11."""
    if slot[0] not in WORDS or slot[1] not in WORDS:
        return None
    low, high = WORDS.index(slot[0]), WORDS.index(slot[1])
    mag, number = low % 8 or 8, low // 8 + 2 * high
    if number:
        return mag, number, None, False
    d = [WORDS.index(byte) for byte in slot[2:10]]
    sub = d[2] + 16 * (d[3] % 8) + 256 * d[4] + 4096 * (d[5] % 4)
    return mag, 0, f"{mag}{d[1]:X}{d[0]:X}/{sub:04X}", bool(d[7] % 2)


def sent(slots, lines):
    """For each page and item the transmissions of the second period: slot, slot of the owner, and whether it is sure."""
    owners, found = {}, {}
    for at in range(2 * len(slots)):
        one = packet(slots[at % len(slots)])
        if one is None or one[1] > 27:
            continue
        mag, number, page, serial = one
        if number == 0:
            for other, (_, _, _) in owners.items():
                if serial and other != mag:
                    owners[other] = (*owners[other][:2], True)
            owners[mag] = (at, page, False)
        elif mag not in owners:
            continue
        owner, page, cut = owners[mag]
        sure = number == 0 or (at > owner + lines and not cut)
        far = at > owner + lines
        if at >= len(slots):
            found.setdefault((page, number), []).append((at, owner, sure, far))
    return found


def item_line(found, page, number, period, lines, repeat):
    """The line of an item: the least deadline, or what happens to its transmissions."""
    name = {0: "head", 27: "links"}.get(number, f"row {number}")
    once = found.get((page, number), [])
    repeat = 1 if number == 27 else repeat
    ones = [(at + period * turn, owner + period * turn, sure) for turn in range(repeat + 1) for at, owner, sure, _ in once]
    runs = [ones[i:i + repeat] for i in range(len(once))]
    runs = [(run[0][1], run[-1][0]) for run in runs if all(one[2] for one in run)]
    if not runs:
        near = sum(not far for _, _, _, far in once)
        cut = sum(far and not sure for _, _, sure, far in once)
        return f"{page} {name} never sent {len(once)} near {near} cut {cut}"
    ends = [end for _, end in runs[1:]] + [runs[0][1] + period]
    slots = max(max(end - owner, 0) for (owner, _), end in zip(runs, ends))
    fields = max(math.ceil(slots / lines), 1)
    return f"{page} {name} {fields} fields {fields // 50}.{fields % 50 * 2:02} s"


def model(cycle, lines, pages, repeat):
    slots = [cycle[i:i + 42] for i in range(0, len(cycle), 42)]
    found = sent(slots, lines)
    return [item_line(found, page, number, len(slots), lines, repeat) for page in pages for number in [*range(24), 27]]


def fails(program, cycle, service, lines, pages, repeat):
    """What is wrong with the lines of items of a cycle, or None. The status is 1 if an item is never sent where it cannot be missed."""
    words = [program, "wait", DATA / cycle, DATA / service, "--items", "--repeat", str(repeat)]
    done = subprocess.run(words, capture_output=True, text=True, check=False, timeout=60)
    told = [line for line in done.stdout.splitlines() if line.split(" ")[1] in ("head", "row", "links")]
    wanted = model((DATA / cycle).read_bytes(), lines, pages, repeat)
    status = int(any(" never " in line for line in wanted))
    if (done.returncode, told, done.stderr) == (status, wanted, ""):
        return None
    return f"status {done.returncode}, not {status}: {done.stdout}{done.stderr}"


def main():
    program = Path(sys.argv[1]).resolve()
    failed = 0
    for cycle, service, lines, pages in CYCLES:
        for repeat in [1, 2, 3, 8]:
            why = fails(program, cycle, service, lines, pages, repeat)
            if why:
                failed += 1
                print(f"FAILED {cycle} --repeat {repeat}: {why}")
    print(f"{4 * len(CYCLES)} runs, {failed} failed")
    sys.exit(failed > 0)


if __name__ == "__main__":
    main()
