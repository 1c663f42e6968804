#!/usr/bin/env python3
"""Runs `pages` and `book` over the cycles of tests/data and over cycles of random slots. The lines of `pages` are
those of a plain reader in this script. A book must be XML and have each page except time-filling ones once, in this order, and its
index must lead to each of them. Where the slots are no packets the status is 1, and standard error has the line of recognised.py.

usage: pages.py PROGRAM [COUNT]
"""
import random
import subprocess
import sys
import tempfile
import xml.etree.ElementTree as tree
from collections import Counter
from pathlib import Path

from recognised import line
from sent import WORDS, number, odd, random_slot

DATA = Path(__file__).resolve().parent / "data"


def kind(slot):
    """The kind of a slot, its magazine, and for a header its id, control bits and characters."""
    if not any(slot):
        return ("empty", 0)
    low, high = number(slot[0]), number(slot[1])
    if low is None or high is None:
        return ("unreadable", 0)
    magazine, packet = low % 8 or 8, low // 8 + 2 * high
    if packet == 0:
        n = [number(byte) for byte in slot[2:10]]
        if None in n:
            return ("unreadable", 0)
        subcode = n[2] + 16 * (n[3] % 8) + 256 * n[4] + 4096 * (n[5] % 4)
        control = [n[3] // 8, n[5] // 4 % 2, n[5] // 8] + [n[at] >> bit & 1 for at in (6, 7) for bit in range(4)]
        return ("header", magazine, (magazine, n[0] + 16 * n[1], subcode), control, slot[10:34])
    if packet <= 24:
        return ("row", magazine)
    designation = number(slot[2])
    if packet == 27 and designation is None:
        return ("unreadable", 0)
    if packet == 27 and designation == 0:
        return ("links", magazine)
    return ("info" if packet == 30 and magazine == 8 else "other", magazine)


def is_corrected(slot):
    name = kind(slot)[0]
    if name in ("empty", "unreadable"):
        return False
    packet = number(slot[0]) // 8 + 2 * number(slot[1])
    last = {0: 10, 27: 3}.get(packet, 2)
    return any(byte not in WORDS for byte in slot[:last])


def character(byte):
    code = byte & 0x7F
    if odd(code) != byte:
        return "\\?"
    if code < 0x20 or code == 0x7F:
        return f"\\x{code:02X}"
    return "\\" + chr(code) if chr(code) in '"\\' else chr(code)


def page_name(page):
    return f"{page[0]}{page[1]:02X}/{page[2]:04X}"


def plain_pages(cycle):
    """The lines for a cycle, and the names of the pages that a viewer can see."""
    kinds = [kind(slot) for slot in cycle]
    owners, firsts, counts = {}, {}, Counter()
    for turn in range(2):
        for this in kinds:
            if this[0] == "header":
                owners[this[1]] = this[2]
                firsts.setdefault(this[2], this)
            if turn and this[0] in ("header", "row", "links"):
                counts[this[0], owners.get(this[1])] += 1
    lines = []
    for page, (_, _, _, control, text) in sorted(firsts.items()):
        line = f"{page_name(page)} sent {counts['header', page]} rows {counts['row', page]}"
        line += " links" * (counts["links", page] > 0) + "".join(f" C{4 + i}" for i, bit in enumerate(control) if bit)
        lines.append(line + ' "' + "".join(map(character, text)) + '"\n')
    every = Counter(this[0] for this in kinds)
    rest = f"rest rows {counts['row', None]} links {counts['links', None]} info {every['info']} other {every['other']}"
    rest += f" empty {every['empty']} unreadable {every['unreadable']} corrected {sum(map(is_corrected, cycle))}\n"
    return "".join(lines) + rest, [page_name(page) for page in sorted(firsts) if page[1] != 0xFF]


def random_cycle(chance):
    """Random slots, some of them repeated, some of them rows and X/27/0 of the eight magazines."""
    cycle = [random_slot(chance) for _ in range(chance.randrange(1, 80))]
    for at in range(len(cycle)):
        other = chance.randrange(4)
        if other == 0:
            cycle[at] = chance.choice(cycle)
        elif other == 1:
            packet = chance.choice([1, 24, 27])
            start = [WORDS[chance.randrange(8) + 8 * (packet % 2)], WORDS[packet // 2], WORDS[chance.choice([0, 0, 1])]]
            cycle[at] = bytes(start) + cycle[at][3:]
    return b"".join(cycle)


def told_by(words, name, data):
    """The standard output of a command over a cycle of these bytes."""
    ran = subprocess.run(words, capture_output=True)
    wanted = line(data)
    if ran.stderr.decode() != wanted or ran.returncode != (1 if wanted else 0):
        sys.exit(f"pages: {words[1]} of {name}: status {ran.returncode} and {ran.stderr}, not {wanted!r}")
    return ran.stdout


def compare(program, name, data, folder):
    cycle_file, book_file = folder / "cycle.t42", folder / "book.html"
    cycle_file.write_bytes(data)
    wanted, names = plain_pages([data[at : at + 42] for at in range(0, len(data), 42)])
    told = told_by([program, "pages", str(cycle_file)], name, data)
    if told != wanted.encode():
        sys.exit(f"pages: {name}: something else is told")
    printed = told_by([program, "book", str(cycle_file), str(book_file)], name, data)
    elements = list(tree.parse(book_file).iter())
    ids = [element.get("id") for element in elements if element.get("id")]
    index = next(element for element in elements if element.get("class") == "i")
    if printed or len(ids) != len(set(ids)):
        sys.exit(f"pages: {name}: something is printed, or an id of the book stands twice")
    if [element.get("id") for element in elements if element.tag == "section"] != names:
        sys.exit(f"pages: {name}: the book has other pages")
    if [link.get("href") for link in index] != ["#" + page for page in names]:
        sys.exit(f"pages: {name}: the index has other pages")


def main():
    program = str(Path(sys.argv[1]).resolve())
    count = int(sys.argv[2]) if len(sys.argv) > 2 else 60
    chance = random.Random(27)
    files = sorted(DATA.glob("*.t42"))
    with tempfile.TemporaryDirectory() as folder:
        for file in files:
            compare(program, file.name, file.read_bytes(), Path(folder))
        for run in range(count):
            compare(program, f"run {run}", random_cycle(chance), Path(folder))
    print(f"pages: {len(files) + count} cycles, 0 failed")


main()
