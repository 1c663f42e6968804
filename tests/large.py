#!/usr/bin/env python3
"""Runs the built program on large inputs, and for many slots, and compares all results.

usage: large.py PROGRAM

The expected results are computed here with the encoder of make_data.py, which shares nothing with the program.
"""
import os
import subprocess
import sys
import tempfile
from pathlib import Path

sys.dont_write_bytecode = True
from make_data import EMPTY, SPACES, base, block, certificate, header, links, row, time_filling

BLANK = [[0x20] * 40 for _ in range(25)]
LINK = links(1, (5, 0, 15, 15, 15, 7))
NO_LINKS = " - - - - - -"
A_LINK = " 205/3F7F - - - - -"


def text(letter):
    """Forty bytes: a letter, then spaces."""
    return bytes([letter if bin(letter).count("1") % 2 else letter + 128]) + SPACES[1:]


def view(letters, shown_links=NO_LINKS):
    """The lines of a View that is blank except for a letter at the beginning of some rows."""
    rows = [list(cells) for cells in BLANK]
    for number, letter in letters.items():
        rows[number][0] = letter
    lines = [f"row {number}" + "".join(f" 00e000{cell:02x}" for cell in cells) for number, cells in enumerate(rows)]
    return "\n".join([*lines, f"links{shown_links}"]) + "\n"


def placed(size, packets):
    """A cycle of empty slots, with packets at some places."""
    slots = [EMPTY] * size
    for at, slot in packets.items():
        slots[at] = slot
    return slots


def many_pages():
    """2,000 pages without rows, one slot in a field: the service, its cycle, and the certificate with the least deadline."""
    ids = [(mag, page) for mag in range(1, 9) for page in range(250)]
    service = ["lines = 1", "serial = true"]
    slots = []
    named = []
    for mag, page in ids:
        service += ["[[page]]", f'number = "{mag}{page:02X}"', "suppress = true", "inhibit = true"]
        named.append(f"{mag}{page:02X}/0000 links {len(slots) + 2}")
        slots += [header(mag, page, 0, 1 << 3 | 1 << 6, 1), EMPTY, links(mag)]
    slots += [time_filling(mag) for mag in range(1, 9)]
    # from a header to and including its page's links in the next period
    deadline = len(slots) + 2

    def text_with(fields):
        return "\n".join(["ttx certificate 1", "lines 1", "repeat 1", f"deadline {fields}", *named]) + "\n"
    return "\n".join(service) + "\n", slots, deadline, text_with


def inspected(slots):
    """The lines of `inspect` for slots of the worked cycle, which repeats."""
    period = ["1/0 header 100/0000 C11", "empty", "empty", *[f"1/{r} row" for r in range(1, 24)]]
    period += ["1/27 links" + NO_LINKS, "1/0 header 1FF/3F7F C11"]
    return "".join(f"{at} {period[at % 28]}\n" for at in range(slots))


def inputs(folder):
    """The files of all cases, and the cases: words, output, status, and the files afterwards."""
    service, slots, deadline, text_with = many_pages()
    longest = (base() * 2341)[:65536]
    late = placed(65536, {65000: header(1, 0), 65003: LINK, 65004: row(1, 1, text(0x41))})
    erased = placed(65536, {16959: header(1, 0, 0, 1), 65000: header(1, 0), 65003: row(1, 1, text(0x41))})
    ages = placed(40, {0: header(1, 0), 17: row(1, 1, text(0x41)), 32: row(1, 2, text(0x42)), 33: row(1, 3, text(0x43))})
    files = {"pages.t42": slots, "base.t42": base(), "longest.t42": longest, "late.t42": late, "erased.t42": erased, "ages.t42": ages}
    often = [*block(1) * 8, time_filling(1), EMPTY]
    for name, packets in files.items():
        (folder / name).write_bytes(b"".join(packets))
    page = 'lines = 2\nserial = true\n[[page]]\nnumber = "100"\n'
    texts = {"pages.toml": service, "pages.cert": text_with(deadline), "early.cert": text_with(deadline - 1)}
    for name, words in (texts | {"base.toml": page, "often.toml": page + "often = 8\n"}).items():
        (folder / name).write_text(words)
    receive = "receive {} 100 --lines {} --start {} --slots {}".format
    return [
        ("plan pages.toml out", f"planned {len(slots)} slots\n", 0, b"".join(slots)),
        ("find pages.t42 pages.toml out", f"found deadline {deadline}\n", 0, text_with(deadline).encode()),
        ("certify pages.t42 pages.toml pages.cert", f"yes lines 1 repeat 1 deadline {deadline} pages 2000\n", 0, None),
        ("certify pages.t42 pages.toml early.cert", "no 10 late 100/0000 links 2\n", 1, None),
        ("plan often.toml out", f"planned {len(often)} slots\n", 0, b"".join(often)),
        ("inspect longest.t42", inspected(65536), 0, None),
        ("find base.t42 base.toml out --repeat 8", "found deadline 125\n", 0, certificate(125, 8).encode()),
        (receive("late.t42", 2, 40000, 25003), view({}), 0, None),
        (receive("late.t42", 2, 40000, 25004), view({}, A_LINK), 0, None),
        (receive("late.t42", 2, 40000, 25005), view({1: 0x41}, A_LINK), 0, None),
        (receive("late.t42", 2, 65001, 1000000), view({1: 0x41}, A_LINK), 0, None),
        # slot 999,999 is the header that erases
        (receive("erased.t42", 2, 0, 999999), view({1: 0x41}), 0, None),
        (receive("erased.t42", 2, 0, 1000000), view({}), 0, None),
        # rows at an age of 17, 32 and 33
        (receive("ages.t42", 32, 0, 40) + " --kind careful", view({3: 0x43}), 0, None),
        (receive("ages.t42", 31, 0, 40) + " --kind careful", view({2: 0x42, 3: 0x43}), 0, None),
        (receive("ages.t42", 16, 0, 40) + " --kind careful", view({1: 0x41, 2: 0x42, 3: 0x43}), 0, None),
        (receive("ages.t42", 32, 0, 40), view({1: 0x41, 2: 0x42, 3: 0x43}), 0, None),
    ]


def close_all():
    for stream in range(3):
        os.close(stream)


def run(program, folder, words, wanted, status, out, closed=False):
    """Whether the program behaves as expected. With all three streams closed it prints nothing."""
    made = folder / "out"
    made.write_bytes(b"")
    if closed:
        done = subprocess.run([program, *words.split()], cwd=folder, preexec_fn=close_all)
        right = done.returncode == status
    else:
        done = subprocess.run([program, *words.split()], cwd=folder, capture_output=True, timeout=120)
        right = (done.stdout, done.stderr, done.returncode) == (wanted.encode(), b"", status)
    right = right and made.read_bytes() == (out or b"")
    if not right:
        print(f"FAILED {words}: status {done.returncode}, {(done.stdout or b'')[:300]!r}")
    return right


def main():
    program = str(Path(sys.argv[1]).resolve())
    with tempfile.TemporaryDirectory() as name:
        folder = Path(name)
        cases = inputs(folder)
        results = [run(program, folder, *case) for case in cases]
        # with no stream to print to, OUT gets only its own bytes, and writing the line fails
        streams = ["certify pages.t42 pages.toml pages.cert", "inspect base.t42", "inspect missing"]
        results += [run(program, folder, words, "", 3, None, True) for words in streams]
        results += [run(program, folder, *case[:2], 3, case[3], True) for case in cases if case[3]]
    print(f"large: {len(results)} runs, {results.count(False)} failed")
    return not all(results)


if __name__ == "__main__":
    sys.exit(main())
