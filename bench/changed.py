#!/usr/bin/env python3
"""Puts a service on the air for a day, changes all its pages a thousand times, and asks what libzvbi's decoder shows.

usage: changed.py PROGRAM [CHANGES]

The service is a named pipe, so `air` gets another text when it is due. Each page that the decoder stores must be of one version, old or new, and
each version must be there within the time that is promised after its change. The status is 1 if not.

On a second day each version changes the first page alone, and has the pages in another order. With so short a time a page that stays would come
too late through the change, so the new cycle has to begin at another page header.
"""
import os
import re
import subprocess
import sys
import tempfile
from pathlib import Path

HERE = Path(__file__).resolve().parent
sys.path[:0] = [str(HERE), str(HERE.parent / "tests")]
from aired import give  # noqa: E402

LINES, FIELDS, PERIOD, PAGES = 12, 50 * 86400, 124, range(100, 140)
# the days: by how many places each version moves the pages on, and the time in fields
DAYS = ("40 pages", 0, 500), ("one of 40, in another order", 17, 160)


def version_of(page, version, moved):
    """The version of a page in a version of the service."""
    return 0 if moved and page != PAGES[0] else version


def rows(version):
    """Rows that all end with this version."""
    return "".join(f'{row} = "{f"row {row} of version {version:06}":>40}"\n' for row in range(1, 24))


def service(version, moved):
    """A version of the service, with the pages moved on."""
    first = version * moved % len(PAGES)
    return (f"lines = {LINES}\nserial = true\n" + "".join(f'[[page]]\nnumber = "{page}"\n[page.rows]\n{rows(version_of(page, version, moved))}'
                                                          for page in [*PAGES[first:], *PAGES[:first]])).encode()


def build(folder):
    flags = subprocess.run(["pkg-config", "--cflags", "--libs", "zvbi-0.2"], capture_output=True, text=True)
    if flags.returncode != 0:
        print("libzvbi's decoder isn't asked: pkg-config finds no zvbi-0.2 (libzvbi-dev)")
        return None
    subprocess.run(["cc", "-O2", "-o", folder / "changed", HERE / "changed.c", *flags.stdout.split()], check=True)
    return folder / "changed"


def aired(program, decoder, folder, changes, moved, within):
    """The log of the day, and what the decoder came to show."""
    path = folder / "service.pipe"
    os.mkfifo(path)
    words = [program, "air", path.name, "--within", str(within / 50), "--at", "61000/120000", "--fields", str(FIELDS)]
    with open(folder / "log", "w+") as log, open(folder / "shown", "w+") as shown:
        air = subprocess.Popen(words, cwd=folder, stdout=subprocess.PIPE, stderr=log, stdin=subprocess.DEVNULL)
        receiver = subprocess.Popen([decoder], stdin=air.stdout, stdout=shown)
        air.stdout.close()
        # a look each period, but not in the four periods of a hold
        looks, looks_to_a_change = 0, FIELDS // PERIOD // changes - 4
        while air.poll() is None:
            give(path, service(min(changes, looks // looks_to_a_change), moved), air)
            looks += 1
        receiver.wait()
        path.unlink()
        log.seek(0)
        shown.seek(0)
        return log.read(), shown.read().split("\n")[:-1]


def wrong(log, shown, changes, moved, within):
    """What is wrong, a line each."""
    begun = {0: 0}
    for number, field in enumerate(re.findall(r"^field (\d+) \S+ changed", log, re.M), 1):
        begun[number] = int(field)
    if len(begun) != changes + 1:
        yield f"{len(begun) - 1} changes, not {changes}"
    seen = {page: {} for page in PAGES}
    for line in shown:
        slots, page, version = line.split()
        if version == "mixed":
            yield f"page {page} is mixed after {slots} slots"
        else:
            seen[int(page)].setdefault(int(version), int(slots))
    for page, versions in seen.items():
        if list(versions) != sorted(versions):
            yield f"page {page} goes back to an older version"
        for version, field in begun.items():
            # the decoder gets 24 slots at once
            if versions.get(version_of(page, version, moved), 1 << 62) > (field + within) * LINES + 24:
                yield f"page {page} has not come {within} fields after change {version}"


def main():
    program = str(Path(sys.argv[1]).resolve())
    changes = int(sys.argv[2]) if len(sys.argv) > 2 else 1000
    with tempfile.TemporaryDirectory() as place:
        folder = Path(place)
        decoder = build(folder)
        if decoder is None:
            return 0
        faults = 0
        for order, moved, within in DAYS:
            log, shown = aired(program, decoder, folder, changes, moved, within)
            found = list(wrong(log, shown, changes, moved, within))
            for fault in found[:20]:
                print("wrong:", fault)
            print(f"| `air`, {FIELDS // 50:,} s: changes of {order}; versions shown; wrong "
                  f"| {log.count(' changed '):,}; {len(shown):,}; {len(found):,} |")
            faults += len(found)
    return 1 if faults else 0


if __name__ == "__main__":
    sys.exit(main())
