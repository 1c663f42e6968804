#!/usr/bin/env python3
"""Measures `air`, and prints rows of the first table of docs/MEASURED.md: its time without changes, and for 300 and for 1,200 pages, of which hardly
more fit into a cycle, the processor time from one change to the next, and the most memory after ten changes and after 1,000.

usage: air.py PROGRAM [CHANGES]

The service is a named pipe, so `air` gets another text each time that it looks.
"""
import os
import subprocess
import sys
import tempfile
import time
from pathlib import Path

sys.path.insert(0, str(Path(__file__).resolve().parent.parent / "tests"))
from aired import give
from inputs import page_ids

WITHIN = 6000


def service(pages, rows, word):
    """A service of so many pages, the first of which shows a word."""
    lines = ["lines = 1", "serial = true"]
    for number, (mag, page, sub) in enumerate(page_ids(pages)):
        lines += ["[[page]]", f'number = "{mag}{page:02X}"', f'sub = "{sub:04X}"', "[page.rows]"]
        lines += [f'{row} = "{word if number == 0 else "a row"} {number} {row}"' for row in range(1, rows + 1)]
    return ("\n".join(lines) + "\n").encode()


def most(process):
    """The most memory that the process has held, in megabytes."""
    with open(f"/proc/{process.pid}/status") as status:
        return next(int(line.split()[1]) for line in status if line.startswith("VmHWM")) / 1024


def seconds(process):
    """The processor time that the process has taken."""
    with open(f"/proc/{process.pid}/stat") as file:
        return sum(int(n) for n in file.read().rsplit(")", 1)[1].split()[11:13]) / os.sysconf("SC_CLK_TCK")


def changes(program, folder, texts, count):
    """The most memory after ten changes and after all, and the processor time of one change."""
    path = folder / "service.pipe"
    os.mkfifo(path)
    words = [program, "air", path.name, "--within", str(WITHIN), "--at", "61000/120000"]
    process = subprocess.Popen(words, cwd=folder, stdout=subprocess.DEVNULL, stderr=open(folder / "log", "w"), stdin=subprocess.DEVNULL)
    told = {}
    for number in range(count + 1):
        give(path, texts[number % 2], process)
        if number in (10, count):
            told[number] = most(process), seconds(process)
    process.kill()
    process.wait()
    path.unlink()
    changed = (folder / "log").read_text().count(" changed ")
    return told[10][0], told[count][0], (told[count][1] - told[10][1]) / (count - 10), changed


def main():
    program = os.path.abspath(sys.argv[1])
    count = int(sys.argv[2]) if len(sys.argv) > 2 else 1000
    with tempfile.TemporaryDirectory() as name:
        folder = Path(name)
        (folder / "service.toml").write_bytes(service(300, 20, "one"))
        fields = 100_000_000
        begin = time.time()
        subprocess.run([program, "air", "service.toml", "--within", str(WITHIN), "--at", "61000/120000", "--fields", str(fields)], cwd=folder,
                       stdout=subprocess.DEVNULL, stderr=subprocess.DEVNULL, check=True)
        took = time.time() - begin
        print(f"| `air`, {fields:,} slots | {took * 1000:,.1f} | - | - | {fields / took / 1e6:.1f} million slots a second |")
        for pages, rows in (300, 20), (1200, 20):
            texts = [service(pages, rows, word) for word in ("one", "two")]
            ten, all_of_them, each, changed = changes(program, folder, texts, count)
            print(f"| `air`, a change of {pages:,} pages | {each * 1000:,.1f} | - | {all_of_them:.1f} | {ten:.1f} MB after 10, {changed:,} changes made |")


if __name__ == "__main__":
    main()
