#!/usr/bin/env python3
"""Measures the program beside plain tools on the same files, and prints the rows of the first table of docs/MEASURED.md.

usage: table.py PROGRAM [WORD]

With WORD, only rows whose name has it. A time is the least of five runs, in milliseconds. Instructions, in millions, are those that callgrind
counts, if there is valgrind. Memory is the most that the program has held, in megabytes, if there is /usr/bin/time. "Of 8,192" is the ratio
to the figure for 8,192 slots: of instructions, or else of times. "Net" are the instructions without those that reading the service takes, as
`preview` of one page counts them; then the ratio is of these. If pkg-config finds libzvbi (zvbi-0.2), its decoder gets the same packets.
Goals that are missed are printed at the end. The status is 1 if a command fails.
"""
import functools
import os
import re
import shlex
import shutil
import subprocess
import sys
import tempfile
import time
from dataclasses import dataclass
from pathlib import Path

BENCH = Path(__file__).resolve().parent
EXAMPLE = BENCH.parent / "examples/broadcast.toml"
TIMER = "/usr/bin/time"


@dataclass
class Row:
    name: str
    words: str
    small: str = ""  # the same for 8,192 slots
    beside: tuple = ()  # plain tools, or other commands of ttx
    most: float = 0  # goal: milliseconds
    ratio: float = 0  # goal: times the first of these
    growth: float = 0  # goal: times the figure for 8,192 slots
    reads: tuple = ()  # the services that are read
    counted: bool = True  # few enough instructions to count them


INHIBITED = "inhibited-{0}.t42 inhibited.toml"
SENT = "65536.t42 sent.toml"
ROWS = [
    Row("`inspect`, 65,536 slots", "inspect 65536.t42", "inspect 8192.t42",
        ("od -An -tx1 -v 65536.t42", "sha256sum 65536.t42", "./vbi 65536.t42 65536"), growth=9),
    Row("`plan`, 2,000 pages", "plan inhibited.toml out", reads=("inhibited.toml",)),
    Row("`plan --spread`, the same", "plan inhibited.toml out --spread", beside=("ttx plan inhibited.toml out",), ratio=2,
        reads=("inhibited.toml",)),
    Row("`plan --spread`, 300 promises", "plan promised-serial.toml out --spread", most=1000),
    Row("`compose`, 2,000 pages of 23 rows", "compose author.toml out"),
    Row("`decompose`, the same", "decompose sent.toml out"),
    Row("`check`, the same", "check sent.toml", reads=("sent.toml",)),
    Row("`find`, 2,000 pages, 65,536 slots, repeat 8", f"find {INHIBITED.format(65536)} out --repeat 8", f"find {INHIBITED.format(8192)} out --repeat 8",
        ("sha256sum inhibited-65536.t42",), growth=9, reads=("inhibited.toml",)),
    Row("`certify`, the same", f"certify {INHIBITED.format(65536)} 65536.cert", f"certify {INHIBITED.format(8192)} 8192.cert", growth=9,
        reads=("inhibited.toml",)),
    Row("`certify`, 2,000 pages of 23 rows, repeat 1", f"certify {SENT} sent.cert", reads=("sent.toml",)),
    Row("`certify --twice`, the same", f"certify {SENT} sent.cert --twice", reads=("sent.toml",)),
    Row("`wait`, the same", f"wait {SENT}", reads=("sent.toml",)),
    Row("`report`, the same", f"report {SENT} sent.cert out", reads=("sent.toml",)),
    Row("`certify`, 50,000 named starts, repeat 8", "certify blank-65536.t42 blank.toml blank.cert", reads=("blank.toml",)),
    Row("`certify --twice`, the same", "certify blank-65536.t42 blank.toml blank.cert --twice", reads=("blank.toml",)),
    Row("`splice`, 2,000 common pages, 65,536 slots", "splice 65536.t42 65536.t42 sent.toml sent.toml sent.cert sent.cert",
        beside=(f"ttx certify {SENT} sent.cert",), ratio=4, reads=("sent.toml", "sent.toml")),
    Row("`refute`, 2,000 pages sent unchanged", f"refute {SENT} sent.cert", most=2000, reads=("sent.toml",)),
    Row("`refute`, the same with corrected bytes", "refute corrected.t42 sent.toml corrected.cert", counted=False),
    Row("`receive`, 1,000,000 slots", "receive 65536.t42 100 --slots 1000000", beside=("sha256sum 42-mb", "./vbi 65536.t42 1000000"), ratio=0.2),
    Row("`show --as svg`, 1,000,000 slots", "show 65536.t42 100 --slots 1000000 --as svg"),
    Row("`book`, 2,000 pages", "book 65536.t42 book.html", beside=("sha256sum book.html",), most=1000),
    Row("`extract`, 2,000 pages of 23 rows", "extract 65536.t42 out --lines 1"),
    Row("`send`, 4,000,000 slots, 12 a field", "send 65536.t42 --at 61000/120000 --fields 333333 --lines 12", most=200),
    Row("`monitor`, an hour: 2,160,000 slots", f"monitor example.t42 {EXAMPLE} example.cert hour.t42", beside=("sha256sum hour.t42",), most=1000),
    Row("`monitor --all --every 3000`, the same", f"monitor example.t42 {EXAMPLE} example.cert hour.t42 --all --every 3000", most=1000),
    Row("`monitor --rows`, the same", f"monitor example.t42 {EXAMPLE} example.cert hour.t42 --rows", most=1000),
]


def prepare(program, folder):
    """The files that the rows name."""

    def ttx(words, out=subprocess.DEVNULL):
        subprocess.run([program, *shlex.split(words)], cwd=folder, stdout=out, check=True)

    subprocess.run([sys.executable, BENCH / "inputs.py", folder], check=True)
    for slots in 8192, 65536:
        ttx(f"find {INHIBITED.format(slots)} {slots}.cert --repeat 8")
    ttx(f"find {SENT} sent.cert")
    ttx("find blank-65536.t42 blank.toml blank.cert --repeat 8")
    # no page is sent unchanged, but each is shown, so the search runs each page up to the longest deadline
    corrected = re.sub(r"(?m)^deadline .*", "deadline 1000000", (folder / "sent.cert").read_text())
    (folder / "corrected.cert").write_text(corrected)
    ttx("decompose sent.toml author.toml")
    ttx("book 65536.t42 book.html")
    ttx(f"plan {EXAMPLE} example.t42")
    ttx(f"find example.t42 {EXAMPLE} example.cert --repeat 2")
    with open(folder / "hour.t42", "wb") as hour:
        ttx("send example.t42 --at 61000/120000 --fields 180000 --lines 12", hour)
    flags = subprocess.run(["pkg-config", "--cflags", "--libs", "zvbi-0.2"], capture_output=True, text=True, check=False)
    if flags.returncode == 0:
        subprocess.run(["cc", "-O2", "-o", folder / "vbi", BENCH / "vbi.c", *flags.stdout.split()], check=True)


class Bench:
    def __init__(self, program, folder):
        self.program, self.folder = program, folder
        self.missed, self.failed = [], 0

    def run(self, words, errors=subprocess.DEVNULL):
        return subprocess.run(words, cwd=self.folder, stdout=subprocess.DEVNULL, stderr=errors, text=True, check=False)

    def milliseconds(self, words):
        """The least time of five runs."""
        times = []
        for _ in range(5):
            begin = time.perf_counter()
            done = self.run(words)
            times.append(time.perf_counter() - begin)
            if done.returncode > 1:
                print(f"FAILED {' '.join(words)}: status {done.returncode}", file=sys.stderr)
                self.failed += 1
        return min(times) * 1000

    def instructions(self, words):
        """Millions of instructions, if they can be counted."""
        if shutil.which("valgrind"):
            said = self.run(["valgrind", "--tool=callgrind", "--callgrind-out-file=/dev/null", *words], subprocess.PIPE).stderr
            if found := re.search(r"Collected : (\d+)", said):
                return int(found[1]) / 1e6
        return None

    def megabytes(self, words):
        """The most memory that a run holds, if it can be measured."""
        if os.path.exists(TIMER):
            said = self.run([TIMER, "-f", "most %M", *words], subprocess.PIPE).stderr
            if found := re.search(r"^most (\d+)$", said, re.M):
                return int(found[1]) / 1024
        return None

    def measure(self, words, counted):
        command = [self.program, *shlex.split(words)]
        return self.milliseconds(command), self.instructions(command) if counted else None

    @functools.cache
    def reading(self, service):
        """Millions of instructions that reading a service takes."""
        return self.instructions([self.program, "preview", service, "100"])

    def net(self, row, count):
        """Millions of instructions without those that reading the services of a row takes."""
        return count and count - sum(map(self.reading, row.reads))

    def grown(self, row, took, count):
        """How often the figure for 8,192 slots goes into that for 65,536."""
        small_time, small_count = self.measure(row.small, row.counted)
        grown = self.net(row, count) / self.net(row, small_count) if count and small_count else took / small_time
        if grown > row.growth:
            self.missed.append(f"{row.name}: {grown:.1f} times the figure for 8,192 slots, not at most {row.growth}")
        return f"of 8,192: {grown:.1f}"

    def tools(self, row, took):
        """The times of what a row has beside it."""
        for number, (name, *words) in enumerate(map(str.split, row.beside)):
            if name != "./vbi" or (self.folder / "vbi").exists():
                other = self.milliseconds([self.program if name == "ttx" else name, *words])
                if number == 0 and row.ratio and took > row.ratio * other:
                    self.missed.append(f"{row.name}: {took / other:.2f} times {row.beside[0]}, not at most {row.ratio}")
                yield f"`{words[0] if name == 'ttx' else name.replace('./vbi', 'vbi_decode')}` {other:,.1f}"

    def print_row(self, row):
        took, count = self.measure(row.words, row.counted)
        if row.most and took > row.most:
            self.missed.append(f"{row.name}: {took:,.1f} ms, not at most {row.most}")
        memory = self.megabytes([self.program, *shlex.split(row.words)])
        net = [f"net {self.net(row, count):,.1f}"] if row.reads and count else []
        beside = [*net, *self.tools(row, took), *([self.grown(row, took, count)] if row.small else [])]
        figures = [f"{took:,.1f}", *("-" if n is None else f"{n:,.1f}" for n in (count, memory))]
        print(f"| {row.name} | {' | '.join(figures)} | {', '.join(beside)} |", flush=True)


def main():
    if len(sys.argv) not in (2, 3) or sys.argv[1].startswith("-"):
        sys.exit(__doc__)
    program = str(Path(sys.argv[1]).resolve())
    with tempfile.TemporaryDirectory() as name:
        folder = Path(name)
        prepare(program, folder)
        bench = Bench(program, folder)
        print("| `make bench` | ms | million instructions | MB | beside it, ms |\n|---|---|---|---|---|")
        for row in ROWS:
            if len(sys.argv) == 2 or sys.argv[2] in row.name:
                bench.print_row(row)
    for missed in bench.missed:
        print(f"goal missed: {missed}", file=sys.stderr)
    return 1 if bench.failed else 0


if __name__ == "__main__":
    sys.exit(main())
