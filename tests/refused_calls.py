#!/usr/bin/env python3
"""Runs the built program while one of its calls of the C library fails: each allocation in turn, and each read and each write, in pieces of
some bytes. Then the program must end with `fault: memory`, `fault: read` or `fault: write`, and have written only the first bytes of its
usual output. After a failed allocation it may also do what it does otherwise, but at least one allocation of each command must end in
`fault: memory`. A command without any allocation, read or write fails the test, except where the table below says so; also one that ends with
another status than the table says while no call fails, and a command of `ttx --help` that the table lacks. `air` goes on where a call fails after
the first packet, unless it is a write of packets, and notes it in its log; `air --replay` ends with `fault: memory` then. `monitor --all` and
`--every` write while they read, so of their output the first lines are there.

usage: refused_calls.py PROGRAM

refusing.c makes the calls fail. It is built with the clang of the kit that `rt` belongs to, or else with a C compiler of the machine, and
loaded before the program. It runs a command as often as needed, each time from the beginning of main, in a process of its own.
"""
import os
import shutil
import subprocess
import sys
import tempfile
from concurrent.futures import ThreadPoolExecutor
from pathlib import Path

sys.dont_write_bytecode = True
from cases import commands  # noqa: E402
from make_data import counter  # noqa: E402

TOP = Path(__file__).resolve().parent.parent
PIECES = (1, 7, 41, 42, 43)

# commands that read no file
WITHOUT_READS = {"version", "explain witness-bad"}

# words, their status while no call fails, and whether only their allocations are made to fail
COMMANDS = [
    ("inspect small.t42", 0, False),
    ("plan small.toml out", 0, False),
    ("plan small.toml out --class clearing", 0, False),
    ("find small.t42 small.toml out", 0, False),
    ("find small.t42 small.toml out --class clearing", 0, False),
    ("certify small.t42 small.toml small.cert", 0, False),
    ("certify small.t42 small.toml early.cert", 1, False),
    ("certify small.t42 small.toml clearing.cert", 0, False),
    ("certify small.t42 small.toml small.cert --late", 0, False),
    ("certify small.t42 small.toml small.cert --late --numbers", 0, False),
    ("certify small.t42 small.toml small.cert --twice", 0, False),
    ("certify small.t42 small.toml early.cert --all --json", 1, False),
    ("refute small.t42 small.toml early.cert", 1, False),
    ("refute small.t42 small.toml early.cert --json", 1, False),
    ("refute small.t42 small.toml early.cert --save out", 1, False),
    ("replay small.t42 small.toml early.counter", 0, False),
    ("replay base.t42 base.toml base-26.counter", 0, True),
    ("replay base.t42 base.toml base-26.counter --as text", 0, True),
    ("replay base.t42 base.toml base-26.counter --as html", 0, True),
    ("replay turned.t42 base.toml base-26.counter", 1, True),
    ("preview small.toml 100", 0, False),
    ("preview small.toml 100 --as blocks", 0, False),
    ("preview small.toml --all --as ansi", 0, False),
    ("receive small.t42 100 --slots 12", 0, False),
    ("show small.t42 100 --slots 12 --as ansi", 0, False),
    ("wait small.t42 small.toml", 0, False),
    ("wait small.t42 small.toml --json", 0, False),
    ("wait small.t42 small.toml --repeat 8 --class clearing", 0, False),
    ("send small.t42 --at 61000/235959 --fields 3 --lines 2 --phase 1", 0, False),
    ("monitor small.t42 small.toml small.cert small.t42", 0, False),
    ("pages small.t42", 0, False),
    ("extract small.t42 out --lines 2", 0, False),
    ("compose desk.toml out", 0, False),
    ("decompose small.toml out", 0, False),
    ("check small.toml", 0, False),
    ("check check-several.toml --long", 2, True),
    ("check desk-errors.toml", 2, True),
    ("check desk-warnings.toml --long --strict", 1, True),
    ("check check-several.toml --json", 2, True),
    ("monitor small.t42 small.toml small.cert small.t42 --json", 0, True),
    ("monitor small.t42 small.toml small.cert small.t42 --rows --json", 0, True),
    ("monitor small.t42 small.toml small.cert feed.t42 --all --every 1", 1, False),
    ("monitor small.t42 small.toml small.cert feed.t42 --all --every 1 --json", 1, True),
    ("certify small.t42 small.toml small.cert --late --numbers --json", 0, True),
    ("certify small.t42 small.toml small.cert --twice --json", 0, True),
    ("wait small.t42 small.toml --items --numbers --json", 0, True),
    ("extract small.t42 out --lines 2 --partial", 0, True),
    ("extract unlike.t42 out --lines 2 --partial", 0, True),
    ("extract small.t42 out", 1, True),
    ("wait small.toml small.t42", 2, True),
    ("version", 0, False),
    ("explain witness-bad", 0, False),
    ("explain witnes-bad", 2, True),
    ("report small.t42 small.toml small.cert out", 0, False),
    ("splice small.t42 small.t42 small.toml small.toml small.cert small.cert", 0, False),
    ("plan broadcast.toml out", 0, True),
    ("plan broadcast.toml out --class clearing", 0, True),
    ("find base.t42 base.toml out", 0, True),
    ("find base.t42 base.toml out --repeat 8 --class clearing", 0, True),
    ("find near.t42 base.toml out", 1, True),
    ("certify base.t42 base.toml base.cert", 0, True),
    ("certify base.t42 base.toml clearing-base.cert", 0, True),
    ("certify near.t42 base.toml base.cert", 1, True),
    ("splice base.t42 turned.t42 base.toml base.toml base.cert turned.cert", 1, True),
    ("plan often-3.toml out", 2, True),
    ("find cut.t42 base.toml out", 2, True),
    ("wait near.t42 base.toml", 1, True),
    ("pages base.t42", 0, True),
    ("book small.t42 out", 0, True),
    ("report base.t42 base.toml base.cert out --date 2024-02-29", 0, True),
    ("extract base.t42 out --lines 2", 0, True),
    ("extract unlike.t42 out --lines 2", 2, True),
    ("compose desk-mistakes.toml out", 1, True),
    ("decompose desk-composed.toml out", 0, True),
    ("check check-misspelt.toml", 0, True),
    ("check check-row-of-47.toml", 2, True),
    ("certify missing base.toml base.cert", 3, True),
    ("find base.t42", 2, True),
    ("--help", 2, True),
    ("help plan", 2, True),
    ("air small.toml --within 1 --at 61000/235959 --fields 9", 0, False),
    ("air small.toml --within 1 --at 61000/235959 --fields 9 --at-once --spread --log out", 0, True),
    ("air desk.toml --within 1 --at 61000/235959 --fields 9", 0, True),
    ("air desk-mistakes.toml --within 1 --fields 9", 2, True),
    ("air desk-errors.toml --within 1 --fields 9", 2, True),
    ("air texts --replay air.log", 0, True),
    ("air texts --replay changed.log", 0, True),
]


def make_inputs(folder):
    """Small inputs, and the worked ones."""
    data = folder / "data"
    subprocess.run([sys.executable, TOP / "tests/make_data.py", data], check=True)
    taken = {
        "small.t42": "planned-suppressed.t42", "small.toml": "planned-suppressed.toml", "near.t42": "row-near-header.t42",
        "cut.t42": "83-bytes", "unlike.t42": "row-5-unlike.t42", "clearing-base.cert": "clearing-base.cert",
        "turned.t42": "turned.t42", "turned.cert": "turned.cert",
    }
    for name, source in taken.items():
        shutil.copy(data / source, folder / name)
    for name in ("base.t42", "base.toml", "base.cert", "often-3.toml", "base-26.counter", "check-misspelt.toml",
                 "check-row-of-47.toml", "check-several.toml", "desk.toml", "desk-composed.toml", "desk-errors.toml", "desk-mistakes.toml",
                 "desk-warnings.toml"):
        shutil.copy(data / name, folder)
    shutil.copy(TOP / "examples/broadcast.toml", folder)
    head = "lines 2\nrepeat 1\ndeadline"
    (folder / "small.cert").write_text(f"ttx certificate 1\n{head} 5\n100/0000 links 3\n")
    # three periods, with two wrong bits in one byte of the second one
    feed = bytearray((folder / "small.t42").read_bytes() * 3)
    feed[len(feed) // 3 + 10] ^= 0xC0
    (folder / "feed.t42").write_bytes(feed)
    (folder / "early.cert").write_text(f"ttx certificate 1\n{head} 4\n100/0000 links 3\n")
    (folder / "early.counter").write_text(counter(1, 8, 4, six=" 1 1 16255" + " 0" * 15))
    (folder / "clearing.cert").write_text(f"ttx certificate 2\nclass clearing\n{head} 3\n")
    shutil.copy(data / "air.log", folder)
    (folder / "texts").mkdir()
    shutil.copy(data / "base.toml", folder / "texts")


def make_changed_log(program, folder):
    """The log of an air on which another text takes over, and both texts."""
    first = (folder / "small.toml").read_text()
    texts = {"first.toml": first, "second.toml": first + "# the same once more\n"}
    for name, text in texts.items():
        (folder / "texts" / name).write_text(text)
    shutil.copy(folder / "texts/first.toml", folder / "aired.toml")
    words = "air aired.toml --within 1 --at 61000/235959 --fields 4000 --at-once --log changed.log"
    # more packets than a pipe holds: the text is changed while they go out
    with subprocess.Popen([program, *words.split()], cwd=folder, stdout=subprocess.PIPE, stderr=subprocess.DEVNULL) as air:
        air.stdout.read(4200)
        shutil.copy(folder / "texts/second.toml", folder / "next.toml")
        os.replace(folder / "next.toml", folder / "aired.toml")
        air.stdout.read()
    if " changed " not in (folder / "changed.log").read_text():
        raise SystemExit("refused_calls: no text took over on the air")


class Runs:
    """Runs of one command, and what it does when no call fails."""

    def __init__(self, program, folder, words):
        self.folder, self.words, self.made = folder, words, 0
        environment = {"LD_PRELOAD": str(folder / "refusing.so")}
        self.server = subprocess.Popen(
            [program, *words.split()], cwd=folder, env=environment, stdin=subprocess.PIPE, stdout=subprocess.PIPE, bufsize=0
        )
        self.failures = []

    def run(self, growth=0, read=0, write=0, piece=0, counted=0):
        """Status, standard output, standard error and OUT."""
        out = self.folder / "out"
        out.unlink(missing_ok=True)
        self.server.stdin.write(f"{growth} {read} {write} {piece} {counted}\n".encode())
        status = os.waitstatus_to_exitcode(int(self.server.stdout.readline()))
        self.made += 1
        told = [(self.folder / name).read_bytes() for name in ("stdout", "stderr")]
        return status, *told, out.read_bytes() if out.exists() else b""

    def counted(self, **calls):
        """The same, and how many allocations, reads and writes there were."""
        answer = self.run(counted=1, **calls)
        return answer, [int(count) for count in (self.folder / "counts").read_text().split()]

    def end(self):
        self.server.stdin.close()
        self.server.wait()
        self.server.stdout.close()

    def expect(self, is_right, answer, call):
        if not is_right:
            self.failures.append(f"{self.words}, {call}: status {answer[0]}, {answer[1][:80]!r}, {answer[2][:80]!r}, OUT of {len(answer[3])} bytes")

    def is_cut_by(self, ample, errors, words):
        """Whether standard error has the beginning of what it has otherwise, and then these words."""
        return errors.endswith(words) and ample.startswith(errors.removesuffix(words))

    def is_told(self, ample, answer):
        """Whether it ended in `fault: memory`, and nothing went out."""
        return (answer[0], answer[1], answer[3]) == (3, b"", b"") and self.is_cut_by(ample[2], answer[2], b"fault: memory\n")

    def refuse_growths(self):
        """How many allocations there are, and how many of them end in `fault: memory` when they fail."""
        ample, (growths, _, _) = self.counted()
        told = 0
        for n in range(1, growths + 2):
            answer = self.run(growth=n)
            is_told = self.is_told(ample, answer)
            told += is_told
            self.expect(answer == ample or (is_told and n <= growths), answer, f"growth {n} of {growths}")
        self.expect(told > 0, ample, f"none of {growths} growths ends in fault: memory")
        return growths, told

    def fail_reads(self, ample, piece):
        answer, (_, reads, _) = self.counted(piece=piece)
        self.expect(answer == ample, answer, f"pieces of {piece}")
        self.expect((reads > 0) != (self.words in WITHOUT_READS), answer, f"{reads} reads")
        for n in range(1, reads + 1):
            answer = self.run(piece=piece, read=n)
            self.expect(answer == (3, b"", b"fault: read\n", b""), answer, f"pieces of {piece}, read {n} of {reads}")
        return reads

    def fail_writes(self, ample, piece):
        _, stdout, _, out = ample
        sizes = [min(piece, len(text) - at) for text in (out, stdout) for at in range(0, len(text), piece)]
        answer, (_, _, writes) = self.counted(piece=piece)
        self.expect(writes == len(sizes) > 0, answer, f"pieces of {piece}, {writes} writes and not {len(sizes)}")
        for n in range(1, writes + 1):
            answer = self.run(piece=piece, write=n)
            written = sum(sizes[: n - 1])
            want = (3, stdout[: max(written - len(out), 0)], b"fault: write\n", out[:written])
            self.expect(answer == want, answer, f"pieces of {piece}, write {n} of {writes}")
        return writes


class AirRuns(Runs):
    """Runs of `air`, which goes on when it looks at its text and has no memory, or cannot read it; or when its log fails."""

    def is_kept(self, ample, answer, words):
        """Whether all packets went out, and the log has one line more, with these words."""
        kept = [line for line in answer[2].splitlines(keepends=True) if b" kept" in line and line.endswith(words)]
        return answer[:2] == ample[:2] and len(kept) == 1 and answer[2].replace(kept[0], b"") == ample[2]

    def is_ended(self, ample, answer, words):
        """Whether no packets went out, and the log has the beginning of what it has otherwise, and then these words."""
        return answer[:2] == (3, b"") and self.is_cut_by(ample[2], answer[2], words)

    def refuse_growths(self):
        ample, (growths, _, _) = self.counted()
        told = 0
        for n in range(1, growths + 2):
            answer = self.run(growth=n)
            is_told = self.is_ended(ample, answer, b"fault: memory\n")
            told += is_told
            is_right = answer == ample or is_told or self.is_kept(ample, answer, b": out of memory\n")
            self.expect(is_right and (n <= growths or answer == ample), answer, f"growth {n} of {growths}")
        self.expect(told > 0, ample, f"none of {growths} growths ends in fault: memory")
        return growths, told

    def fail_reads(self, ample, piece):
        answer, (_, reads, _) = self.counted(piece=piece)
        self.expect(answer == ample, answer, f"pieces of {piece}")
        kept = 0
        for n in range(1, reads + 1):
            answer = self.run(piece=piece, read=n)
            is_kept = self.is_kept(ample, answer, b" kept: the text cannot be read\n")
            kept += is_kept
            self.expect(is_kept or self.is_ended(ample, answer, b"fault: read\n"), answer, f"pieces of {piece}, read {n} of {reads}")
        self.expect(0 < kept < reads, answer, f"{kept} of {reads} reads leave the pages on the air")
        return reads

    def fail_writes(self, ample, piece):
        _, stdout, log, _ = ample
        _, (_, _, writes) = self.counted(piece=piece)
        sent = set()
        for n in range(1, writes + 1):
            answer = self.run(piece=piece, write=n)
            is_short = answer[0] == 3 and answer[2].endswith(b"fault: write\n") and stdout.startswith(answer[1]) and len(answer[1]) % piece == 0
            is_cut = answer[:2] == ample[:2] and len(answer[2]) < len(log)
            if is_short:
                sent.add(len(answer[1]))
            self.expect(is_short or is_cut, answer, f"pieces of {piece}, write {n} of {writes}")
        self.expect(sent == set(range(0, len(stdout), piece)), ample, f"failed writes of packets after {sorted(sent)} bytes")
        return writes


class ReplayRuns(Runs):
    """Runs of `air --replay`, which goes on when there is no memory for its log or for a change."""

    def is_told(self, ample, answer):
        """Whether it ended in `fault: memory`, and no packets went out, or as many as otherwise."""
        return answer[0] == 3 and answer[2] == b"fault: memory\n" and len(answer[1]) in (0, len(ample[1]))


class ReportRuns(Runs):
    """Runs of `monitor` that write while they read: what went out before a call fails stays."""

    def is_cut(self, ample, answer, words):
        """Whether the first lines went out, and standard error has these words."""
        lines = answer[1]
        return answer[0] == 3 and answer[2] == words and ample[1].startswith(lines) and (not lines or lines.endswith(b"\n"))

    def refuse_growths(self):
        ample, (growths, _, _) = self.counted()
        told = set()
        for n in range(1, growths + 2):
            answer = self.run(growth=n)
            is_told = self.is_cut(ample, answer, b"fault: memory\n")
            if is_told:
                told.add((n, answer[1]))
            self.expect(answer == ample or (is_told and n <= growths), answer, f"growth {n} of {growths}")
        cuts = {lines for _, lines in told}
        self.expect(len(cuts) > 2 and b"" in cuts, ample, f"growths that end in fault: memory after {len(cuts)} beginnings")
        return growths, len(told)

    def fail_reads(self, ample, piece):
        answer, (_, reads, _) = self.counted(piece=piece)
        self.expect(answer == ample, answer, f"pieces of {piece}")
        cuts = set()
        for n in range(1, reads + 1):
            answer = self.run(piece=piece, read=n)
            self.expect(self.is_cut(ample, answer, b"fault: read\n"), answer, f"pieces of {piece}, read {n} of {reads}")
            cuts.add(answer[1])
        self.expect(len(cuts) > 2 and b"" in cuts, ample, f"reads that fail after {len(cuts)} beginnings")
        return reads

    def fail_writes(self, ample, piece):
        _, (_, _, writes) = self.counted(piece=piece)
        sent = set()
        for n in range(1, writes + 1):
            answer = self.run(piece=piece, write=n)
            is_right = (answer[0], answer[2]) == (3, b"fault: write\n") and ample[1].startswith(answer[1]) and answer[1] != ample[1]
            self.expect(is_right, answer, f"pieces of {piece}, write {n} of {writes}")
            sent.add(answer[1])
        self.expect(len(sent) == writes > 0, ample, f"{writes} writes fail after {len(sent)} beginnings")
        return writes


def compiler():
    """The clang beside the `rt` that is called (which may be called through a script in another folder), or a C compiler of the machine."""
    rt = shutil.which("rt")
    kits = [Path(os.path.realpath(rt)).parent.parent] if rt else []
    found = [str(kit / "toolchain/bin/clang") for kit in kits] + ["clang", "gcc", "cc"]
    for name in found:
        if shutil.which(name):
            return name
    raise SystemExit(f"refused_calls: none of {', '.join(found)} is there to build refusing.c with")


def build(folder):
    words = [compiler(), "-O1", "-shared", "-fPIC", "-nostdlib", "-o", folder / "refusing.so", TOP / "tests/refusing.c"]
    subprocess.run(words, check=True)


def kind_of(words):
    """The class of the runs of a command."""
    if words.startswith("air "):
        return ReplayRuns if "--replay" in words else AirRuns
    return ReportRuns if words.startswith("monitor ") and "--every" in words else Runs


def refuse_all(program, folder, words, status, growths_alone):
    """All runs of one command in a folder of its own: how many allocations, `fault: memory` answers, reads and writes there were."""
    runs = kind_of(words)(program, folder, words)
    growths, told = runs.refuse_growths()
    ample = runs.run()
    runs.expect(ample[0] == status, ample, f"while no call fails, and not status {status}")
    pieces = () if growths_alone else PIECES
    reads = sum(runs.fail_reads(ample, piece) for piece in pieces)
    writes = sum(runs.fail_writes(ample, piece) for piece in pieces)
    runs.end()
    return runs, (growths, told, reads, writes)


def main():
    program = str(Path(sys.argv[1]).resolve())
    lacking = sorted(set(commands(program)) - {words.split()[0] for words, _, _ in COMMANDS})
    failures, made = [f"{name}: the table has no line for this command" for name in lacking], 0
    with tempfile.TemporaryDirectory() as name:
        inputs = Path(name, "inputs")
        inputs.mkdir()
        build(inputs)
        make_inputs(inputs)
        make_changed_log(program, inputs)

        def in_own_folder(number):
            return refuse_all(program, shutil.copytree(inputs, Path(name, str(number))), *COMMANDS[number])

        print(f"{'refused, one at a time':<62} {'growths':>8} {'told':>8} {'reads':>8} {'writes':>8}")
        with ThreadPoolExecutor(len(os.sched_getaffinity(0))) as workers:
            for runs, (growths, told, reads, writes) in workers.map(in_own_folder, range(len(COMMANDS))):
                print(f"{runs.words:<62} {growths:>8} {told:>8} {reads:>8} {writes:>8}", flush=True)
                failures += runs.failures
                made += runs.made
    for failure in failures[:20]:
        print(f"FAILED {failure}")
    print(f"refused calls: {made} runs, {len(failures)} failed")
    return bool(failures)


if __name__ == "__main__":
    sys.exit(main())
