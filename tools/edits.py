#!/usr/bin/env python3
"""Tries each mutant by itself: edits.py [--jobs N] [--crate NAME].. [--anew] [--log LOG], or edits.py --stale

The prover has to refuse each mutant, in a copy of the crates. Before that, the written answers of the changed functions are removed from the
copy if the search proves the functions without them. So the mutant is refused by the contract, and not because an answer written for the
original body no longer fits. Mutants of bodies are tried together, one of each function, in one check, and each must be refused at the function
that it changes. Where that check says nothing of some of them, these are tried together again, and in the end alone, as are mutants of
definitions, types and constants.

Each result is written to the record (record.py). A later run tries only mutants that the record lacks: of which no line with the checksums as
they are says that they are refused. --anew tries all. --log takes results from the log of a run of the gate over the same sources first
(gate_log.py), except for mutants that were tried there with written answers in place. --stale tries nothing, and lists the mutants that the
record lacks.

The status is 1 if a mutant is not refused for want of a proof, if a heading does not name the functions that its mutant changes, if two
mutants of one edit file change one function, or if a mutant that the record has is gone: --forget drops its line.
"""
import argparse
import collections
import concurrent.futures
import hashlib
import os
import pathlib
import shutil
import subprocess
import sys
import tempfile

from gate_log import shown_in
from mutants import ENOUGH, LACKING, PROVED, Verdict, answers_of, changed_among, doubled, misnamed, mutants_of, rounds, state_of_answers
from mutants import steps, verdicts_of
from quick_rt import unpack
from record import PARTS, Record, below, crates, logic, sources, sum_of_sources

TOOLS = pathlib.Path(__file__).resolve().parent


def portions(mutants, most):
    """A crate's mutants in at most `most` portions, each of two groups or more, to be tried side by side."""
    groups = rounds(mutants)
    count = max(1, min(most, len(groups) // 2))
    return [[mutant for group in groups[at::count] for mutant in group] for at in range(count)]


class Room:
    """A copy of the sources in which mutants are tried."""

    def __init__(self, folder, known):
        self.folder, self.known = folder, known

    def hold(self, name):
        """Copies the crate and those below it from the repository; keeps the kept work of checks."""
        names = below(self.known, name)
        self.crate = self.folder / "crates" / name
        self.folder.mkdir(parents=True, exist_ok=True)
        (self.folder / "crates.txt").write_text("".join(line for line in open("crates.txt") if line.split(":")[0].strip() in names))
        shutil.copy("HANDLES", self.folder)
        for it in (self.folder / "crates").glob("*"):
            for part in PARTS:
                shutil.rmtree(it / part, ignore_errors=True)
        for it in sources(names):
            (self.folder / it).parent.mkdir(parents=True, exist_ok=True)
            shutil.copy2(it, self.folder / it)
        for it in names:
            if it != name:
                self.lend(it, "rlib")
        self.lend(name, "incremental")
        self.begin(name)

    def lend(self, name, part):
        """Gives the room what a check of the repository kept of a crate, if there is any: its library, or its proofs. rt looks whether
        they are of these sources, and writes new files where they are not."""
        kept = pathlib.Path("crates", name, "out", part)
        lent = self.folder / kept
        if kept.is_dir():
            shutil.rmtree(lent, ignore_errors=True)
            shutil.copytree(kept, lent, copy_function=os.link)

    def begin(self, name):
        """Gives the room what the crate's library holds of its proofs, if no check kept them."""
        kept, library = self.crate / "out/incremental", pathlib.Path("crates", name, "out/rlib", f"{name}.rlib")
        if library.is_dir() and not kept.is_dir():
            try:
                unpack(library, kept)
            except (OSError, ValueError, StopIteration):
                shutil.rmtree(kept, ignore_errors=True)

    def check(self, functions=()):
        """The status of a check of the crate, or of these functions alone, and its output."""
        only = [word for it in functions for word in ("--only", it)]
        words = ["nice", "-n", "5", sys.executable, TOOLS / "quick_rt.py", "check", "--jobs", "1", *only]
        ran = subprocess.run(words, cwd=self.crate, stdout=subprocess.PIPE, stderr=subprocess.STDOUT, text=True, errors="replace", check=False)
        return ran.returncode, ran.stdout

    def leave_out(self, mutants):
        """Removes the written answers of the changed functions, except those that the search needs. Returns the functions whose answers are
        left out; `None` if the crate is not proved."""
        taken = {}
        for function, answers in answers_of(self.crate, mutants).items():
            taken[function] = answers, answers.read_text()
            answers.unlink()
        while True:
            status, told = self.check()
            back = [it for it, _ in LACKING.findall(told) if it in taken] if status else []
            if status and not back:
                back = list(taken)
            for function in back:
                answers, text = taken.pop(function)
                answers.write_text(text)
            if not back:
                self.functions = PROVED.findall(told)
                return None if status else set(taken)

    def attempt(self, mutants):
        """The verdict on each of some mutants that are tried together; `None` for one that has to be tried alone."""
        former = {}
        try:
            for path, old, new in (step for mutant in mutants for step in steps(mutant.lines)):
                file = self.crate / path
                text = file.read_text() if file.is_file() else ""
                former.setdefault(file, text)
                if text.count(old) != 1:
                    bad = Verdict("bad", "", f"an old text stands {text.count(old)} times in {path}")
                    return [bad if len(mutants) == 1 else None for _ in mutants]
                file.write_text(text.replace(old, new))
            changed = changed_among(mutants, self.functions)
            alone = verdicts_of(mutants, *self.check(changed)) if changed else [None]
            # (a check of the changed functions says of them what one of the crate does, so only what it leaves open needs that)
            return alone if all(it and it.is_enough for it in alone) else verdicts_of(mutants, *self.check())
        finally:
            self.put(former)

    @staticmethod
    def put(texts):
        for file, text in texts.items():
            if text:
                file.write_text(text)


def try_crate(room, name, mutants, now, record):
    """Tries these mutants of a crate. Returns how many are not refused for want of a proof."""
    room.hold(name)
    over = sum_of_sources(room.known, name, now)
    left_out = room.leave_out(mutants)
    if left_out is None:
        print(f"{name}: not proved as it stands", flush=True)
        return 1
    failed, groups = 0, rounds(mutants)
    while groups:
        group = groups.pop(0)
        told = list(zip(group, room.attempt(group)))
        for mutant, verdict in (it for it in told if it[1]):
            record.write(mutant, over, verdict, state_of_answers(pathlib.Path("crates", name), mutant, left_out))
            failed += not verdict.is_enough
            said = f"{name}/{mutant.edit}: {mutant.heading}: {verdict.word} {verdict.function}: {verdict.how[:100]}"
            print(f"{'' if verdict.is_enough else 'FAILED '}{said}", flush=True)
        record.save()
        # those of which the check said nothing are tried together again, or in halves once that says nothing of any
        left = [mutant for mutant, it in told if not it]
        half = len(left) // 2 if len(left) == len(group) else 0
        groups[:0] = [it for it in (left[:half], left[half:]) if it]
    return failed


def try_mutants(stale, known, jobs, now, record):
    """Tries these mutants in so many rooms. Returns how many are not refused for want of a proof."""
    mine = hashlib.sha256(str(pathlib.Path.cwd()).encode()).hexdigest()[:8]
    top = pathlib.Path(tempfile.gettempdir(), f"ttx-edits-{mine}")
    rooms = [Room(top / str(n), known) for n in range(jobs)]

    def work(name, mutants):
        room = rooms.pop()
        try:
            return try_crate(room, name, mutants, now, record)
        finally:
            rooms.append(room)

    # a check builds each library that it does not find in out/, so those that rt ci kept are put there first
    subprocess.run([sys.executable, TOOLS / "kept.py"], check=False)
    # the largest crates first, so that none of them is left to the end
    largest_first = sorted({mutant.crate for mutant in stale}, key=lambda name: -sum(it.stat().st_size for it in sources([name])))
    by_name = {name: [mutant for mutant in stale if mutant.crate == name] for name in largest_first}
    with concurrent.futures.ThreadPoolExecutor(jobs) as pool:
        tries = [pool.submit(work, name, it) for name, mutants in by_name.items() for it in portions(mutants, jobs)]
        failed = sum(it.result() for it in tries)
    shutil.rmtree(top, ignore_errors=True)
    return failed


def take_shown(mutants, shown, sums, record):
    """Puts what the log shows into the record, except where a mutant was tried with written answers in place. Returns the mutants that are
    still to be tried."""
    left = []
    for mutant in mutants:
        told, has = shown.get(mutant.key), record.has(mutant, sums[mutant.crate])
        if told and told.answers != "in place" and not has:
            record.write(mutant, sums[mutant.crate], *told)
        elif not has:
            left.append(mutant)
    return left


def arguments():
    words = argparse.ArgumentParser(description="Tries each mutant of the must-fail edits by itself.")
    words.add_argument("--jobs", type=int, default=2, help="so many checks at a time, each in 1 to 6 GB")
    words.add_argument("--crate", action="append", help="this crate alone; more of them may be named")
    words.add_argument("--anew", action="store_true", help="also what the record has")
    words.add_argument("--log", help="takes what this log of the gate over the same sources shows")
    words.add_argument("--stale", action="store_true", help="lists the mutants that the record doesn't have as they stand, and tries none")
    words.add_argument("--forget", action="store_true", help="drops the lines of mutants that are gone")
    return words.parse_args()


def main():
    words, known, record, now = arguments(), crates(), Record(), logic()
    every = [mutant for name in words.crate or sorted(known) for mutant in mutants_of(name)]
    sums = {name: sum_of_sources(known, name, now) for name in {mutant.crate for mutant in every}}
    stale = every if words.anew else take_shown(every, shown_in(words.log) if words.log else {}, sums, record)
    gone = [] if words.forget else record.gone(words.crate, every)
    wrong = [line for mutant in every for line in misnamed(mutant)] + doubled(every)
    wrong += [f"{'/'.join(key[:2])}: {key[2]}: the mutant is gone (--forget drops its line)" for key in gone]
    print("".join(f"FAILED {line}\n" for line in wrong), end="")
    if words.stale:
        counts = collections.Counter(mutant.crate for mutant in stale)
        which = ", ".join(f"{name} {counts[name]}" for name in sorted(counts))
        print(f"edits: {len(every)} mutants, {len(stale)} not recorded as they stand" + (f": {which} (make edits tries them)" if stale else ""))
        return 1 if wrong else 0
    record.keep(words.crate, {mutant.key for mutant in every}.union(gone))
    record.save()
    failed = try_mutants(stale, known, words.jobs, now, record) if stale else 0
    weak = [row for mutant in every if (row := record.rows.get(mutant.key)) and row[5] not in ENOUGH]
    print(f"edits: {len(every)} mutants, {len(stale)} tried now, {len(weak) + len(wrong)} failed")
    return 1 if failed or weak or wrong else 0


if __name__ == "__main__":
    sys.exit(main())
