#!/usr/bin/env python3
"""Runs a command of rt over all crates and prints a line a crate: progress.py LOG COMMAND..

The output of the command goes to LOG. The status is that of the command; if it fails, the faults and the last lines of LOG follow. The
estimate of what is left comes from the lines of the crates that are still to be proved, and of those whose edits are still to be tried.
"""
import os
import pathlib
import re
import resource
import subprocess
import sys
import time

LAST_LINES = 40
MOST_FAULTS = 60
FAULT = re.compile(r"NOT PROVED|NOT REFUSED|BAD EDIT|\berror\b")
TRIED = re.compile(r"rt: must-fail (\S+\.edit): refused, as it must be( \(only [^)]*)?")


def lines_of(folder, endings):
    return sum(file.read_bytes().count(b"\n") for file in folder.rglob("*") if file.suffix in endings and "out" not in file.parts)


def weights(with_edits):
    """The work by name, in lines: each crate, and each of its edits if they are tried."""
    told = {}
    for line in open("crates.txt"):
        name = line.split(":")[0].strip()
        folder = pathlib.Path("crates", name)
        told[name] = lines_of(folder, {".rt", ".antt"})
        edits = sorted(folder.glob("must-fail/*.edit")) if with_edits else []
        # the edits of all crates take about two thirds of what the proofs take
        told.update({f"{name}/{it.name}": told[name] * 2 / 3 / len(edits) for it in edits})
    return told


def span(seconds):
    minutes, seconds = divmod(round(seconds), 60)
    return f"{minutes} min {seconds} s" if minutes else f"{seconds} s"


def left(elapsed, done, total):
    if done * 20 < total:
        return ""
    minutes = elapsed * (total - done) / done / 60
    return f"; about {round(minutes)} minutes left" if minutes >= 1.5 else "; about a minute left"


class Progress:
    """What is done of the work. `tells_of_edits` says whether the command has a line for each edit that it has tried, and not only one before a
    crate's first."""

    def __init__(self, weight, tells_of_edits):
        self.weight = weight
        self.tells_of_edits = tells_of_edits
        self.crates = sum("/" not in name for name in weight)
        self.done = set()
        self.current = None
        self.start = time.time()

    def edits(self, name):
        return {it for it in self.weight if it.startswith(f"{name}/")}

    def note(self, names, what):
        """Counts these as done, and if one of them was not, prints a line: what is said of them, and what is left."""
        new = names & (self.weight.keys() - self.done)
        if not new:
            return
        self.done |= new
        elapsed = time.time() - self.start
        proved = sum("/" not in it for it in self.done)
        rest = left(elapsed, sum(self.weight[it] for it in self.done), sum(self.weight.values()))
        print(f"[{proved}/{self.crates}] {what}, {span(elapsed)}{rest}", flush=True)

    def read(self, line):
        if begun := re.match(r"== (\w+)$", line):
            self.current = begun[1]
        elif line.startswith("logic=proved") and self.current:
            self.note({self.current}, f"{self.current} proved")
            self.current = None
        elif kept := re.match(r"rt: (\w+) is kept: an earlier run", line):
            self.done.add(kept[1])
        elif begun := re.match(r"rt: (\w+): trying its must-fail edits", line):
            if not self.tells_of_edits:
                self.note(self.edits(begun[1]), f"{begun[1]} begins its wrong bodies")
        elif tried := re.match(r"rt: (\w+): tried (\S+)$", line):
            self.note({f"{tried[1]}/{tried[2]}"}, f"{tried[1]}'s {tried[2]} tried")


def refusals(log):
    """How many must-fail edits were refused, and those of which that says less of the contract."""
    said = [found for line in open(log, errors="replace") if (found := TRIED.match(line))]
    weak = [f"  {found[1]}{found[2][:60]})" for found in said if found[2]]
    return "\n".join([f"{len(said)} must-fail edits refused, {len(weak)} of them not for want of a proof alone", *weak])


def main():
    log, *command = sys.argv[1:]
    pathlib.Path(log).parent.mkdir(parents=True, exist_ok=True)
    progress = Progress(weights("ci" in command), any("quick_rt" in it for it in command))
    last = ""
    with open(log, "w", errors="replace") as kept:
        ran = subprocess.Popen(command, stdout=subprocess.PIPE, stderr=subprocess.STDOUT, text=True, errors="replace")
        for line in ran.stdout:
            kept.write(line)
            kept.flush()
            progress.read(line.rstrip("\n"))
            last = line
    status = ran.wait()
    if status:
        text = open(log, errors="replace").read().splitlines()
        faults = [line for line in text[:-LAST_LINES] if FAULT.search(line)]
        print("\n".join([*faults[:MOST_FAULTS], *text[-LAST_LINES:]]))
    else:
        if "ci" in command:
            print(refusals(log))
        print(last, end="")
    used = resource.getrusage(resource.RUSAGE_CHILDREN)
    work = f"{round((used.ru_utime + used.ru_stime) / 60)} processor minutes"
    took = f"{span(time.time() - progress.start)} on {len(os.sched_getaffinity(0))} processors, {work}"
    print(f"{' '.join(command)}: {'failed' if status else 'done'} after {took}; the whole text is in {log}")
    return status if status >= 0 else 1


if __name__ == "__main__":
    sys.exit(main())
