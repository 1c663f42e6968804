#!/usr/bin/env python3
"""Proves and builds the crates, several at a time, over the work that earlier checks kept: lanes.py [--jobs N] [CRATE..]

Builds these crates and all below them, or all crates: each once those below it are built, first those with the longest chain of crates
above. `rt all check` does the same, but reckons for minutes before it begins, and two calls of rt cannot prove two crates that share a
library: the second one waits for the first. Here each crate is one process, without rt's locks, so nothing else may work in these crates
meanwhile. It prints a line a crate, and what a crate's process says goes to out/lanes/CRATE.log. The gate does not use this script. The
status is 1 if a crate is not proved.
"""
import argparse
import concurrent.futures
import functools
import os
import pathlib
import subprocess
import sys
import time

sys.path.insert(0, str(pathlib.Path(__file__).resolve().parent))
from edits import below, crates, sources  # noqa: E402

LOGS = pathlib.Path("out/lanes")
# rt as quick_rt.py runs it, without its locks
UNLOCKED = "import sys; sys.path.insert(0, sys.argv.pop(1)); import quick_rt; quick_rt.main('rtlib.lock = lambda crates: None\\n')"
TOOLS = str(pathlib.Path(__file__).resolve().parent)


def build(name):
    """Proves a crate, and builds its library if it is one. Returns the name, the status and the seconds."""
    start = time.time()
    folder = pathlib.Path("crates", name)
    verb = "check" if (folder / "src/main.rt").exists() else "lib"
    with open(LOGS / f"{name}.log", "w") as log:
        words = [sys.executable, "-c", UNLOCKED, TOOLS, verb, "--jobs", "1"]
        ran = subprocess.run(words, cwd=folder, stdin=subprocess.DEVNULL, stdout=log, stderr=subprocess.STDOUT, check=False)
    return name, ran.returncode, time.time() - start


def longest_chains(known, wanted):
    """A function from a crate to the lines of the longest chain of crates that wait for it, its own included."""

    @functools.cache
    def chain(name):
        lines = sum(file.read_bytes().count(b"\n") for file in sources([name]))
        return lines + max((chain(it) for it in wanted if name in known[it]), default=0)

    return chain


def build_all(known, wanted, jobs):
    """Builds these crates. Returns those that are not proved, or stand on one that is not."""
    chain = longest_chains(known, wanted)
    left, done, running, start = sorted(wanted, key=chain, reverse=True), set(), {}, time.time()
    with concurrent.futures.ThreadPoolExecutor(jobs) as pool:
        while True:
            ready = [name for name in left if done.issuperset(known[name])]
            for name in ready[: jobs - len(running)]:
                left.remove(name)
                running[pool.submit(build, name)] = name
            if not running:
                return sorted(set(wanted) - done)
            for it in concurrent.futures.wait(running, return_when=concurrent.futures.FIRST_COMPLETED).done:
                name, status, seconds = it.result()
                del running[it]
                done.update([] if status else [name])
                told = f"NOT PROVED: {LOGS / name}.log" if status else "proved"
                print(f"{time.time() - start:6.0f} s  [{len(done)}/{len(wanted)}] {name} {told}, {seconds:.0f} s", flush=True)


def main():
    words = argparse.ArgumentParser(description="Proves and builds crates, several at a time.")
    words.add_argument("--jobs", type=int, default=os.cpu_count(), help="so many crates at a time, each in 1 to 4 GB")
    words.add_argument("crates", nargs="*", help="these crates and all below them; without any, all crates")
    asked, known = words.parse_args(), crates()
    wanted = sorted({it for name in asked.crates or known for it in below(known, name)})
    LOGS.mkdir(parents=True, exist_ok=True)
    failed = build_all(known, wanted, asked.jobs)
    if failed:
        print(f"not proved: {' '.join(failed)}")
    return 1 if failed else 0


if __name__ == "__main__":
    sys.exit(main())
