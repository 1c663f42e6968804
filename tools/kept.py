#!/usr/bin/env python3
"""Gives this checkout the libraries that `rt ci` kept on this machine: kept.py

`rt ci` keeps what it proved beside the kit, for later runs of itself. `rt check` and `make edits` look for libraries in out/ of each crate,
and build those that they do not find there, which takes as long as proving everything. This script puts the kept libraries there, each only
if it was made of the sources as they are. Nothing of the gate rests on it. The status is 1 if the kit's rt has another form than this script
knows.
"""
import os
import pathlib
import shutil
import sys

sys.path.insert(0, str(pathlib.Path(__file__).resolve().parent))
from quick_rt import run_rt  # noqa: E402


def lend(crates, kept):
    """Puts the libraries of these crates, lowest first, into out/. Returns how many."""
    count = 0
    for crate in crates:
        key = kept.key(crate)
        if crate.is_program or not os.path.isdir(kept.place(crate, False, key)):
            continue
        shutil.rmtree(f"{crate.folder}/out/rlib", ignore_errors=True)
        if kept.give(crate, False, key):
            pathlib.Path(crate.folder, "out/rlib/stamp").write_text(crate.stamp())
            kept.is_built(crate)
            count += 1
    return count


def main():
    rt = run_rt("rt")
    if rt is None or "Kept" not in rt:
        sys.exit("kept: this kit's rt has another form than this script knows, or keeps nothing")
    top = os.getcwd()
    rt["Crate"].allowed, crates = rt["handles_of"](top), rt["crates_of"](top)
    print(f"kept: {lend(crates, rt['Kept'](crates))} of {len(crates)} crates")


if __name__ == "__main__":
    main()
