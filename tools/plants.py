#!/usr/bin/env python3
"""Runs `rt plant` in a crate, with the checksum of each crate below reckoned once: plants.py CRATE [WORDS..]

The words are those of `rt plant`, such as --minutes 60 --max 2000 --all. `rt plant` checks the crate first, and reckons the checksums as
`rt check` does, anew for each path of crates.txt (quick_rt.py), which takes half an hour in a crate with many below it. It also locks the
crates below for as long as it runs; here nothing is locked, so nothing else may work in these crates meanwhile.
"""
import os
import pathlib
import sys

from quick_rt import KIT_RT, reckon_once

LOADED = 'rt, bodies = load("rtlib.py"), load("rt-plant-bodies")\n'
MORE = "reckon_once(rt.Crate)\nrt.lock = lambda crates: None\n"


def main():
    plant = KIT_RT.with_name("rt-plant")
    text = plant.read_text()
    if len(sys.argv) < 2 or text.count(LOADED) != 1:
        sys.exit(__doc__ if len(sys.argv) < 2 else f"{plant.name} of this kit has another form: run rt plant")
    os.chdir(pathlib.Path("crates", sys.argv.pop(1)))
    names = {"__name__": "__main__", "__file__": str(plant), "reckon_once": reckon_once}
    exec(compile(text.replace(LOADED, LOADED + MORE), str(plant), "exec"), names)


if __name__ == "__main__":
    main()
