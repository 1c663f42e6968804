#!/usr/bin/env python3
"""Compares the characters of each national option with those that libzvbi's decoder shows: characters.py PROGRAM

For each option `preview` shows a page with the codes 20 to 7F. national_options.txt has what libzvbi shows. The profile differs in two
points: code 60 of option 0 is the horizontal bar U+2015 instead of the dash U+2014, and option 7, which the standard leaves open, is
the same as option 0.
"""
import subprocess
import sys
import tempfile
from pathlib import Path

HERE = Path(__file__).resolve().parent
CODES = range(0x20, 0x80)
PLACES = bytes.fromhex("232440 5b5c5d5e5f60 7b7c7d7e")


def shown_by_libzvbi():
    """The characters of the codes, by option."""
    lines = [line.split() for line in (HERE / "national_options.txt").read_text().splitlines() if not line.startswith("#")]
    return {int(option): [chr(int(point, 16)) for point in points] for option, *points in lines}


def wanted_of(shown):
    """The same in this project's profile."""
    english = ["\u2015" if code == 0x60 else character for code, character in zip(CODES, shown[0])]
    return shown | {0: english, 7: english}


def previewed(program, option):
    """The characters that the program shows for the codes."""
    escapes = ["\\u%04X" % code for code in CODES]
    rows = "".join('%d = "%s"\n' % (row, "".join(escapes[32 * row - 32 : 32 * row])) for row in (1, 2, 3))
    service = f'lines = 2\nserial = true\n[[page]]\nnumber = "100"\noption = {option}\n[page.rows]\n{rows}'
    with tempfile.NamedTemporaryFile("w", suffix=".toml") as file:
        file.write(service)
        file.flush()
        ran = subprocess.run([program, "preview", file.name, "100", "--as", "text"], capture_output=True, check=False)
    if ran.returncode or ran.stderr:
        sys.exit(f"FAILED option {option}: status {ran.returncode}, {ran.stderr!r}")
    lines = ran.stdout.decode().split("\n")
    # the text form leaves out spaces at the end of a row
    return list("".join(line.ljust(32) for line in lines[1:4]))


def main():
    program, shown = sys.argv[1], shown_by_libzvbi()
    wanted = wanted_of(shown)
    failed = 0
    for option in range(8):
        found = previewed(program, option)
        if len(shown[option]) != len(CODES) or found != wanted[option]:
            failed += 1
            print(f"FAILED option {option}: {''.join(found)}, not {''.join(wanted[option])}")
        # characters that are not national are the same under each option
        if any(found[code - 0x20] != wanted[1][code - 0x20] for code in CODES if code not in PLACES):
            failed += 1
            print(f"FAILED option {option}: a character that isn't national is another")
    print(f"characters: {8 * len(CODES)} characters of 8 options, {failed} failed")
    return 1 if failed else 0


if __name__ == "__main__":
    sys.exit(main())
