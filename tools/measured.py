#!/usr/bin/env python3
"""Puts measured rows into docs/MEASURED.md.

usage: measured.py BENCH COMPARE

BENCH is what `make bench` printed, COMPARE what `make compare` did. Their rows replace those of the first two tables, and the first line below
the title names this commit.
"""
import re
import subprocess
import sys
from pathlib import Path

MEASURED = Path(__file__).resolve().parent.parent / "docs/MEASURED.md"


def rows_of(path):
    """The rows of tables in what a script printed, without heads."""
    lines = Path(path).read_text().splitlines()
    return [line for line in lines if line.startswith("| ") and not line.startswith("| `make")]


def main():
    if len(sys.argv) != 3:
        sys.exit(__doc__)
    text = MEASURED.read_text()
    for start, rows in zip(("| `make bench`", "| `make compare`"), map(rows_of, sys.argv[1:])):
        if not rows:
            sys.exit(f"no rows for {start}")
        head = re.search(rf"^{re.escape(start)}.*\n\|---.*\n", text, re.M)
        end = re.compile(r"(?:\|.*\n)*").match(text, head.end()).end()
        text = text[: head.end()] + "".join(row + "\n" for row in rows) + text[end:]
    commit = subprocess.run(["git", "rev-parse", "--short", "HEAD"], cwd=MEASURED.parent, capture_output=True, text=True, check=True).stdout.strip()
    MEASURED.write_text(re.sub(r"^At commit [^,]*(?:, the second table at [0-9a-f]+)?,", f"At commit {commit},", text, count=1, flags=re.M))


if __name__ == "__main__":
    main()
