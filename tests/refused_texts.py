#!/usr/bin/env python3
"""Gives the built program texts with one mistake each, and compares the line with which it refuses them, or what it does with them.

usage: refused_texts.py PROGRAM

Services go to `plan`, certificates to `certify` with the worked cycle, base.t42 of tests/data.
"""
import os
import subprocess
import sys
import tempfile
from pathlib import Path

DATA = Path(__file__).resolve().parent / "data"

HEAD = "lines = 2\nserial = true\n"
INFO = HEAD + "page = 1\n[info]\n"
FIRST = HEAD + "[[page]]\n"
SECOND = FIRST + 'number = "100"\n[[page]]\n'

# texts outside pages, and the fault
SERVICES = [
    ("lines =", "1 not-toml"),
    ("serial = true", "2 missing lines"),
    ("lines = 33", "10 range lines"),
    ('lines = "2"', "3 kind lines"),
    ("lines = 2", "2 missing serial"),
    (HEAD + "info = 1", "3 kind info"),
    (HEAD + "page = [{}, 1]", "3 kind page"),
    (HEAD + "page = [" + "{}, " * 2000 + "1]", "10 range page"),
    (INFO + "designation = 2", "10 range designation"),
    (INFO + 'initial = "1FF"', "4 page-number"),
    (INFO + 'network = "12a4"', "10 range network"),
    (INFO + 'network = "12F4"\nhalves = -32', "10 range halves"),
    (INFO + 'network = "12F4"\nhalves = -31\nmjd = 1.5', "3 kind mjd"),
    (INFO + 'network = "12F4"\nmjd = 46000\nutc = 0\ntext = "' + "1" * 21 + '"', "7 row-too-long"),
]

# keys of a page, and the fault
PAGES = [
    ('sub = "0000"', "2 missing number"),
    ('number = "1FF"', "4 page-number"),
    ('number = "900"', "4 page-number"),
    ('number = "10a"', "4 page-number"),
    ('number = "200"\nsub = "0080"', "5 subcode"),
    ('number = "200"\nsub = "3F7F"', "5 subcode"),
    ('number = "200"\noften = 3', "9 often"),
    ('number = "200"\nnewsflash = 1', "3 kind newsflash"),
    ('number = "200"\nrows = {"25" = ""}', "10 range rows"),
    ('number = "200"\nrows = {"01" = ""}', "10 range rows"),
    ('number = "200"\nrows = {"10" = "é", "2" = 1}', "3 kind rows"),
    ('number = "200"\nrows = {"1" = "' + "1" * 40 + 'é"}', "7 row-too-long"),
    ('number = "200"\nrows = {"1" = "é"}\nlinks = 1', "8 character"),
    ('number = "200"\nlinks = ["2FF", 1]', "4 page-number"),
    ('number = "200"\nlinks = ["205-0001"]', "4 page-number"),
    ('number = "200"\nlinks = ["205/0080", "2FF"]', "5 subcode"),
    ('number = "200"\nlinks = [1, "", "", "", "", "", ""]', "10 range links"),
    ('number = "200"\ncrc = "00G0"', "10 range crc"),
]

TITLE = "ttx certificate 1\n"
NUMBERS = TITLE + "lines 2\nrepeat 1\ndeadline 27\n"
NAMED = NUMBERS + "100/0000 head 0\n"

# certificates, and the fault
CERTIFICATES = [
    ("", "1 title"),
    ("ttx certificate 1", "1 title"),
    (TITLE + "lines 2\n", "2 line line 3"),
    ((DATA / "base.cert").read_text()[:-1], "2 line line 29"),
    (NAMED + "100/0000 row 1 5 3\n", "3 order line 6"),
    (NAMED + "100/0000 row 1 3 3\n", "3 order line 6"),
    (NAMED + "100/0000 head 1\n", "3 order line 6"),
    (NAMED + "100/0000 row 1 65536\n", "4 range line 6"),
    (TITLE + "lines 2\nrepeat 1\ndeadline 1000001\n", "4 range line 4"),
    (TITLE + "lines 2\nrepeat 9\n", "4 range line 3"),
    (TITLE + "lines 2\nrepeat 1\ndeadline 10000000\n", "2 line line 4"),
    (TITLE + "lines 2\nrepeat 1\ndeadline 01\n", "2 line line 4"),
    ("ttx certificate 2\nclass any\nlines 2\nrepeat 1\ndeadline 27\n", "2 line line 2"),
]


def subpages(count):
    """A service with this many subpages of page 100."""
    return HEAD + "".join(f'[[page]]\nnumber = "100"\nsub = "{n // 128:02X}{n % 128:02X}"\n' for n in range(count))


# services, further words of `plan`, and its line: the largest number of pages that fits
PLANS = [
    (HEAD, "", "refused: plan 1 no-pages"),
    (HEAD, "--late", "refused: plan 1 no-pages"),
    (subpages(1213), "", "planned 32752 slots"),
    (subpages(1214), "", "refused: plan 2 too-long"),
    (subpages(1170), "--late", "planned 32760 slots"),
    (subpages(1171), "--late", "refused: plan 2 too-long"),
]


def fails(done, line, out):
    """What is wrong with the result. A refusal goes to standard error, with status 2, and OUT is empty or not made. Otherwise the line goes
    to standard output, and OUT has as many slots as it says."""
    if line.startswith("refused: "):
        wanted, size = (2, "", f"{line}\n"), 0
    else:
        wanted, size = (0, f"{line}\n", ""), 42 * int(line.split(" ")[1])
    told = (done.returncode, done.stdout, done.stderr)
    return None if told == wanted and len(out) == size else f"{told} and not {wanted}, OUT of {len(out)} bytes and not {size}"


def cases():
    """Words, the contents of the file `text`, and the line."""
    services = [(text, f"{fault} page 0") for text, fault in SERVICES]
    for front, page in ((FIRST, 1), (SECOND, 2)):
        services += [(front + keys, f"{fault} page {page}") for keys, fault in PAGES]
    services += [("\udcff", "1 not-toml page 0"), (SECOND + 'number = "100"', "6 duplicate page 2")]
    told = [("plan text out", text, f"refused: service {line}") for text, line in services]
    told += [("certify base.t42 base.toml text", text, f"refused: certificate {line}") for text, line in CERTIFICATES]
    return told + [(f"plan text out {words}", text, line) for text, words, line in PLANS]


def main():
    program, count, failed = os.path.realpath(sys.argv[1]), 0, 0
    with tempfile.TemporaryDirectory() as place:
        for name in ("base.t42", "base.toml"):
            Path(place, name).write_bytes((DATA / name).read_bytes())
        for words, text, line in cases():
            Path(place, "text").write_text(text, encoding="utf-8", errors="surrogateescape")
            out = Path(place, "out")
            out.unlink(missing_ok=True)
            done = subprocess.run([program, *words.split()], cwd=place, capture_output=True, text=True, timeout=60, check=False)
            count += 1
            why = fails(done, line, out.read_bytes() if out.exists() else b"")
            if why:
                failed += 1
                print(f"FAILED {words}: {why}, for {text[-200:]!r}")
    print(f"refused texts: {count} cases, {failed} failed")
    return 1 if failed or not count else 0


if __name__ == "__main__":
    sys.exit(main())
