#!/usr/bin/env python3
"""Runs `report` over the files of tests/data and over services that are planned here, and compares each document, byte for byte, with that of a
plain model (report_page.py): its figures are those of `certify`, `wait`, `pages` and `version`, and of the inputs themselves, whose SHA-256 is
Python's. A date is one that Python's calendar has, or it is refused and OUT is left as it was; without a date two reports are the same.

usage: reported.py PROGRAM [DATES]
"""
import datetime
import hashlib
import random
import re
import subprocess
import sys
import tempfile
import tomllib
import xml.etree.ElementTree as tree
from pathlib import Path

sys.dont_write_bytecode = True
from report_page import Found, Numbers, Wait, document  # noqa: E402

TOP = Path(__file__).resolve().parent.parent
DATA = TOP / "tests/data"
DATE = "2026-11-25"


def run(program, *words):
    done = subprocess.run([program, *map(str, words)], capture_output=True, timeout=120)
    return done.returncode, done.stdout.decode(), done.stderr.decode()


def said(program, *words, no="no "):
    """The output of a command. Its status is 1 if a line begins with this `no`, and otherwise 0; another status or an error ends the test."""
    status, text, errors = run(program, *words)
    if status != int(any(line.startswith(no) for line in text.splitlines())) or errors:
        sys.exit(f"FAILED {' '.join(map(str, words))}: status {status}, {text[:200]!r} {errors!r}")
    return text


def planned(program, folder, name, repeat, kind):
    """A planned service with a certificate; with a slot that is none; and with a page that the service text lacks."""
    stem = f"{name}-{repeat}-{kind}"
    service, cycle, cert, broken, fewer = (folder / f"{stem}{end}" for end in (".toml", ".t42", ".cert", "-broken.t42", "-fewer.toml"))
    text = (TOP / "examples" / f"{name}.toml").read_text()
    if repeat > 1:
        text = re.sub(r'(?m)^number = "11(\d)"', r'number = "11\1"\nwithin = 2.5', text)
    service.write_text(text)
    said(program, "plan", service, cycle, "--class", kind)
    said(program, "find", cycle, service, cert, "--repeat", repeat, "--class", kind)
    slots = cycle.read_bytes()
    broken.write_bytes(slots[: 42 * 40] + bytes([0xFF] * 42) + slots[42 * 41 :])
    fewer.write_text(text[: text.rindex("[[page]]")])
    return [(cycle, service, cert), (broken, service, cert), (cycle, fewer, cert)]


def inputs(program, folder):
    cycles = ("base", "two-pages", "row-near-header", "no-header", "other-magazine", "erased")
    given = [(DATA / f"{cycle}.t42", DATA / "base.toml", DATA / f"{cert}.cert") for cycle in cycles for cert in ("base", "base-26")]
    given.append((DATA / "planned-clearing.t42", DATA / "base.toml", DATA / "clearing.cert"))
    for name, repeat, kind in (("broadcast", 1, "any"), ("broadcast", 2, "any"), ("broadcast", 1, "clearing")):
        given += planned(program, folder, name, repeat, kind)
    return given


def numbers_of(service, cert):
    words = dict(line.split(" ", 1) for line in cert.read_text().splitlines()[1:5])
    lines, repeat, deadline = (int(words[word]) for word in ("lines", "repeat", "deadline"))
    return Numbers(words.get("class") == "clearing", lines, repeat, deadline, service["lines"])


def waits_of(program, files, numbers, pages):
    """The lines of `wait`. Those of pages with promises go on with the promise, so they are asked for without."""
    bare = files[1].with_name("bare.toml")
    text = re.sub(r"(?m)^within = .*$", "", files[1].read_text())
    bare.write_text(text) if bare.parent != DATA else None
    service = files[1] if bare.parent == DATA else bare
    words = ("--repeat", numbers.repeat, "--class", "clearing" if numbers.clears else "any")
    *lines, last = said(program, "wait", files[0], service, *words, no="all never").splitlines()
    waits = []
    for line, page in zip(lines, pages, strict=True):
        name, rest = line[:8], line[8:]
        fields = round(page["within"] * 50) if "within" in page else None
        kept = fields is not None and not rest.startswith(" never") and int(rest.split()[0]) <= fields
        waits.append(Wait(name, rest, fields, kept))
    return waits, last.removeprefix("all")


def others_of(program, cycle, pages):
    own = {f"{page['number']}/{page.get('sub', '0000')}" for page in pages}
    names = [line.split(" ", 1)[0] for line in said(program, "pages", cycle).splitlines()]
    return [name for name in names if re.fullmatch(r"[1-8][0-9A-F]{2}/[0-9A-F]{4}", name) and name[1:3] != "FF" and name not in own]


def model(program, files, date=None):
    cycle, service, cert = files
    text = tomllib.loads(service.read_text())
    numbers = numbers_of(text, cert)
    line = said(program, "certify", *files)
    waits, last = waits_of(program, files, numbers, text["page"])
    found = Found(line, waits, last, others_of(program, cycle, text["page"]))
    entries = sum(1 for entry in cert.read_text().splitlines() if re.match(r"[1-8][0-9A-F]{2}/", entry))
    has = (f"slots: {cycle.stat().st_size // 42}", f"pages: {len(text['page'])}", f"entries: {entries}")
    marks = [hashlib.sha256(file.read_bytes()).hexdigest() for file in files]
    return document(numbers, found, list(zip(has, marks)), said(program, "version"), date)


def first_difference(told, wanted):
    at = next((i for i, (a, b) in enumerate(zip(told, wanted)) if a != b), min(len(told), len(wanted)))
    return f"{told[at : at + 60]!r} and not {wanted[at : at + 60]!r}"


def case_fails(program, folder, files):
    out, dated, again = (folder / name for name in ("out.html", "dated.html", "again.html"))
    status = int(not said(program, "certify", *files).startswith("yes "))
    for words in ((out,), (dated, "--date", DATE), (again,)):
        told = run(program, "report", *files, *words)
        if told != (status, "", ""):
            return f"report says {told}"
    if re.search(r"<script|<link|<img|src=|url\(|href=", out.read_text()):
        return "it names another file, or has a script"
    tree.fromstring(out.read_text().removeprefix("<!DOCTYPE html>\n"))
    for file, date in ((out, None), (dated, DATE)):
        wanted = model(program, files, date)
        if file.read_text() != wanted:
            return first_difference(file.read_text(), wanted)
    return None if again.read_text() == out.read_text() else "two reports differ"


def is_date(text):
    if not re.fullmatch(r"[0-9]{4}-[0-9]{2}-[0-9]{2}", text):
        return False
    # Python's calendar begins with the year 1; 2000 is a year like 0
    try:
        datetime.date.fromisoformat("2000" + text[4:] if text.startswith("0000") else text)
    except ValueError:
        return False
    return True


def dates(count):
    """Texts near dates: days round the ends of months and years, and dates with a character that is another."""
    made = random.Random(1)
    texts = ["", "0000-02-29", "0000-02-30", "2026-11-25T12:00:00", "26-11-25", "20261125", "2026/11/25", "２026-11-25", "-026-11-25"]
    while len(texts) < count:
        text = f"{made.choice((0, 1, 4, 100, 1900, 2000, 2024, 2026, 9999)):04d}-{made.randrange(14):02d}-{made.choice((0, 1, 28, 29, 30, 31, 32)):02d}"
        if made.random() < 0.3:
            at = made.randrange(10)
            text = text[:at] + made.choice("-0159/: a") + text[at + 1 :]
        texts.append(text)
    return texts


def date_fails(program, folder, text):
    files = (DATA / "base.t42", DATA / "base.toml", DATA / "base.cert")
    out = folder / "date.html"
    out.write_text("as it was")
    told = run(program, "report", *files, out, f"--date={text}")
    if is_date(text):
        return None if told == (0, "", "") and f"<p>{text}</p>" in out.read_text() else f"report says {told}"
    return None if told == (2, "", "refused: date\n") and out.read_text() == "as it was" else f"report says {told}"


def main():
    program = str(Path(sys.argv[1]).resolve())
    failed = count = 0
    verdicts = set()
    with tempfile.TemporaryDirectory() as name:
        folder = Path(name)
        for files in inputs(program, folder):
            count += 1
            verdicts.add(said(program, "certify", *files).split(" ")[0])
            why = case_fails(program, folder, files)
            if why:
                failed += 1
                print(f"FAILED {' '.join(map(str, files))}: {why}")
        texts = dates(int(sys.argv[2]) if len(sys.argv) > 2 else 200)
        accepted = sum(map(is_date, texts))
        for text in texts:
            why = date_fails(program, folder, text)
            if why:
                failed += 1
                print(f"FAILED --date {text!r}: {why}")
    if verdicts != {"yes", "no"} or not 0 < accepted < len(texts):
        failed += 1
        print(f"FAILED the reports say only {verdicts}")
    print(f"reported: {count} reports, {len(texts)} dates, {failed} failed")
    return 1 if failed else 0


if __name__ == "__main__":
    sys.exit(main())
