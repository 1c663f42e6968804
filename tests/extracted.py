#!/usr/bin/env python3
"""Runs `extract` of the built program over planned cycles: the result must be the service that was planned.

usage: extracted.py PROGRAM [COUNT]

The services are the shipped examples and COUNT generated ones (default 200), planned in each way. This script reads both texts as TOML
and compares lines, serial, packet 8/30, pages, how often they are sent, control bits, header texts, links, and each row that a viewer
sees. Both texts must look the same page by page, have the same deadline, and a plan of the result must give the result back. Cycles
with a changed packet, and cycles that no service describes, must be refused by name.
"""
import random
import subprocess
import sys
import tempfile
import tomllib
from pathlib import Path

sys.dont_write_bytecode = True
from make_data import EMPTY, WORDS, header, odd, row  # noqa: E402
from planned import service  # noqa: E402
from plain_receiver import packet_in  # noqa: E402

TOP = Path(__file__).resolve().parent.parent
FLAGS = ["newsflash", "subtitle", "suppress", "update", "interrupted", "inhibit", "row24"]
WAYS = [[], ["--class", "clearing"], ["--late"]]


def link(text):
    """A link with its subcode, or None."""
    page, _, sub = text.partition("/")
    return (page, sub or "3F7F") if page else None


def seen_rows(table):
    """The rows that a viewer sees, by number."""
    texts = {int(number): text for number, text in table.get("rows", {}).items()}
    rows = {number: texts.get(number, "").ljust(40) for number in range(1, 25)}
    hidden = set()
    for number in range(1, 23):
        if number not in hidden and "\r" in rows[number]:
            hidden.add(number + 1)
    if table.get("inhibit"):
        return {}
    return {number: text for number, text in rows.items() if number not in hidden and (number < 24 or table.get("row24"))}


def said(text):
    """The contents of a service, without the order of its pages."""
    table = tomllib.loads(text)
    info = table.get("info")
    if info is not None:
        info = {"designation": 0, "initial": "", "halves": 0, "text": ""} | info
        info |= {"initial": link(info["initial"]), "text": info["text"].ljust(20)}
    pages = {}
    for page in table.get("page", []):
        links = [link(text) for text in page.get("links", [])]
        pages[page["number"], page.get("sub", "0000")] = {
            "often": page.get("often", 1), "option": page.get("option", 0), "flags": [page.get(flag, False) for flag in FLAGS],
            "head": page.get("head", "").ljust(24), "links": links + [None] * (6 - len(links)), "crc": page.get("crc", "0000"),
            "rows": seen_rows(page),
        }
    return {"lines": table["lines"], "serial": table["serial"], "info": info, "pages": pages}


def lines_of(text):
    return tomllib.loads(text)["lines"]


class Place:
    """Runs of the program in a folder, for the service with this title."""

    def __init__(self, program, folder):
        self.program, self.folder, self.title = program, folder, ""

    def answer(self, *words):
        """The status of a command, and what it writes to both streams."""
        done = subprocess.run([self.program, *words], cwd=self.folder, capture_output=True, timeout=60, check=False)
        return done.returncode, done.stdout.decode(), done.stderr.decode()

    def run(self, *words):
        """What a command says. A status other than 0 or an error ends the test."""
        status, text, errors = self.answer(*words)
        if status or errors:
            sys.exit(f"FAILED {self.title}: {' '.join(words)}: status {status}, {text[:200]!r} {errors!r}")
        return text

    def extract(self, lines):
        """The answer of `extract` for the cycle, and the text."""
        told = self.answer("extract", "cycle", "extracted", "--lines", str(lines))
        return told, (self.folder / "extracted").read_text()


def wrong(place, text, way, draw):
    """What is wrong with the result for a service, or None."""
    (place.folder / "service").write_text(text)
    place.run("plan", "service", "cycle", *way)
    wanted = said(text)
    answer = 0, f"extracted {len(wanted['pages'])} pages\n", ""
    told, back = place.extract(wanted["lines"])
    if told != answer or said(back) != wanted:
        return f"extract: {told}"
    kind = way if "--class" in way else []
    found = [place.run("find", "cycle", name, "cert", *kind) for name in ("service", "extracted")]
    if found[0] != found[1]:
        return f"find: {found}"
    for number, sub in draw.sample(sorted(wanted["pages"]), min(2, len(wanted["pages"]))):
        views = [place.run("preview", name, f"{number}/{sub}", "--as", "ansi", "--reveal") for name in ("service", "extracted")]
        if views[0] != views[1]:
            return f"preview of {number}/{sub}"
    place.run("plan", "extracted", "cycle", *way)
    told, back = place.extract(wanted["lines"])
    if told != answer or said(back) != wanted:
        return f"extract of the plan of what came back: {told}"
    return None


def transmissions(cycle):
    """The slots that send each item, by page and item."""
    owners, sent = {}, {}
    for turn in range(2):
        for at, slot in enumerate(cycle):
            kind, mag, more = packet_in(slot)
            if kind == "header":
                owners[mag] = more[0]
                item = "head"
            elif kind in ("row", "links"):
                item = f"row {more}" if kind == "row" else "links"
            else:
                continue
            owner = owners.get(mag)
            if turn and owner and owner[1] != 0xFF:
                sent.setdefault((owner, item), []).append(at)
    return sent


def name(page):
    return f"{page[0]}{page[1]:02X}/{page[2]:04X}"


def changed(draw, cycle):
    """A cycle in which a later transmission of an item differs, and the expected refusal. None if each item is sent once."""
    choices = [(page, item, slots) for (page, item), slots in transmissions(cycle).items() if len(slots) > 1]
    if not choices:
        return None
    page, item, slots = draw.choice(sorted(choices))
    at = draw.choice(slots[1:])
    slot = bytearray(cycle[at])
    if item == "links":
        byte = draw.choice([3, 9, 15])
        slot[byte] = WORDS[WORDS.index(slot[byte]) ^ 1]
    else:
        # two bits: the parity stays odd
        byte = draw.randrange(10, 34) if item == "head" else draw.randrange(2, 42)
        slot[byte] ^= 3 << draw.randrange(6)
    return [*cycle[:at], bytes(slot), *cycle[at + 1 :]], f"conflict {name(page)} {item} {slots[0]} {at}"


def erasing(draw, cycle):
    """A cycle in which a header has C4, and the expected refusal."""
    page, at = draw.choice([(page, at) for (page, item), slots in transmissions(cycle).items() if item == "head" for at in slots])
    slot = bytearray(cycle[at])
    slot[5] = WORDS[WORDS.index(slot[5]) | 8]
    return [*cycle[:at], bytes(slot), *cycle[at + 1 :]], f"reason 4 erased {name(page)} {at}"


def many_pages(count, rows):
    """A cycle of `count` pages with these rows."""
    cycle = []
    for number in range(count):
        cycle += [header(1 + number // 255, number % 255), EMPTY, *[row(1 + number // 255, at, text) for at, text in rows]]
    return cycle


def refusals(draw, cycle):
    """Cycles that no service describes, with the expected refusals."""
    return [case for case in (changed(draw, cycle), erasing(draw, cycle)) if case]


def refused_otherwise(place, cycle, lines, refusal):
    """How a cycle that no service describes is refused, if not as expected."""
    (place.folder / "cycle").write_bytes(b"".join(cycle))
    told, text = place.extract(lines)
    return None if (told, text) == ((2, "", f"refused: {refusal}\n"), "") else f"{refusal}: {told}"


def slots_of(path):
    data = path.read_bytes()
    return [data[at : at + 42] for at in range(0, len(data), 42)]


def services(count):
    """Services with their names."""
    for path in sorted((TOP / "examples").glob("*.toml")):
        text = path.read_text()
        # an author's text is no service text
        if "author" not in tomllib.loads(text):
            yield path.name, text
    for number in range(count):
        draw = random.Random(7000 + number)
        yield f"service {number}", service(draw, 1 + number % 8, number // 8 % 2 == 0, number // 16 % 2 == 0)


def main():
    program = str(Path(sys.argv[1]).resolve())
    failed, cases = [], 0
    with tempfile.TemporaryDirectory() as folder:
        place = Place(program, Path(folder))
        for at, (title, text) in enumerate(services(int(sys.argv[2]) if len(sys.argv) > 2 else 200)):
            draw, place.title = random.Random(at), title
            ways = WAYS if at < 10 else [WAYS[at % 3]]
            told = [(" ".join([title, *way]), wrong(place, text, way, draw)) for way in ways]
            place.run("plan", "service", "cycle")
            spoiled = refusals(draw, slots_of(place.folder / "cycle"))
            told += [(title, refused_otherwise(place, cycle, lines_of(text), refusal)) for cycle, refusal in spoiled]
            cases += len(told)
            failed += [f"{title}: {what}" for title, what in told if what]
        codes = odd(bytes(39) + b"A")
        for cycle, refusal in [
            (many_pages(2001, []), "service 10 range page page 0"),
            (many_pages(2000, [(at, codes) for at in range(1, 20)]), "service too-long"),
        ]:
            cases += 1
            what = refused_otherwise(place, cycle, 1, refusal)
            failed += [what] if what else []
    for line in failed:
        print(f"FAILED {line}")
    print(f"extracted: {cases} cases, {len(failed)} failed")
    return 1 if failed else 0


if __name__ == "__main__":
    sys.exit(main())
