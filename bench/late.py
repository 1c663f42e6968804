#!/usr/bin/env python3
"""Compares the verdicts of `ttx certify --late` on planned services with what libzvbi's decoder shows.

usage: late.py PROGRAM [SERVICES [SEED]]

Plans, finds and certifies random services (200, seed 1), each as it is, with `--late`, and with `--spread` too, which keeps `stays`. A
model in this script finds from the packets which headers follow each page. If pkg-config finds libzvbi (zvbi-0.2), its decoder gets the
cycle from some tuning slots on: for three periods, and for D times L plus G slots. Numbers with subpages are keyed without subcode, too,
where `certify --late --numbers` says yes: every frame from then on has to show one of the subpages as authored, each of them again within
as many slots, and for as many slots as it is said to stay. Such a number is read when libzvbi reports a stored page, at the end of a block:
then stays are as `certify` says. Read after each slot, libzvbi shows a subpage that it has kept from its header on, a block earlier, in its
former text until the block ends. The status is 1 if the certifier and the model differ, if a promised page is
missing or has other rows than authored, or if a frame does not show what is said of a number.
"""
import random
import re
import subprocess
import sys
import tempfile
from collections import Counter
from pathlib import Path

WORDS = bytes.fromhex("1502495e6473382fd0c78c9ba1b6fdea")
LETTERS = "ABCDEFGHIJKLMNOPQRSTUVWXYZabcdefghijklmnopqrstuvwxyz0123456789    "
HERE = Path(__file__).resolve().parent


def make_pages(rng):
    """Pages with decimal numbers in up to three magazines, some of them in subpages."""
    pages = []
    magazines = rng.sample(range(1, 9), rng.randint(1, 3))
    for number in rng.sample(range(100), rng.randint(1, 14)):
        magazine = rng.choice(magazines)
        subs = range(1, rng.randint(2, 4) + 1) if rng.random() < 0.1 else [0]
        often = rng.choice([1, 1, 1, 2, 4])
        for sub in subs:
            rows = {r: "".join(rng.choices(LETTERS, k=40)) for r in rng.sample(range(1, 25), rng.randint(1, 12))}
            pages.append((f"{magazine}{number:02}", f"{sub:04X}", often, rows))
    rng.shuffle(pages)
    return pages


def write_service(rng, pages, path):
    lines = rng.randint(3, 16)
    text = [f"lines = {lines}", f"serial = {'true' if rng.random() < 0.45 else 'false'}"]
    if rng.random() < 0.3:
        text += ["[info]", 'network = "12F4"', "mjd = 46000", "utc = 123045"]
    for number, sub, often, rows in pages:
        text += ["[[page]]", f'number = "{number}"', f'sub = "{sub}"', f"often = {often}", 'head = "A page"', "row24 = true"]
        text += [] if sub == "0000" else [f"stays = {1 + int(number) % 5}.0"]
        text += ["[page.rows]"] + [f'{r} = "{row}"' for r, row in sorted(rows.items())]
    path.write_text("\n".join(text) + "\n")
    return lines


def headers(cycle):
    """The slot and id of each page header."""
    found = []
    for slot in range(len(cycle) // 42):
        packet = cycle[42 * slot : 42 * slot + 42]
        if packet[0] in WORDS and packet[1] in WORDS:
            first, second, *digits = (WORDS.index(byte) if byte in WORDS else -1 for byte in packet[:8])
            if first // 8 + 2 * second == 0:
                sub = digits[2] + 16 * (digits[3] % 8) + 256 * digits[4] + 4096 * (digits[5] % 4)
                found.append((slot, f"{first % 8 or 8}{digits[1]:X}{digits[0]:X}", f"{sub:04X}"))
    return found


def followers(cycle, pages):
    """For each page the most slots to the header that follows one of its own, or None; and the first header that is not followed."""
    listed = {page[:2] for page in pages}
    gaps, first, slots = dict.fromkeys(listed, 0), None, len(cycle) // 42
    in_magazine = {}
    for header in headers(cycle):
        in_magazine.setdefault(header[1][0], []).append(header)
    for row in in_magazine.values():
        for i, (slot, number, sub) in enumerate(row):
            after = row[(i + 1) % len(row)]
            if (number, sub) not in listed:
                continue
            if after[1] == number:
                gaps[number, sub] = None
                if first is None or slot < first[0]:
                    first = (slot, number, sub)
            elif gaps[number, sub] is not None:
                gaps[number, sub] = max(gaps[number, sub], (after[0] - slot - 1) % slots + 1)
    return gaps, first


def shown(decoder, cycle, start, count, pages):
    """The rows of each page that the decoder shows after this many slots, or None."""
    words = [f"{number}/{sub}" for number, sub, _, _ in pages]
    told = subprocess.run([decoder, cycle, str(start), str(count), *words], capture_output=True, text=True, check=True).stdout.split("\n")
    answer = {}
    for page in pages:
        if told[0] == "-":
            answer[page[:2]], told = None, told[1:]
        else:
            answer[page[:2]], told = told[:24], told[24:]
    return answer


def frames(decoder, cycle, start, count, number):
    """What the decoder shows of a number without subcode: the slots at which that changes, and the rows, or None."""
    told = subprocess.run([decoder, cycle, str(start), str(count), number], capture_output=True, text=True, check=True).stdout.split("\n")
    at = 0
    while told[at]:
        rows = None if told[at + 1] == "-" else told[at + 1 : at + 25]
        yield int(told[at]), rows
        at += 2 if rows is None else 25


def build_decoder(folder):
    flags = subprocess.run(["pkg-config", "--cflags", "--libs", "zvbi-0.2"], capture_output=True, text=True)
    if flags.returncode != 0:
        print("libzvbi's decoder isn't asked: pkg-config finds no zvbi-0.2 (libzvbi-dev)")
        return None
    subprocess.run(["cc", "-O2", "-o", folder / "shown", HERE / "shown.c", *flags.stdout.split()], check=True)
    return folder / "shown"


class Comparison:
    def __init__(self, program, decoder, folder):
        self.program, self.decoder, self.folder = program, decoder, folder
        self.counts, self.wrong = Counter(), 0

    def fault(self, what):
        self.wrong += 1
        print("wrong:", what)

    def run(self, *words):
        return subprocess.run([self.program, *words], cwd=self.folder, capture_output=True, text=True)

    def compare(self, rng, name, pages, lines, options):
        if self.run("plan", f"{name}.toml", "planned.t42", *options).returncode != 0:
            return
        found = self.run("find", "planned.t42", f"{name}.toml", "found.cert").stdout
        deadline = int(re.fullmatch(r"found deadline (\d+)\n", found)[1])
        cycle = (self.folder / "planned.t42").read_bytes()
        gaps, first = followers(cycle, pages)
        said = self.run("certify", "planned.t42", f"{name}.toml", "found.cert", "--late").stdout
        if first is None:
            gap = max(gaps.values())
            wanted = f"yes lines {lines} repeat 1 deadline {deadline} pages {len(pages)} late {gap}\n"
        else:
            wanted = f"no 13 never-shown {first[1]}/{first[2]} {first[0]}\n"
        self.counts["services"] += 1
        self.counts["yes" if first is None else "no 13"] += 1
        if said != wanted:
            self.fault(f"{name} {options}: {said!r} in place of {wanted!r}")
        if self.decoder:
            self.show(rng, name, pages, gaps, deadline * lines, len(cycle) // 42)
            self.key(rng, name, pages, len(cycle) // 42)

    def key(self, rng, name, pages, slots):
        """Keys the numbers with several pages, without subcode."""
        said = self.run("certify", "planned.t42", f"{name}.toml", "found.cert", "--late", "--numbers").stdout
        for number, every, stays in re.findall(r"number (\w+) pages \d+ every (\d+) slots stays (\d+)", said):
            authored = [[page[3].get(r, "").ljust(40) for r in range(1, 25)] for page in pages if page[0] == number]
            for start in [0] + rng.sample(range(slots), min(slots, 4)):
                self.watch(f"{name} {number} from slot {start}", start, int(every) + 3 * slots, number, authored, int(every), int(stays))

    def watch(self, what, start, count, number, authored, every, stays):
        shown = list(frames(self.decoder, self.folder / "planned.t42", start, count, number))
        ends = [at for at, _ in shown[1:]] + [count]
        self.counts["keyed"] += 1
        for (at, rows), end in zip(shown, ends):
            if end <= every:
                continue
            self.counts["frames"] += end - max(at, every)
            if rows not in authored:
                self.fault(f"{what}: neither subpage is shown at slot {max(at, every)}")
            elif at > every and end < count:
                self.counts["stays"] += 1
                if end - at < stays:
                    self.fault(f"{what}: a subpage stays {end - at} slots of {stays}")
        for rows in authored:
            times = [0] + [time for (at, own), end in zip(shown, ends) if own == rows for time in (at, end)] + [count]
            away = max(then - before for before, then in zip(times[::2], times[1::2]))
            if authored.count(rows) == 1 and away > every:
                self.fault(f"{what}: a subpage is not shown for {away} slots of {every}")

    def show(self, rng, name, pages, gaps, deadline, slots):
        authored = {page[:2]: [page[3].get(r, "").ljust(40) for r in range(1, 25)] for page in pages}
        at_end = shown(self.decoder, self.folder / "planned.t42", 0, 3 * slots, pages)
        for page, gap in gaps.items():
            seen = at_end[page] is not None
            self.counts["followed" if gap is not None else "not followed", "shown" if seen else "never shown"] += 1
            if gap is not None and at_end[page] != authored[page]:
                self.fault(f"{name} {page} isn't shown as authored")
        for start in [0] + rng.sample(range(slots), min(slots, 4)):
            for gap in {gap for gap in gaps.values() if gap is not None}:
                in_time = shown(self.decoder, self.folder / "planned.t42", start, deadline + gap, pages)
                for page in (page for page in gaps if gaps[page] == gap):
                    self.counts["in time"] += 1
                    if in_time[page] != authored[page]:
                        self.counts["not in time"] += 1
                        self.fault(f"{name} {page} isn't shown {deadline + gap} slots after slot {start}")

    def report(self, title):
        count = self.counts
        print(f"| `{title}`: services; yes; no 13 | {count['services']:,}; {count['yes']:,}; {count['no 13']:,} |")
        if self.decoder:
            print(f"| pages followed: shown; never shown | {count['followed', 'shown']:,}; {count['followed', 'never shown']:,} |")
            print(f"| pages not followed: shown; never shown | {count['not followed', 'shown']:,}; {count['not followed', 'never shown']:,} |")
            print(f"| pages and tuning slots, after D times L and G slots: asked; not as authored | {count['in time']:,}; {count['not in time']:,} |")
            print(f"| numbers keyed, with tuning slots; frames; stays | {count['keyed']:,}; {count['frames']:,}; {count['stays']:,} |")


def main():
    program = str(Path(sys.argv[1]).resolve())
    services = int(sys.argv[2]) if len(sys.argv) > 2 else 200
    seed = int(sys.argv[3]) if len(sys.argv) > 3 else 1
    wrong = 0
    with tempfile.TemporaryDirectory() as place:
        folder = Path(place)
        decoder = build_decoder(folder)
        for options in [], ["--late"], ["--late", "--spread"]:
            rng, comparison = random.Random(seed), Comparison(program, decoder, folder)
            for number in range(services):
                pages = make_pages(rng)
                lines = write_service(rng, pages, folder / f"{number}.toml")
                comparison.compare(random.Random(number), str(number), pages, lines, options)
            comparison.report(" ".join(["plan", *options]))
            wrong += comparison.wrong
    return 1 if wrong else 0


if __name__ == "__main__":
    sys.exit(main())
