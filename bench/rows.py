#!/usr/bin/env python3
"""Gives libzvbi's decoder damaged receptions of planned services, within the error rule by rows, and compares what it shows.

usage: rows.py PROGRAM [SERVICES [SEED]]

Random services (100, seed 1) are planned with `--late`, found and certified with repeat 1 and with repeat 2. For each page the decoder is
given D times L and G slots from a random tuning slot on, as badly as the rule by rows allows for this page: a wrong bit in any byte that
Hamming codes protect, rows of this page torn or lost except one of each K successive transmissions, any packet of another magazine and any
row of another page lost or torn. Each page has to be shown as authored. The same receptions with one transmission more torn, which the
rule does not allow, are counted beside them: the decoder has to miss rows of these, or the damage is none.

Without libzvbi (pkg-config zvbi-0.2) nothing is compared. The status is 1 if a page that is promised is missing or has other rows.
"""
import random
import re
import subprocess
import sys
import tempfile
from collections import Counter
from dataclasses import dataclass
from pathlib import Path

from late import WORDS, build_decoder, make_pages, shown, write_service

EMPTY = bytes(42)
NEVER = 10**9


@dataclass
class Packet:
    """What stands in a slot: its address, and the page that it belongs to."""

    data: bytes
    magazine: int = 0
    row: int = -1
    page: tuple = None


def packets_of(cycle):
    """The packets of a cycle, each with the page whose header came last in its magazine."""
    found, latest = [], {}
    for slot in range(2 * (len(cycle) // 42)):
        at = 42 * slot % len(cycle)
        data = cycle[at : at + 42]
        packet = Packet(data)
        if data != EMPTY:
            first, second, *digits = (WORDS.index(byte) if byte in WORDS else -1 for byte in data[:8])
            packet.magazine, packet.row = first % 8 or 8, first // 8 + 2 * second
            if packet.row == 0:
                sub = digits[2] + 16 * (digits[3] % 8) + 256 * digits[4] + 4096 * (digits[5] % 4)
                latest[packet.magazine] = (f"{packet.magazine}{digits[1]:X}{digits[0]:X}", f"{sub:04X}")
            packet.page = latest.get(packet.magazine)
        found.append(packet)
    return found[len(found) // 2 :]


def with_wrong_bits(rng, data, places):
    """The packet with one wrong bit in each of some of these bytes."""
    received = bytearray(data)
    for place in places:
        received[place] ^= 1 << rng.randrange(8)
    return bytes(received)


def some(rng, places):
    return [place for place in places if rng.random() < 0.3]


def lost(rng, data):
    """A line without teletext, or a packet whose address cannot be read."""
    if rng.random() < 0.5:
        return EMPTY
    return bytes([data[0] ^ 0b11]) + data[1:]


def protected(packet):
    """The bytes of a packet that Hamming codes protect."""
    if packet.row == 0:
        return range(10)
    return range(39) if packet.row == 27 else range(2)


def torn(rng, packet):
    """A row with a character of even parity, or one that is lost."""
    if rng.random() < 0.3:
        return lost(rng, packet.data)
    wrong = {rng.randrange(2, 42), *some(rng, range(2, 42))}
    return with_wrong_bits(rng, packet.data, wrong)


def received(rng, packets, start, count, page, repeat, beyond):
    """A reception of so many slots from a slot on, as bad for a page as the rule by rows allows; and one row worse from slot `beyond` on."""
    run, spoilt, slots = Counter(), Counter(), []
    for number in range(count):
        packet = packets[(start + number) % len(packets)]
        data = packet.data
        if data != EMPTY:
            data = with_wrong_bits(rng, data, some(rng, protected(packet)))
            if 1 <= packet.row <= 25 and packet.page == page:
                worse = packet.row == beyond
                if worse or (run[packet.row] + 1 < repeat and rng.random() < 0.8):
                    data, run[packet.row] = torn(rng, packet), run[packet.row] + 1
                    spoilt[packet.row] += 1
                else:
                    run[packet.row] = 0
            elif (1 <= packet.row <= 25 or packet.magazine != int(page[0][0])) and rng.random() < 0.4:
                data = torn(rng, packet) if 1 <= packet.row <= 25 else lost(rng, packet.data)
            elif packet.row == 0 and repeat > 1 and rng.random() < 0.4:
                data = with_wrong_bits(rng, data, some(rng, range(10, 34)))
        slots.append(data)
    return b"".join(slots), sum(spoilt.values())


class Comparison:
    def __init__(self, program, decoder, folder):
        self.program, self.decoder, self.folder = program, decoder, folder
        self.counts, self.wrong = Counter(), 0

    def run(self, *words):
        return subprocess.run([self.program, *words], cwd=self.folder, capture_output=True, text=True)

    def compare(self, rng, name, pages, lines, repeat):
        """Plans and certifies a service, and gives the decoder bad receptions of each of its pages."""
        if self.run("plan", f"{name}.toml", "planned.t42", "--late").returncode != 0:
            return
        self.run("find", "planned.t42", f"{name}.toml", "found.cert", "--repeat", str(repeat))
        said = self.run("certify", "planned.t42", f"{name}.toml", "found.cert", "--late").stdout
        yes = re.fullmatch(rf"yes lines {lines} repeat {repeat} deadline (\d+) pages \d+ late (\d+)\n", said)
        if not yes:
            self.counts[repeat, said.split(" ")[0] + " " + said.split(" ")[1]] += 1
            return
        self.counts[repeat, "services"] += 1
        packets = packets_of((self.folder / "planned.t42").read_bytes())
        for page in pages:
            self.try_page(rng, name, page, packets, int(yes[1]) * lines + int(yes[2]), repeat)

    def try_page(self, rng, name, page, packets, count, repeat):
        start, page_id = rng.randrange(len(packets)), page[:2]
        slots, spoilt = received(rng, packets, start, count, page_id, repeat, NEVER)
        self.counts[repeat, "rows spoilt"] += spoilt
        self.counts[repeat, "pages"] += 1
        if self.shows(page, slots) != authored(page):
            self.wrong += 1
            print(f"wrong: {name} {page_id}, repeat {repeat}, from slot {start} for {count}")
        never = rng.choice([row for row in sorted(page[3]) if page[3][row].strip()] or [NEVER])
        slots, _ = received(rng, packets, start, count, page_id, repeat, never)
        self.counts[repeat, "beyond"] += never != NEVER
        self.counts[repeat, "beyond missed"] += never != NEVER and self.shows(page, slots) != authored(page)

    def shows(self, page, slots):
        (self.folder / "received.t42").write_bytes(slots)
        return shown(self.decoder, self.folder / "received.t42", 0, len(slots) // 42, [page])[page[:2]]

    def report(self, services):
        count = Counter()
        for (_, word), value in self.counts.items():
            count[word] += value
        refused = sum(value for word, value in count.items() if word.startswith("no "))
        print(f"| {services:,} services, rule by rows, repeat 1 and 2: certified; not | {count['services']:,}; {refused:,} |")
        print(f"| rows torn or lost; receptions; not as authored | {count['rows spoilt']:,}; {count['pages']:,}; {self.wrong:,} |")
        print(f"| one row torn each time: receptions; not as authored | {count['beyond']:,}; {count['beyond missed']:,} |")


def authored(page):
    return [page[3].get(row, "").ljust(40) for row in range(1, 25)]


def main():
    program = str(Path(sys.argv[1]).resolve())
    services = int(sys.argv[2]) if len(sys.argv) > 2 else 100
    seed = int(sys.argv[3]) if len(sys.argv) > 3 else 1
    with tempfile.TemporaryDirectory() as place:
        folder = Path(place)
        decoder = build_decoder(folder)
        if decoder is None:
            return 0
        comparison = Comparison(program, decoder, folder)
        for repeat in (1, 2):
            rng = random.Random(seed)
            for number in range(services):
                pages = make_pages(rng)
                lines = write_service(rng, pages, folder / f"{number}.toml")
                comparison.compare(random.Random(number), str(number), pages, lines, repeat)
        comparison.report(services)
    return 1 if comparison.wrong else 0


if __name__ == "__main__":
    sys.exit(main())
