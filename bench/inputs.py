#!/usr/bin/env python3
"""Makes the inputs of the benchmark: services and packet files of rising size.

usage: inputs.py FOLDER

Writes nothing outside FOLDER. Packet files are written byte by byte, since a planned cycle is at most half as long as the longest
packet file.
"""
import sys
from pathlib import Path

WORDS = bytes.fromhex("1502495e6473382fd0c78c9ba1b6fdea")
EMPTY = bytes(42)


def odd(code):
    """The byte of a character, with odd parity."""
    return code if bin(code).count("1") % 2 else code + 128


def address(mag, number):
    return bytes([WORDS[mag % 8 + 8 * (number % 2)], WORDS[number // 2]])


def header(mag, page, sub, c7_10, c11, text):
    digits = [page % 16, page // 16, sub % 16, sub // 16 % 8, sub // 256 % 16, sub // 4096, c7_10, c11]
    words = bytes(WORDS[digit] for digit in digits)
    return address(mag, 0) + words + bytes(odd(ord(c)) for c in text[:24].ljust(24)) + bytes([0x20] * 8)


def row(mag, number, text):
    return address(mag, number) + bytes(odd(ord(c)) for c in text[:40].ljust(40))


def links(mag):
    none = bytes(WORDS[n] for n in (15, 15, 15, 7, 15, 3))
    return address(mag, 27) + bytes([WORDS[0]]) + none * 6 + bytes([WORDS[7], 0, 0])


def corrected(slots):
    """The same slots with one wrong bit in each X/27/0. The pages are still shown, but not sent unchanged."""
    out = bytearray(slots)
    packets = {address(mag, 27) for mag in range(1, 9)}
    for at in range(0, len(out), 42):
        if bytes(out[at : at + 2]) in packets:
            out[at + 3] ^= 1
    return bytes(out)


def page_ids(count):
    """Page ids in authored order: eight magazines, pages 00 to FE, then further subcodes."""
    made = 0
    for sub in range(0, 0x80):
        for page in range(0x00, 0xFF):
            for mag in range(1, 9):
                if made == count:
                    return
                yield mag, page, sub
                made += 1


def body(number):
    return [f"PAGE {number} ROW {r} OF A SERVICE" for r in range(1, 24)]


def blank(_):
    return [""] * 23


def cycle(slots, pages, lines, inhibit=False, text_of=body):
    """A serial cycle of this many slots that sends the pages in turn, as often as they fit whole."""
    out = []
    blocks = []
    for number, (mag, page, sub) in enumerate(page_ids(pages)):
        block = [header(mag, page, sub, 8 if inhibit else 0, 1, f"PAGE {number}")] + [EMPTY] * lines
        block += [] if inhibit else [row(mag, r, text) for r, text in enumerate(text_of(number), 1)]
        blocks.append([*block, links(mag)])
    at = 0
    while len(out) + len(blocks[at % pages]) <= slots:
        out += blocks[at % pages]
        at += 1
    out += [EMPTY] * (slots - len(out))
    assert at >= pages, "not every page fits"
    return b"".join(out)


def page_text(number, mag, page, sub, keys, rows):
    """The table of a page, with further keys."""
    out = ["[[page]]", f'number = "{mag}{page:02X}"', f'sub = "{sub:04X}"', f'head = "PAGE {number}"', *keys, "[page.rows]"]
    return "\n".join([*out, *(f'{r} = "{text}"' for r, text in enumerate(rows, 1) if text), "", ""])


def service(pages, lines, inhibit, text_of=body):
    """A service of pages with 23 rows. If their display is inhibited, no row is sent."""
    keys = ["inhibit = true"] if inhibit else []
    texts = [page_text(number, *name, keys, text_of(number)) for number, name in enumerate(page_ids(pages))]
    return f"lines = {lines}\nserial = true\n\n" + "".join(texts)


def numbered(pages, mags, serial, keys):
    """A service of pages with 23 rows on 12 lines, in the order of their numbers, evenly spread over magazines."""
    texts, each = [], -(-pages // mags)
    for number in range(pages):
        sub, page = divmod(number % each, 255)
        texts.append(page_text(number, 1 + number // each, page, sub, keys(number), body(number)))
    return f"lines = 12\nserial = {str(serial).lower()}\n\n" + "".join(texts)


def main():
    if len(sys.argv) != 2 or sys.argv[1].startswith("-"):
        sys.exit(__doc__)
    folder = Path(sys.argv[1])
    folder.mkdir(parents=True, exist_ok=True)
    for slots, pages in ((8192, 250), (16384, 500), (32768, 1000), (65536, 2000)):
        (folder / f"{slots}.t42").write_bytes(cycle(slots, pages, 1))
    (folder / "corrected.t42").write_bytes(corrected((folder / "65536.t42").read_bytes()))
    for slots in (8192, 65536):
        (folder / f"inhibited-{slots}.t42").write_bytes(cycle(slots, 2000, 1, True))
    (folder / "inhibited.toml").write_text(service(2000, 1, True))
    (folder / "sent.toml").write_text(service(2000, 1, False))
    # blank rows are sent, so nearly every item has its own start, and there is little text to read
    (folder / "blank-65536.t42").write_bytes(cycle(65536, 2000, 1, text_of=blank))
    (folder / "blank.toml").write_text(service(2000, 1, False, blank))
    # page 100 is sent in each of the eight rounds
    for pages in (50, 300, 800):
        (folder / f"often-{pages}.toml").write_text(numbered(pages, 1, True, lambda number: [] if number else ["often = 8"]))
    for serial in (True, False):
        name = "promised-serial.toml" if serial else "promised-parallel.toml"
        (folder / name).write_text(numbered(300, 8, serial, promise))
    # one page, whose header comes every 28 slots
    (folder / "one-page.t42").write_bytes(cycle(28, 1, 3))
    (folder / "one-page.toml").write_text(service(1, 1, False))
    (folder / "42-mb").write_bytes(bytes(42_000_000))
    subpages = "".join(f'[[page]]\nnumber = "100"\nsub = "{sub:04X}"\n' for sub in subcodes(1213))
    (folder / "subpages.toml").write_text("lines = 2\nserial = true\n" + subpages)


def promise(number):
    """The seconds within which a page is to be seen: so few for the first five that they have to be sent more often."""
    return [f"within = {3 if number == 0 else 6 if number < 3 else 12 if number < 5 else 25}"]


def subcodes(count):
    made = 0
    for sub in range(0x3F7F):
        if sub & ~0x3F7F == 0:
            if made == count:
                return
            yield sub
            made += 1


if __name__ == "__main__":
    main()
