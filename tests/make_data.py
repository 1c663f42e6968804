#!/usr/bin/env python3
"""Makes the files of tests/data, with an encoder that shares nothing with the program.

usage: make_data.py FOLDER

Code words are those of EN 300 706, 8.2; characters have odd parity (8.1).
"""
import hashlib
import sys
import tomllib
from pathlib import Path

sys.dont_write_bytecode = True
from book_page import book  # noqa: E402
from report_page import Found, Numbers, Wait, document  # noqa: E402

WORDS = bytes.fromhex("1502495e6473382fd0c78c9ba1b6fdea")
EMPTY = bytes(42)
SPACES = bytes([0x20] * 40)
BASE_TEXT = 'lines = 2\nserial = true\n[[page]]\nnumber = "100"\n'


def packet(mag, number, rest):
    slot = bytes([WORDS[mag % 8 + 8 * (number % 2)], WORDS[number // 2]]) + rest
    assert len(slot) == 42
    return slot


def header(mag, page, sub=0, c4_10=0, c11_14=1, text=SPACES[:32]):
    low = c4_10 & 1
    s = [sub % 16, sub // 16 % 8 + 8 * low, sub // 256 % 16, sub // 4096 + 4 * (c4_10 >> 1 & 3)]
    numbers = [page % 16, page // 16, *s, c4_10 >> 3, c11_14]
    return packet(mag, 0, bytes(WORDS[n] for n in numbers) + text)


def row(mag, number, text=SPACES):
    return packet(mag, number, text)


def links(mag, first=None, control=7):
    """A packet X/27/0 whose first link has the six numbers given, if any."""
    none = (15, 15, 15, 7, 15, 3)
    numbers = [0, *(first or none), *none * 5, control]
    return packet(mag, 27, bytes(WORDS[n] for n in numbers) + bytes(2))


def time_filling(mag, c11=1):
    return header(mag, 0xFF, 0x3F7F, 0, c11)


def base():
    """28 slots: page 100, its 23 blank rows, no links, and the time-filling header of magazine 1."""
    return [header(1, 0), EMPTY, EMPTY, *[row(1, r) for r in range(1, 24)], links(1), time_filling(1)]


def staying(keys):
    """Two blank subpages of page 100, the first of which has these keys, and page 101."""
    page = '[[page]]\nnumber = "{}"\n'
    return page.format(100) + keys + page.format(100) + 'sub = "0001"\n' + page.format(101)


def carousel(times):
    """The two subpages in turn, page 101 so many times after each."""
    slots = []
    for sub in (0, 1):
        for page, subcode in [(0, sub), *[(1, 0)] * times]:
            slots += [header(1, page, subcode), *base()[1:27]]
    slots.append(time_filling(1))
    return slots + [EMPTY] * (len(slots) % 2)


def two_subpages(between):
    """Two blank subpages of page 100, each with these slots behind it."""
    return [slot for sub in (0, 1) for slot in [header(1, 0, sub), *base()[1:27], *between]]


def odd(codes):
    """Characters as they are sent, with odd parity (8.1)."""
    return bytes(c | (0x80 if bin(c).count("1") % 2 == 0 else 0) for c in codes)


def text_row(mag, number, codes):
    return row(mag, number, odd(codes.ljust(40)))


ATTRIBUTES = {
    1: b"\x04\x1d\x07\x0dTall <b>&\x22'</b> \x11\x0d\x7f5j",
    3: b"\x01Red\x02Green\x03Yellow\x04Blue\x05Mag\x06Cy\x07White",
    4: b"\x08\x01flash\x09steady \x03\x18concealed\x07 shown",
    5: b"\x11 !\x22#$%&'()*+,-./0123456789:;<=>?",
    6: b"\x12`abcdefghijklmnopqrstuvwxyz{|}~\x7f",
    7: b"\x13\x1a !\x22#$%&'()*+,-./0123456789:;<=>?",
    8: b"\x16\x1a`abcdefghijklmnopqrstuvwxyz{|}~\x7f",
    9: b"\x11\x0d\x7f5j!(0`\x1a\x7f5j!(0`\x0c\x7f5j\x07\x0dA[Hg",
    11: b"\x11\x1e\x7f\x12\x13\x14\x1f\x12\x1a\x14\x1c\x19 held",
    12: b"\x03\x1d\x04Blue on yellow\x01\x1dRed \x1cblack",
    17: b"[\x5c]^_`{|}~#$@\x7f <tag attr=\x22x\x22>&amp;</tag>",
    20: b"\x0d\x08\x06\x18Hidden tall\x07 tall",
    24: b"\x01Red \x02Green \x03Yellow \x06Cyan",
}
BOX = b"\x0d\x0b\x0b\x03Newsflash \x08<now>\x0a\x0a outside"


BOOK_TOPS = (b"        Cafe & Bar 100".ljust(40), b"        Cafe & Bar 101".ljust(40))
BOOK_ROWS = {1: b"\x04\x1d\x07Fish & <chips>\x01\x1d\x07\"hot\"\x04\x1d", 2: b"plain \x01red\x07white  red\x02no", 24: b"\x02below"}
BOOK_MORE = {3: b"it's second", 23: b"\x06end"}


def book_cycle():
    """Pages 100 and 101: rows with colours, a link from the first to the second, and a subpage of the second that is sent first."""
    out = [header(1, 0, text=odd(BOOK_TOPS[0][8:])), EMPTY, *[text_row(1, n, codes) for n, codes in BOOK_ROWS.items()]]
    out += [links(1, (1, 0, 15, 7, 15, 3), 15), time_filling(1)]
    for sub in (2, 1):
        out += [header(1, 1, sub, text=odd(BOOK_TOPS[1][8:])), EMPTY, *[text_row(1, n, codes) for n, codes in BOOK_MORE.items()]]
    return out


def book_of_cycle():
    first = {0: BOOK_TOPS[0]} | BOOK_ROWS
    more = {0: BOOK_TOPS[1]} | BOOK_MORE
    return book([("100", "0000", first, {0: "101"}), ("101", "0001", more, {}), ("101", "0002", more, {})])


def attributes():
    """Page 200 has each spacing attribute, and characters that markup reserves; page 201 is a newsflash with a box."""
    head = odd(b"Attributes <&>".ljust(32))
    first = [header(2, 0, 0, 0, 1, head), EMPTY, EMPTY, *[text_row(2, n, text) for n, text in ATTRIBUTES.items()], links(2, (1, 0, 15, 15, 15, 7), 15)]
    return [*first, header(2, 1, 0, 2, 1, head), EMPTY, EMPTY, text_row(2, 20, BOX), time_filling(2)]


def with_slot(slots, at, slot):
    return [*slots[:at], slot, *slots[at + 1 :]]


def with_byte(slots, at, byte, value):
    slot = bytearray(slots[at])
    slot[byte] = value
    return with_slot(slots, at, bytes(slot))


def each_kind():
    """A slot of each kind, and slots with wrong bits."""
    info = bytes.fromhex("15ea151515eaeaea5e123485057111234156" "00000000" "5445d354") + SPACES[:16]
    link = links(1, (5, 0, 15, 15, 15, 7), 7)
    slots = [header(1, 0), EMPTY, row(1, 1), bytes([0x16] * 42), bytes(41) + bytes([1]), bytes([0xFF] * 42), link]
    slots += [links(1, (5, 0, 15, 15, 15, 7), 15)]
    slots += [with_byte([link], 0, at, value)[0] for at, value in [(2, 0x02), (2, 0x16), (3, 0x16)]]
    slots += [info]
    slots += [with_byte([info], 0, at, value)[0] for at, value in [(2, 0x49), (13, 0x70), (22, 0x55), (3, 0x16)]]
    slots += [with_byte([info], 0, at, value)[0] for at, value in [(2, 0x16), (13, 0xB1)]]
    slots += with_byte(with_byte([info], 0, 3, 0x16), 0, 22, 0x55)
    slots += [with_byte([header(1, 0)], 0, 5, value)[0] for value in [0xD0, 0xD1]]
    return [*slots, time_filling(1), header(8, 0xEF, 0x3F7F, 127, 15)]


TEST_INFO = """[info]
initial = "100"
network = "1234"
halves = 2
mjd = 46000
utc = 123045
text = "TEST"
"""

# packet 8/30 with these fields, from its worked example
INFO = bytes.fromhex("15ea151515eaeaea5e12348505711123415600000000" "5445d354") + SPACES[:16]


def suppressed(mag, c11, page=0):
    """A page's block without rows: the header with C7 and C10, and no links."""
    return header(mag, page, 0, 1 << 3 | 1 << 6, c11), links(mag)


def block(mag):
    """The block of a blank page for fields of two slots."""
    return [header(mag, 0), EMPTY, EMPTY, *[row(mag, r) for r in range(1, 24)], links(mag)]


def short_block(mag, sub=0):
    """The block of a page whose row 1 is A, in fields of two slots, for receivers that surely clear."""
    return [header(mag, 0, sub), EMPTY, EMPTY, text_row(mag, 1, b"A")]


def planned():
    """Planned cycles, laid out by hand."""
    one, one_links = suppressed(1, 1)
    first, first_links = suppressed(1, 0)
    second, second_links = suppressed(2, 0)
    third, third_links = suppressed(2, 0, 1)
    return {
        "planned-info.t42": [INFO, *base(), EMPTY],
        "planned-twice.t42": [*block(1), *block(2), *block(1), time_filling(1), time_filling(2), EMPTY],
        # page 100 in rounds 0 and 4, the others in rounds 1, 2, 3, 5 and 6, the shortest in their turn
        "planned-spread.t42": [
            *block(1), *block(2), *block(3), *block(4), *block(1), *block(5), *block(6), *[time_filling(mag) for mag in range(1, 7)], EMPTY,
        ],
        "planned-suppressed.t42": [one, EMPTY, EMPTY, one_links, time_filling(1), EMPTY],
        "planned-parallel.t42": [
            first, second, EMPTY, first_links, second_links, time_filling(1, 0), time_filling(2, 0), EMPTY,
        ],
        "planned-late.t42": [
            first, second, EMPTY, first_links, second_links, time_filling(1, 0), third, first,
            EMPTY, third_links, first_links, time_filling(2, 0), time_filling(1, 0), EMPTY,
        ],
        "planned-clearing.t42": [header(1, 0), EMPTY, EMPTY, time_filling(1)],
        # page 200 in rounds 0 and 4, the subpages in rounds 1 and 5, and a time-filling header before a page number that comes again
        "planned-all-options.t42": [
            *short_block(2), *short_block(1, 1), time_filling(2), *short_block(2), time_filling(1), *short_block(1, 2),
            time_filling(1), time_filling(2),
        ],
    }


def services():
    """The services of these cycles."""
    page = '[[page]]\nnumber = "{}"\n'
    quiet = page + "suppress = true\ninhibit = true\n"
    serial = "lines = 2\nserial = true\n"
    lettered = '[page.rows]\n1 = "A"\n'
    return {
        "planned-all-options.toml": serial + page.format(100) + 'sub = "0001"\n' + lettered + page.format(100) + 'sub = "0002"\n' + lettered
        + page.format(200) + "often = 2\n" + lettered,
        "planned-info.toml": serial + TEST_INFO + page.format(100),
        "planned-twice.toml": serial + page.format(100) + "often = 2\n" + page.format(200),
        "planned-spread.toml": serial + page.format(100) + "often = 2\n" + "".join(page.format(n) for n in (200, 300, 400, 500, 600)),
        "planned-suppressed.toml": serial + quiet.format(100),
        "planned-late.toml": "lines = 2\nserial = false\n" + quiet.format(100) + "often = 2\n" + quiet.format(200) + quiet.format(201),
        "planned-parallel.toml": "lines = 2\nserial = false\n" + quiet.format(100) + quiet.format(200),
        "within-27-fields.toml": serial + page.format(100) + "within = 0.54\n",
        "within-26-fields.toml": serial + page.format(100) + "within = 0.52\n",
        "within-0.toml": serial + page.format(100) + "within = 0\n",
        "stays-27-fields.toml": serial + staying("stays = 0.54\n"),
        "stays-28-fields.toml": serial + staying("stays = 0.56\n"),
        "stays-within.toml": serial + staying("stays = 0.56\nwithin = 1.2\n"),
        "stays-alone.toml": serial + page.format(100) + "stays = 1\n" + page.format(100) + 'sub = "0001"\nstays = 2\n',
        "stays-0.toml": serial + staying("stays = 0\n"),
        "stays-3-seconds.toml": serial + staying("stays = 3.0\n"),
        "stays-400-seconds.toml": serial + staying("stays = 400\n"),
        "stays-of-one-page.toml": serial + page.format(100) + "stays = 4.0\n" + page.format(101),
        "no-serial.toml": "lines = 2\n",
        "kind-of-page.toml": serial + "page = 1\n",
    }


def edits_of_base():
    """The worked cycle, edited."""
    hidden = with_slot(with_slot(base(), 7, row(1, 5, b"\x0d" + SPACES[1:])), 8, EMPTY)
    return {
        "other-subpage.t42": with_slot(base(), 27, header(1, 0, 1)),
        "time-filling-parallel.t42": with_slot(base(), 27, time_filling(1, 0)),
        "packet-26.t42": with_slot(base(), 1, packet(1, 26, bytes([0xFF, 0x16, 0x00, 0x9D]) + bytes(36))),
        "row-6-hidden.t42": hidden,
        "suppressed-clearing.t42": [header(1, 0, 0, 1 << 3), EMPTY, EMPTY, time_filling(1)],
        "two-headers-clearing.t42": [*[header(1, 0, 0, 1 << 3), EMPTY, EMPTY, time_filling(1)], header(1, 0, 0, 1 << 3), *[EMPTY] * 4, time_filling(1)],
    }


def refused_services():
    """A service for each fault in a value of a page or of the service."""
    serial = "lines = 2\nserial = true\n"
    page = serial + '[[page]]\nnumber = "100"\n'
    return {
        "no-number.toml": serial + "[[page]]\n",
        "kind-of-lines.toml": 'lines = "2"\n',
        "page-1ff.toml": serial + '[[page]]\nnumber = "1FF"\n',
        "subcode-0080.toml": page + 'sub = "0080"\n',
        "page-again.toml": page + '[[page]]\nnumber = "100"\n',
        "row-of-41.toml": page + 'rows = { "1" = "' + "A" * 41 + '" }\n',
        "accent.toml": page + 'rows = { "1" = "\u00e9" }\n',
        "lines-33.toml": "lines = 33\n",
        "row-25.toml": page + 'rows = { "25" = "" }\n',
    }


def checked_services():
    """Services with an author's mistakes: a row of 47 characters, a quotation that is not closed, unknown keys, and a service for each
    warning."""
    head = "lines = 2\nserial = false\n"
    page = '[[page]]\nnumber = "{}"\n'
    long = head + "\n# the pages\n\n" + page.format(100) + "\n[page.rows]\n"
    long += '"1"   = "SHORT"\n"2"   = "ROWS"\n"3"   = "FIRST"\n\n"4"   = "' + "A" * 47 + '"\n'
    rows = '"4" = "\\u000DTALL"\n"5" = "lost"\n"6" = "a\\tb"\n"7" = """\na\nb"""\n"8" = "\\u0008a\\tb"\n"24" = "keys"\n'
    info = '[info]\nnetwork = "0000"\nmjd = 1\nutc = 1\ninitial = "300"\n'
    warned = head + info + page.format(100) + 'links = ["100", "", "101", "100/0002", "100/3F7F"]\n[page.rows]\n' + rows
    warned += page.format(100) + 'sub = "0001"\nsubtitle = true\n' + page.format(200) + "often = 8\n" + page.format(201)
    return {
        "check-row-of-47.toml": long,
        "check-quotation.toml": head + page.format(100) + 'head = "NEWS\n',
        "check-misspelt.toml": "liens = 3\n" + head + info + 'netwrk = "0000"\n' + page.format(100) + "ofen = 2\ncolour = 7\n\"a\\u000Ab\" = 1\n",
        "check-warnings.toml": warned,
        "check-signs.toml": (
            'lines = 4\n'
            'serial = false\n'
            '[[page]]\n'
            'number = "1AB"\n'
            'sub = "000A"\n'
            'head = "News #1"\n'
            'row24 = true\n'
            '[page.rows]\n'
            '1 = "Costs 5 # and _x_"\n'
            "2 = '\\u0001Red'\n"
            '3 = "\\u000B\\u000Bbox"\n'
            '4 = "\\u0011#\\u0007#"\n'
            '[[page]]\n'
            'number = "100"\n'
            'option = 1\n'
            '[page.rows]\n'
            '1 = "# [a]"\n'
            '[[page]]\n'
            'number = "101"\n'
            '1 = "a row"\n'
            'often = 1\n'
        ),
        "check-several.toml": (
            'lines = 33\nserial = true\n[[page]]\nnumber = "1a0"\nsub = "1"\n[page.rows]\n"1" = "Caf\\u00e9 Z\u00fcrich"\nhead = "x"\n'
            + page.format(100) + 'rows = { "2" = "' + "1234567890" * 5 + '" }\nlinks = ["1FF"]\nlines = 3\n'
        ),
        "check-serial.toml": "lines = 2\nserial = true\n" + page.format(100) + page.format(101) + page.format(200),
        "check-inline.toml": 'page = [{number = "100", rows = {3 = "A"}}, # two pages\n  {number = "101", links = [\n    "100", "1/0"]}]\n' + head,
    }


def authors_texts():
    """Authors' texts: one that is composed, what is made of it and of that again, one with each mistake, and others."""
    head = "lines = 2\nserial = true\n"
    page = '[[page]]\nnumber = "100"\n'
    info = '[info]\nmjd = 46000\nnetwork = "12F4"\ntext = "{}"\nutc = 1\n'
    desk = "author = 1\n" + head + info.format("Tides £5") + "\n# The caf\u00e9,\n# twice a day.\n" + page
    desk += 'option = "french"\nhead = "Caf\u00e9 du Port"\n[page.rows]\n'
    desk += 'text = """\n{red}Cr\u00eape\n\n{mosaic cyan}\U0001fb02\u258c\u2588 A{cyan}\u00e0"""\n8 = "{box}On{/box}"\n'
    rows = 'option = 4\n\n[page.rows]\n1 = "\\u0001Cr\\\\pe"\n3 = "\\u0016#5\\u007F A\\u0006@"\n8 = "\\u000B\\u000BOn\\u000A\\u000A"\n'
    composed = "# Composed from desk.toml by ttx compose: change that text, and compose it again.\n" + head + "\n" + info.format("Tides #5")
    composed += "\n# The caf\u00e9,\n# twice a day.\n" + page + 'head = "Caf# du Port"\n' + rows
    back = "# Decomposed from desk-composed.toml by ttx decompose.\nauthor = 1\n" + head + "\n" + info.format("Tides £5") + "\n" + page
    back += 'head = "Caf\u00e9 du Port"\noption = "french"\n\n[page.rows]\n1 = "{red}Cr\u00eape"\n'
    back += '3 = "{mosaic cyan}\U0001fb02\u258c\u2588 A{cyan}\u00e0"\n8 = "{box}On{/box}"\n'
    return {
        "desk.toml": desk,
        "desk-decomposed.toml": back,
        "desk-composed.toml": composed,
        "desk-mistakes.toml": "author = 1\n" + head + info.format("Tides, ferries, weather") + page + 'head = "{rde}Tides"\n[page.rows]\n'
        + 'text = """\nCaf\u00e9 \u2603\n\n{red\na\\tb\n{{\nab\U0001fb02\n{mosaic red}\u2588x\n' + "A" * 41 + "\nB\n" + "\n" * 15 + 'C\n"""\n9 = "D"\n'
        + page.replace("100", "101") + 'option = "frensh"\n' + page.replace("100", "102") + 'option = 7\nhead = "\u00e9"\n',
        "desk-not-toml.toml": "author = 1\n" + head + page + 'head = "Tides\n',
        "desk-again.toml": "author = 1\n" + head + page + page,
        "desk-within-0.toml": "author = 1\n" + head + page + "within = 0\n",
        "desk-errors.toml": "author = 1\nlines = 33\nserial = true\nlien = 4\n" + page + "often = 3\n[page.rows]\n25 = \"A\"\n"
        + page + 'option = 9\nhead = "\u00e9"\n[page.rows]\n1 = "\u00e9"\n'
        + page.replace("100", "1FF") + 'option = "frensh"\nhead = "\u00e9"\n',
        "desk-warnings.toml": "author = 1\n" + head + page + 'links = ["200"]\n[page.rows]\ntext = """\n{double}Pounds: £ #\n{red}hidden\n'
        + '\n  {steady}still\n{box}open"""\n7 = "{red}{steady}x"\n24 = "keys"\n',
        "desk-marked.toml": "author = 2\n" + head + page,
        "desk-not-first.toml": head + "author = 1\n" + page + 'head = "\u00e9"\n',
        "desk-tables.toml": head + page + 'head = "Tides"\n[page.desk]\nby = "Ann"\n',
        "desk-tables-decomposed.toml": "# Decomposed from desk-tables.toml by ttx decompose.\nauthor = 1\n" + head
        + '\n[[page]]\nhead = "Tides"\nnumber = "100"\n\n[page.desk]\nby = "Ann"\n',
        "menu.toml": "author = 1\n" + head + page + '[page.rows]\ntext = """\n{white}Caf\u00e9 du Port\n{rde}Menu\nCod and chips \U0001fb02"""\n',
    }


def certificate(deadline, repeat=1, rows=range(1, 24), more=None, at=(0,)):
    """A certificate for blank pages whose headers are sent in these slots, a field before their rows."""

    def starts(place):
        return " ".join(str(slot + place) for slot in at)

    lines = ["ttx certificate 1", "lines 2", f"repeat {repeat}", f"deadline {deadline}", f"100/0000 head {starts(0)}"]
    named = {r: starts(r + 2) for r in rows} | (more or {})
    lines += [f"100/0000 row {r} {named[r]}" for r in sorted(named)]
    return "\n".join([*lines, f"100/0000 links {starts(26)}"]) + "\n"


def report(deadline, line, date=None):
    """The report on the blank page, whose viewers wait 27 fields, and a certificate with this deadline, of which `certify` says this line."""
    with (Path(__file__).parent / "cases/version.toml").open("rb") as file:
        version = tomllib.load(file)["command"]["stdout"]
    files = (b"".join(base()), BASE_TEXT.encode(), certificate(deadline).encode())
    has = ("slots: 28", "pages: 1", "entries: 25")
    inputs = [(size, hashlib.sha256(file).hexdigest()) for size, file in zip(has, files)]
    words = " 27 fields 0.54 s"
    found = Found(line + "\n", [Wait("100/0000", words + " row 23")], words, [])
    return document(Numbers(False, 2, 1, deadline, 2), found, inputs, version, date)


def reports():
    yes = "yes lines 2 repeat 1 deadline 27 pages 1"
    return {
        "base-report.html": report(27, yes),
        "base-report-dated.html": report(27, yes, "2024-02-29"),
        "base-26-report.html": report(26, "no 10 late 100/0000 row 23 25"),
    }


def subpages_certificate(deadline, second):
    """The same for two blank subpages, the second of which begins at this slot."""
    entries = certificate(deadline, at=(second,)).split("\n", 4)[4].replace("/0000 ", "/0001 ")
    return certificate(deadline) + entries


def number_lacking(extra):
    """Two blank subpages of page 100 that are sent apart, after a block with these packets between its header and a time-filling one."""
    return [*extra, time_filling(1), *two_subpages([time_filling(1)])]


def number_lacking_certificate(deadline, first):
    """A certificate for two subpages, the first of which begins at this slot."""
    entries = [certificate(deadline, at=(slot,)).split("\n", 4)[4] for slot in (first, first + 28)]
    return certificate(deadline).split("100/0000", 1)[0] + entries[0] + entries[1].replace("/0000 ", "/0001 ")


def turned_certificate(deadline):
    """The certificate of the worked cycle turned by ten slots."""
    lines = ["ttx certificate 1", "lines 2", "repeat 1", f"deadline {deadline}", "100/0000 head 18"]
    lines += [f"100/0000 row {r} {r + 20 if r < 8 else r - 8}" for r in range(1, 24)]
    return "\n".join([*lines, "100/0000 links 16"]) + "\n"


def two_pages():
    """Pages 100 (blank) and 101 (row 8 is A), as a plan sends them, turned so that this row is slot 0."""
    rows = [row(1, r, b"\xc1" + SPACES[1:] if r == 8 else SPACES) for r in range(1, 24)]
    second = [header(1, 1), EMPTY, EMPTY, *rows, links(1)]
    slots = [*block(1), *second, time_filling(1), EMPTY]
    return [*slots[37:], *slots[:37]]


def two_pages_certificate(deadline):
    """The certificate for these two pages."""
    lines = ["ttx certificate 1", "lines 2", "repeat 1", f"deadline {deadline}"]
    for page, at in (("100", 19), ("101", 46)):
        lines += [f"{page}/0000 head {at}"]
        lines += [f"{page}/0000 row {r} {(at + 2 + r) % 56}" for r in range(1, 24)]
        lines += [f"{page}/0000 links {(at + 26) % 56}"]
    return "\n".join(lines) + "\n"


def splicing_texts():
    """Certificates and a service for changes of cycles."""
    page = '[[page]]\nnumber = "{}"\n'
    return {
        "base-28.cert": certificate(28),
        "base-35.cert": certificate(35),
        "base-36.cert": certificate(36),
        "turned-35.cert": turned_certificate(35),
        "turned-36.cert": turned_certificate(36),
        "turned-41.cert": turned_certificate(41),
        "two-pages.toml": "lines = 2\nserial = true\n" + page.format(100) + page.format(101) + 'rows = {"8" = "A"}\n',
        "two-pages.cert": two_pages_certificate(41),
    }


def clearing_certificate(deadline, repeat=1, entries="100/0000 head 0\n"):
    """A certificate for receivers that surely clear."""
    return f"ttx certificate 2\nclass clearing\nlines 2\nrepeat {repeat}\ndeadline {deadline}\n{entries}"


def certifying_texts():
    """Certificates and services for further verdicts and refusals."""
    head = "ttx certificate 1\nlines 2\n"
    page = 'lines = 2\nserial = true\n[[page]]\nnumber = "100"\n'
    return {
        "base-repeat-2-40.cert": certificate(40, 2),
        "no-row-6.cert": certificate(27, rows=[r for r in range(1, 24) if r != 6]),
        "row-1-past-the-end.cert": certificate(27, more={1: "3 65535"}),
        "turned.cert": turned_certificate(27),
        "turned-26.cert": turned_certificate(26),
        "head-alone.cert": head + "repeat 1\ndeadline 2\n100/0000 head 0\n",
        "deadline-1000001.cert": head + "repeat 1\ndeadline 1000001\n",
        "deadline-of-8-digits.cert": head + "repeat 1\ndeadline 10000000\n",
        "deadline-01.cert": head + "repeat 1\ndeadline 01\n",
        "repeat-9.cert": head + "repeat 9\n",
        "class-any.cert": "ttx certificate 2\nclass any\nlines 2\nrepeat 1\ndeadline 2\n100/0000 head 0\n",
        "clearing-1.cert": clearing_certificate(1),
        "clearing-repeat-2.cert": clearing_certificate(4, 2),
        "clearing-repeat-2-5.cert": clearing_certificate(5, 2),
        "clearing-base.cert": clearing_certificate(14),
        "clearing-no-entries.cert": clearing_certificate(2, entries=""),
        "clearing-no-entries-1.cert": clearing_certificate(1, entries=""),
        "clearing-no-entries-3.cert": clearing_certificate(3, entries=""),
        "two-subpages.toml": page + '[[page]]\nnumber = "100"\nsub = "0001"\n',
        "row-6-hidden.toml": page + 'rows = {"5" = "\\u000D"}\n',
        "option-1.toml": page + "option = 1\n",
        "suppressed.toml": page + "suppress = true\n",
    }


PREVIEW = """lines = 2
serial = true
[[page]]
number = "100"
head = "Head <1>"
links = ["101/0002", "101", "", "", "", "100"]
row24 = true
[page.rows]
1 = "\\u000DTall & wide"
3 = "\\u0003\\u0018hidden\\u0007seen"
4 = "\\u0011\\u007F5j\\u001A\\u007F5j"
24 = "\\u0001Red"
[[page]]
number = "101"
sub = "0001"
[page.rows]
1 = "The first"
[[page]]
number = "101"
sub = "0002"
[page.rows]
1 = "The second"
"""


def quoted(codes):
    """Codes as a TOML string."""
    named = {0x22: '\\"', 0x5C: "\\\\"}
    return '"' + "".join(named.get(c, chr(c) if 0x20 <= c < 0x7F else f"\\u00{c:02X}") for c in codes) + '"'


def extracted(number, keys="", rows=None):
    """A page as `extract` writes it."""
    lines = [f"{n} = {quoted(text)}\n" for n, text in (rows or {}).items()]
    return f'\n[[page]]\nnumber = "{number}"\n{keys}\n[page.rows]\n' + "".join(lines)


def extracted_texts():
    """What `extract` writes for cycles."""
    serial, parallel = "lines = 2\nserial = true\n", "lines = 2\nserial = false\n"
    quiet, head = "suppress = true\ninhibit = true\n", 'head = "Attributes <&>"\n'
    info = TEST_INFO.replace("[info]\n", "\n[info]\ndesignation = 0\n")
    links_of_page = 'links = ["101", "", "", "", "", ""]\nrow24 = true\n'
    attributed = [extracted(200, head + links_of_page, ATTRIBUTES), extracted(201, "newsflash = true\n" + head, {20: BOX})]
    return {
        "extracted-base.toml": serial + extracted(100),
        "extracted-attributes.toml": "lines = 3\nserial = true\n" + "".join(attributed),
        "extracted-info.toml": serial + info + extracted(100),
        "extracted-parallel.toml": parallel + extracted(100, quiet) + extracted(200, quiet),
        "extracted-twice.toml": serial + extracted(100, "often = 2\n") + extracted(200),
        "extracted-subpages.toml": serial + extracted(100) + extracted(100, 'sub = "0001"\n'),
        "extracted-no-pages.toml": "lines = 32\nserial = true\n",
    }


def unlike():
    """Cycles that no service describes."""
    return {
        "row-5-unlike.t42": [*base(), *with_byte(base(), 7, 2, 0xC1)],
        "even-parity.t42": with_byte(base(), 5, 41, 0xA0),
        "minus-zero.t42": with_byte([EMPTY, INFO, *base()], 1, 11, 0xC1),
    }


def delivered():
    """Sixteen packets as recorders deliver them: behind a framing code, from within a packet on; with clock run-in, and the bits of each byte in
    reverse order; and from their second byte on."""
    packets = [header(1, 0), *[text_row(1, number, b"row %d as it is delivered" % number) for number in range(1, 16)]]
    run_in = b"".join(b"\x55\x55\x27" + packet for packet in packets)
    return {
        "framed": b"".join(b"\xe4" + packet for packet in packets)[25:],
        "run-in-turned": bytes(int(f"{byte:08b}"[::-1], 2) for byte in run_in),
        "from-byte-1": b"".join(packets)[1:],
    }


def counter(start, slots, deadline, changed=None, choices=(), six=" 0" * 18, code=65, control=128):
    """The text of a counter-run of page 100. The memory is the page's, with an A in the first column of a row, and with links."""
    rows = [f"{code}" + " 32" * 39 if number == changed else "32" + " 32" * 39 for number in range(25)]
    bits = [f" {bit}" for bit in choices]
    head = [
        "ttx counter 1", "lines 2", "repeat 1", f"deadline {deadline}", "page 0", "any-subpage 0", f"start {start}", f"slots {slots}",
        f"control {control}", "storing 0", "age 64", "fresh 0", "row-24 0", "links" + six,
    ]
    lines = [*head, *[f"row {row}" for row in rows], f"choices {len(bits)}" + "".join(bits), "hits 0"]
    return "".join(f"{line}\n" for line in lines)


def missed():
    """Runs from slot 0 on, with a former memory of spaces and an X in row 1. Choices decide which transmissions of row 1 are missed."""

    def run(slots, *choices):
        return counter(0, slots, 27, 1, choices, code=0x58, control=0)

    return {
        "missed-twice.counter": run(54, 1, 1),
        "missed-once.counter": run(54, 1, 0),
        "missed-never.counter": run(54),
        "missed-twice-53.counter": run(53, 1, 1),
    }


def air_logs():
    """The log of the air of base.toml for two fields; the same with another number of pages; and its beginning. The log of another air of it:
    with repeat 2 it needs 41 fields, and 14 more until the page ends, and shares 250 fields in this proportion."""
    digest = hashlib.sha256(BASE_TEXT.encode()).hexdigest()
    at = "2025-11-21T12:30:45+00:00"
    log = (
        "air within 250 repeat 1 at-once plain lines 2 fields 2 at 61000/123045 ahead 0\n"
        f"field 0 {at} on air {digest}: 1 page, deadline 250 fields (5.00 s), 28 slots\n"
        f"field 2 {at} end\n"
    )
    local = "2025-11-22T00:30:00+01:00"
    more = (
        "air within 250 repeat 2 late spread lines 2 fields 1 at 61000/233000 ahead 3600\n"
        f"field 0 {local} on air {digest}: 1 page, deadline 187 fields (3.74 s), 28 slots\n"
        f"field 1 {local} end\n"
    )
    return {"air.log": log, "air-other.log": log.replace("1 page", "2 pages"), "air-cut.log": log[: log.rindex("T")], "air-all-options.log": more}


def main():
    folder = Path(sys.argv[1])
    folder.mkdir(parents=True, exist_ok=True)
    near_row = with_slot(with_slot(base(), 2, row(1, 1)), 3, EMPTY)
    near_again = [*base(), *near_row]
    files = {
        "nothing": [],
        "base.t42": base(),
        "base-header.t42": base()[:1],
        "attributes.t42": attributes(),
        "each-kind.t42": each_kind(),
        "time-filling.t42": [time_filling(1)],
        "empty-slot.t42": [EMPTY],
        "row-near-header.t42": near_row,
        "row-near-second-header.t42": near_again,
        "erased.t42": with_byte(base(), 0, 5, 0xD0),
        "linked.t42": with_slot(base(), 26, links(1, (5, 0, 15, 15, 15, 7))),
        "no-header.t42": with_slot(base(), 0, EMPTY),
        "no-row-5.t42": with_slot(base(), 7, EMPTY),
        "turned.t42": [*base()[10:], *base()[:10]],
        "two-pages.t42": two_pages(),
        "other-magazine.t42": with_slot(base(), 1, header(2, 0, 0, 0, 0)),
        "other-magazine-serial.t42": with_slot(base(), 1, header(2, 0, 0, 0, 1)),
        "alone.t42": with_slot(base(), 27, EMPTY),
        "alone-in-its-magazine.t42": with_slot(base(), 27, header(2, 0)),
        "subpages.t42": two_subpages([]),
        "subpages-apart.t42": two_subpages([time_filling(1)]),
        "stays-once.t42": carousel(1),
        "stays-twice.t42": carousel(2),
        "subpages-unwhole.t42": number_lacking([header(1, 0), EMPTY, EMPTY, *[row(1, r) for r in range(1, 23)], links(1)]),
        "subpages-unlisted.t42": number_lacking([header(1, 0, 2)]),
        "row-5-wrong.t42": with_byte(base(), 7, 2, 0xC1),
        "row-5-wrong-again.t42": with_byte([*base(), *base()], 35, 2, 0xC1),
        "bad-slot.t42": with_byte(base(), 4, 0, 0x03),
        "bad-slot-1.t42": with_slot(base(), 1, bytes([0xFF] * 42)),
        "bad-slot-26.t42": with_byte(base(), 26, 2, 0x14),
        "book.t42": book_cycle(),
        "near-text.t42": with_slot(near_row, 2, row(1, 1, b"\xc1" + SPACES[1:])),
        "bad-parity.t42": [*base()[:3], row(1, 1, b"\xc1" + SPACES[1:]), row(1, 1, b"\xc0" + SPACES[1:])],
    } | planned() | edits_of_base() | unlike()
    for name, slots in files.items():
        (folder / name).write_bytes(b"".join(slots))
    (folder / "83-bytes").write_bytes(b"".join(base())[:83])
    for name, data in delivered().items():
        (folder / name).write_bytes(data)
    (folder / "desk-not-utf-8.toml").write_bytes(b"author = 1\nlines = 2\n# caf\xe9\n")
    texts = {
        "base.toml": BASE_TEXT,
        "preview.toml": PREVIEW,
        "book.html": book_of_cycle(),
        "no-pages.toml": "lines = 2\nserial = true\n",
        "often-3.toml": 'lines = 2\nserial = true\n[[page]]\nnumber = "100"\noften = 3\n',
        "base.cert": certificate(27),
        "base-26.cert": certificate(26),
        "base-41.cert": certificate(41),
        "subpages.cert": subpages_certificate(41, 27),
        "subpages-apart.cert": subpages_certificate(42, 28),
        "subpages-unwhole.cert": number_lacking_certificate(55, 27),
        "subpages-unlisted.cert": number_lacking_certificate(42, 2),
        "base-repeat-2.cert": certificate(41, 2),
        "no-row-1.cert": certificate(27, rows=range(2, 24)),
        "row-1-near.cert": certificate(27, rows=range(2, 24), more={1: "2"}),
        "late-start.cert": certificate(27, rows=range(2, 24), more={1: "4"}),
        "starts-fall.cert": certificate(27, rows=range(2, 24), more={1: "5 3"}),
        "start-65536.cert": certificate(27, rows=range(2, 24), more={1: "65536"}),
        "row-1-once.cert": certificate(30, more={1: "3"}, at=(0, 28)),
        "planned-info.cert": certificate(28, at=(1,)),
        "found-without-pages.cert": "ttx certificate 1\nlines 2\nrepeat 1\ndeadline 1\n",
        "one-field.cert": "ttx certificate 1\nlines 1\nrepeat 1\ndeadline 1\n",
        "no-entries.cert": "ttx certificate 1\nlines 2\nrepeat 1\ndeadline 27\n",
        "base-26.counter": counter(1, 52, 26, 23),
        "row-1-near.counter": counter(0, 54, 27, 1, (1, 1)),
        "no-header.counter": counter(0, 54, 27, six=" 1 1 16255" + " 0" * 15),
        "slots-052.counter": counter(1, 52, 26, 23).replace("slots 52", "slots 052"),
        "slots-51.counter": counter(1, 51, 26, 23),
        "clearing.cert": "ttx certificate 2\nclass clearing\nlines 2\nrepeat 1\ndeadline 2\n100/0000 head 0\n",
    } | services() | refused_services() | checked_services() | authors_texts() | certifying_texts() | splicing_texts() | extracted_texts() | missed() | reports() | air_logs()
    for name, text in texts.items():
        (folder / name).write_text(text)
    subpages = [sub for sub in range(0x3F7F) if sub & ~0x3F7F == 0][:1214]
    pages = [f'[[page]]\nnumber = "100"\nsub = "{sub:04X}"\n' for sub in subpages]
    (folder / "1214-subpages.toml").write_text("lines = 2\nserial = true\n" + "".join(pages))
    (folder / "1213-subpages.toml").write_text("lines = 2\nserial = true\n" + "".join(pages[:1213]))


if __name__ == "__main__":
    main()
