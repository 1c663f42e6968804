"""A plain certifier for small cycles, independent of the program: the first reason against the certificate that names every sure
start, and the least deadline with which that certificate is accepted. Pages have only letters and spaces, and no links."""
from make_data import WORDS
from plain_receiver import packet_in


def odd(codes):
    """Characters as they are sent, with odd parity."""
    return bytes(c if bin(c).count("1") % 2 else c | 0x80 for c in codes)


def is_clean(slot):
    if not any(slot):
        return True
    if slot[0] not in WORDS or slot[1] not in WORDS:
        return False
    number = WORDS.index(slot[0]) // 8 + 2 * WORDS.index(slot[1])
    return all(b in WORDS for b in (slot[2:10] if number == 0 else slot[2:3] if number == 27 else b""))


def needed(page):
    """The items that a viewer of the page needs: the head, rows 1 to 23, and the links, each by its name."""
    items = [] if page["control"] >> 3 & 1 else ["head"]
    return [*items, *([] if page["control"] >> 6 & 1 else [f"row {n}" for n in range(1, 24)]), "links"]


class Sent:
    """What a cycle sends of a page: the slots of its headers and items, and for each item how far back its header is and whether it is
    sure."""

    def __init__(self, cycle, page, lines):
        self.headers, self.items, self.page = [], {"head": []}, page
        back, is_own, is_ended = 0, False, False
        for at in range(2 * len(cycle)):
            kind, mag, more = packet_in(cycle[at % len(cycle)])
            back += 1
            if kind == "header" and mag == page["id"][0]:
                back, is_own, is_ended = 0, more[0] == page["id"], False
            elif kind == "header":
                is_ended |= bool(more[1] >> 7 & 1)
            if at >= len(cycle) and is_own:
                self.note(kind, mag, more, at - len(cycle), back, back > lines and not is_ended)

    def note(self, kind, mag, more, at, back, is_sure):
        if kind == "header" and back == 0:
            self.headers.append((at, more[1]))
            self.items["head"].append((at, 0, True))
        elif mag == self.page["id"][0] and kind in ("row", "links"):
            item = "links" if kind == "links" else f"row {more}"
            self.items.setdefault(item, []).append((at, back, is_sure))

    def starts(self, item, repeat, length):
        """The sure starts: slot, slot of its header, and slot of the last transmission of the run."""
        sent, told = self.items.get(item, []), []
        count = 1 if item == "links" else repeat
        for first, (at, back, _) in enumerate(sent):
            run = [first + n for n in range(count)]
            if all(sent[n % len(sent)][2] for n in run):
                last = sent[run[-1] % len(sent)][0] + run[-1] // len(sent) * length
                told.append((at, at - back, last))
        return told


def contents_fault(cycle, sent, alone):
    """The first reason why what is sent of a page differs from the page, or None."""
    page = sent.page
    if not sent.headers:
        return "2 no-header", None
    heads = [(at, packet_in(slot)) for at, slot in enumerate(cycle) if packet_in(slot)[0] == "header"]
    for at, (_, _, more) in heads:
        if alone and more[0][:2] == page["id"][:2] and more[0] != page["id"]:
            return "3 other-subpage", at
    for at, control in sent.headers:
        if control & 1:
            return "4 erased", at
    for at, control in sent.headers:
        if control != page["control"] or cycle[at][10:34] != odd(page["head"]):
            return "5 head-differs", at
    rows = sorted(at for n in range(1, 24) if f"row {n}" in needed(page) for at, _, _ in sent.items.get(f"row {n}", []))
    for at in rows:
        if cycle[at][2:] != odd(page["rows"][packet_in(cycle[at])[2] - 1]):
            return "6 row-differs", at
    for at, _, _ in sent.items.get("links", []):
        if packet_in(cycle[at])[2] != ([None] * 6, 0) or any(b not in WORDS for b in cycle[at][3:40]):
            return "7 links-differ", at
    return None


def page_name(page):
    return f"{page['id'][0]}{page['id'][1]:02X}/{page['id'][2]:04X}"


def first_reason(cycle, pages, lines, repeat):
    """The words of the first reason against the certificate that names every sure start, or None."""
    for at, slot in enumerate(cycle):
        if not is_clean(slot):
            return f"1 bad-slot {at}"
    for page in pages:
        sent = Sent(cycle, page, lines)
        fault = contents_fault(cycle, sent, sum(p["id"][:2] == page["id"][:2] for p in pages) == 1)
        if fault:
            name, at = fault
            return f"{name} {page_name(page)}" + ("" if at is None else f" {at}")
        for item in needed(page):
            if not sent.starts(item, repeat, len(cycle)):
                return f"8 no-witness {page_name(page)} {item}"
    return None


def least_deadline(cycle, pages, lines, repeat):
    """The least number of fields with which the certificate that names every sure start is accepted, if no other reason is against it."""
    slots = 1
    for page in pages:
        sent = Sent(cycle, page, lines)
        for item in needed(page):
            starts = sent.starts(item, repeat, len(cycle))
            ends = [last for _, _, last in starts[1:]] + [starts[0][2] + len(cycle)]
            slots = max(slots, *(end - header for (_, header, _), end in zip(starts, ends)))
    return -(-slots // lines)
