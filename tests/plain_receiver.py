"""A plain receiver of Level 1 pages, independent of the program: the contents of each slot, what a permitted receiver with the choices of
a script does with it, and what is displayed if there are only letters and spaces."""
from make_data import WORDS

SPACES = [32] * 40


def number_in(byte):
    return next((n for n, word in enumerate(WORDS) if bin(byte ^ word).count("1") <= 1), None)


def numbers_in(some):
    numbers = [number_in(byte) for byte in some]
    return None if None in numbers else numbers


def packet_in(slot):
    """The contents of a slot: its kind, its magazine, and the fields of that kind."""
    address = numbers_in(slot[:2])
    if not any(slot) or address is None:
        return "nothing", 0, None
    mag, number = address[0] % 8 or 8, address[0] // 8 + 2 * address[1]
    if number == 0:
        n = numbers_in(slot[2:10])
        if n is None:
            return "nothing", 0, None
        sub = n[2] + 16 * (n[3] % 8) + 256 * n[4] + 4096 * (n[5] % 4)
        control = n[3] // 8 + 2 * (n[5] // 4) + 8 * n[6] + 128 * n[7]
        return "header", mag, ((mag, n[0] + 16 * n[1], sub), control)
    if number <= 24:
        return "row", mag, number
    if number == 27 and number_in(slot[2]) == 0:
        return "links", mag, six_in(mag, numbers_in(slot[3:40]))
    return "nothing", 0, None


def six_in(mag, n):
    if n is None:
        return None
    six = []
    for at in range(0, 36, 6):
        units, tens, s1, s2, s3, s4 = n[at : at + 6]
        sub = s1 + 16 * (s2 % 8) + 256 * s3 + 4096 * (s4 % 4)
        target = (mag % 8 ^ (s2 // 8 + 2 * (s4 // 4))) or 8
        six.append(None if (units + 16 * tens, sub) == (255, 0x3F7F) else (target, units + 16 * tens, sub))
    return six, n[36] // 8


def store(held, received):
    return [c & 0x7F if bin(c).count("1") % 2 else old for old, c in zip(held, received)]


class Receiver:
    """A receiver set to one page's id, with the choices of a script."""

    def __init__(self, counter, page):
        self.id, self.lines, self.script = page["id"], counter["lines"][0], list(counter["choices"][1:])
        self.rows, self.control = [list(r) for r in counter["rows"]], counter["control"][0]
        self.six = [tuple(counter["links"][i : i + 3]) for i in range(0, 18, 3)]
        self.six = [None if link == (0, 0, 0) else link for link in self.six]
        self.row_24, self.storing = counter["row-24"][0], counter["storing"][0]
        self.age, self.fresh, self.any = counter["age"][0], counter["fresh"][0], counter["any-subpage"][0]

    def choose(self):
        return self.script.pop(0) if self.script else 0

    def matches(self, page):
        return page[:2] == self.id[:2] if self.any else page == self.id

    def hear(self, slot):
        self.age = min(64, self.age + 1)
        kind, mag, more = packet_in(slot)
        if kind == "header" and self.matches(more[0]):
            self.begin(more[1], slot)
        elif kind == "header":
            if mag == self.id[0] or (more[1] >> 7 & 1 and self.storing and self.choose()):
                self.storing = 0
        elif kind != "nothing" and mag == self.id[0] and self.storing and not (self.age <= self.lines and self.choose()):
            if kind == "row":
                self.rows[more] = store(self.rows[more], slot[2:])
            elif more is not None:
                self.six, self.row_24 = more

    def begin(self, control, slot):
        if control & 1 or (self.fresh and self.choose()):
            self.rows[1:], self.six, self.row_24 = [list(SPACES) for _ in range(24)], [None] * 6, 0
        self.rows[0] = self.rows[0][:8] + store(self.rows[0][8:], slot[10:])
        self.control, self.storing, self.age, self.fresh = control, 1, 0, 0


def shown(rows, control, six, row_24):
    """What is displayed in the columns that are compared, if there are only letters and spaces."""
    first = SPACES[:24] if control >> 3 & 1 else rows[0][8:32]
    middle = [SPACES if control >> 6 & 1 or (n == 24 and not row_24) else rows[n] for n in range(1, 25)]
    return first, middle, six
