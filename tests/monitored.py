#!/usr/bin/env python3
"""Runs `monitor` of the built program on random feeds of small planned services, and compares its lines with those of a plain program.

usage: monitored.py PROGRAM [COUNT]

Some feeds are judged, some by rows, and others are reported while they come: `--all`, `--every` with random fields, or both. A feed is what
a receiver got of a cycle that is sent again and again, from any slot on, with clocks as they may be, wrong bits within the error rule and
outside of it, lost slots, slots where none was sent, and a rest. The slot that it begins with is named or found, and it is read from a file or
from standard input. The plain program in this script says what the error rule says: an empty slot is received empty,
each other byte with one wrong bit at most, and of any K successive transmissions of a text byte one is received right; clocks in page
headers and packets 8/30 are free. It says too where the feed has slipped: a slot does not fit, nor do most of the next period, but so many
slots on in the cycle most of them do, and the first packet among them. By rows, a packet may be lost unless it is a header or X/27/0 of a
page's magazine, and of any K successive transmissions of a row that a viewer sees one is received whole. Feeds of the first cycle begin with
each of its slots. Last, cycles are sent by `send` with the time, and the packets judged from some slot on.
"""
import os
import random
import subprocess
import sys
import tempfile

# Hamming 8/4 (EN 300 706, 8.2)
WORDS = bytes.fromhex("1502495e6473382fd0c78c9ba1b6fdea")
EMPTY = bytes(42)
INFO = '[info]\ninitial = "100"\nnetwork = "12F4"\nmjd = 46000\nutc = 123045\ntext = "Our TV"\n'
READ = [next((n for n, word in enumerate(WORDS) if bin(word ^ byte).count("1") <= 1), None) for byte in range(256)]
ROWS = ["a row", "\\u0001red \\u0012mosaic", "", "x" * 40, "\\u000Dtall"]


def service(draw):
    """The text of a small service, and the ids of its pages, each with the rows that a viewer sees."""
    text = f"lines = {draw.choice([1, 2, 4])}\nserial = {draw.choice(['true', 'false'])}\n" + draw.choice(["", INFO])
    ids = {}
    for number in sorted(draw.sample(["100", "101", "1A0", "234", "877"], draw.randint(1, 3))):
        for sub in range(draw.choice([1, 1, 2])):
            text += f'[[page]]\nnumber = "{number}"\nsub = "{sub:04X}"\noften = {draw.choice([1, 1, 2])}\nhead = "page {number}"\n[page.rows]\n'
            rows = {row: draw.choice(ROWS) for row in sorted(draw.sample(range(1, 25), draw.randint(0, 4)))}
            text += "".join(f'{row} = "{said}"\n' for row, said in rows.items())
            ids[f"{number}/{sub:04X}"] = seen(rows)
    return text, ids


def seen(rows):
    """The rows that a viewer sees: not row 24, which no links show, and none below one in double height."""
    hidden = set()
    for row in range(1, 23):
        if row not in hidden and "000D" in rows.get(row, ""):
            hidden.add(row + 1)
    return set(range(1, 24)) - hidden


def address(slot):
    """The magazine and the number of a packet that was sent, or None for an empty line."""
    if slot == EMPTY:
        return None
    low, high = WORDS.index(slot[0]), WORDS.index(slot[1])
    return low % 8 or 8, low // 8 + 2 * high


def page_of(slot):
    """The id in a header."""
    d = [WORDS.index(byte) for byte in slot[2:10]]
    sub = d[2] + 16 * (d[3] % 8) + 256 * d[4] + 4096 * (d[5] % 4)
    return f"{address(slot)[0]}{d[1]:X}{d[0]:X}/{sub:04X}"


class Cycle:
    """The slots of a cycle: how many bytes of each are compared, and the page and the row whose text it sends."""

    def __init__(self, data):
        self.slots = [data[i:i + 42] for i in range(0, len(data), 42)]
        self.compared, self.texts, self.seen, latest = [], [], {}, {}
        for turn in range(2):
            self.compared, self.texts = [], []
            for slot in self.slots:
                mag, number = address(slot) or (0, 99)
                if number == 0:
                    latest[mag] = page_of(slot)
                self.compared.append(34 if number == 0 else 2 if (mag, number) == (8, 30) else 42)
                self.texts.append((latest[mag], number) if number < 25 and mag in latest else None)

    def __len__(self):
        return len(self.slots)

    def far(self, at, received):
        """The first byte that the rule does not allow in place of slot `at`, or None."""
        key = at % len(self), received
        if key not in self.seen:
            self.seen[key] = self.compare(*key)
        return self.seen[key]

    def compare(self, at, received):
        sent = self.slots[at]
        if sent == received:
            return None
        for x in range(self.compared[at]):
            if bin(sent[x] ^ received[x]).count("1") > (0 if sent == EMPTY else 1):
                return x
        return None

    def misfits(self, place, window):
        """How many of these slots cannot have been received from this place on."""
        return sum(self.far(place + n, slot) is not None for n, slot in enumerate(window))

    def slip(self, place, window):
        """By how many slots a feed has slipped that should go on with these slots at this place; None if it has not."""
        first = next((n for n, slot in enumerate(window) if slot != EMPTY), None)
        if first is None or 2 * self.misfits(place, window) <= len(window):
            return None
        for by in range(1, len(self)):
            if self.far(place + by + first, window[first]) is None and 2 * self.misfits(place + by, window) < len(window):
                return by
        return None

    def start_of(self, feed):
        """The slot from which the first period fits best."""
        head = feed[:len(self)]
        return min(range(len(self)), key=lambda start: (self.misfits(start, head), start))


def signed(by, count):
    """Slots that were lost, or, below 0, inserted, as what is less."""
    return by if by <= count - by else by - count


def verdict(cycle, ids, repeat, feed, rest, named):
    """The status and the text for a feed, by the error rule."""
    start = cycle.start_of(feed) if named is None else named
    wrong, longest, streaks = 0, 0, {}
    for n, received in enumerate(feed):
        at = (start + n) % len(cycle)
        sent, far = cycle.slots[at], cycle.far(at, received)
        by = None if far is None else cycle.slip(at, feed[n:n + len(cycle)])
        if by is not None:
            return 1, f"no slot {n} shifted by {signed(by, len(cycle))} start {start}\n"
        if far is not None:
            way = "unlike" if sent == EMPTY else "lost" if received == EMPTY else f"byte {far}"
            return 1, f"no slot {n} {way} start {start}\n"
        wrong += sum(sent[x] != received[x] for x in range(cycle.compared[at]))
        if cycle.texts[at] is None or cycle.texts[at][0] not in ids:
            continue
        page, row = cycle.texts[at]
        for x in range(10, 34) if row == 0 else range(2, 42):
            streak = streaks.get((page, row, x), 0) + 1 if sent[x] != received[x] else 0
            streaks[page, row, x] = streak
            if streak == repeat:
                item = "head" if row == 0 else f"row {row}"
                return 1, f"no repeat {page} {item} byte {x} slot {n} start {start}\n"
            longest = max(longest, streak)
    text = f"yes start {start} slots {len(feed)} wrong {wrong} streak {longest}\n"
    return 0, text + (f"rest {rest} bytes\n" if rest else "")


def ignored(slot):
    """Whether a receiver takes nothing of these bytes: they are no header, no row and no X/27/0."""
    low, high = READ[slot[0]], READ[slot[1]]
    if slot == EMPTY or low is None or high is None:
        return True
    number = low // 8 + 2 * high
    if number == 0:
        return any(READ[byte] is None for byte in slot[2:10])
    return number > 24 and (number != 27 or READ[slot[2]] != 0)


def may_be_lost(ids, slot):
    """Whether the packet that was sent may be lost."""
    mag, number = address(slot) or (0, 99)
    head = number == 0 or (number == 27 and READ[slot[2]] == 0)
    return not (head and any(page[0] == str(mag) for page in ids))


def verdict_by_rows(cycle, ids, repeat, feed, rest, named):
    """The status and the text for a feed, by the rule by rows."""
    start = cycle.start_of(feed) if named is None else named
    lost, torn = 0, {}
    for n, received in enumerate(feed):
        at = (start + n) % len(cycle)
        sent, far = cycle.slots[at], cycle.far(at, received)
        if far is not None and not (ignored(received) and may_be_lost(ids, sent)):
            by = cycle.slip(at, feed[n:n + len(cycle)])
            if by is not None:
                return 1, f"no slot {n} shifted by {signed(by, len(cycle))} start {start}\n"
            way = "unlike" if sent == EMPTY else "lost" if received == EMPTY else f"byte {far}"
            return 1, f"no slot {n} {way} start {start}\n"
        lost += far is not None and sent != EMPTY
        text = cycle.texts[at]
        if text is None or text[1] not in ids.get(text[0], ()):
            continue
        whole = far is None and received[2:] == sent[2:]
        torn[text] = 0 if whole else torn.get(text, 0) + 1
        if torn[text] == repeat:
            return 1, f"no repeat {text[0]} row {text[1]} slot {n} start {start}\n"
    text = f"yes start {start} slots {len(feed)} lost {lost}\n"
    return 0, text + (f"rest {rest} bytes\n" if rest else "")


class Heard:
    """A feed that is heard slot by slot from slot `start` of the cycle on."""

    def __init__(self, cycle, ids, repeat, start):
        self.cycle, self.ids, self.repeat, self.place = cycle, ids, repeat, start % len(cycle)
        self.streaks, self.longest = {}, 0

    def streak(self, received):
        """Counts the streaks of a slot's text; the first byte that has been wrong in `repeat` transmissions, and its item."""
        text, sent, found = self.cycle.texts[self.place], self.cycle.slots[self.place], None
        if text is None or text[0] not in self.ids:
            return None
        for x in range(10, 34) if text[1] == 0 else range(2, 42):
            streak = min(self.streaks.get((*text, x), 0) + 1, self.repeat) if sent[x] != received[x] else 0
            self.streaks[(*text, x)] = streak
            self.longest = max(self.longest, streak)
            if streak == self.repeat and found is None:
                found = f"{text[0]} {'head' if text[1] == 0 else f'row {text[1]}'} byte {x}"
        return found

    def hear(self, window):
        """What the first of these slots does: by how much the feed has slipped, how it breaks the rule, its wrong bytes, its wrong bits."""
        cycle, received = self.cycle, window[0]
        by = cycle.slip(self.place, window) if cycle.far(self.place, received) is not None else None
        if by is not None:
            self.place = (self.place + by) % len(cycle)
            self.streaks, self.longest = {}, 0
        sent, far, compared = cycle.slots[self.place], cycle.far(self.place, received), cycle.compared[self.place]
        repeated = self.streak(received)
        way = None
        if far is not None:
            way = "unlike" if sent == EMPTY else "lost" if received == EMPTY else f"byte {far}"
        wrong = sum(sent[x] != received[x] for x in range(compared))
        bits = 0 if EMPTY in (sent, received) else sum(bin(sent[x] ^ received[x]).count("1") for x in range(compared))
        self.place = (self.place + 1) % len(cycle)
        return by, way, repeated, wrong, bits


def reported(cycle, ids, repeat, feed, rest, named, lines, every, tell_all):
    """The status and the text of a report."""
    start = cycle.start_of(feed) if named is None else named
    heard, text = Heard(cycle, ids, repeat, start), ""
    wrong = bits = lost = breaches = most = 0
    for n in range(len(feed)):
        by, way, repeated, more, more_bits = heard.hear(feed[n:n + len(cycle)])
        told = []
        if by is not None:
            told.append(f"no slot {n} shifted by {signed(by, len(cycle))}")
        if way is not None:
            told.append(f"no slot {n} {way}")
        elif repeated is not None:
            told.append(f"no repeat {repeated} slot {n}")
        wrong, bits, lost, breaches = wrong + more, bits + more_bits, lost + (way == "lost"), breaches + bool(told)
        most = max(most, heard.longest)
        if tell_all:
            text += "".join(line + "\n" for line in told)
        if every is not None and (n + 1) % (every * lines) == 0:
            text += f"slots {n + 1} wrong {wrong} streak {most} lost {lost}\n"
        if told and not tell_all:
            return 1, text + f"{told[0]} start {start}\n"
    minute = 3000 * lines
    if breaches:
        text += f"no start {start} slots {len(feed)} wrong {wrong} streak {most} breaches {breaches}\n"
    else:
        text += f"yes start {start} slots {len(feed)} wrong {wrong} streak {most}\n"
    text += f"rest {rest} bytes\n" if rest else ""
    if tell_all:
        a_minute = [count * minute // len(feed) if feed else 0 for count in (lost, bits)]
        text += f"total lost {lost} bits {bits} minute lost {a_minute[0]} bits {a_minute[1]}\n"
    return 1 if breaches else 0, text


def flip(feed, n, x, bits=1):
    slot = bytearray(feed[n])
    slot[x] ^= bits
    feed[n] = bytes(slot)


def damaged(draw, cycle, ids, start, count, repeat):
    """What may be received of `count` slots from slot `start` on."""
    feed = []
    for n in range(count):
        at = (start + n) % len(cycle)
        slot = bytearray(cycle.slots[at])
        if draw.random() < 0.5:
            for x in range(cycle.compared[at], 42):
                slot[x] = draw.randrange(256)
        feed.append(bytes(slot))
    sent = [n for n in range(count) if feed[n] != EMPTY]
    kind = draw.choice(["clean", "near", "near", "streak", "streak", "two bits", "lost", "unlike", "slipped", "slipped", "gone", "gone"])
    for n in draw.sample(sent, len(sent) // 3) if kind != "clean" and draw.random() < 0.7 else []:
        flip(feed, n, draw.randrange(2), 1 << draw.randrange(8))
    if kind == "near" and sent and repeat > 1:
        # no slot is hit that sends what one was hit in already
        hit = set()
        for n in draw.sample(sent, len(sent) // 2):
            text = cycle.texts[(start + n) % len(cycle)]
            if text and text not in hit:
                hit.add(text)
                flip(feed, n, draw.randrange(10, 34), 1 << draw.randrange(8))
    own = [n for n in sent if (cycle.texts[(start + n) % len(cycle)] or [None])[0] in ids]
    if kind == "streak" and own:
        text = cycle.texts[(start + draw.choice(own)) % len(cycle)]
        ones = [n for n in own if cycle.texts[(start + n) % len(cycle)] == text]
        at, length, x = draw.randrange(len(ones)), draw.choice([repeat, max(repeat - 1, 1)]), draw.randrange(10, 34)
        for n in ones[at:at + length]:
            flip(feed, n, x, 1 << draw.randrange(8))
    if kind == "gone":
        # packets that may be lost by rows: each row at most repeat - 1 times in a row, or once more
        gone, most = {}, draw.choice([repeat, max(repeat - 1, 1)])
        for n in range(count):
            at = (start + n) % len(cycle)
            text = cycle.texts[at]
            if feed[n] != EMPTY and may_be_lost(ids, cycle.slots[at]) and gone.get(text, 0) < most and draw.random() < 0.5:
                gone[text] = gone.get(text, 0) + 1
                feed[n] = draw.choice([EMPTY, bytes([255, 255]) + feed[n][2:], bytes([WORDS[10], WORDS[15]]) + feed[n][2:]])
            else:
                gone[text] = 0
    if kind == "two bits" and sent:
        n = draw.choice(sent)
        flip(feed, n, draw.randrange(42), draw.choice([3, 0x81, 0xff]))
    if kind == "lost" and sent:
        feed[draw.choice(sent)] = EMPTY
    if kind == "unlike" and len(sent) < count:
        flip(feed, draw.choice([n for n in range(count) if n not in sent]), draw.randrange(42), 1 << draw.randrange(8))
    if kind == "slipped" and count:
        at, slots = draw.randrange(count), draw.choice([1, 1, 1, 2, 5])
        if draw.random() < 0.5:
            del feed[at:at + slots]
        else:
            feed[at:at] = [draw.choice(feed) for _ in range(slots)]
    return feed


def told(program, feed, rest, named, piped, more=()):
    """The status and the text of the program, and what it writes to standard error."""
    data = b"".join(feed) + bytes(rest)
    with open("feed", "wb") as file:
        file.write(data)
    words = [program, "monitor", "cycle", "service", "cert", "-" if piped else "feed"]
    words += [] if named is None else ["--start", str(named)]
    words += more
    done = subprocess.run(words, input=data if piped else b"", capture_output=True, timeout=60, check=False)
    return done.returncode, done.stdout.decode(), done.stderr.decode()


def run(program, *words):
    """What a command writes. A status other than 0 or an error ends the test."""
    done = subprocess.run([program, *words], capture_output=True, timeout=60, check=False)
    if done.returncode or done.stderr:
        with open("service", encoding="utf-8") as file:
            sys.exit(f"FAILED {' '.join(words)}: status {done.returncode}, {done.stderr!r}, of the service\n{file.read()}")
    return done.stdout


def plan(program, draw):
    """A planned cycle with a certificate of a random repeat count: the cycle, the ids of its pages, the count, and the lines."""
    while True:
        text, ids = service(draw)
        repeat = draw.choice([1, 2, 2, 3])
        with open("service", "w", encoding="utf-8") as file:
            file.write(text)
        run(program, "plan", "service", "cycle")
        run(program, "find", "cycle", "service", "cert", "--repeat", str(repeat))
        with open("cycle", "rb") as file:
            cycle = Cycle(file.read())
        if len(cycle) <= 200:
            return cycle, ids, repeat, int(text.split()[2])


def sends(program, draw):
    """What `monitor` says of a sent cycle, from some slot on, and what it should say."""
    cycle, _, _, lines = plan(program, draw)
    fields, cut = draw.randint(1, 3 * len(cycle) // lines + 2), draw.randrange(2 * len(cycle))
    sent = run(program, "send", "cycle", "--fields", str(fields), "--lines", str(lines), "--at", "46000/123045")
    feed = [sent[i:i + 42] for i in range(0, len(sent), 42)][cut:]
    got = told(program, feed, 0, cut % len(cycle), draw.random() < 0.5)
    return got, (0, f"yes start {cut % len(cycle)} slots {len(feed)} wrong 0 streak 0\n", "")


def failure(program, draw, planned, start):
    """What is wrong with the verdict on a feed that begins with this slot of a planned cycle, or None."""
    cycle, ids, repeat, lines = planned
    most = 3 * len(cycle)
    slots = draw.choice([0, 1, draw.randint(2, len(cycle)), draw.randint(len(cycle), most), draw.randint(len(cycle), most)])
    feed = damaged(draw, cycle, ids, start, slots, repeat)
    named = draw.choice([None, None, start, start + len(cycle), draw.randrange(65536)])
    rest = draw.choice([0, 0, 1, 41])
    tell_all, every = draw.choice([(False, None)] * 3 + [(True, None), (True, draw.randint(1, 60)), (False, draw.randint(1, 60))])
    by_rows = not tell_all and every is None and draw.random() < 0.5
    more = (["--rows"] if by_rows else []) + (["--all"] if tell_all else []) + ([] if every is None else ["--every", str(every)])
    if tell_all:
        for n in draw.sample(range(len(feed)), min(len(feed), draw.choice([0, 1, 5]))):
            feed[n] = EMPTY
    if by_rows:
        status, text = verdict_by_rows(cycle, ids, repeat, feed, rest, named)
    elif more:
        status, text = reported(cycle, ids, repeat, feed, rest, named, lines, every, tell_all)
    else:
        status, text = verdict(cycle, ids, repeat, feed, rest, named)
    got = told(program, feed, rest, named, draw.random() < 0.5, more)
    return None if got == (status, text, "") else f"start {start}, named {named}, {more}: {got}, not {status} {text!r}"


def main():
    program = os.path.abspath(sys.argv[1])
    count = int(sys.argv[2]) if len(sys.argv) > 2 else 2600
    draw = random.Random(52)
    failed = made = 0
    with tempfile.TemporaryDirectory() as folder:
        os.chdir(folder)
        while made < count:
            planned = plan(program, draw)
            period = len(planned[0])
            # of the first service, a feed from every slot on
            for start in range(period) if made == 0 else [draw.randrange(period) for _ in range(10)]:
                why = failure(program, draw, planned, start)
                made += 1
                if why:
                    failed += 1
                    print(f"FAILED feed {made}: {why}")
        for _ in range(30):
            got, wanted = sends(program, draw)
            made += 1
            if got != wanted:
                failed += 1
                print(f"FAILED sent feed {made}: {got}, not {wanted}")
    print(f"monitored: {made} feeds, {failed} failed")
    return 1 if failed else 0


if __name__ == "__main__":
    sys.exit(main())
