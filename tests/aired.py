#!/usr/bin/env python3
"""Puts services on the air, changes their texts meanwhile, and compares what `air` writes, byte for byte, and its log, line for line, with a
plain head-end in this script. The texts that are saved are good ones, with each kind of refusal between two of them. An author's text is
composed by `compose` first. Where an item would come too late through a change, the plain head-end begins the cycle elsewhere by its own reckoning.
Each airing is then replayed from its log.

usage: aired.py PROGRAM

The service is a named pipe first, another one for each time that `air` looks at it, so it is known which text is looked at when. Then it
is a file, which is replaced, and goes away and comes back: the pipe of the packets is made as small as it can be, so at most 225 slots are on
their way; the file is changed when the end of a period has gone by, and the next one is farther away than that.
"""
import copy
import datetime
import fcntl
import hashlib
import os
import re
import shutil
import subprocess
import sys
import tempfile
import threading
import time
from pathlib import Path

sys.dont_write_bytecode = True
from plain_receiver import packet_in  # noqa: E402
from sent import timed, zone_file  # noqa: E402

TOP = Path(__file__).resolve().parent.parent
PIPE = 4096


class Clock:
    """What the clock shows: the moment of the first field in UTC, how it is named, and how far it is ahead so many seconds later."""

    def __init__(self, mjd, second, name, words, ahead, halves):
        self.mjd, self.second, self.name, self.words, self.ahead, self.halves = mjd, second, name, words, ahead, halves
        self.at = f"{mjd}/{second // 3600:02}{second // 60 % 60:02}{second % 60:02}"

    def text(self, field):
        """The field's time, as the log says it."""
        ahead = self.ahead(field // 50)
        day = datetime.datetime(1858, 11, 17) + datetime.timedelta(days=self.mjd, seconds=self.second + field // 50 + ahead)
        return day.strftime("%Y-%m-%dT%H:%M:%S") + f"+{ahead // 3600:02}:00"

    def timed(self, slot, field):
        ahead = self.ahead(field // 50)
        days, second = divmod(self.second + field // 50, 86400)
        return timed(slot, self.mjd + days, second, ahead, ahead // 1800 if self.halves else None)


# over midnight; and over the last Sunday of March 2026, 01:00 UTC
MIDNIGHT = Clock(61000, 86390, "ahead 3600", ["--offset", "2"], lambda second: 3600, False)
SUMMER = Clock(61128, 3590, "zone Test/Berlin", ["--zone", "Test/Berlin"], lambda second: 3600 if second < 10 else 7200, True)


def ran(program, folder, *words):
    return subprocess.run([program, *words], cwd=folder, capture_output=True, text=True, check=False)


def answered(program, folder, *words, statuses=(0,)):
    """A run that must end with one of these statuses and write nothing to standard error."""
    run = ran(program, folder, *words)
    assert run.returncode in statuses and not run.stderr, run
    return run


def mark_of(file):
    return " " + hashlib.sha256(file).hexdigest()


def is_author(file):
    return file.startswith(b"author = 1\n")


def composed(program, folder, file):
    """The service text that a file without mistakes stands for."""
    if not is_author(file):
        return file
    (folder / "author.toml").write_bytes(file)
    answered(program, folder, "compose", "author.toml", "composed.toml")
    return (folder / "composed.toml").read_bytes()


class Service:
    """The service text that a file stands for, and what the other commands say of it."""

    def __init__(self, program, folder, file, late):
        self.program, self.folder = program, folder
        self.file, self.mark, self.late = file, mark_of(file), ["--late"] if late else []
        self.text = text = composed(program, folder, file)
        (folder / "text.toml").write_bytes(text)
        self.planned = ran(program, folder, "plan", "text.toml", "text.t42", *self.late)
        is_refused = self.planned.returncode == 2 and self.planned.stderr.startswith("refused: ")
        assert is_refused or (self.planned.returncode == 0 and not self.planned.stderr), self.planned
        self.slots = []
        if self.planned.returncode == 0:
            data = (folder / "text.t42").read_bytes()
            self.slots = [data[at : at + 42] for at in range(0, len(data), 42)]
        self.lines = int(re.search(rb"^lines = (\d+)", text, re.M)[1]) if b"lines" in text else 0
        self.ids = re.findall(rb'^number = "(.*)"\n(?:sub = "(.*)"\n)?', text, re.M)

    def certified(self, deadline=None):
        """The certificate with this deadline, or with the least one, is left in the folder; says that one."""
        self.again()
        asked = [] if deadline is None else ["--deadline", str(deadline)]
        said = answered(self.program, self.folder, "find", "text.t42", "text.toml", "text.cert", *asked).stdout
        return int(re.fullmatch(r"found deadline (\d+)\n", said)[1])

    def again(self):
        (self.folder / "text.toml").write_bytes(self.text)
        (self.folder / "text.t42").write_bytes(b"".join(self.slots))

    def gap(self):
        """The slots that late receivers wait."""
        if not self.late:
            return 0
        said = answered(self.program, self.folder, "certify", "text.t42", "text.toml", "text.cert", "--late").stdout
        return int(re.search(r"late (\d+)", said)[1])

    def waits(self):
        """The pages in their order, with the fields that a viewer waits."""
        self.again()
        # the status is 1 if a promise is not kept
        said = answered(self.program, self.folder, "wait", "text.t42", "text.toml", statuses=(0, 1)).stdout
        return [(page, int(fields)) for page, fields in re.findall(r"^(\w+/\w+) (\d+) fields", said, re.M)]


def spliced(old, new, deadline):
    """The reason why a change is refused, or None."""
    folder = old.folder
    for name, service in ("old", old), ("new", new):
        service.certified(deadline)
        for end in "toml", "t42", "cert":
            os.replace(folder / f"text.{end}", folder / f"{name}.{end}")
    words = ["old.t42", "new.t42", "old.toml", "new.toml", "old.cert", "new.cert", *old.late]
    run = answered(old.program, folder, "splice", *words, statuses=(0, 1))
    assert (run.returncode == 0) == (run.stdout == "yes\n"), run
    return run.stdout if run.returncode else None


def page_begun(slot):
    """The page whose header is in the slot; None if it has none, or a time-filling one."""
    kind, _, more = packet_in(slot)
    return more[0] if kind == "header" and more[0][1:] != (0xFF, 0x3F7F) else None


def unfollowed(old, new, gap):
    """The reason why a page of the old service is not followed by another page number in time; or None."""
    for number, sub in old.ids:
        page = int(number[:1]), int(number[1:], 16), int(sub or b"0", 16)
        back, last = next(((back, page) for back, page in headers(reversed(old.slots), page[0])), (0, None))
        if last != page:
            continue
        at, first = next(iter(headers(new.slots, page[0])), (0, page))
        if first[1] == page[1] or at + back >= gap:
            return f"no 9 unfollowed {page[0]}{page[1]:02X}/{page[2]:04X}"
    return None


def headers(slots, magazine):
    """The headers of a magazine, each with its slot."""
    packets = ((at, *packet_in(slot)) for at, slot in enumerate(slots))
    return ((at, more[0]) for at, kind, mag, more in packets if kind == "header" and mag == magazine)


def turns(old, new):
    """The new service with its cycle begun at each of its other page headers: first at those with which the old cycle begins again, at most 64."""
    first = next(filter(None, map(page_begun, old.slots)))
    begun = [(at, page) for at, page in enumerate(map(page_begun, new.slots)) if at and page]
    for at in ([at for at, page in begun if page == first] + [at for at, page in begun if page != first])[:64]:
        turned = copy.copy(new)
        turned.slots = new.slots[at:] + new.slots[:at]
        yield turned


def pages(count):
    return f"{count} page{'' if count == 1 else 's'}"


class HeadEnd:
    """A plain head-end: what it sends, and its log."""

    def __init__(self, first, within, fields, late, clock):
        self.lines, self.fields, self.clock = first.lines, fields, clock
        least = first.certified()
        up = -(-first.gap() // self.lines)
        share = within * up // (least + up)
        self.deadline, self.gap = within - share, share * self.lines
        kinds = ("late" if late else "at-once") + " plain"
        self.log = [f"air within {within} repeat 1 {kinds} lines {self.lines} fields {fields} at {clock.at} {clock.name}"]
        self.note(0, f"on air{first.mark}: {pages(len(first.ids))}, deadline {self.deadline} fields "
                     f"({self.deadline // 50}.{self.deadline % 50 * 2:02} s), {len(first.slots)} slots")
        self.service, self.held, self.sent, self.stream = first, None, 0, bytearray()
        self.next, self.tried, self.unread = 0, first.file, False

    def note(self, field, words):
        self.log.append(f"field {field} {self.clock.text(field)} {words}")

    def period(self):
        """Sends the edition on the air once."""
        for slot in self.service.slots:
            self.stream += self.clock.timed(slot, self.field())
            self.sent += 1
        if self.held is not None:
            self.held += len(self.service.slots)

    def is_held(self):
        return self.held is not None and self.held < self.deadline * self.lines

    def looks(self):
        """Whether the text is looked at where a period has ended: after the hold, and not twice within 50 fields."""
        if self.is_held() or self.field() < self.next:
            return False
        self.next = self.field() + 50
        return True

    def field(self):
        return self.sent // self.lines

    def keep(self, mark, words):
        self.note(self.field(), f"kept{mark}: {words}")

    def take(self, service):
        old, new = self.service.ids, service.ids
        came, gone = len([p for p in new if p not in old]), len([p for p in old if p not in new])
        self.note(self.field(), f"changed{service.mark}: {pages(came)} new, {gone} gone, deadline {self.deadline}")
        self.service, self.held = service, 0


class Air:
    """A running `air`, whose packets are read as they are wanted."""

    def __init__(self, program, folder, words):
        reader, writer = os.pipe()
        fcntl.fcntl(writer, fcntl.F_SETPIPE_SZ, PIPE)
        self.errors = open(folder / "errors", "w+b")
        self.process = subprocess.Popen([program, "air", *words], cwd=folder, stdout=writer, stderr=self.errors, stdin=subprocess.DEVNULL)
        os.close(writer)
        self.reader, self.stream = reader, bytearray()

    def read_to(self, size):
        while len(self.stream) < size:
            part = os.read(self.reader, min(PIPE, size - len(self.stream)))
            if not part:
                return
            self.stream += part

    def ended(self):
        """The status, and what was written to standard error."""
        status = self.process.wait()
        self.errors.seek(0)
        return status, self.errors.read().decode()


def edited(text, old, new):
    assert text.count(old) == 1, old
    return text.replace(old, new)


def more_pages(text, count):
    """The text with so many pages more, each full: pages 200 to 799, and then again as their subpages."""
    rows = "".join(f'{n} = "{"x" * 40}"\n' for n in range(1, 24))
    names = (f'number = "{200 + n % 600}"\nsub = "{n // 600:04}"' for n in range(count))
    return text + "".join(f"\n[[page]]\n{name}\n[page.rows]\n{rows}" for name in names).encode()


def moved_page(text):
    """The text with its first page behind all others."""
    head, *pages = text.split(b"\n[[page]]\n")
    return b"\n[[page]]\n".join([head, *pages[1:], pages[0] + b"\n"])


def short_texts():
    """Texts with a period shorter than a second, so that not each end of a period is one at which the text is looked at."""
    return [f'lines = 2\nserial = true\n[[page]]\nnumber = "100"\nhead = "{head}"\n'.encode() for head in ("one", "two", "two", "three", "one")]


def ordered(pages, key=""):
    """A text with pages in this order, each with this key."""
    return ("lines = 2\nserial = true\n" + "".join(f'[[page]]\nnumber = "{page:03X}"\n{key}' for page in pages)).encode()


def late_texts():
    """Two good texts, and one between them that only late receivers refuse: the last page of magazine 1 is ended after many pages of magazine 2."""
    order = list(range(0x100, 0x10C))
    return [ordered(pages) for pages in (order, order[:6] + [page + 0x100 for page in order[6:]], order[:-1])]


def moved_texts():
    """Pages that the author moves from the front to the end, so that a cycle follows only if it begins with them. Then the other way round, and no
    cycle follows."""
    order = list(range(0x100, 0x10C))
    return [ordered(pages) for pages in (order, order[1:] + order[:1], order[3:] + order[:3], order[-2::-1] + order[-1:], order)]


def last_turns():
    """The first page gives way to another one, with which the cycle has to begin. It is the 64th turn, and then the next one, which is not tried."""
    first, order = 0x100, list(range(0x101, 0x164))
    changed = [[*order[at:], 0x164, *order[:at]] for at in (35, 34)]
    return [ordered(pages, "inhibit = true\n") for pages in ([first, *order], changed[0], [first, *order], changed[1])]


def parallel_texts():
    """Two magazines side by side. The cycle can begin where the first page of the one is sent, but for late receivers the other one is amid a page
    there, so that nothing could follow."""
    def text(order):
        pages = [f'number = "{page:03X}"' for page in order] + [f'number = "{page:03X}"\noften = 2' for page in range(0x201, 0x205)]
        return "\n[[page]]\n".join(["lines = 2\nserial = false", *pages, 'number = "200"\noften = 2\ninhibit = true']).encode()

    order = list(range(0x100, 0x108))
    return [text(pages) for pages in (order, order[1:] + order[:1], order)]


def author_texts():
    """Authors' texts with a mistake in a row, in a number and in a promise, and half-written, between good ones; a service text is one of them."""
    good = ('author = 1\nlines = 2\nserial = true\n# The menu of the day.\n[[page]]\nnumber = "100"\noption = "french"\n'
            '[page.rows]\n1 = "{yellow}Caf\u00e9"\ntext = """\n\n{red}Cr\u00eape \u00e0 la cr\u00e8me\n"""\n')
    other = good.replace("red", "cyan")
    texts = [good, good.replace("{red}", "{rde}"), other, good.replace("Caf\u00e9", "\u2603"), good + good[good.index("[[page]]"):], good,
             good.replace("[page.rows]", "within = 0\n[page.rows]"), other.replace("la", "du"), good[: len(good) // 2 + 60],
             'lines = 2\nserial = true\n[[page]]\nnumber = "100"\nhead = "a service text"\n', good.replace("lines = 2", "lines = 33"), other]
    return [text.encode() for text in texts]


def author_words(report):
    """The words about the first mistake that `check` reports of an author's text: those of a service follow the name of their value."""
    line, column, words = re.match(r"checked\.toml:(\d+):(\d+): error: (.*)", report).groups()
    return f"line {line} column {column}{' ' if re.match('page |info |lines: |serial: ', words) else ': '}{words}"


def check_words(program, folder, text):
    (folder / "checked.toml").write_bytes(text)
    run = answered(program, folder, "check", "checked.toml", statuses=(0, 2))
    if run.returncode == 0:
        return None
    return author_words(run.stdout) if run.stdout.startswith("checked.toml:") else run.stdout.rstrip("\n")


def steps(base):
    """Texts that are saved one after another: with mistakes, too long, too slow, empty and half-written ones between good ones."""
    good = [base]
    for number, words in enumerate([b"calm", b"sunny", b"stormy"]):
        good.append(edited(base, b'head = "Our TV Text  Index"', b'head = "Our TV Text %d %s"' % (number, words)))
    # a new page, and one page less
    good.append(more_pages(base, 1))
    refused = [
        edited(base, b"serial = true", b"serial = yes"),
        edited(base, b"lines = 12", b"lines = 99"),
        edited(base, b"lines = 12", b"lines = 13"),
        more_pages(base, 1300),
        more_pages(base, 60),
        b"",
        base[: len(base) // 2],
    ]
    told = []
    for number, text in enumerate(refused):
        told += [good[number % len(good)], text]
    return told + [good[1], good[1], good[0]]


def too_slow(service, limit):
    """The pages for which viewers wait longer."""
    return ", ".join(f"{page} {fields} fields of {limit}" for page, fields in service.waits() if fields > limit)


def slow_words(first, within):
    """The pages of a first text that are too slow, beside the gap of late receivers."""
    first.certified()
    return too_slow(first, within + -first.gap() // first.lines)


def refusal(head_end, service):
    """The reason why the service does not follow the one on the air, or None."""
    reason = spliced(head_end.service, service, head_end.deadline)
    if reason is None and service.late:
        service.certified()
        if service.gap() > head_end.gap:
            reason = f"no 8 too-far {service.gap()}"
        else:
            reason = unfollowed(head_end.service, service, head_end.gap)
    return reason


def suits(head_end, turned):
    """Whether a service that begins elsewhere follows, and does not end amid a page."""
    if refusal(head_end, turned) is not None:
        return False
    return not turned.late or "amid" not in (spliced(turned, turned, head_end.deadline) or "")


def change(head_end, service):
    """The service takes over as it is planned, or begun elsewhere if only an item is late."""
    reason = refusal(head_end, service)
    follows = service if reason is None else None
    if reason is not None and reason.startswith("no 5 "):
        follows = next((turned for turned in turns(head_end.service, service) if suits(head_end, turned)), None)
    if follows:
        head_end.take(follows)
    else:
        head_end.keep(service.mark, reason.rstrip("\n"))


def news(head_end, text):
    """What the plain head-end does with the text that it finds; None is a file that cannot be read."""
    if text is None:
        if not head_end.unread:
            head_end.keep("", "the text cannot be read")
        head_end.unread = True
        return
    head_end.unread = False
    if text == head_end.tried:
        return
    head_end.tried = text
    program, folder = head_end.service.program, head_end.service.folder
    words = check_words(program, folder, text)
    if words is not None:
        head_end.keep(mark_of(text), words)
        return
    service = Service(program, folder, text, bool(head_end.service.late))
    if service.planned.returncode != 0:
        head_end.keep(service.mark, service.planned.stderr.removeprefix("refused: ").rstrip("\n"))
    elif service.certified() > head_end.deadline:
        head_end.keep(service.mark, "late " + too_slow(service, head_end.deadline))
    else:
        change(head_end, service)


def different(head_end, stream, status, errors):
    """What is different from the plain head-end, or None."""
    fields = head_end.fields
    while head_end.field() < fields:
        head_end.period()
    head_end.note(fields, "end")
    wanted = bytes(head_end.stream[: 42 * fields * head_end.lines])
    wanted_log = "".join(line + "\n" for line in head_end.log)
    if status != 0 or errors != wanted_log:
        return f"status {status}, log:\n{errors}wanted:\n{wanted_log}"
    if stream != wanted:
        first = next((at for at, (a, b) in enumerate(zip(stream, wanted)) if a != b), min(len(stream), len(wanted)))
        return f"{len(stream)} bytes of {len(wanted)}; byte {first} is another one"
    print(f"{wanted_log.count(' changed ')} changes, {wanted_log.count(' kept')} kept, {len(wanted)} bytes")
    return None


def options(within, late, fields, clock):
    return ["--within", str(within / 50), "--at", clock.at, *clock.words, "--fields", str(fields)] + ([] if late else ["--at-once"])


def give(path, text, process):
    """Gives the text to the process, once that has opened the pipe, and puts another pipe in its place for the next time."""
    while True:
        try:
            pipe = os.open(path, os.O_WRONLY | os.O_NONBLOCK)
            break
        except OSError:
            if process.poll() is not None:
                return
            time.sleep(0.001)
    other = path.with_name("next.pipe")
    os.mkfifo(other)
    os.replace(other, path)
    os.set_blocking(pipe, True)
    with os.fdopen(pipe, "wb") as file:
        file.write(text)


def wrong_replay(program, folder, texts, stream):
    """What is wrong where the log that is in the folder is replayed with these texts; or None."""
    names = folder / "texts"
    names.mkdir()
    for number, text in enumerate(texts):
        (names / f"{number}.toml").write_bytes(text)
    words = [program, "air", names.name, "--replay", "log"]
    run = subprocess.run(words, cwd=folder, capture_output=True, check=False)
    (names / "0.toml").unlink()
    lost = subprocess.run(words, cwd=folder, capture_output=True, check=False)
    shutil.rmtree(names)
    if (run.returncode, run.stderr) != (0, b"yes\n") or run.stdout != stream:
        return f"replay: status {run.returncode}, {run.stderr.decode()}, {len(run.stdout)} bytes of {len(stream)}"
    # the first text may be there once more
    refused = 2, b"", f"refused: text{mark_of(texts[0])}\n".encode()
    if (lost.returncode, lost.stdout, lost.stderr) != (refused if texts.count(texts[0]) == 1 else (0, stream, b"yes\n")):
        return f"replay without the first text: status {lost.returncode}, {lost.stderr.decode()}"
    return None


def fed(air, path, head_end, texts, count):
    """Gives texts to a running `air` and to the plain head-end, until so many slots are sent. The texts that are not looked at."""
    give(path, texts[0], air)
    rest = list(texts[1:])
    while head_end.sent + len(head_end.service.slots) <= count:
        head_end.period()
        if head_end.looks():
            text = rest.pop(0) if rest else head_end.tried
            give(path, text, air)
            news(head_end, text)
    return rest


def wrong_air(program, folder, texts, within, late, periods, clock=MIDNIGHT):
    """What is wrong with an airing of these texts, each of which is there when the pipe is opened once more; or None."""
    path = folder / "service.pipe"
    os.mkfifo(path)
    first = Service(program, folder, texts[0], late)
    fields = len(first.slots) * periods // first.lines
    head_end = HeadEnd(first, within, fields, late, clock)
    air = subprocess.Popen([program, "air", path.name, *options(within, late, fields, clock), "--log", "log"], cwd=folder, stdout=subprocess.PIPE,
                           stderr=subprocess.PIPE, stdin=subprocess.DEVNULL)
    got = {}
    threads = [threading.Thread(target=lambda n, s: got.update({n: s.read()}), args=(n, s)) for n, s in (("out", air.stdout), ("err", air.stderr))]
    for thread in threads:
        thread.start()
    try:
        rest = fed(air, path, head_end, texts, fields * first.lines)
    except BaseException:
        # the threads wait for its end
        air.kill()
        raise
    for thread in threads:
        thread.join()
    status = air.wait()
    path.unlink()
    if rest:
        return f"{len(rest)} texts were not looked at"
    said = different(head_end, got["out"], status, got["err"].decode())
    if said is None and (folder / "log").read_bytes() != got["err"]:
        said = f"the file has another log: {(folder / 'log').read_text()}"
    return said or wrong_replay(program, folder, texts, got["out"])


def wrong_turns(program, folder, texts, late, periods, spare=1):
    """The same of texts with which each item comes in time, but not through a change with the cycle that is planned; with so many fields to spare."""
    first = Service(program, folder, texts[0], late)
    within = first.certified() + -(-first.gap() // first.lines) + spare
    return wrong_air(program, folder, texts, within, late, periods)


def wrong_file(program, folder, texts, within):
    """What is wrong with an airing over a file that has these texts, where None is no file; or None."""
    path = folder / "service.toml"
    path.write_bytes(texts[0])
    first = Service(program, folder, texts[0], True)
    fields = len(first.slots) * 5 * len(texts) // first.lines
    head_end = HeadEnd(first, within, fields, True, MIDNIGHT)
    air = Air(program, folder, [path.name, *options(within, True, fields, MIDNIGHT)])
    for text in texts[1:]:
        # past the end of the last period, and well before that of the next one
        air.read_to(42 * (head_end.sent + 260))
        if text is None:
            path.unlink(missing_ok=True)
        else:
            (folder / "other.toml").write_bytes(text)
            os.replace(folder / "other.toml", path)
        head_end.period()
        while not head_end.looks():
            head_end.period()
        news(head_end, text)
    air.read_to(42 * fields * first.lines + 1)
    os.close(air.reader)
    return different(head_end, bytes(air.stream), *air.ended())


def wrong_end(program, folder, base):
    """What is wrong where the reader goes away; or None."""
    (folder / "service.toml").write_bytes(base)
    air = Air(program, folder, ["service.toml", "--within", "6", "--at", MIDNIGHT.at])
    air.read_to(100_000)
    os.close(air.reader)
    status, errors = air.ended()
    lines = errors.splitlines()
    if status != 3 or lines[-1] != "fault: write" or len(lines) != 3:
        return f"the reader went away: status {status}, {errors}"
    return None


def wrong_start(program, folder, base):
    """What is wrong where a first text has no edition; or None."""
    path = folder / "service.toml"
    cases = [
        (edited(base, b"lines = 12", b"lines = 99"), "6", "refused: line 9 column 9 lines: lines is out of range: it takes an integer from 1 to 32\n"),
        (more_pages(base, 1300), "6", "refused: plan 2 too-long\n"),
        (base, "2", "refused: late " + slow_words(Service(program, folder, base, True), 100) + "\n"),
    ]
    for text, within, wanted in cases:
        path.write_bytes(text)
        run = ran(program, folder, "air", "service.toml", "--within", within, "--at", MIDNIGHT.at, "--fields", "1")
        if (run.returncode, run.stdout, run.stderr) != (2, "", wanted):
            return f"wanted {wanted!r}, not {run.returncode} {run.stderr!r}"
    return None


def main():
    program = os.path.abspath(sys.argv[1])
    base = (TOP / "examples/broadcast.toml").read_bytes()
    with tempfile.TemporaryDirectory() as name:
        folder = Path(name)
        (folder / "zones/Test").mkdir(parents=True)
        (folder / "zones/Test/Berlin").write_bytes(zone_file("CET-1CEST,M3.5.0,M10.5.0/3"))
        os.environ["TZDIR"] = str(folder / "zones")
        checks = [
            lambda: wrong_start(program, folder, base),
            lambda: wrong_air(program, folder, steps(base), 250, True, 60),
            lambda: wrong_air(program, folder, steps(base), 250, False, 60),
            lambda: wrong_air(program, folder, [base, moved_page(base), moved_page(base), base], 130, False, 12),
            lambda: wrong_air(program, folder, late_texts(), 240, True, 8),
            lambda: wrong_turns(program, folder, moved_texts(), True, 14),
            lambda: wrong_turns(program, folder, moved_texts(), False, 14),
            lambda: wrong_turns(program, folder, last_turns(), False, 11),
            lambda: wrong_turns(program, folder, parallel_texts(), True, 14, 12),
            lambda: wrong_turns(program, folder, parallel_texts(), False, 14, 12),
            lambda: wrong_air(program, folder, short_texts(), 100, True, 100),
            lambda: wrong_air(program, folder, author_texts(), 100, True, 100),
            lambda: wrong_file(program, folder, [base, None, None, steps(base)[2], base], 250),
            lambda: wrong_end(program, folder, base),
            lambda: wrong_air(program, folder, steps(base)[:3], 250, True, 12, SUMMER),
        ]
        wrong = [said for said in (check() for check in checks) if said is not None]
    for said in wrong:
        print(said)
    return 1 if wrong else 0


if __name__ == "__main__":
    sys.exit(main())
