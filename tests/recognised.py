#!/usr/bin/env python3
"""Runs `monitor`, `pages`, `show`, `book` and `extract` of the built program on packets that are delivered in other forms than slots of 42 bytes,
and compares the line that says so with that of a plain program.

usage: recognised.py PROGRAM [COUNT]

The packets of the shipped example come with a framing code or with clock run-in too, from any byte of a packet on, with the bits of each byte
in reverse order, with wrong bits, or as no teletext at all. The plain program in this script looks for the first form of whose packets four
read behind their framing code, and half of those that are not empty, wherever of the slots of 42 bytes not one in ten does. Of packets without
wrong bits it must find the form in which they were delivered. Where there is no such line, `monitor` must give a verdict, and the others must do
what they do, or refuse bytes behind the last slot.
"""
import os
import random
import re
import subprocess
import sys
import tempfile

SERVICE = os.path.join(os.path.dirname(os.path.dirname(os.path.abspath(__file__))), "examples/broadcast.toml")
# Hamming 8/4 (EN 300 706, 8.2)
WORDS = bytes.fromhex("1502495e6473382fd0c78c9ba1b6fdea")
EMPTY = bytes(42)
READ = [next((n for n, word in enumerate(WORDS) if bin(word ^ byte).count("1") <= 1), None) for byte in range(256)]
ODD = [bin(byte).count("1") % 2 for byte in range(256)]
TURNED = bytes(int(f"{byte:08b}"[::-1], 2) for byte in range(256))


def reads(packet):
    """Whether a packet reads as one of teletext."""
    low, high = READ[packet[0]], READ[packet[1]]
    if packet == EMPTY or low is None or high is None:
        return False
    number = low // 8 + 2 * high
    if number <= 24:
        if number == 0 and any(READ[byte] is None for byte in packet[2:10]):
            return False
        text = packet[10:] if number == 0 else packet[2:]
        return 4 * sum(ODD[byte] for byte in text) >= 3 * len(text)
    if number == 27 and READ[packet[2]] is None:
        return False
    return all(byte in WORDS for byte in packet[:3])


def counted(data, size, off, turned):
    """How many packets of a form are not empty, and how many read."""
    whole = range(max(len(data) - off, 0) // size)
    packets = [data[off + size * i + size - 42:off + size * (i + 1)] for i in whole]
    packets = [packet.translate(TURNED) if turned else packet for packet in packets]
    framed = [size == 42 or data[off + size * i + size - 43] in b"\x27\xe4" for i in whole]
    return sum(packet != EMPTY for packet in packets), sum(map(lambda code, packet: code and reads(packet), framed, packets))


def line_of(size, off, turned):
    """The line for packets of this form."""
    skip = f"; skip {off} at the start" if off else ""
    order = "; reverse the bits of each byte" if turned else ""
    framing = f"; drop the first {size - 42} of each" if size > 42 else ""
    return f"no slots: packets of {size} bytes{skip}{order}{framing}\n"


def line(data):
    """The line for a file or a feed of these bytes, or nothing."""
    data = data[:64 * 42]
    sent, read = counted(data, 42, 0, False)
    if sent < 8 or 10 * read >= sent:
        return ""
    for turned in (False, True):
        for size in (42, 43, 45):
            for off in range(size):
                sent, read = counted(data, size, off, turned)
                if read >= 4 and sent <= 2 * read:
                    return line_of(size, off, turned)
    return "no slots: no teletext\n"


def delivered(draw, slots):
    """Packets from some slot on, in some form, and the line for this form, or None if too few of them come without wrong bits."""
    start, count = draw.randrange(len(slots)), draw.choice([3, 20, 70, 200])
    packets = [slots[(start + n) % len(slots)] for n in range(count)]
    kind = draw.choice(["slots", "framed", "run-in", "noise", "zeros"])
    if kind == "noise":
        return bytes(draw.randrange(256) for _ in range(42 * count)), None
    if kind == "zeros":
        return bytes(42 * count), None
    before = {"slots": b"", "framed": draw.choice([b"\x27", b"\xe4"]), "run-in": b"\x55\x55\x27"}[kind]
    data = bytearray(b"".join(before + packet for packet in packets))
    damage = int(draw.choice([0, 0, 0.02, 0.1, 0.3]) * len(data))
    for at in draw.sample(range(len(data)), damage):
        data[at] ^= 1 << draw.randrange(8)
    size = 42 + len(before)
    cut, turned = draw.choice([0, 0, draw.randrange(size)]), draw.random() < 0.4
    form = line_of(size, -cut % size, turned) if count > 3 and damage == 0 else None
    data = bytes(data)[cut:]
    return data.translate(TURNED) if turned else data, form


def run(program, words, given=b""):
    """The status of a command, and what it writes to both streams."""
    done = subprocess.run([program, *words], input=given, capture_output=True, timeout=60, check=False)
    return done.returncode, done.stdout.decode(errors="replace"), done.stderr.decode(errors="replace")


def planned_slots(program):
    """The slots of the shipped example, which the file `cycle` has; `cert` is its certificate."""
    for words in (["plan", SERVICE, "cycle"], ["find", "cycle", SERVICE, "cert"]):
        status, said, errors = run(program, words)
        if status or errors:
            sys.exit(f"FAILED {' '.join(words)}: status {status}, {said!r} {errors!r}")
    with open("cycle", "rb") as file:
        cycle = file.read()
    return [cycle[i:i + 42] for i in range(0, len(cycle), 42)]


def is_judged(answer, report, wanted):
    """Whether `monitor` says this line; if there is none, whether it gives a verdict on the feed, and a report ends with the same one."""
    if wanted:
        return answer == report == (1, wanted, "")
    (status, said, errors), (report_status, reported, report_errors) = answer, report
    if errors or report_errors or status not in (0, 1) or status != report_status:
        return False
    word = ("yes", "no")[status]
    is_verdict = re.match(r"yes start |no slot \d|no repeat ", said) and said.startswith(word)
    return bool(is_verdict and re.search(f"^{word} start ", reported, re.M))


def is_told(command, answer, rest, wanted):
    """Whether a command ends as it should, and says this line last. Bytes behind the last slot are refused; `extract` may refuse the slots too, and
    `show` may find no page in them."""
    status, said, errors = answer
    before = errors.removesuffix(wanted)
    if rest:
        refusal = f"refused: cycle 2 truncated {rest}\n"
    else:
        refusal = r"(refused: .*\n)?" if command == "extract" else ""
    is_missed = command == "show" and said == "no page 100\n"
    ends = 1 if wanted or is_missed else 2 if before else 0
    return errors == before + wanted and re.fullmatch(refusal, before) is not None and status == ends


def failures(program, data, form, is_piped):
    """What is wrong with what the commands say of these bytes."""
    with open("feed", "wb") as file:
        file.write(data)
    rest = len(data) % 42
    # a feed is judged by its whole slots
    wanted = line(data[:len(data) - rest])
    words = ["monitor", "cycle", SERVICE, "cert"]
    answer = run(program, [*words, "-"], data) if is_piped else run(program, [*words, "feed"])
    report = run(program, [*words, "feed", "--all", "--every", "1"])
    if not is_judged(answer, report, wanted):
        yield f"{answer} {report}, not {wanted!r}"
    wanted = line(data)
    if form is not None and wanted not in ("", form):
        yield f"the plain program says {wanted!r}, not {form!r}"
    for words in (["pages", "feed"], ["show", "feed", "100"], ["book", "feed", "out"], ["extract", "feed", "out", "--lines", "12"]):
        status, said, errors = answer = run(program, words)
        if not is_told(words[0], answer, rest, wanted):
            yield f"{words[0]}: {status} {said[:80]!r} {errors!r}, not {wanted!r}"


def main():
    program = os.path.abspath(sys.argv[1])
    count = int(sys.argv[2]) if len(sys.argv) > 2 else 200
    draw = random.Random(52)
    failed = 0
    with tempfile.TemporaryDirectory() as folder:
        os.chdir(folder)
        slots = planned_slots(program)
        for n in range(count):
            data, form = delivered(draw, slots)
            for why in failures(program, data, form, n % 2 == 1):
                failed += 1
                print(f"FAILED feed {n}: {why}")
    print(f"recognised: {count} feeds, {failed} failed")
    return 1 if failed else 0


if __name__ == "__main__":
    sys.exit(main())
