#!/usr/bin/env python3
"""Runs `send` over cycles of random slots, and compares its output byte for byte with that of a plain sender in this script: damaged page
headers, packets 8/30 of all designations, phases up to 2^32 - 1, midnight, the last date with five digits, and clocks behind UTC. Then sends
over both changes of a time zone with summer time, whose file this script writes; sends now, by the machine's clock; and sends 100,000 fields
of the shipped example, over midnight, and checks the clock that `receive` and `show` show.

usage: sent.py PROGRAM [COUNT]
"""
import os
import random
import struct
import subprocess
import sys
import tempfile
import time
from pathlib import Path

# Hamming 8/4 (EN 300 706, 8.2)
WORDS = [0x15, 0x02, 0x49, 0x5E, 0x64, 0x73, 0x38, 0x2F, 0xD0, 0xC7, 0x8C, 0x9B, 0xA1, 0xB6, 0xFD, 0xEA]


def number(byte):
    """The number in a byte, with at most one wrong bit."""
    for n, word in enumerate(WORDS):
        if bin(word ^ byte).count("1") <= 1:
            return n
    return None


def odd(code):
    return code if bin(code).count("1") % 2 else code | 0x80


def digits(value, count):
    """Decimal digits, each plus one, two in a byte (EN 300 706, 9.8.1)."""
    text = [int(c) + 1 for c in str(value).zfill(count)]
    if count % 2:
        text = [0] + text
    return [16 * a + b for a, b in zip(text[::2], text[1::2])]


def timed(slot, mjd, second, ahead, halves=None):
    """The slot as it is sent at a given time; with half hours also as the local offset of packets 8/30."""
    low, high = number(slot[0]), number(slot[1])
    if not any(slot) or low is None or high is None:
        return slot
    magazine, packet = low % 8, low // 8 + 2 * high
    local = (second + ahead) % 86400
    if packet == 0 and all(number(byte) is not None for byte in slot[2:10]):
        clock = f"{local // 3600:02}:{local // 60 % 60:02}:{local % 60:02}"
        return slot[:34] + bytes(odd(ord(c)) for c in clock)
    designation = number(slot[2])
    if magazine == 0 and packet == 30 and designation is not None and designation < 2:
        utc = second // 3600 * 10000 + second // 60 % 60 * 100 + second % 60
        date = digits(mjd, 5)
        date[0] += slot[12] // 16 * 16
        offset = slot[11:12] if halves is None else bytes([0x81 + 2 * abs(halves) + 64 * (halves < 0)])
        return slot[:11] + offset + bytes(date + digits(utc, 6)) + slot[18:]
    return slot


def random_slot(chance):
    """A header, a packet 8/30, any other packet or none, with a wrong bit here and there."""
    kind = chance.randrange(4)
    if kind == 0:
        return bytes(42)
    slot = bytearray(chance.randrange(256) for _ in range(42))
    if kind < 3:
        packet = 0 if kind == 1 else 30
        magazine = chance.randrange(8) if kind == 1 else 0
        slot[0], slot[1] = WORDS[magazine + 8 * (packet % 2)], WORDS[packet // 2]
        slot[2:10] = bytes(chance.choice(WORDS) for _ in range(8))
    if chance.randrange(3) == 0:
        slot[chance.randrange(10)] ^= 1 << chance.randrange(8)
    return bytes(slot)


def clock_at_end(stream, lines, second):
    """The clock of the last header of page 100, from the field in which it is sent."""
    for at in range(len(stream) // 42 - 1, -1, -1):
        if bytes(stream[42 * at : 42 * at + 8]) == bytes(WORDS[n] for n in (1, 0, 0, 0, 0, 0, 0, 0)):
            now = (second + at // lines // 50) % 86400
            return f"{now // 3600:02}:{now // 60 % 60:02}:{now % 60:02}"
    return None


def output(program, *words, **options):
    """What a command writes. A status other than 0 or an error ends the test."""
    ran = subprocess.run([program, *words], capture_output=True, check=False, timeout=120, **options)
    if ran.returncode or ran.stderr:
        sys.exit(f"sent: {' '.join(map(str, words))}: status {ran.returncode}, {len(ran.stdout)} bytes, {ran.stderr!r}")
    return ran.stdout


def zone_file(rule):
    """A zone in the form of TZif, version 2, with this rule for all times after 1970 (RFC 8536)."""
    types = struct.pack(">lBB", 3600, 0, 0) + b"CET\0"

    def block(size):
        return b"TZif2" + bytes(15) + struct.pack(">6l", 0, 0, 0, 1, 1, 4) + struct.pack(f">{size}", 0) + bytes(1) + types

    return block("l") + block("q") + b"\n" + rule.encode() + b"\n"


def zoned_sendings(program, folder, cycle):
    """What is wrong around the changes of a clock with summer time, or None."""
    (folder / "zones/Test").mkdir(parents=True)
    (folder / "zones/Test/Berlin").write_bytes(zone_file("CET-1CEST,M3.5.0,M10.5.0/3"))
    # the last Sunday of March and of October 2026, 01:00 UTC; and a text by the clock, of which the second hour is skipped
    for mjd, before, after, text in (61128, 2, 4, "2026-03-29T01:59:50"), (61338, 4, 2, "2026-10-25T00:59:50Z"):
        for at in f"{mjd}/005950", text:
            words = ["--at", at, "--zone", "Test/Berlin", "--fields", "1000", "--lines", "3"]
            environment = os.environ | {"TZDIR": str(folder / "zones")}
            made = output(program, "send", folder / "cycle.t42", *words, env=environment)
            wanted = bytearray()
            for field in range(1000):
                second = 3590 + field // 50
                halves = before if second < 3600 else after
                for line in range(3):
                    wanted += timed(cycle[(3 * field + line) % len(cycle)], mjd, second, 1800 * halves, halves)
            if made != bytes(wanted):
                return f"{' '.join(words)}: something else is sent"
    return None


def sending_now(program, folder):
    """What is wrong with a sending that begins now, or None."""
    # a page header without a clock
    (folder / "header.t42").write_bytes(bytes(WORDS[n] for n in (1, 0, 0, 0, 0, 0, 0, 0, 0, 0)) + bytes([0x20]) * 32)
    before = int(time.time())
    made = output(program, "send", folder / "header.t42", "--at", "now", "--fields", "1", "--lines", "1")
    clock = "".join(chr(byte % 128) for byte in made[34:42])
    known = [time.strftime("%H:%M:%S", time.gmtime(second)) for second in range(before, int(time.time()) + 1)]
    return None if clock in known else f"now is {clock}, and not one of {known}"


def long_sending(program, folder):
    """What is wrong with the clock shown after 100,000 fields, or None."""
    lines, second, kept = 12, 23 * 3600 + 40 * 60, 5400
    service = Path(__file__).resolve().parent.parent / "examples/broadcast.toml"
    output(program, "plan", service, folder / "news.t42", "--late")
    words = ["--at", "60999/234000", "--fields", "100000", "--lines", str(lines)]
    stream = output(program, "send", folder / "news.t42", *words)
    if len(stream) != 100000 * lines * 42:
        return f"{len(stream)} bytes"
    # a packet file has at most 65,536 slots: the last fields
    (folder / "end.t42").write_bytes(stream[-kept * lines * 42 :])
    wanted = clock_at_end(stream, lines, second)
    words = [folder / "end.t42", "100", "--lines", str(lines), "--slots", str(kept * lines)]
    shown = output(program, "show", *words, "--as", "text").decode()
    row = output(program, "receive", *words).decode().split("\n")[0].split()[2:]
    told = [shown.split("\n")[0][32:40], "".join(chr(int(word, 16) % 128) for word in row[32:40])]
    return None if told == [wanted, wanted] else f"{told} are shown, and it is {wanted}"


def main():
    program = str(Path(sys.argv[1]).resolve())
    count = int(sys.argv[2]) if len(sys.argv) > 2 else 60
    chance = random.Random(20)
    with tempfile.TemporaryDirectory() as folder:
        cycle_file = Path(folder) / "cycle.t42"
        for run in range(count):
            cycle = [random_slot(chance) for _ in range(chance.randrange(1, 80))]
            cycle_file.write_bytes(b"".join(cycle))
            mjd, second = chance.choice([0, 60000, 99999]), chance.choice([0, 45296, 86398, 86399])
            lines, fields = chance.randrange(1, 33), chance.choice([0, 1, 49, 50, 51, 149])
            phase, halves = chance.choice([0, 7, 2**32 - 1]), chance.randrange(-24, 48)
            at = f"{mjd:05}/{second // 3600:02}{second // 60 % 60:02}{second % 60:02}"
            words = ["--at", at, "--fields", str(fields), "--lines", str(lines), "--phase", str(phase), f"--offset={halves}"]
            made = output(program, "send", cycle_file, *words)
            wanted = bytearray()
            for field in range(fields):
                now = second + field // 50
                day = (mjd + now // 86400) % 100000
                for line in range(lines):
                    slot = cycle[((phase + field) * lines + line) % len(cycle)]
                    wanted += timed(slot, day, now % 86400, 1800 * halves)
            if made != bytes(wanted):
                sys.exit(f"sent: run {run}, {' '.join(words)}: something else is sent")
        why = zoned_sendings(program, Path(folder), cycle) or sending_now(program, Path(folder)) or long_sending(program, Path(folder))
        if why:
            sys.exit(f"sent: {why}")
    print(f"sent: {count} sendings, 0 failed")


if __name__ == "__main__":
    main()
