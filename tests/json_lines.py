#!/usr/bin/env python3
"""Runs the cases of commands with --json, reads each line by Python's json, and compares its values with those of the plain line.

usage: json_lines.py PROGRAM

The objects that a plain line stands for are made here from its words, by the names of docs/FORMATS.md; the program shares no code with this.
"""
import concurrent.futures
import json
import os
import re
import sys
import tempfile

import cases

# the commands with --json, each with the least number of cases that are compared
COMMANDS = {"certify": 100, "check": 40, "monitor": 45, "wait": 20, "refute": 8, "pages": 6}
# options whose plain lines have all that the objects have; they are left out with --json
PLAIN = {"check": b"--long"}
# what follows the item in the line of a reason
PLACES = {9: "start", 10: "start", 12: "header"}


def item_of(words):
    """An item at the beginning of these words, and the words after it."""
    return (" ".join(words[:2]), words[2:]) if words[0] == "row" else (words[0], words[1:])


def numbers(words):
    """Names and numbers in turn."""
    return {name: int(number) for name, number in zip(words[::2], words[1::2])}


def reason_of(words):
    """The object of `no NUMBER NAME ..`."""
    number, name, rest = int(words[1]), words[2], words[3:]
    members = {"answer": "no", "number": number, "name": name}
    if number == 1:
        return members | {"slot": int(rest[0])}
    if number == 15:
        return members | {"page_number": rest[0], "slot": int(rest[1])}
    if rest:
        members["page"], rest = rest[0], rest[1:]
    if number in (8, 9, 10, 12, 14):
        members["item"], rest = item_of(rest)
    if rest:
        members[PLACES.get(number, "slot")] = int(rest[0])
    return members


def certify_line(line):
    words = line.split()
    if words[0] == "number":
        return [{"page_number": words[1], "pages": int(words[3]), "every": int(words[5]), "stays": int(words[8])}]
    if words[0] == "yes":
        members, rest = numbers(words[1:9]), words[9:]
        members["class"] = "clearing" if rest[:2] == ["class", "clearing"] else "any"
        if "late" in rest:
            members["late"] = int(rest[-1])
        return [{"answer": "yes"} | members]
    if words[0] == "reasons":
        return [numbers(words)]
    if words[1] in ("lines", "deadline", "late-deadline"):
        return [{"answer": "no", "name": words[1], words[1]: int(words[2]), "of": int(words[4])}]
    return [reason_of(words)]


def refute_line(line):
    words = line.split()
    return [{"answer": "none"} if words == ["none"] else {"answer": "counter", "page": words[1]} | numbers(words[2:])]


def wait_line(line):
    absent = re.fullmatch(r"not in the service:((?: \S+)+)", line)
    if absent:
        return [{"page": page, "absent": True} for page in absent[1].split()]
    number = re.fullmatch(r"(\S+) (\d+) subpages, (?:not all sent|each at least (\S+) s, again within (\S+) s)", line)
    if number:
        members = {"page_number": number[1], "subpages": int(number[2])}
        return [members | ({"each": number[3], "again": number[4]} if number[3] else {"never": True})]
    late, kept = re.search(r" late: ([\d.]+) s$", line), re.search(r" of (\d+)$", line)
    words = line[:(late or kept).start()].split() if late or kept else line.split()
    members, rest = {"page": words[0]}, words[1:]
    if rest[0] in ("head", "row", "links"):
        members["item"], rest = item_of(rest)
        if rest[0] == "never":
            return [members | {"never": True} | numbers(rest[1:])]
        return [members | {"fields": int(rest[0]), "seconds": rest[2]}]
    if rest[0] == "never":
        members["never"], rest = True, rest[1:]
        if rest and rest[0] in ("head", "row", "links"):
            members["needed_by"], rest = item_of(rest)
            members |= numbers(rest)
        elif rest:
            members["name"] = rest[0]
            members |= {"slot": int(slot) for slot in rest[1:]}
    else:
        members |= {"fields": int(rest[0]), "seconds": rest[2]}
        if rest[4:]:
            members["needed_by"] = item_of(rest[4:])[0]
    if late:
        members |= {"of": round(50 * float(late[1])), "late": True}
    elif kept:
        members |= {"of": int(kept[1]), "late": False}
    return [members]


def pages_line(line):
    words = line.split()
    if words[0] == "rest":
        return [{"page": "rest"} | numbers(words[1:])]
    page, sent, rows, links, control, head = re.fullmatch(r'(\S+) sent (\d+) rows (\d+)( links)?((?: C\d+)*) "(.*)"', line).groups()
    bits = {f"C{bit}": f"C{bit}" in control.split() for bit in range(4, 15)}
    return [{"page": page, "sent": int(sent), "rows": int(rows), "links": bool(links)} | bits | {"head": head}]


def line_by_line(model):
    return lambda lines: [members for line in lines for members in model(line)]


def check_lines(lines):
    """The objects for a long report: three lines for each error, each warning and each second place, and one with the counts."""
    told = []
    for line in lines[:-1:3]:
        file, row, column, severity, text = re.fullmatch(r"(.*?):(\d+):(\d+): (error|warning|note): (.*)", line).groups()
        if severity == "note":
            told[-1] |= {"note_line": int(row), "note_column": int(column)}
        else:
            told.append({"file": file, "line": int(row), "column": int(column), "severity": severity, "text": text})
    good = re.fullmatch(r"ok pages (\d+)", lines[-1])
    if good:
        return told + [{"errors": 0, "warnings": 0, "pages": int(good[1])}]
    errors, warnings, shown = re.fullmatch(r"(\d+) errors?, (\d+) warnings?(?:; the first (\d+) are shown)?", lines[-1]).groups()
    return told + [{"errors": int(errors), "warnings": int(warnings)} | ({"shown": int(shown)} if shown else {})]


def monitor_line(line):
    words = line.split()
    if words[0] == "slots":
        return {"answer": "state"} | numbers(words)
    if words[0] == "total":
        return {"answer": "total"} | numbers(words[1:5]) | {f"minute_{name}": number for name, number in numbers(words[6:]).items()}
    if words[0] == "yes" or words[1] == "start":
        return {"answer": words[0]} | numbers(words[1:])
    if line == "no slots: no teletext":
        return {"answer": "no", "how": "no teletext"}
    form = re.fullmatch(r"no slots: packets of (\d+) bytes(?:; skip (\d+) at the start)?(; reverse the bits of each byte)?"
                        r"(?:; drop the first (\d+) of each)?", line)
    if form:
        return {"answer": "no", "how": "packets", "bytes": int(form[1]), "skip": int(form[2] or 0), "reversed": bool(form[3]),
                "drop": int(form[4] or 0)}
    start = numbers(words[-2:]) if words[-2] == "start" else {}
    if words[1] == "repeat":
        item, rest = item_of(words[3:])
        return {"answer": "no", "how": "repeat", "page": words[2], "item": item} | numbers(rest)
    members = {"answer": "no", "slot": int(words[2]), "how": words[3]}
    if words[3] == "byte":
        members["byte"] = int(words[4])
    elif words[3] == "shifted":
        by = int(words[5])
        members |= {"inserted": -by} if by < 0 else {"lost": by}
    return members | start


def monitor_lines(lines):
    """An object for each line, and in it the bytes behind the last slot, which have a line of their own."""
    told = []
    for line in lines:
        if line.startswith("rest "):
            told[-1]["rest"] = int(line.split()[1])
        else:
            told.append(monitor_line(line))
    return told


# the objects for the lines of a command
MODELS = {"certify": line_by_line(certify_line), "check": lambda lines: check_lines(lines) if lines else [], "monitor": monitor_lines,
          "refute": line_by_line(refute_line), "wait": line_by_line(wait_line), "pages": line_by_line(pages_line)}


def differences(program, command, case):
    """What is wrong with the JSON lines of a case."""
    with tempfile.TemporaryDirectory() as place:
        runs = []
        bare = [word for word in cases.words_of(case) if word != PLAIN.get(command)]
        for more in [PLAIN[command]] if command in PLAIN else [], [b"--json"]:
            folder = os.path.join(place, f"in{len(runs)}")
            os.mkdir(folder)
            cases.lay_out(case, folder)
            runs.append(cases.run(program, case, bare + more, folder))
    (status, plain), (json_status, written) = runs
    if not status == json_status == case.get("status", 0):
        return [f"status {json_status} with --json, {status} without"]
    # a usage line names the options that are given
    errors = {text.split(b"\n\nUsage: ")[0] for text in (plain["stderr"], written["stderr"], cases.wanted(case, "stderr"))}
    if len(errors) > 1:
        return [f"stderr {written['stderr']!r} with --json, {plain['stderr']!r} without"]
    try:
        told = [json.loads(line) for line in written["stdout"].decode().split("\n")[:-1]]
    except ValueError as error:
        return [f"not JSON: {error}"]
    if not all(isinstance(one, dict) for one in told):
        return ["a line that is no object"]
    wanted = MODELS[command](plain["stdout"].decode(errors="replace").split("\n")[:-1])
    return [f"{one} for {other}" for one, other in zip(told, wanted) if one != other] + (
        [] if len(told) == len(wanted) else [f"{len(told)} objects, not {len(wanted)}"])


def main():
    program = os.path.realpath(sys.argv[1])
    chosen = {name: case for name, case in cases.tables().items()
              if name.split("/")[0] in COMMANDS and name.split("/")[0] == cases.words_of(case)[0].decode()
              and not {"stdout-to", "stderr-to"} & case.keys() and "--json" not in case["run"]}
    failed, compared = 0, dict.fromkeys(COMMANDS, 0)
    with concurrent.futures.ThreadPoolExecutor(os.cpu_count()) as pool:
        told = pool.map(lambda name: differences(program, name.split("/")[0], chosen[name]), chosen)
        for name, wrong in zip(chosen, told):
            compared[name.split("/")[0]] += 1
            failed += bool(wrong)
            for text in wrong:
                print(f"FAILED {name}: {text}")
    for command, least in COMMANDS.items():
        if compared[command] < least:
            print(f"FAILED {command}: only {compared[command]} cases with --json")
            failed += 1
    print(f"json_lines: {sum(compared.values())} cases, {failed} failed")
    return bool(failed)


if __name__ == "__main__":
    sys.exit(main())
