#!/usr/bin/env python3
"""Runs the built program on the cases of tests/cases, on all processors, and compares the results.

usage: cases.py PROGRAM [NAME..]

tests/cases/COMMAND.toml has a table for each case. Given names, such as certify or certify/bad-slot, only those cases run; without names, each
command that `ttx --help` lists must have cases. The keys of a case:

    run           the words after the program's name, split as a shell does; \\xHH in a word is a byte
    data          files of tests/data in the folder `in`, in which the program runs; without this key, those that `run` names
    padded        NAME = [FROM, SIZE]: the file NAME has the bytes of FROM of tests/data, and then # up to SIZE bytes
    repeated      NAME = [FROM, SIZE]: the same, with FROM again and again
    texts         NAME = TEXT: the file NAME has this text
    stdin         the file of tests/data that is standard input; without this key there is nothing to read
    status        the exit status; without this key 0
    stdout        what the program prints, byte for byte; without this key nothing. stdout-file names a file of tests/cases/expected
    stderr        the same of standard error, with stderr-file
    stdout-to     where standard output goes in place of a file: a device, closed-pipe, or closed for no stream at all
    stderr-to     the same of standard error
    out           NAME = WANTED: the file NAME afterwards, as a file of tests/data, or else of tests/cases/expected
    absent        files that must not be there afterwards
"""
import concurrent.futures
import os
import re
import shlex
import subprocess
import sys
import tempfile
import tomllib

TESTS = os.path.dirname(os.path.abspath(__file__))
KEYS = {"run", "data", "padded", "repeated", "texts", "stdin", "status", "stdout", "stdout-file", "stderr", "stderr-file", "stdout-to",
        "stderr-to", "out", "absent"}
SECONDS = 120
# the table of words that name no command
NO_COMMAND = "words"


def content(*path):
    with open(os.path.join(TESTS, *path), "rb") as file:
        return file.read()


def words_of(case):
    """The words of `run`, as bytes."""
    byte = re.compile(rb"\\x([0-9a-f]{2})")
    return [byte.sub(lambda found: bytes([int(found[1], 16)]), word.encode()) for word in shlex.split(case.get("run", ""))]


def wanted(case, stream):
    """What the program must write to this stream."""
    if f"{stream}-file" in case:
        return content("cases", "expected", case[f"{stream}-file"])
    return case.get(stream, "").encode()


def wanted_file(name):
    """The content of a file that the program must write."""
    is_data = os.path.exists(os.path.join(TESTS, "data", name))
    return content("data", name) if is_data else content("cases", "expected", name)


def lay_out(case, folder):
    """Puts the files of the case into the folder."""
    named = [name for name in dict.fromkeys(shlex.split(case.get("run", ""))) if os.path.isfile(os.path.join(TESTS, "data", name))]
    files = {name: content("data", name) for name in case.get("data", named)}
    for name, (source, size) in case.get("padded", {}).items():
        files[name] = content("data", source).ljust(size, b"#")
    for name, (source, size) in case.get("repeated", {}).items():
        part = content("data", source)
        files[name] = (part * (size // len(part) + 1))[:size]
    files |= {name: text.encode() for name, text in case.get("texts", {}).items()}
    for name, data in files.items():
        with open(os.path.join(folder, name), "wb") as file:
            file.write(data)


def run(program, case, words, folder):
    """Runs the program; returns its status and what it wrote to both streams, None for a stream that goes elsewhere."""
    results = {}
    streams, closed = {}, ""
    for number, stream in (1, "stdout"), (2, "stderr"):
        place = case.get(f"{stream}-to")
        if place == "closed":
            closed += f" {number}>&-"
            streams[stream] = subprocess.DEVNULL
        elif place == "closed-pipe":
            reader, streams[stream] = os.pipe()
            os.close(reader)
        elif place:
            streams[stream] = os.open(place, os.O_WRONLY)
        else:
            results[stream] = tempfile.TemporaryFile()
            streams[stream] = results[stream].fileno()
    source = os.path.join(TESTS, "data", case["stdin"]) if "stdin" in case else os.devnull
    with open(source, "rb") as stdin:
        ran = subprocess.run(["sh", "-c", f'exec "$@"{closed}', "sh", program, *words], stdin=stdin, cwd=folder, timeout=SECONDS, **streams)
    for stream in streams:
        if stream in results:
            results[stream].seek(0)
            results[stream] = results[stream].read()
        elif streams[stream] >= 0:
            os.close(streams[stream])
    return ran.returncode, results


def differences(program, case):
    """What is wrong after one run of a case, as a list of texts."""
    words = words_of(case)
    with tempfile.TemporaryDirectory() as place:
        folder = os.path.join(place, "in")
        os.mkdir(folder)
        lay_out(case, folder)
        status, results = run(program, case, words, folder)
        if status != case.get("status", 0):
            yield f"status {status}, not {case.get('status', 0)}"
        for stream, written in results.items():
            if written != wanted(case, stream):
                yield f"{stream}: {written[:300]!r}"
        for name, source in case.get("out", {}).items():
            path = os.path.join(folder, name)
            if not os.path.exists(path) or open(path, "rb").read() != wanted_file(source):
                yield f"{name} isn't {source}"
        for name in case.get("absent", []):
            if os.path.exists(os.path.join(folder, name)):
                yield f"there is a file {name}"
        # certify gives two equal readings of a cycle the verdict of the cycle; with --late it reads the cycle once, and --within and --all take no --twice
        twice = words[:1] == [b"certify"] and not {b"--late", b"--within", b"--all", b"--twice"} & set(words) and not {"stdin", "stdout-to", "stderr-to"} & case.keys()
        if twice and case.get("status", 0) < 2:
            status, results = run(program, case, words + [b"--twice"], folder)
            if (status, results) != (case.get("status", 0), {stream: wanted(case, stream) for stream in results}):
                yield f"with --twice: status {status}, {results['stdout'][:300]!r}, stderr {results['stderr'][:300]!r}"


def tables():
    """All cases, by the name of their command and their own name."""
    found = {}
    for file in sorted(os.listdir(os.path.join(TESTS, "cases"))):
        if not file.endswith(".toml"):
            continue
        for name, case in tomllib.loads(content("cases", file).decode()).items():
            unknown = case.keys() - KEYS
            if unknown:
                sys.exit(f"tests/cases/{file} [{name}]: no such key: {', '.join(sorted(unknown))}")
            found[f"{file[:-len('.toml')]}/{name}"] = case
    return found


def unused(cases):
    """The files of tests/cases/expected that no case names."""
    named = {case[key] for case in cases.values() for key in ("stdout-file", "stderr-file") if key in case}
    named |= {source for case in cases.values() for source in case.get("out", {}).values()}
    return sorted(set(os.listdir(os.path.join(TESTS, "cases", "expected"))) - named)


def commands(program):
    """The commands that `ttx --help` lists."""
    told = subprocess.run([program, "--help"], capture_output=True, text=True, timeout=SECONDS, check=False).stdout
    listed = re.findall(r"^  ([a-z]+) {2,}\S", told.partition("\nOptions:\n")[0], re.M)
    if not listed:
        sys.exit(f"{program} --help lists no commands")
    return listed


def missing(program, cases):
    """The commands, and the table of words that name none, of which there are no cases."""
    return sorted({*commands(program), NO_COMMAND} - {name.split("/")[0] for name in cases})


def main():
    program = os.path.realpath(sys.argv[1])
    if not os.access(program, os.X_OK):
        sys.exit(f"no program at {program}")
    cases = tables()
    chosen = {name: case for name, case in cases.items() if not sys.argv[2:] or {name, name.split("/")[0]} & set(sys.argv[2:])}
    failed = []
    with concurrent.futures.ThreadPoolExecutor(os.cpu_count()) as pool:
        for name, told in zip(chosen, pool.map(lambda case: list(differences(program, case)), chosen.values())):
            for text in told:
                print(f"FAILED {name}: {text}")
            if told:
                failed.append(name)
    for name in unused(cases):
        print(f"FAILED expected/{name}: no case names it")
        failed.append(f"expected/{name}")
    for name in [] if sys.argv[2:] else missing(program, cases):
        print(f"FAILED {name}: there are no cases")
        failed.append(name)
    print(f"cases: {len(chosen)} cases, {len(failed)} failed" + "".join(f" {name}" for name in failed))
    sys.exit(bool(failed) or not chosen)


if __name__ == "__main__":
    main()
