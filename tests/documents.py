#!/usr/bin/env python3
"""Runs each example of README.md and docs/ word for word, and compares its output. Checks that the links, files, calls, clauses, laws,
definitions, mutants, crates, commands, options and quoted lines that the documents name exist; that each name of docs/CONTRACTS.md
stands in the crate of its row, in a contract that the definitions of the row state; that crates and the files of commands stand where
docs/LAYERS.md says; that figures quoted from docs/MEASURED.md are there; the table of waits in docs/SERVICE.md; that the texts of
docs/AUTHORS.md can be composed; that a document leads to each file of examples/ (recipes.sh runs them); and that README.md and docs/
together have at most 120 kB.

usage: documents.py [PROGRAM] (without PROGRAM no example is run)
"""
import functools
import os
import re
import shutil
import subprocess
import sys
import tempfile
from pathlib import Path

TOP = Path(__file__).resolve().parent.parent
sys.path.insert(0, str(TOP / "tools"))
from reached import reached  # noqa: E402

# what `make demo` does to its files, as far as the examples need it
BEFORE = """
set -e
ttx plan broadcast.toml broadcast.t42
ttx find broadcast.t42 broadcast.toml broadcast.cert
ttx plan broadcast.toml late.t42 --late
ttx find late.t42 broadcast.toml late.cert
cp broadcast.t42 broken.t42
dd if=broadcast.t42 of=broken.t42 bs=42 skip=495 seek=483 count=1 conv=notrunc status=none
dd if=/dev/zero of=broken.t42 bs=42 seek=495 count=1 conv=notrunc status=none
sed 's/0001Storm /0003Sunny /' broadcast.toml > tomorrow.toml
ttx plan tomorrow.toml tomorrow.t42
ttx find tomorrow.t42 tomorrow.toml tomorrow.cert
"""


def examples(text):
    """The commands of the indented blocks, each with the lines that it prints."""
    told = []
    for line in text.splitlines():
        if line.startswith("    $ "):
            told.append((re.sub(r"  +# .*$", "", line[6:]), []))
        elif line.startswith("    ") and told and told[-1][1] is not None:
            told[-1][1].append(line[4:])
        elif told:
            told.append(("true", None))
    return [(command, lines) for command, lines in told if lines is not None]


def authored_texts():
    """The texts in docs/AUTHORS.md, the first of them whole, the others rows of a page."""
    return re.findall(r"^```toml\n(.*?)^```$", (TOP / "docs/AUTHORS.md").read_text(), re.M | re.S)


def wrong_texts(folder, words):
    """The texts in docs/AUTHORS.md that `compose` does not make a service of."""
    first, *others = authored_texts()
    for text in [first, *(first[:first.index("[page.rows]")] + other for other in others)]:
        (folder / "authored.toml").write_text(text)
        done = run("ttx compose authored.toml composed.toml", folder, words)
        if (done.returncode, done.stdout, done.stderr) != (0, "composed 1 pages\n", ""):
            yield f"AUTHORS.md: status {done.returncode}, {done.stdout}{done.stderr}"


def wrong_fences(document):
    """The fenced blocks that nothing runs: all but the texts of docs/AUTHORS.md."""
    for language in re.findall(r"^```(\w+)$", document.read_text(), re.M):
        if language != "toml" or document.name != "AUTHORS.md":
            yield f"a block of {language} that nothing runs"


def made(folder, program):
    """The files and programs that the examples name; desk.toml is the first page of docs/AUTHORS.md. The file `statuses` tells how each ttx ends."""
    programs = folder / "bin"
    programs.mkdir()
    (programs / "ttx").write_text(f'#!/bin/sh\n"{program}" "$@"\nstatus=$?\necho $status >> "{folder}/statuses"\nexit $status\n')
    (programs / "sender").write_text("#!/bin/sh\ncat > /dev/null\n")
    for file in programs.iterdir():
        file.chmod(0o755)
    for file in (TOP / "tests/data").iterdir():
        shutil.copy(file, folder)
    shutil.copy(TOP / "examples/broadcast.toml", folder)
    (folder / "desk.toml").write_text(authored_texts()[0])
    return {**os.environ, "PATH": f"{programs}:{os.environ['PATH']}"}


def run(command, folder, words):
    return subprocess.run(["sh", "-c", command], cwd=folder, env=words, capture_output=True, text=True, timeout=60)


def anchors_of(document):
    """The anchors of the headings of a document."""
    headings = re.findall(r"^#+ (.*)$", document.read_text(), re.M)
    return {re.sub(r"[^\w -]", "", heading).strip().lower().replace(" ", "-") for heading in headings}


def dead_links(document):
    """The links of a document to files, or headings of documents, that do not exist."""
    for link in re.findall(r"\]\(([^)\s]+)[^)]*\)", document.read_text()):
        name, _, anchor = link.partition("#")
        file = document.parent / name if name else document
        if "://" not in link and (not file.exists() or (anchor and anchor not in anchors_of(file))):
            yield link


def named_files(document):
    """The files that a document names in backticks: of the repository, of a crate, or definitions as `ttx_page/specs/Pages`."""
    for name in re.findall(r"`([A-Za-z_0-9./-]+)`", document.read_text()):
        if "NAME" in name or "CRATE" in name:
            continue
        if re.match(r"(tests|docs|examples|bench|tools|demo|crates)/", name):
            yield name, TOP / name
        elif re.match(r"ttx_[a-z_]+/specs/", name):
            yield name, TOP / "crates" / f"{name.removesuffix('.antt')}.antt"
        elif re.match(r"ttx_[a-z_]+/src/", name):
            yield name, TOP / "crates" / name
        elif re.match(r"(must-fail|specs|src|proofs)/.*\.\w+$", name):
            yield name, next((TOP / "crates").glob(f"*/{name}"), TOP / name)


@functools.cache
def source_of(crate, folder="src"):
    """The sources of a crate as one text."""
    return "\n".join(file.read_text() for file in sorted((TOP / "crates" / crate / folder).rglob("*.rt")))


def is_defined(crate, name):
    """Whether a crate has a public function, type or module with this name, or a trait with such a method."""
    item = rf"\bpub (?:const )?(?:fn|struct|enum|trait|mod|use .*::)\s*{name}\b|^    fn {name}\b"
    return re.search(item, source_of(crate), re.M) is not None


@functools.cache
def contract_of(crate, name):
    """The heads of all functions of a crate with this name: arguments and clauses."""
    return " ".join(re.findall(rf"\bfn {name}\b(.*?)(?=\n *\{{|\bfn |\Z)", source_of(crate), re.S))


def clauses_of(crate, name):
    """The names of the clauses of all functions of a crate with this name."""
    return set(re.findall(r"\bensures ([a-z_]+) \{", contract_of(crate, name)))


@functools.cache
def defined_in(path):
    """The definitions of a file."""
    item = r"^\s*(?:(?:abbrev|unfoldable)(?: pub)?|(?:pub )?(?:record|data)) ([^\s:({]+)"
    return set(re.findall(item, path.read_text(), re.M)) if path.exists() else set()


def unknown_calls(document):
    """The calls `ttx_certify::certify` or `ttx_certify::laws::runs_are_seen` (`exact`, `seen`) of a document that do not exist, or lack a clause."""
    called = r"`(ttx_[a-z_]+)::(?:[a-z_]+::)*([A-Za-z_0-9]+)`((?: \(`[a-z_]+`(?:, `[a-z_]+`)*\))?)"
    for crate, name, clauses in re.findall(called, document.read_text()):
        if not is_defined(crate, name):
            yield f"no call {crate}::{name}"
        for clause in re.findall(r"`([a-z_]+)`", clauses):
            if clause not in clauses_of(crate, name):
                yield f"{crate}::{name} has no clause {clause}"


def index_rows(text):
    """The rows of an index of promises: crate, calls with their clauses, definitions."""
    for line in text.splitlines():
        cells = [cell.strip() for cell in line.strip("|").split("|")]
        if line.startswith("| ") and len(cells) == 4 and cells[1] != "crate":
            yield f"ttx_{cells[1]}", cells[2], cells[3]


def indexed_calls(calls):
    """The calls of a row, each with the names after its colon: clauses, or methods of a type."""
    for group in calls.split(";"):
        before, _, after = group.partition(": ")
        for name in re.findall(r"[A-Za-z_0-9:]+", before):
            yield name.split("::")[-1], re.findall(r"[a-z_0-9]+", after)


def definitions_of(crate, cell):
    """The files of definitions that a row names, those of another crate as `witness/Coverage`."""
    for name in re.findall(r"[A-Za-z_/]+", cell):
        owner, _, rest = name.partition("/")
        here = TOP / f"crates/{crate}/specs/{name}.antt"
        yield TOP / f"crates/ttx_{owner}/specs/{rest}.antt" if rest and not here.exists() else here


def unknown_in_index(text):
    """The names of an index of promises that do not stand where their row says, and calls whose contract names none of the row's definitions."""
    for crate, calls, cell in index_rows(text):
        files = [*definitions_of(crate, cell)]
        yield from (f"no definitions {file}" for file in files if not file.exists())
        defined = set().union(*map(defined_in, [*files, TOP / f"crates/{crate}/specs/Laws.antt"]))
        for name, further in indexed_calls(calls):
            if not is_defined(crate, name):
                yield f"no call {name} in {crate}"
            of_type = name[0].isupper()
            known = {method for method in further if is_defined(crate, method)} if of_type else clauses_of(crate, name)
            yield from (f"{crate}: {name} has no {other}" for other in further if other not in known)
            for call in further if of_type else [name]:
                if not defined & set(re.findall(r"[\w-]+", contract_of(crate, call))):
                    yield f"{crate}: the contract of {call} names none of the definitions of its row"


def quoted_blocks(text):
    """The indented blocks that are no examples: what they quote, line by line."""
    for block in re.findall(r"(?:^ {4,}\S.*\n)+", re.sub(r"^```.*?^```$", "", text, flags=re.M | re.S), re.M):
        if not block.startswith("    $ "):
            yield block.splitlines()


@functools.cache
def known_lines():
    """The lines of the sources, definitions and the Makefile, whatever their spaces."""
    files = [file for part in ("src", "specs") for file in (TOP / "crates").glob(f"*/{part}/**/*") if file.is_file()]
    return {" ".join(line.removeprefix("# ").split()) for file in [*files, TOP / "Makefile"] for line in file.read_text().splitlines()}


def misquoted(document):
    """The lines that a document quotes and that stand nowhere. The drawing of LAYERS.md quotes nothing."""
    if document.name != "LAYERS.md":
        for line in sum(quoted_blocks(document.read_text()), []):
            if " ".join(line.split()) not in known_lines():
                yield line.strip()


def unknown_crates(document):
    """The names of crates in a document that crates.txt does not have."""
    yield from sorted({name for name in re.findall(r"\bttx_[a-z_]+\b", document.read_text())} - set(crates()))


@functools.cache
def known_words():
    """All words of the sources, definitions, proofs, mutants, tests and tools."""
    files = [file for part in ("src", "specs", "proofs", "must-fail") for file in (TOP / "crates").glob(f"*/{part}/**/*") if file.is_file()]
    files += [file for part in ("tests", "tools", "bench", "demo", "examples") for file in (TOP / part).rglob("*") if file.is_file()]
    words = {file.name for file in files} | {file.stem for file in files}
    for file in files:
        words.update(re.findall(r"[A-Za-z_0-9]+(?:-[A-Za-z_0-9]+)*", file.read_text(errors="replace")))
    return words


def unknown_terms(document):
    """The names in backticks, of several words, that stand nowhere in the repository: definitions, laws, functions, cases, mutants."""
    for name in re.findall(r"`([A-Za-z][A-Za-z_0-9]*(?:-[A-Za-z_0-9]+)*)`", document.read_text()):
        if re.search(r"_|-|[a-z][A-Z]", name) and name not in known_words() and not re.match(r"ttx_|NAME", name):
            yield name


def named_options(document):
    """The commands of ttx that a document shows, each with its options."""
    for words in re.findall(r"\bttx ([a-z]+(?:[^`\n|#;&]|\\\|)*)", document.read_text()):
        command, *rest = words.split()
        for option in re.findall(r"--[a-z-]+", " ".join(rest)):
            yield command, option


def unknown_commands(document, helps):
    """The commands in backticks or examples of a document that do not exist."""
    named = re.findall(r"(?:`|^ +\$ |[|;] )ttx (?!(?:certificate|counter) \d)([a-z]+)", document.read_text(), re.M)
    yield from sorted(set(named) - set(helps) - {"help"})


def unknown_names(document, helps):
    """The names in a document that do not exist."""
    told = [f"no file {name}" for name, path in named_files(document) if not path.exists()]
    told += [*unknown_calls(document), *(f"no name {name}" for name in unknown_terms(document))]
    told += [*(f"no line {line}" for line in misquoted(document)), *(f"no crate {name}" for name in unknown_crates(document))]
    told += [f"no command {name}" for name in unknown_commands(document, helps)]
    told += [f"{command} has no {option}" for command, option in named_options(document)
             if command in helps and option not in helps[command]]
    return told


def unmeasured(document):
    """The figures of two digits or more in lines and tables that refer to MEASURED.md, if MEASURED.md does not have them."""
    measured = set(re.findall(r"\d[\d,.]*\d", (TOP / "docs/MEASURED.md").read_text()))
    for block in document.read_text().split("\n\n"):
        for line in [block] if block.startswith("|") else block.splitlines():
            if "(docs/MEASURED.md)" in line or "](MEASURED.md)" in line:
                for figure in re.findall(r"\d[\d,.]*\d", re.sub(r"EN 300 706|`[^`]*`", "", line)):
                    if figure not in measured:
                        yield figure


def crates():
    """Each crate with the crates on which it stands, by crates.txt."""
    lines = (TOP / "crates.txt").read_text().splitlines()
    return {name: below.split() for name, below in (line.split(":") for line in lines if ":" in line)}


def listed(document, start):
    """The names of crates in the line of a document that begins or goes on with these words."""
    line = next((line for line in (TOP / document).read_text().splitlines() if start in line), "")
    return {name for name in re.findall(r"[a-z_0-9]+(?![a-z_0-9]|::)", line.partition(start)[2])}


def wrong_modules(used):
    """Modules that README.md says no command uses, and that do not stand in their crate, or are named in one of these other crates."""
    line = next(line for line in (TOP / "README.md").read_text().splitlines() if "used by no command yet**" in line)
    for crate, module in re.findall(r"`(ttx_\w+)::(\w+)`", line):
        stands = (TOP / "crates" / crate / "src" / f"{module}.rt").is_file()
        files = [file for name in used - {crate} for file in (TOP / "crates" / name / "src").rglob("*.rt")]
        if not stands or any(f"{crate}::{module}" in file.read_text() for file in files):
            yield f"README.md: whether a command uses {crate}::{module}"


def wrong_crates():
    """Crates that docs/LAYERS.md, docs/CONTRACTS.md and README.md do not place as crates.txt does."""
    stands = crates()
    used, left = {"ttx"}, ["ttx"]
    while left:
        below = [name for name in stands.get(left.pop(), []) if name not in used]
        used.update(below)
        left += below
    spoken = set(re.findall(r"^- \*\*(ttx\w*)\*\*", (TOP / "docs/LAYERS.md").read_text(), re.M))
    yield from (f"LAYERS.md and crates.txt differ in {name}" for name in sorted(spoken ^ set(stands)))
    unused = set(stands) - used - {"ttx_tests"}
    said = {name for name in listed("README.md", "used by no command yet**") if name.startswith("ttx_")}
    yield from (f"README.md: whether a command uses {name}" for name in sorted(said ^ unused))
    yield from wrong_modules(used)
    indexed = {crate for crate, _, _ in index_rows((TOP / "docs/CONTRACTS.md").read_text())}
    yield from (f"CONTRACTS.md has no row of {name}" for name in sorted(set(stands) - indexed - {"ttx", "ttx_tests"}))
    outside = {name for name in used if not name.startswith("ttx")}
    yield from (f"README.md does not say that {name} is trusted" for name in sorted(outside - listed("README.md", "**Trusted**")))


def wrong_command_files():
    """Commands without a file of their name, and files of ttx_tool's commands that docs/LAYERS.md does not name, or names in vain."""
    names = set(re.findall(r'CommandName::\w+ => "(\w+)"', (TOP / "crates/ttx_arguments/src/command_names.rt").read_text()))
    files = {file.stem for file in (TOP / "crates/ttx_tool/src/commands").glob("*.rt")}
    said = {name.removesuffix(".rt") for name in re.findall(r"\b[a-z_]+\.rt\b", (TOP / "docs/LAYERS.md").read_text())}
    yield from (f"the command {name} has no file" for name in sorted(names - files))
    yield from (f"LAYERS.md: the file {name}.rt" for name in sorted(said ^ (files - names)))
    if len(names) < 19:
        yield "less than 19 commands"


def wrong_size(most=120_000):
    """Whether README.md and docs/ are too large to be read, pictures aside."""
    size = sum(file.stat().st_size for file in [TOP / "README.md", *(TOP / "docs").iterdir()] if file.suffix != ".svg")
    if size > most:
        yield f"README.md and docs/ have {size:,} bytes, more than {most:,}"


def unnamed_examples(documents):
    """The files of examples/ to which no document leads."""
    links = {link for document in documents for link in re.findall(r"\]\((?:\.\./)?examples/([\w.-]+)\)", document.read_text())}
    yield from (f"no document leads to examples/{file.name}" for file in sorted((TOP / "examples").iterdir()) if file.name not in links)


def wrong_reasons():
    """Reasons whose lines differ in the table of `explain` and in docs/CERTIFICATES.md and docs/SPLICES.md."""
    entries = re.findall(r'key: "([^"]*)",\s*name: "([^"]*)",\s*line: "([^"]*)"', (TOP / "crates/ttx_reasons/src/reasons.rt").read_text())
    lines = {line for _, _, line in entries}
    documents = [(TOP / "docs" / name).read_text() for name in ("CERTIFICATES.md", "SPLICES.md")]
    rows = {line for text in documents for line in re.findall(r"^\| `(no [^`]*)` \|", text, re.M)}
    yield from (f"the table of explain has no line {line}" for line in sorted(rows - lines))
    yield from (f"CERTIFICATES.md and SPLICES.md have no line {line}" for line in sorted(lines) if not any(f"`{line}`" in text for text in documents))
    for key, name, line in entries:
        number = line.split()[1] if line.split()[1].isdigit() else ""
        if key.removeprefix("splice-") != (number or name) or name != line.split()[2 if number else 1]:
            yield f"the table of explain has {key} {name} with {line}"
    if len({key for key, _, _ in entries} | {name for _, name, _ in entries}) < 2 * len(entries) - 2 or len(rows) < 24:
        yield "the table of explain has a key or a name twice, or the documents have less than 24 reasons"


def wrong_reach():
    """Whether docs/HEADLINE.md says how many files of definitions `certify` reaches."""
    files = {file for file, _ in reached("ttx_certify", "certify")}
    said = re.search(r"`python3 tools/reached.py ttx_certify certify` .* in (\d+) files", (TOP / "docs/HEADLINE.md").read_text())
    if not said or int(said.group(1)) != len(files) or not any(file.name == "Seen.antt" for file in files):
        yield f"HEADLINE.md: certify reaches {len(files)} files"


def waits_of_full_pages(count, often, option, folder, words):
    """The seconds that viewers of the first of so many full pages wait, sent more often than the others, and those of all pages."""
    pages = "".join(f'[[page]]\nnumber = "{100 + at}"\noften = {1 if at else often}\n' for at in range(count))
    (folder / "full.toml").write_text(f"lines = 12\nserial = true\n{pages}")
    done = run(f"ttx plan full.toml full.t42 {option} && ttx wait full.t42 full.toml", folder, words)
    found = re.findall(r"^(?:100/0000|all) \d+ fields ([\d.]+) s", done.stdout, re.M)
    return found if len(found) == 2 and not done.returncode and not done.stderr else [f"status {done.returncode} {done.stderr}"] * 2


def wrong_waits(folder, words):
    """The rows of the table of docs/SERVICE.md with other waits than plans give."""
    rows = re.findall(r"^\| (\d+) " + r"\| ([\d.]+) " * 5 + r"\|$", (TOP / "docs/SERVICE.md").read_text(), re.M)
    for count, *said in rows:
        unspread = waits_of_full_pages(int(count), 8, "", folder, words)
        spread = [waits_of_full_pages(int(count), often, "--spread", folder, words) for often in (2, 4, 8)]
        found = [unspread[0], *(first for first, _ in spread), spread[-1][1]]
        if found != said:
            yield f"SERVICE.md: {count} pages wait {found}, not {said}"
    if len(rows) < 3:
        yield "SERVICE.md: no table of waits"


def help_texts():
    """The help text of each command, as cases.py compares it with what the program prints."""
    return {file.stem.removeprefix("help-"): file.read_text() for file in (TOP / "tests/cases/expected").glob("help-*.txt")}


def is_odd(command, lines, status):
    """Whether an example has an odd status: a no has status 1, and a mistake that check reports has status 2, and both print a line."""
    return status not in (0, 1, 2) or (status > 0 and not lines) or (status == 2 and "check" not in command)


def failed_examples(documents, program):
    """How many examples there are, and what is wrong with them."""
    count, faults = 0, []
    with tempfile.TemporaryDirectory() as name:
        folder = Path(name)
        words = made(folder, program)
        before = run(BEFORE, folder, words)
        if before.returncode or before.stderr:
            faults.append(f"what the examples need: {before.stderr[-200:]}")
        for document in documents:
            for command, lines in examples(document.read_text()):
                count += 1
                (folder / "statuses").write_text("")
                done = run(command, folder, words)
                printed = (done.stdout + done.stderr).splitlines()
                # that of each ttx in a pipe too
                statuses = [done.returncode, *map(int, (folder / "statuses").read_text().split())]
                if printed != lines or any(is_odd(command, lines, status) for status in statuses):
                    faults.append(f"{command}: status {statuses}, it prints {printed[:3]}, and {document.name} has {lines[:3]}")
        faults += [*wrong_waits(folder, words), *wrong_texts(folder, words)]
    return count, faults


def index_faults():
    """What is wrong in docs/CONTRACTS.md, and whether this check finds a wrong clause, law and file."""
    text = (TOP / "docs/CONTRACTS.md").read_text()
    yield from unknown_in_index(text)
    if len([*index_rows(text)]) < 70:
        yield "an index of less than 70 rows"
    clause, law = ("| certify: exact", "| certify: exakt"), ("| runs_are_seen", "| runs_were_seen")
    file, other = ("| Verdicts,", "| Verdict,"), ("| Glyphs |", "| Lib |")
    for right, wrong in (clause, law, file, other):
        if right not in text or not [*unknown_in_index(text.replace(right, wrong, 1))]:
            yield f"{wrong} in the place of {right} is not noticed"


def main():
    program = Path(sys.argv[1]).resolve() if len(sys.argv) > 1 else None
    documents = [TOP / "README.md", *sorted((TOP / "docs").glob("*.md")), TOP / "tests/README.md"]
    count, faults = failed_examples(documents, program) if program else (0, [])
    helps = help_texts()
    faults += [*(f"CONTRACTS.md: {fault}" for fault in index_faults()), *wrong_crates(), *wrong_command_files(), *wrong_reach(), *wrong_reasons()]
    faults += [*wrong_size(), *unnamed_examples(documents)]
    for document in documents:
        faults += [f"{document.name}: no file {link}" for link in dead_links(document)]
        faults += [f"{document.name}: {fault}" for fault in wrong_fences(document)]
        faults += [f"{document.name}: {fault}" for fault in unknown_names(document, helps)]
        faults += [f"{document.name}: {figure} isn't in MEASURED.md" for figure in unmeasured(document)]
    for fault in faults:
        print(f"FAILED {fault}")
    print(f"documents: {count} examples, {len(faults)} failed")
    return 1 if faults or (program and count < 18) else 0


if __name__ == "__main__":
    sys.exit(main())
