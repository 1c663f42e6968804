#!/usr/bin/env python3
"""Prints the definitions that the clauses of a call reach, file by file, beside the standard library and the enums and records of `src/`:
what has to be read in order to trust them.

usage: reached.py CRATE CALL (as in: reached.py ttx_certify certify)
"""
import functools
import re
import sys
from collections import defaultdict
from pathlib import Path

CRATES = Path(__file__).resolve().parent.parent / "crates"
IMPORT = re.compile(r"^(?:pub |ghost )*use Rattle\.(\w+)\.specs\.([\w.]+?)(?:\.\{([^}]*)\}| as (\w+))?;?$", re.M)
DEFINED = re.compile(r"^ *(?:(?:abbrev|unfoldable)(?: pub)?|(?:pub )?(?:record|data)) ([^\s:({]+)")


def file_of(crate, path):
    """The file of a path of definitions: of the crate, or of one below that it hands on."""
    file = CRATES / crate / "specs" / f"{path.replace('.', '/')}.antt"
    if file.exists() or not (CRATES / crate).exists():
        return file
    handed = re.search(rf"^pub use Rattle\.(\w+)\.specs\.{re.escape(path)}$", (CRATES / crate / "specs/Lib.antt").read_text(), re.M)
    return file_of(handed.group(1), path) if handed else file


def imports_of(text):
    """The files that a text imports, by the names and aliases that it uses for them."""
    found = {}
    for crate, path, names, alias in IMPORT.findall(text):
        file = file_of(crate, path)
        if file.exists():
            found.update({name.strip().split(" as ")[-1]: (file, name.strip().split(" as ")[0]) for name in names.split(",") if name.strip()})
            found.update({alias: (file, None)} if alias else {})
    return found


@functools.cache
def read(file):
    """The imports of a file of definitions, and the text of each definition."""
    text, blocks, name = file.read_text(), defaultdict(str), None
    for line in text.splitlines():
        begun = DEFINED.match(line)
        name = begun.group(1) if begun else name
        if name and not line.startswith("--"):
            blocks[name] += line + "\n"
    return imports_of(text), dict(blocks)


def named_in(text, imports, blocks, file):
    """The definitions that a text names: of its own file, or imported."""
    for qualifier, word in re.findall(r"(?:\b(\w+)\.)?([^\s(){}.,;:]+)", text):
        if qualifier in imports and imports[qualifier][1] is None:
            yield imports[qualifier][0], word
        elif word in imports and imports[word][1]:
            yield imports[word]
        elif word in blocks:
            yield file, word


def reached(crate, call):
    """The definitions that the clauses of a call reach: file and name."""
    seen, left = set(), []
    for source in sorted((CRATES / crate / "src").rglob("*.rt")):
        text = source.read_text()
        for head in re.findall(rf"\bfn {call}\b(.*?)(?=\n *\{{|\bfn |\Z)", text, re.S):
            left += named_in(head[head.find("ensures"):], imports_of(text), {}, source)
    while left:
        file, name = left.pop()
        imports, blocks = read(file)
        if (file, name) not in seen and name in blocks:
            seen.add((file, name))
            left += named_in(blocks[name], imports, blocks, file)
        elif name in imports:
            left.append(imports[name])
    return seen


def main():
    files = defaultdict(set)
    for file, name in reached(*sys.argv[1:3]):
        files[str(file.relative_to(CRATES))].add(name)
    for file in sorted(files):
        print(f"{file}: {', '.join(sorted(files[file]))}")
    return 0 if files else 1


if __name__ == "__main__":
    sys.exit(main())
