"""The record of mutants, tools/edits.tsv: a line for each, with the crate, the edit, the heading, the checksums of the mutant and of all that
it was tried on, the verdict, the refused function or lemma, whether the written answers of the changed functions were left out, and how it
was refused.

What it was tried on are the sources of the crate and of all crates below, without comments, the crates that each of them uses, and the logic.
Written answers are left out unless the search does not prove the crate without them; then they are in place.
"""
import functools
import pathlib
import re
import subprocess
import threading

from mutants import ENOUGH, checksum

RECORD = pathlib.Path(__file__).resolve().parent / "edits.tsv"
HEAD = ["crate", "edit", "heading", "body", "sources", "verdict", "function", "answers", "how"]
PARTS = ("src", "specs", "proofs")
COMMENTS = {".rt": "//", ".antt": "--"}


def crates():
    """The crates of the repository, each with the crates that it uses."""
    named = dict(line.split("#")[0].strip().split(":") for line in open("crates.txt") if ":" in line.split("#")[0])
    return {name: [it for it in rest.split() if it in named] for name, rest in named.items()}


def below(known, name):
    """The crate and all below it."""
    found = [name]
    for it in found:
        found += [dep for dep in known[it] if dep not in found]
    return sorted(found)


def sources(names):
    """The files of these crates that a check reads."""
    return [it for name in names for part in PARTS for it in sorted(pathlib.Path("crates", name, part).rglob("*")) if it.is_file()]


@functools.cache
def sum_of_file(path):
    """The checksum of a file without its comments, so that a reworded comment asks for no new trial."""
    lines = [line for line in path.read_text().split("\n") if not line.lstrip().startswith(COMMENTS[path.suffix])]
    return checksum("\n".join(lines).encode())


def sum_of_sources(known, name, logic):
    """The checksum of all that a crate's mutants are tried on."""
    names = below(known, name)
    told = [logic, *[f"{it}: {' '.join(known[it])}" for it in names], *[f"{it} {sum_of_file(it)}" for it in sources(names)]]
    return checksum("\n".join(told).encode())


@functools.cache
def logic():
    """The checksum of the program logic that the kit proves with."""
    told = subprocess.run(["rt", "version"], stdout=subprocess.PIPE, text=True, check=True).stdout
    return re.search(r"logic (\w+)", told)[1]


class Record:
    """The file of results."""

    def __init__(self):
        lines = RECORD.read_text().split("\n")[1:] if RECORD.exists() else []
        rows = [line.split("\t") for line in lines if line]
        self.rows = {tuple(row[:4]): row for row in rows}
        self.lock = threading.Lock()

    def has(self, mutant, sources_sum):
        row = self.rows.get(mutant.key)
        return row is not None and row[4] == sources_sum and row[5] in ENOUGH

    def needs_answers(self, mutant):
        """Whether the search needed written answers of the functions that the mutant changes when it was last tried."""
        return mutant.key in self.rows and self.rows[mutant.key][7] == "in place"

    def refused_function(self, mutant):
        """The function at which a mutant was refused when it was last tried; nothing if a lemma refused it."""
        row = self.rows.get(mutant.key)
        return row[6] if row and row[5] != "refused by a lemma" else ""

    def refused_lemma(self, mutant):
        """The lemma that refused a mutant when it was last tried; nothing if a function did."""
        row = self.rows.get(mutant.key)
        return row[6] if row and row[5] == "refused by a lemma" else ""

    def write(self, mutant, sources_sum, verdict, answers):
        """Puts a verdict on a mutant into the record."""
        tidy = re.sub(r"\s+", " ", verdict.how)[:160]
        with self.lock:
            self.rows[mutant.key] = [*mutant.key, sources_sum, verdict.word, verdict.function, answers, tidy]

    def gone(self, names, mutants):
        """The keys of the lines of these crates, or of all, whose heading no edit file has any more."""
        headings = {mutant.key[:3] for mutant in mutants}
        return [key for key in self.rows if (not names or key[0] in names) and key[:3] not in headings]

    def keep(self, names, keys):
        """Drops the lines of these crates, or of all, that have other keys."""
        with self.lock:
            self.rows = {key: row for key, row in self.rows.items() if names and key[0] not in names or key in keys}

    def save(self):
        with self.lock:
            text = "".join("\t".join(row) + "\n" for row in [HEAD, *(self.rows[key] for key in sorted(self.rows))])
            room = RECORD.with_suffix(".new")
            room.write_text(text)
            room.replace(RECORD)
