"""Mutants: the deliberate mistakes in crates/*/must-fail/*.edit, what each of them changes, and what a check says of them.

An edit file may hold several mutants, separated by blank lines, each under a heading: the functions or definitions that it changes, or the
mistake. A function is proved from the contracts of those that it calls, never from their bodies. So one check shows of each mutant of a body
in the file whether the function that it changes is refused.
"""
import collections
import functools
import hashlib
import pathlib
import re
import typing
from dataclasses import dataclass

ENOUGH = {"refused", "refused by an answer", "refused by a lemma"}

ITEM = re.compile(r"\s*(?:pub(?:\([a-z]+\))? )?(?:const |unsafe )?(?:fn|struct|enum|const|static|trait|type)\s+(\w+)")
FUNCTION = re.compile(r"\s*(?:pub(?:\([a-z]+\))? )?(?:const |unsafe )?fn ")
IMPL = re.compile(r"impl(?: (?:\w+::)*(\w+)(?:<(\w+)>)?(?:<.*>)? for)? (?:\w+::)*(\w+)")
PARAMETERS = re.compile(r"(?<=^impl)<(?:[^<>]|<[^<>]*>)*>")
TRAIT = re.compile(r"(?:pub(?:\([a-z]+\))? )?(?:unsafe )?trait (\w+)")
DEFINITION = re.compile(r"(?:pub )?(?:abbrev |unfoldable |record |data )*(?:pub )?(?!where\b|unfolding\b|use\b|mod\b|--)([^\s:{})]+)")

# (a function that only calls one that is not proved is not refused itself)
LACKING = re.compile(r"^fn \w+::(\S+): no proof: expected answers in \S+; (?!it calls )(.*)$", re.M)
NOT_PROVED = re.compile(r"^fn \w+::(\S+): not proved(?:;.*)?$", re.M)
WRITTEN = re.compile(r"^(?:\./)?proofs/(\S+)/(?:Answers|Invariants|Proof)\.antt:\d+:\d+: error: (.*)", re.M)
LEMMA = re.compile(r"^(?:\./)?proofs/(?!\S*/(?:Answers|Invariants|Proof)\.antt)\S+\.antt:\d+:\d+: error: `([^`]+)`: (.*)", re.M)
NAME_GONE = re.compile(r"has no field|is not in scope|has no `|was not admitted")
# (a check of some functions alone ends with how many of them are proved)
IS_REFUSED = re.compile(r"^(?:logic=not-proved|only=\d+ proved=\d+)", re.M)
PROVED = re.compile(r"^fn \w+::(\S+): proved$", re.M)
LIMIT = re.compile(r"antt ran out of|outgrew the memory limit|stopped at the step limit")


@dataclass(frozen=True)
class Mutant:
    crate: str
    edit: str
    heading: str
    lines: tuple

    @property
    def sum(self):
        return checksum("\n".join(self.lines).encode())

    @property
    def key(self):
        return self.crate, self.edit, self.heading, self.sum


class Item(typing.NamedTuple):
    """A function or definition that a mutant changes. `owner` is, as a pattern, what Rattle calls the `impl` block or trait that it is a method
    of: the type, and behind it the trait, as `CountedRead`."""

    path: str
    name: str
    owner: str
    is_function: bool


class Verdict(typing.NamedTuple):
    """What a check says of a mutant: the verdict, the refused function or lemma, and how."""

    word: str
    function: str = ""
    how: str = ""

    @property
    def is_enough(self):
        return self.word in ENOUGH


def checksum(data):
    return hashlib.sha256(data).hexdigest()[:16]


def mutants_of(name):
    """The mutants of a crate."""
    found = []
    for edit in sorted(pathlib.Path("crates", name, "must-fail").glob("*.edit")):
        for part in edit.read_text().strip("\n").split("\n\n"):
            lines = part.split("\n")
            heading = " ".join(line.removeprefix("#").strip() for line in lines if line.startswith("#"))
            found.append(Mutant(name, edit.name, heading, tuple(line for line in lines if not line.startswith("#"))))
    return found


def steps(lines):
    """The changes of a mutant: for each the path, the old text and the new one."""
    path = old = ""
    for word, _, rest in (line.partition(": ") for line in lines):
        if word == "file":
            path = rest
        elif word == "old":
            old = rest
        elif word in ("new", "new:"):
            yield path, old, rest


def item_at(path, text, at):
    """The function or definition at a place of a file: the one whose first line is the nearest above."""
    begins = ITEM if path.endswith(".rt") else DEFINITION
    for line in reversed(text[: text.find("\n", at)].split("\n")):
        if found := begins.match(line):
            return Item(path, found[1], owner_above(text, at), path.startswith("src/") and bool(FUNCTION.match(line)))
    return Item(path, "", "", False)


def owner_above(text, at):
    """The pattern of the `impl` block or trait that a place of a file is in; nothing outside of one."""
    for line in reversed(text[:at].split("\n")[:-1]):
        if found := IMPL.match(PARAMETERS.sub("", line)):
            trait, of, name = found.groups("")
            return f"{name}{trait}{of}[^:]*" if trait else name
        if found := TRAIT.match(line):
            return found[1]
        if line.startswith("}"):
            break
    return ""


@functools.cache
def changed_items(mutant):
    """The functions and definitions that a mutant changes."""
    found = []
    for path, old, _ in steps(mutant.lines):
        file = pathlib.Path("crates", mutant.crate, path)
        if file.is_file() and not old.startswith("use "):
            text = file.read_text()
            found.append(item_at(path, text, text.find(old)))
    return list(dict.fromkeys(found))


def changed(mutant):
    """The functions and definitions that a mutant changes, each with its file."""
    return list(dict.fromkeys((it.path, it.name) for it in changed_items(mutant)))


def misnamed(mutant):
    """A message, if a heading does not name the functions that the mutant changes."""
    names = ", ".join(dict.fromkeys(name for _, name in changed(mutant)))
    is_of_names = re.fullmatch(r"\S+(, \S+)*", mutant.heading)
    heading = re.sub(r"\w+::", "", mutant.heading)
    return [f"{mutant.crate}/{mutant.edit}: a mutant under '{mutant.heading}' changes {names}"] if is_of_names and heading != names else []


def lines_of(mutant):
    """The first lines of the functions that a mutant changes, each with its file."""
    found = set()
    for path, old, _ in steps(mutant.lines):
        file = pathlib.Path("crates", mutant.crate, path)
        text = file.read_text() if file.is_file() else ""
        above = text[: text.find("\n", text.find(old))].split("\n")
        found.update([(path, at) for at, line in enumerate(above) if FUNCTION.match(line)][-1:])
    return found


def doubled(mutants):
    """A message for each function that two mutants of one edit file change."""
    counts = collections.Counter((mutant.crate, mutant.edit, *it) for mutant in mutants if is_of_body(mutant) for it in lines_of(mutant))
    return [f"{crate}/{edit}: two mutants change the function at {path}:{at + 1}" for (crate, edit, path, at), count in counts.items() if count > 1]


def changed_functions(mutant):
    """The functions that a mutant changes, each as a pattern of its path in the crate. A method is named by the module of its type."""
    found = []
    for it in changed_items(mutant):
        module = it.path.removeprefix("src/").removesuffix(".rt").replace("/", "::")
        if it.is_function and it.owner:
            found.append(rf"(?:\w+::)*{it.owner}::{re.escape(it.name)}")
        elif it.is_function:
            found.append(("" if module == "lib" else re.escape(module) + "::") + re.escape(it.name))
    return found


def is_changed(mutant, function):
    return any(re.fullmatch(it, function) for it in changed_functions(mutant))


def changed_among(mutants, functions):
    """The functions, of all of a crate, that mutants of bodies change; none if one of the mutants changes something else as well."""
    return [it for it in functions if any(is_changed(mutant, it) for mutant in mutants)] if all(map(is_of_body, mutants)) else []


@functools.cache
def is_of_body(mutant):
    """Whether a mutant changes nothing but bodies of functions; it may add an item behind a `use`."""
    for path, old, new in steps(mutant.lines):
        file = pathlib.Path("crates", mutant.crate, path)
        if not path.startswith("src/") or not file.is_file():
            return False
        text = file.read_text()
        is_of_function = item_at(path, text, text.find(old)).is_function or old.startswith("use ")
        if not is_of_function or (re.match(r"\s*(use|ensures|requires|ghost|pub |fn |impl|#)", old) and not new.startswith(old)):
            return False
    return True


def apart(changes):
    """Things in lists, each given with the set of items that it changes: no two of a list change one item."""
    lists, items = [], []
    for thing, mine in changes:
        at = next((at for at, theirs in enumerate(items) if not mine & theirs), len(lists))
        if at == len(lists):
            lists.append([])
            items.append(set())
        lists[at].append(thing)
        items[at] |= mine
    return lists


def rounds(mutants):
    """The mutants in groups that are tried together: in a group of several, each changes bodies of functions that no other one changes."""
    groups = apart((mutant, set(changed(mutant))) for mutant in mutants if is_of_body(mutant))
    return groups + [[mutant] for mutant in mutants if not is_of_body(mutant)]


def answers_of(folder, mutants):
    """The written answers of the functions that some mutants change, as files by function; `folder` is that of the crate."""
    files = {"::".join(it.parent.relative_to(folder / "proofs").parts): it for it in sorted(folder.glob("proofs/**/Answers.antt"))}
    return {function: file for function, file in files.items() if any(is_changed(mutant, function) for mutant in mutants)}


def state_of_answers(folder, mutant, left_out):
    """Whether the written answers of the functions that a mutant changes were left out when it was tried."""
    mine = answers_of(folder, [mutant])
    return ("left out" if all(it in left_out for it in mine) else "in place") if mine else "none"


def function_of(path, goal):
    """The function that a written proof of a goal belongs to. Functions that call each other share a file; their goals begin with the name."""
    *modules, last = path.split("/")
    return "::".join([*modules, re.match(r"`?(\w*)", goal)[1] if last.startswith("+") else last])


def verdict_of(mutant, status, told):
    """The verdict on a mutant that a check had alone. The function is the first refused one that the mutant changes, if there is one."""
    if status == 0:
        return Verdict("proved")
    if not IS_REFUSED.search(told):
        first = next((it for it in told.split("\n") if LIMIT.search(it) or "error" in it), told.strip().split("\n")[-1])
        return Verdict("limit" if LIMIT.search(told) else "bad", "", first)
    lacking = LACKING.findall(told)
    misfits = [(function_of(path, why), why) for path, why in WRITTEN.findall(told)]
    unproved = set(NOT_PROVED.findall(told))
    answers = [(function, why) for function, why in misfits if function in unproved and not NAME_GONE.search(why)]
    for word, found in (("refused", lacking), ("refused by an answer", answers)):
        mine = [it for it in found if is_changed(mutant, it[0])] or ([] if changed_functions(mutant) and answers else found)
        # (only another function is refused: that shows nothing of a mutant of a body)
        if mine and (is_changed(mutant, mine[0][0]) or not is_of_body(mutant)):
            return Verdict(word, *mine[0])
    if lacking and not is_of_body(mutant):
        return Verdict("refused", *lacking[0])
    # what a mutant of a definition refutes is a lemma about the definition
    lemmas = [it for it in LEMMA.findall(told) if not NAME_GONE.search(it[1])]
    if lemmas and not all(it.is_function for it in changed_items(mutant)):
        return Verdict("refused by a lemma", *lemmas[0])
    gone = [it for it in misfits if NAME_GONE.search(it[1])]
    first = next((it for it in told.split("\n") if ": error" in it), "")
    return Verdict("names gone", *gone[0]) if gone else Verdict("refused elsewhere", "", first)


def verdicts_of(mutants, status, told):
    """The verdict on each of some mutants that a check had together; `None` for one of several of which it does not refuse a function that the
    mutant changes."""
    if len(mutants) == 1:
        return [verdict_of(mutants[0], status, told)]
    if status == 0 or not IS_REFUSED.search(told):
        return [None] * len(mutants)
    found = [(mutant, verdict_of(mutant, status, told)) for mutant in mutants]
    return [it if it.is_enough and is_changed(mutant, it.function) else None for mutant, it in found]
