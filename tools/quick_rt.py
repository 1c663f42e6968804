#!/usr/bin/env python3
"""Runs rt, with less work done twice: quick_rt.py WORDS..

Five things differ from the kit's rt:

- Before a check, and under `rt ci` after it again, rt reckons the checksum of each crate below anew for each path of crates.txt that leads
  down to it. For ttx_tool these are 88,000 paths, and a run of `rt ci` over this repository opens some 21 million files for them, which takes
  as long as proving a large crate several times. Here rt keeps each checksum for the rest of the call, and each list of the crates below.
- `rt ci` proves a crate from nothing, and for its must-fail edits a second time, into a folder that a check of each edit begins with (the
  seed). Here each library keeps the modules that its proof checked, and not the statements alone; the seed begins with these, as it does
  under `rt must-fail` with what earlier checks kept. The proof is still from nothing, and each edit is still checked by the prover. The
  seed is made by a check of the crate as it stands, or of those of its functions at which its edits are to be refused. Afterwards rt checks
  the crate as it stands over the seed once more, and if it is not proved, tries each edit from nothing. Here it does so unless the check that
  made the seed said the same already: unless it proved anew what it should have read, or an edit needed more than the functions that it checked.
- The edits of a crate of which the record (record.py) lacks a mutant are tried without the written answers of the functions that they change,
  wherever the search proves the crate without these: the seed is a proof of such a crate. So a mutant is refused by the contract, and not
  because an answer that was written for the original body no longer fits.
- Mutants of bodies are first tried by a check of the functions that they change alone, which reads no more of the crate than these rest on. It
  says of a function what a check of the whole crate says, and says it of all edits of a crate at once, as long as no two of them change one
  function. If it does not refuse an edit, and each of its mutants unless the record has them, rt checks the whole crate with this edit alone.
  Mutants of definitions are first tried by a check of the functions at which the record says that they are refused, or of one that rests on the
  lemma which the record says is refused.
- Lines of their own tell that an edit was tried, and at the end which of its mutants its check shows to be refused (gate_log.py).

`make test RT=rt` runs the kit's rt as it is: it proves and tries the same, but leaves the answers in place, tells of no mutant and takes longer.
So does this script where the kit's rt has another form than it knows. All that is known of each mutant is then in the record.
"""
import functools
import os
import pathlib
import re
import shutil
import sys
import tempfile
import threading

from gate_log import mutant_lines
from mutants import LACKING, PROVED, answers_of, apart, changed, changed_among, is_of_body, mutants_of
from record import Record, crates, logic, sum_of_sources

LOADED = "rtlib = load()\n"
# what differs under `rt ci`: libraries with all that was checked, seeds that wait for the crate's proof and begin with its library, checks of
# edits without written answers, and lines for mutants (the kit's rt keeps results of edits without these, so they are kept under other names)
CHANGES = {
    "    Crate.cuts_libraries = True\n": "    Crate.cuts_libraries = False\n",
    "found[0] if crate in ready else [], waits, both,": "found[0] if crate in ready else [], both[:1], both,",
    "is_well(it, given, new), kept)\n": "is_well(it, given, new), kept, None if crate.is_program else LIBRARY)\n",
    "room = seeded(crate, ": "room = seeded_from(globals(), crate, ",
    "is_sound = same and not checked(": "is_sound = same and (is_seed_proved(crate.name) or not checked(",
    'f"{room}/seed").returncode\n        begun["holds"]': 'f"{room}/seed").returncode)\n        begun["holds"]',
    "                said = self.out.read()\n": "                said = self.out.read()\n                note_functions(self.name, commands, said)\n",
    "must_fail(crate, edits[number], flags, over)": "tried_over(globals(), crate, edits[number], flags, over)",
    "        for path, text in texts.items():\n": "        leave_out(crate, room)\n        for path, text in texts.items():\n",
    "must be{': ' + first[:160] if first else ''}": "must be{': ' + first[:160] if first else ''}{told_of(crate, edit, ran.stdout)}",
    "repr((sum, os.path.basename(edit), ": "repr((sum, answers_not_needed(edit.split('/')[-3]), os.path.basename(edit), ",
    '([*waits, (crate.name, "seed")], OVER * needs)': '([*waits, (crate.name, "seed"), *first_of(crate, edits, number)], OVER * needs)',
}
LIBRARY = "the crate's library"
# what the checks of each crate's edits leave out, the crate's functions, and what a check of several edits said of them, by crate and edit
LEFT_OUT, FUNCTIONS, TRIED = {}, {}, {}
# the crates whose seed was made by a check that read all from their library, with the functions that it checked (none for all), and the crates of
# which an edit was tried by a check of the whole crate
READ_BACK, TRIED_WHOLE = {}, set()
KIT_RT = pathlib.Path(os.path.realpath(shutil.which("rt") or "rt"))


def reckon_once(crate):
    """Makes the two walks of a class of crates remember: `below` for good, `stamp` for one outermost call."""
    below, stamp = crate.below, crate.stamp
    local = threading.local()

    def below_once(self):
        if "found_below" not in self.__dict__:
            self.found_below = below(self)
        return list(self.found_below)

    def stamp_once(self):
        is_outermost = not getattr(local, "known", None)
        if is_outermost:
            local.known = {"": ""}
        try:
            if self.folder not in local.known:
                local.known[self.folder] = stamp(self)
            return local.known[self.folder]
        finally:
            if is_outermost:
                local.known = None

    crate.below, crate.stamp = below_once, stamp_once


def unpack(library, to):
    """Puts the modules that a library carries into a folder, where a check finds them as if it had kept them there."""
    build = next(line.split()[1] for line in open(f"{library}/format") if line.startswith("rattle-build "))
    with open(f"{library}/toolchain/checked.a", "rb") as archive:
        if archive.read(8) != b"!<arch>\n":
            raise ValueError(library)
        names = b""
        while header := archive.read(60):
            name, size = header[:16].decode().strip(), int(header[48:58])
            text = archive.read(size + size % 2)[:size]
            if name == "//":
                names = text
                continue
            start = int(name.removeprefix("/"))
            path = pathlib.Path(to, build.replace("/", "_"), names[start : names.index(b"/\n", start)].decode())
            path.parent.mkdir(parents=True, exist_ok=True)
            path.write_bytes(text)


@functools.cache
def is_recorded(name):
    """Whether the record has all mutants of a crate over the sources as they are."""
    mutants, record = mutants_of(name), Record()
    over = sum_of_sources(crates(), name, logic()) if mutants else ""
    return all(record.has(it, over) for it in mutants)


@functools.cache
def answers_not_needed(name):
    """The written answers of the functions that the crate's mutants change, as paths by function, if the record lacks one of the mutants; without
    those that the search needed when the mutants were last tried."""
    if is_recorded(name):
        return {}
    folder, mutants, record = pathlib.Path("crates", name), mutants_of(name), Record()
    needed = answers_of(folder, [it for it in mutants if record.needs_answers(it)])
    return {function: str(it.relative_to(folder)) for function, it in answers_of(folder, mutants).items() if function not in needed}


def left_out(name):
    """The written answers that the checks of a crate's edits leave out, as paths by function."""
    return LEFT_OUT.setdefault(name, answers_not_needed(name))


def leave_out(crate, room):
    """Removes these answers from a copy of the crate."""
    for it in left_out(crate.name).values():
        os.remove(f"{room}/{it}")


def put_back(name, check):
    """Keeps the written answers of a crate that its check lacks. Returns whether it lacks any."""
    former, lacking = left_out(name), {function for function, _ in LACKING.findall(check.stdout)}
    if check.returncode == 0 or "logic=not-proved" not in check.stdout or not former:
        return False
    left = {function: it for function, it in former.items() if function not in lacking}
    LEFT_OUT[name] = left if len(left) < len(former) else {}
    return True


def note_functions(name, commands, said):
    """Keeps the names of a crate's functions, from what its proof says."""
    if "--test" not in commands[0]:
        FUNCTIONS[name] = PROVED.findall(said)


def only(functions):
    """The flags of a check of these functions alone; of a whole crate if there are none."""
    return [word for it in functions for word in ("--only", it)]


def functions_tried(name):
    """The functions that the checks of a crate's edits check, if they are known for each edit."""
    edits, functions = sorted({it.edit for it in mutants_of(name)}), FUNCTIONS.get(name, [])
    found = [functions_of([it for it in mutants_of(name) if it.edit == edit], name, functions) for edit in edits] if is_recorded(name) else [[]]
    return sorted({it for names in found for it in names}) if all(found) else []


def seeded_from(rt, crate, flags, start):
    """A seed as rt makes it, of the crate without the answers that it does not need. It begins with what the folder `start` holds, or with the
    crate's library."""
    room = tempfile.mkdtemp(prefix=f"rt-edits-{os.getpid()}-")
    rt["SEEDS"].append(room)
    try:
        functions = []
        if start == LIBRARY:
            unpack(crate.rlib, f"{room}/seed")
            functions = functions_tried(crate.name)
        else:
            rt["linked"](start, f"{room}/seed")
        while (check := rt["checked"](crate, {}, [*flags, *only(functions)], f"{room}/seed")).returncode:
            if not put_back(crate.name, check):
                raise ValueError(crate.name)
        if not functions:
            FUNCTIONS[crate.name] = PROVED.findall(check.stdout)
        if start == LIBRARY and re.search(rf"^crate {crate.name}: modules loaded=\d+ checked=0$", check.stdout, re.M):
            READ_BACK[crate.name] = functions
        return room
    except (OSError, TypeError, ValueError, StopIteration):
        shutil.rmtree(room, ignore_errors=True)
        return rt["seeded"](crate, flags)


def is_seed_proved(name):
    """Whether the check that made a crate's seed read all from the crate's library, and checked what the crate's edits were tried over."""
    return name in READ_BACK and not (READ_BACK[name] and name in TRIED_WHOLE)


def resting_on(name, lemma):
    """The function of a crate whose written proof rests on a lemma, of several the one that rests on the least text; none if there is no such
    function."""
    folder = pathlib.Path("crates", name, "proofs")
    texts = {".".join(it.relative_to(folder).with_suffix("").parts): it.read_text() for it in folder.rglob("*.antt")}
    used = {module: re.findall(rf"^(?:pub )?use Rattle\.{name}\.proofs\.([\w+.]+?)(?:\.\{{| as |$)", it, re.M) for module, it in texts.items()}
    homes = {module for module, it in texts.items() if re.search(rf"^\s*(?:pub )?{re.escape(lemma)}(?!\S)", it, re.M)}
    found = []
    for module in texts:
        *function, last = module.split(".")
        rests = [module]
        for it in rests:
            rests += [other for other in used.get(it, []) if other not in rests]
        if last in ("Answers", "Proof") and homes.intersection(rests):
            found.append((sum(len(texts.get(it, "")) for it in rests), "::".join(function)))
    return min(found, default=(0, ""))[1]


def refused_before(name, mutants, functions):
    """The functions, of all of a crate, at which its mutants were refused when they were last tried, or that rest on the lemmas which were; none if
    one of them was not refused, or over other sources."""
    record = Record()
    found = [record.refused_function(it) or resting_on(name, record.refused_lemma(it)) for it in mutants] if is_recorded(name) else []
    return found if all(it in functions for it in found) else []


def functions_of(mutants, name, functions):
    """The functions, of all of a crate, by a check of which its mutants are tried; none if they are not known."""
    return changed_among(mutants, functions) or refused_before(name, mutants, functions)


@functools.cache
def joined(name):
    """The edits of a crate that change nothing but bodies of functions, in lists of edits that one check tries: none changes a function that
    another one of its list changes."""
    mutants = mutants_of(name)
    edits = sorted({it.edit for it in mutants} - {it.edit for it in mutants if not is_of_body(it)})
    return apart((edit, {it for mutant in mutants if mutant.edit == edit for it in changed(mutant)}) for edit in edits)


def list_of(name, edit):
    """The edits that are tried together with one of a crate, itself included."""
    return next((edits for edits in joined(name) if edit in edits), [edit])


def first_of(crate, edits, number):
    """The task that tries an edit of a crate together with others, if it is that of another edit, for which this one has to wait."""
    names = [os.path.basename(it) for it in edits]
    first = names.index(list_of(crate.name, names[number])[0])
    return [] if first == number else [(crate.name, "edits", first)]


def tried_by(rt, crate, edits, functions, flags, kept):
    """What a check of some functions alone says of some edits of a crate, by the names of those that it refuses."""
    folder = pathlib.Path(crate.folder, "must-fail")
    texts, why = rt["edited"]("\n".join((folder / it).read_text() for it in edits), crate.folder)
    check = None if why else rt["checked"](crate, texts, [*flags, *only(functions)], kept)
    found = {}
    for edit in edits if check and check.returncode == 1 else []:
        mutants = [it for it in mutants_of(crate.name) if it.edit == edit]
        lines = mutant_lines(crate.name, edit, left_out(crate.name), check.stdout)
        if len(lines) == len(mutants) or (lines and is_recorded(crate.name)):
            where = " ".join(changed_among(mutants, functions) or functions)
            found[edit] = rt["REFUSED"], "\n".join([f"must-fail {crate.name}/{edit}: refused, as it must be: by a check of {where}", *lines])
    return found


def tried_over(rt, crate, edit, flags, kept):
    """What a try of an edit over a seed comes to, as rt's `must_fail` says it. A check of the functions alone that are to be refused comes first,
    where these are known; of the first edit of a list, one of all edits of the list."""
    name, functions = os.path.basename(edit), FUNCTIONS.get(crate.name, [])
    together = list_of(crate.name, name)
    for edits in [together, [name]] if together[0] == name and len(together) > 1 else [[name]]:
        mutants = [it for it in mutants_of(crate.name) if it.edit in edits]
        of = functions_of(mutants, crate.name, functions)
        if of and (crate.name, name) not in TRIED:
            TRIED.update({(crate.name, it): told for it, told in tried_by(rt, crate, edits, of, flags, kept).items()})
    told = TRIED.get((crate.name, name))
    if not told:
        TRIED_WHOLE.add(crate.name)
        told = rt["must_fail"](crate, edit, flags, kept)
    rt["say"](f"{crate.name}: tried {name}")
    return told


def told_of(crate, edit, check):
    """What stands behind the line of an edit that is refused: a line for each mutant that its check shows to be refused."""
    return "".join(f"\n{it}" for it in mutant_lines(crate.name, os.path.basename(edit), left_out(crate.name), check))


def run_rt(name, more=""):
    """Runs the kit's rt as a module of this name, with some lines more behind the one that loads its library `rtlib`. Returns the names that
    it defines; `None` if it has another form than this script knows."""
    text = KIT_RT.read_text(errors="replace") if KIT_RT.is_file() else ""
    changes = {**CHANGES, LOADED: f"{LOADED}reckon_once(rtlib.Crate)\n{more}"}
    if any(text.count(it) != 1 for it in changes):
        return None
    for old, new in changes.items():
        text = text.replace(old, new)
    ours = (answers_not_needed, first_of, is_seed_proved, leave_out, note_functions, reckon_once, seeded_from, told_of, tried_over)
    names = {"__name__": name, "__file__": str(KIT_RT), "LIBRARY": LIBRARY, **{it.__name__: it for it in ours}}
    exec(compile(text, str(KIT_RT), "exec"), names)
    return names


def main(more=""):
    if run_rt("__main__", more) is None:
        os.execvp("rt", ["rt", *sys.argv[1:]])


if __name__ == "__main__":
    main()
