"""What the log of a run of the gate says of the must-fail edits.

Under quick_rt.py a line follows that of a refused edit for each of its mutants which the check shows to be refused: the checksum of the
mutant, its heading, the verdict, the refused function or lemma, whether written answers were left out, and how it was refused, separated by
tabs. The kit's own rt writes no such lines.
"""
import pathlib
import re
import typing

from mutants import Verdict, mutants_of, state_of_answers, verdicts_of

TOLD = re.compile(r"rt: must-fail (\w+)/(\S+?\.edit): (.*)")
STRAY = re.compile(r"rt: (\S+\.edit|\S*must-fail/\S+): BAD EDIT: (.*)")
INDENT = "    "


class Shown(typing.NamedTuple):
    """What the log shows of a mutant."""

    verdict: Verdict
    answers: str


def mutant_lines(crate, edit, left_out, check):
    """The lines of the mutants of an edit that its check, without the written answers of these functions, refuses."""
    mutants = [it for it in mutants_of(crate) if it.edit == edit]
    lines = []
    for mutant, told in zip(mutants, verdicts_of(mutants, 1, check)):
        if told and told.is_enough:
            answers = state_of_answers(pathlib.Path("crates", crate), mutant, left_out)
            lines.append(INDENT + "\t".join([mutant.sum, mutant.heading, told.word, told.function, answers, " ".join(told.how.split())[:160]]))
    return lines


def told_in(log):
    """What the log says of each edit, by crate and file, and what else it calls a bad edit."""
    told, stray = {}, []
    for line in open(log, errors="replace"):
        if found := TOLD.match(line):
            told[found[1], found[2]] = found[3]
        elif found := STRAY.match(line):
            stray.append(f"{found[1]}: {found[2]}")
    return told, stray


def shown_in(log):
    """What the log shows of mutants, each under its key."""
    shown, at = {}, ("", "")
    for line in open(log, errors="replace"):
        if found := TOLD.match(line):
            at = found[1], found[2]
        elif at[0] and line.startswith(INDENT) and line.count("\t") == 5:
            sum_of_mutant, heading, word, function, answers, how = line.rstrip("\n").removeprefix(INDENT).split("\t")
            shown[(*at, heading, sum_of_mutant)] = Shown(Verdict(word, function, how), answers)
        else:
            at = "", ""
    return shown
