#!/usr/bin/env python3
"""Checks in the log of a whole run of the gate that each must-fail edit was refused for want of a proof: refusals.py LOG [CRATE..]

The gate does not count an edit that it cannot apply, or one that only a limit of the prover stops. Here each file
crates/CRATE/must-fail/*.edit (of these crates, or of all) must be in the log as tried and refused, neither only by a limit of the prover
nor only because a written proof names what the edit removes. The mistakes of NAMED must have their files. The status is 1 if one is not so.
What the log says of each mutant in a file is read by edits.py.
"""
import pathlib
import sys

from gate_log import told_in

REFUSED = "refused, as it must be"

# the mistakes that each release must be shown to refuse, each in a file of its own, so that none is lost with its file
NAMED = """
ttx_code/two-wrong-bits-are-corrected
ttx_header/subcode_bits
ttx_render/colour-codes-act-at-their-own-column
ttx_render/the-held-mosaic-survives-a-change-of-mode
ttx_page/wrong-parity-is-a-space
ttx_page/a-hidden-row-is-needed
ttx_packet/the-empty-slot-is-a-row
ttx_witness/sure_at_age_lines
ttx_witness/tuning-is-tried-at-the-start-of-the-period-alone
ttx_witness/unsure_member_passed_over
ttx_witness/unsure_member_passed_over_in_find
ttx_witness/owners_from_slot_0
ttx_witness/the-deadline-is-not-the-least
ttx_certify/rows-are-compared-at-named-starts-alone
ttx_certify/the-walk-believes-its-first-pass
ttx_certify/the-walk-always-answers-unsteady
ttx_certify/no-cycle-is-accepted
ttx_certify/an-erase-bit-over-right-rows-is-no-fault
ttx_certify/blank-rows-are-left-out-for-any
ttx_certificate/version-2-with-class-any
ttx_receiver/cleared_erases
ttx_plan/time-filling-headers-after-a-header
ttx_plan/one-magazine-after-another
ttx_plan/one-magazine-in-the-gaps-of-another
ttx_proof/the-slots-before-the-first-new-headers-are-not-compared
ttx_counter/the-repeat-count-is-not-tested
ttx_counter/refute-gives-none
ttx_counter/refute-gives-none-where-contents-are-wrong
ttx_counter/a-run-of-a-smaller-deadline
""".split()

# what the gate prints for an edit that shows nothing about a contract, or less
FAULTS = {
    "NOT TRIED": "it was not tried",
    "BAD EDIT": "it is a bad edit",
    "NOT REFUSED": "the crate is still proved with it",
    f"{REFUSED} (only by a limit": "only a limit of the prover stops it",
    f"{REFUSED} (only because a proof file names": "only a written proof that names what is gone is refused",
    f"{REFUSED} (": "it is refused with a reservation that this script does not know",
}


def fault_of(said):
    """What is wrong with the gate's line for an edit; None if it is refused for want of a proof."""
    for begin, fault in FAULTS.items():
        if said.startswith(begin):
            return fault
    return "" if said.startswith(REFUSED) else "the gate says something else"


def main():
    log, *crates = sys.argv[1:]
    told, stray = told_in(log)
    edits = [it for it in sorted(pathlib.Path("crates").glob("*/must-fail/*.edit")) if not crates or it.parts[1] in crates]
    lacking = [it for it in NAMED if not pathlib.Path("crates", it.replace("/", "/must-fail/") + ".edit").is_file()]
    faults = [f"FAILED {it}: there is no such edit file" for it in lacking]
    for edit in edits:
        said = told.get((edit.parts[1], edit.name))
        fault = "the log doesn't name it" if said is None else fault_of(said)
        if fault:
            faults.append(f"FAILED {edit}: {fault}" + (f": {said}" if said else ""))
    faults += [f"FAILED {it}" for it in stray]
    print("\n".join([*faults, f"refusals: {len(edits)} must-fail edits, {len(faults)} failed"]))
    return 1 if faults or not edits else 0


if __name__ == "__main__":
    sys.exit(main())
