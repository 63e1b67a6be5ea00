#!/usr/bin/env python3
"""Tries tests/edits.py itself, on edits of which it is known what they come to: each has to be told as just that.

Usage: tests/edit_trials.py

The edits are in tests/edits. An edit that means the same must not be told as refused, also beside others that are; nor one whose
caller or callee alone is refused, one that can't be read or applied, or one that is refused only since a name is gone. None may
be passed over. Then it looks at what is kept of them for later runs (tests/kept_verdicts.py): what was refused, and of that
nothing once the edit, a file of its crate or a script is another. The last line is 'N passed, M failed'; status 0 where none
failed, 1 where one did, 2 where nothing could be run.
"""
from __future__ import annotations

import dataclasses
import pathlib
import sys
import tempfile

sys.dont_write_bytecode = True
import edits
import prover
from edit_verdicts import Kind
from kept_verdicts import KeptVerdicts
from lib.trials import last_line

FOLDER = prover.TOP / "tests" / "edits"
WANTED = {
    "radio_airtime/a_name_is_gone": Kind.NAMES,
    "radio_airtime/cannot_be_read": Kind.UNREAD,
    "radio_airtime/changes_nothing": Kind.BAD,
    "radio_airtime/does_not_compile": Kind.COMPILER,
    "radio_airtime/file_is_not_there": Kind.BAD,
    "radio_airtime/has_a_misspelt_line": Kind.BAD,
    "radio_airtime/is_refused": Kind.REFUSED,
    "radio_airtime/is_refused_too": Kind.REFUSED,
    "radio_airtime/means_the_same": Kind.PROVED,
    "radio_airtime/names_no_function": Kind.UNTOLD,
    "radio_airtime/only_what_it_calls_is_refused": Kind.OTHER,
    "radio_airtime/stands_more_than_once": Kind.BAD,
}
# How many things are looked at of what is kept.
KEPT = 4


def kept_wrongly(folder: pathlib.Path, found: edits.EditsOfCrates) -> list[str]:
    """What is kept of these edits and shouldn't be, or the other way round."""
    every = [edit for edits in found.values() for edit in edits]
    refused = {edit.label for edit in every if WANTED.get(edit.label) is Kind.REFUSED}
    known, unread, of_other_files = KeptVerdicts(folder), KeptVerdicts(folder, is_read=False), KeptVerdicts(folder)
    of_other_files.sum_of_crate = lambda crate: "other files"
    others = [dataclasses.replace(edit, only=f"{edit.only}_2") for edit in every]
    kept: dict[str, tuple[set[str], set[str]]] = {
        "what was refused, and no other edit": ({edit.label for edit in every if known.of(edit)}, refused),
        "other edits of the same name": ({edit.label for edit in others if known.of(edit)}, set()),
        "edits of files that have changed": ({edit.label for edit in every if of_other_files.of(edit)}, set()),
        "edits that are to be tried anew": ({edit.label for edit in every if unread.of(edit)}, set()),
    }
    return [f"{what}: {sorted(told)} kept, and not {sorted(wanted)}" for what, (told, wanted) in kept.items() if told != wanted]


def main() -> int:
    crates = {label.split("/")[0] for label in WANTED}
    unproved = sorted(crate for crate in crates if not prover.is_proved(crate))
    if unproved or len(sys.argv) > 1:
        print(__doc__.strip() if len(sys.argv) > 1 else f"edit_trials.py: not proved: {unproved}", file=sys.stderr)
        return 2
    found, bad = edits.gathered(FOLDER, crates)
    with tempfile.TemporaryDirectory(prefix="edit-trials-") as room:
        folder = pathlib.Path(room)
        told = {label: it.kind for label, it in edits.tried(found, bad, KeptVerdicts(folder)).told.items()}
        kept = kept_wrongly(folder, found)
    wrong = sorted(label for label in WANTED.keys() | told.keys() if told.get(label) is not WANTED.get(label))
    for label in wrong:
        print(f"{label}: told as {told.get(label)}, and it is {WANTED.get(label)}")
    for line in kept:
        print(line)
    count, failed = len(WANTED.keys() | told.keys()) + KEPT, len(wrong) + len(kept)
    return last_line(count - failed, failed)


if __name__ == "__main__":
    sys.exit(main())
