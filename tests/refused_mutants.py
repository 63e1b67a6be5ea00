#!/usr/bin/env python3
"""Writes down which mutants were refused, so that they needn't be tried again on a machine that has tried none.

Usage: tests/refused_mutants.py --write     (after `make mutants`: mutants/refused.txt has what this machine saw refused)
       tests/refused_mutants.py --read      (what stands there is kept, as if it had been tried here)
       tests/refused_mutants.py             (how many mutants it has)

Of each mutant it has a line: its crate and name, the first digits of the sum of all that its verdict rests on, which is the mutant
itself, the files that the proof of its crate rests on, the toolchain, and the scripts that try edits (tests/kept_verdicts.py); and
the goal that stayed open. A line counts only where that sum is still the same. So after a change of a crate its mutants are tried
again, and those of the crates above it. `tests/edits.py --anew mutants` tries all, whatever stands there.
"""
from __future__ import annotations

import sys
from typing import Iterator

sys.dont_write_bytecode = True
import prover
from edit_files import Edit
from edit_verdicts import Kind, Verdict
from edits import gathered
from kept_verdicts import KeptVerdicts, cache_folder

FOLDER = prover.TOP / "mutants"
LISTED = FOLDER / "refused.txt"
DIGITS = 16


def mutants() -> Iterator[Edit]:
    """Each mutant that can be read."""
    found, _ = gathered(FOLDER, {path.name for path in FOLDER.iterdir() if path.is_dir()})
    for _, edits in sorted(found.items()):
        yield from edits


def listed() -> dict[str, tuple[str, str]]:
    """The first digits of each mutant's sum, and its goal, by its label."""
    if not LISTED.is_file():
        return {}
    lines = (line.split(" ", 2) for line in LISTED.read_text(encoding="utf-8").splitlines())
    return {label: (digits, goal) for label, digits, goal in lines}


def line_of(edit: Edit, known: KeptVerdicts, told: dict[str, tuple[str, str]]) -> str | None:
    """The line of a mutant that was refused, by what is kept here or else by what was written down; None where it was not."""
    digits, verdict = known.sum_of(edit)[:DIGITS], known.of(edit)
    if verdict is not None:
        return f"{edit.label} {digits} {verdict.goal}"
    before, goal = told.get(edit.label, ("", ""))
    return f"{edit.label} {digits} {goal}" if before == digits else None


def write(known: KeptVerdicts) -> None:
    told = listed()
    lines = [line for edit in mutants() if (line := line_of(edit, known, told))]
    LISTED.write_text("".join(f"{line}\n" for line in lines), encoding="utf-8")


def read(known: KeptVerdicts) -> None:
    told = listed()
    for edit in mutants():
        digits, goal = told.get(edit.label, ("", ""))
        if digits == known.sum_of(edit)[:DIGITS] and known.of(edit) is None:
            known.keep(edit, Verdict(Kind.REFUSED, goal))


def main() -> int:
    if sys.argv[1:] not in ([], ["--write"], ["--read"]):
        print(__doc__.strip(), file=sys.stderr)
        return 2
    known = KeptVerdicts(cache_folder() / FOLDER.name)
    if "--write" in sys.argv:
        write(known)
    if "--read" in sys.argv:
        read(known)
    told, every = listed(), list(mutants())
    same = sum(told.get(edit.label, ("", ""))[0] == known.sum_of(edit)[:DIGITS] for edit in every)
    print(f"{LISTED.relative_to(prover.TOP)}: {same} of {len(every)} mutants were refused over the files as they are")
    return 0


if __name__ == "__main__":
    sys.exit(main())
