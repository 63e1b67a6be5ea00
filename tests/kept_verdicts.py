"""What earlier runs on this machine said of edits that the prover refused, so that the same edit needn't be tried again.

Each has a file in airbook-edits, in the user's folder of such files (XDG_CACHE_HOME, else ~/.cache). It holds a sum of all that
the verdict rests on, which is the edit, the files that the proof of its crate rests on, the toolchain, and the scripts that try
edits; and the goal that stayed open. Where one of them has changed, the edit is tried. Only a refusal is kept.
"""
from __future__ import annotations

import functools
import hashlib
import os
import pathlib
from typing import Optional

import prover
from edit_files import Edit
from edit_verdicts import Kind, Verdict

SCRIPTS = ("antt_source.py", "edit_files.py", "edit_verdicts.py", "edits.py", "kept_verdicts.py", "prover.py", "rattle_source.py")


def cache_folder() -> pathlib.Path:
    return pathlib.Path(os.environ.get("XDG_CACHE_HOME") or pathlib.Path.home() / ".cache") / "airbook-edits"


@functools.lru_cache(maxsize=None)
def sum_of_scripts() -> str:
    found = hashlib.sha256()
    for name in SCRIPTS:
        found.update((prover.TOP / "tests" / name).read_bytes())
    return found.hexdigest()


class KeptVerdicts:
    """The refusals that are kept in a folder, each by the crate and the name of its edit."""

    def __init__(self, folder: pathlib.Path, is_read: bool = True):
        self.folder, self.is_read = folder, is_read
        self.sum_of_crate = functools.lru_cache(maxsize=None)(prover.sum_of)

    def sum_of(self, edit: Edit) -> str:
        rests_on = self.sum_of_crate(edit.crate), sum_of_scripts(), edit
        return hashlib.sha256(repr(rests_on).encode()).hexdigest()

    def place_of(self, edit: Edit) -> pathlib.Path:
        return self.folder / f"{edit.label}.txt"

    def of(self, edit: Edit) -> Optional[Verdict]:
        """What an earlier run said of just this edit, if it was refused and such verdicts are read."""
        if not self.is_read:
            return None
        try:
            known, _, goal = self.place_of(edit).read_text(encoding="utf-8").partition("\n")
        except (OSError, UnicodeDecodeError):
            return None
        return Verdict(Kind.REFUSED, goal) if known == self.sum_of(edit) else None

    def keep(self, edit: Edit, verdict: Verdict) -> None:
        """Keeps a refusal; where the folder can't be written, the edit is tried again by the next run."""
        if verdict.kind is not Kind.REFUSED:
            return
        place = self.place_of(edit)
        try:
            place.parent.mkdir(parents=True, exist_ok=True)
            place.write_text(f"{self.sum_of(edit)}\n{verdict.goal}", encoding="utf-8")
        except OSError:
            pass
