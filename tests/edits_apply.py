#!/usr/bin/env python3
"""Whether each edit of edits/ and mutants/ still changes what it names in the sources as they stand. Nothing is proved.

Usage: tests/edits_apply.py

A change of a source may take the line away that an edit turns, or double it. Those of mutants/ are tried before a release alone, so
they would be found late. Each that can't be applied has a line; the last line is 'N passed, M failed'. The status is 0 where none
failed, else 1.
"""
from __future__ import annotations

import pathlib
import sys
from typing import Optional

sys.dont_write_bytecode = True
import edit_files
import prover
from lib.trials import Tally

FOLDERS = ("edits", "mutants")


def fault_of(path: pathlib.Path) -> Optional[str]:
    """Why the edit in a file can't be applied, if that is so."""
    try:
        edit = edit_files.read(path)
        edit_files.applied([edit], prover.TOP / "crates" / edit.crate)
    except (edit_files.BadEdit, OSError, UnicodeDecodeError) as why:
        return f"{path.relative_to(prover.TOP)}: {why}"
    return None


def main() -> int:
    paths = [path for folder in FOLDERS for path in sorted((prover.TOP / folder).glob("*/*"))]
    tally = Tally()
    for fault in map(fault_of, paths):
        tally.take(not fault, fault or "")
    return tally.status()


if __name__ == "__main__":
    sys.exit(main())
