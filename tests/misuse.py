#!/usr/bin/env python3
"""Tries what must not compile, each in a crate of its own outside the repository, over the libraries that the gate built.

Usage: misuse.py [NAME ..]      (NAME: a file of tests/misuse without its end; none: all of them)

A file tests/misuse/NAME.txt has lines
    uses:    the libraries that its crate names
    wants:   an error that the compiler has to give; any number of such lines, at least one
    source:  and below it the crate's one source file

The compiler has to give each error that is wanted, and no other; nothing is proved. The last line is 'N passed, M failed'; the
status is 0 where none failed, 1 where one did, 2 where nothing could be run.
"""
from __future__ import annotations

import functools
import pathlib
import re
import subprocess
import sys
import tempfile
from typing import Sequence

sys.dont_write_bytecode = True
import prover
from lib.trials import tell

FILES = prover.TOP / "tests" / "misuse"
SECONDS = 120
CRATE = "misuse"


def parts_of(path: pathlib.Path) -> tuple[list[str], list[str], str]:
    """The libraries, the errors that are wanted, and the source."""
    head, source = path.read_text().split("source:\n", 1)
    named = [line.split(": ", 1) for line in head.splitlines()]
    uses = [word for name, text in named if name == "uses" for word in text.split()]
    return uses, [text for name, text in named if name == "wants"], source


def errors_of(uses: Sequence[str], source: str) -> list[str]:
    """The errors that the compiler gives of a crate with this source."""
    with tempfile.TemporaryDirectory(prefix="misuse-") as room:
        root = pathlib.Path(room, "src", "lib.rt")
        root.parent.mkdir()
        root.write_text(source)
        # No function is asked for, so that the check ends where its proofs would begin.
        words = [*prover.check(CRATE, "src/lib.rt", uses), "--only", ""]
        ran = subprocess.run(
            words, cwd=room, stdout=subprocess.PIPE, stderr=subprocess.STDOUT, text=True, timeout=SECONDS
        )
    return [line for line in ran.stdout.splitlines() if re.search(r"\berror(\[|:)", line)]


def faults_of(path: pathlib.Path) -> list[str]:
    uses, wants, source = parts_of(path)
    if not wants:
        return ["the file wants no error"]
    try:
        errors = errors_of(uses, source)
    except subprocess.TimeoutExpired:
        return ["the compiler refused nothing"]
    missing = [f"wanted: {want}" for want in wants if not any(want in error for error in errors)]
    others = [f"given: {error}" for error in errors if not any(want in error for want in wants)]
    return missing + others


def main() -> int:
    names = sys.argv[1:] or sorted(path.stem for path in FILES.glob("*.txt"))
    missing = [name for name in names if not (FILES / f"{name}.txt").is_file()]
    if missing or not names:
        print(f"misuse.py: no file {' '.join(missing) or '*'} in {FILES}", file=sys.stderr)
        return 2
    return tell([(name, functools.partial(faults_of, FILES / f"{name}.txt")) for name in names])


if __name__ == "__main__":
    sys.exit(main())
