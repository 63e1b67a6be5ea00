#!/usr/bin/env python3
"""Compares docs/BUILDING.md with its two programs, that of a book and that of a station, which the gate proves and runs.

Usage: tests/examples.py

The program behind "is `src/main.rt`" is that of crates/example_book. What stands behind "It writes:" is what the gate wants of
that crate. The lines of crates.txt that the page shows are what the book's program needs, and no more. Of the station's program,
crates/example_station, the page shows what it writes and its file of the proof. Prints what differs; the last line is 'N passed,
M failed'. The status is 0 where none failed, else 1.
"""
from __future__ import annotations

import difflib
import re
import sys
from typing import Iterator

sys.dont_write_bytecode = True
import prover
from lib.trials import Tally

PAGE = prover.TOP / "docs" / "BUILDING.md"
BOOK, STATION = "example_book", "example_station"


def code_behind(text: str, words: str) -> str:
    """The first lines behind these words that are set off by four blanks."""
    block = re.search(r"\n\n((?:    .*\n|\n(?=    ))+)", text[text.index(words):])[1]
    return "".join(line[4:] if line.strip() else line for line in block.splitlines(keepends=True)).rstrip("\n") + "\n"


def wanted_lines() -> str:
    """The lines of crates.txt for the book's program and the crates below it, in the order of that file."""
    named = set(prover.below([BOOK], prover.crates()))
    lines = (prover.TOP / "crates.txt").read_text().splitlines(keepends=True)
    return "".join(line for line in lines if line.split(":")[0] in named)


def pairs() -> Iterator[tuple[str, str, str]]:
    """What is compared: a name, the page's text, and the file's."""
    whole = PAGE.read_text(encoding="utf-8")
    book, station = whole[whole.index("## A book alone"):].split("## A station with workers")
    crates = prover.TOP / "crates"
    yield "the book's program", code_behind(book, "is `src/main.rt`"), (crates / BOOK / "src/main.rt").read_text()
    yield "what it writes", code_behind(book, "It writes:"), (crates / BOOK / "stdout").read_text()
    yield "what the station writes", code_behind(station, "It writes:"), (crates / STATION / "stdout").read_text()
    proof = crates / STATION / "proofs/main/Invariants.antt"
    yield "the file that picks the ledger", code_behind(station, "The file that picks the ledger:"), proof.read_text()
    yield "lines of crates.txt", code_behind(whole, "these are the lines of `crates.txt`"), wanted_lines()


def main() -> int:
    if len(sys.argv) > 1:
        print(__doc__.strip(), file=sys.stderr)
        return 2
    tally = Tally()
    try:
        for name, shown, wanted in pairs():
            lines = shown.splitlines(), wanted.splitlines()
            differing = difflib.unified_diff(*lines, f"{name}: the page", "the crate", lineterm="")
            tally.take(shown == wanted, "\n".join(differing))
    except (OSError, ValueError, TypeError) as why:
        tally.take(False, f"examples.py: docs/BUILDING.md or a program of it can't be read: {why}")
    return tally.status()


if __name__ == "__main__":
    sys.exit(main())
