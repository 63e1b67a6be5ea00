#!/usr/bin/env python3
"""Looks whether what README.md, CHANGELOG.md and docs/*.md name is there: each path in backticks or plain words, and each link.

Usage: tests/links.py [ROOT]      (ROOT: the repository's top; none: that of this script)

A path is a word with a slash that begins with a folder of the top, or one that ends in .md, .py, .sh, .txt, .toml, .rt, .antt or
.edit. A word with a slash is looked for at the top; one that begins with src, specs or proofs in the crate that the table's row
names, or else in any; one without a slash, as FORMATS.md, anywhere in the tree. `NAME` and `*` stand for any text. Passed over
are what the build makes (crates/*/out), and code that is set off by four blanks. Prints a line for each path that isn't there;
the last line is 'N passed, M failed'. The status is 0 where none failed, 1 where one did.
"""
from __future__ import annotations

import pathlib
import re
import sys
from typing import Iterator, Optional

sys.dont_write_bytecode = True
from lib.trials import Tally

TOP = pathlib.Path(sys.argv[1] if len(sys.argv) > 1 else pathlib.Path(__file__).resolve().parent.parent)
FOLDERS = {"bench", "cases", "crates", "docs", "edits", "examples", "mutants", "tests", ".ci"}
ENDS = r"\.(?:md|py|sh|txt|toml|rt|antt|edit)"
WORD = re.compile(rf"(?<![\w./<@:-])([\w.*-]+(?:/[\w.*-]+)+/?|[\w*-]+{ENDS})(?![\w/])")
# What an operator or a builder makes, and what stands in other repositories.
OTHERS = {"book.txt", "book.new", "lines.txt", "out.txt", "settings.toml", "proofs/main/Invariants.antt"}
PARTS = {"src", "specs", "proofs"}


def is_there(word: str, crate: Optional[str], names: set[str]) -> bool:
    word = word.rstrip("/.")
    if "/" not in word:
        return word in names
    if word.split("/")[0] in PARTS:
        word = f"crates/{crate or '*'}/{word}"
    return any(True for _ in TOP.glob(re.sub(r"\bNAME\b|(?<=_)NAME\b", "*", word)))


def crate_of(line: str, last: Optional[str]) -> Optional[str]:
    """The crate that a row of a table names; that of the row before where its first part is empty."""
    if not line.startswith("|"):
        return None
    first = line.split("|")[1].strip()
    if not first:
        return last
    named = re.match(r"`(\w+)`$", first)
    return named[1] if named and (TOP / "crates" / named[1]).is_dir() else None


def paths(text: str) -> Iterator[tuple[int, str, Optional[str]]]:
    """The line, the word and the crate of each path that is named."""
    crate = None
    for number, line in enumerate(text.splitlines(), 1):
        crate = crate_of(line, crate)
        if line.startswith("    "):
            continue
        for word in WORD.findall(line):
            known = word.split("/")[0] in FOLDERS | PARTS if "/" in word else re.search(rf"{ENDS}$", word)
            if known and word not in OTHERS and "/out/" not in word:
                yield number, word, crate


def main() -> int:
    names = {path.name for path in TOP.rglob("*") if ".git" not in path.parts}
    tally = Tally()
    for page in [TOP / "README.md", TOP / "CHANGELOG.md", *sorted((TOP / "docs").glob("*.md"))]:
        for number, word, crate in paths(page.read_text(encoding="utf-8")):
            tally.take(is_there(word, crate, names), f"{page.relative_to(TOP)}:{number}: there is no {word}")
    return tally.status()


if __name__ == "__main__":
    sys.exit(main())
