#!/usr/bin/env python3
"""Compares what two states of this repository promise: the clauses of all public functions, and the definitions of specs/.

Usage: tests/clauses.py OLD [NEW]      (OLD, NEW: commits; no NEW: the working tree)

A clause is a `requires`, an `ensures`, a ghost member of a trait or type, or an invariant; it is compared by the function or
type that it belongs to, by its name and by its text, without regard to the crate and the file that it stands in and to how its
lines are laid out. A definition of specs/ is compared in the same way. Prints a line for each that only OLD has ('-') and each
that only NEW has ('+'). The status is 0 where no clause differs, 1 where one does, 2 where there is no such commit; definitions,
among them the lemmas of specs/, don't change it.
"""
from __future__ import annotations

import collections
import pathlib
import re
import subprocess
import sys
from typing import Iterator, Optional

TOP = pathlib.Path(__file__).resolve().parent.parent
# How often each clause or definition stands in the sources.
Counts = collections.Counter[str]


def git(*words: str) -> str:
    return subprocess.run(["git", "-C", TOP, *words], stdout=subprocess.PIPE, text=True, check=True).stdout


def texts_of(commit: Optional[str]) -> dict[str, str]:
    """Each source and each file of specs/, by its path."""
    def is_read(path: str) -> object:
        return re.fullmatch(r"crates/\w+/(src/.*\.rt|specs/.*\.antt)", path) and not re.search(r"tests", path)

    if commit is None:
        paths = git("ls-files", "-co", "--exclude-standard", "crates").split("\n")
        return {path: (TOP / path).read_text() for path in paths if is_read(path) and (TOP / path).is_file()}
    paths = git("ls-tree", "-r", "--name-only", commit, "crates").split("\n")
    return {path: git("show", f"{commit}:{path}") for path in paths if is_read(path)}


def plain(text: str) -> str:
    """The text with its layout folded."""
    return re.sub(r"[;,]? ([})])", r" \1", re.sub(r"\s+", " ", text)).strip()


def after_braces(text: str, at: int) -> int:
    """The place behind the brace that closes the one at `at`."""
    depth = 0
    for place in range(at, len(text)):
        depth += {"{": 1, "}": -1}.get(text[place], 0)
        if depth == 0:
            return place + 1
    return len(text)


def clauses_behind(text: str, at: int) -> list[str]:
    """The signature of the function that begins at `at`, and its clauses."""
    found: list[str]
    found, place = [], at
    while True:
        opened = re.compile(r"[{;]").search(text, place)
        if opened is None or text[opened.start()] == ";":
            return found
        head = text[place:opened.start()]
        clause = re.search(r"\b(requires|ensures)(\*?)( \w+)?\s*\Z", head)
        if clause is None:
            return found
        place = after_braces(text, opened.start())
        found.append(f"{clause[1]}{clause[2]}{clause[3] or ''} {plain(text[opened.start():place])}")


def without_comments(text: str) -> str:
    return re.sub(r"//[^\n]*", "", text)


def clauses_of(text: str) -> Iterator[str]:
    """Each clause of a source, with what it belongs to."""
    text, owner = without_comments(text), ""
    for line in re.finditer(r"(?m)^([ \t]*)(.*)$", text):
        head = line[2]
        owned = re.match(r"(?:pub(?:\(\w+\))? )?(?:unsafe )?(impl|trait|struct|enum)\b(.*?)\s*(?:\{|;|where|\Z)", head)
        if owned and not line[1]:
            owner = plain(owned[1] + owned[2])
        ghost = re.match(r"ghost (?!use\b)(\w+)", head)
        if ghost:
            opened = text.find("{", line.start(2))
            yield f"{owner} ghost {ghost[1]} {plain(text[opened:after_braces(text, opened)])}"
        named = re.match(r"(pub )?(?:const )?fn (\w+)", head)
        is_met = owner.startswith("trait") or re.match(r"impl.* for ", owner)
        if named and (named[1] or line[1] and is_met):
            place = f"{owner} " if line[1] else ""
            yield from (f"{place}fn {named[2]} {clause}" for clause in clauses_behind(text, line.start(2)))


def definitions_of(text: str) -> Iterator[str]:
    """Each top item of a file of specs/."""
    text = re.sub(r"(?m)--.*$", "", text)
    for item in re.split(r"(?m)^(?=\S)", text):
        if not item.strip() or re.match(r"(pub )?(use|mod)\b", item):
            continue
        yield plain(item)


def listed(texts: dict[str, str]) -> tuple[Counts, Counts]:
    clauses: Counts
    definitions: Counts
    clauses, definitions = collections.Counter(), collections.Counter()
    for path, text in texts.items():
        if path.endswith(".rt"):
            clauses.update(clauses_of(text))
        else:
            definitions.update(definitions_of(text))
    return clauses, definitions


def told(title: str, old: Counts, new: Counts) -> bool:
    gone, come = old - new, new - old
    print(f"{title}: {sum(old.values())} before, {sum(new.values())} now, {sum(gone.values())} gone, {sum(come.values())} new")
    for sign, lines in (("-", gone), ("+", come)):
        for line in sorted(lines.elements()):
            print(sign, line)
    return bool(gone or come)


def main() -> int:
    if len(sys.argv) not in (2, 3):
        print(__doc__.strip(), file=sys.stderr)
        return 2
    try:
        old, new = listed(texts_of(sys.argv[1])), listed(texts_of(sys.argv[2] if len(sys.argv) == 3 else None))
    except subprocess.CalledProcessError:
        return 2
    differs = told("clauses", old[0], new[0])
    told("definitions", old[1], new[1])
    return 1 if differs else 0


if __name__ == "__main__":
    sys.exit(main())
