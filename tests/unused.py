#!/usr/bin/env python3
"""Finds definitions and lemmas that nothing uses, and lemmas of specs/ that could stand in proofs/.

Usage: tests/unused.py [ROOT]      (ROOT: the repository's top; none: that of this script)

Prints a line for each item of a .antt file below crates/ whose name stands nowhere else in the sources, specs and proofs than
in the item itself, and for each item of a crate's specs/ that only that crate's proofs/ name. Names are compared as text, so a
name that stands for two things counts as used where either is. A record's fields are a part of it. Answers, invariants and
proofs of functions, whose names the checker fixes, are left out, and so are proofs/**/*Worked*.antt, the crate worked_laws and
StandardFacts.antt, whose lemmas are worked examples and what a standard says in numbers. The status is 0 where nothing is found,
1 where something is, 2 where there are no crates.
"""
from __future__ import annotations

import collections
import pathlib
import re
import sys
from typing import Iterator

TOP = pathlib.Path(sys.argv[1] if len(sys.argv) > 1 else pathlib.Path(__file__).resolve().parent.parent)
FIXED = {"Answers.antt", "Invariants.antt", "Proof.antt", "Lib.antt"}
FACTS = re.compile(r".*/(worked_laws/.*|[^/]*Worked[^/]*|StandardFacts\.antt)")
NAME = re.compile(r"[^\s(){},.;:⟦⟧\[\]]+")
SIGNED = re.compile(r"( *)(?:(?:pub|abbrev|unfoldable|opaque) )*([^\s(){},.;:]+)(?: (?:\{[^}]*\}|\([^()]*\)))* :(?:\s|$)")
MADE = re.compile(r"( *)(?:(?:pub|abbrev) )*(data|record|ruleset) ([^\s(){},.;:]+)")


def read(path: pathlib.Path) -> str:
    return re.sub(r"(?m)(//|--).*$", "", path.read_text())


def items_of(text: str) -> Iterator[tuple[str, int]]:
    """Each item at the top of a file or right in one of its modules: its name, and how often it names itself."""
    lines, starts, fields = text.splitlines(), [], None
    depths = {0} | {len(indent) + 2 for indent in re.findall(r"(?m)^( *)module ", text)}
    for place, line in enumerate(lines):
        if fields is not None and line.startswith(fields):
            continue
        fields = None
        if made := MADE.match(line):
            starts.append((place, made[3]))
            fields = made[1] + " " if made[2] == "record" else None
        elif (found := SIGNED.match(line)) and len(found[1]) in depths and found[2] not in ("use", "module", "let", "unfolding"):
            starts.append((place, found[2]))
    for (start, name), (end, _) in zip(starts, starts[1:] + [(len(lines), "")]):
        own = collections.Counter(NAME.findall("\n".join(lines[start:end])))
        yield name, own[name]


def main() -> int:
    texts = {path: read(path) for kind in ("rt", "antt") for path in sorted((TOP / "crates").glob(f"*/*/**/*.{kind}"))}
    texts = {path: text for path, text in texts.items() if path.relative_to(TOP).parts[2] in ("src", "specs", "proofs")}
    if not texts:
        print(f"unused.py: no crates in {TOP}", file=sys.stderr)
        return 2
    words = {path: collections.Counter(NAME.findall(text)) for path, text in texts.items()}
    everywhere: collections.Counter[str] = sum(words.values(), collections.Counter())
    in_proofs: collections.Counter[tuple[str, str]] = collections.Counter()
    for path, counted in words.items():
        _, crate, part, *_ = path.relative_to(TOP).parts
        if part == "proofs":
            in_proofs.update({(crate, name): count for name, count in counted.items()})
    found = []
    for path, text in texts.items():
        _, crate, part, *_ = path.relative_to(TOP).parts
        if path.suffix != ".antt" or path.name in FIXED or FACTS.fullmatch(path.as_posix()):
            continue
        for name, own in items_of(text):
            others = everywhere[name] - own
            if others <= 0:
                found.append(f"{path.relative_to(TOP)}: nothing uses {name}")
            elif part == "specs" and others == in_proofs[crate, name]:
                found.append(f"{path.relative_to(TOP)}: only proofs/ of {crate} use {name}")
    print("\n".join(found))
    print(f"{len(found)} found")
    return 1 if found else 0


if __name__ == "__main__":
    sys.exit(main())
