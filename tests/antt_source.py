"""Which definitions and lemmas a crate's .antt files have, and which of them rest on which, by reading the text."""
from __future__ import annotations

import pathlib
import re
from typing import Optional

# A definition begins at the start of a line: a record or data by its name, any other by its own name before ':' or '='.
HEAD = re.compile(r"^(?:(?:abbrev|unfoldable|pub|private|ghost) )*(?:(?:record|data|ruleset) )?([A-Za-z_][\w-]*)")
INNER = re.compile(r"^ +pub ([A-Za-z_][\w-]*) :")
WORD = re.compile(r"[A-Za-z_][\w-]*")
NO_DEFINITION = {"use", "mod", "module", "unfolding", "open", "syntax"}


def named(line: str) -> Optional[str]:
    """The name of the definition that a line begins or goes on with, if it stands at its start."""
    found = HEAD.match(line)
    return found[1] if found and found[1] not in NO_DEFINITION and not line.startswith("pub mod") else None


def definitions_in(text: str) -> dict[str, str]:
    """The definitions of a text: for each name the lines that say it; a lemma of a module with a premise has that premise too."""
    found: dict[str, list[str]]
    found, name, premise = {}, None, ""
    for line in text.splitlines():
        if line.startswith("--"):
            continue
        if line.startswith("module "):
            name, premise = None, line
            continue
        inner = INNER.match(line) if premise else None
        at_start = named(line)
        if at_start:
            name, premise = at_start, ""
        elif inner:
            name = inner[1]
            found.setdefault(name, []).append(premise)
        if name and not line.startswith("use "):
            found.setdefault(name, []).append(line)
    return {name: "\n".join(lines) for name, lines in found.items()}


def all_of(folder: pathlib.Path) -> dict[str, set[str]]:
    """For each name that a crate's specs/ or proofs/ define the names in what says it, wherever that stands."""
    found: dict[str, set[str]] = {}
    for part in ("specs", "proofs"):
        for path in pathlib.Path(folder, part).glob("*.antt"):
            for name, text in definitions_in(path.read_text(encoding="utf-8")).items():
                found.setdefault(name, set()).update(WORD.findall(text))
    return found


def rests_on(name: str, words_of: dict[str, set[str]]) -> set[str]:
    """A name, and all that it rests on, itself or through others: by name, so that it may be too many."""
    found, waiting = {name}, [name]
    while waiting:
        for word in words_of.get(waiting.pop(), ()):
            if word not in found:
                found.add(word)
                waiting.append(word)
    return found


def defined_at(text: str, old: str) -> Optional[str]:
    """The definition that holds a text which stands once; '' where that is an import or a comment, None where none does."""
    if old not in text:
        return None
    upto = text[: text.index(old) + 1].splitlines()
    whole = text.splitlines()[len(upto) - 1]
    if whole.startswith(("use ", "--")):
        return ""
    return next((found for found in map(named, [whole, *reversed(upto[:-1])]) if found), None)
