"""Edits: wrong changes of a crate's files, which the prover has to refuse.

An edit is a file NAME.edit in a folder that has its crate's name, with lines
    only: FUNCTION       the function that has to be refused, as the prover writes it behind the crate's name
    fact: FILE NAME      for a change of a statement: the lemma NAME of proofs/FILE.antt that has to be refused. The file is read
                         with the proof of FUNCTION, which need not be refused
    law: NAME            the law whose statement is changed, where it isn't FUNCTION
    file: PATH           a file of the crate, below src/, specs/ or proofs/
    old: TEXT            what stands there once, in one line
    new: TEXT            what takes its place, in one line; further pairs apply to what the earlier ones made
A line of another kind is an error: a misspelt one would change what is tried.
"""
from __future__ import annotations

import dataclasses
import pathlib
import re
from typing import Iterable

from prover import PARTS


class BadEdit(Exception):
    """Why an edit can't be tried."""


@dataclasses.dataclass(frozen=True)
class Edit:
    crate: str
    name: str
    only: str
    fact: tuple[str, str] | None
    law: str
    pairs: tuple[tuple[str, str, str], ...]

    @property
    def label(self) -> str:
        return f"{self.crate}/{self.name}"

    def files(self) -> set[str]:
        return {path for path, _, _ in self.pairs}


def read(path: pathlib.Path) -> Edit:
    """The edit that a file holds."""
    only, fact, law, file, old, pairs = None, None, None, None, None, []
    for number, line in enumerate(path.read_text(encoding="utf-8").splitlines(), 1):
        kind, _, text = line.partition(":")
        text = text[1:] if text.startswith(" ") else text
        if kind == "only":
            only = text.strip()
        elif kind == "fact":
            fact = fact_of(text, number)
        elif kind == "law":
            law = text.strip()
        elif kind == "file":
            file = file_of(text.strip(), number)
        elif kind == "old":
            old = text
        elif kind == "new":
            if file is None or not old:
                raise BadEdit(f"line {number}: a 'new:' stands before a 'file:' or an 'old:'")
            pairs.append((file, old, text))
            old = None
        elif line.strip():
            raise BadEdit(f"line {number} begins with none of only:, fact:, law:, file:, old:, new:")
    if not only:
        raise BadEdit("no line 'only:' names the function that has to be refused")
    if not pairs:
        raise BadEdit("it has no 'old:' with a 'new:'")
    return Edit(path.parent.name, path.stem, only, fact, law or only.rsplit("::", 1)[-1], tuple(pairs))


def fact_of(text: str, number: int) -> tuple[str, str]:
    words = text.split()
    if len(words) != 2:
        raise BadEdit(f"line {number}: 'fact:' wants the name of a file of proofs/ and that of a lemma")
    return words[0], words[1]


def file_of(text: str, number: int) -> str:
    if not re.fullmatch(rf"({'|'.join(PARTS)})(/[\w+.-]+)+", text) or ".." in text.split("/"):
        raise BadEdit(f"line {number}: {text} is no file below src/, specs/ or proofs/")
    return text


def applied(edits: Iterable[Edit], folder: pathlib.Path) -> dict[str, str]:
    """The texts of the files of a crate that these edits change, by their paths in it."""
    texts: dict[str, str] = {}
    for edit in edits:
        before = dict(texts)
        for path, old, new in edit.pairs:
            if path not in texts:
                texts[path] = text_of(folder, path)
            found = texts[path].count(old)
            if found != 1:
                raise BadEdit(f"'{old.strip()[:60]}' stands {found} times in {path}, and not once")
            texts[path] = texts[path].replace(old, new)
        if all(texts[path] == before.get(path, text_of(folder, path)) for path in edit.files()):
            raise BadEdit("it changes nothing")
    return texts


def text_of(folder: pathlib.Path, path: str) -> str:
    try:
        return pathlib.Path(folder, path).read_text(encoding="utf-8")
    except OSError as fault:
        raise BadEdit(f"there is no file {path}: {fault.strerror}") from fault
