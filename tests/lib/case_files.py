"""Files of a case of cases/, of which tests/cases.py says what they are."""
from __future__ import annotations

import os
import pathlib
from typing import Sequence

from lib.places import TOP


def words_in(path: pathlib.Path) -> list[bytes]:
    return path.read_bytes().splitlines() if path.is_file() else []


def input_of(case: pathlib.Path, broken: Sequence[bytes], folder: pathlib.Path) -> int:
    """What the program reads, opened."""
    if b"input" in broken:
        return os.open(folder, os.O_RDONLY)
    named = words_in(case / "from")
    given = TOP / named[0].decode() if named else case / "stdin"
    return os.open(given if named or given.is_file() else os.devnull, os.O_RDONLY)
