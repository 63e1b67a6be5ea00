"""The arguments of scripts that run the program: its path, and some numbers."""
from __future__ import annotations

import os
import pathlib
import sys
from typing import Optional, Sequence

from lib.places import PROGRAM


def asked_by(usage: str, *usual: int) -> tuple[str, list[int]]:
    """The program that the script was given, and the numbers behind it, each as usual where it isn't given.

    Where there is no such program, or more is given, the usage is printed, and the script ends with status 2."""
    program, *numbers = sys.argv[1:] or [""]
    if not os.path.isfile(program) or not os.access(program, os.X_OK) or len(numbers) > len(usual):
        print(usage.strip(), file=sys.stderr)
        raise SystemExit(2)
    return str(pathlib.Path(program).resolve()), [*map(int, numbers), *usual[len(numbers):]]


def asked_for(words: Sequence[str], count: int) -> Optional[tuple[str, int, int]]:
    """The program, how many, and the seed that the words name; none where there is no such program."""
    program = words[0] if words else str(PROGRAM)
    if pathlib.Path(program).is_file():
        return program, int(words[1]) if len(words) > 1 else count, int(words[2]) if len(words) > 2 else 1
    print(f"no program {program}: run make test, or name one", file=sys.stderr)
    return None
