#!/usr/bin/env python3
"""Talks with `airbook book` and `airbook plan` line by line: each answer has to come before the next line is sent.

Usage: tests/dialogue.py PROGRAM

Input and output are pipes, as of a program that asks a book and goes by its answer. A failing talk has a line; the last line is
'N passed, M failed'. The status is 0 where none failed, 1 where one did, 2 where there is no program.
"""
from __future__ import annotations

import functools
import os
import select
import subprocess
import sys
from typing import Optional, Sequence

sys.dont_write_bytecode = True
from lib.arguments import asked_by
from lib.trials import tell

SECONDS = 20
# What is sent, and what is awaited then.
Turn = tuple[str, str]
# The arguments of a talk, and its turns.
Talk = tuple[list[str], list[Turn]]

BOOK = "868100000 5 12"
# Of each talk the arguments, and what is sent and awaited in turn. A text that ends in no line feed is a part of a line.
TALKS: dict[str, Talk] = {
    "book": (["book"], [
        (f"book 1 10000000 {BOOK}\n", "ok 1 10000000 10041216\n"),
        (f"book 2 10041215 {BOOK}\n", "no 2 Taken 10000000\n"),
        ("tick 5\n", "floor 5\n"),
    ]),
    "two lines at once, and a part of a third": (["book"], [
        (f"book 1 0 {BOOK}\ntick 7\nbook 3 1000", "ok 1 0 41216\nfloor 7\n"),
        (f"000 {BOOK}\n", "ok 3 1000000 1041216\n"),
    ]),
    "a saved book, and lines behind it": (["book", "--resume"], [
        (f"airbook 2\ngateway 1 4096 0 0\nr 1 0 {BOOK}\nend 1\n", ""),
        (f"book 2 41215 {BOOK}\n", "no 2 Taken 0\n"),
    ]),
    "plan": (["plan"], [
        (f"book 1 10000000 {BOOK}\n", "ok 1 10000000 10041216\n"),
        ("plan\n", ""),
        ("tick 5\n", "bad 3 Syntax\n"),
    ]),
}


def heard(program: subprocess.Popen[bytes], wanted: str) -> str:
    """What the program writes next, once there is as much as is wanted, it has ended, or the time is over."""
    said = b""
    while len(said) < len(wanted) and select.select([program.stdout], [], [], SECONDS)[0]:
        piece = os.read(program.stdout.fileno(), 4096)
        if not piece:
            break
        said += piece
    return said.decode(errors="replace")


def fault_of(path: str, words: Sequence[str], turns: Sequence[Turn]) -> Optional[str]:
    """What went wrong in a talk; None where nothing did."""
    with subprocess.Popen([path, *words], stdin=subprocess.PIPE, stdout=subprocess.PIPE, bufsize=0) as program:
        try:
            for sent, wanted in turns:
                program.stdin.write(sent.encode())
                said = heard(program, wanted)
                if said != wanted:
                    return f"after {sent!r} it wrote {said!r}, and not {wanted!r}"
            rest, _ = program.communicate(timeout=SECONDS)
        finally:
            program.kill()
    return None if b"\nbooked " in b"\n" + rest else f"its report is {rest!r}"


def main() -> int:
    path, _ = asked_by(__doc__)
    return tell([(name, functools.partial(fault_of, path, *talk)) for name, talk in TALKS.items()])


if __name__ == "__main__":
    sys.exit(main())
