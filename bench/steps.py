#!/usr/bin/env python3
"""How many instructions each step of a booking takes in `airbook book`, and each of its cancelling, counted by valgrind.

Usage: bench/steps.py [PROGRAM]
       (PROGRAM: none is the one that the gate builds)

A booking between those that are kept, and its cancelling, some hundred times: what that adds to a run without them, by the function
that the instructions stand in, and by which function called which, with all that is done below. Where the compiler put a function
in place of its call, that is counted with what stands around it. Counts are the same whatever else the machine is doing. It needs
Linux and valgrind, and takes some minutes.
"""
from __future__ import annotations

import collections
import pathlib
import re
import shutil
import subprocess
import sys
import tempfile
from typing import Iterable, Iterator, NamedTuple

sys.dont_write_bytecode = True
from measured import CAP, STRIDE, arguments, between, book, kept, require, words_of

PAIRS = 500
MANY, FEW = CAP - 1, 1_024
# What a line of callgrind's file says: of which function, or which one is called, with a number for a name that comes again.
NAMED = re.compile(r"(c?fn)=\((\d+)\)(?: (.*))?$")
# What a name has of the compiler's: the sum of its types, and how deep it calls itself.
MADE = re.compile(r"(::<#\w+>|'\d+)+$")
# The function that answers one line after another, in which the compiler puts a booking's own call.
ROOT = "text_lines::answering::answer_rest"
LEAST_SHARE = 0.01

Counts = collections.Counter[str]
# Instructions of calls, by who calls and what is called.
Calls = collections.Counter[tuple[str, str]]


class Profile(NamedTuple):
    """Instructions within each function itself, and those of its calls."""

    own: Counts
    calls: Calls

    def less(self, other: Profile) -> Profile:
        """What this has more than another one."""
        own, calls = Counts(self.own), Calls(self.calls)
        own.subtract(other.own)
        calls.subtract(other.calls)
        return Profile(own, calls)


def read(lines: Iterable[str]) -> Profile:
    """What a file of callgrind's says, which has one kind of event."""
    own, calls, names = Counts(), Calls(), dict[str, str]()
    function, called, is_call = "", "", False
    for line in lines:
        found = NAMED.match(line)
        if found:
            name = names.setdefault(found[2], MADE.sub("", found[3] or ""))
            function, called = (name, called) if found[1] == "fn" else (function, name)
        elif line.startswith("calls="):
            is_call = True
        elif line[:1].isdigit() or line[:1] in "+-*":
            count = int(line.split()[-1])
            if is_call:
                calls[function, called] += count
            else:
                own[function] += count
            is_call = False
    return Profile(own, calls)


def profile(program: str, text: str, folder: pathlib.Path) -> Profile:
    """What a run of `book` over these lines takes."""
    out, given = folder / "callgrind.out", folder / "lines"
    given.write_text(text)
    words = words_of("book")
    valgrind = ["valgrind", "--tool=callgrind", f"--callgrind-out-file={out}", "--quiet"]
    with given.open() as stdin:
        ran = subprocess.run([*valgrind, program, *words], stdin=stdin, stdout=subprocess.DEVNULL, stderr=subprocess.PIPE, text=True)
    require(program, words, ran.returncode)
    with out.open() as lines:
        return read(lines)


def added(program: str, members: int, stride: int, folder: pathlib.Path) -> Profile:
    """What bookings beside so many members, each cancelled at once, add to a run without them."""
    numbered = enumerate(between(members, PAIRS, stride), members)
    pairs = "".join(book(number, start) + f"cancel {number} {start}\n" for number, start in numbered)
    before = kept(members)
    return profile(program, before + pairs, folder).less(profile(program, before, folder))


def tell_own(found: Profile) -> None:
    """Prints the functions in which most of the instructions stand."""
    whole = sum(found.own.values())
    print(f"\n| Function | Instructions | Of {whole / PAIRS:,.0f} |\n|---|---|---|")
    for name, count in found.own.most_common():
        if count >= LEAST_SHARE * whole:
            print(f"| `{name}` | {count / PAIRS:,.0f} | {count / whole:.1%} |")


def callers(found: Profile) -> dict[str, set[str]]:
    """Who calls each function, but for itself."""
    told: dict[str, set[str]] = {}
    for (caller, name), count in found.calls.items():
        if count and caller != name:
            told.setdefault(name, set()).add(caller)
    return told


def calls_of(found: Profile, caller: str, by: dict[str, set[str]], least: float, depth: int = 0) -> Iterator[str]:
    """What a function calls, with all that is done in it; and what that calls, if nobody else calls it."""
    called = [(count, name) for (one, name), count in found.calls.items() if one == caller != name and count >= least]
    for count, name in sorted(called, reverse=True):
        yield f"{'  ' * depth}- {count / PAIRS:,.0f} `{name}`"
        if by[name] == {caller}:
            yield from calls_of(found, name, by, least, depth + 1)


def tell(title: str, found: Profile) -> None:
    print(f"\n{title}")
    tell_own(found)
    by, least = callers(found), LEAST_SHARE * sum(found.own.values())
    shared = sorted(name for name, ones in by.items() if len(ones) > 1 and found.own[name] >= least)
    for name in [ROOT, *shared]:
        lines = list(calls_of(found, name, by, least))
        if lines:
            print(f"\nWithin `{name}`, whoever calls it:\n", *lines, sep="\n")


def main() -> int:
    program = arguments(__doc__).parse_args().program
    if shutil.which("valgrind") is None:
        print("steps.py: there is no command valgrind", file=sys.stderr)
        return 2
    with tempfile.TemporaryDirectory() as name:
        for members in FEW, MANY:
            for order, stride in (("in the order of time", 1), ("spread over all", STRIDE)):
                tell(f"A booking and its cancelling beside {members:,}, {order}.", added(program, members, stride, pathlib.Path(name)))
    return 0


if __name__ == "__main__":
    sys.exit(main())
