#!/usr/bin/env python3
"""What a booking costs in `airbook book`, by how many transmissions are kept.

Usage: bench/books.py [PROGRAM] [--other PATH]
       (PROGRAM: none is the one that the gate builds; PATH: a second one, as one that was built on another roster)

Printed are processor time, what a member takes of allocated memory, and ratios of this run. Places come in the order of time, as
those of a server's answers do, and spread over all that is kept. With a second program it also tells how much faster the first one
is. Where there is a rustc, the program is also compared with a plain ordered map of Rust's standard library (map.rs.txt), which
looks at each hour as a book does, and at none; the first of them has to answer alike. It needs Linux.
"""
from __future__ import annotations

import pathlib
import shutil
import subprocess
import sys
import tempfile
from typing import Sequence

sys.dont_write_bytecode = True
from measured import CAP, STRIDE, TOP, added, answers, arguments, between, book, kept, memory, seconds

RUNS, PAIRS, LINES = 5, 100_000, 100_000
FEW, MANY = 1_024, CAP - 1              # one less than a book takes, so that each of the pairs finds room
ORDERS = {"in the order of time": 1, "spread over all": STRIDE}


def pairs(members: int, stride: int) -> str:
    """Bookings between the members that are kept, each cancelled at once."""
    numbered = enumerate(between(members, PAIRS, stride), members)
    return "".join(book(number, start) + f"cancel {number} {start}\n" for number, start in numbered)


def pair(path: str, members: int, stride: int, more: Sequence[str]) -> float:
    """What one booking and its cancelling cost in microseconds, beside this many members."""
    return added(path, kept(members), pairs(members, stride), RUNS, more) / PAIRS * 1e6


def tell(name: str, path: str, more: Sequence[str] = ()) -> dict[str, float]:
    """Prints what the program's bookings cost, by how many are kept; the cost beside many, by the order of their places."""
    beside = {}
    for order, stride in ORDERS.items():
        few, many = pair(path, FEW, stride, more), pair(path, MANY, stride, more)
        took = f"{few:.2f} us beside {FEW:,}, {many:.2f} us beside {MANY:,}, {many / few:.2f}"
        print(f"{name}, {order}: a booking and its cancelling {took}")
        beside[order] = many
    return beside


def compare(many: dict[str, float], name: str, path: str, more: Sequence[str] = ()) -> None:
    for order, theirs in tell(name, path, more).items():
        print(f"beside {MANY:,}, {order}, the program takes {many[order] / theirs:.2f} of that time")


def tell_members(program: str) -> None:
    """Prints what it costs to book as many as a book takes, and the memory of each."""
    rising = seconds(program, [kept(CAP)], RUNS) - seconds(program, [], RUNS)
    each = (memory(program, [kept(CAP)], "RssAnon") - memory(program, [], "RssAnon")) * 1024 / CAP
    print(f"{CAP:,} rising bookings: {rising * 1000:.0f} ms, {each:.0f} bytes a member")


def compare_with_map(many: dict[str, float], program: str) -> None:
    """Compares the program with the plain map, which is compiled for it."""
    with tempfile.TemporaryDirectory() as folder:
        plain_map, source = str(pathlib.Path(folder, "map")), TOP / "bench/map.rs.txt"
        if subprocess.run(["rustc", "--crate-name", "map", "-O", "-o", plain_map, source]).returncode:
            raise SystemExit(f"rustc does not compile {source}")
        lines = kept(FEW) + pairs(FEW, STRIDE)
        ours, theirs = (answers(path, lines).splitlines()[:lines.count("\n")] for path in (program, plain_map))
        if ours != theirs:
            raise SystemExit("the map answers otherwise")
        compare(many, "a plain ordered map", plain_map)
        compare(many, "a plain ordered map that looks at no hour", plain_map, ["--no-hours"])


def tell_lines(program: str, other: str | None) -> None:
    """Prints what a long input costs in each of two orders, of which a book keeps what it takes."""
    for order, stride in (("rising", 1), ("another", STRIDE)):
        ours = seconds(program, [kept(LINES, stride)], RUNS)
        print(f"{LINES:,} lines in {order} order, 600 in each hour, {CAP:,} kept: {ours:.2f} s")
        if other:
            theirs = seconds(other, [kept(LINES, stride)], RUNS)
            print(f"the other: {theirs:.2f} s, {theirs / ours:.2f} times as long")


def main() -> int:
    asked = arguments(__doc__, takes_other=True).parse_args()
    many = tell("the program", asked.program)
    tell_members(asked.program)
    if shutil.which("rustc"):
        compare_with_map(many, asked.program)
    if asked.other:
        compare(many, "the other", asked.other)
    tell_lines(asked.program, asked.other)
    return 0


if __name__ == "__main__":
    sys.exit(main())
