#!/usr/bin/env python3
"""What a book costs that is told the time.

Usage: bench/ticks.py [PROGRAM]      (none: the one that the gate builds)

Printed are the peak memory of `airbook book` over 100,000 and 1,000,000 bookings, with a tick before each; and what a tick costs
that retires nothing, beside few and beside many members, in processor time. Ratios are of this run. It needs Linux.
"""
from __future__ import annotations

import sys
from typing import Iterator

sys.dont_write_bytecode = True
from measured import CAP, STEP, added, arguments, book, kept, memory

FEW, MANY, TICKS = 1_024, CAP, 200_000


def ticked(bookings: int) -> Iterator[str]:
    """So many bookings, each at the moment that a tick has just told."""
    for number in range(bookings):
        yield f"tick {number * STEP}\n"
        yield book(number, number * STEP)


def tick(program: str, members: int) -> float:
    """What one tick costs in microseconds beside this many members, by the least of three runs."""
    return min(added(program, kept(members), "tick 1\n" * TICKS, 1) for _ in range(3)) / TICKS * 1e6


def main() -> int:
    program = arguments(__doc__).parse_args().program
    few, many = memory(program, ticked(100_000)), memory(program, ticked(1_000_000))
    print(f"peak memory: 100,000 bookings {few} KiB, 1,000,000 bookings {many} KiB ({many / few:.2f})")
    few, many = tick(program, FEW), tick(program, MANY)
    print(f"a tick that retires nothing: {few:.2f} us beside {FEW:,} kept, {many:.2f} us beside {MANY:,} ({many / few:.2f})")
    return 0


if __name__ == "__main__":
    sys.exit(main())
