#!/usr/bin/env python3
"""What `airbook book` costs in full hours of sub-band P.

Usage: bench/hours.py [PROGRAM] [--other PATH]
       (PROGRAM: none is the one that the gate builds; PATH: a second one, as one that was built on another roster)

Printed are processor time and ratios of this run, and what a member takes of allocated memory; with a second program also how much
faster the first one is. It needs Linux.
"""
from __future__ import annotations

import sys
from typing import Iterable

sys.dont_write_bytecode = True
from measured import STRIDE, added, arguments, memory, seconds

HOUR, HOURS, RUNS, PAIRS, LINES = 3_600_000_000, 4, 5, 20_000, 200_000
# 2,793,472, 288,768 and 20,608 us on air, of 360 s that an hour may have
LONG, MIDDLE, SHORT = "869525000 0 64", "869525000 2 12", "869525000 6 12"
OTHER_PAIRS = 500           # of the second program, which may walk over a whole hour for each


def books(starts: Iterable[int], what: str = SHORT) -> str:
    return "".join(f"book {number} {start} {what}\n" for number, start in enumerate(starts))


def spread(in_hour: int, members: int) -> list[int]:
    return [place * HOUR // in_hour for place in range(members)]


def between(in_hour: int, places: int) -> list[int]:
    """As many places between the members of four hours, spread over all of them."""
    return [(place * STRIDE % (in_hour * HOURS)) * HOUR // in_hour + HOUR // in_hour - 30_000 for place in range(places)]


def pair(path: str, in_hour: int, what: str, count: int = PAIRS) -> float:
    """What one booking and its cancelling cost in microseconds, with so many of the band in each of four hours."""
    numbered = enumerate(between(in_hour, count))
    pairs = "".join(f"book {number} {start} {SHORT}\ncancel {number} {start}\n" for number, start in numbered)
    return added(path, books(spread(in_hour, in_hour * HOURS - 1), what), pairs, RUNS) / count * 1e6


def lines(in_hour: int) -> str:
    """Bookings at so many an hour, and now and then a tick, so that no more than three hours are kept."""
    numbered = enumerate(spread(in_hour, LINES))
    return "".join(f"tick {start}\n" * (number % 5_000 == 0) + f"book {number} {start} {SHORT}\n" for number, start in numbered)


def tell_pairs(program: str, other: str | None) -> None:
    """Prints what a booking and its cancelling cost, by how many are in the hour."""
    few, many = pair(program, 128, LONG), pair(program, 16_384, SHORT)
    took = f"{few:.2f} us with 128 in the hour, {many:.2f} us with 16,384 ({many / few:.2f})"
    print(f"the program: a booking and its cancelling {took}")
    if other:
        ours, theirs = pair(program, 1_024, MIDDLE), pair(other, 1_024, MIDDLE, OTHER_PAIRS)
        print(f"with 1,024 in the hour {ours:.2f} us, the other {theirs:.2f} us, {theirs / ours:.0f} times as long")


def tell_lines(program: str) -> None:
    """Prints what bookings cost in hours that are nearly full, beside others."""
    full, empty = (seconds(program, [lines(in_hour)], RUNS) for in_hour in (15_722, 600))
    ratio = f"{empty / full:.2f} of the lines a second"
    print(f"{LINES:,} lines: {full:.2f} s in hours nine tenths full, {empty:.2f} s at 600 an hour: {ratio}")


def tell_cancels(program: str) -> None:
    """Prints what a cancel costs in full hours, beside a booking."""
    kept, places = books(spread(12_288, 49_152)), between(12_288, 16_000)
    more, taken = books(places), "".join(f"cancel {number} {start}\n" for number, start in enumerate(places))
    plain, booked, both = (seconds(program, text, RUNS) for text in ([kept], [kept, more], [kept, more, taken]))
    print(f"in full hours a cancel takes {(both - booked) / (booked - plain):.2f} of a booking's time")


def tell_memory(program: str) -> None:
    half, whole = (memory(program, [books(spread(600, members))], "RssAnon") for members in (32_768, 65_536))
    print(f"a member takes {(whole - half) * 1024 / 32_768:.0f} bytes")


def main() -> int:
    asked = arguments(__doc__, takes_other=True).parse_args()
    tell_pairs(asked.program, asked.other)
    tell_lines(asked.program)
    tell_cancels(asked.program)
    tell_memory(asked.program)
    return 0


if __name__ == "__main__":
    sys.exit(main())
