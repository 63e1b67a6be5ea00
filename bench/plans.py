#!/usr/bin/env python3
"""What a plan costs in `airbook plan`: the copy of a full book, and 1,000 bookings that are tried on it.

Usage: bench/plans.py [PROGRAM]      (none: the one that the gate builds)

Printed is processor time, beside that of the book itself. It needs Linux.
"""
from __future__ import annotations

import sys

sys.dont_write_bytecode = True
from measured import CAP, arguments, between, book, kept, seconds

KEPT, ASKS, RUNS = CAP - 1, 1_000, 7


def main() -> int:
    program, members = arguments(__doc__).parse_args().program, kept(KEPT)
    # Bookings between the members, spread over all of them.
    asks = "".join(book(number, start) for number, start in enumerate(between(KEPT, ASKS), KEPT))
    texts = [members], [members, "plan\n"], [members, "plan\n", asks]
    plain, copied, planned = (seconds(program, text, RUNS, "plan") for text in texts)
    print(f"a book of {KEPT:,}: {plain * 1000:.0f} ms; its copy: {(copied - plain) * 1000:.1f} ms")
    print(f"a plan of {ASKS:,} bookings on it, the copy counted: {(planned - plain) * 1000:.1f} ms")
    return 0


if __name__ == "__main__":
    sys.exit(main())
