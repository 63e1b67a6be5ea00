#!/usr/bin/env python3
"""What a line `earliest` costs in `airbook book`, and what a booking costs with and without a gap.

Usage: bench/earliest.py [PROGRAM] [--other PATH]
       (PROGRAM: none is the one that the gate builds; PATH: a second one, as one of before the gap)

The lines are asked beside 4,096 transmissions that fill hour after hour of sub-band P. Printed are processor time and ratios of
this run; with a second program also what the first one's bookings cost beside that one's. It needs Linux.
"""
from __future__ import annotations

import sys

sys.dont_write_bytecode = True
from measured import STRIDE, answers, arguments, kept, seconds

HOUR, RUNS, ASKS, LINES = 3_600_000_000, 7, 500, 200_000
MEMBERS, IN_HOUR = 4_096, 363      # 363 frames of 12 bytes at DR0, 991,232 us each, are all that an hour of P has room for
WHAT, LAST = "869525000 0 12", 2 ** 64 - 1
QUESTIONS = {
    "from the middle of a full hour": f"earliest 9 {5 * HOUR + HOUR // 2} {LAST} {WHAT}\n",
    "over all full hours": f"earliest 9 0 {LAST} {WHAT}\n",
}


def full() -> str:
    """Bookings that fill hour after hour."""
    starts = (number // IN_HOUR * HOUR + number % IN_HOUR * (HOUR // IN_HOUR) for number in range(MEMBERS))
    return "".join(f"book {number} {start} {WHAT}\n" for number, start in enumerate(starts))


def tell_earliest(program: str) -> None:
    """Prints what the questions cost, and what is answered to them."""
    members = full()
    answered = answers(program, members + "".join(QUESTIONS.values())).splitlines()[MEMBERS:][:len(QUESTIONS)]
    before = seconds(program, [members], RUNS)
    for name, line in QUESTIONS.items():
        each = (seconds(program, [members, line * ASKS], RUNS) - before) / ASKS * 1000
        print(f"earliest beside {MEMBERS:,}, {name}: {each:.3f} ms")
    print(f"answered: {', '.join(answered)}")


def tell_gap(program: str, other: str | None) -> None:
    """Prints what bookings cost, with a gap and without, and beside those of another program."""
    spread = kept(LINES, STRIDE)
    plain, spaced = seconds(program, [spread], RUNS), seconds(program, [spread], RUNS, more=("--gap", "1000"))
    print(f"{LINES:,} bookings: {plain * 1000:.0f} ms, with a gap {spaced / plain:.2f} of that")
    if other:
        print(f"beside the second program {plain / seconds(other, [spread], RUNS):.2f}")


def main() -> int:
    asked = arguments(__doc__, takes_other=True).parse_args()
    tell_earliest(asked.program)
    tell_gap(asked.program, asked.other)
    return 0


if __name__ == "__main__":
    sys.exit(main())
