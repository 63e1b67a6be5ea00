#!/usr/bin/env python3
"""What it costs to draw an hour of a book of 65,536 transmissions, beside reading that book: processor time, least of several runs,
and the greatest memory.

Usage: bench/pictures.py [PROGRAM]      (the program that the gate builds)

Two books are drawn: one of 600 transmissions an hour, and one that is as dense as six sub-bands allow, of which the hour with the
most is drawn. What reading costs is what `book --resume` takes on the same text, with its report. It needs python3. The status is 0
where drawing costs at most twice of reading, and at most 64 KiB more memory; else 1.
"""
from __future__ import annotations

import pathlib
import sys
from typing import Sequence

sys.dont_write_bytecode = True
from measured import STEP, used

TOP = pathlib.Path(__file__).resolve().parent.parent
MEMBERS, HOUR = 65_536, 3_600_000_000
# A channel of each sub-band at DR6, and how many empty frames of 10,368 us its limit holds in an hour.
CHANNELS = [(863_500_000, 347), (867_100_000, 3_472), (868_300_000, 3_472), (868_950_000, 347), (869_525_000, 34_722)]
CHANNELS += [(869_850_000, 3_472)]
FRAME = 10_368
# A transmission: its start, its frequency and its length.
Member = tuple[int, int, int]


def saved(members: Sequence[Member]) -> bytes:
    rows = "".join(f"r {number} {start} {frequency} 6 {length}\n" for number, (start, frequency, length) in enumerate(members))
    return f"airbook 2\ngateway 1 65536 0 0\n{rows}end {len(members)}\n".encode()


def spread() -> bytes:
    """Some each hour, in one sub-band."""
    return saved([(number * STEP, 868_300_000, 12) for number in range(MEMBERS)])


def dense() -> bytes:
    """As many in an hour as the limits allow, again in each hour."""
    order = [frequency for frequency, most in CHANNELS for _ in range(most)]
    drawn = [(HOUR * (number // len(order)) + number % len(order) * FRAME, order[number % len(order)], 0) for number in range(MEMBERS)]
    return saved(drawn)


def main(words: list[str]) -> int:
    program = words[0] if words else TOP / "crates/airbook/out/airbook"
    is_cheap = True
    for name, text, opening in (("600 an hour", spread(), []), ("a full hour", dense(), ["--from", "0"])):
        read, held = used(program, ["book", "--resume"], text)
        drawn, most = used(program, ["picture", *opening], text)
        is_cheap &= drawn <= 2 * read and most <= held + 64
        print(f"{name}: reading {read * 1000:.0f} ms, {held} KiB; drawing {drawn * 1000:.0f} ms, which is {drawn / read:.2f}, {most} KiB")
    return 0 if is_cheap else 1


if __name__ == "__main__":
    sys.exit(main(sys.argv[1:]))
