#!/usr/bin/env python3
"""What an uplink costs in `airbook run`, by how many there are: 12,500 to 100,000 of 1,000 devices over 64 gateways.

Usage: bench/run.py [PROGRAM] [--other PATH]      (PROGRAM: none is the one that the gate builds; PATH: a second one)

Printed are seconds, peak memory, and the cost of one uplink as a ratio to that of the first row. With a second program it then
prints the least seconds of nine runs of each in turn on the last input, and their ratio. It needs Linux, which tells no less memory
than the script itself holds, some 15 MiB.
"""
from __future__ import annotations

import sys

sys.dont_write_bytecode = True
from measured import arguments, run_of, uplinks

UPLINKS, DEVICES, GATEWAYS = (12_500, 25_000, 50_000, 100_000), 1_000, 64


def tell_rows(program: str) -> None:
    """Prints a row for each number of uplinks."""
    first = None
    for count in UPLINKS:
        with uplinks(count, DEVICES, GATEWAYS) as given:
            runs = [run_of(program, given) for _ in range(3)]
        best, memory = min(cost.elapsed for cost, _ in runs), max(cost.memory for cost, _ in runs)
        each = best / count
        first = first or each
        told = f"{count:7} uplinks: {best:6.2f} s, {memory / 1024:6.0f} MiB, one uplink {each / first:4.2f} of the first row"
        print(f"{told}; {runs[-1][1]}")


def compare(program: str, other: str) -> None:
    """Prints what both take of the most uplinks, in turn."""
    with uplinks(UPLINKS[-1], DEVICES, GATEWAYS) as given:
        turns = [[run_of(path, given)[0].elapsed for path in (program, other)] for _ in range(9)]
    now, then = (min(turn[place] for turn in turns) for place in (0, 1))
    print(f"{now:.2f} s, and {then:.2f} s of the other: {then / now:.2f} of it")


def main() -> int:
    asked = arguments(__doc__, takes_other=True).parse_args()
    tell_rows(asked.program)
    if asked.other:
        compare(asked.program, asked.other)
    return 0


if __name__ == "__main__":
    sys.exit(main())
