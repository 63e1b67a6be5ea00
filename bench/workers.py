#!/usr/bin/env python3
"""What workers bring in `airbook run`: 50,000 uplinks of 1,000 devices over 64 gateways, closed by tens and by thousands.

Usage: bench/workers.py [PROGRAM] [--runs COUNT]      (the one that the gate builds; 9)

The uplinks are answered on one thread without a station (0), and with 1, 2 and 4 workers. Printed are the least and the median
seconds of so many runs of each in turn, and their ratios to those with 1 worker. It needs Linux.
"""
from __future__ import annotations

import sys

sys.dont_write_bytecode = True
from measured import arguments, count, run_of, uplinks

UPLINKS, DEVICES, GATEWAYS = 50_000, 1_000, 64
WORKERS, EACH = (0, 1, 2, 4), (10, 1_000)


def tell(program: str, runs: int, each: int) -> None:
    """Prints what the uplinks take where so many are closed at a time."""
    with uplinks(UPLINKS, DEVICES, GATEWAYS, each) as given:
        turns = [{workers: run_of(program, given, ["--workers", str(workers)]) for workers in WORKERS} for _ in range(runs)]
    took = {workers: sorted(turn[workers][0].elapsed for turn in turns) for workers in WORKERS}
    for workers, times in took.items():
        told = [f"{name} {times[place]:5.3f} s, {times[place] / took[1][place]:4.2f} of 1 worker"
                for name, place in (("least", 0), ("median", len(times) // 2))]
        print(f"{each:5} closed at a time, {workers} workers: {'; '.join(told)}")
    print(f"{each:5} closed at a time: {turns[0][1][1]}")


def main() -> int:
    words = arguments(__doc__)
    words.add_argument("--runs", metavar="COUNT", type=count, default=9)
    asked = words.parse_args()
    for each in EACH:
        tell(asked.program, asked.runs, each)
    return 0


if __name__ == "__main__":
    sys.exit(main())
