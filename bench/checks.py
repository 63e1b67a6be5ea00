#!/usr/bin/env python3
"""Times `airbook check` beside `airbook run`, on settings of 64 gateways and 1,024 devices and no line.

Usage: bench/checks.py PROGRAM [TURNS]      (20 turns)

Each turn runs both, one after the other. Prints the median of each in milliseconds, and their ratio.
"""
from __future__ import annotations

import statistics
import subprocess
import sys
import time

GATEWAYS, DEVICES = 64, 1_024


def settings() -> bytes:
    gateways = (f"[[gateway]]\nid = {n}\ncap = 4096\ngap = 45000\n" for n in range(1, GATEWAYS + 1))
    devices = (
        f'[[device]]\naddr = "{n:08x}"\nnwkskey = "{n:032x}"\nappskey = "{n:032X}"\ndelay = 1\noffset = 0\n'
        f"rx2_freq = 869525000\nrx2_dr = 0\nup = {n}\ndown = {n + 1}\n"
        for n in range(DEVICES)
    )
    return "".join([*gateways, *devices]).encode()


def seconds(program: str, command: str, text: bytes) -> float:
    start = time.perf_counter()
    subprocess.run([program, command], input=text, stdout=subprocess.DEVNULL, check=True)
    return time.perf_counter() - start


def main() -> None:
    program, turns = sys.argv[1], int(sys.argv[2]) if sys.argv[2:] else 20
    taken: dict[str, list[float]]
    text, taken = settings(), {"check": [], "run": []}
    for _ in range(turns):
        for command, times in taken.items():
            times.append(seconds(program, command, text))
    check, run = (statistics.median(taken[command]) * 1000 for command in ("check", "run"))
    print(f"check {check:.1f} ms, run {run:.1f} ms, ratio {check / run:.2f}")


if __name__ == "__main__":
    main()
