#!/usr/bin/env python3
"""Runs the toolchain's merge gate, `rt ci`, and says before it what is about to happen and how far it is meanwhile.

Usage: tests/gate.py      (in a clone of the repository; status: that of `rt ci`, 2 where it can't be run)

First it times the proof of one small crate, which tells this machine's pace, and reckons from that how long the gate takes
here. The toolchain runs as many proofs side by side as it reckons memory for, and reckons with two to four times of what they
take; so it is told how many to run, by its variable RT_JOBS, unless that is set already: one a processor, as far as memory
holds them. Once all is proved, the sums of the crates' files are kept in crates/*/out/proved, by which tests/edits.py knows
that the gate speaks of them, and the sum of a program in crates/*/out/program_sum, by which tests/install.py does.
"""
from __future__ import annotations

import os
import re
import resource
import shutil
import subprocess
import sys
import time
from typing import Any

sys.dont_write_bytecode = True
import machine
import prover

# What a gate from nothing took on the machine of bench/results, in processor seconds: all proofs and tests, the longest row of
# proofs that wait for one another, and the crate whose proof tells the pace.
WHOLE, CHAIN, PACE = 11_000, 2_900, 17.0
PACE_CRATE = "radio_airtime"
# Half of what the two proofs that take most memory were seen to take together.
BYTES_OF_A_PROOF = 3_500_000_000
LEAST_BYTES_OF_DISK = 3_000_000_000
PROVED = re.compile(r"^rt: (\w+)(: its tests are)? (proved|NOT PROVED)|^rt: (\w+) is kept")


def pace() -> float:
    """How many times slower than the machine of the table this one is; SystemExit with 2 where the toolchain proves nothing."""
    words = prover.check(PACE_CRATE, "src/lib.rt", prover.crates()[PACE_CRATE])
    before = resource.getrusage(resource.RUSAGE_CHILDREN)
    ran = subprocess.run(words, cwd=prover.TOP / "crates" / PACE_CRATE, stdin=subprocess.DEVNULL, capture_output=True, text=True)
    after = resource.getrusage(resource.RUSAGE_CHILDREN)
    if ran.returncode not in (0, 1):
        print(f"gate.py: the prover does not run here: {(ran.stdout + ran.stderr)[-300:]}", file=sys.stderr)
        raise SystemExit(2)
    return (after.ru_utime + after.ru_stime - before.ru_utime - before.ru_stime) / PACE


def lanes(processors: int, memory: int) -> int:
    """How many proofs to have the toolchain run side by side."""
    given = os.environ.get("RT_JOBS", "")
    return int(given) if given.isdigit() and int(given) else max(1, min(processors, memory // BYTES_OF_A_PROOF))


def tell_plan(processors: int, memory: int, side_by_side: int, slower: float) -> None:
    minutes = max(WHOLE / side_by_side, CHAIN) * slower / 60
    print(
        f"gate: {len(prover.crates())} crates are proved and their tests run, {side_by_side} proofs at a time, on {processors}"
        f" processors with {memory / 1e9:.0f} GB free. A proof takes {slower:.1f} times the seconds by which this is reckoned, so"
        f" that is about {minutes:.0f} minutes; less where an earlier run here has passed the same files, which is kept.",
        flush=True,
    )


class Progress:
    """How many crates are done, told as each is."""

    def __init__(self, crates: set[str]) -> None:
        self.done: set[str]
        self.crates, self.done, self.started = crates, set(), time.monotonic()

    def look(self, line: str) -> None:
        found = PROVED.match(line)
        crate = found and (found[1] if found[1] and not found[2] else found[4])
        if crate in self.crates and crate not in self.done:
            self.done.add(crate)
            minutes = (time.monotonic() - self.started) / 60
            print(f"gate: {len(self.done)} of {len(self.crates)} crates, {minutes:.0f} min", flush=True)


def run_gate(side_by_side: int) -> int:
    """The status of `rt ci`, whose lines are passed on."""
    told = {**os.environ, "RT_JOBS": str(side_by_side)}
    progress = Progress(set(prover.crates()))
    words: dict[str, Any] = {"cwd": prover.TOP, "stdin": subprocess.DEVNULL, "stdout": subprocess.PIPE, "stderr": subprocess.STDOUT}
    with subprocess.Popen(["rt", "ci"], env=told, text=True, errors="replace", **words) as gate:
        for line in gate.stdout:
            print(line, end="", flush=True)
            progress.look(line)
    return gate.returncode


def main() -> int:
    if len(sys.argv) > 1:
        print(__doc__.strip(), file=sys.stderr)
        return 2
    if not shutil.which("rt"):
        print("gate.py: there is no command rt: install the toolchain that README.md names", file=sys.stderr)
        return 2
    if shutil.disk_usage(prover.TOP).free < LEAST_BYTES_OF_DISK:
        print("gate.py: the disk has less than 3 GB free, which the gate wants", file=sys.stderr)
        return 2
    processors, memory = machine.processors(), machine.free_memory()
    side_by_side = lanes(processors, memory)
    tell_plan(processors, memory, side_by_side, pace())
    before = {crate: prover.sum_of(crate) for crate in prover.crates()}
    status = run_gate(side_by_side)
    if status == 0:
        for crate, told in before.items():
            if prover.sum_of(crate) == told:
                prover.sum_file(crate).write_text(told)
                if prover.program(crate).is_file():
                    prover.program_sum_file(crate).write_text(prover.program_sum(crate))
    return status


if __name__ == "__main__":
    sys.exit(main())
