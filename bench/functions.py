#!/usr/bin/env python3
"""Tells what each function of a crate costs the prover, in processor seconds, the dearest first.

Usage: bench/functions.py CRATE [--test] [--only NAME ..]
       (--test: the crate with its tests; NAME: a function, or a module or type that stands for all of its functions, each
       with those that it calls)

It checks the crate as it stands, in one job and with nothing kept, over the libraries below it as the gate left them in
crates/*/out/rlib: so the gate has to have run in this folder, on crates below this one that have not changed since. The first
function has the time in it that the libraries take to be read, and the first one that calls a crate what is read of that.
It changes nothing; the status is 0 where all that was checked is proved.

It needs python3, Linux's /proc and the toolchain's command rt.
"""
from __future__ import annotations

import argparse
import os
import pathlib
import subprocess
import sys
from typing import Sequence

TOP = pathlib.Path(__file__).resolve().parent.parent
TICKS = os.sysconf("SC_CLK_TCK")

sys.path.insert(0, str(TOP / "tests"))
sys.dont_write_bytecode = True
import prover


def command(crate: str, more: Sequence[str]) -> list[str]:
    uses = prover.crates()
    if crate not in uses:
        raise SystemExit(f"crates.txt has no crate {crate}")
    root = "src/main.rt" if (TOP / "crates" / crate / "src" / "main.rt").exists() else "src/lib.rt"
    return [*prover.check(crate, root, uses[crate]), "--progress", *more]


def processor_seconds(pid: int) -> float:
    fields = pathlib.Path(f"/proc/{pid}/stat").read_text().rpartition(")")[2].split()
    return sum(map(int, fields[11:15])) / TICKS


def timed(words: Sequence[str], folder: pathlib.Path) -> tuple[list[str], list[tuple[float, str]], int]:
    """What a check says beside its progress, the seconds of each function, and the status."""
    costs, said, before = [], [], 0.0
    with subprocess.Popen(words, cwd=folder, stdout=subprocess.PIPE, stderr=subprocess.STDOUT, text=True) as check:
        for line in check.stdout:
            if line.startswith("checked "):
                now = processor_seconds(check.pid)
                costs.append((now - before, line.split()[1].rstrip(",")))
                before = now
            else:
                said.append(line.rstrip("\n"))
    return said, costs, check.returncode


def main() -> int:
    words = argparse.ArgumentParser(description=__doc__, formatter_class=argparse.RawDescriptionHelpFormatter)
    words.add_argument("crate", metavar="CRATE")
    words.add_argument("--test", action="store_true")
    words.add_argument("--only", metavar="NAME", nargs="+", default=[])
    asked = words.parse_args()
    more = ["--test"] * asked.test + [word for name in asked.only for word in ("--only", name)]
    said, costs, status = timed(command(asked.crate, more), TOP / "crates" / asked.crate)
    for seconds, name in sorted(costs, reverse=True):
        print(f"{seconds:8.2f}  {name}")
    print(f"{sum(seconds for seconds, _ in costs):8.2f}  in all, {len(costs)} functions")
    print(said[-1] if said else "", file=sys.stderr)
    return status


if __name__ == "__main__":
    sys.exit(main())
