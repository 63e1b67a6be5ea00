#!/usr/bin/env python3
"""Tells what the tests of want of memory cost the gate: those in the module `growth` of the crates of tests.

Usage: bench/growth.py [CRATE ..]

Each crate is checked with its tests twice, side by side, as it stands and on a copy without that module, over the libraries
below it as the gate left them in crates/*/out/rlib: so the gate has to have run in this folder. For each crate it prints the
processor seconds of both and what is between them, and at the end the sum of that. It changes nothing; the status is 0 where
all that was checked is proved.

It needs python3, four processors with little else to do, and the toolchain's command rt.
"""
from __future__ import annotations

import argparse
import os
import pathlib
import shutil
import subprocess
import sys
import tempfile

TOP = pathlib.Path(__file__).resolve().parent.parent
MODULE = "#[cfg(test)]\nmod growth;\n"

sys.path.insert(0, str(TOP / "tests"))
sys.dont_write_bytecode = True
import prover


def root_of(crate: str) -> pathlib.Path:
    return TOP / "crates" / crate / "src" / "lib.rt"


def with_growth() -> list[str]:
    """The crates of tests that have such a module."""
    return [crate for crate in prover.crates() if root_of(crate).exists() and MODULE in root_of(crate).read_text()]


def begun(crate: str, folder: pathlib.Path, is_whole: bool) -> subprocess.Popen[str]:
    """A check of a copy of the crate with its tests, with the module or without it."""
    shutil.copytree(TOP / "crates" / crate, folder, ignore=shutil.ignore_patterns("out"))
    if not is_whole:
        root = folder / "src" / "lib.rt"
        root.write_text(root.read_text().replace(MODULE, ""))
        (folder / "src" / "growth.rt").unlink()
        for part in ("src", "proofs"):
            shutil.rmtree(folder / part / "growth", ignore_errors=True)
    words = prover.check(crate, "src/lib.rt", prover.crates()[crate])
    return subprocess.Popen([*words, "--test"], cwd=folder, stdout=subprocess.PIPE, stderr=subprocess.STDOUT, text=True)


def seconds(check: subprocess.Popen[str]) -> float:
    """The processor seconds of a check, once it has ended; SystemExit where it is not proved."""
    said = check.stdout.read()
    _, status, used = os.wait4(check.pid, 0)
    check.returncode = os.waitstatus_to_exitcode(status)
    if check.returncode:
        print(said)
        raise SystemExit("not proved")
    return used.ru_utime + used.ru_stime


def cost(crate: str) -> list[float]:
    """The processor seconds of a crate with its tests, and of the same without the module."""
    with tempfile.TemporaryDirectory() as work:
        checks = [begun(crate, pathlib.Path(work) / name, name == "whole") for name in ("whole", "rest")]
        try:
            return [seconds(check) for check in checks]
        finally:
            for check in checks:
                if check.returncode is None:
                    check.kill()


def main() -> None:
    words = argparse.ArgumentParser(description=__doc__, formatter_class=argparse.RawDescriptionHelpFormatter)
    words.add_argument("crates", metavar="CRATE", nargs="*")
    asked = words.parse_args().crates
    total = 0.0
    for crate in asked or with_growth():
        whole, rest = cost(crate)
        total += whole - rest
        print(f"{crate}: {whole:.0f} s, {rest:.0f} without it, {whole - rest:.0f} between them", flush=True)
    print(f"tests of want of memory: {total:.0f} s")


if __name__ == "__main__":
    main()
