#!/usr/bin/env python3
"""Tries `make install` on a copy of the repository with a program that tells a version and nothing else.

Usage: tests/install_trials.py      (it needs the toolchain, and proves nothing)

What the gate would leave is written by hand: the program, and the sums of the sources and of the program. Then it has to be
installed, with a BUILD that tells its sum; and not where the program is another, is missing, or a source of a crate below is
another. A trial that goes wrong has a line; the last line is 'N passed, M failed'. The status is 0 where none failed, else 1.
"""
from __future__ import annotations

import hashlib
import pathlib
import shutil
import subprocess
import sys
import tempfile
from typing import Any, Iterator, Optional

sys.dont_write_bytecode = True
from lib.trials import Tally

TOP = pathlib.Path(__file__).resolve().parent.parent
PARTS = ["Makefile", "CHANGELOG.md", "README.md", "crates.txt", "crates", "docs", "examples", "share", "tests"]
PROGRAM = b"#!/bin/sh\necho airbook 0.0.0\n"
LEAVE = """import sys
sys.path.insert(0, "tests")
sys.dont_write_bytecode = True
import prover
prover.sum_file("airbook").write_text(prover.sum_of("airbook"))
prover.program_sum_file("airbook").write_text(prover.program_sum("airbook"))
"""


def copied(room: pathlib.Path) -> None:
    """A copy of what the installation reads, with what the gate would leave."""
    for part in PARTS:
        if (TOP / part).is_dir():
            shutil.copytree(TOP / part, room / part, ignore=shutil.ignore_patterns("out", "__pycache__"))
        else:
            shutil.copy(TOP / part, room / part)
    (room / "crates/airbook/out").mkdir()
    (room / "crates/airbook/out/airbook").write_bytes(PROGRAM)
    (room / "crates/airbook/out/airbook").chmod(0o755)
    subprocess.run([sys.executable, "-c", LEAVE], cwd=room, check=True)


def is_installed(room: pathlib.Path) -> Optional[bool]:
    """Whether the installation was done, as make's status says."""
    to = room / "installed"
    shutil.rmtree(to, ignore_errors=True)
    words: dict[str, Any] = {"cwd": room, "stdin": subprocess.DEVNULL, "stdout": subprocess.DEVNULL, "stderr": subprocess.DEVNULL}
    done = subprocess.run(["make", "install", f"PREFIX={to}", "DESTDIR="], **words).returncode == 0
    there = (to / "bin/airbook").exists(), (to / "share/airbook/BUILD").exists()
    return done if there == (done, done) else None


def tells_sum(room: pathlib.Path) -> bool:
    told = dict(line.split(" ", 1) for line in (room / "installed/share/airbook/BUILD").read_text().splitlines())
    return told["sha256"] == hashlib.sha256(PROGRAM).hexdigest() and {"version", "toolchain", "commit"} <= set(told)


def tried(room: pathlib.Path) -> Iterator[tuple[str, bool]]:
    """A name, and whether it went as wanted."""
    program, source = room / "crates/airbook/out/airbook", room / "crates/lora_frame/src/lib.rt"
    yield "a proved program is installed", is_installed(room) is True
    yield "BUILD tells the program's sum", tells_sum(room)
    text = source.read_text()
    source.write_text(text + "\n")
    yield "a changed source below is refused", is_installed(room) is False
    source.write_text(text)
    program.write_bytes(PROGRAM + b"\n")
    yield "another program is refused", is_installed(room) is False
    program.unlink()
    yield "no program is refused", is_installed(room) is False


def main() -> int:
    if len(sys.argv) > 1:
        print(__doc__.strip(), file=sys.stderr)
        return 2
    tally = Tally()
    with tempfile.TemporaryDirectory(prefix="install-trials-") as folder:
        room = pathlib.Path(folder)
        copied(room)
        for name, is_well in tried(room):
            tally.take(is_well, f"failed: {name}")
    return tally.status()


if __name__ == "__main__":
    sys.exit(main())
