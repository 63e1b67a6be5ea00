#!/usr/bin/env python3
"""Runs a program on the cases in cases/, and compares what it writes and how it ends.

Usage: cases.py PROGRAM [NAME ..]      (NAME: a case; none: all of them)

A case is a folder cases/NAME with
    args     the arguments, one word a line, in whatever bytes; none: no arguments
    stdin    the standard input
    from     the path of a file of the repository that is the standard input; with neither it is the null device
    stdout   what standard output must be, byte for byte; none: it is not compared
    stderr   the same of standard error; none: with status 0 or 1 nothing may stand there, and with 2 what the library says
             that reads the arguments, which names no fault of the program's own
    status   the exit status that is wanted; none: 0
    also     more arguments, one set a line: with each set the case is run again, and the same is wanted
    broken   what is wrong with the streams, a word a line: 'input' is a folder, so that the first read fails;
             'output' is a full device, 'pipe' one that nobody reads, so that a write fails. What is written to
             such an output isn't compared

A failing case has a line, and under it what differs ('-' is wanted, '+' was written). The last line is
'N passed, M failed'. The status is 0 where none failed, 1 where one did, 2 where nothing could be run.
"""
from __future__ import annotations

import difflib
import functools
import os
import pathlib
import subprocess
import sys
import tempfile
from typing import Optional, Sequence

sys.dont_write_bytecode = True
from lib.case_files import input_of, words_in
from lib.places import CASES, TOP
from lib.trials import tell

SECONDS = 120
FILES = {"args", "stdin", "from", "stdout", "stderr", "status", "also", "broken"}


def wanted(case: pathlib.Path, name: str) -> Optional[bytes]:
    path = case / name
    return path.read_bytes() if path.is_file() else None


def lines_of(data: bytes) -> list[str]:
    return data.decode("utf-8", "backslashreplace").splitlines()


def differences(name: str, want: Optional[bytes], got: bytes) -> list[str]:
    """The lines in which a stream differs; none where it is not compared or the same."""
    if want is None or want == got:
        return []
    shown = list(difflib.unified_diff(lines_of(want), lines_of(got), "wanted " + name, "written " + name, lineterm=""))
    return shown or [f"{name} differs in its line ends: wanted {want[-40:]!r}, written {got[-40:]!r}"]


def unasked(status: int, errors: bytes) -> list[str]:
    """What is wrong with a standard error that no file of the case has."""
    if status != 2:
        return [] if not errors else ["standard error, where nothing is wanted:"] + lines_of(errors)
    if errors and not any(line.startswith("airbook: ") for line in lines_of(errors)):
        return []
    return ["standard error, where the library's words are wanted alone:"] + lines_of(errors)


def runs_of(name: str) -> list[tuple[str, list[bytes]]]:
    """The runs of a case: a name, and the arguments that come after the case's own."""
    more = words_in(CASES / name / "also")
    return [(name, [])] + [(f"{name} {words.decode()}", words.split()) for words in more]


def output_of(broken: Sequence[bytes]) -> int:
    """What the program writes to."""
    if b"output" in broken:
        return os.open("/dev/full", os.O_WRONLY)
    if b"pipe" in broken:
        read, write = os.pipe()
        os.close(read)
        return write
    return subprocess.PIPE


def run(program: pathlib.Path, case: pathlib.Path, more: list[bytes], folder: str) -> subprocess.CompletedProcess[bytes]:
    """Runs the program on a case."""
    args = words_in(case / "args") + more
    broken = words_in(case / "broken")
    opened = [input_of(case, broken, folder), output_of(broken)]
    try:
        return subprocess.run(
            [program, *args], stdin=opened[0], stdout=opened[1], stderr=subprocess.PIPE, cwd=folder, timeout=SECONDS
        )
    finally:
        for stream in opened:
            if stream != subprocess.PIPE:
                os.close(stream)


def faults_of(program: pathlib.Path, case: pathlib.Path, more: list[bytes], folder: str) -> list[str]:
    """What is wrong with a case; nothing where it passes."""
    strange = sorted(path.name for path in case.iterdir() if path.name not in FILES)
    if strange:
        return [f"no case has a file {' '.join(strange)}"]
    status = int((case / "status").read_text()) if (case / "status").is_file() else 0
    lacking = [path.decode() for path in words_in(case / "from") if not (TOP / path.decode()).is_file()]
    if lacking:
        return [f"there is no file {' '.join(lacking)}"]
    try:
        ran = run(program, case, more, folder)
    except subprocess.TimeoutExpired:
        return [f"it did not end within {SECONDS} seconds"]
    faults = [] if ran.stdout is None else differences("stdout", wanted(case, "stdout"), ran.stdout)
    if (case / "stderr").is_file():
        faults += differences("stderr", wanted(case, "stderr"), ran.stderr)
    else:
        faults += unasked(ran.returncode, ran.stderr)
    if ran.returncode != status:
        faults.append(f"wanted status {status}, ended with {ran.returncode}")
        if ran.stderr:
            faults += ["standard error:"] + lines_of(ran.stderr)
    return faults


def main() -> int:
    if len(sys.argv) < 2:
        print(__doc__.strip(), file=sys.stderr)
        return 2
    program = pathlib.Path(sys.argv[1]).resolve()
    if not program.is_file():
        print(f"cases.py: no program at {program}", file=sys.stderr)
        return 2
    names = sys.argv[2:] or sorted(path.name for path in CASES.glob("*") if path.is_dir())
    missing = [name for name in names if not (CASES / name).is_dir()]
    if missing or not names:
        print(f"cases.py: no case {' '.join(missing)} in {CASES}", file=sys.stderr)
        return 2
    runs = [(title, CASES / name, more) for name in names for title, more in runs_of(name)]
    with tempfile.TemporaryDirectory() as folder:
        return tell([(title, functools.partial(faults_of, program, case, more, folder)) for title, case, more in runs])


if __name__ == "__main__":
    sys.exit(main())
