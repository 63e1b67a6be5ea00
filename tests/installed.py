#!/usr/bin/env python3
"""Installs the proved program in a folder of its own, and looks at what stands there: program, manual page, completions, pages.

Usage: tests/installed.py      (after a gate, as tests/install.py)

A failing trial has a line; the last line is 'N passed, M failed'. The status is 0 where none failed, 1 where one did, 2 where
nothing could be installed.
"""
from __future__ import annotations

import functools
import hashlib
import os
import pathlib
import re
import shutil
import subprocess
import sys
import tempfile
from typing import Optional

sys.dont_write_bytecode = True
import prover
from lib import manual_page
from lib.trials import tell

SECONDS = 60
COMPLETE = 'source "$1"; COMP_WORDS=("${@:2}"); COMP_CWORD=$(($# - 2)); _airbook; printf "%s\\n" "${COMPREPLY[@]}"'


def completed(folder: pathlib.Path, *words: str) -> set[str]:
    """What bash offers for the last of these words."""
    script = folder / "share/bash-completion/completions/airbook"
    ran = subprocess.run(["bash", "-c", COMPLETE, "-", script, "airbook", *words], capture_output=True, text=True, timeout=SECONDS)
    return set(ran.stdout.split())


def offered(folder: pathlib.Path, *words: str) -> set[str]:
    """The long options that --help tells."""
    return set(re.findall(r"--[a-z]+(?= <|\n)", manual_page.help_of(folder / "bin/airbook", *words)))


def it_is_the_gates(folder: pathlib.Path) -> Optional[str]:
    told = dict(line.split(" ", 1) for line in (folder / "share/airbook/BUILD").read_text().splitlines())
    found = hashlib.sha256((folder / "bin/airbook").read_bytes()).hexdigest()
    return None if told["sha256"] == found else f"BUILD tells the sum {told['sha256']}, and it is {found}"


def commands_are_offered(folder: pathlib.Path) -> Optional[str]:
    found = completed(folder, "")
    return None if set(manual_page.COMMANDS) <= found else f"bash offers {sorted(found)}"


def options_are_offered(folder: pathlib.Path) -> Optional[str]:
    for command in manual_page.COMMANDS:
        found, wanted = completed(folder, command, "--"), offered(folder, command)
        if found != wanted:
            return f"of {command} bash offers {sorted(found)}, and --help tells {sorted(wanted)}"
    return None


def help_is_narrow(folder: pathlib.Path) -> Optional[str]:
    for words in ([], *([command] for command in manual_page.COMMANDS)):
        wide = [line for line in manual_page.help_of(folder / "bin/airbook", *words).splitlines() if len(line) > 80]
        if wide:
            return f"--help of {words or 'the program'} has a line of more than 80 columns: {wide[0]}"
    return None


def manual_is_shown(folder: pathlib.Path) -> Optional[str]:
    """Whether man shows the page, without a warning, with each command in it; where there is no man, that it is there."""
    page = folder / "share/man/man1/airbook.1"
    if not shutil.which("man"):
        return None if page.read_text().startswith(".TH") else "the manual page has no title"
    told = {**os.environ, "MANWIDTH": "100", "LC_ALL": "C.UTF-8"}
    ran = subprocess.run(["man", "--warnings", "-l", page], capture_output=True, text=True, timeout=SECONDS, env=told)
    lacking = [command for command in manual_page.COMMANDS if f"Usage: airbook {command}" not in ran.stdout]
    if ran.returncode or ran.stderr or lacking:
        return f"man ends with {ran.returncode}, says {ran.stderr[:200]!r}, and lacks {lacking}"
    return None


def examples_are_there(folder: pathlib.Path) -> Optional[str]:
    names = {path.name for path in (prover.TOP / "examples").iterdir()}
    found = {path.name for path in (folder / "share/doc/airbook/examples").iterdir()}
    return None if names == found else f"examples: {sorted(names ^ found)}"


TRIALS = (it_is_the_gates, commands_are_offered, options_are_offered, help_is_narrow, manual_is_shown, examples_are_there)


def main() -> int:
    with tempfile.TemporaryDirectory(prefix="installed-") as room:
        if subprocess.run([sys.executable, prover.TOP / "tests" / "install.py", room]).returncode:
            return 2
        return tell([(trial.__name__, functools.partial(trial, pathlib.Path(room))) for trial in TRIALS])


if __name__ == "__main__":
    sys.exit(main())
