#!/usr/bin/env python3
"""Compares what `airbook --version` tells with README.md, CHANGELOG.md and the toolchain.

Usage: tests/version.py

The constant VERSION of crates/airbook/src/arguments.rt has the version of CHANGELOG.md's first heading `## VERSION - ..`, and the
toolchain's line that README.md ends with. The case clap_version wants both. Where there is a command rt, `rt version` has to tell
the same logic; its kit may be another. Prints a line for each that differs; the last line is 'N passed, M failed'. The status is
0 where none failed, else 1.
"""
from __future__ import annotations

import shutil
import subprocess
import sys
from typing import Iterator

sys.dont_write_bytecode = True
from lib.places import TOP
from lib.told_version import LINE, found, told
from lib.trials import last_line


def logic_of(line: str) -> str:
    return line.split()[-1]


def faults() -> Iterator[str]:
    version, line = told()
    newest = found("CHANGELOG.md", r"(?m)^## (\d\S*) - ")[0]
    if version != newest:
        yield f"the program tells version {version}, CHANGELOG.md has {newest}"
    named = found("README.md", rf"Proved with `({LINE})`")[0]
    if line != named:
        yield f"the program tells {line}, README.md {named}"
    wanted = f"airbook {version} (sources proved with {line})\n"
    if (TOP / "cases/clap_version/stdout").read_text(encoding="utf-8") != wanted:
        yield f"the case clap_version wants something else than {wanted.strip()}"
    if shutil.which("rt"):
        here = subprocess.run(["rt", "version"], stdin=subprocess.DEVNULL, capture_output=True, text=True).stdout.strip()
        if logic_of(here or "-") != logic_of(line):
            yield f"the toolchain here is {here or 'silent'}, the sources are proved with {line}"


def main() -> int:
    if len(sys.argv) > 1:
        print(__doc__.strip(), file=sys.stderr)
        return 2
    at_fault = list(faults())
    for fault in at_fault:
        print(fault)
    return last_line(4 - len(at_fault), len(at_fault))


if __name__ == "__main__":
    sys.exit(main())
