#!/usr/bin/env python3
"""Writes the manual page of airbook, from what the program's own --help tells.

Usage: tests/manual.py PROGRAM      (the page, for man, on standard output)

The status is 0, or 2 where the program can't be run or has no such help.
"""
from __future__ import annotations

import subprocess
import sys

sys.dont_write_bytecode = True
from lib.manual_page import page


def main() -> int:
    if len(sys.argv) != 2:
        print(__doc__.strip(), file=sys.stderr)
        return 2
    try:
        print(page(sys.argv[1]), end="")
    except (OSError, subprocess.SubprocessError, IndexError) as why:
        print(f"manual.py: {why}", file=sys.stderr)
        return 2
    return 0


if __name__ == "__main__":
    sys.exit(main())
