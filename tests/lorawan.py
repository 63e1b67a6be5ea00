#!/usr/bin/env python3
"""Compares what the models share, lib/lorawan.py, with values of the standards, of a published frame and of docs/FORMATS.md.

Usage: tests/lorawan.py     (scripts that use it make these checks first)

What differs has a line. The last line is 'N passed, M failed'; the status is 0 where none failed, 1 where one did.
"""
from __future__ import annotations

import sys

sys.dont_write_bytecode = True
from lib import lorawan
from lib.trials import Tally


def main() -> int:
    tally = Tally()
    for name, want, found in lorawan.published():
        tally.take(want == found, f"{name}: wanted {want}, found {found}")
    return tally.status()


if __name__ == "__main__":
    sys.exit(main())
