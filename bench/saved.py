#!/usr/bin/env python3
"""What it costs to save a book of 65,536 transmissions and to read it again.

Usage: bench/saved.py [PROGRAM]      (none: the one that the gate builds)

Printed is processor time of this run, the least of several. A book that was read and saved again has to be the same text. It needs
Linux.
"""
from __future__ import annotations

import sys

sys.dont_write_bytecode = True
from measured import CAP, answers, arguments, kept, seconds

RUNS = 5


def main() -> int:
    program, lines = arguments(__doc__).parse_args().program, kept(CAP)
    _, head, rows = answers(program, lines, ["--save"]).partition("airbook 2\n")
    if not head:
        raise SystemExit(f"{program} saved no book")
    text = head + rows
    booked, written = (seconds(program, [lines], RUNS, more=more) for more in ([], ["--save"]))
    read, both = (seconds(program, [text], RUNS, more=more) for more in (["--resume"], ["--resume", "--save"]))
    if answers(program, text, ["--resume", "--save"]) != text:
        raise SystemExit("a saved book that was read and saved again is another text")
    print(f"{CAP:,} transmissions, {len(text):,} bytes; read and saved again alike")
    print(f"booking {booked * 1000:.0f} ms, with the saved text in place of the report {written * 1000:.0f} ms")
    print(f"reading {read * 1000:.0f} ms, which is {read / booked:.2f} of booking; read and written {both * 1000:.0f} ms")
    return 0


if __name__ == "__main__":
    sys.exit(main())
