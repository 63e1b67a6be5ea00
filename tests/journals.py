#!/usr/bin/env python3
"""Gives `airbook recover` a journal in all its states behind a kill, and journals that are at fault.

Usage: journals.py PROGRAM

- Of a journal with one batch behind its first, each front of that batch, and the whole with each byte of it 0: the book is that
  without the batch, and with the whole batch the one with it.
- Lines of a first batch that are spelled otherwise.
- Journals whose first line at fault is known, and some that look so and are read.

A trial that goes wrong has a line; the last line is 'N passed, M failed'. The status is 0 where none failed, 1 where one did, 2
where there is no program.
"""
from __future__ import annotations

import functools
import subprocess
import sys
from typing import Iterator, NamedTuple, Optional

sys.dont_write_bytecode = True
from lib.arguments import asked_by
from lib.trials import tell

SECONDS = 60
FIRST = b"""airbook journal 1
gateway 1 aa555a0000000001 4096 45000
gateway 2 aa555a0000000002 4096 45000
device 26011bda 5c7efb43 6 0
queue 26011bda 9 0102
clock 1 2000000 0
.
"""
SENT = b"""clock 2 2200981 601001
device 26011bda 5c7efb43 7 1
taken 26011bda
sent 2 1001100 868100000 5 12
.
"""
WITH = b"airbook 2\ngateway 2 4096 601001 45000\nr 0 1001100 868100000 5 12\nend 1\n"
WITHOUT = b"airbook 2\ngateway 2 4096 0 45000\nend 0\n"
HEAD = b"airbook journal 1\n"
ONE = HEAD + b"gateway 1 aa555a0000000001 9 0\n"
# Lines that are spelled otherwise than a journal's.
MALFORMED = [
    b"",
    b"clock 2 2200981",
    b"clock 02 2200981 601001",
    b"clock 2  2200981 601001",
    b"clock 2 2200981 601001 ",
    b"taken 26011BDA",
    b"queue 26011bda 0 00",
    b"queue 26011bda 9 0",
    b"device 26011bda 5c7efb43 7 4294967297",
    b"sent 2 1001100 868100000 7 12",
]
NO_HEAD, VERSION = "is not the line of its version", "has another version than 1"
NO_BATCH, MALFORMED_LINE = "is missing: no line `.` ends a batch", "is malformed, or says what can't be"
# Journals, the line that is at fault and what is told of it; None where the journal is read. No gateway there has the number 9.
ROWS: list[tuple[bytes, Optional[tuple[int, str]]]] = [
    (b"", (1, NO_BATCH)),
    (HEAD, (2, NO_BATCH)),
    (HEAD + b".", (2, NO_BATCH)),
    (HEAD + b".\n", None),
    (b".\n", (1, NO_HEAD)),
    (b"airbook 1\n.\n", (1, NO_HEAD)),
    (b"airbook journal 01\n.\n", (1, NO_HEAD)),
    (b"airbook journal 2\n.\n", (1, VERSION)),
    (HEAD + b"clock 1 0 0\n.\n", (2, MALFORMED_LINE)),
    (HEAD + b"taken 26011bda\n.\n", (2, MALFORMED_LINE)),
    (HEAD + b"gateway 1 aa555a0000000001 0 0\n.\n", (2, MALFORMED_LINE)),
    (HEAD + b"gateway 1 aa555a0000000001 1 100001\n.\n", (2, MALFORMED_LINE)),
    (HEAD + b"gateway 1 AA555A0000000001 1 0\n.\n", (2, MALFORMED_LINE)),
    (ONE + b"gateway 1 aa555a0000000002 1 0\n.\n", (3, MALFORMED_LINE)),
    (ONE + b"gateway 2 aa555a0000000001 1 0\n.\n", (3, MALFORMED_LINE)),
    (ONE + b"sent 1 5 865000000 0 12\n.\n", (3, MALFORMED_LINE)),
    (ONE + b"sent 1 5 868100000 5 12\nsent 1 6 868100000 5 12\n.\n", (4, MALFORMED_LINE)),
    (ONE + b"clock 1 9 9\nsent 1 5 868100000 5 12\n.\n", (4, MALFORMED_LINE)),
    # The last batch alone may be malformed, and a fault of another kind is one there too.
    (HEAD + b".\nclock 1 0\n.\n", None),
    (HEAD + b".\nclock 1 0\n.\n.\n", (3, MALFORMED_LINE)),
    (HEAD + b".\nclock 1 0 0\n.\n", (3, MALFORMED_LINE)),
]


class Trial(NamedTuple):
    """A journal, the gateway that is asked for, and what has to be told of it: a book, or what stands in a line of its own."""

    name: str
    journal: bytes
    gateway: int
    book: Optional[bytes]
    told: str

    def fault(self, program: str) -> Optional[str]:
        """What is wrong with what the program makes of the journal."""
        words = [program, "recover", "--gateway", str(self.gateway)]
        ran = subprocess.run(words, input=self.journal, capture_output=True, timeout=SECONDS)
        errors = ran.stderr.decode(errors="replace").splitlines()
        if self.book is not None:
            is_well = (ran.returncode, ran.stdout, errors) == (0, self.book, [])
        else:
            is_well = (ran.returncode, ran.stdout) == (2, b"") and self.told in "\n".join(errors)
        return None if is_well else f"status {ran.returncode}, {ran.stdout!r}, {errors}"


def torn() -> Iterator[Trial]:
    whole = FIRST + SENT
    yield Trial("the whole journal", whole, 2, WITH, "")
    for more in range(len(SENT)):
        yield Trial(f"{more} bytes of the last batch", whole[: len(FIRST) + more], 2, WITHOUT, "")
        spoiled = FIRST + SENT[:more] + b"\0" + SENT[more + 1 :]
        yield Trial(f"byte {more} of the last batch is 0", spoiled, 2, WITHOUT, "")


def at_fault() -> Iterator[Trial]:
    known = FIRST.removesuffix(b".\n")
    line = known.count(b"\n") + 1
    for row in MALFORMED:
        told = f"line {line} of the journal {MALFORMED_LINE}"
        yield Trial(f"a line {row!r}", known + row + b"\n.\n", 2, None, told)
    for place, (journal, fault) in enumerate(ROWS, 1):
        told = "airbook: NoGateway" if fault is None else f"line {fault[0]} of the journal {fault[1]}"
        yield Trial(f"journal {place}", journal, 9, None, told)


def main() -> int:
    program, _ = asked_by(__doc__)
    trials = [*torn(), *at_fault()]
    return tell([(one.name, functools.partial(one.fault, program)) for one in trials], beside=4)


if __name__ == "__main__":
    sys.exit(main())
