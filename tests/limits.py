#!/usr/bin/env python3
"""Gives a program inputs of as many bytes as one may have, and of one more, and as many uplinks as a server gathers, and one
more, and a book of nearly as many transmissions as one keeps, and compares what it writes and how it ends.

Usage: limits.py PROGRAM

The bytes are those of docs/FORMATS.md, 2^28. An input has a front and then lines that are cheap to answer: comments, which have
no answer, or lines of 1,026 bytes, each of which is `bad N Syntax`. It is made while it is written, block by block. With one byte
more the program ends with TooMuch, and has written a front of the answers, of which only the last ones may be missing. The
uplinks are those of docs/FORMATS.md too, a million, of one device and unconfirmed, so that none is answered; the one more is
Crowded. The book keeps 65,535 of 65,536 transmissions: a plan on it, its saved text, and the book that is read from that have
room for one more. Every program that is started ends within a minute, or is stopped. A failing trial has a line; the last line
is 'N passed, M failed'. The status is 0 where none failed, 1 where one did, 2 where nothing could be run.
"""
from __future__ import annotations

import contextlib
import functools
import socket
import subprocess
import sys
import tempfile
import threading
from typing import IO, Any, Iterable, Iterator, Optional, Sequence

sys.dont_write_bytecode = True
from lib.arguments import asked_by
from lib.drawn_turns import NO_REPORT, SETTINGS
from lib.trials import tell

SECONDS = 60
LIMIT = 1 << 28
UPLINKS = 1_000_000
# Fewer than may be gathered at a time, and how far two such rounds are apart, in microseconds.
ROUND, APART = 4_000, 1_000_000
BLOCK = 1 << 20
COMMENT = b"#" * 1_023 + b"\n"
LONG = b"x" * 1_026 + b"\n"
# The answers that may be lost: what is gathered before it is written, and as much again for the lines of the last read.
LOST = 2 * 4_096

SAVED = b"airbook 2\ngateway 1 4096 0 0\nr 1 10000000 868100000 5 12\nend 1\n"
EMPTY_BOOK = b"booked 0\ncancelled 0\nretired 0\nkept 0 0\nfloor 0\n"
PLAN = b"book 1 10000000 868100000 5 12\nplan\nbook 2 10041216 868100000 5 12\n"
PLANNED = b"ok 1 10000000 10041216\nif ok 2 10041216 10082432\n"
KEPT_ONE = b"booked 41216\ncancelled 0\nretired 0\nkept 1 41216\nfloor 0\nbusiest M 10000000 41216\n"
# When the transmissions of a book begin, in microseconds: one fewer than it may keep.
STARTS = range(0, 65_535 * 420_000, 420_000)
ON_AIR = 41_216
SERVED = SETTINGS.encode() + b"---\n"
NO_SENDS = "".join(line + "\n" for line in NO_REPORT).encode()
# The faults with which runs stop, one for each size of an input; none where a run goes on to its end.
Stops = Sequence[Optional[str]]
# Runs on inputs of both sizes, as `rows` has them.
Row = tuple[list[str], bytes, bytes, bytes, bytes, Stops]


def blocks(front: bytes, line: bytes, size: int) -> Iterator[bytes]:
    """An input of this size, block by block."""
    yield front
    block, left = line * (BLOCK // len(line)), size - len(front)
    while left > 0:
        yield block[:left]
        left -= len(block)


def bad_lines(front: bytes) -> bytes:
    """The answers to the long lines that fill an input up to the limit; a part of one, at the end, has its answer, too."""
    count = -(-(LIMIT - len(front)) // len(LONG))
    return b"".join(b"bad %d Syntax\n" % number for number in range(1, count + 1))


def feed(pipe: IO[bytes], given: Iterable[bytes]) -> None:
    """Writes all of this to a pipe, as long as somebody reads it."""
    with contextlib.suppress(BrokenPipeError), pipe:
        for block in given:
            pipe.write(block)


def ended(program: str, words: Sequence[str], given: Iterable[bytes]) -> tuple[int, bytes, bytes]:
    """How a program ends that is given this: its status, standard output and standard error."""
    pipes: dict[str, Any] = {"stdin": subprocess.PIPE, "stdout": subprocess.PIPE}
    with tempfile.TemporaryFile() as errors, subprocess.Popen([program, *words], stderr=errors, **pipes) as child:
        alarm = threading.Timer(SECONDS, child.kill)
        feeder = threading.Thread(target=feed, args=(child.stdin, given))
        alarm.start()
        feeder.start()
        written = child.stdout.read()
        feeder.join()
        status = child.wait()
        alarm.cancel()
        errors.seek(0)
        return status, written, errors.read()


def is_front(written: bytes, answers: bytes) -> bool:
    """Whether this is all of the answers but the last ones at most."""
    return answers.startswith(written) and len(answers) - len(written) <= LOST


def fault_of(
    program: str, words: Sequence[str], front: bytes, line: bytes, answers: bytes, at_the_end: bytes, stops: Stops
) -> Optional[str]:
    """What is wrong with how inputs of both sizes are answered; None where nothing is.

    Answers are what is written while lines are read, and then comes what is written at the end. Where a run stops before that its
    faults are named, one for each size; an input that is served has none."""
    for size, name in zip((LIMIT, LIMIT + 1), stops):
        status, written, errors = ended(program, words, blocks(front, line, size))
        refused = 1 if b"bad " in answers + at_the_end else 0
        if name is None:
            is_wanted = (status, written, errors) == (refused, answers + at_the_end, b"")
        else:
            is_wanted = (status, errors) == (2, f"airbook: {name}\n".encode()) and is_front(written, answers)
        if not is_wanted:
            wanted = f"status {refused}" if name is None else name
            return f"{size} bytes, wanted {wanted}: status {status}, {len(written)} bytes that end {written[-60:]}, {errors}"
    return None


def uplinks() -> Iterator[bytes]:
    """The input with so many uplinks and one more, round by round, each closed before the next one."""
    yield SERVED
    for first in range(0, UPLINKS, ROUND):
        now = first // ROUND * APART
        heard = (f"hear 1 0 868100000 5 0 -100 {now} @u:26011bda:{first + i}\n" for i in range(ROUND))
        yield "".join(heard).encode() + b"pass %d\n" % (now + 200_001)
    yield b"hear 1 0 868100000 5 0 -100 0 @u:26011bda:%d\n" % UPLINKS


def gathered() -> bytes:
    """What is answered to them."""
    answers: list[str] = []
    for first in range(1, UPLINKS + 1, ROUND):
        numbers = range(first, first + ROUND)
        answers += [f"opened {number}\n" for number in numbers] + [f"silent {number}\n" for number in numbers]
    silent = NO_SENDS.replace(b"silent 0", b"silent %d" % UPLINKS)
    return "".join(answers).encode() + b"no hear Crowded\n" + silent


def fault_of_uplinks(program: str, words: Sequence[str]) -> Optional[str]:
    """What is wrong with how a million uplinks and one more are answered; None where nothing is."""
    status, written, errors = ended(program, words, uplinks())
    if (status, written, errors) == (1, gathered(), b""):
        return None
    return f"{UPLINKS + 1} uplinks: status {status}, {len(written)} bytes that end {written[-160:]}, {errors}"


def report_of(count: int, fullest: int) -> bytes:
    """The report of a book of so many such transmissions, and of so many in its busiest hour."""
    airtime = count * ON_AIR
    lines = [f"booked {airtime}", "cancelled 0", "retired 0", f"kept {count} {airtime}", "floor 0"]
    lines += [f"busiest P 0 {fullest * ON_AIR}"]
    return "".join(line + "\n" for line in lines).encode()


def fault_of_books(program: str) -> Optional[str]:
    """What is wrong with how a book of so many transmissions is planned on, saved and read again; None where nothing is."""
    booked = b"".join(b"book %d %d 869525000 5 12\n" % (place, start) for place, start in enumerate(STARTS))
    told = b"".join(b"ok %d %d %d\n" % (place, start, start + ON_AIR) for place, start in enumerate(STARTS))
    kept = b"".join(b"r %d %d 869525000 5 12\n" % (place, start) for place, start in enumerate(STARTS))
    saved = b"airbook 2\ngateway 1 65536 0 0\n" + kept + b"end %d\n" % len(STARTS)
    more = b"book 70000 %d 869525000 5 12\nbook 70001 %d 869525000 5 12\n" % (STARTS.stop, STARTS.stop + STARTS.step)
    answers = b"ok 70000 %d %d\n" % (STARTS.stop, STARTS.stop + ON_AIR), b"no 70001 Full\n"
    planned = b"".join(b"if " + answer for answer in answers)
    fullest = 3_600_000_000 // STARTS.step + 1
    trials = [
        (["plan"], booked + b"plan\n" + more, 0, told + planned, report_of(len(STARTS), fullest)),
        (["book", "--save"], booked, 0, told, saved),
        (["book", "--resume"], saved + more, 1, b"".join(answers), report_of(len(STARTS) + 1, fullest)),
    ]
    for words, given, status, lines, last in trials:
        got = ended(program, [*words, "--cap", "65536"], [given])
        if got != (status, lines + last, b""):
            return f"{' '.join(words)}: status {got[0]}, {len(got[1])} bytes that end {got[1][-160:]}, {got[2]}"
    return None


def rows(port: int) -> list[Row]:
    """The arguments, the front and the lines of the input, the answers, what is written at the end, and the faults."""
    long_run = bad_lines(SERVED) + NO_SENDS
    listen = ["listen", "--port", str(port), "--turns", "1"]
    too_much = [None, "TooMuch"]
    return [
        (["book"], b"", LONG, bad_lines(b""), EMPTY_BOOK, too_much),
        (["book", "--resume", "--save"], SAVED, COMMENT, b"", SAVED, too_much),
        (["book", "--resume"], b"airbook 3\n", COMMENT, b"", b"", ["Version", "Version"]),
        (["plan"], PLAN, COMMENT, PLANNED, KEPT_ONE, too_much),
        (["run"], SERVED, LONG, b"", long_run, too_much),
        (["run", "--workers", "2"], SERVED, COMMENT, b"", NO_SENDS, too_much),
        (["run"], b"gateway = [\n---\n", COMMENT, b"", b"", ["NotToml", "TooMuch"]),
        # The settings are accepted, and then another has the port.
        (listen, SETTINGS.encode(), COMMENT, b"", b"", ["Bind", "TooMuch"]),
    ]


def main() -> int:
    program, _ = asked_by(__doc__)
    with socket.socket(type=socket.SOCK_DGRAM) as other:
        other.bind(("127.0.0.1", 0))
        port = other.getsockname()[1]
        trials = [(" ".join(words), functools.partial(fault_of, program, words, *row)) for words, *row in rows(port)]
        for words in (["run"], ["run", "--workers", "1"]):
            trials.append((" ".join(words), functools.partial(fault_of_uplinks, program, words)))
        trials.append(("a book that is nearly full", functools.partial(fault_of_books, program)))
        return tell(trials)


if __name__ == "__main__":
    sys.exit(main())
