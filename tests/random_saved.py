#!/usr/bin/env python3
"""Compares `airbook book --resume` with a plain reader of saved books on random ones, whole and damaged.

Usage: tests/random_saved.py [PROGRAM [BOOKS [SEED]]]     (the program that the gate leaves, 500, 1)

The reader is written from docs/FORMATS.md alone: line by line, and each transmission is asked of the plain list of
lib/plain_book.py, which holds those before it. Each book has its own cap, gap and floor, is written in version 1 or 2, and has
some lines behind it; two in three are damaged once or twice: cut, spelled otherwise, in another order, or with other numbers.
Where the text is a book, the answers are those of the plain list that goes on from it, and then the report or the book saved
again. Output, standard error and status are compared.

What differs has a line. Then comes how many of each answer were wanted, and of each fault, with the line that is the first at
fault; where 500 books or more were asked for, a common kind that never came is one failure. The last line is 'N passed, M
failed', of the books. The status is 0 where none failed, 1 where one did, 2 where there is no program.
"""
from __future__ import annotations

import random
import sys
from typing import Iterable, Optional, Sequence

sys.dont_write_bytecode = True
from lib import lorawan
from lib.drawn_books import book_of, damaged, lines_behind
from lib.model_trials import Tried, compared
from lib.plain_book import HOUR, PlainBook
from lib.plain_saved import Fault, reader, saved
from lib.plain_server import Malformed, lines_of, unsigned

BOOKS = 500
COMMON = """ok;no NoBand;no TooLong;no PastEnd;no Passed;no Taken;no DutyFull;no Full;cancelled;no Begun;no NotHere;floor;at
no NoStart;bad;booked;busiest;airbook;gateway;r;end;Syntax of the version;Syntax of the gateway;Syntax of a member
Syntax of the end;Version of the version;Unlawful of the gateway;Unlawful of a member"""


def earliest(book: PlainBook, number: int, low: int, last: int, frequency: int, rate: int, length: int) -> str:
    """The least start in the bounds that is accepted: one of those at which a refusal can end (docs/MODEL.md)."""
    tried = [max(low, book.floor)]
    for start, end, *_ in book.members:
        tried += [end + book.gap, start + HOUR]
    for start in sorted(start for start in tried if low <= start <= last):
        band = lorawan.band_of(frequency, rate)
        if book.unfit(start, frequency, rate, length) is None:
            if book.refusal(start, (frequency, band, lorawan.LIMITS[band], []), lorawan.airtime(rate, length)) is None:
                return f"at {number} {start}"
    return f"no {number} NoStart"


def data_rate(word: bytes) -> int:
    rate = unsigned(word, 8)
    if rate > 6:
        raise Malformed
    return rate


def answer(book: PlainBook, line: bytes) -> Optional[str]:
    """What answers a line behind a saved book, if it asks for something."""
    words = [word for word in line.replace(b"\t", b" ").split(b" ") if word]
    if len(line) <= 1024 and (not words or line.startswith(b"#")):
        return None
    count = {b"book": 6, b"cancel": 3, b"tick": 2, b"earliest": 7}.get(words[0] if words else b"")
    if len(line) > 1024 or len(words) != count:
        raise Malformed
    if words[0] == b"tick":
        return book.tick(unsigned(words[1], 64))
    if words[0] == b"cancel":
        return book.cancel(unsigned(words[1], 64), unsigned(words[2], 64))
    moments = [unsigned(word, 64) for word in words[1:-3]]
    asked = [*moments, unsigned(words[-3], 32), data_rate(words[-2]), unsigned(words[-1], 8)]
    return book.ask(*asked) if words[0] == b"book" else earliest(book, *asked)


def continued(book: PlainBook, lines: Iterable[bytes], is_saved: bool) -> list[str]:
    """All that is written for lines behind a saved book."""
    told = []
    for place, line in enumerate(lines, 1):
        try:
            told.append(answer(book, line))
        except Malformed:
            told.append(f"bad {place} Syntax")
    return [line for line in told if line is not None] + (saved(book) if is_saved else book.report())


# What is drawn: a book, what is damaged of its text, and the lines behind it.


def padded(chance: random.Random, text: bytes) -> bytes:
    """The text with a zero before a number, which only the lines behind a saved book may have."""
    places = [at for at in range(1, len(text)) if text[at - 1:at] == b" " and text[at:at + 1].isdigit()]
    at = chance.choice(places or [len(text)])
    return text[:at] + b"0" + text[at:]


def trial(seed: int) -> tuple[list[str], bytes, bytes, bytes, int, Optional[tuple[str, int]]]:
    """The arguments and the input of a run; what is wanted: output, standard error, status; and the fault, with its place."""
    chance = random.Random(seed)
    book, rates = book_of(chance)
    lines, behind = saved(book, chance.choice([1, 2, 2])), list(lines_behind(chance, book, rates))
    is_whole = chance.random() < 1 / 3
    lines = lines if is_whole else damaged(chance, lines)
    text = "".join(line + "\n" for line in lines + behind).encode()
    if not is_whole and chance.random() < 0.2:
        text = text[:chance.randrange(len(text) + 1)]
    elif not is_whole and chance.random() < 0.1:
        text = text.replace(b"\n", b"\r\n", chance.choice([1, -1]))
    is_saved = chance.random() < 0.5
    words = ["book", "--resume"] + ["--save"] * is_saved
    words += chance.choice([[], [], [], ["--cap", "0"], ["--cap", "1", "--gap", "5"], ["--gap", "100001"]])
    if chance.random() < 0.1:
        text = padded(chance, text)
    try:
        found, rest = reader(text)
    except Fault as fault:
        name, place, kind = fault.args
        return words, text, b"", f"airbook: {name}\n".encode(), 2, (f"{name} of {kind}", place)
    told = continued(found, lines_of(rest), is_saved)
    refused = any(line.split(" ")[0] in ("no", "bad") for line in told)
    return words, text, "".join(line + "\n" for line in told).encode(), b"", int(refused), None


def kind_of_answer(line: str) -> str:
    words = line.split()
    return f"no {words[2]}" if words[0] == "no" else words[0]


def tried(seed: int, _is_last: bool) -> Tried:
    arguments, text, *wanted, fault = trial(seed)
    came = [kind_of_answer(line) for line in wanted[0].decode().splitlines()] + ([fault[0]] if fault else [])
    told = f"{fault[0]}, in line {fault[1]}" if fault else "none"
    return arguments, text, tuple(wanted), came, f"{' '.join(arguments)}; the first fault: {told}"


def main(words: Sequence[str]) -> int:
    return compared(words, BOOKS, COMMON, tried)


if __name__ == "__main__":
    sys.exit(main(sys.argv[1:]))
