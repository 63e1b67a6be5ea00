#!/usr/bin/env python3
"""Compares `airbook picture` with a plain model on random saved books, whole and damaged, and has an XML reader take each picture.

Usage: tests/pictures.py [PROGRAM [BOOKS [SEED]]]     (the program that the gate leaves, 200, 1)

The books are drawn as in random_saved.py; the plain reader tells the fault of a damaged one. Each picture is of an hour that is
asked for, near a transmission or far off, or of the latest. The model is written from docs/FORMATS.md alone; the lines that are
always the same are taken from the case of an empty book. Output, standard error and status are compared. In what Python's XML
reader finds, the marks are counted, by their class, and elements of one id.

What differs has a line. Then comes how many of each kind were drawn, and of each fault; where 200 books or more were asked for, a
common kind that never came is one failure. The last line is 'N passed, M failed', of the books. The status is 0 where none failed,
1 where one did, 2 where there is no program.
"""
from __future__ import annotations

import collections
import random
import sys
import xml.etree.ElementTree
from typing import Iterator, Optional, Sequence, Union

sys.dont_write_bytecode = True
from lib import lorawan
from lib.drawn_books import book_of, damaged, lines_behind
from lib.lorawan import HOUR
from lib.model_trials import Tried, compared
from lib.places import CASES
from lib.plain_book import PlainBook
from lib.plain_saved import Fault, reader, saved

# A transmission: its start, its end, its sub-band and its data rate.
Member = tuple[int, int, str, int]
BOOKS = 200
ROWS = "KLMNPQ"
RIGHT = ' class="right"'
EMPTY = CASES / "picture_of_an_empty_book" / "stdout"
SVG = "{http://www.w3.org/2000/svg}"
COMMON = """no marks;marks;floor in the hour;floor elsewhere;nothing is kept;a full bar;an empty bar;the hour
asked for;the latest hour;Syntax;Version;Unlawful""".replace("\n", " ")


def always() -> list[str]:
    """The lines that are the same in each picture."""
    lines = EMPTY.read_text().splitlines()
    first = next(at for at, line in enumerate(lines) if line.startswith("<desc>"))
    return lines[first:next(at for at, line in enumerate(lines) if line.startswith('<rect class="bar"'))]


def members_of(book: PlainBook) -> Iterator[Member]:
    """Of each transmission its start, its end, its sub-band and its data rate."""
    for start, end, *_ in book.members:
        frequency, rate, _ = book.asks[start]
        yield start, end, lorawan.band_of(frequency, rate), rate


def airtime_in(members: Sequence[Member], band: str, opening: int) -> int:
    """What begins of a sub-band in the hour that opens there."""
    return sum(end - start for start, end, of, _ in members if of == band and opening <= start < opening + HOUR)


def busiest_of(members: Sequence[Member], band: str) -> str:
    """The words of a sub-band's busiest hour; the first of equal ones."""
    hours = [(-airtime_in(members, band, start), start) for start, _, of, _ in members if of == band]
    if not hours:
        return "nothing is kept"
    airtime, start = min(hours)
    return f"busiest hour {-airtime} us from {start} us"


def text(x: int, y: int, words: str, kind: str = "") -> str:
    return f'<text{kind} transform="scale(1000)" x="{x}" y="{y}">{words}</text>'


def picture(book: PlainBook, asked: Optional[int]) -> tuple[list[str], list[str]]:
    """All that is written of a book, and what is drawn."""
    members = list(members_of(book))
    opening = max(max((end for _, end, *_ in members), default=0) - HOUR, 0) if asked is None else asked
    hour = f"gateway {book.gateway}, the hour from {opening} us"
    lines = ['<svg xmlns="http://www.w3.org/2000/svg" viewBox="0 0 1000000 600000" role="img">']
    lines += [f"<title>airbook: {hour}</title>", text(994, 122, hour, RIGHT)]
    holds = opening <= book.floor < opening + HOUR
    if holds:
        lines += [f'<path class="floor" d="M{(book.floor - opening) // 3600} 0V600000"/>']
    floor = f"dashed line: floor {book.floor} us" if holds else f"floor {book.floor} us, not in this hour"
    lines += [text(994, 222, floor, RIGHT)]
    lines += always()
    drawn = ["floor in the hour" if holds else "floor elsewhere", "the latest hour" if asked is None else "the hour asked for"]
    for row, band in enumerate(ROWS):
        airtime, limit, busiest = airtime_in(members, band, opening), lorawan.LIMITS[band], busiest_of(members, band)
        bar = airtime * 1_000_000 // limit
        lines += [f'<rect class="bar" x="0" y="{100_000 * row + 34_000}" width="{bar}" height="16000"/>']
        words = f'<tspan class="letter">{band}</tspan> this hour {airtime} us of {limit} us, {busiest}'
        lines += [text(8, 100 * row + 22, words)]
        drawn += ["nothing is kept"] * (busiest == "nothing is kept") + ["a full bar"] * (bar > 800_000) + ["an empty bar"] * (bar == 0)
    for start, end, band, rate in members:
        if opening <= start < opening + HOUR:
            x, y, wide = (start - opening) // 3600, 100_000 * ROWS.index(band) + 60_000, max(1000, (end - start) // 3600)
            lines += [f'<rect class="d{rate}" x="{x}" y="{y}" width="{wide}" height="30000"/>']
            drawn += ["marks"]
    return lines + ["</svg>"], drawn + ["no marks"] * ("marks" not in drawn)


def faults_of(told: str) -> Optional[str]:
    """What an XML reader has against a picture: a line, or none."""
    root = xml.etree.ElementTree.fromstring(told)
    if root.tag != SVG + "svg" or [child.tag for child in root][:1] != [SVG + "title"] or root.find(SVG + "desc") is None:
        return "no svg with a title and a desc"
    ids = collections.Counter(element.get("id") for element in root.iter() if element.get("id"))
    if len(ids) != 7 or max(ids.values()) > 1:
        return f"ids: {ids}"
    marks = sum(element.get("class", "")[:1] == "d" and element.tag == SVG + "rect" for element in root.iter())
    lines = sum(line.startswith('<rect class="d') for line in told.splitlines())
    return None if marks == lines else f"{marks} marks in {lines} lines"


def asked_of(chance: random.Random, book: PlainBook) -> Optional[int]:
    """The hour that is asked for; none in two of five."""
    near = [start for start, *_ in book.members] or [0]
    start = chance.choice(near)
    far: list[Optional[int]] = [0, lorawan.END, lorawan.END + 1, (1 << 64) - 1, chance.randrange(1 << 64)]
    drawn: list[Optional[int]]
    drawn = [start, start, start + 1, max(start - HOUR, 0), max(start + 1 - HOUR, 0), max(book.floor - HOUR, 0), book.floor]
    return chance.choice([None] * 8 + drawn * 2 + far)


def tried(seed: int, _is_last: bool) -> Tried:
    """The arguments and the input of a run, what is wanted of it, what is drawn, and what the XML reader says of that."""
    chance = random.Random(seed)
    book, rates = book_of(chance)
    asked, lines = asked_of(chance, book), saved(book, chance.choice([1, 2, 2]))
    lines = damaged(chance, lines) if chance.random() < 0.25 else lines
    behind = list(lines_behind(chance, book, rates)) if chance.random() < 0.2 else []
    given = "".join(line + "\n" for line in lines + behind).encode()
    words = ["picture", *([] if asked is None else ["--from", str(asked)])]
    try:
        found, _ = reader(given)
    except Fault as fault:
        return words, given, (b"", f"airbook: {fault.args[0]}\n".encode(), 2), [fault.args[0]], " ".join(words)
    told: Union[list[str], str]
    told, drawn = picture(found, asked)
    told = "".join(line + "\n" for line in told)
    fault = faults_of(told)
    # A picture that no XML reader takes is wanted of no program.
    wanted = (b"" if fault else told.encode(), b"", 0)
    return words, given, wanted, drawn, f"{' '.join(words)}: {fault or 'taken by the XML reader'}"


def main(words: Sequence[str]) -> int:
    return compared(words, BOOKS, COMMON, tried)


if __name__ == "__main__":
    sys.exit(main(sys.argv[1:]))
