"""A plain reader of saved books, written from docs/FORMATS.md alone; and how they are written.

It goes line by line, and each transmission is asked of the plain list of plain_book.py, which holds those before it.
"""
from __future__ import annotations

from typing import Sequence

from lib.plain_book import HOUR, PlainBook
from lib.plain_server import DIGITS, Malformed

def plain(word: bytes, bits: int) -> int:
    """A number in its one spelling."""
    if word.strip(DIGITS) or not word or len(word) > 1 and word.startswith(b"0") or int(word) >> bits:
        raise Malformed
    return int(word)


def numbers(line: bytes, first: bytes, bits: Sequence[int]) -> list[int]:
    """The numbers behind the first word, so many bits each, with one space before each."""
    words = line.split(b" ")
    if words[0] != first or len(words) != 1 + len(bits):
        raise Malformed
    return [plain(word, size) for word, size in zip(words[1:], bits)]


def kind_of(place: int, line: bytes) -> str:
    """What the line would be, for those who count."""
    return {1: "the version", 2: "the gateway"}.get(place, "the end" if line.startswith(b"e") else "a member")


class Fault(Exception):
    """A saved text that is none: the fault's name, and its line."""


def reader(text: bytes) -> tuple[PlainBook, bytes]:
    """The book that the text begins with, and the bytes behind it."""
    book, floor, version, place = None, 0, 0, 0
    while True:
        place += 1
        line, end, text = text.partition(b"\n")
        try:
            if not end or len(line) > 80:
                raise Malformed
            if place == 1:
                [version] = numbers(line, b"airbook", [32])
                if version not in (1, 2):
                    raise Fault("Version", place, kind_of(place, line))
            elif place == 2:
                gateway, cap, floor, *gap = numbers(line, b"gateway", [16, 32, 64] + [32] * (version - 1))
                book = PlainBook(cap, *gap or [0], gateway)
                lawful = 1 <= cap <= 65_536 and book.gap <= 100_000
            elif line.split(b" ")[0] == b"end":
                if numbers(line, b"end", [32]) != [len(book.members)]:
                    raise Malformed
                # Until here the floor was 0, so that no transmission was refused for it.
                book.floor = floor
                return book, text
            else:
                number, start, frequency, rate, length = numbers(line, b"r", [64, 64, 32, 8, 8])
                if rate > 6:
                    raise Malformed
                lawful = start + HOUR >= floor and not (book.members and start <= book.members[-1][0])
                lawful = lawful and book.ask(number, start, frequency, rate, length).startswith("ok")
        except Malformed:
            raise Fault("Syntax", place, kind_of(place, line)) from None
        if place > 1 and not lawful:
            raise Fault("Unlawful", place, kind_of(place, line))


def saved(book: PlainBook, version: int = 2) -> list[str]:
    """The text of a book."""
    gap = f" {book.gap}" if version > 1 else ""
    told = [f"airbook {version}", f"gateway {book.gateway} {book.cap} {book.floor}{gap}"]
    for start, _, number, *_ in book.members:
        frequency, rate, length = book.asks[start]
        told.append(f"r {number} {start} {frequency} {rate} {length}")
    return told + [f"end {len(book.members)}"]
