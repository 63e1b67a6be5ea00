"""Saved books that are drawn, what is damaged of their text, and lines behind them."""
from __future__ import annotations

from random import Random
from typing import Iterator, Sequence

from lib import lorawan
from lib.drawn_traffic import NO_CHANNELS
from lib.plain_book import HOUR, PlainBook

CHANNELS = [863_500_000, 864_000_000, 867_100_000, 868_100_000, 868_537_500, 868_850_000, 869_525_000, 869_850_000]


def frame_of(chance: Random, rates: Sequence[int]) -> tuple[int, int, int]:
    """A frequency, data rate and length that a book may have."""
    rate = chance.choice(rates)
    frequency = chance.choice([one for one in CHANNELS if lorawan.band_of(one, rate)])
    return frequency, rate, chance.choice([12, 12, 12, 0, lorawan.greatest(rate), chance.randrange(lorawan.greatest(rate))])


def book_of(chance: Random) -> tuple[PlainBook, Sequence[int]]:
    """A book with some transmissions, most within few hours and some of them next to one another."""
    cap, gap = chance.choice([1, 5, 20, 4_096, 65_536]), chance.choice([0, 0, 1, 1_000, 100_000])
    book = PlainBook(cap, gap, chance.choice([1, 0, 7, 65_535]))
    base = chance.choice([0, 0, 0, 10_000_000, 10_000_000, lorawan.END - 3 * HOUR])
    rates = chance.choice([[0], [0, 1, 5], range(7)])
    for number in range(chance.randrange(0, 40)):
        beside = chance.choice(book.members)[1] + book.gap if book.members else base
        start = chance.choice([beside] * 5 + [base + chance.randrange(3 * HOUR)] * 3 + [lorawan.END - 991_232] * (number == 30))
        book.ask(chance.choice([number, number, (1 << 64) - 1]), start, *frame_of(chance, rates))
    if book.members and chance.random() < 0.4:
        start = chance.choice(book.members)[0]
        book.tick(chance.choice([start, start + 1, start + HOUR, start + HOUR + 1]))
    return book, rates


def lines_behind(chance: Random, book: PlainBook, rates: Sequence[int]) -> Iterator[str]:
    """Some lines for a book, with what a plain one keeps in mind; some ask for nothing."""
    for number in range(chance.randrange(0, 12)):
        frequency, rate, length = frame_of(chance, rates)
        frequency = chance.choice(NO_CHANNELS) if chance.random() < 0.05 else frequency
        length = chance.choice([65, 129, 255]) if chance.random() < 0.05 else length
        member = chance.choice(book.members) if book.members else (HOUR, HOUR, 0)
        beside = [0, -1, 1, member[1] - member[0] + book.gap, HOUR, -HOUR, chance.randrange(2 * HOUR)] * 2 + [lorawan.END]
        near, far = max(member[0] + chance.choice(beside), 0), chance.choice([60, HOUR, 1 << 62, -1])
        kind = chance.random()
        if kind < 0.5:
            yield f"book {number} {near} {frequency} {rate} {length}"
        elif kind < 0.65:
            yield f"cancel {member[2] + (chance.random() < 0.2 and member[2] < 99)} {member[0]}"
        elif kind < 0.75:
            yield f"tick {chance.choice([near, book.floor + 1, member[0]])}"
        elif kind < 0.9:
            yield f"earliest {number} {near} {max(near + far, 0)} {frequency} {rate} {length}"
        else:
            member = "r 1 2 868100000 5 12"
            yield chance.choice(["", "# nothing", "plan", "airbook 2", "end 0", member, f"book {number} {near} {frequency} 7 12"])


def respelled(chance: Random, lines: list[str]) -> list[str]:
    """A line with one word, blank or byte otherwise."""
    at = chance.randrange(len(lines))
    words, line = lines[at].split(" "), lines[at]
    place = chance.randrange(len(words))
    odd = ["0" + words[place]] * 4 + [words[place] + "0", "", "0", "1", "x", "+1", "-1", "7", "65", "256", "65536", "65537"]
    odd += ["4294967296", "18446744073709551616", "1" * 21]
    drawn = [" ".join(words[:place] + [word] + words[place + 1:]) for word in odd]
    drawn += [line + end for end in (" ", "\r", " 1")] + [line.replace(" ", blanks, 1) for blanks in ("  ", "\t", "")]
    drawn += [" " + line, line[:-1], line.upper(), " ".join(words[:-1]), line.ljust(80), line.ljust(81), "", "#" + line, "# note"]
    return lines[:at] + [chance.choice(drawn)] + lines[at + 1:]


def reordered(chance: Random, lines: list[str]) -> list[str]:
    """A line left out, doubled, or before the one that it follows."""
    at = chance.randrange(len(lines))
    swapped = lines[:at] + lines[at:at + 2][::-1] + lines[at + 2:]
    return chance.choice([lines[:at] + lines[at + 1:], lines[:at + 1] + lines[at:], swapped])


def renumbered(chance: Random, lines: list[str]) -> list[str]:
    """The text of another version, with another cap, floor, gap or count, or with a transmission that no such book may hold."""
    told = [line.split(" ") for line in lines]
    members = [words for words in told if words[0] == "r" and len(words) == 6]
    second = told[1] if len(told) > 1 and len(told[1]) > 3 else None
    one = chance.choice(members) if members else None
    kind = chance.randrange(8)
    if kind == 0:
        told[0] = ["airbook", chance.choice("0 3 9 1 2 4294967295 4294967296 01".split())]
    elif kind == 1 and second:
        second[2] = str(chance.choice([0, 65_536, 65_537, (1 << 32) - 1, max(len(members) - 1, 0), len(members)]))
    elif kind == 2 and second and one and one[2].isdigit():
        second[3] = str(int(one[2]) + chance.choice([0, HOUR, HOUR + 1]))
    elif kind == 3 and len(second or []) > 4:
        second[4] = str(chance.choice([1, 100_000, 100_001, (1 << 32) - 1]))
    elif kind == 4:
        told[-1] = ["end", str(len(members) + chance.choice([-1, 0, 1]))]
    elif one:
        drawn = [(2, chance.choice(members)[2]), (2, str(lorawan.END)), (2, str((1 << 64) - 1)), (4, chance.choice("0567"))]
        drawn += [(3, str(chance.choice(NO_CHANNELS))), (3, "863500000"), (3, "868850000")]
        drawn += [(5, chance.choice(["64", "65", "255"]))]
        if one[2].isdigit():
            drawn += [(2, str(max(int(one[2]) + chance.choice([-1, 1, -HOUR, HOUR]), 0)))] * 3
        place, word = chance.choice(drawn)
        one[place] = word
    return [" ".join(words) for words in told]


def damaged(chance: Random, lines: list[str]) -> list[str]:
    """The lines of a saved book with one or two faults, or what happens to be none."""
    for _ in range(chance.choice([1, 1, 2])):
        lines = chance.choice([respelled, reordered, renumbered, renumbered])(chance, lines) or ["end 0"]
    return lines
