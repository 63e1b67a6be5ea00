#!/usr/bin/env python3
"""Compares `airbook book` with a plain list on random commands: bookings, cancellations and ticks in hours that are full.

Usage: tests/random_books.py [PROGRAM [COMMANDS [SEED]]]     (the program that the gate leaves, 100,000, 1)

The list (lib/plain_book.py) is kept by start and asked as docs/FORMATS.md says: it keeps no sum and no tree, and each answer is
found by going over it. A quarter of the commands each is given to a book of few members in narrow hours (sub-band K), of many in
wide ones (P), of both beside M with a gap, and to one with a small cap. Each answer that differs has a line; the last line is 'N
passed, M failed', of the books. The status is 0 where none failed, 1 where one did, 2 where there is no program.
"""
from __future__ import annotations

import random
import sys
from typing import Iterator, Sequence

sys.dont_write_bytecode = True
from lib.arguments import asked_for
from lib.model_trials import answers_alike
from lib.plain_book import HOUR, K, M, P, Book, Channel
from lib.trials import last_line

# A name, the channels, the cap, the gap, and how far ahead of the floor is booked.
BOOKS = [
    ("narrow hours", [K], 4096, 0, 3 * HOUR),
    ("wide hours", [P], 65536, 0, HOUR + HOUR // 2),
    ("three bands with a gap", [K, M, P], 4096, 50_000, 2 * HOUR),
    ("a small cap", [M, P], 64, 1, 4 * HOUR),
]


def commands(chance: random.Random, channels: Sequence[Channel], plain: Book, ahead: int, count: int) -> Iterator[tuple[str, str]]:
    """So many lines, with what the list answers to each."""
    for number in range(count):
        kind = chance.random()
        member = plain.members[chance.randrange(len(plain.members))] if plain.members else None
        if kind < 0.01:
            now = plain.floor + chance.randrange(HOUR // 8)
            yield f"tick {now}", plain.tick(now)
        elif kind < 0.25 and member:
            named = member[2] + (chance.random() < 0.1)
            yield f"cancel {named} {member[0]}", plain.cancel(named, member[0])
        else:
            channel = chance.choice(channels)
            rate, length, airtime = chance.choice(channel[3])
            beside = member and chance.random() < 0.3
            start = plain.floor + chance.randrange(ahead)
            if beside:
                start = max(member[0] + chance.choice([-HOUR, HOUR, -1, 0, member[4], member[4] + plain.gap, HOUR - 1]), 0)
            yield f"book {number} {start} {channel[0]} {rate} {length}", plain.book(number, start, channel, airtime)


def compared(program: str, name: str, channels: Sequence[Channel], cap: int, gap: int, ahead: int, count: int, seed: int) -> bool:
    """Whether the program answers as the list does."""
    plain = Book(cap, gap)
    told = list(commands(random.Random(seed), channels, plain, ahead, count))
    wanted = [answer for _, answer in told] + plain.report()
    kinds: dict[str, int] = {}
    for _, answer in told:
        word = answer.split()[2] if answer.startswith("no") else answer.split()[0]
        kinds[word] = kinds.get(word, 0) + 1
    print(f"{name}: {count} commands, {', '.join(f'{kinds[k]} {k}' for k in sorted(kinds))}; {wanted[count + 3]}")
    return answers_alike(program, name, plain, [line for line, _ in told], wanted)


def main(words: Sequence[str]) -> int:
    asked = asked_for(words, 100_000)
    if asked is None:
        return 2
    program, count, seed = asked
    passed = sum(compared(program, *book, count // len(BOOKS), seed + i) for i, book in enumerate(BOOKS))
    return last_line(passed, len(BOOKS) - passed)


if __name__ == "__main__":
    sys.exit(main(sys.argv[1:]))
