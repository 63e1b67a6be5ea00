#!/usr/bin/env python3
"""Compares the lines `earliest` of `airbook book` with a search that tries every start, on small random books.

Usage: tests/random_earliest.py [PROGRAM [BOOKS [SEED]]]     (the program that the gate leaves, 10,000, 1)

Each book has its own gap and a dozen commands at most; then it is asked for earliest starts within narrow bounds about the
moments at which the answer can change: its floor, the ends of its transmissions and an hour after their starts. What is wanted is
found by trying each start in the bounds on a plain list (lib/plain_book.py). Each answer that differs has a line, and so has it
where no earliest start of all stands right behind a transmission, or behind a full hour; the last line is 'N passed, M failed',
of the books. The status is 0 where none failed, 1 where one did, 2 where there is no program.
"""
from __future__ import annotations

import collections
import random
import sys
from typing import Sequence

sys.dont_write_bytecode = True
from lib.arguments import asked_for
from lib.model_trials import answers_alike
from lib.plain_book import HOUR, K, M, P, Book, Channel
from lib.trials import last_line

# A line, and what answers it.
Turn = tuple[str, str]
ASKS, WIDTH = 4, 60
ENOUGH = 1_000      # so many books have each kind of start


def drawn(chance: random.Random) -> tuple[Book, list[Channel], list[Turn]]:
    """A book with a gap, the channels that it is used on, and the lines that made it, each with its answer."""
    book = Book(chance.choice([3, 4096, 4096]), chance.choice([0, 0, 1, 1_000, 100_000]))
    lines: list[Turn]
    channels, spread, lines = chance.choice([[K], [K, M, P]]), chance.choice([3_000_000, 60_000_000]), []
    for number in range(chance.randrange(1, 13)):
        if chance.random() < 0.1:
            now = book.floor + chance.randrange(2 * HOUR)
            lines.append((f"tick {now}", book.tick(now)))
            continue
        channel = chance.choice(channels)
        rate, length, airtime = chance.choice(channel[3])
        near = chance.randrange(spread)
        start = book.floor + chance.choice([near, near, HOUR + near, chance.randrange(HOUR)])
        lines.append((f"book {number} {start} {channel[0]} {rate} {length}", book.book(number, start, channel, airtime)))
    return book, channels, lines


def turns(book: Book, airtime: int) -> list[int]:
    """Moments about which the earliest start can lie; more of them stand where an hour opens no more than behind a member, since
    few of those hours are full."""
    found = [book.floor]
    for start, end, *_ in book.members:
        found += [end + book.gap, start - airtime - book.gap, *[start + HOUR] * 4]
    return found


def question(chance: random.Random, book: Book, channels: Sequence[Channel], number: int) -> tuple[str, str, str]:
    """A line that asks for the earliest start in narrow bounds, with the answer of a search that tries each start; and why the
    start before that is refused, if it is looked at."""
    channel = chance.choice(channels)
    rate, length, airtime = chance.choice(channel[3])
    low = max(chance.choice(turns(book, airtime)) - chance.randrange(WIDTH), 0)
    high = max(low + chance.randrange(-1, WIDTH), 0)
    least = next((s for s in range(low, high + 1) if book.refusal(s, channel, airtime) is None), None)
    told = f"no {number} NoStart" if least is None else f"at {number} {least}"
    before = book.refusal(least - 1, channel, airtime) if least is not None and least > low else ""
    return f"earliest {number} {low} {high} {channel[0]} {rate} {length}", told, before.split(" ")[0]


def compared(program: str, seed: int) -> tuple[bool, int, collections.Counter[str]]:
    """Whether the program answers as the search does, how many starts were found, and what refuses the starts before these."""
    chance = random.Random(seed)
    book, channels, told = drawn(chance)
    asked = [question(chance, book, channels, 100 + n) for n in range(ASKS)]
    told += [(line, answer) for line, answer, _ in asked]
    wanted = [answer for _, answer in told] + book.report()
    alike = answers_alike(program, f"book {seed}", book, [line for line, _ in told], wanted)
    return alike, sum(answer.startswith("at") for _, answer in told), collections.Counter(before for *_, before in asked)


def main(words: Sequence[str]) -> int:
    asked = asked_for(words, 10_000)
    if asked is None:
        return 2
    program, count, seed = asked
    done = [compared(program, seed + i) for i in range(count)]
    behind: collections.Counter[str] = sum((before for *_, before in done), collections.Counter())
    print(f"{count * ASKS} asks, {sum(found for _, found, _ in done)} with a start, {behind['Taken']} of these right behind a "
          f"transmission and {behind['DutyFull']} behind a full hour")
    untried = [name for name in ("Taken", "DutyFull") if count >= ENOUGH and not behind[name]]
    for name in untried:
        print(f"failed: no start behind what is {name}")
    passed = sum(right for right, *_ in done)
    return last_line(passed, len(done) - passed + len(untried))


if __name__ == "__main__":
    sys.exit(main(sys.argv[1:]))
