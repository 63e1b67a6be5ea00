#!/usr/bin/env python3
"""Refuses each growth of the program in turn on the texts of a book, and compares what it answers to the last byte.

Usage: tests/refused_books.py [PROGRAM]      (the program that the gate leaves)

A growth is refused alone, and then with all that follow, until there is none of that number (`refused_growths.py` says how).
Where the program itself finds no memory it ends with status 2, names that, and has written nothing; else it ends with one of
the answers of its row below: a booking without memory is refused by a line, a saved book without memory is not resumed, and all
that follows is answered as ever. Each answer of a row has to come, but for plans of which a part finds memory: which these are
is decided by the size of an arena's chunks. No less is answered where a later growth is the first that is refused with all
behind it. Of the growths of a book just as many as its row says change the answer where they alone are refused: one for each
booking. The last line is 'N passed, M failed', of the rows; the status is 0 where none failed, 1 where one did, 2 where
nothing could be run.
"""
from __future__ import annotations

import functools
import os
import pathlib
import re
import sys
import tempfile
from typing import Optional, Sequence

sys.dont_write_bytecode = True
from lib.places import CASES, PROGRAM
from lib.preloaded import library_of
from lib.refusing import ALL, MOST, REFUSING, Ended, run_on
from lib.trials import tell

# Refuses `airtime_planner` `answer_to` (`plan_text` calls it): as `GatewayBook::book`.
# Refuses `book_texts` `book_text`: 1 for each booking that is accepted, and for each member of a saved book.
# Refuses `book_texts` `picture_text`: 1 for each member of the saved book.
# Refuses `book_texts` `plan_text`: as `book_text`; 1 for the list of the book, and chunks of an arena by size.

# The arguments, the input, the answers, and how many growths change what is answered where each of them alone is refused.
Row = tuple[list[str], bytes, list[bytes], Optional[int]]
BOOKINGS = b"book 1 10000000 868100000 5 12\nbook 2 10041216 868100000 5 12\n"
SAVED = b"airbook 1\ngateway 1 4096 0\nr 1 10000000 868100000 5 12\nend 1\nbook 2 10041216 868100000 5 12\n"
PLAN = b"".join([
    b"book 1 10000000 868100000 5 12\nplan\n", *(b"book %d %d0000000 868100000 5 12\n" % (n, n) for n in (2, 3, 4, 5)),
    b"earliest 6 10000000 60000000 868100000 5 12\n",
])
OK_1, OK_2 = b"ok 1 10000000 10041216\n", b"ok 2 10041216 10082432\n"
NO_1, NO_2 = b"no 1 NoMemory\n", b"no 2 NoMemory\n"
HEAD, R_1, R_2 = b"airbook 2\ngateway 1 4096 0 0\n", b"r 1 10000000 868100000 5 12\n", b"r 2 10041216 868100000 5 12\n"


def report(count: int, start: int) -> bytes:
    """The report of so many transmissions of 12 bytes at DR5, of which the first begins there."""
    airtime = 41216 * count
    head = f"booked {airtime}\ncancelled 0\nretired 0\nkept {count} {airtime}\nfloor 0\n"
    return (head + f"busiest M {start} {airtime}\n" * (count > 0)).encode()


def planned(count: int, is_copied: bool = True) -> bytes:
    """What is written of the plan where so many of its four bookings find memory, the first ones."""
    lines = [b"if ok %d %d0000000 %d0041216\n" % (n, n, n) for n in range(2, 2 + count)]
    lines += [b"if no %d NoMemory\n" % n for n in range(2 + count, 6)]
    return OK_1 + b"".join(lines) + (b"if at 6 10041216\n" if is_copied else b"if no 6 NoMemory\n") + report(1, 10000000)


def planned_on_nothing(count: int) -> bytes:
    """The same where the booking before the plan finds no memory."""
    lines = planned(count).splitlines(keepends=True)[1:6]
    return NO_1 + b"".join(lines).replace(b"if at 6 10041216", b"if at 6 10000000") + report(0, 0)


# The arguments, the input, the answers by what they have of it, least first, and how many growths change what is answered where
# each of them alone is refused, and the program goes on; None where an arena decides.
ROWS: list[Row] = [
    (["book"], BOOKINGS, [
        NO_1 + NO_2 + report(0, 0), NO_1 + OK_2 + report(1, 10041216), OK_1 + NO_2 + report(1, 10000000),
        OK_1 + OK_2 + report(2, 10000000),
    ], 2),
    (["book", "--save"], BOOKINGS, [
        NO_1 + NO_2 + HEAD + b"end 0\n", NO_1 + OK_2 + HEAD + R_2 + b"end 1\n", OK_1 + NO_2 + HEAD + R_1 + b"end 1\n",
        OK_1 + OK_2 + HEAD + R_1 + R_2 + b"end 2\n",
    ], 2),
    (["book", "--resume"], SAVED, [NO_2 + report(1, 10000000), OK_2 + report(2, 10000000)], 1),
    (["book", "--resume", "--save"], SAVED, [NO_2 + HEAD + R_1 + b"end 1\n", OK_2 + HEAD + R_1 + R_2 + b"end 2\n"], 1),
    (["picture"], SAVED, [(CASES / "picture_of_one_booking" / "stdout").read_bytes()], 0),
    (["plan"], PLAN, [
        planned_on_nothing(0), planned_on_nothing(4), planned(0, is_copied=False), *(planned(count) for count in range(5)),
    ], None),
]
# Those that need not come.
PARTLY = [planned(count) for count in range(4)]


def place_of(how: Ended, answers: Sequence[bytes]) -> Optional[int]:
    """Which answer a run gave; -1 where it named want of memory and wrote nothing, None where it ended otherwise."""
    if how.status == 2 and not how.out and re.search(rb"(?m)^(airbook: NoMemory|error: out of memory)$", how.err):
        return -1
    if how.out not in answers or how.status != int(re.search(rb"(?m)^no ", how.out) is not None):
        return None
    return answers.index(how.out)


def faults_of(program: pathlib.Path, library: pathlib.Path, folder: pathlib.Path, row: Row) -> list[str]:
    """What is wrong with the answers of a row, a line each."""
    words, text, answers, wanted_alone = row
    (folder / "input").write_bytes(text)
    seen: set[int]
    seen, so_far, alone = set(), -1, 0
    for number in range(1, MOST):
        for last in (number, ALL):
            given = os.open(folder / "input", os.O_RDONLY)
            count, how = run_on(program, library, folder, (words, given, None), number, last)
            place = place_of(how, answers)
            if place is None:
                return [f"growth {number}{' and all after it' * (last == ALL)} refused: {how}"]
            if last == ALL and place < so_far:
                return [f"growth {number} and all after it refused: answer {place} after answer {so_far}"]
            so_far = place if last == ALL else so_far
            alone += last == number and 0 <= place < len(answers) - 1
            seen.add(place)
            if count == 0:
                wanted = [-1, *(place for place, answer in enumerate(answers) if answer not in PARTLY)]
                faults = [f"answer {it} never came" for it in wanted if it not in seen]
                if wanted_alone not in (None, alone):
                    faults.append(f"{alone} growths change the answer, and not {wanted_alone}")
                return faults
    return ["no end of growths"]


def main(words: Sequence[str]) -> int:
    program = pathlib.Path(words[0] if words else PROGRAM).resolve()
    if not program.is_file():
        print(f"refused_books.py: no program at {program}", file=sys.stderr)
        return 2
    with tempfile.TemporaryDirectory() as made:
        folder = pathlib.Path(made)
        library = library_of(REFUSING, folder)
        return tell([(" ".join(row[0]), functools.partial(faults_of, program, library, folder, row)) for row in ROWS])


if __name__ == "__main__":
    sys.exit(main(sys.argv[1:]))
