#!/usr/bin/env python3
"""Compares `airbook recover` with a plain reader of journals on random ones, whole and damaged, and gives the SQL to SQLite.

Usage: tests/recover.py [PROGRAM [JOURNALS [SEED]]]     (the program that the gate leaves, 300, 1)

The reader is written from docs/FORMATS.md alone: line by line, and each transmission is asked of the plain list of
lib/plain_book.py, which holds those before it. Each journal has a few gateways and devices and some batches. Of two in three the
end is cut off, bytes of the last batch are 0, or a line is spelled otherwise, says something else, is left out or doubled. Half
of them are recovered as the book of a gateway, which may not be there, and half as SQL. Output, standard error and status are
compared. Python's SQLite makes a database of the SQL, and its rows have to be those of the reader.

What differs has a line. Then comes how many of each kind were drawn; where 300 journals or more were asked for, a common kind that
never came is one failure. The last line is 'N passed, M failed', of the journals. The status is 0 where none failed, 1 where one
did, 2 where there is no program.
"""
from __future__ import annotations

import random
import sqlite3
import sys
from typing import Iterable, Iterator, Optional, Sequence

sys.dont_write_bytecode = True
from lib.drawn_books import frame_of
from lib.model_trials import Tried, compared
from lib.plain_book import HOUR, PlainBook
from lib.plain_journal import Fault, State, Value, entry, reader, sql
from lib.plain_saved import saved
from lib.plain_server import Malformed

# Of each table its rows.
Rows = dict[str, list[tuple[Value, ...]]]
# The lines of each batch.
Batches = list[list[str]]
JOURNALS = 300
COMMON = """a book;SQL;rows in SQLite;a number above what SQLite has room for;NoGateway;whole;cut off;a torn batch
a line without an end;no batch;no head;another version;a malformed line;a line that can't be there"""


def in_database(lines: Iterable[str]) -> Rows:
    """The rows that SQLite has of it."""
    database = sqlite3.connect(":memory:")
    try:
        database.executescript("\n".join(lines))
        tables = [name for name, in database.execute("SELECT name FROM sqlite_master ORDER BY rowid")]
        return {table: list(database.execute(f"SELECT * FROM {table} ORDER BY rowid")) for table in tables}
    finally:
        database.close()


def by_key(rows: Rows) -> Rows:
    """The rows as SQLite orders them: those of a table by their first number."""
    return {table: sorted(own, key=lambda row: row[0]) for table, own in rows.items()}


def kept_by_sqlite(state: State) -> tuple[str, Optional[str]]:
    """What kind of SQL it is, and what SQLite has against it."""
    rows = state.rows()
    if any(isinstance(one, int) and one >> 63 for own in rows.values() for row in own for one in row):
        return "a number above what SQLite has room for", None
    found = in_database(sql(state))
    return "rows in SQLite", None if found == by_key(rows) else f"SQLite has {found}"


# What is drawn: the batches of a journal, and what is damaged of its text.


def first_batch(chance: random.Random, gateways: Iterable[int], devices: Iterable[int]) -> Iterator[str]:
    """The gateways and the devices."""
    for number in gateways:
        eui = chance.randbytes(8).hex()
        yield f"gateway {number} {eui} {chance.choice([1, 5, 4_096, 65_536])} {chance.choice([0, 45_000, 100_000])}"
    for addr in devices:
        yield counters(chance, addr)


def counters(chance: random.Random, addr: int) -> str:
    up, down = chance.choice(["-", 0, chance.randrange(1 << 32), (1 << 32) - 1]), chance.choice([0, chance.randrange(1 << 32), 1 << 32])
    return f"device {addr:08x} {chance.choice([bytes(4), chance.randbytes(4)]).hex()} {up} {down}"


def waiting(chance: random.Random, addr: int) -> str:
    payload = chance.randbytes(chance.choice([0, 1, 12, 51, 242])).hex() or "-"
    return f"queue {addr:08x} {chance.choice([1, 10, 223])} {payload}"


def drawn_line(chance: random.Random, state: State, gateways: Sequence[int], devices: Sequence[int]) -> str:
    """A line that may come next."""
    number, addr = chance.choice(gateways), chance.choice(devices)
    _, _, book = state.gateways[number]
    kind = chance.random()
    if kind < 0.5:
        start = (book.members[-1][1] + book.gap if book.members else book.floor) + chance.choice([0, 0, 1, 7_000_000, HOUR // 2])
        frequency, rate, length = frame_of(chance, range(7))
        return f"sent {number} {start} {frequency} {rate} {length}"
    if kind < 0.65:
        floor = book.floor + chance.choice([0, 0, 1_000_000, HOUR // 3, HOUR])
        high = chance.choice([floor, floor + 2_000_000] * 4 + [(1 << 63) - 1, (1 << 64) - 1])
        return f"clock {number} {high} {floor}"
    if kind < 0.75:
        return counters(chance, addr)
    return f"taken {addr:08x}" if kind > 0.9 else waiting(chance, addr)


def journal_of(chance: random.Random) -> Batches:
    """The batches of a journal: lines, most of which can be there."""
    gateways, devices = chance.sample([0, 1, 2, 7, 65_535], chance.randrange(1, 4)), [chance.randrange(1 << 32) for _ in range(3)]
    batches: Batches
    state, batches = State(), []
    lines = list(first_batch(chance, gateways, devices))
    for _ in range(chance.randrange(1, 6)):
        for line in lines:
            step, fields = entry(line.encode())
            step(state, *fields)
        batches.append(lines)
        lines = list(more_lines(chance, state, gateways, devices))
    return batches


def more_lines(chance: random.Random, state: State, gateways: Sequence[int], devices: Sequence[int]) -> Iterator[str]:
    """Some lines that can be there."""
    trial = State()
    trial.gateways = {number: [eui, high, copied(book)] for number, (eui, high, book) in state.gateways.items()}
    trial.devices = {addr: [session, up, down, list(waits)] for addr, (session, up, down, waits) in state.devices.items()}
    for _ in range(chance.randrange(0, 12)):
        line = drawn_line(chance, trial, gateways, devices)
        try:
            step, fields = entry(line.encode())
            step(trial, *fields)
        except Malformed:
            continue
        yield line


def copied(book: PlainBook) -> PlainBook:
    other = PlainBook(book.cap, book.gap, book.gateway)
    other.floor, other.members, other.asks = book.floor, list(book.members), dict(book.asks)
    return other


def text_of(batches: Batches) -> bytes:
    lines = ["airbook journal 1"] + [line for batch in batches for line in [*batch, "."]]
    return "".join(line + "\n" for line in lines).encode()


def spoiled(chance: random.Random, line: bytes) -> bytes:
    """A line that is spelled otherwise, or says something else."""
    words = line.split(b" ")
    place = chance.randrange(len(words))
    others = [b"", b"0", b"-", b"01", b"x", b"99999999999999999999", words[place] + b" ", words[place].upper(), b"223", b"1"]
    words[place] = chance.choice(others)
    return b" ".join(words)


def damaged(chance: random.Random, batches: Batches) -> bytes:
    """The text of a journal that was damaged."""
    text = text_of(batches)
    kind = chance.random()
    if kind < 0.35:
        return text[:chance.randrange(len(text)) if chance.random() < 0.5 else len(text) - chance.randrange(1, 60)]
    if kind < 0.65:
        first = len(text_of(batches[:-1]))
        own = bytearray(text)
        for at in chance.choices(range(first, len(text)), k=chance.choice([1, 1, 3])):
            own[at] = 0
        return bytes(own)
    lines = text.split(b"\n")
    at = chance.choice([0] + list(range(len(lines) - 1)) * 3) if chance.random() < 0.8 else 0
    if kind < 0.7:
        lines[0] = b"airbook journal " + chance.choice([b"0", b"2", b"4294967295", b"4294967296", b"01", b"-1", b""])
    elif kind < 0.85:
        lines[at] = spoiled(chance, lines[at])
    else:
        lines[at:at + 1] = [lines[at]] * chance.choice([0, 2])
    return b"\n".join(lines)


def kinds_of(given: bytes, is_torn: bool) -> list[str]:
    """What kind of journal it is."""
    if is_torn:
        return ["a torn batch"]
    lines = given.split(b"\n")
    if lines[-1]:
        return ["a line without an end", "cut off"]
    return ["whole"] if lines[-2] == b"." else ["cut off"]


def tried(seed: int, _is_last: bool) -> Tried:
    """The arguments and the input of a run, what is wanted of it, its kinds, and what SQLite says of it."""
    chance = random.Random(seed)
    batches = journal_of(chance)
    given = damaged(chance, batches) if chance.random() < 0.66 else text_of(batches)
    number = chance.choice([int(line.split(" ")[1]) for line in batches[0] if line.startswith("gateway")] * 3 + [3])
    words = ["recover", *(["--sql"] if chance.random() < 0.5 else ["--gateway", str(number)])]
    try:
        state, is_torn = reader(given)
    except Fault as fault:
        told, kind = fault.args
        return words, given, (b"", f"{told}\nairbook: Journal\n".encode(), 2), [kind], " ".join(words)
    if words[1] == "--gateway":
        if number not in state.gateways:
            return words, given, (b"", b"airbook: NoGateway\n", 2), ["NoGateway"], " ".join(words)
        lines, kinds, fault = saved(state.gateways[number][2]), ["a book"], None
    else:
        kind, fault = kept_by_sqlite(state)
        lines, kinds = sql(state), ["SQL", kind]
    # SQL of which SQLite makes something else is wanted of no program.
    told = fault or "".join(line + "\n" for line in lines)
    return words, given, (told.encode(), b"", 0), kinds + kinds_of(given, is_torn), " ".join(words)


def main(words: Sequence[str]) -> int:
    return compared(words, JOURNALS, COMMON, tried)


if __name__ == "__main__":
    sys.exit(main(sys.argv[1:]))
