"""A plain reader of journals, written from docs/FORMATS.md alone; and the SQL of what they say.

It goes line by line, and each transmission is asked of the plain list of plain_book.py, which holds those before it.
"""
from __future__ import annotations

from typing import Any, Callable, Optional, Union

from lib.plain_book import PlainBook
from lib.plain_saved import plain
from lib.plain_server import Malformed

# A value of a row.
Value = Union[None, int, str, bytes]
LOWER = b"0123456789abcdef"
TABLES = """\
CREATE TABLE gateway (id INTEGER PRIMARY KEY, eui TEXT NOT NULL, cap INTEGER NOT NULL, gap INTEGER NOT NULL, \
high INTEGER NOT NULL, floor INTEGER NOT NULL) STRICT;
CREATE TABLE device (addr INTEGER PRIMARY KEY, session INTEGER NOT NULL, up INTEGER, down INTEGER NOT NULL) STRICT;
CREATE TABLE queued (id INTEGER PRIMARY KEY, addr INTEGER NOT NULL, port INTEGER NOT NULL, payload BLOB NOT NULL) STRICT;
CREATE TABLE sent (id INTEGER PRIMARY KEY, gateway INTEGER NOT NULL, start INTEGER NOT NULL, freq INTEGER NOT NULL, \
dr INTEGER NOT NULL, len INTEGER NOT NULL) STRICT;"""
MALFORMED = "is malformed, or says what can't be beside the lines before it"


class Fault(Exception):
    """Why nothing is recovered: the line, and what is told of it."""


class State:
    """What a journal says: of each gateway its EUI, what its clock shows and its book; of each device its session, its counters
    and what waits for it."""

    def __init__(self) -> None:
        self.gateways: dict[int, list[Any]] = {}
        self.devices: dict[int, list[Any]] = {}

    def gateway(self, number: int, eui: bytes, cap: int, gap: int) -> None:
        taken = number in self.gateways or any(eui == other[0] for other in self.gateways.values())
        if taken or len(self.gateways) == 64 or not 1 <= cap <= 65_536 or gap > 100_000:
            raise Malformed
        self.gateways[number] = [eui, 2_000_000, PlainBook(cap, gap, number)]

    def device(self, addr: int, session: bytes, up: Optional[int], down: int) -> None:
        if addr not in self.devices and len(self.devices) == 1_024:
            raise Malformed
        waiting = self.devices[addr][3] if addr in self.devices else []
        self.devices[addr] = [session, up, down, waiting]

    def queue(self, addr: int, port: int, payload: bytes) -> None:
        if addr not in self.devices or len(self.devices[addr][3]) == 16:
            raise Malformed
        self.devices[addr][3].append((port, payload))

    def taken(self, addr: int) -> None:
        if addr not in self.devices or not self.devices[addr][3]:
            raise Malformed
        del self.devices[addr][3][0]

    def clock(self, number: int, high: int, floor: int) -> None:
        if number not in self.gateways:
            raise Malformed
        self.gateways[number][1] = high
        self.gateways[number][2].tick(floor)

    def sent(self, number: int, start: int, frequency: int, rate: int, length: int) -> None:
        if number not in self.gateways or not self.gateways[number][2].ask(0, start, frequency, rate, length).startswith("ok"):
            raise Malformed

    def rows(self) -> dict[str, list[tuple[Value, ...]]]:
        """Of each table its rows."""
        waits = [(addr, *one) for addr, (*_, waiting) in self.devices.items() for one in waiting]
        known = [(number, *one) for number, one in self.gateways.items()]
        air = [(number, start, *book.asks[start]) for number, _, _, book in known for start, *_ in book.members]
        return {
            "gateway": [(number, eui.hex(), book.cap, book.gap, high, book.floor) for number, eui, high, book in known],
            "device": [(addr, int.from_bytes(session, "big"), up, down) for addr, (session, up, down, _) in self.devices.items()],
            "queued": [(place, *row) for place, row in enumerate(waits, 1)],
            "sent": [(place, *row) for place, row in enumerate(air, 1)],
        }


def digits(word: bytes, count: int) -> bytes:
    """So many bytes, two digits in lower case for each."""
    if len(word) != 2 * count or word.strip(LOWER):
        raise Malformed
    return bytes.fromhex(word.decode())


def address(word: bytes) -> int:
    return int.from_bytes(digits(word, 4), "big")


def up_of(word: bytes) -> Optional[int]:
    return None if word == b"-" else plain(word, 32)


def down_of(word: bytes) -> int:
    down = plain(word, 33)
    if down > 1 << 32:
        raise Malformed
    return down


def port_of(word: bytes) -> int:
    port = plain(word, 8)
    if not 1 <= port <= 223:
        raise Malformed
    return port


def payload_of(word: bytes) -> bytes:
    if not 1 <= len(word) <= 484:
        raise Malformed
    return b"" if word == b"-" else digits(word, len(word) // 2)


def rate_of(word: bytes) -> int:
    rate = plain(word, 8)
    if rate > 6:
        raise Malformed
    return rate


def bits(count: int) -> Callable[[bytes], int]:
    return lambda word: plain(word, count)


# By its first word a line's step, and how its fields are read.
FIELDS: dict[bytes, tuple[Callable[..., None], list[Callable[[bytes], Any]]]] = {
    b"gateway": (State.gateway, [bits(16), lambda word: digits(word, 8), bits(32), bits(32)]),
    b"device": (State.device, [address, lambda word: digits(word, 4), up_of, down_of]),
    b"queue": (State.queue, [address, port_of, payload_of]),
    b"taken": (State.taken, [address]),
    b"clock": (State.clock, [bits(16), bits(64), bits(64)]),
    b"sent": (State.sent, [bits(16), bits(64), bits(32), rate_of, bits(8)]),
}


def entry(line: bytes) -> tuple[Callable[..., None], list[Any]]:
    """What a line says: the step, and its fields."""
    name, *words = line.split(b" ")
    if name not in FIELDS or len(words) != len(FIELDS[name][1]):
        raise Malformed
    step, fields = FIELDS[name]
    return step, [field(word) for field, word in zip(fields, words)]


def is_entry(line: bytes) -> bool:
    try:
        entry(line)
    except Malformed:
        return False
    return True


def batches_of(text: bytes) -> tuple[list[list[bytes]], int]:
    """The lines of each batch, and how many lines there are. What has no line `.` behind it is in none."""
    lines = text.split(b"\n")[:-1]
    batches: list[list[bytes]] = []
    batch: list[bytes] = []
    for line in lines:
        if line == b".":
            batches.append(batch)
            batch = []
        else:
            batch.append(line)
    return batches, len(lines)


def head_of(line: bytes) -> None:
    """Looks at the first line."""
    words = line.split(b" ")
    try:
        if len(words) != 3 or words[:2] != [b"airbook", b"journal"]:
            raise Malformed
        version = plain(words[2], 32)
    except Malformed:
        raise Fault("line 1 of the journal is not the line of its version", "no head") from None
    if version != 1:
        raise Fault("line 1 of the journal has another version than 1", "another version")


def reader(text: bytes) -> tuple[State, bool]:
    """What a journal says, and whether its last batch is torn."""
    batches, count = batches_of(text)
    if not batches:
        told = f"line {count + 1} of the journal is missing: no line `.` ends a batch of entries"
        raise Fault(told, "no batch")
    head_of(batches[0][0] if batches[0] else b".")
    state, place = State(), 0
    for number, batch in enumerate(batches):
        if 0 < number == len(batches) - 1 and not all(map(is_entry, batch)):
            return state, True
        for line in batch:
            place += 1
            if place > 1:
                take(state, place, line)
        place += 1
    return state, False


def take(state: State, place: int, line: bytes) -> None:
    """Takes one line in."""
    try:
        step, fields = entry(line)
    except Malformed:
        raise Fault(f"line {place} of the journal {MALFORMED}", "a malformed line") from None
    try:
        step(state, *fields)
    except Malformed:
        raise Fault(f"line {place} of the journal {MALFORMED}", "a line that can't be there") from None


def value(one: Value) -> str:
    """A value, as SQL has it."""
    if one is None:
        return "NULL"
    if isinstance(one, bytes):
        return f"X'{one.hex()}'"
    return f"'{one}'" if isinstance(one, str) else str(one)


def sql(state: State) -> list[str]:
    """All of it."""
    rows = [(table, row) for table, rows in state.rows().items() for row in rows]
    inserted = [f"INSERT INTO {table} VALUES({','.join(map(value, row))});" for table, row in rows]
    return [*TABLES.splitlines(), "BEGIN;", *inserted, "COMMIT;"]
