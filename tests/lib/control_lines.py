"""Control datagrams of each kind and spelling.

They are written from docs/FORMATS.md ("airbook serve", "Lines, words, numbers").
"""
from __future__ import annotations

import itertools
from random import Random
from typing import Iterable

from lib.serving import EUIS

# Of these devices one has no payloads that wait at first, one as many as may wait, and one is for spellings; the last is none.
EMPTY, FULL, SPELT, UNKNOWN = "26011bda", "26011bdb", "2601abcd", "01020304"
MOST = 16
# The longest line, and the longest datagram.
LONGEST, MOST_BYTES = 1_024, 65_507


def text_of(lines: Iterable[str]) -> str:
    """Lines, each with its end."""
    return "".join(line + "\n" for line in lines)


def queue(addr: int, port: int, payload: bytes) -> bytes:
    return f"queue {addr:08x} {port} {payload.hex() or '-'}".encode()


def told_as(line: bytes) -> str:
    """How a line `queue` is told behind `> `, and stands in a journal: in one spelling."""
    name, addr, port, payload = line.decode().split()
    return f"{name} {addr.lower()} {int(port)} {payload.lower()}"


def filling(addr: str) -> list[bytes]:
    """As many payloads as may wait for a device."""
    return [queue(int(addr, 16), 9, bytes([place])) for place in range(MOST)]


def faults() -> list[bytes]:
    """Payloads with each fault beside each other one, and those with none. Some ports are no numbers of 8 bits."""
    ports, payloads = (0, 1, 223, 224, 255, 256), ("-", "00", "ab" * 242, "ab" * 243)
    rows = itertools.product((EMPTY, FULL, UNKNOWN), ports, payloads)
    return [f"queue {addr} {port} {payload}".encode() for addr, port, payload in rows]


def spellings() -> list[bytes]:
    """Lines that begin with `queue`, and ask for something or not."""
    plain = f"queue {SPELT} 9 ".encode()
    usual = plain + b"c0ffee"
    right = [usual, usual + b"\n", usual + b"\r\n", plain.replace(b"abcd", b"ABcD") + b"C0ffEE\n", plain + b"-\r\n"]
    right += [b"\tqueue\t\t" + SPELT.encode() + b" \t009  c0ffee \t\r\n", f"queue {SPELT} {'0' * 19}9 00".encode()]
    right += [usual.ljust(LONGEST), usual.ljust(LONGEST) + b"\n", usual.rjust(LONGEST, b"\t") + b"\r\n"]
    wrong = [usual.ljust(LONGEST + 1), usual.ljust(LONGEST + 1) + b"\r\n", plain + b"00" * LONGEST]
    wrong += [b"queue", b"queue\n", plain, usual + b" 1", usual + b" #", usual + b" \r\r\n", b"\0" + usual, usual + b"\0"]
    names = (b"", b"queue queue", b"QUEUE", b"Queue", b"queues", b"queu", b"queue\0", b"queue\xa0")
    wrong += [name + usual[5:] for name in names]
    wrong += [f"queue {addr} 9 00".encode() for addr in ("2601abc", "2601abcde", "2601abcg", "0x01abcd", "-", "")]
    ports = ("0" * 20 + "9", str((1 << 64) + 9), "+9", "-9", "0x9", "9.", "9,", "one", "-", "9\0")
    wrong += [f"queue {SPELT} {port} 00".encode() for port in ports]
    payloads = (b"0", b"c0f", b"0g", b"--", b"- -", b"@u:2601abcd:1", b"c0 ff", b"0x00", b"\xff\xff")
    wrong += [plain + payload for payload in payloads]
    return right + wrong + [usual.replace(b" ", other) for other in (b"\0", b"\v", b"\f", b"\xa0", b"\r")]


def nothing() -> list[bytes]:
    """What asks for nothing, though some of it would be events of `airbook run`, or is passed over there."""
    usual = queue(int(SPELT, 16), 9, b"\0")
    blank = [b"\n", b"\r\n", b"\r", b" ", b"\t \t\n", b" " * LONGEST, b"#", b"# report\n", b"#report", b"#" + usual, b" #"]
    spelt = [b"report x", b"report report\n", b"report #", b"Report\n", b"REPORT", b"reports", b"repor", b"report\0", b"\0report"]
    spelt += [b"report\r", b"report\r\r\n", b"report\v", b"report".ljust(LONGEST + 1), b"report".rjust(LONGEST + 1) + b"\n"]
    two = [b"report\nreport", b"report\nreport\n", b"\nreport", b"report\n\n", b"report\n ", usual + b"\n" + usual]
    two += [b"#\n" + usual, usual + b"\r\n\r\n", usual + b"\nreport\n", usual + b"\r", usual + b"\n\r"]
    events = [b"tick 1 5000000", b"pass 1000000\n", b"cancel 1", b"hear 1 5 868100000 5 55 -90 1000 80da1b012600070009c89141"]
    events += [b"hear 1 5 868100000 5 55 -90 1000 @c:26011bda:7\n", b"> " + usual, b"queued 26011bda 1", b"bad 0 Syntax\n", b"."]
    heads = [bytes([first]) + rest for first in (0, 1, 3, 255) for rest in (b"", b"\0\0", b"\0\0\2", b"\0\0\2" + EUIS[1])]
    return blank + spelt + two + events + heads + [b"x" * 1_400, b"x" * MOST_BYTES, b"\n" * MOST_BYTES]


def reports() -> list[bytes]:
    """Spellings of the line `report`."""
    spelt = [b"report", b"report\n", b"report\r\n", b" \treport\t ", b"\treport \r\n", b"report".ljust(LONGEST)]
    return spelt + [b"report".rjust(LONGEST) + b"\n", b"report".ljust(LONGEST, b"\t") + b"\r\n"]


def drawn(chance: Random, addresses: list[int]) -> bytes:
    """A payload for one of these devices, or at times for none, mostly with no fault."""
    addr = f"{chance.choice(addresses):08x}" if chance.random() < 0.95 else UNKNOWN
    size = chance.choice([0, 1, 2, 20, 51, 115, 222, 242] * 2 + [243])
    words = f"{addr} {chance.choice([1, 9, 223] * 4 + [0, 224])} {chance.randbytes(size).hex() or '-'}"
    spelt = words if chance.random() < 0.5 else words.upper()
    return f"queue {spelt}".encode() + chance.choice([b"", b"\n", b"\r\n"])
