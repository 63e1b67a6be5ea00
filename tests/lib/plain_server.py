"""A plain model of what `airbook run` does and answers, for tests/random_runs.py, and how lines and words are read.

It is written from docs/FORMATS.md and docs/MODEL.md: lists that are gone over, and the frames of lorawan.py.
"""
from __future__ import annotations

from typing import Any, Iterator, Optional

from lib import lorawan
from lib.plain_book import PlainBook

# A gateway or a device of the settings, a copy of an uplink or a gathering of copies, by their keys.
Table = dict[str, Any]
LAST_MOMENT = 1 << 60
COUNTERS = 1 << 32
JOINS, LATE = 200_000, 1_000_000
QUEUED_AT_MOST, OPEN_AT_MOST, COPIES_AT_MOST = 16, 4_096, 64
DIGITS, HEX = b"0123456789", b"0123456789abcdefABCDEF"


class Malformed(Exception):
    """A line that asks for nothing."""


def unsigned(word: bytes, bits: int) -> int:
    if not 1 <= len(word) <= 20 or word.strip(DIGITS) or int(word) >> bits:
        raise Malformed
    return int(word)


def signed(word: bytes) -> int:
    digits = word[1:] if word.startswith(b"-") else word
    if not 1 <= len(digits) <= 5 or digits.strip(DIGITS) or not -(1 << 15) <= int(word) < 1 << 15:
        raise Malformed
    return int(word)


def address(word: bytes) -> int:
    if len(word) != 8 or word.strip(HEX):
        raise Malformed
    return int(word, 16)


def data_of(word: bytes) -> bytes:
    if word == b"-":
        return b""
    if len(word) % 2 or word.strip(HEX):
        raise Malformed
    return bytes.fromhex(word.decode())


def lines_of(text: bytes) -> list[bytes]:
    """The lines: a carriage return is dropped where a line feed follows."""
    *ended, last = text.split(b"\n")
    return [line[:-1] if line.endswith(b"\r") else line for line in ended] + ([last] if last else [])


class Server:
    """What a run does and answers, over lists alone."""

    def __init__(self, gateways: list[Table], devices: list[Table]) -> None:
        self.books = {one["id"]: PlainBook(one["cap"], one["gap"]) for one in gateways}
        self.devices = {one["addr"]: dict(one, queue=[]) for one in devices}
        self.gathered: list[Table] = []
        # By its number the gateway and the start of an answer.
        self.booked: dict[int, tuple[int, int]] = {}
        self.counts = {"send": 0, "unanswered": 0, "silent": 0}

    def answers(self, line: bytes, place: int) -> list[str]:
        """The lines that answer the line at this place."""
        words = [word for word in line.replace(b"\t", b" ").split(b" ") if word]
        if len(line) <= 1024 and (not words or line.startswith(b"#")):
            return []
        try:
            if len(line) > 1024:
                raise Malformed
            return self.done(words[0], words[1:])
        except Malformed:
            return [f"bad {place} Syntax"]

    def done(self, first: bytes, words: list[bytes]) -> list[str]:
        calls = {b"queue": (self.queue, 3), b"hear": (self.hear, 8), b"pass": (self.passes, 1)}
        calls |= {b"tick": (self.tick, 2), b"cancel": (self.cancel, 1)}
        call, count = calls.get(first, (None, 0))
        if call is None or len(words) != count:
            raise Malformed
        return call(words)

    def queue(self, words: list[bytes]) -> list[str]:
        addr, port, payload = address(words[0]), unsigned(words[1], 8), data_of(words[2])
        if addr not in self.devices:
            return ["no queue UnknownDevice"]
        if not 1 <= port <= 223:
            return ["no queue Port"]
        if len(payload) > 242:
            return ["no queue Long"]
        waiting = self.devices[addr]["queue"]
        if len(waiting) == QUEUED_AT_MOST:
            return ["no queue QueueFull"]
        waiting.append((port, payload))
        return [f"queued {addr:08x} {len(waiting)}"]

    def uplink(self, word: bytes) -> bytes:
        """The bytes that a word gives, or asks to be made."""
        if not word.startswith(b"@"):
            return data_of(word)
        parts = word[1:].split(b":")
        if len(parts) != 3 or parts[0] not in (b"c", b"u", b"a"):
            raise Malformed
        addr, counter = address(parts[1]), unsigned(parts[2], 32)
        known = self.devices.get(addr)
        keys = known["keys"] if known else (bytes(16), bytes(16))
        made = lorawan.uplink(parts[0] == b"c", addr, counter, keys, adr_ack_req=parts[0] == b"a")
        return made if known else made[:-4] + bytes(4)

    def hear(self, words: list[bytes]) -> list[str]:
        gateway, at, frequency, rate = (unsigned(word, bits) for word, bits in zip(words, (16, 64, 32, 8)))
        snr, rssi, arrived, data = signed(words[4]), signed(words[5]), unsigned(words[6], 64), self.uplink(words[7])
        fault = lorawan.uplink_fault(data) or self.copy_fault(gateway, at, frequency, rate, arrived)
        if fault:
            return [f"no hear {fault}"]
        copy = {"gateway": gateway, "at": at, "frequency": frequency, "rate": rate, "snr": snr, "rssi": rssi}
        number = max((n for n, one in enumerate(self.gathered, 1) if one["data"] == data), default=0)
        if number:
            newest = self.gathered[number - 1]
            since = max(arrived - newest["opened"], 0)
            if not newest["closed"] and since <= JOINS:
                return [self.joined(number, newest["copies"], copy)]
            if since <= LATE:
                return ["no hear Late"]
        return [self.opened(data, copy, arrived)]

    def copy_fault(self, gateway: int, at: int, frequency: int, rate: int, arrived: int) -> Optional[str]:
        if gateway not in self.books:
            return "UnknownGateway"
        if rate > 6:
            return "NoRate"
        if lorawan.band_of(frequency, rate) is None:
            return "NoBand"
        return "Moment" if max(at, arrived) > LAST_MOMENT else None

    def joined(self, number: int, copies: list[Table], copy: Table) -> str:
        if any(one["gateway"] == copy["gateway"] for one in copies):
            return "no hear SameGateway"
        if len(copies) == COPIES_AT_MOST:
            return "no hear TooManyCopies"
        copies.append(copy)
        return f"joined {number} {len(copies)}"

    def opened(self, data: bytes, copy: Table, arrived: int) -> str:
        device = self.devices.get(int.from_bytes(data[1:5], "little"))
        if device is None:
            return "no hear UnknownDevice"
        counter = lorawan.inferred(device["up"], int.from_bytes(data[6:8], "little"))
        if counter is None or not lorawan.has_mic(data, counter, device["keys"][0]):
            return "no hear BadMic"
        if sum(not one["closed"] for one in self.gathered) == OPEN_AT_MOST:
            return "no hear Crowded"
        repeat = " repeat" if counter == device["up"] else ""
        device["up"] = counter
        self.gathered.append({"data": data, "opened": arrived, "copies": [copy], "closed": False, "device": device})
        return f"opened {len(self.gathered)}{repeat}"

    def passes(self, words: list[bytes]) -> list[str]:
        now = unsigned(words[0], 64)
        told: list[str] = []
        for number, one in enumerate(self.gathered, 1):
            if not one["closed"] and now > one["opened"] + JOINS:
                one["closed"] = True
                told += self.answered(number, one)
        return told

    def answered(self, number: int, gathering: Table) -> list[str]:
        device, data = gathering["device"], gathering["data"]
        confirmed, queue = data[0] >> 5 == lorawan.CONFIRMED_UP, device["queue"]
        if not confirmed and not data[5] & 0x40 and not queue:
            self.counts["silent"] += 1
            return [f"silent {number}"]
        if device["down"] == COUNTERS:
            return [f"no {number} CounterSpent"]
        counter, refusal = device["down"], ""
        device["down"] += 1
        for window, copy, start, frequency, rate in candidates(gathering["copies"], device):
            carries = bool(queue) and 13 + len(queue[0][1]) <= lorawan.greatest(rate)
            length = 13 + len(queue[0][1]) if carries else 12
            told = self.books[copy["gateway"]].ask(number, start, frequency, rate, length).split()
            if told[0] == "ok":
                self.booked[number], self.counts["send"] = (copy["gateway"], start), self.counts["send"] + 1
                body, pending = queue[0] if carries else None, len(queue) > carries
                frame = lorawan.downlink(device["addr"], counter, device["keys"], confirmed, pending, body)
                del queue[:carries]
                sent = f"send {number} {copy['gateway']} {window} {start} {frequency} {rate} {length}"
                return [sent, f"frame {number} {frame.hex()}"]
            refusal = told[2]
        self.counts["unanswered"] += 1
        return [f"unanswered {number} {refusal}"]

    def tick(self, words: list[bytes]) -> list[str]:
        gateway, now = unsigned(words[0], 16), unsigned(words[1], 64)
        if gateway not in self.books:
            return ["no tick UnknownGateway"]
        self.books[gateway].tick(now)
        return [f"floor {gateway} {self.books[gateway].floor}"]

    def cancel(self, words: list[bytes]) -> list[str]:
        number = unsigned(words[0], 64)
        if number not in self.booked:
            return [f"no cancel {number} NotHere"]
        gateway, start = self.booked[number]
        told = self.books[gateway].cancel(number, start)
        return [told if told.startswith("cancelled") else told.replace("no", "no cancel", 1)]

    def report(self) -> list[str]:
        return report_of(self.books, **self.counts)


def report_of(books: dict[int, PlainBook], send: int = 0, unanswered: int = 0, silent: int = 0) -> list[str]:
    """The report of books, by their gateways, and of so many answers."""
    told: list[str] = []
    for gateway, book in sorted(books.items()):
        told.append(f"gateway {gateway} booked {book.booked} cancelled {book.cancelled} retired {book.retired}")
        told[-1] += f" kept {len(book.members)}"
        told += [line.replace("busiest", f"busiest {gateway}") for band in "KLMNPQ" for line in book.busiest(band)]
    return told + [f"answered {send} unanswered {unanswered} silent {silent}"]


def candidates(copies: list[Table], device: Table) -> Iterator[tuple[str, Table, int, int, int]]:
    """RX1 of each copy, the best first, and then RX2 of each: the window, copy, start, frequency and data rate."""
    ranked = sorted(copies, key=lambda copy: (-copy["snr"], -copy["rssi"], copy["gateway"]))
    for copy in ranked:
        start = copy["at"] + device["delay"] * 1_000_000
        yield "RX1", copy, start, copy["frequency"], max(copy["rate"] - device["offset"], 0)
    for copy in ranked:
        start = copy["at"] + (device["delay"] + 1) * 1_000_000
        yield "RX2", copy, start, device["rx2_freq"], device["rx2_dr"]


def played(gateways: list[Table], devices: list[Table], events: bytes) -> list[str]:
    """All that is written for these settings and events."""
    server = Server(gateways, devices)
    told = [answer for place, line in enumerate(lines_of(events), 1) for answer in server.answers(line, place)]
    return told + server.report()
