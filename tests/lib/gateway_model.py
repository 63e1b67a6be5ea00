"""A plain model of what packet forwarders tell `airbook serve`: datagrams, packets of `rxpk`, ghosts, TX_ACK, and clocks.

It is written from docs/FORMATS.md ("airbook serve") and docs/MODEL.md, over Python's own readers of JSON and base64. Packet
forwarders are those with Semtech's UDP protocol, version 2. Each control datagram asks for nothing. All moments are in
microseconds.
"""
from __future__ import annotations

import base64
import json
import re
from typing import Any, NamedTuple

PUSH_DATA, PUSH_ACK, PULL_DATA, PULL_RESP, PULL_ACK, TX_ACK = range(6)
ACKNOWLEDGED_BY = {PUSH_DATA: PUSH_ACK, PULL_DATA: PULL_ACK}
# By its number the data rate's name.
RATES = ["SF12BW125", "SF11BW125", "SF10BW125", "SF9BW125", "SF8BW125", "SF7BW125", "SF7BW250"]
DEEPEST, MOST_PACKETS, PULL_HOLDS = 128, 32, 60_000_000
# How far a gateway's clock may be above what it shows at least, and a packet of its session below that.
LATEST, REACH = 2_000_000, 20_000_000
PLAIN = re.compile(r"(-?)([0-9]{1,10})(?:\.([0-9]+))?")
# How the addresses begin that control datagrams come from, and the answer to one that asks for nothing.
OWN = "127."
ASKS_NOTHING = b"bad 0 Syntax\n"
ERROR_NAME = re.compile(r"[A-Z0-9_]{1,32}")
# A packet's keys that have numbers, and those that have texts.
NUMBERED, TEXTS = ("stat", "tmst", "freq", "lsnr", "rssi", "size"), ("modu", "datr", "data")

# A value of a JSON text: None, a bool, a str, a Number, a list or Members.
Json = Any


class Packet(NamedTuple):
    """A packet that is heard."""

    tmst: int
    frequency: int
    rate: int
    snr: int
    rssi: int
    data: bytes


class Placed(NamedTuple):
    """A packet's moment on its gateway's clock, and whether a session begins with it."""

    at: int
    is_new: bool


class Comes(NamedTuple):
    """What a datagram comes to: its acknowledgement, or its answer; each packet, or the name of why it is dropped; the line of a
    TX_ACK; and the EUI that is told of what is dropped. Each may be missing."""

    acknowledgement: bytes | None
    read: list[Packet | str]
    told: str | None
    eui: bytes | None


class Number(str):
    """A number of a JSON text, as it is spelt."""


class Members(list):
    """The members of a JSON object, of which a key may come twice."""

    def last(self, name: str) -> Json:
        return next((value for key, value in reversed(self) if key == name), None)


class NotJson(Exception):
    """A text that is no JSON value, or is nested too deep."""


def refuse(_: str) -> Json:
    raise NotJson


def look_through(value: Json, depth: int) -> None:
    """Refuses what Python takes: a value that is nested too deep, and half of a surrogate pair."""
    if isinstance(value, str):
        value.encode()
    elif isinstance(value, list):
        if depth == 0:
            raise NotJson
        for part in value:
            for one in part if isinstance(part, tuple) else [part]:
                look_through(one, depth - 1)


def document(text: bytes) -> Json:
    """The value that bytes are as a JSON text."""
    try:
        hooks = {"parse_int": Number, "parse_float": Number, "parse_constant": refuse, "object_pairs_hook": Members}
        value = json.loads(text.decode(), **hooks)
        look_through(value, DEEPEST)
    except (ValueError, RecursionError):
        raise NotJson from None
    return value


def scaled(text: str, places: int) -> int | None:
    """A plain decimal number times 10 to this power; further digits are dropped. None where it has an exponent or is too long."""
    parts = PLAIN.fullmatch(text)
    if parts is None:
        return None
    sign, whole, fraction = parts[1], parts[2], parts[3] or ""
    value = int(whole + fraction[:places].ljust(places, "0"))
    return -value if sign else value


def hertz(text: str) -> int | None:
    """A number in MHz, in Hz: digits behind the sixth are 0."""
    return None if text.partition(".")[2][6:].strip("0") else scaled(text, 6)


def bytes_of(text: str) -> bytes | None:
    """What a text in base64 says, with padding or with a part of it or without; None where it is none."""
    symbols = text.rstrip("=")
    missing = -len(symbols) % 4
    try:
        data = base64.b64decode(symbols + "=" * missing, validate=True)
    except ValueError:
        return None
    is_canonical = base64.b64encode(data).decode().rstrip("=") == symbols
    return data if is_canonical and len(text) - len(symbols) <= missing else None


def numbers_of(told: dict[str, str]) -> tuple[int, ...] | None:
    """`tmst`, `freq` in Hz, `lsnr` in tenths of a dB, `rssi` and `size`; None where one doesn't fit."""
    tmst, size, frequency = scaled(told["tmst"], 0), scaled(told["size"], 0), hertz(told["freq"])
    snr, rssi = scaled(told["lsnr"], 1), scaled(told["rssi"], 0)
    unsigned = all(number is not None and 0 <= number < 1 << 32 for number in (tmst, size, frequency))
    signed = all(number is not None and -(1 << 15) <= number < 1 << 15 for number in (snr, rssi))
    return (tmst, frequency, snr, rssi, size) if unsigned and signed else None


def packet_of(entry: Json) -> Packet | str:
    """The packet that an entry of `rxpk` tells, or the name of its first fault."""
    if not isinstance(entry, Members):
        return "Shape"
    told = {key: entry.last(key) for key in NUMBERED + TEXTS}
    if any(not isinstance(told[key], Number) for key in NUMBERED) or any(type(told[key]) is not str for key in TEXTS):
        return "Shape"
    if scaled(told["stat"], 0) != 1:
        return "Crc"
    if told["modu"] != "LORA":
        return "Modulation"
    if told["datr"] not in RATES:
        return "Rate"
    numbers = numbers_of(told)
    if numbers is None:
        return "Number"
    tmst, frequency, snr, rssi, size = numbers
    data = bytes_of(told["data"])
    if data is None:
        return "Data"
    return Packet(tmst, frequency, RATES.index(told["datr"]), snr, rssi, data) if size == len(data) else "Size"


def is_ghost(place: int, read: list[Packet | str]) -> bool:
    """Whether another packet has the same bytes, and was received better, or as well and stands before it."""
    own = read[place]
    others = [(other.snr, -at) for at, other in enumerate(read) if isinstance(other, Packet) and other.data == own.data]
    return max(others) > (own.snr, -place)


def packets_of(text: bytes) -> list[Packet | str]:
    """What becomes of each packet of a PUSH_DATA's text: it, or the name of its fault."""
    value = document(text)
    if not isinstance(value, Members):
        raise NotJson
    # null is a value too, which is no array.
    if all(key != "rxpk" for key, _ in value):
        return []
    entries = value.last("rxpk")
    if not isinstance(entries, list) or isinstance(entries, Members):
        raise NotJson
    read = [packet_of(entry) for entry in entries[:MOST_PACKETS]]
    told = ["Ghost" if isinstance(one, Packet) and is_ghost(place, read) else one for place, one in enumerate(read)]
    return told + ["Many"] * len(entries[MOST_PACKETS:])


def failure_of(text: bytes) -> str | None:
    """The error that stands behind the head of a TX_ACK; None where it tells none."""
    if not text:
        return None
    try:
        value = document(text)
    except NotJson:
        return "Other"
    if not isinstance(value, Members):
        return "Other"
    ack = value.last("txpk_ack")
    if not isinstance(ack, Members) or all(key != "error" for key, _ in ack):
        return None
    error = ack.last("error")
    if isinstance(error, Number) or not isinstance(error, str):
        return "Other"
    return None if error == "NONE" else error if ERROR_NAME.fullmatch(error) else "Other"


class Clock:
    """A gateway's own clock in 64 bits, from the counter of 32 bits that it tells, and from the server's clock."""

    def __init__(self) -> None:
        self.at = self.top = 2_000_000
        self.since = self.begun = 0
        self.offset = None

    def line(self, now: int) -> int:
        """What it shows at least."""
        passed = now - self.since
        return self.at + passed - passed // 10_000

    def ceiling(self, now: int) -> int:
        """What it shows at most."""
        passed = now - self.begun
        return min(self.top + passed + passed // 10_000, self.line(now) + LATEST)

    def hear(self, tmst: int, now: int) -> Placed:
        """Where a packet with this counter is placed, and whether a session begins with it."""
        line, ceiling = self.line(now), self.ceiling(now)
        if ceiling == line + LATEST:
            self.top, self.begun = ceiling, now
        if self.offset is not None:
            place = line + (tmst + self.offset - line + (1 << 31)) % (1 << 32) - (1 << 31)
            if line - REACH <= place <= ceiling and place >= 0:
                self.at, self.since = (place, now) if place > line else (self.at, self.since)
                return Placed(place, False)
        place = max(0, line - LATEST)
        self.offset = (place - tmst) % (1 << 32)
        return Placed(place, True)


class Known:
    """What is known of a gateway's packet forwarder."""

    def __init__(self, number: int, eui: bytes, allowed: str | None = None) -> None:
        self.number, self.eui, self.allowed = number, eui, allowed
        self.clock, self.pulled = Clock(), None


def is_control(datagram: bytes, source: str) -> bool:
    """Whether a datagram is of a client on the machine itself, and of no packet forwarder."""
    return source.startswith(OWN) and datagram[:1] not in (b"", b"\2")


class Gateways:
    """What datagrams come to, by what is known of the gateways."""

    def __init__(self, known: list[Known]) -> None:
        self.by_eui = {one.eui: one for one in known}

    def fault(self, datagram: bytes, source: str) -> tuple[str, bytes | None] | None:
        """Why a datagram is dropped, and the EUI that is told of it; None where it isn't."""
        if len(datagram) < 4:
            return "Short", None
        if datagram[0] != 2:
            return "Version", None
        if datagram[3] not in (PUSH_DATA, PULL_DATA, TX_ACK):
            return "Kind", None
        if len(datagram) < 12:
            return "Short", None
        known = self.by_eui.get(datagram[4:12])
        if known is None:
            return "UnknownGateway", datagram[4:12]
        return ("Peer", known.eui) if known.allowed not in (None, source) else None

    def received(self, datagram: bytes, source: str, now: int) -> Comes:
        """What a datagram comes to, with the name of its fault as if it were its one packet."""
        if is_control(datagram, source):
            return Comes(ASKS_NOTHING, [], None, None)
        fault = self.fault(datagram, source)
        if fault:
            return Comes(None, [fault[0]], None, fault[1])
        known, kind, text = self.by_eui[datagram[4:12]], datagram[3], datagram[12:]
        if kind == TX_ACK:
            return Comes(None, [], told_of(known, datagram, failure_of(text)), known.eui)
        acknowledgement = datagram[:3] + bytes([ACKNOWLEDGED_BY[kind]])
        if kind == PULL_DATA:
            known.pulled = now
            return Comes(acknowledgement, [], None, known.eui)
        return Comes(acknowledgement, packets_for(known, text, now), None, known.eui)


def told_of(known: Known, datagram: bytes, failure: str | None) -> str:
    """The line that tells of a TX_ACK."""
    token = int.from_bytes(datagram[1:3], "big")
    return f"acked {token} {known.number}" if failure is None else f"failed {token} {known.number} {failure}"


def packets_for(known: Known, text: bytes, now: int) -> list[Packet | str]:
    """What becomes of the packets behind the head of a PUSH_DATA, or the one name of why they aren't read."""
    if known.pulled is None or known.pulled + PULL_HOLDS < now:
        return ["NoPull"]
    try:
        return packets_of(text)
    except NotJson:
        return ["Json"]
