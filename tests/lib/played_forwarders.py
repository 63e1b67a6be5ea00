"""Packet forwarders that are played to `airbook serve --shadow`, beside the plain model, for tests/serve.py.

What each datagram comes to is found by gateway_model.py before it is sent; acknowledgements, packets on their gateways' clocks
and what is dropped are compared as they come.
"""
from __future__ import annotations

import base64
import collections
import json
import time
from random import Random
from typing import NamedTuple

from lib import lorawan
from lib.gateway_model import ASKS_NOTHING, RATES, Gateways, Known, Packet
from lib.serve_lines import Drops, Follower, Heard, Session
from lib.serving import SECONDS, TOKEN, Sender, Server
from lib.trials import Failed, expect

# How far a moment may be from the model's, where a packet that isn't told came at a moment that is only known so well.
GUESSED = 1_000_000
# How late some copies are told.
LATE_BY = 350_000
# By their addresses the devices' NwkSKey and AppSKey.
Devices = dict[int, tuple[bytes, bytes]]


class Sent(NamedTuple):
    """A packet that was sent, or the name of why it is dropped, with the EUI that is told then, and when."""

    eui: bytes | None
    one: Packet | str
    at: int


def now() -> int:
    """The moment in microseconds."""
    return time.monotonic_ns() // 1000


class PlainDesk:
    """Why a copy is refused, whenever it comes: each uplink is sent once, by one gateway."""

    def __init__(self, devices: Devices) -> None:
        self.devices, self.up = devices, dict.fromkeys(devices, 0)

    def fault(self, packet: Packet) -> str | None:
        data, addr = packet.data, int.from_bytes(packet.data[1:5], "little")
        fault = lorawan.uplink_fault(data)
        if fault:
            return fault
        if lorawan.band_of(packet.frequency, packet.rate) is None:
            return "NoBand"
        if addr not in self.devices:
            return "UnknownDevice"
        counter = self.up[addr] + (int.from_bytes(data[6:8], "little") - self.up[addr]) % (1 << 16)
        if not lorawan.has_mic(data, counter, self.devices[addr][0]):
            return "BadMic"
        self.up[addr] = counter
        return None


class Exchange:
    """What is sent to a server, and what it answers and tells. Without a desk what isn't told has to be late."""

    def __init__(self, server: Server, known: list[Known], follower: Follower, desk: PlainDesk | None = None) -> None:
        self.server, self.model, self.follower, self.desk = server, Gateways(known), follower, desk
        self.sent, self.drops, self.told, self.acknowledgements = collections.deque(), Drops(), [], collections.defaultdict(list)
        # What has to be added to a moment here for one of the server's clock; and the gateways of which a packet wasn't told.
        self.zero, self.guessed = None, set()
        # How many control datagrams were sent.
        self.controls = 0

    def send(self, sender: Sender, datagram: bytes) -> None:
        moment = now()
        comes = self.model.received(datagram, sender.own, moment)
        self.sent.extend(Sent(comes.eui, one, moment) for one in comes.read)
        if comes.told:
            self.told.append(comes.told)
        if comes.acknowledgement:
            self.acknowledgements[sender].append(comes.acknowledgement)
            self.controls += comes.acknowledgement == ASKS_NOTHING
        sender.send(datagram)

    def settle(self, sender: Sender, eui: bytes, token: bytes) -> None:
        """Sends a PULL_DATA, and compares what came of all before it. It is acknowledged behind them, their lines are told."""
        self.send(sender, b"\2" + token + b"\2" + eui)
        for one, wanted in self.acknowledgements.items():
            expect(wanted, [one.acknowledged() for _ in wanted], "acknowledgements")
        self.acknowledgements.clear()
        self.compare()

    def compare(self) -> None:
        """Compares the lines that came with what was sent."""
        self.follower.take(self.server.lines())
        while self.sent:
            self.found(self.sent.popleft())
        expect([], list(self.follower.placed), "packets and sessions of which nothing was sent")
        expect(self.told, self.follower.acks, "the lines of TX_ACKs")
        self.told, self.follower.acks = [], []
        self.drops.compare(self.follower.drops)
        self.follower.drops = []

    def found(self, sent: Sent) -> None:
        """Compares what became of a packet, or of something that was dropped before."""
        if isinstance(sent.one, str):
            self.drops.add(sent.one, sent.eui)
            return
        known = self.model.by_eui[sent.eui]
        told = self.next_told(known.number, sent.one)
        fault = self.desk.fault(sent.one) if self.desk else None if told else "Late"
        if bool(told) == bool(fault):
            raise Failed(f"{sent} has the fault {fault}, and next comes {list(self.follower.placed)[:2]}")
        if fault:
            self.guessed.add(known.number)
            self.drops.add(fault, sent.eui)
        at = self.placed(known, sent, told)
        if told:
            expect(at, self.follower.placed.popleft().at, f"the moment of {sent}")

    def next_told(self, number: int, packet: Packet) -> Heard | None:
        """The packet's line, where that comes next, or next behind a session's."""
        queue = self.follower.placed
        behind = 1 if queue and isinstance(queue[0], Session) else 0
        line = queue[behind] if behind < len(queue) else None
        wanted = number, packet.frequency, packet.rate, packet.snr, packet.rssi, packet.data
        is_it = isinstance(line, Heard) and (line.gateway, line.frequency, line.rate, line.snr, line.rssi, line.data) == wanted
        return line if is_it else None

    def placed(self, known: Known, sent: Sent, told: Heard | None) -> int:
        """The moment of a packet on its gateway's clock. A session that begins with it has to be told."""
        if self.zero is None:
            self.zero = told.arrived - sent.at
        arrived = told.arrived if told else sent.at + self.zero
        place = known.clock.hear(sent.one.tmst, arrived)
        if not place.is_new:
            return place.at
        queue = self.follower.placed
        session = queue.popleft() if queue and isinstance(queue[0], Session) else None
        if session is None or session.gateway != known.number:
            raise Failed(f"{sent} begins a session at {place.at}, and next comes {session}")
        slack = GUESSED if known.number in self.guessed else 0
        if abs(session.at - place.at) > slack:
            raise Failed(f"{sent} is placed at {place.at}, and not {session.at}")
        known.clock.offset = (session.at - sent.one.tmst) % (1 << 32)
        return session.at

    def over(self) -> None:
        """Compares what is told at last: all that was dropped, which is told once a second."""
        ends = time.monotonic() + SECONDS
        while self.drops.wanted and time.monotonic() < ends:
            time.sleep(0.05)
            self.compare()
        self.drops.all_told()


def entry(data: bytes, tmst: int, **other: object) -> dict[str, object]:
    """A packet as a packet forwarder tells it."""
    told = {"tmst": tmst, "chan": 0, "rfch": 1, "freq": 868.1, "stat": 1, "modu": "LORA", "datr": RATES[5], "codr": "4/5"}
    return told | {"rssi": -90, "lsnr": 5.5, "size": len(data), "data": base64.b64encode(data).decode()} | other


def push_data(eui: bytes, token: bytes, entries: list[dict[str, object]]) -> bytes:
    return b"\2" + token + b"\0" + eui + json.dumps({"rxpk": entries}).encode()


def tell_uplink(sender: Sender, eui: bytes, data: bytes, tmst: int | None = None, **more: object) -> None:
    """A gateway tells an uplink, by this counter, or else by one that goes on as time does here."""
    counter = now() % (1 << 32) if tmst is None else tmst
    sender.asked(push_data(eui, TOKEN, [entry(data, counter, **more)]), b"\2" + TOKEN + b"\1")


class Gateway:
    """A gateway whose counter of microseconds has 32 bits, and is fast or slow by so many millionths."""

    def __init__(self, sender: Sender, number: int, eui: bytes, counter: int, drift: int) -> None:
        self.sender, self.number, self.eui = sender, number, eui
        self.counter, self.begun, self.drift = counter, 0, drift

    def restart(self, moment: int, counter: int) -> None:
        self.counter, self.begun = counter, moment

    def tmst(self, moment: int) -> int:
        passed = moment - self.begun
        return int(self.counter + passed + passed * self.drift / 1_000_000) % (1 << 32)


class Copy(NamedTuple):
    """An uplink that a gateway hears at one moment, and tells at another."""

    at: int
    gateway: Gateway
    heard_at: int
    data: bytes


def copies_of(chance: Random, gateways: list[Gateway], devices: Devices, seconds: int, each_second: int) -> list[Copy]:
    """Copies of uplinks, by the moments at which they are sent: of each device in turn, a tenth confirmed, each heard by some of
    the gateways, which take up to 50 ms to tell it. One in a hundred comes a third of a second late, by the last gateway."""
    made, addresses = [], list(devices)
    for place in range(seconds * each_second):
        addr, counter = addresses[place % len(addresses)], place // len(addresses) + 1
        data = lorawan.uplink(chance.random() < 0.1, addr, counter, devices[addr])
        moment = place * 1_000_000 // each_second
        hearing = chance.sample(gateways[:-1], chance.randrange(1, len(gateways)))
        made += [Copy(moment + chance.randrange(5_000, 50_000), one, moment, data) for one in hearing]
        if chance.random() < 0.01:
            made.append(Copy(moment + LATE_BY, gateways[-1], moment, data))
        elif chance.random() < 0.5:
            made.append(Copy(moment + chance.randrange(5_000, 50_000), gateways[-1], moment, data))
    return sorted(made, key=lambda copy: copy.at)


def entries_of(chance: Random, copy: Copy) -> list[dict[str, object]]:
    """What the gateway tells of a copy: at times a ghost is beside it, and at times its data rate or channel is another."""
    tmst, signal = copy.gateway.tmst(copy.heard_at), round(chance.uniform(-20, 10), 1)
    rate = RATES[chance.choice([5, 5, 5, 4, 3, 0])]
    channel = chance.choice([868.1, 868.3, 868.5, 867.1])
    own = entry(copy.data, tmst, lsnr=signal, rssi=-chance.randrange(30, 130), datr=rate, freq=channel)
    if chance.random() < 0.05:
        return [entry(copy.data, tmst, lsnr=round(signal - 5, 1), freq=868.5), own]
    return [own]
