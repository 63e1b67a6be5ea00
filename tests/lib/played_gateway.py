"""Packet forwarders that are played to `airbook serve --state` over many lives of it, for the scripts that try it.

They count microseconds by themselves, on through all lives and beyond 32 bits. They keep each PULL_RESP that they ever got, since
no kill withdraws one. All is written from docs/FORMATS.md and docs/SERVE.md. Moments are in microseconds.
"""
from __future__ import annotations

import base64
import contextlib
import json
import socket
from typing import Iterable, NamedTuple, Optional

from lib import lorawan
from lib.gateway_model import PULL_ACK, PULL_RESP, RATES
from lib.played_forwarders import entry, now, push_data
from lib.serving import EUIS
from lib.trials import Failed, expect


class Asked(NamedTuple):
    """A transmission: in which life it was asked for, with which token, when it begins on the gateway's own clock, and by its
    counter."""

    life: int
    token: int
    gateway: int
    start: int
    tmst: int
    frequency: int
    rate: int
    data: bytes

    def airtime(self) -> int:
        return lorawan.airtime(self.rate, len(self.data))

    def band(self) -> Optional[str]:
        return lorawan.band_of(self.frequency, self.rate)

    def addr(self) -> int:
        return int.from_bytes(self.data[1:5], "little")


def pull_resp(token: int, tmst: int, frequency: int, rate: int, data: bytes) -> bytes:
    """The bytes of a PULL_RESP."""
    megahertz = f"{frequency // 1_000_000}.{frequency % 1_000_000:06}"
    text = f'{{"txpk":{{"imme":false,"tmst":{tmst},"freq":{megahertz},"rfch":0,"powe":14,"modu":"LORA","datr":"{RATES[rate]}",'
    text += f'"codr":"4/5","ipol":true,"size":{len(data)},"ncrc":true,"data":"{base64.b64encode(data).decode()}"}}}}'
    return b"\2" + token.to_bytes(2, "big") + b"\3" + text.encode()


def read_pull_resp(datagram: bytes) -> tuple[int, int, int, int, bytes]:
    """Token, counter, channel in Hz, data rate and frame of a PULL_RESP, which has to be spelt as one is."""
    try:
        txpk = json.loads(datagram[4:])["txpk"]
        frequency, rate = round(txpk["freq"] * 1_000_000), RATES.index(txpk["datr"])
        told = int.from_bytes(datagram[1:3], "big"), txpk["tmst"], frequency, rate, base64.b64decode(txpk["data"])
        wanted = pull_resp(*told)
    except (ValueError, LookupError, TypeError) as why:
        raise Failed(f"{datagram!r} is no PULL_RESP: {why!r}") from None
    expect(wanted, datagram, "the bytes of a PULL_RESP")
    return told


def datagrams(own: socket.socket) -> Iterable[bytes]:
    """All that came to a socket that doesn't wait."""
    with contextlib.suppress(BlockingIOError):
        while True:
            yield own.recv(65536)


def forwarder_socket(own: str = "127.0.0.1") -> socket.socket:
    """A packet forwarder's socket on this address, which doesn't wait."""
    made = socket.socket(type=socket.SOCK_DGRAM)
    made.bind((own, 0))
    made.setsockopt(socket.SOL_SOCKET, socket.SO_RCVBUF, 1 << 20)
    made.setblocking(False)
    return made


class PlayedGateway:
    """A gateway with its own clock, which is fast or slow by so many millionths, and its packet forwarder. It hears the devices
    whose RX1 comes so many seconds behind an uplink."""

    def __init__(self, number: int, port: int, begins: int, drift: int, delays: set[int]) -> None:
        self.number, self.eui, self.begins, self.drift, self.delays = number, EUIS[number], begins, drift, delays
        self.address, self.zero, self.socket = ("127.0.0.1", port), now(), forwarder_socket()
        # What has to be added to what its clock shows for its counter, and the token of what it tells by that.
        self.shift, self.token = 0, 0
        self.asked: list[Asked] = []
        self.begin(0, 0)

    def begin(self, life: int, late: int) -> None:
        """A server begins, to which the first packet will be told so late."""
        self.life, self.late, self.is_open, self.is_first, self.pulled = life, late, False, True, 0
        # By what was told in this life the counter that was told with it.
        self.tmsts: dict[bytes, int] = {}

    def close(self) -> None:
        self.socket.close()

    def at(self, moment: int) -> int:
        """What its clock shows."""
        passed = moment - self.zero
        return self.begins + passed + passed * self.drift // 1_000_000

    def send(self, token: int, kind: bytes, text: bytes = b"") -> None:
        self.socket.sendto(b"\2" + token.to_bytes(2, "big") + kind + self.eui + text, self.address)

    def pull(self, moment: int) -> None:
        """Sends a PULL_DATA every 20 ms, until one is acknowledged."""
        if not self.is_open and moment - self.pulled >= 20_000:
            self.pulled = moment
            self.send(self.life, b"\2")

    def hear(self, moment: int, data: bytes, **told: object) -> None:
        """Tells an uplink that it hears, or the first of a life, which it heard before."""
        self.tmsts[data] = (self.at(moment - self.late if self.is_first else moment) + self.shift) % (1 << 32)
        self.is_first = False
        self.tell(moment, push_data(self.eui, self.token.to_bytes(2, "big"), [entry(data, self.tmsts[data], **told)]))

    def tell(self, moment: int, datagram: bytes) -> None:
        self.socket.sendto(datagram, self.address)

    def take(self) -> int:
        """Takes in all that came: how many PULL_RESPs."""
        return sum(self.came(datagram) for datagram in datagrams(self.socket))

    def came(self, datagram: bytes) -> bool:
        """Takes a datagram in: whether it is a PULL_RESP."""
        if datagram[3] == PULL_RESP:
            self.keep(datagram)
        elif datagram[3] == PULL_ACK and int.from_bytes(datagram[1:3], "big") == self.life:
            self.opened()
        return datagram[3] == PULL_RESP

    def opened(self) -> None:
        """A server has taken its PULL_DATA."""
        self.is_open = True

    def keep(self, datagram: bytes) -> None:
        """Keeps what a PULL_RESP asks for, and says so. Its counter stands for the nearest moment."""
        token, tmst, frequency, rate, data = read_pull_resp(datagram)
        own = self.at(now())
        ahead = (tmst - self.shift - own + (1 << 31)) % (1 << 32) - (1 << 31)
        self.asked.append(Asked(self.life, token, self.number, own + ahead, tmst, frequency, rate, data))
        self.acknowledge(self.asked[-1], own)

    def acknowledge(self, asked: Asked, own: int) -> None:
        """Says that it took what it was asked for at this moment of its own."""
        self.send(asked.token, b"\5")

    def sent(self) -> list[Asked]:
        """What it sends of what it was asked for."""
        return self.asked
