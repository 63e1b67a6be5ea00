"""Many lives of one `airbook serve --state`, with gateways and devices that go on through its kills, for tests/restarts.py and
tests/soak.py.

What has to hold of all lives is looked at when the last one is over (lawful_lives.py). Moments are in microseconds.
"""
from __future__ import annotations

import collections
import contextlib
import pathlib
import select
import subprocess
from random import Random
from typing import Any, Callable, NamedTuple

from lib import lorawan
from lib.gateway_model import RATES
from lib.plain_restarts import RX2, SetDevice, SetGateway, Settings
from lib.played_forwarders import now
from lib.played_gateway import Asked, PlayedGateway
from lib.queueing_client import MOST, PORT, QueueingClient, payload_of
from lib.serving import EUIS, free_port
from lib.trials import Failed, expect, expect_going

# Channels in Hz, each with a data rate. An hour of sub-bands K and N has room for some dozens of these.
NARROW = (864_100_000, 3)
CHANNELS = [(868_100_000, 5), (868_300_000, 5), (867_100_000, 5), NARROW, (868_900_000, 4)]
# How late a gateway may tell its first packet to a server: a session begins with it, for which 2 s are allowed.
LATE = 1_200_000


class Life(NamedTuple):
    """A life of the server: its journal before and behind it, its lines, the counters of uplinks by gateway, when it was killed,
    whether it wrote a whole journal more than once, and whether it was killed before it told the turn in which it did so last."""

    number: int
    before: bytes
    behind: bytes
    lines: list[str]
    tmsts: dict[int, dict[bytes, int]]
    killed: int
    is_renewed: bool
    is_untold: bool

    def sends(self) -> set[tuple[int, int]]:
        """The token and the gateway of each answer that it tells."""
        lines = [line.split() for line in self.lines if line.startswith("send ")]
        return {(int(number) % (1 << 16), int(gateway)) for _, number, gateway, *_ in lines}

    def failures(self) -> list[tuple[int, int, str]]:
        """The token, the gateway and the name of each failure that it tells."""
        lines = [line.split() for line in self.lines if line.startswith("failed ")]
        return [(int(number) % (1 << 16), int(gateway), name) for _, number, gateway, name in lines]


class Lives:
    """A server that is killed and started again, three gateways, and devices, of which every third has payloads that wait; and a
    client that has more of them queued."""

    # By so many microseconds uplinks are apart.
    every = 10_000

    def __init__(
        self, program: str, folder: pathlib.Path, chance: Random, kind: Callable[..., PlayedGateway] = PlayedGateway
    ) -> None:
        self.program, self.folder, self.chance, self.port = program, folder, chance, free_port()
        self.settings, waiting = self.drawn()
        counts = collections.Counter(line.split()[1] for line in waiting)
        self.client = QueueingClient(self.port, {one.addr: counts[f"{one.addr:08x}"] for one in self.settings.devices}, chance)
        self.journal, self.before = folder / "journal", self.settings.journal(*waiting)
        self.journal.write_bytes(self.before)
        self.gateways = self.played(kind)
        # By its address the last uplink counter of a device; and when the next uplink comes.
        self.ups, self.next = {one.addr: one.up for one in self.settings.devices}, 0
        self.lives: list[Life] = []

    def drawn(self) -> tuple[Settings, list[str]]:
        """The settings, and the lines of the payloads that wait."""
        devices = []
        for number in range(24):
            keys, rx2 = (bytes([number] * 16), bytes([number, 7] * 8)), NARROW if number % 3 else RX2
            devices.append(SetDevice(0x26011000 + number, keys, 65_500, 65_510, (1, 5)[number % 2], rx2))
        waiting = [f"queue {one.addr:08x} {PORT} {payload_of(place)}" for one in devices[::3] for place in range(MOST)]
        return Settings([SetGateway(number, EUIS[number]) for number in (1, 2, 3)], devices), waiting

    def played(self, kind: Callable[..., PlayedGateway]) -> list[PlayedGateway]:
        """The gateways, whose counters soon begin anew."""
        begins = [(1 << 32) - seconds * 1_000_000 for seconds in (4, 10, 16)]
        rows = zip((1, 2, 3), begins, (50, -50, 0), ({1}, {5}, {1, 5}))
        return [kind(number, self.port, *more) for number, *more in rows]

    def close(self) -> None:
        self.client.close()
        for one in self.gateways:
            one.close()

    def asked(self) -> list[Asked]:
        return [asked for one in self.gateways for asked in one.asked]

    def payloads(self) -> list[tuple[int, int]]:
        """When a payload is to be queued in this life, and for which device."""
        moments = sorted(now() + self.chance.randrange(1_500_000) for _ in range(self.chance.choice([0, 0, 1, 2, 3])))
        return [(moment, self.chance.choice(self.settings.devices).addr) for moment in moments]

    def uplink(self, moment: int) -> None:
        """Sends an uplink of a device by some of the gateways that hear it. To half of them an answer is owed, and to each of
        those for which a payload waits."""
        device = self.chance.choice(self.settings.devices)
        hearing = [one for one in self.gateways if one.is_open and device.delay in one.delays]
        if not hearing:
            return
        self.ups[device.addr] += 1
        kind, (frequency, rate) = self.chance.random(), self.chance.choice(CHANNELS)
        data = lorawan.uplink(kind < 0.3, device.addr, self.ups[device.addr], device.keys, adr_ack_req=kind > 0.8)
        for one in self.chance.sample(hearing, self.chance.randrange(1, len(hearing) + 1)):
            signal = round(self.chance.uniform(-20, 10), 1)
            one.hear(moment, data, freq=frequency / 1_000_000, datr=RATES[rate], lsnr=signal)

    def play(self, child: subprocess.Popen, ends: int, more: int, is_struck: bool) -> None:
        """About 100 uplinks a second, up to a moment, or up to so long behind the first PULL_RESP where that is sooner. A life
        that is struck goes on to the next PULL_RESP, for 0.3 s at most."""
        is_asked = False
        while True:
            expect_going()
            came, moment = sum(one.take() for one in self.gateways), now()
            if came and not is_asked:
                is_asked, ends = True, min(ends, moment + more)
            if moment >= ends and (not is_struck or came or moment >= ends + 300_000):
                return
            if child.poll() is not None:
                return self.ended(child.returncode)
            for one in self.gateways:
                one.pull(moment)
            if any(one.is_open for one in self.gateways):
                self.client.step(moment)
            if moment >= self.next:
                self.next = max(self.next + self.every, moment - 5 * self.every)
                self.uplink(moment)
            select.select([one.socket for one in self.gateways], [], [], 0.003)

    def ended(self, status: int) -> None:
        """The program ended by itself."""
        raise Failed(f"the program ended with {status}")

    def options(self) -> dict[str, Any]:
        """How the program is started, and what it is started over."""
        return {}

    def live(self, is_short: bool) -> None:
        """A life that is killed within 1.5 s from its start; or else up to 0.7 s behind its first PULL_RESP, the first life 2 s
        later, and after 4.5 s at most."""
        own, more = self.chance.randrange(50_000, 1_500_000), self.chance.randrange(700_000)
        ends, more = (own, own) if is_short else (4_500_000, more if self.lives else more + 2_000_000)
        for one in self.gateways:
            one.begin(len(self.lives) + 1, self.chance.choice([0, 0, 0, 0, 0, LATE]))
        self.client.begin(len(self.lives) + 1, self.payloads())
        words = [self.program, "serve", "--state", str(self.folder), "--bind", f"127.0.0.1:{self.port}"]
        with (self.folder / "lines").open("wb") as lines, (self.folder / "errors").open("wb") as errors:
            child = subprocess.Popen(words, stdin=subprocess.PIPE, stdout=lines, stderr=errors, **self.options())
            try:
                with contextlib.suppress(BrokenPipeError), child.stdin:
                    child.stdin.write(self.settings.text().encode())
                self.play(child, now() + ends, more, self.chance.random() < 0.5)
            finally:
                child.kill()
                child.wait()
        self.over(now())

    def over(self, killed: int) -> None:
        """A life is over. What came of it by now came before the kill."""
        self.client.close()
        for one in self.gateways:
            one.take()
        number, before, self.before = len(self.lives) + 1, self.before, self.journal.read_bytes()
        lines = (self.folder / "lines").read_text().split("\n")[:-1]
        tmsts = {one.number: one.tmsts for one in self.gateways}
        self.lives.append(Life(number, before, self.before, lines, tmsts, killed, self.is_renewed(), self.is_untold()))
        self.expect_errors((self.folder / "errors").read_bytes().decode(), number)

    def is_renewed(self) -> bool:
        """Whether the life that is over wrote a whole journal more than once."""
        return False

    def is_untold(self) -> bool:
        """Whether it was killed before it told the turn in which it wrote a whole journal last, if it was not the first."""
        return False

    def expect_errors(self, errors: str, number: int) -> None:
        """What the program says on standard error is what it should."""
        expect("", errors, f"standard error of life {number}")

    def sessions(self, life: Life, gateway: int) -> int:
        """How many sessions of a gateway's counter may begin in a life."""
        return 1

    def expect_told(self, life: Life, asked: list[Asked]) -> None:
        """All that the lines of a life tell was asked for."""
        expect([], life.failures(), f"what fails in life {life.number}")
        told = life.sends() - {(one.token, one.gateway) for one in asked}
        expect(set(), told, f"what life {life.number} tells, and nobody was asked for")
