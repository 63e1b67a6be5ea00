"""A life of `airbook serve --state` in which the journal grows until a whole one is written in its place, for tests/soak.py.

That comes once 1 MiB was added. Many gateways answer some 700 uplinks a second till then, and the program is killed just before
or behind a call of that renewal. In the next life the devices are answered again. Moments are in microseconds.
"""
from __future__ import annotations

import pathlib
import select
import subprocess
from random import Random
from typing import Callable, Optional

from lib import lorawan
from lib.lawful_lives import expect_lawful
from lib.plain_restarts import SetDevice, SetGateway, Settings
from lib.played_forwarders import now
from lib.played_gateway import PlayedGateway
from lib.serving import EUIS
from lib.soaked_lives import SoakedLives
from lib.strict_gateway import StrictGateway
from lib.struck_calls import Strike
from lib.trials import Failed, expect, expect_going

GATEWAYS, DEVICES = 64, 128
# How long the journal may take to grow.
GROWN = 120_000_000
# How long the next life may take until something is sent, and how many answers are enough then.
NEXT, ENOUGH = 10_000_000, 20
ADDED = 1 << 20
# Calls of the second whole journal of a life, and whether it has its name behind them.
STRIKES = [(Strike(way, 2, letter), letter + way in ("ra", "Fb", "Fa")) for letter in "frF" for way in "ba"]


class GrownLives(SoakedLives):
    """Two lives. Each device is heard by one gateway alone."""

    every = 1_400

    def __init__(self, program: str, folder: pathlib.Path, first: Strike) -> None:
        super().__init__(program, folder, Random(1), StrictGateway)
        self.first, self.turn = first, 0

    def drawn(self) -> tuple[Settings, list[str]]:
        devices = [SetDevice(0x26012000 + number, (bytes([number] * 16), bytes(16)), 1) for number in range(DEVICES)]
        return Settings([SetGateway(number, EUIS[number]) for number in range(1, GATEWAYS + 1)], devices), []

    def played(self, kind: Callable[..., PlayedGateway]) -> list[PlayedGateway]:
        return [kind(number, self.port, 1_000_000 * number, 0, {1}) for number in range(1, GATEWAYS + 1)]

    def drawn_strike(self) -> Optional[Strike]:
        return None if self.lives else self.first

    def uplink(self, moment: int) -> None:
        """An uplink of the next device, which wants an answer."""
        device, one = self.settings.devices[self.turn % DEVICES], self.gateways[self.turn % GATEWAYS]
        self.turn += 1
        if one.is_open:
            self.ups[device.addr] += 1
            one.hear(moment, lorawan.uplink(True, device.addr, self.ups[device.addr], device.keys))

    def play(self, child: subprocess.Popen, *_: object) -> None:
        """Until the program is killed in the first life, and enough was answered in the second."""
        came, moment = 0, now()
        ends = moment + (NEXT if self.lives else GROWN)
        while not self.lives or came < ENOUGH:
            expect_going()
            moment = now()
            came += sum(one.take() for one in self.gateways)
            if child.poll() is not None:
                return self.ended(child.returncode)
            if moment > ends:
                raise Failed(f"in life {len(self.lives) + 1} only {came} uplinks were answered")
            for one in self.gateways:
                one.pull(moment)
            while moment >= self.next:
                self.next = max(self.next + self.every, moment - 20 * self.every)
                self.uplink(moment)
            select.select([one.socket for one in self.gateways], [], [], 0.001)


def grown(program: str, folder: pathlib.Path, place: int) -> str:
    """A life that ends in a renewal, at the call of this place, and the next one."""
    strike, is_named = STRIKES[place % len(STRIKES)]
    lives = GrownLives(program, folder, strike)
    try:
        lives.live(False)
        calls, size = lives.calls.told(), len(lives.lives[0].behind)
        expect(-9, lives.status, f"how a life ends, of which {calls[-40:]} was called")
        expect(is_named, size < ADDED, f"whether the journal of {size} bytes is the new one, behind {calls[-40:]}")
        lives.live(False)
    finally:
        lives.close()
    expect_lawful(lives)
    return f"{len(lives.asked())} PULL_RESPs; the journal has {size} bytes behind {calls[-5:]}, struck by {strike.way}"
