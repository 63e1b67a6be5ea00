"""A packet forwarder that is played roughly, for tests/soak.py: its counter begins anew, its address changes, and it tells
packets late or twice.

Moments are in microseconds.
"""
from __future__ import annotations

from random import Random

from lib.gateway_model import PULL_ACK
from lib.played_forwarders import now
from lib.played_gateway import datagrams, forwarder_socket
from lib.served_lives import LATE
from lib.strict_gateway import SECOND, StrictGateway

# How many restarts and changes of address there are a second.
RESTARTS, MOVES = 0.04, 0.08
# How long a restart takes: longer than an uplink is gathered and answered.
RESTARTING = (700_000, 1_500_000)


class RoughGateway(StrictGateway):
    """A gateway that does this by chance."""

    def __init__(self, number: int, port: int, begins: int, drift: int, delays: set[int], chance: Random) -> None:
        self.chance, self.earlier, self.later, self.down, self.jolted = chance, [], [], 0, 0
        super().__init__(number, port, begins, drift, delays)

    def begin(self, life: int, late: int) -> None:
        super().begin(life, late)
        self.over()
        self.later, self.down = [], 0
        if self.chance.random() < 0.1:
            self.shift, self.token = self.chance.randrange(1 << 32), (self.token + 1) % (1 << 16)
            self.forget(self.at(now()))

    def close(self) -> None:
        super().close()
        self.over()

    def over(self) -> None:
        """The socket from before a change of address takes in what came, and no more."""
        self.take_earlier()
        for one in self.earlier:
            one.close()
        self.earlier = []

    def pull(self, moment: int) -> None:
        """Is called again and again. Tells what is due, and at times restarts or moves."""
        passed, self.jolted = moment - self.jolted, moment
        if moment < self.down:
            return
        for due, datagram in self.later:
            if due <= moment:
                self.socket.sendto(datagram, self.address)
        self.later = [one for one in self.later if one[0] > moment]
        if self.is_open and passed < SECOND:
            kind = self.chance.random() * SECOND
            if kind < RESTARTS * passed:
                return self.restart(moment)
            if kind < (RESTARTS + MOVES) * passed:
                self.move()
        super().pull(moment)

    def restart(self, moment: int) -> None:
        """It is down for about a second. What it was asked for and what comes meanwhile is lost; its counter is another one."""
        self.take()
        self.close()
        self.forget(self.at(moment))
        self.restarts[self.life] += 1
        self.socket, self.down = forwarder_socket(), moment + self.chance.randrange(*RESTARTING)
        self.shift, self.token, self.own, self.later = self.chance.randrange(1 << 32), (self.token + 1) % (1 << 16), {}, []
        self.is_open, self.is_first, self.late = False, True, self.chance.choice([0, 0, LATE])
        self.counts["restart"] += 1

    def move(self) -> None:
        """It goes on from another port, and maybe another address. The old one hears on until the new one is known."""
        self.earlier.append(self.socket)
        self.socket, self.is_open, self.pulled = forwarder_socket(f"127.0.0.{self.chance.randrange(1, 4)}"), False, 0
        self.counts["move"] += 1

    def opened(self) -> None:
        super().opened()
        self.over()

    def tell(self, moment: int, datagram: bytes) -> None:
        """At once, twice, late, or late once more. The first one of a session is late by itself."""
        kind = self.chance.random() if len(self.own) > 1 else 1
        if kind < 0.05:
            self.later.append((moment + self.chance.randrange(50_000, 350_000), datagram))
        else:
            super().tell(moment, datagram)
        if 0.05 <= kind < 0.1:
            super().tell(moment, datagram)
        elif 0.1 <= kind < 0.13:
            self.later.append((moment + self.chance.randrange(300_000, 1_500_000), datagram))
        self.counts["late" if kind < 0.05 else "twice" if kind < 0.13 else "once"] += 1

    def take(self) -> int:
        return self.take_earlier() + super().take()

    def take_earlier(self) -> int:
        """What came to the socket from before a change of address. The new one isn't known by what is acknowledged there."""
        came = [datagram for one in self.earlier for datagram in datagrams(one)]
        return sum(self.came(datagram) for datagram in came if datagram[3] != PULL_ACK)
