"""A packet forwarder that keeps its own rules about what it is asked to send, for tests/soak.py.

Each PULL_RESP has to answer an uplink that it told, in that one's RX1 or RX2, by the counter that it has now. Moments are in
microseconds.
"""
from __future__ import annotations

import collections
import json
from typing import Optional

from lib.downlink_queue import DownlinkQueue
from lib.gateway_model import PUSH_ACK
from lib.played_forwarders import now
from lib.played_gateway import Asked, PlayedGateway
from lib.trials import Failed

SECOND = 1_000_000
# A session's first packet has to be known within this time.
DUE = 1_900_000


class StrictGateway(PlayedGateway):
    """A gateway, which knows by its address how many seconds behind an uplink a device's RX1 begins."""

    def __init__(self, number: int, port: int, begins: int, drift: int, delays: set[int]) -> None:
        self.queue, self.delay_of = DownlinkQueue(), {}
        # By life and token what it can't send, and why; what it never sends, since it restarted or the counter was older.
        self.errors: dict[tuple[int, int], str] = {}
        self.lost: set[tuple[int, int]] = set()
        # How often what happened; by life how often it restarted.
        self.counts: collections.Counter = collections.Counter()
        self.restarts: collections.Counter = collections.Counter()
        # By what it told since it restarted the counter; and the token of what was acknowledged last.
        self.own: dict[bytes, int] = {}
        self.acknowledged = 0
        # When it heard the first packet that it told of a session; by life how many of these the server took in too late.
        self.first: Optional[int] = None
        self.overdue: collections.Counter = collections.Counter()
        super().__init__(number, port, begins, drift, delays)

    def begin(self, life: int, late: int) -> None:
        super().begin(life, late)
        self.own, self.first = {}, None

    def forget(self, own: int) -> None:
        """A restart at this moment of its own: what was to begin later is never sent."""
        self.queue = DownlinkQueue()
        self.lost |= {(one.life, one.token) for one in self.asked if one.start > own}

    def hear(self, moment: int, data: bytes, **told: object) -> None:
        if self.is_first:
            self.first = moment - self.late
        super().hear(moment, data, **told)
        self.own[data] = self.tmsts[data]

    def came(self, datagram: bytes) -> bool:
        if datagram[3] == PUSH_ACK:
            self.acknowledged = int.from_bytes(datagram[1:3], "big")
            if self.first is not None and self.acknowledged == self.token:
                self.overdue[self.life] += now() - self.first > DUE
                self.first = None
        return super().came(datagram)

    def is_stale(self, asked: Asked) -> bool:
        """Whether it is by the counter of before a restart, of which the server can't know by then."""
        windows = [asked.tmst - SECOND * (self.delay_of[asked.addr()] + more) for more in (0, 1)]

        def answers(told: dict[bytes, int]) -> bool:
            own = [tmst for data, tmst in told.items() if data[1:5] == asked.data[1:5]]
            return any((tmst - one) % (1 << 32) == 0 for tmst in own for one in windows)

        if not answers(self.tmsts):
            raise Failed(f"{asked} is in no window of what gateway {self.number} told")
        if answers(self.own):
            return False
        if self.acknowledged == self.token:
            raise Failed(f"{asked} is by a counter of before gateway {self.number} restarted, of which the server knows")
        return True

    def acknowledge(self, asked: Asked, own: int) -> None:
        """Puts it into its queue, or tells why not: it may come too late, or there may be no room."""
        if self.is_stale(asked):
            self.counts["stale"] += 1
            self.lost.add((asked.life, asked.token))
            return
        fault = self.queue.fault(own, asked.start, asked.airtime())
        self.counts[fault or "taken"] += 1
        if fault in ("COLLISION_PACKET", "TOO_EARLY"):
            raise Failed(f"gateway {self.number}, which shows {own}, can't take {asked}: {fault}")
        if fault:
            self.errors[asked.life, asked.token] = name = "COLLISION_PACKET" if fault == "full" else fault
            self.send(asked.token, b"\5", json.dumps({"txpk_ack": {"error": name}}).encode())
        else:
            self.send(asked.token, b"\5")

    def sent(self) -> list[Asked]:
        return [one for one in self.asked if (one.life, one.token) not in self.lost]
