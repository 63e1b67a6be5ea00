"""A client that has payloads queued while an `airbook serve --state` is killed again and again, for tests/restarts.py and
tests/soak.py.

A payload begins with its number, in two bytes. Those of a device are numbered in the order in which they are to be queued.
Moments are in microseconds.
"""
from __future__ import annotations

import re
import socket
from random import Random
from typing import Mapping, NamedTuple, Optional

from lib.trials import Failed

PORT, MOST = 9, 16
NO_JOURNAL, QUEUE_FULL = "no queue Journal\n", "no queue QueueFull\n"
# How long an answer is awaited. One that comes later counts for nothing.
AWAITED = 300_000


class Request(NamedTuple):
    """A payload that was to be queued in a life, by its number, and the answer; None where none came."""

    life: int
    addr: int
    number: int
    answer: Optional[str]

    def is_queued(self) -> bool:
        return self.answer is not None and self.answer.startswith("queued ")

    def may_wait(self) -> bool:
        """Whether nobody knows: no answer came, or the journal failed, which may have the payload or not."""
        return self.answer in (None, NO_JOURNAL)


def number_of(payload: bytes) -> int:
    return int.from_bytes(payload[:2], "big")


def payload_of(number: int, more: bytes = b"\xff") -> str:
    """The payload of this number, as a line `queue` has it."""
    return (number.to_bytes(2, "big") + more).hex()


class QueueingClient:
    """Asks for one at a time, each from a socket of its own. By device so many payloads wait at first."""

    def __init__(self, port: int, waiting: Mapping[int, int], chance: Random) -> None:
        self.address, self.next, self.chance = ("127.0.0.1", port), dict(waiting), chance
        self.requests: list[Request] = []
        # What is due in this life, and when. And what was asked for last, when, and from where, until it is answered.
        self.life, self.due = 0, []
        self.asked: Optional[tuple[int, Request, socket.socket]] = None

    def begin(self, life: int, due: list[tuple[int, int]]) -> None:
        """A life begins, in which a payload is to be queued for these devices at these moments."""
        self.close()
        self.life, self.due = life, due

    def step(self, moment: int) -> None:
        """Takes an answer in, or asks for what is due."""
        if self.asked is not None:
            self.take(moment)
        elif self.due and self.due[0][0] <= moment:
            self.ask(moment, self.due.pop(0)[1])

    def ask(self, moment: int, addr: int) -> None:
        request = Request(self.life, addr, self.next[addr], None)
        self.next[addr] += 1
        own = socket.socket(type=socket.SOCK_DGRAM)
        own.setblocking(False)
        payload = payload_of(request.number, self.chance.randbytes(self.chance.choice([0, 1, 10, 40])))
        self.asked = moment, request, own
        own.sendto(f"queue {addr:08x} {PORT} {payload}\n".encode(), self.address)

    def take(self, moment: int) -> None:
        since, request, own = self.asked
        try:
            answer = own.recv(65536).decode()
        except BlockingIOError:
            if moment > since + AWAITED:
                self.close()
            return
        if not re.fullmatch(rf"queued {request.addr:08x} ([1-9]|1[0-6])\n|{NO_JOURNAL}|{QUEUE_FULL}", answer):
            raise Failed(f"{answer!r} answers {request}")
        own.close()
        self.requests.append(request._replace(answer=answer))
        self.asked = None

    def close(self) -> None:
        """What isn't answered by now is never."""
        if self.asked is not None:
            self.take(self.asked[0])
        if self.asked is not None:
            _, request, own = self.asked
            own.close()
            self.requests.append(request)
            self.asked = None
