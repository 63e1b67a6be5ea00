"""Follows the lines that `airbook serve --shadow` writes, for the scripts that start it: their order, and the numbers that go
together.

It is written from docs/FORMATS.md ("airbook serve"). What is heard and what is dropped is compared by those who use this.
"""
from __future__ import annotations

import collections
import itertools
import re
from typing import Iterable, NamedTuple, Sequence

from lib.trials import Failed, expect

JOINS, OLDEST, NAMES = 200_000, 2_000_000, 30
LINE = re.compile(r"session \d+ \d+|acked \d+ \d+|failed \d+ \d+ \w{1,32}|dropped [A-Za-z]+ [1-9]\d* (?:[0-9a-f]{16}|-)")


class Session(NamedTuple):
    """A session that begins at a moment of its gateway's clock."""

    gateway: int
    at: int


class Heard(NamedTuple):
    """What a line `hear` says."""

    gateway: int
    at: int
    frequency: int
    rate: int
    snr: int
    rssi: int
    arrived: int
    data: bytes


class Drops:
    """What has to be dropped, in order: a name, and an EUI or none. Lines have to count it in this order."""

    def __init__(self) -> None:
        self.wanted, self.lines, self.names = collections.deque(), [], collections.Counter()

    def add(self, name: str, eui: bytes | None) -> None:
        self.names[name] += 1
        self.wanted.append((name, eui.hex() if eui else "-"))

    def compare(self, lines: list[list[str]]) -> None:
        """Lines that came. Those that belong together count what was dropped first, by names in their order."""
        for name, count, eui in lines:
            self.lines.append((name, int(count), eui))
            told = sum(count for _, count, _ in self.lines)
            if counted(itertools.islice(self.wanted, told)) == self.lines:
                for _ in range(told):
                    self.wanted.popleft()
                self.lines = []
            elif len(self.lines) > NAMES:
                self.all_told()

    def all_told(self) -> None:
        """Nothing is left that no line counted."""
        wanted = counted(self.wanted)
        if wanted or self.lines:
            raise Failed(f"dropped: wanted {wanted}, got {self.lines}"[:2000])


def counted(drops: Iterable[tuple[str, str]]) -> list[tuple[str, int, str]]:
    """Each name with how often it comes and the last EUI, by the names' first places."""
    found = {}
    for name, eui in drops:
        found[name] = (found.get(name, (0,))[0] + 1, eui)
    return [(name, count, eui) for name, (count, eui) in found.items()]


class Follower:
    """The lines, one after another. The gateways have these leads, by number. Where each packet that is heard is told, ticks are
    what its moments say."""

    def __init__(self, leads: dict[int, int], is_all_told: bool = True) -> None:
        self.leads, self.is_all_told = leads, is_all_told
        # Sessions and packets as they are told; the lines of TX_ACKs; what counts drops; lines behind `> `, and their answers.
        self.placed, self.acks, self.drops, self.events, self.answers = collections.deque(), [], [], [], []
        # By gateway its newest packet's two moments; by number when an open uplink's first copy came; ticks up to their pass; and
        # what has to be answered.
        self.newest, self.opened, self.ticks, self.owed = {}, {}, {}, []

    def take(self, lines: list[str]) -> None:
        for line in lines:
            try:
                self.line(line, *line.split(" "))
            except (IndexError, KeyError, TypeError, ValueError) as why:
                raise Failed(f"{line!r} can't be read: {why!r}") from None

    def line(self, line: str, first: str, *words: str) -> None:
        if first == ">":
            self.event(line[2:], *words)
        elif LINE.fullmatch(line):
            {"session": self.session, "dropped": self.drop}.get(first, self.ack)(line, words)
        else:
            self.answer(line, first, words)

    def session(self, line: str, words: Sequence[str]) -> None:
        self.placed.append(Session(*map(int, words)))

    def ack(self, line: str, words: Sequence[str]) -> None:
        self.acks.append(line)

    def drop(self, line: str, words: Sequence[str]) -> None:
        self.drops.append(list(words))

    def event(self, line: str, first: str, *words: str) -> None:
        expect([], self.owed, f"what isn't answered before {line!r}")
        self.events.append(line)
        {"queue": self.queue, "hear": self.hear, "tick": self.tick, "pass": self.passes}[first](*words)

    def queue(self, addr: str, *_: str) -> None:
        self.owed = [("queue", addr)]

    def hear(self, *words: str) -> None:
        *numbers, data = words
        told = Heard(*map(int, numbers), bytes.fromhex(data))
        self.placed.append(told)
        self.newest[told.gateway] = told.at, told.arrived
        self.owed = [("hear", told.arrived)]

    def tick(self, gateway: str, now: str) -> None:
        self.ticks[int(gateway)] = int(now)
        self.owed = [("floor", int(gateway))]

    def passes(self, now: str) -> None:
        """A pass has something to close, and ticks before it of just the gateways of which something was heard of late."""
        moment = int(now)
        recent = {one: moments for one, moments in sorted(self.newest.items()) if moment - moments[1] <= OLDEST}
        wanted = {one: at + moment - arrived + self.leads[one] for one, (at, arrived) in recent.items()}
        if self.is_all_told:
            expect(list(wanted.items()), list(self.ticks.items()), f"the ticks of pass {now}")
        expect(sorted(self.ticks), list(self.ticks), "the order of ticks")
        self.ticks = {}
        self.owed = [("pass", number) for number, arrived in sorted(self.opened.items()) if arrived + JOINS < moment]
        if not self.owed:
            raise Failed(f"pass {now} has nothing to close of {self.opened}")

    def answer(self, line: str, first: str, words: Sequence[str]) -> None:
        self.answers.append(line)
        if not self.owed:
            raise Failed(f"{line!r} answers nothing")
        kind, what = self.owed[0]
        if kind == "pass" and first in ("silent", "send", "unanswered", "no") and int(words[0]) == what:
            del self.opened[what]
            self.owed[:1] = [("frame", what)] if first == "send" else []
        elif kind == "queue" and (first, words[0]) in (("queued", what), ("no", "queue")):
            self.owed = []
        elif kind == "hear" and first in ("opened", "joined"):
            if first == "opened":
                self.opened[int(words[0])] = what
            self.owed = []
        elif first == kind and int(words[0]) == what:
            self.owed = self.owed[1:]
        else:
            raise Failed(f"{line!r} comes where {kind} {what} is to be answered")
