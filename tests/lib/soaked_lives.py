"""Lives of one `airbook serve --state` that are cut off anywhere, for tests/soak.py.

The program is killed at a moment, or by a library just before or behind one of its calls, also behind half of what it writes; or
one call fails, and it is killed later. Packet forwarders are played roughly meanwhile (rough_gateway.py). Moments are in
microseconds.
"""
from __future__ import annotations

import collections
import pathlib
import re
import signal
from random import Random
from typing import Any, Callable, Optional

from lib.lawful_lives import expect_lawful
from lib.plain_journal import reader, sql
from lib.played_gateway import Asked
from lib.rough_gateway import RoughGateway
from lib.served_lives import Life, Lives
from lib.serving import recovered
from lib.strict_gateway import StrictGateway
from lib.struck_calls import ALL, KEEPING, Strike, StruckCalls
from lib.trials import Failed, expect

# What a server may name as it ends, where a call fails.
NAMES = {"airbook: Journal", "airbook: Write"}
# So many lives may end by a fault beside as many as are killed.
MORE = 20
# What is told of a downlink by the server itself.
OWN_FAILURES = {"Journal", "Session", "Unsent"}


def expect_order(calls: str) -> None:
    """By the letters of its calls a PULL_RESP is sent, and a payload answered as queued, only behind a batch that was written and
    synced, with nothing between but other PULL_RESPs of the turn. Nor is either before a whole journal is in place, nor where it
    can't be written, until one is again."""
    if re.search("[pq]", re.sub(r"j(?!!)d(?!!)((p!?)+|q)", "", calls)):
        raise Failed(f"what is sent isn't behind a batch and its sync: {calls[-400:]}")
    opened = re.search("ojfrF(?!!)", calls)
    if re.search("[pq]", calls) and not opened:
        raise Failed(f"something is sent before a whole journal is in place: {calls[-400:]}")
    for failed in re.finditer("[jd]!", calls[opened.end():] if opened else ""):
        if re.search("[pq]", calls[opened.end() + failed.end():].partition("ojfrF")[0]):
            raise Failed(f"something is sent behind a journal that failed: {calls[-400:]}")


class SoakedLives(Lives):
    """Lives that are struck at times."""

    every = 25_000

    def __init__(
        self, program: str, folder: pathlib.Path, chance: Random, kind: Optional[Callable[..., StrictGateway]] = None
    ) -> None:
        super().__init__(program, folder, chance, kind or (lambda *words: RoughGateway(*words, Random(chance.random()))))
        for one in self.gateways:
            one.delay_of = {device.addr: device.delay for device in self.settings.devices}
        self.calls, self.strike, self.status = StruckCalls(folder), None, None
        # By life how it was struck, if it was; how many were killed, by what; and by their letters the calls that were struck.
        self.strikes: dict[int, Optional[Strike]] = {}
        self.kills: collections.Counter = collections.Counter()
        self.letters: collections.Counter = collections.Counter()
        # How often something was lost that wasn't synced.
        self.cuts = 0
        # What was spent at most in an hour of each sub-band.
        self.most: collections.Counter = collections.Counter()

    def options(self) -> dict[str, Any]:
        self.strike, self.status = self.drawn_strike(), None
        return self.calls.options(self.strike)

    def drawn_strike(self) -> Optional[Strike]:
        """None for a kill at a moment. Of the calls that keep the journal 4 make the first whole one, and 2 each batch."""
        kind, few, more = self.chance.random(), int(self.chance.expovariate(1 / 2)), int(self.chance.expovariate(1 / 5))
        way = self.chance.choice("ba")
        if kind < 0.3:
            return Strike(way, 1 + more, KEEPING + "pq")
        if kind < 0.4:
            return Strike("h", 1 + few, "j")
        if kind < 0.5:
            return Strike("b", 1 + few, "d")
        if kind < 0.6:
            return Strike(way, self.chance.randrange(1, 400), ALL)
        if kind < 0.75:
            return Strike(self.chance.choice("ffp"), 1 + more, self.chance.choice(["jdp", KEEPING, "vpqajd"]))
        return None

    def ended(self, status: int) -> None:
        self.status = status

    def lose_power(self) -> None:
        """Behind half of all kills it looks as if the power had gone. Of what was added to the journal behind its last sync a
        front is left, in which some bytes are 0. Where the folder wasn't synced, its first whole journal has the name no more."""
        calls = self.calls.told()
        if self.chance.random() < 0.5:
            return
        if re.search("^[^r]*r(F!|F$|$)", calls):
            self.journal.write_bytes(self.before)
            self.cuts += 1
            return
        if not re.search("f(?!!)r(?!!)F(?!!)[^f]*$", calls):
            return
        text, synced = self.journal.read_bytes(), self.calls.synced()
        rest = bytearray(text[synced:self.chance.randrange(synced, len(text) + 1)])
        for place in range(len(rest) if self.chance.random() < 0.5 else 0):
            rest[place] *= self.chance.random() < 0.8
        self.journal.write_bytes(text[:synced] + rest)
        self.cuts += len(text) > synced

    def over(self, killed: int) -> None:
        self.lose_power()
        super().over(killed)
        life, calls = self.lives[-1], self.calls.told()
        expect_order(calls)
        self.strikes[life.number] = self.strike
        is_struck = self.strike is not None and self.strike.way in "bah" and self.status is not None
        if self.status not in (None, 2, -signal.SIGKILL) or (self.status == -signal.SIGKILL) != is_struck:
            raise Failed(f"life {life.number}, struck by {self.strike}, ended with {self.status}")
        self.kills["no kill" if self.status == 2 else f"a call, {self.strike.way}" if is_struck else "a moment"] += 1
        if is_struck or "!" in calls:
            self.letters[calls[-1:] if is_struck else calls[calls.find("!") - 1:][:2]] += 1
        wanted = "".join(line + "\n" for line in sql(reader(life.behind)[0]))
        expect(wanted, recovered(self.program, life.behind.decode(), "--sql"), f"what is recovered behind life {life.number}")

    def is_renewed(self) -> bool:
        return len(re.findall("ojfr(?!!)", self.calls.told())) > 1

    def is_untold(self) -> bool:
        return self.is_renewed() and re.search("ojfr(?!!)[^l]*$", self.calls.told()) is not None

    def expect_errors(self, errors: str, number: int) -> None:
        if self.strike is None or self.strike.way in "bah":
            super().expect_errors(errors, number)
        last = errors.splitlines()[-1:]
        if (self.status == 2) != (last != [] and last[0] in NAMES):
            raise Failed(f"life {number}, struck by {self.strike}, ends with {self.status}, and says {errors!r}")

    def sessions(self, life: Life, gateway: int) -> int:
        one = self.gateways[gateway - 1]
        return 1 + one.restarts[life.number] + one.overdue[life.number]

    def expect_told(self, life: Life, asked: list[Asked]) -> None:
        """What fails does so for a reason. All else that the lines tell was asked for, but of gateways that were down."""
        failed = life.failures()
        for token, gateway, name in failed:
            if not self.is_reason(life, token, gateway, name):
                told = [line for line in life.lines if line.startswith(("session", f"> hear {gateway} ", "failed"))]
                raise Failed(f"life {life.number} tells that {token} fails on {gateway} by {name}: {told[:100]}")
        own = {(token, gateway) for token, gateway, name in failed if name in OWN_FAILURES}
        got = {(one.token, one.gateway) for one in asked}
        expect(set(), own & got, f"what life {life.number} tells as not sent, and was")
        down = {one.number for one in self.gateways if one.restarts[life.number]}
        told = {one for one in life.sends() - own - got if one[1] not in down}
        expect(set(), told, f"what life {life.number} tells, and nobody was asked for")

    def is_reason(self, life: Life, token: int, gateway: int, name: str) -> bool:
        """Whether something may fail by this name: a call failed, a session began, or the gateway told so."""
        if name in ("Journal", "Unsent"):
            strike = self.strikes[life.number]
            return strike is not None and strike.way in "fp"
        if name == "Session":
            return self.sessions(life, gateway) > 1
        return self.gateways[gateway - 1].errors.get((life.number, token)) == name


def lives_of(program: str, folder: pathlib.Path, kills: int, seed: int) -> SoakedLives:
    """Lives on one journal, until so many were killed; and what has to hold of all of them."""
    lives = SoakedLives(program, folder, Random(seed))
    try:
        while lives.kills.total() - lives.kills["no kill"] < kills:
            lives.live(lives.chance.random() < 0.2)
            if len(lives.lives) > 2 * kills + MORE:
                raise Failed(f"of {len(lives.lives)} lives most end by themselves: {lives.kills}")
    finally:
        lives.close()
    lives.most = expect_lawful(lives)
    return lives
