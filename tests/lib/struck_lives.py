"""A short life of `airbook serve --state` in which each call in turn is struck, and the life behind it, for tests/soak.py.

In the life a journal is written anew, and two uplinks of one device are answered, each of which takes a payload along. Between
them one more is queued for it. By a library the program is killed before and behind each of its calls, and behind half of what
it writes; or the call fails. Where the journal fails with it, a whole one is written some 10 s later, and only then something is
sent. In the next life the device is answered again. Moments are in microseconds.
"""
from __future__ import annotations

import concurrent.futures
import pathlib
import re
import subprocess
import time
from random import Random
from typing import Any, Optional

from lib import lorawan
from lib.failing_disk import RENEWED_EVERY
from lib.lawful_lives import expect_lawful
from lib.played_forwarders import now
from lib.preloaded import library_of
from lib.refused_states import folder_with
from lib.serving import SECONDS, is_bound
from lib.soaked_lives import SoakedLives
from lib.strict_gateway import StrictGateway
from lib.struck_calls import LIBRARY, Strike, StruckCalls
from lib.trials import Failed, expect, expect_going

# So many lives go on side by side.
BESIDE = 8
# How long it takes until two are answered at most; how far apart uplinks are, and PULL_DATAs.
ANSWERED, APART, PULLED = 10_000_000, 400_000, 1_000_000
# The calls of the short life. There are more where it takes longer.
WANTED = "oooojfrF" + "va" + "val" + "jdpl" + "vl" + "vjdql" + "val" + "jdpl" + "vl"


class ShortLives(SoakedLives):
    """Two lives, of which the first may be struck."""

    def __init__(self, program: str, folder: pathlib.Path, library: pathlib.Path, first: Optional[Strike]) -> None:
        super().__init__(program, folder, Random(first.number if first else 0), StrictGateway)
        self.calls, self.first, self.device = StruckCalls(folder, library), first, self.settings.devices[0]
        # What the first life called, and how it ended by itself.
        self.first_calls, self.first_status = "", None
        # Whether the payload was asked for that is to be queued in the first life.
        self.is_queueing = False

    def payloads(self) -> list[tuple[int, int]]:
        return []

    def options(self) -> dict[str, Any]:
        self.strike, self.status = None if self.lives else self.first, None
        return self.calls.options(self.strike)

    def play(self, child: subprocess.Popen, *_: object) -> None:
        """Sends an uplink of the device again and again, until two of the first life are answered, or one of the second."""
        one, asked, told = self.gateways[0], len(self.gateways[0].asked), 0
        ends = now() + ANSWERED + (RENEWED_EVERY * 1_000_000 if self.strike and self.strike.way in "fp" else 0)
        while len(one.asked) < asked + (1 if self.lives else 2):
            expect_going()
            moment = now()
            if child.poll() is not None:
                return self.ended(child.returncode)
            if moment > ends:
                raise Failed(f"in life {len(self.lives) + 1} {len(one.asked) - asked} uplinks are answered")
            if not self.lives and len(one.asked) == 1 and not self.is_queueing:
                self.is_queueing = True
                self.client.begin(1, [(moment, self.device.addr)])
            self.client.step(moment)
            self.step(one, moment, told)
            told = moment if one.is_open and moment - told >= APART else told
            time.sleep(0.002)
        self.rest(child)

    def step(self, one: StrictGateway, moment: int, told: int) -> None:
        """A PULL_DATA once the program can take it, or an uplink."""
        if not one.is_open and (not is_bound(self.port) or moment - one.pulled < PULLED):
            pass
        elif not one.is_open:
            one.pull(moment)
        elif moment - told >= APART:
            self.ups[self.device.addr] += 1
            one.hear(moment, lorawan.uplink(True, self.device.addr, self.ups[self.device.addr], self.device.keys))
        one.take()

    def rest(self, child: subprocess.Popen) -> None:
        """Until all is told of what was sent, or the program ends, for a second at most."""
        ends, lines, sent = now() + 1_000_000, self.folder / "lines", len(self.gateways[0].asked)
        while now() < ends and child.poll() is None and lines.read_text().count("\nacked ") < (1 if self.lives else sent):
            time.sleep(0.005)
        # A program that is struck at its last call ends by itself.
        time.sleep(0.02)
        if self.calls.told().endswith("l!"):
            child.wait(SECONDS)
        if child.poll() is not None:
            self.ended(child.returncode)


def two_lives(program: str, folder: pathlib.Path, library: pathlib.Path, strike: Optional[Strike]) -> ShortLives:
    """A life that is struck, and the one behind it."""
    lives = ShortLives(program, folder, library, strike)
    try:
        lives.live(False)
        lives.first_calls, lives.first_status = lives.calls.told(), lives.status
        lives.live(False)
    finally:
        lives.close()
    expect_lawful(lives)
    return lives


def strikes() -> list[Strike]:
    """Each call, in each way: those of which half is written are counted by themselves."""
    return [Strike(way, place + 1) for place in range(len(WANTED)) for way in "baf"] + [
        Strike(way, place + 1, "j") for place in range(WANTED.count("j")) for way in "hp"
    ]


def expect_end(strike: Strike, lives: ShortLives) -> None:
    """The first life ended as it should: by the library, by a fault, or not before two uplinks were answered."""
    calls = lives.first_calls
    if strike.way in "bah":
        return expect(-9, lives.first_status, f"how a life ends, of which {calls} was called")
    expect(1, calls.count("!"), f"how many of {calls} failed")
    failed, behind = calls.split("!")
    is_opening = re.search("ojfrF.", failed) is None
    wanted = 2 if is_opening or failed[-1] == "l" else None
    expect(wanted, lives.first_status, f"how a life ends, of which {calls} was called")
    if not is_opening and failed[-1] in "jd":
        expect(True, "ojfrF" in behind, f"that a whole journal is written behind the failure of {calls}")


def each_call(program: str, folder: pathlib.Path) -> str:
    """All of them: how many lives, and by how many ways."""
    library = library_of(LIBRARY, folder)
    calls = two_lives(program, folder_with(folder), library, None).first_calls
    expect((set(WANTED), 2), (set(calls), calls.count("jdp")), f"the kinds of calls of a short life, and its answers, by {calls}")

    def tried(strike: Strike) -> Optional[str]:
        try:
            expect_end(strike, two_lives(program, folder_with(folder), library, strike))
        except Failed as fault:
            return f"{strike}: {fault}"
        return None

    with concurrent.futures.ThreadPoolExecutor(BESIDE) as pool:
        faults = [fault for fault in pool.map(tried, strikes()) if fault]
    if faults:
        raise Failed(f"{len(faults)} of {len(strikes())}: " + "; ".join(faults)[:1500])
    return f"{len(strikes())} lives, each struck at one of the calls {WANTED}"
