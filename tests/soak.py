#!/usr/bin/env python3
"""Kills `airbook serve --state` again and again, anywhere, and looks at the end at all that was sent over all its lives.

Usage: soak.py PROGRAM [KILLS [SEED]] [--full SECONDS]     (50, 1, 22)
       soak.py PROGRAM --uplinks COUNT                     (its memory over so many uplinks, and nothing else)

Trials, of which the first three kinds are made side by side (the files that are named stand in lib/):

- KILLS kills, on journals of up to 100 lives each (soaked_lives.py). The program is killed at a moment, or by a library just before
  or behind one of its calls, or behind half of a write; or one call fails, and it is killed later. Three gateways go on through all
  lives, whose counters wrap and begin anew, whose addresses change, and which tell packets late and twice (rough_gateway.py). They
  keep their own rules about what they are asked to send. A client has payloads queued meanwhile (queueing_client.py). Over all
  lives no two transmissions of a gateway are nearer than its gap, each hour of a sub-band keeps its limit by the gateway's own
  clock, each device's downlink counters rise, and whatever was received stands in the journal behind that life. Each payload that
  was answered as queued waits by the journal, or went along with a frame; none is sent twice, and all in order (lawful_queues.py).
  Each journal says what the one before and its batches come to, and `airbook recover` tells it as the plain reader does;
- a short life in which each call in turn is struck in each of these ways, and the life behind it (struck_lives.py);
- a disk that takes no byte for SECONDS (failing_disk.py); two machines with one EUI (bad_forwarders.py); a payload whose downlink
  is held back (held_payloads.py);
- floods, from one gateway and from none, beside a gateway that is answered;
- a journal that grows by 1 MiB, so that a whole one takes its place, and a kill at a call of that (grown_lives.py): by SEED at one
  of six places, and where KILLS are 100 or more at each of them.

Each hour is by a gateway's clock from the first life on, and no run here is longer than one: so nothing is told of an hour across
two sessions of a counter, of which docs/PROOFS.md says what holds.

Lives are played in real time, so a run is never quite the same again; SEED sets what is drawn. It takes some 90 s with 50 kills on
four processors, and 6 minutes with 500, and needs a C compiler. Each trial that passed tells its figures on a line, one that
failed why. The last line is 'N passed, M failed'. The status is 0 where none failed, 1 where one did, 2 where nothing could be run.
"""
from __future__ import annotations

import argparse
import collections
import os
import pathlib
import signal
import sys
import time
from typing import Callable, Sequence

sys.dont_write_bytecode = True
from lib import lorawan
from lib.bad_forwarders import flooded, one_eui
from lib.downlink_queue import expect_rules
from lib.failing_disk import NoRoomDisk, goes_through
from lib.grown_lives import STRIKES, grown
from lib.held_payloads import held_back
from lib.soaked_lives import SoakedLives, lives_of
from lib.soaked_memory import over_uplinks
from lib.struck_lives import each_call
from lib.trials import Failed, FolderTrial, tell_of_folders

# So many kills are made on one journal, and at least so many journals are side by side.
MOST, LEAST = 100, 4
# So many kills are enough that most kinds of them come.
ENOUGH = 25


class Soak:
    """The lives on all journals, and what came of them."""

    def __init__(self, program: str, kills: int, seed: int) -> None:
        self.program, self.seed, self.done, self.began = program, seed, [], time.monotonic()
        count = max(-(-kills // MOST), min(LEAST, kills))
        self.shares = [(kills * (place + 1)) // count - (kills * place) // count for place in range(count)]

    def trials(self) -> list[FolderTrial]:
        return [(f"{share} kills, journal {place}", self.trial(place, share)) for place, share in enumerate(self.shares)]

    def trial(self, place: int, share: int) -> Callable[[pathlib.Path], str]:
        def made(folder: pathlib.Path) -> str:
            self.done.append(lives_of(self.program, folder, share, 1_000 * self.seed + place))
            return figures([self.done[-1]])

        return made

    def told(self) -> str:
        """The figures of all kills, of which there have to be enough of most kinds."""
        told = figures(self.done) + f"; {time.monotonic() - self.began:.0f} s"
        kills, struck, cuts = sum(self.shares), sum(one.letters.total() for one in self.done), sum(one.cuts for one in self.done)
        asked = [asked for one in self.done for asked in one.asked()]
        is_full = max((one.most["K"] for one in self.done), default=0) * 2 >= lorawan.LIMITS["K"]
        queued = sum(request.is_queued() for one in self.done for request in one.client.requests)
        is_little = 2 * len(asked) < kills or 4 * struck < kills or 50 * cuts < kills or 8 * queued < kills
        if kills >= ENOUGH and is_little or kills >= MOST and not is_full:
            raise Failed(f"too little to tell much: {told}")
        return told


def figures(done: Sequence[SoakedLives]) -> str:
    """How many lives there were, what they were ended by, and what was sent."""
    gateways, none = [gateway for one in done for gateway in one.gateways], collections.Counter()
    kills, letters = sum((one.kills for one in done), none), sum((one.letters for one in done), none)
    counts, asked = sum((one.counts for one in gateways), none), sum(len(one.asked) for one in gateways)
    most = {band: max(one.most[band] for one in done) / limit for band, limit in lorawan.LIMITS.items()}
    hours = ", ".join(f"{band} {share:.0%}" for band, share in most.items() if share)
    sending = sum(len({asked.life for asked in one.asked()}) for one in done)
    ways = ", ".join(f"{count} by {way}" for way, count in sorted(kills.items()) if way != "no kill")
    overdue, cuts = sum(one.overdue.total() for one in gateways), sum(one.cuts for one in done)
    struck = " ".join(f"{letter}{count}" for letter, count in sorted(letters.items()))
    told = f"{kills.total() - kills['no kill']} kills ({ways}), {kills['no kill']} faults, calls {struck}; "
    told += f"{asked} PULL_RESPs in {sending} lives, of which {counts['taken']} fit, {counts['TOO_LATE']} too late, "
    told += f"{counts['full']} without room, {counts['stale']} stale"
    told += f"; {counts['restart']} restarts and {counts['move']} moves of gateways, {overdue} first packets overdue"
    requests = [request for one in done for request in one.client.requests]
    queued, unknown = sum(one.is_queued() for one in requests), sum(one.may_wait() for one in requests)
    told += f"; {queued} payloads queued, {len(requests) - queued - unknown} refused, and {unknown} that may be queued"
    return f"{told}; {cuts} times something was lost that wasn't synced; fullest hours {hours}"


def main() -> int:
    reader = argparse.ArgumentParser(usage=__doc__.strip(), add_help=False)
    reader.add_argument("program")
    reader.add_argument("kills", type=int, nargs="?", default=50)
    reader.add_argument("seed", type=int, nargs="?", default=1)
    reader.add_argument("--full", type=int, default=22)
    reader.add_argument("--uplinks", type=int)
    words = reader.parse_args()
    if not os.access(words.program, os.X_OK):
        print(__doc__.strip(), file=sys.stderr)
        return 2
    lorawan.checked()
    signal.signal(signal.SIGTERM, lambda *_: sys.exit(1))
    program = str(pathlib.Path(words.program).resolve())
    if words.uplinks is not None:
        return tell_of_folders([[(f"{words.uplinks} uplinks", lambda folder: over_uplinks(program, folder, words.uplinks))]])
    soak = Soak(program, words.kills, words.seed)

    def full(folder: pathlib.Path) -> None:
        goes_through(program, folder, NoRoomDisk(folder), words.full)

    beside = [("the rules of a packet forwarder", lambda _: expect_rules()), *soak.trials()]
    beside += [("each call of a short life", lambda folder: each_call(program, folder))]
    beside += [("a payload that is held back", lambda folder: held_back(program, folder))]
    beside += [("two machines with one EUI", lambda folder: one_eui(program, folder)), (f"a disk full for {words.full} s", full)]
    floods = [
        [("a flood from one gateway", lambda folder: flooded(program, folder, True))],
        [("a flood from none", lambda folder: flooded(program, folder, False))],
    ]
    places = range(words.seed, words.seed + (len(STRIKES) if words.kills >= MOST else 1))
    grow = [[("a journal that grows", lambda folder, place=place: grown(program, folder, place))] for place in places]
    return tell_of_folders([beside, *floods, *grow, [("all kills", lambda _: soak.told())]])


if __name__ == "__main__":
    sys.exit(main())
