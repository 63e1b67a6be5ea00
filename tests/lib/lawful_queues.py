"""What has to hold of payloads that were queued over many lives of one `airbook serve --state`, for tests/restarts.py and
tests/soak.py.

It is written from docs/FORMATS.md and docs/SERVE.md. By device payloads are told by their numbers (queueing_client.py).
"""
from __future__ import annotations

import collections

from lib import lorawan
from lib.plain_journal import State, reader
from lib.plain_restarts import Settings
from lib.queueing_client import MOST, QUEUE_FULL, Request, number_of
from lib.served_lives import Life
from lib.trials import Failed, expect

# By its address the numbers of a device's payloads.
Numbers = dict[int, list[int]]


def waiting_in(state: State) -> Numbers:
    return {addr: [number_of(payload) for _, payload in waiting] for addr, (*_, waiting) in state.devices.items()}


def taken_in(batches: list[list[bytes]], waiting: Numbers) -> Numbers:
    """What goes along with the frames of these batches. Each does so beside a counter of its device, and a transmission."""
    taken: Numbers = collections.defaultdict(list)
    for batch in batches:
        lines = [line.decode().split() for line in batch]
        gone, given = ({words[1] for words in lines if words[0] == name} for name in ("taken", "device"))
        names = collections.Counter(words[0] for words in lines)
        if not gone <= given or names["taken"] > names["sent"]:
            raise Failed(f"the batch {batch} has payloads that go along with no frame")
        for name, word, *more in lines:
            if name == "queue":
                waiting[int(word, 16)].append(number_of(bytes.fromhex(more[1])))
            elif name == "taken":
                taken[int(word, 16)].append(waiting[int(word, 16)].pop(0))
    return taken


def carried_in(life: Life, settings: Settings) -> Numbers:
    """What the frames carry that a life tells."""
    carried: Numbers = collections.defaultdict(list)
    downs, keys = reader(life.before)[0].devices, {one.addr: one.keys for one in settings.devices}
    for line in life.lines:
        if not line.startswith("frame "):
            continue
        data = bytes.fromhex(line.split()[2])
        addr = int.from_bytes(data[1:5], "little")
        if len(data) > 12:
            counter = lorawan.inferred(downs[addr][2], int.from_bytes(data[6:8], "little"))
            carried[addr].append(number_of(lorawan.crypted(keys[addr][1], lorawan.DOWN, addr, counter, data[9:-4])))
    return carried


def expect_device(start: list[int], end: list[int], gone: list[int], requests: list[Request], is_all: bool, what: str) -> None:
    """Of a device nothing is lost that waited or was answered `queued`, where all that went along is known; and nothing is made
    up. What goes along is a front."""
    known, maybe = list(start), list(start)
    for one in requests:
        if one.answer == QUEUE_FULL and len(maybe) < MOST:
            raise Failed(f"{what} {one} is refused, where {maybe} may wait")
        known += [one.number] * one.is_queued()
        maybe += [one.number] * (one.is_queued() or one.may_wait())
    lost = [number for number in known if number not in end and number not in gone]
    expect([], lost if is_all else [], f"{what} payloads that wait no more, of {known}, and went along with no frame")
    expect([], [number for number in end + gone if number not in maybe], f"{what} payloads that nobody had queued")
    expect(sorted(set(gone + end)), gone + end, f"{what} payloads in their order, first those that went along")


def expect_queues(life: Life, batches: list[list[bytes]], settings: Settings, requests: list[Request]) -> None:
    """The queues behind a life, in which these batches were added to its first journal, are those before it and what was queued,
    but for what went along with a frame. Where a whole journal took the place of batches, the lines tell of that."""
    first = life.behind[:life.behind.index(b"\n.\n") + 3] if life.is_renewed else life.before
    start, end = waiting_in(reader(life.before)[0]), waiting_in(reader(life.behind)[0])
    taken = taken_in(batches, waiting_in(reader(first)[0]))
    carried = carried_in(life, settings) if life.is_renewed else {}
    for addr in end:
        own = [one for one in requests if one.addr == addr]
        gone = sorted({*taken.get(addr, []), *carried.get(addr, [])} - {*end[addr]})
        expect_device(start[addr], end[addr], gone, own, not life.is_untold, f"behind life {life.number}, of {addr:08x},")
