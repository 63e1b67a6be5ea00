"""What has to hold of all that was sent over many lives of one `airbook serve --state`.

It is written from docs/FORMATS.md and docs/SERVE.md. Moments are in microseconds.
"""
from __future__ import annotations

import collections
import pathlib
from random import Random
from typing import Optional

from lib import lorawan
from lib.lawful_queues import expect_queues, waiting_in
from lib.plain_journal import batches_of, reader
from lib.plain_restarts import GAP, SetDevice, Settings, expect_state, goes_on
from lib.played_gateway import Asked
from lib.queueing_client import number_of
from lib.serve_lines import Follower, Session
from lib.served_lives import Life, Lives
from lib.trials import Failed, expect

# How long before its start a transmission is to be decided at the latest.
LEAD = 400_000


def expect_apart(asked: list[Asked]) -> None:
    """No two transmissions of a gateway overlap, or are nearer than the gap."""
    ordered = sorted(asked, key=lambda one: one.start)
    for one, other in zip(ordered, ordered[1:]):
        if other.start < one.start + one.airtime() + GAP:
            raise Failed(f"{other} begins less than {GAP} us behind {one}")


def expect_lawful_hours(asked: list[Asked]) -> collections.Counter:
    """In no hour of a gateway's own clock more airtime of a sub-band begins than may. The greatest hour of each sub-band."""
    most: collections.Counter = collections.Counter()
    by_band = collections.defaultdict(list)
    for one in sorted(asked, key=lambda one: one.start):
        by_band[one.band()].append(one)
    for band, ones in by_band.items():
        spent, first = 0, 0
        for one in ones:
            spent += one.airtime()
            while one.start - ones[first].start >= lorawan.HOUR:
                spent -= ones[first].airtime()
                first += 1
            if spent > lorawan.LIMITS[band]:
                raise Failed(f"{spent} us of {band} begin in the hour up to {one}")
            most[band] = max(spent, most[band])
    return most


def payload_in(one: Asked, device: SetDevice, counter: int) -> Optional[int]:
    """The number of the payload that a downlink of this device carries under a counter; None where it carries none."""
    if len(one.data) <= 12:
        return None
    return number_of(lorawan.crypted(device.keys[1], lorawan.DOWN, device.addr, counter, one.data[9:-4]))


def expect_rising(asked: list[Asked], device: SetDevice) -> dict[tuple[int, int], int]:
    """The downlink counters of a device, by life and token. In the order of sending each is above all before it, and the MIC is
    the one under it. Payloads come in their order, none twice."""
    counters, last, payload = {}, device.down - 1, -1
    for one in sorted(asked, key=lambda one: (one.life, one.token)):
        counter = last + 1 + (int.from_bytes(one.data[6:8], "little") - last - 1) % (1 << 16)
        mic = lorawan.mic(device.keys[0], lorawan.DOWN, device.addr, counter, one.data[:-4])
        expect(mic, one.data[-4:], f"behind counter {last} the MIC of {one} under {counter}")
        counters[one.life, one.token] = last = counter
        number = payload_in(one, device, counter)
        if number is not None:
            if payload >= number:
                raise Failed(f"behind payload {payload} of {device.addr:08x} comes {number}")
            payload = number
    return counters


def appended(life: Life, settings: Settings) -> list[list[bytes]]:
    """The batches that were added in a life, behind the journal that it wrote first. That says what it goes on with."""
    batches, earlier = batches_of(life.behind)[0], batches_of(life.before)[0]
    if reader(life.behind)[1]:
        # The last one is torn, and counts for nothing.
        batches.pop()
    if life.is_renewed:
        return batches[1:]
    if life.behind.startswith(life.before) and len(earlier) > 1:
        # It was killed before it had written one.
        return batches[len(earlier):]
    first = b"".join(line + b"\n" for line in [*batches[0], b"."])
    wanted, got = goes_on(reader(life.before)[0], settings), reader(first)[0]
    expect_state(wanted, got, f"the journal that life {life.number} begins with")
    return batches[1:]


def kept_in(batches: list[list[bytes]]) -> dict[tuple[int, ...], tuple[int, int]]:
    """By each transmission, its start modulo 2^32, the device and the next counter that stand before it."""
    kept, device = {}, (0, 0)
    for line in (line for batch in batches for line in batch):
        first, *words = line.split(b" ")
        if first == b"device":
            device = int(words[0], 16), int(words[3])
        elif first == b"sent":
            gateway, start, *rest = map(int, words)
            kept[(gateway, start % (1 << 32), *rest)] = device
    return kept


def offsets_of(lives: Lives, life: Life) -> dict[int, list[int]]:
    """By gateway what has to be added to its counter for the server's clock of it, of one session behind the other."""
    follower = Follower(dict.fromkeys(life.tmsts, LEAD), is_all_told=False)
    follower.take(life.lines)
    offsets: dict[int, list[int]] = collections.defaultdict(list)
    begun = [told.gateway for told in follower.placed if isinstance(told, Session)]
    for gateway, count in collections.Counter(begun).items():
        if count > lives.sessions(life, gateway):
            told = [line for line in life.lines if line.startswith((f"session {gateway} ", f"> hear {gateway} "))]
            raise Failed(f"{count} sessions of gateway {gateway} begin in life {life.number}: {told[:100]}")
    fresh: set[int] = set()
    for told in follower.placed:
        if isinstance(told, Session):
            fresh.add(told.gateway)
            continue
        own, known = (told.at - life.tmsts[told.gateway][told.data]) % (1 << 32), offsets[told.gateway]
        if told.gateway in fresh:
            fresh.remove(told.gateway)
            known.append(own)
        expect(known[-1], own, f"by how much the clock differs at {told}")
    return offsets


def expect_kept(asked: list[Asked], life: Life, lives: Lives, counters: dict[int, dict[tuple[int, int], int]]) -> None:
    """What was asked for in a life stands in the journal behind it, and before it its device with a greater counter. Its payload
    waits no more, and all that was queued waits, or went along."""
    batches, offsets = appended(life, lives.settings), offsets_of(lives, life)
    kept = kept_in(batches)
    expect_queues(life, batches, lives.settings, [one for one in lives.client.requests if one.life == life.number])
    state = reader(life.behind)[0]
    waiting, devices = waiting_in(state), {one.addr: one for one in lives.settings.devices}
    renewed = set(kept_in(batches_of(life.behind)[0][:1])) if life.is_renewed else set()
    for one in asked:
        more = one.frequency, one.rate, len(one.data)
        keys = [(one.gateway, (one.tmst + own) % (1 << 32), *more) for own in offsets[one.gateway]]
        addr, down = next((kept[key] for key in keys if key in kept), (None, 0))
        if renewed & set(keys):
            # A whole journal has all counters before all transmissions.
            addr, down = one.addr(), state.devices[one.addr()][2]
        expect(one.addr(), addr, f"the device beside which the journal has {one}")
        counter = counters[one.addr()][one.life, one.token]
        if down <= counter:
            raise Failed(f"the journal has counter {down} beside {one}")
        if payload_in(one, devices[one.addr()], counter) in waiting[one.addr()]:
            raise Failed(f"the payload of {one} waits behind life {life.number}")


def expect_lawful(lives: Lives) -> collections.Counter:
    """Over all lives each gateway sends what it may, and counters rise. What was spent of each sub-band at most."""
    most: collections.Counter = collections.Counter()
    by_device, by_life = collections.defaultdict(list), collections.defaultdict(list)
    for one in lives.gateways:
        expect_apart(one.sent())
        most |= expect_lawful_hours(one.sent())
    for one in lives.asked():
        by_device[one.addr()].append(one)
        by_life[one.life].append(one)
    counters = {one.addr: expect_rising(by_device.pop(one.addr, []), one) for one in lives.settings.devices}
    expect({}, dict(by_device), "downlinks of unknown devices")
    for life in lives.lives:
        expect_kept(by_life[life.number], life, lives, counters)
        lives.expect_told(life, by_life[life.number])
    return most


def kills(program: str, folder: pathlib.Path, count: int, seed: int) -> None:
    """So many lives on one journal."""
    lives = Lives(program, folder, Random(seed))
    try:
        for place in range(count):
            lives.live(place % 3 == 1)
    finally:
        lives.close()
    most, asked = expect_lawful(lives), lives.asked()
    # The lives in which something was sent, and those behind which something was still to begin.
    ends = {(life.number, one.number): one.at(life.killed) for life in lives.lives for one in lives.gateways}
    sending, ahead = {one.life for one in asked}, {one.life for one in asked if one.start > ends[one.life, one.gateway]}
    queued = sum(one.is_queued() for one in lives.client.requests)
    if count >= 10:
        told = f"{len(asked)} downlinks in {len(sending)} of {count} lives, in {len(ahead)} some behind the kill; {dict(most)}"
        told += f"; {queued} payloads queued"
        is_little = min(len(sending), len(ahead), queued) < count // 4 or 4 * most["K"] < lorawan.LIMITS["K"]
        if len(asked) < 2 * count or is_little:
            raise Failed(f"too few downlinks to tell much: {told}")
