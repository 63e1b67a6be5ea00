#!/usr/bin/env python3
"""Sends `airbook serve` more uplinks than a desk takes, and looks at what goes on where its desk is made anew.

Usage: desks.py PROGRAM [DESKS [SEED]]     (2, 1: how many desks come to their end in the first trials, and what is drawn)

Trials, side by side. Uplinks are told up to 32 at a time, as many as a server takes (lib/many_uplinks.py), and go on being told
while it makes a new desk:

- of DESKS desks each uplink that is sent is opened once, in its turn. Numbers begin at 1 again behind the first datagram that
  brings a desk to 32,768 or more. Told are the longest time without an acknowledgement, and how long a new desk took by the moments
  of the turns before and behind it;
- the same with a shadow, and one desk;
- what is kept: payloads that wait and counters, where a device is heard at the new desk alone, or before it too. A repeated
  counter, and one that is far behind. What a gateway has sent, in a sub-band that is full; what it is to send, where an answer of
  the new desk would be in the way; and its floor, as a late packet shows. No session begins, and no PULL_DATA is sent anew. The
  report goes on;
- a kill right behind a new desk: what waits and the counters that were given go on;
- the resident memory behind DESKS desks, of which the last is about that of the first (lib/soaked_memory.py);
- behind these, with nothing beside it: how long a new desk of 1,024 devices takes, where one uplink alone is still to be answered.

What stands behind `> ` in all but the last two is an input of `airbook run`, over all desks. It has to answer the same lines, but
that its numbers go on. So up to the first new desk the lines are the same, and `run` tells of what is kept. It takes some 30 s.
Every wait ends within a minute. Each trial that passed may tell its figures on a line, one that failed why. The last line is
'N passed, M failed'. The status is 0 where none failed, 1 where one did, 2 where nothing could be run.
"""
from __future__ import annotations

import contextlib
import itertools
import pathlib
import signal
import sys
import time
from random import Random
from typing import Iterable, Iterator, Sequence

sys.dont_write_bytecode = True
from lib import lorawan
from lib.arguments import asked_by
from lib.control_lines import queue, text_of
from lib.gateway_model import RATES
from lib.lawful_lives import expect_apart, expect_lawful_hours
from lib.many_uplinks import DESK, MOST, Load, uplinks
from lib.plain_journal import reader
from lib.plain_restarts import SetDevice, SetGateway, Settings
from lib.played_forwarders import now, tell_uplink
from lib.played_gateway import Asked, read_pull_resp
from lib.refused_states import state_words
from lib.serve_lines import Follower, Session
from lib.serving import EUIS, Sender, Server, awaited
from lib.soaked_memory import over_uplinks
from lib.trials import Failed, FolderTrial, expect, expect_all, tell_of_folders
from lib.worked_run import run_over

LEAD = 400_000
# How long acknowledgements may stay out at the most, in microseconds. They do for 0.2 s, and for as long as a new desk takes.
LONGEST = 2_000_000
# Words before the number of an uplink.
NUMBERED = ("opened", "joined", "silent", "send", "frame", "unanswered", "no")
# A channel in N, of which an hour has room for three frames of 12 bytes at this data rate.
NARROW = (868_900_000, 0)
# Devices: one for which payloads wait; one that is heard on both desks; one whose answer comes late, and one whose answer would
# come at the same moment; one whose counters are all spent; and some that share the room of N.
QUEUED = SetDevice(0x26010001, (b"q" * 16, b"Q" * 16), up=70_000, down=77)
HEARD = SetDevice(0x26010002, (b"h" * 16, b"H" * 16))
FAR = SetDevice(0x26010003, (b"f" * 16, b"F" * 16), delay=8)
NEAR = SetDevice(0x26010004, (b"n" * 16, b"N" * 16), delay=1)
SPENT = SetDevice(0x26010005, (b"e" * 16, b"E" * 16), up=(1 << 32) - 1, down=1 << 32)
SHARING = [SetDevice(0x26010010 + place, (b"s" * 16, b"S" * 16), delay=2 * place + 1, rx2=NARROW) for place in range(4)]
PAYLOADS = [(9, b"\xc0\xff\xee"), (1, b""), (223, bytes(range(40)))]


def settings_of(gateways: int, devices: int, *more: SetDevice) -> Settings:
    """So many gateways, and so many devices for a load behind these."""
    many = [SetDevice(0x26020000 + place, (place.to_bytes(2, "big") * 8, bytes(16))) for place in range(devices)]
    return Settings([SetGateway(number, EUIS[number]) for number in range(1, gateways + 1)], [*more, *many])


class Played:
    """A server that is started, packet forwarders and a client."""

    def __init__(self, program: str, settings: Settings, words: Sequence[str], ends: contextlib.ExitStack) -> None:
        self.program, self.settings = program, settings
        self.server = ends.enter_context(Server(program, settings.text(), words=words))
        self.puller, self.sender, self.client = [ends.enter_context(Sender(self.server)) for _ in range(3)]
        numbers = [one.number for one in settings.gateways]
        self.load = Load(self.sender, [EUIS[number] for number in numbers], self.puller)
        self.follower = Follower(dict.fromkeys(numbers, LEAD), is_all_told=False)

    def upto(self, begin: str) -> str:
        """The next line that begins so."""
        lines = self.server.upto(begin)
        self.follower.take(lines)
        return next(line for line in lines if line.startswith(begin))

    def tell(self, device: SetDevice, counter: int, gateway: int, is_confirmed: bool = True, **more: object) -> None:
        """A gateway tells an uplink of a device."""
        data = lorawan.uplink(is_confirmed, device.addr, counter, device.keys)
        tell_uplink(self.sender, EUIS[gateway], data, **more)

    def queue(self, payloads: Sequence[tuple[int, bytes]]) -> None:
        """Payloads wait for a device."""
        for place, (port, payload) in enumerate(payloads, 1):
            answer = self.client.answer(queue(QUEUED.addr, port, payload))
            expect(f"queued {QUEUED.addr:08x} {place}\n", answer, "the answer to a payload")

    def expect_frame(self, device: SetDevice, counter: int, **more: object) -> None:
        """The next PULL_RESP has this frame."""
        wanted = lorawan.downlink(device.addr, counter, device.keys, **more)
        expect(wanted, read_pull_resp(self.load.pull_resp())[4], f"the frame for {device.addr:08x} under {counter}")

    def is_closed(self) -> bool:
        self.follower.take(self.server.lines())
        return not self.follower.opened and not self.follower.owed

    def over(self) -> str:
        """All is answered, as by `airbook run`. No session began but at the start, and nothing failed. Its last report."""
        awaited(self.is_closed, "the answer to each uplink", self.server.child)
        report = self.client.answer(b"report")
        expect(answered_over_desks(self.program, self.settings, self.follower), report, "the report")
        begun = [told.gateway for told in self.follower.placed if isinstance(told, Session)]
        expect([one.number for one in self.settings.gateways], sorted(begun), "the gateways of which a session begins")
        expect([], self.follower.acks, "what failed")
        return report


def going_on(answers: Iterable[str]) -> Iterator[str]:
    """These lines, with the numbers of one desk that goes on."""
    before = opened = 0
    for answer in answers:
        first, *words = answer.split(" ")
        if first == "opened":
            before, opened = (before + opened, 0) if words[0] == "1" else (before, opened)
            opened += 1
        if first in NUMBERED and words[0].isdigit():
            words[0] = str(int(words[0]) + before)
        yield " ".join([first, *words])


def answered_over_desks(program: str, settings: Settings, follower: Follower) -> str:
    """`airbook run` answers the lines behind `> ` alike, over all desks, with numbers that go on. Its report."""
    lines, count = run_over(program, settings.text(), [event.encode() for event in follower.events]), len(follower.answers)
    expect_all(lines[:count], list(going_on(follower.answers)), "answers of serve, which are those of run")
    return text_of(lines[count:])


# Numbers.


def numbers_of(sizes: Iterable[int]) -> Iterator[int]:
    """The numbers of uplinks that are told in datagrams of so many."""
    number = 0
    for size in sizes:
        if number >= DESK:
            number = 0
        for _ in range(size):
            number += 1
            yield number


def drawn_sizes(chance: Random, desks: int) -> list[int]:
    """How many uplinks each datagram has, up to a little behind the end of so many desks."""
    sizes: list[int] = []
    while sum(sizes) < desks * (DESK + MOST) + 500:
        sizes.append(chance.choice([MOST, MOST, MOST - 1, chance.randrange(1, MOST + 1)]))
    return sizes


def pauses(follower: Follower) -> list[int]:
    """By new desk the microseconds from the turn that closed the last uplink of the one before to that which opened the first. In
    these the one is answered and the other made."""
    found, passed = [], 0
    openings = iter(answer for answer in follower.answers if answer.startswith("opened "))
    for event in follower.events:
        first, *words = event.split(" ")
        if first == "pass":
            passed = int(words[0])
        elif first == "hear" and next(openings) == "opened 1" and passed:
            found.append(int(words[6]) - passed)
    return found


def numbers(program: str, words: Sequence[str], desks: int, seed: int) -> str:
    """Each uplink is opened once, and numbers begin anew."""
    settings, sizes = settings_of(4, 1_024), drawn_sizes(Random(seed), desks)
    made, told = uplinks(settings.devices, sum(sizes)), iter(sizes)
    with contextlib.ExitStack() as ends:
        play, rest, began = Played(program, settings, words, ends), iter(made), time.monotonic()
        for size in told:
            play.load.send(list(itertools.islice(rest, size)))
        play.load.settle()
        took = time.monotonic() - began
        play.over()
        play.puller.is_quiet()
    follower, longest = play.follower, play.load.longest()
    opened = [int(answer.split()[1]) for answer in follower.answers if answer.startswith("opened ")]
    expect([], follower.drops, "what is dropped")
    expect_all(made, [one.data for one in follower.placed if not isinstance(one, Session)], "uplinks that are told")
    expect_all(list(numbers_of(sizes)), opened, "numbers of uplinks")
    expect(desks, len(pauses(follower)), "how many new desks there were")
    if longest > LONGEST:
        raise Failed(f"nothing was acknowledged for {longest} us")
    ends_at = " ".join(map(str, lasts(follower)[:-1]))
    told = f"the last numbers of desks {ends_at}; {len(made) / took:.0f} uplinks a second"
    return told + f"; at most {longest} us without an acknowledgement; new desks within {' '.join(map(str, pauses(follower)))} us"


# What is kept.


class Kept(Played):
    """What a server keeps where its desk is made anew. Gateway 1 has something to send at the end of the first desk, gateway 2 has
    sent all that N has room for, and gateway 3 nothing."""

    def share(self, device: SetDevice, counter: int) -> None:
        """An uplink of which the answer would be in N."""
        self.tell(device, counter, 2, freq=NARROW[0] / 1_000_000, datr=RATES[NARROW[1]])

    def first_desk(self, made: Sequence[bytes]) -> int:
        """Up to a little behind the end of the first desk: the moment of the uplink that is answered late."""
        for counter in (1, 2):
            self.tell(HEARD, counter, 1)
            self.expect_frame(HEARD, counter - 1, ack=True)
        self.queue(PAYLOADS)
        for one in SHARING[:3]:
            self.share(one, 1)
            self.expect_frame(one, 0, ack=True)
        self.share(SHARING[3], 1)
        expect("DutyFull", self.upto("unanswered ").split()[2], "why there is no room in the hour")
        most = DESK - 2 - len(SHARING) - 100
        self.load.send_all(made[:most])
        moment = now()
        self.tell(FAR, 1, 1, tmst=moment % (1 << 32))
        # The last of these are acknowledged at the new desk.
        self.load.send_all(made[most:])
        self.expect_frame(FAR, 0, ack=True)
        return moment

    def new_desk(self, moment: int) -> None:
        """What is sent at the new desk: floors, counters, payloads and airtime go on."""
        self.tell(NEAR, 1, 1, is_confirmed=False, tmst=(now() - 3_000_000) % (1 << 32))
        for place, body in enumerate(PAYLOADS):
            self.tell(QUEUED, QUEUED.up + 1 + place, 3, is_confirmed=place == 0)
            self.expect_frame(QUEUED, QUEUED.down + place, ack=place == 0, pending=place < 2, body=body)
        self.tell(HEARD, 2, 1)
        self.expect_frame(HEARD, 2, ack=True)
        self.tell(HEARD, 1, 1)
        self.upto("dropped BadMic 1 ")
        self.tell(SPENT, SPENT.up, 2)
        expect("CounterSpent", self.upto("no ").split()[2], "why a device gets no answer whose counters are spent")
        self.share(SHARING[3], 2)
        expect("DutyFull", self.upto("unanswered ").split()[2], "why there is no room in the hour, at the new desk")
        behind = moment + 1_000_000 * (FAR.delay - NEAR.delay)
        time.sleep(max(0, behind - now()) / 1_000_000)
        self.tell(NEAR, 2, 1, tmst=behind % (1 << 32))
        self.expect_frame(NEAR, 0, ack=True)


def sent_by(follower: Follower) -> list[Asked]:
    """The downlinks that are told."""
    found = []
    for line, frame in zip(follower.answers, follower.answers[1:]):
        if line.startswith("send "):
            number, gateway, _, start, *more, _ = line.split()[1:]
            told = int(number) % (1 << 16), int(gateway), int(start), int(start) % (1 << 32), *map(int, more)
            found.append(Asked(1, *told, bytes.fromhex(frame.split()[2])))
    return found


def first_tick(follower: Follower, gateway: int) -> tuple[int, int]:
    """By what a gateway is ticked first on the second desk, and the floor that is answered."""
    begins = [place for place, event in enumerate(follower.events) if event.startswith("hear ")][lasts(follower)[0]]
    before = sum(event.startswith("tick ") for event in follower.events[:begins])
    ticks = [event.split()[1:] for event in follower.events if event.startswith("tick ")]
    floors = [int(answer.split()[2]) for answer in follower.answers if answer.startswith("floor ")]
    rows = zip(ticks[before:], floors[before:])
    return next((int(asked), floor) for (own, asked), floor in rows if int(own) == gateway)


def expect_told(follower: Follower) -> None:
    """A late packet doesn't lower a floor, a counter that is repeated is told as such, and what was to be sent is in the way."""
    asked, floor = first_tick(follower, 1)
    if floor <= asked:
        raise Failed(f"gateway 1 is ticked first by {asked} on the new desk, and its floor is {floor}")
    expect(2, sum(answer.endswith(" repeat") for answer in follower.answers), "how many uplinks are repeated")
    far, near = (next(one for one in sent_by(follower) if one.addr() == device.addr) for device in (FAR, NEAR))
    wanted = far.gateway, far.start + 1_000_000 * NEAR.delay, NEAR.rx2[0]
    expect(wanted, (near.gateway, near.start, near.frequency), "the answer for which RX1 isn't free")


def kept(program: str, folder: pathlib.Path) -> str:
    """Payloads, counters, books and totals go on at a new desk."""
    settings = settings_of(3, 500, QUEUED, HEARD, FAR, NEAR, SPENT, *SHARING)
    made = uplinks(settings.devices[-500:], DESK + 100)
    with contextlib.ExitStack() as ends:
        play = Kept(program, settings, state_words(folder, "--new"), ends)
        play.new_desk(play.first_desk(made))
        report = play.over()
        play.puller.is_quiet()
        journal = (folder / "journal").read_bytes()
    expect_told(play.follower)
    asked = sent_by(play.follower)
    for number, (_, _, book) in reader(journal)[0].gateways.items():
        own = [one for one in asked if one.gateway == number]
        expect_apart(own)
        expect_lawful_hours(own)
        expect(sorted(one.start for one in own), [start for start, *_ in book.members], f"what gateway {number} has by the journal")
    expect([["BadMic", "1", EUIS[1].hex()]], play.follower.drops, "what is dropped")
    if not DESK <= lasts(play.follower)[0] < DESK + MOST:
        raise Failed(f"the last number of the first desk is {lasts(play.follower)[0]}")
    told = f"the last number of the first desk {lasts(play.follower)[0]}; {len(asked)} downlinks"
    return f"{told}; the report's last line is {report.splitlines()[-1]!r}"


def lasts(follower: Follower) -> list[int]:
    """The last number of each desk."""
    opened = [int(answer.split()[1]) for answer in follower.answers if answer.startswith("opened ")]
    return [number for number, following in zip(opened, [*opened[1:], 1]) if following == 1]


def killed(program: str, folder: pathlib.Path) -> None:
    """A server is killed as soon as the first uplinks of a new desk are told."""
    settings, words = settings_of(3, 500, QUEUED, HEARD), state_words(folder)
    made = uplinks(settings.devices[-500:], DESK)
    with contextlib.ExitStack() as ends:
        play = Kept(program, settings, [*words, "--new"], ends)
        for counter in (1, 2):
            play.tell(HEARD, counter, 1)
            play.expect_frame(HEARD, counter - 1, ack=True)
        play.queue(PAYLOADS)
        play.load.send_all(made[:DESK - 2])
        play.load.send_all(made[DESK - 2:])
        # By the next turn the lines of those are told.
        play.load.pull()
        play.server.child.kill()
        play.server.child.wait()
        play.follower.take(play.server.lines())
    expect([DESK, 2], lasts(play.follower), "the last numbers of both desks")
    devices = reader((folder / "journal").read_bytes())[0].devices
    expect(PAYLOADS, devices[QUEUED.addr][3], "what waits by the journal")
    with contextlib.ExitStack() as ends:
        play = Kept(program, settings, words, ends)
        play.tell(QUEUED, QUEUED.up + 1, 3)
        play.expect_frame(QUEUED, QUEUED.down, ack=True, pending=True, body=PAYLOADS[0])
        play.tell(HEARD, 3, 3)
        play.expect_frame(HEARD, 2, ack=True)
        awaited(play.is_closed, "the answer to each uplink", play.server.child)
        expect([2], lasts(play.follower), "the last number of the desk behind a kill")


# How long it takes.


def alone(program: str) -> str:
    """The microseconds from the pass that closes the last uplink, and that one alone, to the first packet of a new desk."""
    settings = settings_of(1, 1_024)
    made = uplinks(settings.devices, DESK + 1)
    with contextlib.ExitStack() as ends:
        play = Played(program, settings, ["--shadow"], ends)
        play.load.send_all(made[:DESK - 1])
        awaited(play.is_closed, "the answer to each uplink", play.server.child)
        play.load.send(made[DESK - 1:DESK])
        play.load.send(made[DESK:])
        play.load.settle()
        play.over()
    took, = pauses(play.follower)
    return f"it took {took} us"


def main() -> int:
    program, (desks, seed) = asked_by(__doc__, 2, 1)
    lorawan.checked()
    signal.signal(signal.SIGTERM, lambda *_: sys.exit(1))
    trials: list[FolderTrial] = [
        (f"{desks} desks", lambda folder: numbers(program, state_words(folder, "--new"), desks, seed)),
        ("a desk of a shadow", lambda _: numbers(program, ["--shadow"], 1, seed + 1)),
        ("what is kept", lambda folder: kept(program, folder)),
        ("a kill", lambda folder: killed(program, folder)),
        ("memory", lambda folder: over_uplinks(program, folder, desks * DESK)),
    ]
    return tell_of_folders([trials, [("a new desk of 1,024 devices", lambda _: alone(program))]])


if __name__ == "__main__":
    sys.exit(main())
