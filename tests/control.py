#!/usr/bin/env python3
"""Starts `airbook serve`, sends it control datagrams, and compares what it answers, tells, keeps and sends.

Usage: control.py PROGRAM [SEED]     (1: what is drawn)

Trials, side by side (lib/control_lines.py has the lines):

- each fault of `queue` beside each other one, and spellings, are answered as by `airbook run`, told in one spelling, and stand in
  the journal when the answer comes, if they wait. `report` is answered with a report. All else asks for nothing, and leaves
  journal and output as they are;
- payloads that are drawn, between uplinks that three gateways of a shadow hear. What stands behind `> ` is then an input of
  `airbook run`, which has to answer the same lines, and to report on the way what the shadow reports;
- the longest report: on 64 gateways, each of which has sent in each sub-band;
- the calls of the system that a control datagram takes (lib/struck_calls.py): a batch is written and synced before a payload is
  answered as queued, and nothing for any other, or by a shadow;
- a journal that grows by payloads that are queued, until a whole one takes its place;
- a state over kills, each right behind an answer (lib/kept_queues.py). Each payload goes along once, in the order in which they
  were queued. At most 16 wait, also behind a kill. A report has the books of the journal;
- disks that fail (lib/failing_disk.py): nothing is queued, told or sent, until a whole journal was written some 10 s later;
- lines from an address that is none of 127.x, which are dropped. Where the machine has none, this isn't tried.

It takes some 15 s, and needs a C compiler. Every wait ends within a minute. A failing trial has a line; the last line is
'N passed, M failed'. The status is 0 where none failed, 1 where one did, 2 where nothing could be run.
"""
from __future__ import annotations

import contextlib
import itertools
import pathlib
import re
import signal
import sys
import time
from random import Random
from typing import Iterable, Optional

sys.dont_write_bytecode = True
from lib import lorawan
from lib.arguments import asked_by
from lib.control_lines import EMPTY, FULL, MOST, SPELT, drawn, faults, filling, nothing, queue, reports, spellings, text_of, told_as
from lib.failing_disk import ADDR, KEYS, RENEWED_EVERY, SOON, ForgetfulDisk, FullDisk, NoRoomDisk, settings_and_journal
from lib.gateway_model import ASKS_NOTHING, RATES
from lib.kept_queues import over_kills
from lib.plain_journal import batches_of, reader
from lib.plain_restarts import RX2, SetDevice, SetGateway, Settings
from lib.plain_server import report_of
from lib.played_forwarders import tell_uplink
from lib.played_gateway import read_pull_resp
from lib.queueing_client import NO_JOURNAL
from lib.refused_states import folder_with, state_words
from lib.serve_lines import Drops, Follower
from lib.serving import EUIS, Sender, Server, awaited, outer_address
from lib.struck_calls import StruckCalls
from lib.trials import Failed, FolderTrial, expect, tell_of_folders
from lib.worked_run import answered_alike, run_over

LEAD = 400_000
BAD = ASKS_NOTHING.decode()
# A channel of each sub-band, in Hz.
CHANNELS = [864_100_000, 867_100_000, 868_100_000, 868_900_000, 869_525_000, 869_850_000]
# With this one a disk begins to fail.
FIRST = queue(ADDR, 9, bytes(20))
# Behind so many bytes a whole journal is written, and so many has the batch of the longest payload.
GROWN, BATCH = 1 << 20, len(queue(ADDR, 9, bytes(242))) + 3


def settings_of(gateways: Iterable[int], *addresses: str) -> Settings:
    return Settings([SetGateway(one, EUIS[one]) for one in gateways], [SetDevice(int(one, 16), KEYS) for one in addresses])


# What is answered to lines.


def answers_of_run(program: str, settings: Settings, lines: list[bytes]) -> tuple[list[str], str]:
    """What `airbook run` answers to these lines, one each, and its report. A datagram has no number of its line."""
    told = run_over(program, settings.text(), [line.removesuffix(b"\n") for line in lines])
    answers = [re.sub(r"^bad \d+ ", "bad 0 ", line) + "\n" for line in told]
    return answers[:len(lines)], "".join(answers[len(lines):])


def each_line(program: str, folder: pathlib.Path) -> None:
    """Lines of all kinds, in turn by two clients."""
    settings, journal = settings_of((1, 2), EMPTY, FULL, SPELT), folder / "journal"
    queued = filling(FULL) + faults() + spellings()
    answers, report = answers_of_run(program, settings, queued)
    rows = [*zip(queued, answers), *((line, BAD) for line in nothing()), *((line, report) for line in reports())]
    wanted, words = [], state_words(folder, "--new")
    with Server(program, settings.text(), words=words) as server, Sender(server) as one, Sender(server, "127.255.255.254") as two:
        one.pull(EUIS[1])
        kept = journal.read_text()
        for place, (line, answer) in enumerate(rows):
            expect(answer, (one, two)[place % 2].answer(line), f"the answer to {line[:100]!r}")
            if answer.startswith(("queued ", "no queue ")):
                wanted += ["> " + told_as(line), answer.rstrip()]
            if answer.startswith("queued "):
                kept += told_as(line) + "\n.\n"
            expect(kept, journal.read_text(), f"the journal behind {line[:100]!r}")
        # A datagram without a byte is no control datagram.
        one.send(b"")
        expect([*wanted, "dropped Short 1 -"], server.upto("dropped"), "what is told of all lines")
        one.is_quiet()
        two.is_quiet()
    names = {answer.split()[2] for answer in answers if answer.startswith("no ")}
    expect({"UnknownDevice", "Port", "Long", "QueueFull"}, names, "the names of faults")


def longest_report(program: str, folder: pathlib.Path) -> None:
    """That of 64 gateways, whose books have transmissions in each sub-band."""
    numbers = range(64, 0, -1)
    settings, began = settings_of(numbers, EMPTY), 1 << 60
    rows = [(number, began + 1_000_000 * place, channel) for number in numbers for place, channel in enumerate(CHANNELS)]
    text = settings.journal(*(f"sent {number} {start} {channel} 5 12" for number, start, channel in rows))
    (folder / "journal").write_bytes(text)
    books = {number: book for number, (_, _, book) in reader(text)[0].gateways.items()}
    wanted = text_of(report_of(books))
    with Server(program, settings.text(), words=state_words(folder)) as server, Sender(server) as one:
        one.pull(EUIS[1])
        expect(wanted, one.answer(b"report"), f"the report, of {len(wanted)} bytes")


# What is drawn.


class Shadow:
    """A shadow, a client, and a packet forwarder of three gateways."""

    def __init__(self, program: str, server: Server, client: Sender, forwarder: Sender, settings: Settings) -> None:
        self.program, self.server, self.client, self.forwarder, self.settings = program, server, client, forwarder, settings
        self.gateways = [one.number for one in settings.gateways]
        self.follower = Follower(dict.fromkeys(self.gateways, LEAD), is_all_told=False)
        self.counters = dict.fromkeys((one.addr for one in settings.devices), 0)
        # What is queued, as it has to be told, with its answers.
        self.queued: list[tuple[str, str]] = []

    def queue(self, chance: Random) -> None:
        """A payload for one of the devices but the last, mostly for the first."""
        first, *others, _ = self.counters
        line = drawn(chance, [first] * len(others) + others)
        self.queued.append((told_as(line), self.client.answer(line).rstrip("\n")))

    def uplink(self, chance: Random) -> None:
        """An uplink of a device but the first, which some gateways hear."""
        device = chance.choice(self.settings.devices[1:])
        self.counters[device.addr] += 1
        data = lorawan.uplink(chance.random() < 0.3, device.addr, self.counters[device.addr], device.keys)
        frequency, rate = chance.choice([(868.1, 5), (868.1, 5), (867.1, 4), (868.9, 3), (864.1, 2)])
        for number in chance.sample(self.gateways, chance.randrange(1, 4)):
            tell_uplink(self.forwarder, EUIS[number], data, freq=frequency, datr=RATES[rate], lsnr=chance.randrange(-20, 10))

    def report(self) -> None:
        """The report is that of a run over what happened by then: at the earliest what was told before it was asked for."""
        self.follower.take(self.server.lines())
        before = len(self.follower.events)
        report = self.client.answer(b"report")
        self.follower.take(self.server.lines())
        events = [event.encode() for event in self.follower.events]
        counts = range(before, len(events) + 1)
        runs = [run_over(self.program, self.settings.text(), events[:count]) for count in counts]
        wanted = [text_of(run[next(at for at, line in enumerate(run) if line.startswith("gateway ")):]) for run in runs]
        if report not in wanted:
            raise Failed(f"behind {before} events: wanted one of {wanted}, got {report!r}"[:2000])

    def closed(self) -> bool:
        """Whether each uplink that was opened is closed."""
        self.follower.take(self.server.lines())
        return not self.follower.opened and not self.follower.owed


def drawn_payloads(program: str, seed: int) -> None:
    """A shadow's queues and reports."""
    chance = Random(seed)
    rows = enumerate([RX2, (869_525_000, 0), (863_500_000, 3), RX2, RX2])
    devices = [SetDevice(0x26011000 + place, (bytes([place] * 16), bytes([place, 1] * 8)), rx2=rx2) for place, rx2 in rows]
    settings = Settings([SetGateway(number, EUIS[number]) for number in (7, 1, 3)], devices)
    with Server(program, settings.text()) as server, Sender(server) as client, Sender(server) as forwarder:
        shadow = Shadow(program, server, client, forwarder, settings)
        shadow.report()
        for number in shadow.gateways:
            forwarder.pull(EUIS[number])
        for place in range(160):
            does = shadow.queue if chance.random() < 0.6 else shadow.uplink
            does(chance)
            time.sleep(0.03 * chance.random())
            if place % 40 == 20:
                shadow.report()
        awaited(shadow.closed, "the answer to each uplink", server.child)
        shadow.report()
        client.is_quiet()
        forwarder.is_quiet()
    follower = shadow.follower
    answered_alike(program, settings.text(), follower)
    answers = [answer for answer in follower.answers if answer.startswith(("queued ", "no queue "))]
    events = [event for event in follower.events if event.startswith("queue ")]
    expect(shadow.queued, list(zip(events, answers)), "what is told of payloads")
    wanted = {"queued", "no", "opened", "joined", "silent", "send", "frame", "unanswered", "floor"}
    expect(wanted, {answer.split()[0] for answer in follower.answers}, "the kinds of answers")


# A state.


def calls_in_order(program: str, folder: pathlib.Path) -> None:
    """A payload that waits is written and synced before its answer. For each other one, and for all else, the journal isn't."""
    calls, settings = StruckCalls(folder), settings_of((1,), EMPTY)
    rows = [(queue(ADDR, 9, b"\1"), "vjdql"), (queue(ADDR, 0, b"\1"), "val"), (b"report", "va"), (b"reports", "va")]
    rows += [(queue(ADDR, 9, b""), "vjdql"), (queue(1, 9, b""), "val"), (b"\1", "va"), (b"report\n", "va")]
    wanted = "".join(letters for _, letters in rows)
    for words, letters in ((state_words(folder_with(folder), "--new"), wanted), (["--shadow"], wanted.replace("jd", ""))):
        with Server(program, settings.text(), words=words, **calls.options()) as server, Sender(server) as client:
            client.pull(EUIS[1])
            before = calls.told()
            for line, _ in rows:
                client.answer(line)
            expect(letters, calls.told()[len(before):], f"the calls of control datagrams with {words}")


def growing(program: str, folder: pathlib.Path) -> None:
    """So many payloads are queued that a whole journal takes the place of the first one and its batches."""
    addresses, rest = range(ADDR, ADDR + GROWN // BATCH // MOST + 2), bytes(241)
    settings = Settings([SetGateway(1, EUIS[1])], [SetDevice(addr, KEYS) for addr in addresses])
    with Server(program, settings.text(), words=state_words(folder, "--new")) as server, Sender(server) as client:
        for addr in addresses:
            for place in range(MOST):
                client.send(queue(addr, 9, bytes([place]) + rest))
            answers = b"".join(client.acknowledged() for _ in range(MOST)).decode()
            expect(text_of(f"queued {addr:08x} {place + 1}" for place in range(MOST)), answers, "the answers to a device's payloads")
        expect(BAD, client.answer(b"report ."), "an answer in another turn")
        text = (folder / "journal").read_bytes()
    whole = -(-GROWN // BATCH)
    expect(1 + len(addresses) * MOST - whole, len(batches_of(text)[0]), "the batches of a journal that grew")
    waiting = {addr: [payload[0] for _, payload in waiting] for addr, (*_, waiting) in reader(text)[0].devices.items()}
    expect(dict.fromkeys(addresses, list(range(MOST))), waiting, "the payloads that wait by it")


# Disks that fail.


def without_disk(program: str, folder: pathlib.Path, disk: FullDisk | ForgetfulDisk) -> None:
    """The disk fails for a second."""
    journal, (settings, text) = folder / "journal", settings_and_journal()
    journal.write_bytes(text)
    with Server(program, settings.text(), words=state_words(folder), **disk.options) as server, contextlib.ExitStack() as ends:
        sender, client = [ends.enter_context(Sender(server)) for _ in range(2)]
        sender.pull(EUIS[1])
        before = journal.read_bytes()
        disk.breaks(server, journal)
        failed = time.monotonic()
        expect_no_queue(server, sender, client)
        expect(before + disk.adds(FIRST + b"\n.\n"), journal.read_bytes(), "the journal while the disk fails")
        time.sleep(max(0, failed + 1 - time.monotonic()))
        disk.mends(server)
        accepted = queued_again(client, failed)
        told = ["> " + told_as(queue(ADDR, 9, accepted)), f"queued {ADDR:08x} 1"]
        expect(told, server.upto("queued"), "what is told once the disk is mended")
        expect([(9, accepted)], reader(journal.read_bytes())[0].devices[ADDR][3], "what waits by the journal")
        sender.is_quiet()
        client.is_quiet()
    with Server(program, settings.text(), words=state_words(folder)) as server, Sender(server) as sender:
        sender.pull(EUIS[1])
        tell_uplink(sender, EUIS[1], lorawan.uplink(False, ADDR, 2, KEYS))
        wanted = lorawan.downlink(ADDR, 0, KEYS, body=(9, accepted))
        expect(wanted, read_pull_resp(sender.acknowledged())[4], "the frame with the payload that was queued")


def expect_no_queue(server: Server, sender: Sender, client: Sender) -> None:
    """No payload is queued: neither the first one, with which the disk fails, nor others, for which it isn't asked."""
    for line in (FIRST, queue(ADDR, 9, b"\1"), queue(ADDR + 1, 9, b"\1"), queue(1, 0, bytes(243))):
        expect(NO_JOURNAL, client.answer(line), f"the answer to {line!r} while the disk fails")
    expect(BAD, client.answer(b"queue"), "the answer to what asks for nothing while the disk fails")
    report = text_of(["gateway 1 booked 0 cancelled 0 retired 0 kept 0", "answered 0 unanswered 0 silent 0"])
    expect(report, client.answer(b"report"), "the report while the disk fails")
    tell_uplink(sender, EUIS[1], lorawan.uplink(False, ADDR, 1, KEYS))
    told = [re.sub(r"^(\W*\w+).*", r"\1", line) for line in server.upto("silent 1")]
    expect(["session", "> hear", "opened", "> tick", "floor", "> pass", "silent"], told, "what is told while the disk fails")


def queued_again(client: Sender, failed: float) -> bytes:
    """Asks again and again, each time with another payload: the one that is queued, once the journal was tried anew."""
    for place in itertools.count(1):
        payload = place.to_bytes(2, "big")
        answer, passed = client.answer(queue(ADDR, 9, payload)), time.monotonic() - failed
        if answer != NO_JOURNAL or passed > RENEWED_EVERY + SOON:
            break
        time.sleep(0.1)
    if passed < RENEWED_EVERY:
        raise Failed(f"{answer!r} is answered {passed:.1f} s behind the failure")
    expect(f"queued {ADDR:08x} 1\n", answer, f"the answer {passed:.1f} s behind the failure")
    return payload


# Where lines come from.


def from_elsewhere(program: str, outer: str) -> None:
    """From an address that is none of 127.x control datagrams are dropped, and a packet forwarder's are taken as ever."""
    drops, settings = Drops(), settings_of((1,), EMPTY)
    with Server(program, settings.text()) as server, Sender(server, outer) as other, Sender(server, "127.9.8.7") as client:
        for line in (queue(ADDR, 9, b"\1"), b"report\n", b"reports", b"x" * 1_400, b"\1\0\0\2" + EUIS[1]):
            other.send(line)
            drops.add("Version", None)
        other.send(b"qu")
        drops.add("Short", None)
        other.pull(EUIS[1])
        expect(f"queued {ADDR:08x} 1\n", client.answer(queue(ADDR, 9, b"\2")), "the answer to a client on the machine")
        lines = server.upto_counts()
        other.is_quiet()
    drops.compare([line.split()[1:] for line in lines if line.startswith("dropped ")])
    drops.all_told()
    told = ["> " + told_as(queue(ADDR, 9, b"\2")), f"queued {ADDR:08x} 1"]
    expect(told, [line for line in lines if not line.startswith("dropped ")], "what else is told")


def main() -> int:
    program, (seed,) = asked_by(__doc__, 1)
    lorawan.checked()
    signal.signal(signal.SIGTERM, lambda *_: sys.exit(1))
    disks = [("a full disk", lambda _: FullDisk()), ("a disk without room", NoRoomDisk), ("one that forgets", ForgetfulDisk)]
    trials: list[FolderTrial] = [
        (name, lambda folder, made=made: without_disk(program, folder_with(folder), made(folder))) for name, made in disks
    ]
    trials += [
        ("each line", lambda folder: each_line(program, folder)),
        ("payloads that are drawn", lambda _: drawn_payloads(program, seed)),
        ("the longest report", lambda folder: longest_report(program, folder)),
        ("calls in their order", lambda folder: calls_in_order(program, folder)),
        ("a journal that grows", lambda folder: growing(program, folder)),
        ("kills", lambda folder: over_kills(program, folder)),
    ]
    outer: Optional[str] = outer_address()
    if outer:
        trials.append(("lines from elsewhere", lambda _: from_elsewhere(program, outer)))
    return tell_of_folders([trials])


if __name__ == "__main__":
    sys.exit(main())
