#!/usr/bin/env python3
"""Starts `airbook serve --state`, kills it, and starts it again: what it sends, what its journal says, and what it refuses.

Usage: restarts.py PROGRAM [KILLS [SEED]]     (20, 1: how many lives, and what is drawn)

Trials, side by side (the files that are named stand in lib/):

- the worked run from a new state on, which `airbook run` answers alike; its journal and its PULL_RESP to the byte; a kill; the
  book that is recovered; and a second life, in which the gateway that was asked for something is silent first, and the downlink
  counter goes on;
- each fault by its name, in their order, with the journal left as it is (refused_states.py); arguments that are refused;
- of the worked journal every third cut of its last batch, and every third byte of it set to 0: some 60 starts in all. SEED tells
  which third. Each journal that is written anew says what it says behind the whole one, or behind that without the batch;
- settings that were changed beside a journal, and what is told of that (plain_restarts.py);
- KILLS lives on one journal (served_lives.py, lawful_lives.py). Three gateways go on through them, and forget no PULL_RESP. A
  client has payloads queued, each of which waits by the journal or went along, once (lawful_queues.py). Every third life ends
  0.05 to 1.5 s behind its start. A gateway is silent for some 2 s behind a restart. So the others wait for a PULL_RESP, up to
  4.5 s, and end within 0.7 s behind it. In half of all the kill comes with a PULL_RESP, so while others are sent;
- disks that fail for some time (failing_disk.py): nothing is sent, the program runs on, and sends again once a whole journal was
  written. A disk is full for 2 s, and for 11 s, so that the first renewal fails too; another one keeps nothing for 2 s.

It takes some 45 s, and needs a C compiler. Every wait ends within a minute. A failing trial has a line; the last line is
'N passed, M failed'. The status is 0 where none failed, 1 where one did, 2 where nothing could be run.
"""
from __future__ import annotations

import pathlib
import re
import signal
import sys
import time

sys.dont_write_bytecode = True
from lib import lorawan
from lib.arguments import asked_by
from lib.failing_disk import ADDR, KEYS, ForgetfulDisk, FullDisk, goes_through
from lib.gateway_model import Clock
from lib.lawful_lives import LEAD, kills
from lib.plain_journal import batches_of, reader
from lib.plain_restarts import GAP, SILENCE, SetDevice, SetGateway, Settings, expect_state, goes_on, within
from lib.played_forwarders import now, tell_uplink
from lib.played_gateway import pull_resp, read_pull_resp
from lib.refused_states import BATCH, GATEWAYS, NEW_JOURNAL, arguments_refused, files_in, folder_used, folder_with
from lib.refused_states import folders_refused, journals_refused, state_words
from lib.serve_lines import Follower
from lib.serving import EUIS, SECONDS, Sender, Server, recovered
from lib.trials import Failed, expect, tell_of_folders
from lib.worked_run import FIRST, OTHER, SETTINGS, answered_alike, numbers_of, words_of

SECOND_JOURNAL = GATEWAYS + """device 26011bda 5c7efb43 7 1
sent 2 {start} 868100000 5 12
clock 1 {high1} 0
clock 2 {high2} {raised}
.
"""
SECOND_LIFE = """session 1 {at1}
> hear 1 {at1} 868100000 5 55 -90 {arrived1} UPLINK
opened 1
session 2 {at2}
> hear 2 {at2} 868100000 5 80 -90 {arrived2} UPLINK
joined 1 2
> tick 1 {floor1}
floor 1 {floor1}
> tick 2 {tick2}
floor 2 {raised}
> pass {now}
send 1 1 RX1 {start1} 868100000 5 12
frame 1 FRAME
"""
SECOND_BATCH = """clock 1 {high} {floor1}
device 26011bda 5c7efb43 8 2
sent 1 {start1} 868100000 5 12
.
"""
SAVED = """airbook 2
gateway 2 4096 {floor} 45000
r 0 {start} 868100000 5 12
end 1
"""
MINUTE = SECONDS * 1_000_000


def killed(server: Server) -> None:
    server.child.kill()
    server.child.wait()


def told_of(server: Server) -> list[str]:
    """What it says on standard error."""
    return pathlib.Path(server.folder.name, "errors").read_text().splitlines()


# The worked run.


def worked_life(program: str, folder: pathlib.Path) -> dict[str, int]:
    """The worked run from a new state up to a kill: the numbers of its lines, and what gateway 2's clock shows at least."""
    with Server(program, SETTINGS, words=state_words(folder, "--new")) as server, Sender(server) as one, Sender(server) as two:
        one.pull(EUIS[1])
        two.asked(bytes.fromhex("02000702aa555a0000000002"), bytes.fromhex("02000704"))
        one.asked(FIRST, bytes.fromhex("02123401"))
        two.push(EUIS[2], OTHER)
        lines, clock, follower = server.upto("frame"), Clock(), Follower(dict.fromkeys((1, 2), LEAD))
        found = numbers_of(lines)
        follower.take(lines)
        at = clock.hear(4_294_000_000, found["arrived2"]).at
        expect((at, at + 1_000_000), (found["at2"], found["start"]), "the moment of gateway 2, and the start of RX1")
        tmst = (found["start"] - clock.offset) % (1 << 32)
        wanted = pull_resp(1, tmst, 868_100_000, 5, bytes.fromhex("60da1b0126200000240347ca"))
        expect((32_704, 182), (tmst, len(wanted)), "the counter of the PULL_RESP, and how many bytes it has")
        expect(wanted, two.acknowledged(), "the PULL_RESP")
        two.send(bytes.fromhex("02000105aa555a0000000002") + b'{"txpk_ack":{"error":"TOO_LATE"}}')
        expect(["failed 1 2 TOO_LATE"], server.upto("failed"), "what is told of an error")
        one.is_quiet()
        two.is_quiet()
        killed(server)
        expect([], told_of(server), "standard error of the worked run")
    answered_alike(program, SETTINGS, follower)
    return found | {"high": clock.line(found["now"])}


def worked(program: str, folder: pathlib.Path) -> None:
    """The worked run, its journal, and the book that is recovered of it; and a second life."""
    found = worked_life(program, folder)
    text = (folder / "journal").read_text()
    kept = words_of(NEW_JOURNAL + BATCH, text, "the journal")
    wanted = {"high": found["high"], "floor": found["floor2"], "start": found["start"]}
    expect(wanted, {name: kept[name] for name in wanted}, "the numbers of the batch")
    within(2_000_000, kept["first"], 2_000_000 + found["arrived1"], "what the clocks of new gateways show at least")
    expect(SAVED.format(**kept), recovered(program, text, "--gateway", "2"), "the book of gateway 2")
    second_life(program, folder, kept)


def second_life(program: str, folder: pathlib.Path, kept: dict[str, int]) -> None:
    """Started again, gateway 2 is silent until what it was asked for has ended; the downlink counter goes on."""
    raised = max(kept["floor"], kept["start"] + lorawan.airtime(5, 12) + GAP + SILENCE)
    with Server(program, SETTINGS, words=state_words(folder)) as server, Sender(server) as one, Sender(server) as two:
        one.pull(EUIS[1])
        two.pull(EUIS[2])
        renewed = (folder / "journal").read_text()
        opened = words_of(SECOND_JOURNAL, renewed, "the renewed journal")
        expect((kept["start"], raised), (opened["start"], opened["raised"]), "the start and the floor of gateway 2")
        for name, high in (("high1", kept["first"]), ("high2", kept["high"])):
            within(high, opened[name], high + MINUTE, f"what the clock {name} shows at least")
        book = SAVED.format(floor=raised, start=kept["start"])
        expect(book, recovered(program, renewed, "--gateway", "2"), "the book of gateway 2 behind a restart")
        began = now()
        told = second_answer(server, one, two, kept, raised)
        text = (folder / "journal").read_text()
        expect(renewed, text[:len(renewed)], "the front of the journal")
        batch = words_of(SECOND_BATCH, text[len(renewed):], "the second batch")
        expect({name: told[name] for name in batch}, batch, "the numbers of the second batch")
        time.sleep(max(0, raised - 1_000_000 - told["at2"]) / 1_000_000 + 0.1)
        third_answer(server, one, two, 4_000_000 + now() - began, raised)
        expect([], told_of(server), "standard error of the second life")


def clock_from(high: int) -> Clock:
    """A gateway's clock that shows so much at least as the server begins."""
    clock = Clock()
    clock.at = clock.top = high
    return clock


def second_answer(server: Server, one: Sender, two: Sender, kept: dict[str, int], raised: int) -> dict[str, int]:
    """Both gateways hear an uplink. The better one is silent, and the other answers: the numbers of the lines."""
    data, frame = lorawan.uplink(True, ADDR, 8, KEYS), lorawan.downlink(ADDR, 1, KEYS, ack=True)
    tell_uplink(one, EUIS[1], data, 9_000_000)
    tell_uplink(two, EUIS[2], data, 4_000_000, lsnr=8.0)
    template = SECOND_LIFE.replace("UPLINK", data.hex()).replace("FRAME", frame.hex())
    told = words_of(template, "\n".join([*server.upto("frame"), ""]), "the lines of the second life")
    clocks = {"1": clock_from(kept["first"]), "2": clock_from(kept["high"])}
    for name, tmst in (("1", 9_000_000), ("2", 4_000_000)):
        expect(clocks[name].hear(tmst, told["arrived" + name]).at, told["at" + name], f"the moment of gateway {name}")
    expect((raised, told["at1"] + 1_000_000), (told["raised"], told["start1"]), "the floor of gateway 2, and the start")
    tmst = (told["start1"] - clocks["1"].offset) % (1 << 32)
    expect(pull_resp(1, tmst, 868_100_000, 5, frame), one.acknowledged(), "the PULL_RESP of the second life")
    two.is_quiet()
    return told | {"high": clocks["1"].line(told["now"])}


def third_answer(server: Server, one: Sender, two: Sender, tmst: int, raised: int) -> None:
    """Gateway 2 answers again, once RX1 comes behind its floor. It is asked where its PULL_DATA came from. Its uplink comes from
    elsewhere."""
    tell_uplink(one, EUIS[2], lorawan.uplink(True, ADDR, 9, KEYS), tmst)
    _, send, frame = server.upto("frame")[-3:]
    expect(["send", "2", "2", "RX1"], send.split()[:4], "the third answer")
    within(raised, int(send.split()[4]), raised + MINUTE, "the start of the third answer")
    wanted = lorawan.downlink(ADDR, 2, KEYS, ack=True)
    expect(f"frame 2 {wanted.hex()}", frame, "the frame of the third answer")
    expect(wanted, read_pull_resp(two.acknowledged())[4], "the frame of its PULL_RESP")
    one.is_quiet()


# Journals that were cut, and settings that were changed.


def started(program: str, parent: pathlib.Path, journal: bytes, settings: str, eui: bytes) -> tuple[str, list[str]]:
    """The journal with which a server begins that goes on with one, and what it says on standard error."""
    folder = folder_with(parent)
    (folder / "journal").write_bytes(journal)
    with Server(program, settings, words=state_words(folder)) as server, Sender(server) as one:
        one.pull(eui)
        killed(server)
        told = told_of(server)
    expect(["journal"], list(files_in(folder)), "the files of a state")
    renewed = (folder / "journal").read_text()
    expect((1, "\n.\n"), (len(batches_of(renewed.encode())[0]), renewed[-3:]), f"the batches, and the end, of {renewed!r}")
    return renewed, told


def cuts(program: str, parent: pathlib.Path, seed: int) -> None:
    """Each third cut of the last batch of the worked journal, and each third byte of it set to 0."""
    folder = folder_with(parent)
    worked_life(program, folder)
    whole = (folder / "journal").read_bytes()
    front = whole[:whole.index(b"\n.\n") + 3]
    expect(2, len(batches_of(whole)[0]), "the batches of the worked journal")

    def said(journal: bytes) -> str:
        """What the journal says that is written anew, but for what clocks show at least."""
        renewed, told = started(program, parent, journal, SETTINGS, EUIS[1])
        expect([], told, f"standard error behind {journal!r}")
        return re.sub(r"(INTO gateway VALUES\(\d+,'\w+',\d+,\d+),\d+,", r"\1,", recovered(program, renewed, "--sql"))

    wanted = [said(front), said(whole)]
    expect([0, 1], [text.count("INTO sent") for text in wanted], "the transmissions without the last batch, and with it")
    places = range(len(front) + seed % 3, len(whole), 3)
    for journal in [whole[:at] for at in places] + [whole[:at] + b"\0" + whole[at + 1:] for at in places]:
        if said(journal) not in wanted:
            raise Failed(f"{journal!r} is read neither with its last batch nor without it")


A, B = SetDevice(ADDR, KEYS), SetDevice(ADDR + 1, (bytes(range(16)), bytes(16)), 41, 7)
ONE, TWO = SetGateway(1, EUIS[1]), SetGateway(2, EUIS[2])
# Two transmissions of gateway 1 are 50,000 us apart.
BESIDE = """queue 26011bda 10 0102ff
queue 26011bda 11 -
queue 26011bdb 223 c0ffee
sent 1 5000000 868100000 5 12
sent 1 5091216 868100000 5 12
sent 2 9000000 864100000 3 12
device 26011bda 5c7efb43 7 3
clock 1 6000000 5500000
clock 2 8000000 0"""
# By gateway its cap, its gap, and how many transmissions are kept; by device its counters, and how many payloads wait.
RULES, COUNTERS = {1: (4_096, GAP, 2), 2: (4_096, GAP, 1)}, {ADDR: (7, 3, 2), ADDR + 1: (41, 7, 1)}
# The gateways and devices of settings, the beginnings of the notes, and what differs then; None where something is forgotten.
CHANGES = [
    ([ONE, TWO], [A, B], [], {}, {}),
    ([TWO, ONE._replace(cap=2, gap=50_000)], [A, B], [], {1: (2, 50_000, 2)}, {}),
    ([ONE._replace(cap=2, gap=50_001), TWO], [A, B], ["gateway 1 "], {}, {}),
    ([ONE._replace(cap=1, gap=50_000), TWO], [A, B], ["gateway 1 "], {}, {}),
    ([ONE, TWO], [A._replace(keys=B.keys, down=2), B], ["device 26011bda "], {}, {ADDR: (None, 2, 0)}),
    ([ONE, TWO], [A._replace(up=100, down=1), B._replace(up=None, down=9)], [], {}, {ADDR: (100, 3, 2), ADDR + 1: (41, 9, 1)}),
    ([TWO], [B], ["gateway 1, ", "device 26011bda "], {1: None}, {ADDR: None}),
    ([ONE._replace(number=5), TWO], [B, A], [], {1: None, 5: (4_096, GAP, 2)}, {}),
    ([ONE._replace(number=2), TWO._replace(number=1)], [A, B], [], {1: (4_096, GAP, 1), 2: (4_096, GAP, 2)}, {}),
    ([ONE, TWO._replace(eui=EUIS[7])], [A, A._replace(addr=1, up=5)], ["gateway 2, ", "device 26011bdb "], {2: (4_096, GAP, 0)},
     {ADDR + 1: None, 1: (5, 0, 0)}),
]


def changed(program: str, parent: pathlib.Path) -> None:
    """Settings that were changed beside a journal."""
    journal = Settings([ONE, TWO], [A, B]).journal(*BESIDE.splitlines())
    for gateways, devices, notes, rules, counters in CHANGES:
        settings = Settings(gateways, devices)
        renewed, told = started(program, parent, journal, settings.text(), gateways[0].eui)
        state, what = reader(renewed.encode())[0], f"behind {settings}"
        expect_state(goes_on(reader(journal)[0], settings), state, what)
        own = {number: (book.cap, book.gap, len(book.members)) for number, (_, _, book) in state.gateways.items()}
        expect({key: one for key, one in (RULES | rules).items() if one}, own, f"rules {what}")
        own = {addr: (up, down, len(waiting)) for addr, (_, up, down, waiting) in state.devices.items()}
        expect({key: one for key, one in (COUNTERS | counters).items() if one}, own, f"counters {what}")
        expect(len(notes), len(told), f"how many notes are told {what}: {told}")
        for begin, line in zip(notes, told):
            expect("note: " + begin, line[:len("note: " + begin)], f"the note {line!r} {what}")


def main() -> int:
    program, (count, seed) = asked_by(__doc__, 20, 1)
    lorawan.checked()
    signal.signal(signal.SIGTERM, lambda *_: sys.exit(1))
    return tell_of_folders([[
        ("the worked run, and a second life", lambda folder: worked(program, folder)),
        ("folders that are refused", lambda folder: folders_refused(program, folder)),
        ("a folder that is used", lambda folder: folder_used(program, folder)),
        ("journals that are refused", lambda folder: journals_refused(program, folder)),
        ("arguments that are refused", lambda folder: arguments_refused(program, folder)),
        ("a journal that is cut", lambda folder: cuts(program, folder, seed)),
        ("settings that were changed", lambda folder: changed(program, folder)),
        (f"{count} kills", lambda folder: kills(program, folder, count, seed)),
        ("a full disk", lambda folder: goes_through(program, folder, FullDisk(), 2)),
        ("a disk that stays full", lambda folder: goes_through(program, folder, FullDisk(), 11)),
        ("a disk that keeps nothing", lambda folder: goes_through(program, folder_with(folder), ForgetfulDisk(folder), 2)),
    ]])


if __name__ == "__main__":
    sys.exit(main())
