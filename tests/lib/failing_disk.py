"""An `airbook serve --state` whose journal can't be written for some time, for tests/restarts.py, tests/control.py and
tests/soak.py.

Three disks fail here: one on which no file of the server may grow; and, by a library that is loaded before the C library, one
that keeps nothing, and one that takes no byte for any length of time. While one fails nothing is sent, and the program runs on. A
whole journal is tried every 10 s. Once one was written the program sends again.
"""
from __future__ import annotations

import pathlib
import re
import resource
import time
from typing import Callable, Optional

from lib import lorawan
from lib.gateway_model import PULL_RESP
from lib.plain_journal import State, reader
from lib.plain_restarts import SetDevice, SetGateway, Settings, expect_state
from lib.played_forwarders import entry, now, push_data
from lib.played_gateway import datagrams, read_pull_resp
from lib.serving import EUIS, TOKEN, Sender, Server, awaited
from lib.struck_calls import StruckCalls
from lib.trials import Failed, expect, expect_going

KEYS = bytes.fromhex("2b7e151628aed2a6abf7158809cf4f3c"), bytes.fromhex("000102030405060708090a0b0c0d0e0f")
ADDR = 0x26011BDA
# A renewal is tried so often, in seconds, and the next uplink's answer comes some time later.
RENEWED_EVERY, SOON = 10, 2
# Before each so many-th uplink comes a PULL_DATA: nothing is heard of a gateway that sends none for a minute.
PULLED_EVERY = 40
# So many bytes of a batch have room on a full disk.
PART = 20


class FullDisk:
    """No file of the server may grow beyond the journal, but for a part of a batch."""

    # So the signal of a file that is too long is passed over.
    options: dict[str, object] = {"restore_signals": False}

    def breaks(self, server: Server, journal: pathlib.Path) -> None:
        self.limit(server, journal.stat().st_size + PART)

    def mends(self, server: Server) -> None:
        self.limit(server, resource.RLIM_INFINITY)

    def limit(self, server: Server, size: int) -> None:
        resource.prlimit(server.child.pid, resource.RLIMIT_FSIZE, (size, resource.RLIM_INFINITY))

    def adds(self, batch: bytes) -> bytes:
        """What the journal has of a batch with which the disk begins to fail."""
        return batch[:PART]

    def calls(self) -> Optional[str]:
        return None


class ForgetfulDisk:
    """No sync succeeds, though all is written. It knows all syncs and renames."""

    fails = "SYNC_FAILS"

    def __init__(self, folder: pathlib.Path) -> None:
        self.struck, self.failing = StruckCalls(folder), folder / "failing"
        self.options: dict[str, object] = self.struck.options(**{self.fails: str(self.failing)})

    def breaks(self, server: Server, journal: pathlib.Path) -> None:
        self.failing.touch()

    def mends(self, server: Server) -> None:
        self.failing.unlink()

    def adds(self, batch: bytes) -> bytes:
        return batch

    def calls(self) -> Optional[str]:
        return re.sub("[^frFd]", "", self.struck.told())


class NoRoomDisk(ForgetfulDisk):
    """No file takes a byte, whatever the lines take."""

    fails = "WRITE_FAILS"

    def adds(self, batch: bytes) -> bytes:
        return b""

    def calls(self) -> Optional[str]:
        return None


class Asker:
    """A gateway that tells a confirmed uplink four times a second, and what comes of it."""

    def __init__(self, server: Server, sender: Sender) -> None:
        self.server, self.sender, self.counter = server, sender, 0
        # By its number the start and the frame of each answer; what is told to fail; and the PULL_RESPs.
        self.starts: dict[str, int] = {}
        self.frames: dict[str, bytes] = {}
        self.failed: list[str] = []
        self.asked: list[bytes] = []

    def ask(self) -> None:
        """One uplink, and a quarter of a second."""
        if self.counter % PULLED_EVERY == 0:
            self.sender.send(b"\2" + TOKEN + b"\2" + EUIS[1])
        self.counter += 1
        data = lorawan.uplink(True, ADDR, self.counter, KEYS)
        self.sender.send(push_data(EUIS[1], TOKEN, [entry(data, now() % (1 << 32))]))
        time.sleep(0.25)
        self.take()

    def take(self) -> None:
        """The PULL_RESPs and the lines that came."""
        self.sender.socket.setblocking(False)
        self.asked += [one for one in datagrams(self.sender.socket) if one[3] == PULL_RESP]
        expect(None, self.server.child.poll(), "the status of the program")
        for line in self.server.lines():
            first, number, *words = line.split()
            if first == "send":
                self.starts[number] = int(words[2])
            elif first == "frame":
                self.frames[number] = bytes.fromhex(words[0])
            elif first == "failed":
                self.failed.append(" ".join([number, *words]))

    def until(self, seconds: float, is_enough: Callable[[], bool]) -> None:
        """Goes on for so long, or until that is enough."""
        ends = time.monotonic() + seconds
        while time.monotonic() < ends and not is_enough():
            expect_going()
            self.ask()


def settings_and_journal() -> tuple[Settings, bytes]:
    """A gateway and a device, and others for which so much waits that the file of the lines stays shorter than the journal."""
    devices = [SetDevice(ADDR + number, KEYS) for number in range(11)]
    settings = Settings([SetGateway(1, EUIS[1])], devices)
    waiting = [f"queue {one.addr:08x} 1 {'00' * 242}" for one in devices[1:] for _ in range(16)]
    return settings, settings.journal(*waiting)


def goes_through(program: str, folder: pathlib.Path, disk: FullDisk | ForgetfulDisk, seconds: float) -> None:
    """The disk fails for so long."""
    journal = folder / "journal"
    settings, text = settings_and_journal()
    journal.write_bytes(text)
    words = ["--state", str(folder)]
    with Server(program, settings.text(), words=words, **disk.options) as server, Sender(server) as sender:
        sender.pull(EUIS[1])
        play = Asker(server, sender)
        play.ask()
        awaited(lambda: play.take() or play.asked and play.frames, "the first answer", server.child)
        expect((1, ["1"], []), (len(play.asked), list(play.starts), play.failed), "what is sent at first")
        before = journal.read_bytes()
        disk.breaks(server, journal)
        play.until(seconds, lambda: False)
        if len(play.starts) < 3:
            raise Failed(f"{len(play.starts)} answers are told in {seconds} s in which the disk fails")
        expect([f"{number} 1 Journal" for number in play.starts][1:], play.failed, "what fails with the disk")
        expect(1, len(play.asked), "what is sent while the disk fails")
        failing = journal.read_bytes()
        expect(before, failing[:len(before)], "the front of the journal while the disk fails")
        if isinstance(disk, FullDisk):
            expect(len(before) + PART, len(failing), "the bytes of the journal while the disk is full")
            expect_state(reader(before)[0], reader(failing)[0], "the journal while the disk is full")
        elif isinstance(disk, NoRoomDisk):
            expect(before, failing, "the journal while the disk takes no byte")
        disk.mends(server)
        play.until(RENEWED_EVERY + SOON, lambda: len(play.asked) > 1)
        # What was told last is answered by then.
        time.sleep(0.5)
        play.take()
        sends_again(play, reader(journal.read_bytes())[0])
        if disk.calls() is not None:
            # A whole journal at the start; a batch that is kept, and one that isn't; each renewal; and a batch for each pass.
            calls = re.fullmatch("frFdd" + "f" * int(seconds // RENEWED_EVERY) + "frFd+", disk.calls())
            expect(True, calls is not None, f"the syncs and renames {disk.calls()}")


def sends_again(play: Asker, state: State) -> None:
    """Something was sent again, with the counter behind those of all that failed. The journal says that, and what failed too."""
    told = [read_pull_resp(one) for one in play.asked[1:]]
    if not told:
        raise Failed("nothing is sent once the disk is mended")
    first, last = told[0][0], told[-1][0]
    expect(list(range(first, last + 1)), [token for token, *_ in told], "the tokens of what is sent again")
    for token, _, _, _, frame in told:
        expect(play.frames[str(token)], frame, "a frame that is sent again")
        expect(lorawan.downlink(ADDR, token - 1, KEYS, ack=True), frame, "a frame that is sent again, by its counter")
    expect([f"{number} 1 Journal" for number in range(2, first)], play.failed, "all that fails")
    expect(last, state.devices[ADDR][2], "the next downlink counter by the journal")
    starts = [start for start, *_ in state.gateways[1][2].members]
    expect(sorted(play.starts.values()), starts, "the starts that the journal has")
