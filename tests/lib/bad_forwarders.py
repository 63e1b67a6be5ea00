"""Packet forwarders that do harm to an `airbook serve --state`, beside one that is answered as ever, for tests/soak.py.

One gateway floods it, or someone who is none; or two machines have one EUI, each with a counter of its own. Whatever comes of
their own packets, the program runs on, and no counter is given twice. What is sent stands in the journal.
"""
from __future__ import annotations

import contextlib
import pathlib
import time

from lib import lorawan
from lib.failing_disk import ADDR, KEYS, Asker
from lib.flooding import Flood, malformed
from lib.gateway_model import PULL_RESP
from lib.plain_journal import reader
from lib.plain_restarts import SetDevice, SetGateway, Settings
from lib.played_forwarders import entry, now, push_data
from lib.played_gateway import datagrams, read_pull_resp
from lib.serving import EUIS, TOKEN, Sender, Server, awaited
from lib.trials import Failed, expect

# How long a flood is, how long the gateway is played behind it, and the share of its uplinks that are answered meanwhile.
FLOODED, BEHIND, ENOUGH = 4, 2, 0.75
# The memory that a flood may cost, in KiB.
MORE = 4_096
# How long two machines have one EUI, and one of them goes on alone.
BOTH, ALONE = 5, 5


def settings() -> Settings:
    """The gateway that is answered, and the one that does harm; a device of the one, and two of the other."""
    return Settings([SetGateway(1, EUIS[1]), SetGateway(2, EUIS[2])], [SetDevice(ADDR + number, KEYS) for number in range(3)])


def started(program: str, folder: pathlib.Path) -> Server:
    (folder / "journal").write_bytes(settings().journal())
    return Server(program, settings().text(), words=["--state", str(folder)])


def expect_answers(play: Asker, folder: pathlib.Path) -> None:
    """All that the gateway was asked for is what the lines tell, under counters that rise by one, and stands in the journal."""
    state = reader((folder / "journal").read_bytes())[0]
    starts = {start for start, *_ in state.gateways[1][2].members}
    last = -1
    for token, _, _, _, frame in map(read_pull_resp, play.asked):
        expect(play.frames[str(token)], frame, f"the frame of uplink {token}")
        last, before = int.from_bytes(frame[6:8], "little"), last
        expect(lorawan.downlink(ADDR, last, KEYS, ack=True), frame, f"the frame under counter {last}")
        if last <= before or play.starts[str(token)] not in starts or state.devices[ADDR][2] <= last:
            has = f"{sorted(starts)[-5:]} and {state.devices[ADDR]}"
            raise Failed(f"the journal has {has}, and {frame!r} was sent behind {before}")
    own = [one for one in play.failed if one.split()[1] == "1"]
    expect([], own, "what fails of the gateway that is answered as ever")


def flooded(program: str, folder: pathlib.Path, is_gateway: bool) -> str:
    """20,000 datagrams come each second for some seconds."""
    eui = EUIS[2] if is_gateway else bytes.fromhex("0102030405060708")
    old = push_data(EUIS[2], TOKEN, [entry(lorawan.uplink(False, ADDR + 1, 1, KEYS), 5)])
    made = malformed(eui) + ([old, b"\2\0\0\2" + eui, b"\2\0\0\5" + eui] if is_gateway else [])
    with started(program, folder) as server, Sender(server) as sender, Sender(server) as bad:
        sender.pull(EUIS[1])
        play = Asker(server, sender)
        play.until(1, lambda: False)
        before, asked = server.memory(), play.counter
        with Flood(bad, made) as flood:
            play.until(FLOODED, lambda: False)
        time.sleep(0.5)
        play.take()
        rest, during = play.counter, len(play.asked)
        play.until(BEHIND, lambda: False)
        awaited(
            lambda: play.take() or len(play.asked) >= during + play.counter - rest, "each answer behind the flood", server.child
        )
        more = server.memory() - before
    share = (during - asked) / (rest - asked)
    told = f"{flood.sent} datagrams in {flood.seconds:.1f} s; {share:.0%} answered meanwhile; {more} KiB more"
    if share < ENOUGH or more > MORE or flood.sent < 1_000 * FLOODED:
        raise Failed(told)
    expect_answers(play, folder)
    return told


class Machine:
    """One of two that send with the EUI of gateway 2, with a counter of its own, and a device that it alone hears."""

    def __init__(self, server: Server, shift: int, addr: int) -> None:
        self.sender, self.shift, self.addr, self.counter = Sender(server), shift, addr, 0
        self.sender.socket.setblocking(False)

    def ask(self) -> None:
        self.counter += 1
        data = lorawan.uplink(True, self.addr, self.counter, KEYS)
        self.sender.send(b"\2" + TOKEN + b"\2" + EUIS[2])
        self.sender.send(push_data(EUIS[2], TOKEN, [entry(data, (now() + self.shift) % (1 << 32))]))

    def asked(self) -> list[bytes]:
        return [one for one in datagrams(self.sender.socket) if one[3] == PULL_RESP]


def expect_sessions(lines: list[str], got: set[int]) -> int:
    """No answer of gateway 2 is sent behind whose uplink another session of its counter began: how many were not."""
    session, heard, held, is_own = 0, {}, 0, False
    for line in lines:
        first, *words = line.split()
        if first == "session":
            session += words[0] == "2"
        elif line.startswith("> hear"):
            is_own = words[1] == "2"
        elif first in ("opened", "joined") and is_own:
            heard[words[0]] = session
        elif first == "send" and words[1] == "2" and heard[words[0]] < session:
            held += 1
            expect(True, f"failed {words[0]} 2 Session" in lines, f"that {line!r} is held back")
            expect(False, int(words[0]) in got, f"that {line!r} is sent")
    return held


def expect_counters(told: list[bytes], folder: pathlib.Path) -> int:
    """What both machines were asked for is under counters that rise, by device, and stands in the journal: how much it is."""
    state, last = reader((folder / "journal").read_bytes())[0], {}
    for token, _, frequency, rate, frame in sorted(map(read_pull_resp, told)):
        addr, counter = int.from_bytes(frame[1:5], "little"), int.from_bytes(frame[6:8], "little")
        expect(lorawan.downlink(addr, counter, KEYS, ack=True), frame, f"the frame of uplink {token} under counter {counter}")
        if not last.get(addr, -1) < counter < state.devices[addr][2]:
            goes_on = f"the journal goes on with {state.devices[addr]}"
            raise Failed(f"counter {counter} of {addr:08x} comes behind {last}, and {goes_on}")
        last[addr] = counter
    booked = len(state.gateways[2][2].members)
    if len(told) > booked:
        raise Failed(f"{len(told)} were asked for, and the journal has {booked}")
    return len(told)


def both_play(play: Asker, machines: list[Machine], seconds: int) -> list[list[bytes]]:
    """So long each of them tells an uplink, as often as the gateway that is answered as ever: what each was asked for."""
    ends = time.monotonic() + seconds
    while time.monotonic() < ends:
        for one in machines:
            one.ask()
            time.sleep(0.02)
        play.ask()
    return [one.asked() for one in machines]


def one_eui(program: str, folder: pathlib.Path) -> str:
    """Two machines send with one EUI, and then one of them alone."""
    with started(program, folder) as server, Sender(server) as sender, contextlib.ExitStack() as ends:
        machines = [Machine(server, shift, ADDR + number) for number, shift in ((1, 0), (2, 1 << 31))]
        for one in machines:
            ends.enter_context(one.sender)
        sender.pull(EUIS[1])
        play = Asker(server, sender)
        both, alone = both_play(play, machines, BOTH), both_play(play, machines[:1], ALONE)
        awaited(lambda: play.take() or len(play.asked) >= play.counter, "all answers of another gateway", server.child)
        lines = pathlib.Path(server.folder.name, "lines").read_text().splitlines()
    if not alone[0]:
        raise Failed("a machine is answered nothing once it is alone")
    expect_answers(play, folder)
    told = both[0] + both[1] + alone[0]
    held, got = expect_sessions(lines, {read_pull_resp(one)[0] for one in told}), expect_counters(told, folder)
    sessions = sum(line.startswith("session 2 ") for line in lines)
    if sessions < 2 * BOTH or not held:
        raise Failed(f"{sessions} sessions begin, and {held} answers are held back")
    return f"{sessions} sessions; {got} answers sent and {held} held back; beside them {len(play.asked)} answers"
