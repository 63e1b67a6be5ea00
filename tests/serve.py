#!/usr/bin/env python3
"""Starts `airbook serve --shadow`, plays packet forwarders to it over loopback, and compares what it answers and tells.

Usage: serve.py PROGRAM [DATAGRAMS [SECONDS [SEED]]]     (3,000, 4, 1: how many datagrams, and how long)

Trials: a worked run, each cut of its first datagram, and copies that are refused; drawn datagrams with every kind of slip, and
counters that jump, beside the plain model in lib/gateway_model.py; four packet forwarders whose counters drift, wrap and begin
anew. Where the machine has an address that is none of 127.x, some of the drawn ones come from there. What stands behind `> ` in
all but the drawn ones is then an input of `airbook run`, which has to answer the same lines. Then come faults of settings and
arguments, a port that is taken, outputs that can't be written, and a kill. With 60 seconds or more a gateway is also played for a
minute that sends one PULL_DATA. Datagrams are sent so many at a time that the socket has room for them. Every wait ends within a
minute. A failing trial has a line; the last line is 'N passed, M failed'. The status is 0 where none failed, 1 where one did, 2
where nothing could be run.
"""
from __future__ import annotations

import contextlib
import random
import signal
import subprocess
import sys
import time
from typing import Sequence

sys.dont_write_bytecode = True
from lib import lorawan
from lib.arguments import asked_by
from lib.drawn_datagrams import Drawn
from lib.gateway_model import Clock, Known
from lib.played_forwarders import LATE_BY, Copy, Devices, Exchange, Gateway, PlainDesk, copies_of, entries_of, entry, now
from lib.played_forwarders import push_data
from lib.serve_lines import Drops, Follower
from lib.serving import EUIS, SECONDS, TOKEN, Sender, Server, device_table, free_port, gateway_table, outer_address
from lib.trials import Failed, expect, tell
from lib.worked_run import DEVICE, FIRST, OTHER, PACKET, SETTINGS, answered_alike, numbers_of

# Why something is dropped, but for the reasons that need time.
NAMES = set("Short Version Kind UnknownGateway Peer NoPull Json Many Shape Crc Modulation Rate Number Data Size Ghost".split())
NAMES |= set("Long NotData Major OptionsCut NoBand UnknownDevice BadMic".split())
# How many bytes may wait in the server's socket, of those that Linux gives one by default.
WINDOW = 60_000
LEAD = 400_000
# So many drawn datagrams are dropped for every reason.
ENOUGH = 3_000


def worked(program: str) -> None:
    """Two gateways hear an uplink; the better one is to answer, and says that it can't."""
    with Server(program, SETTINGS) as server, Sender(server) as one, Sender(server) as two:
        one.pull(EUIS[1])
        two.asked(bytes.fromhex("02000702aa555a0000000002"), bytes.fromhex("02000704"))
        expect(169, len(FIRST), "the bytes of the first packet's datagram")
        one.asked(FIRST, bytes.fromhex("02123401"))
        two.push(EUIS[2], OTHER)
        lines = server.upto("frame")
        found = numbers_of(lines)
        for name, tmst in (("1", 5_000_000), ("2", 4_294_000_000)):
            expect(Clock().hear(tmst, found["arrived" + name]).at, found["at" + name], f"the moment of gateway {name}")
        expect(found["at2"] + 1_000_000, found["start"], "the start of RX1")
        follower = Follower({1: LEAD, 2: LEAD})
        follower.take(lines)
        two.send(bytes.fromhex("02000105aa555a0000000002") + b'{"txpk_ack":{"error":"TOO_LATE"}}')
        expect(["failed 1 2 TOO_LATE"], server.upto("failed"), "what is told of an error")
        two.send(bytes.fromhex("02000105aa555a0000000002"))
        expect(["acked 1 2"], server.upto("acked"), "what is told of a TX_ACK")
        one.is_quiet()
        two.is_quiet()
    answered_alike(program, SETTINGS, follower)


def cuts(program: str) -> None:
    """Each beginning of the first datagram is counted, one with a whole head is acknowledged too, and then the whole is heard."""
    drops = Drops()
    with Server(program, SETTINGS) as server, Sender(server) as one:
        one.pull(EUIS[1])
        for size in range(len(FIRST)):
            if size < 12:
                one.send(FIRST[:size])
                drops.add("Short", None)
            else:
                one.asked(FIRST[:size], bytes.fromhex("02123401"))
                drops.add("Json", EUIS[1])
        one.asked(FIRST, bytes.fromhex("02123401"))
        lines = server.upto("opened") + server.upto_counts()
        one.is_quiet()
    drops.compare([line.split()[1:] for line in lines if line.startswith("dropped ")])
    drops.all_told()


def copies_refused(program: str) -> None:
    """One uplink again and again: by the same gateway, by another, after 0.5 s, and after more than 1 s."""
    steps = [(1, 0, "opened 1"), (1, 0, "SameGateway"), (2, 0, "joined 1 2"), (2, 0.5, "Late"), (2, 0.8, "opened 2 repeat")]
    follower = Follower({1: LEAD, 2: LEAD}, is_all_told=False)
    with Server(program, SETTINGS) as server, Sender(server) as one:
        one.pull(EUIS[1])
        one.pull(EUIS[2])
        for number, seconds, _ in steps:
            time.sleep(seconds)
            one.push(EUIS[number], PACKET.encode())
        time.sleep(0.3)
        follower.take(server.upto_counts())
    heard = [answer for answer in follower.answers if answer.startswith(("opened", "joined"))]
    expect([answer for _, _, answer in steps if " " in answer], heard, "what is answered to copies")
    expect([["SameGateway", "1", EUIS[1].hex()], ["Late", "1", EUIS[2].hex()]], follower.drops, "the copies that are refused")
    answered_alike(program, SETTINGS, follower)


def some_devices(count: int) -> Devices:
    return {0x26011000 + number: (bytes([number] * 16), bytes([number, 1] * 8)) for number in range(1, count + 1)}


def drawn(program: str, datagrams: int, seed: int) -> None:
    """Datagrams with every kind of slip. Gateway 2 may come from one address alone, and gateway 3 sends no PULL_DATA. What begins
    with another byte than 2 is a control datagram where it comes from 127.x, and is dropped where it comes from elsewhere."""
    chance, devices = random.Random(seed), some_devices(4)
    tables = [gateway_table(1), gateway_table(2, **{"from": '"127.0.0.2"'}), gateway_table(3)]
    settings = "".join(tables + [device_table(*device) for device in devices.items()])
    source, follower = Drawn(chance, EUIS[1:4], devices), Follower(dict.fromkeys((1, 2, 3), LEAD), is_all_told=False)
    outer = outer_address()
    with Server(program, settings) as server, contextlib.ExitStack() as ends:
        one, two, three = [ends.enter_context(Sender(server, own)) for own in ("127.0.0.1", "127.0.0.2", outer or "127.0.0.3")]
        known = [Known(1, EUIS[1]), Known(2, EUIS[2], two.own), Known(3, EUIS[3])]
        play = Exchange(server, known, follower, PlainDesk(devices))
        play.send(two, b"\2\0\0\2" + EUIS[2])
        play.send(one, b"\2\0\0\2" + EUIS[1])
        play.send(one, push_data(EUIS[1], TOKEN, [entry(source.uplink(), 0)]))
        # What was sent so far is awaited first: by its packet the server's clock is known.
        waiting = WINDOW
        for place in range(datagrams):
            source.counter = now() % (1 << 32)
            datagram = source.datagram()
            if waiting + len(datagram) + 1_000 > WINDOW:
                play.settle(one, EUIS[1], place.to_bytes(4, "big")[2:])
                waiting = 0
            waiting += len(datagram) + 1_000
            usual = one if datagram[4:12] != EUIS[2] or chance.random() < 0.1 else two
            play.send(three if chance.random() < 0.3 else usual, datagram)
        play.settle(one, EUIS[1], TOKEN)
        play.over()
        for sender in (one, two, three):
            sender.is_quiet()
    expect({"opened", "silent", "floor"}, {answer.split()[0] for answer in follower.answers}, "the kinds of answers")
    if datagrams >= ENOUGH:
        expect(NAMES if outer else NAMES - {"Version"}, set(play.drops.names), "the names of what is dropped")
        expect(True, play.controls > 0, "whether there was a control datagram")


def jumps(program: str, seed: int) -> None:
    """Counters go on, jump ahead, fall back and wrap: moments and sessions are those of the model, to the microsecond."""
    chance, devices = random.Random(seed), some_devices(2)
    settings = "".join([gateway_table(1), gateway_table(2, lead=0), *(device_table(*device) for device in devices.items())])
    follower, counters = Follower({1: LEAD, 2: 0}), {1: (1 << 32) - 1_000_000, 2: 0}
    with Server(program, settings) as server, Sender(server) as one:
        play = Exchange(server, [Known(number, EUIS[number]) for number in counters], follower, PlainDesk(devices))
        play.send(one, b"\2\0\0\2" + EUIS[2])
        for place in range(400):
            number, addr = chance.choice([1, 1, 2]), chance.choice(list(devices))
            jump = chance.choice([0] * 8 + [1_900_000, 2_100_000, -19_000_000, -21_000_000, 1 << 31, chance.randrange(1 << 32)])
            counters[number] = (counters[number] + jump) % (1 << 32)
            data = lorawan.uplink(chance.random() < 0.3, addr, place, devices[addr])
            play.settle(one, EUIS[1], TOKEN)
            play.send(one, push_data(EUIS[number], TOKEN, [entry(data, (counters[number] + now()) % (1 << 32))]))
            time.sleep(0.004 * chance.random())
        time.sleep(0.3)
        play.settle(one, EUIS[1], TOKEN)
        play.over()
        one.is_quiet()
    answered_alike(program, settings, follower)


def four_forwarders(program: str, seconds: int, seed: int) -> None:
    """Counters drift; that of the first wraps, the second restarts, and the last is late at times."""
    chance, devices = random.Random(seed), some_devices(40)
    numbers = (1, 2, 3, 4)
    settings = "".join([*map(gateway_table, numbers), *(device_table(*device) for device in devices.items())])
    follower, half = Follower(dict.fromkeys(numbers, LEAD), is_all_told=False), seconds * 500_000
    with Server(program, settings) as server:
        senders = [Sender(server) for _ in numbers]
        begins = [(1 << 32) - half, 3_000_000_000, 5_000_000, chance.randrange(1 << 32)]
        gateways = [Gateway(*one) for one in zip(senders, numbers, [EUIS[one] for one in numbers], begins, (50, -50, 30, -30))]
        play = Exchange(server, [Known(one.number, one.eui) for one in gateways], follower)
        for one in gateways:
            play.send(one.sender, b"\2\0\0\2" + one.eui)
        copies = copies_of(chance, gateways, devices, seconds, 200)
        play_copies(play, chance, gateways, copies, half)
        play.over()
        for sender in senders:
            sender.is_quiet()
            sender.socket.close()
    answered_alike(program, settings, follower)
    kinds = {answer.split()[0] for answer in follower.answers}
    expect(set(), {"opened", "joined", "silent", "send", "floor"} - kinds, "kinds of answers that never came")
    planned, late = sum(copy.at - copy.heard_at == LATE_BY for copy in copies), play.drops.names["Late"]
    if not planned / 2 <= late <= planned + len(copies) / 20:
        raise Failed(f"of {len(copies)} copies {late} were late, and not {planned}")


def play_copies(play: Exchange, chance: random.Random, gateways: list[Gateway], copies: list[Copy], half: int) -> None:
    """Sends each copy at its moment. What a gateway heard before it restarts it doesn't tell any more."""
    began, settled, restarted = now(), 0, False
    for copy in copies:
        while now() - began < copy.at:
            time.sleep(max(0, copy.at - (now() - began)) / 1_000_000)
        if copy.at >= half and not restarted:
            gateways[1].restart(half, 1_234_567)
            restarted = True
        if copy.heard_at >= copy.gateway.begun:
            play.send(copy.gateway.sender, push_data(copy.gateway.eui, chance.randbytes(2), entries_of(chance, copy)))
        if copy.at - settled > 100_000:
            one = chance.choice(gateways)
            play.settle(one.sender, one.eui, chance.randbytes(2))
            settled = copy.at
    time.sleep(0.3)
    play.settle(gateways[0].sender, gateways[0].eui, TOKEN)


def a_minute(program: str) -> None:
    """Packets are read up to a minute after the last PULL_DATA. By then they may be 20 s behind what a gateway's clock shows at
    least, of which a session begins 2 s behind."""
    devices = some_devices(1)
    (addr, keys), = devices.items()
    settings, follower = gateway_table(1) + gateway_table(2) + device_table(addr, keys), Follower({1: LEAD, 2: LEAD})
    steps = [(0, 0), (58, 0), (0, -17_900_000), (0, -18_100_000), (3, 0)]
    with Server(program, settings) as server, Sender(server) as one:
        play = Exchange(server, [Known(number, EUIS[number]) for number in (1, 2)], follower, PlainDesk(devices))
        play.send(one, b"\2\0\0\2" + EUIS[1])
        for place, (seconds, jump) in enumerate(steps, 1):
            time.sleep(seconds)
            data = lorawan.uplink(False, addr, place, keys)
            play.send(one, push_data(EUIS[1], TOKEN, [entry(data, (now() + jump) % (1 << 32))]))
            play.settle(one, EUIS[2], TOKEN)
        play.over()
    expect({"NoPull": 1}, dict(play.drops.names), "what is dropped")
    answered_alike(program, settings, follower)


def ran(program: str, settings: str, words: Sequence[str] = ()) -> tuple[int, bytes, bytes]:
    """The status, standard output and standard error of a program that doesn't begin to serve."""
    command = [program, "serve", *(words or ["--shadow", "--bind", f"127.0.0.1:{free_port()}"])]
    done = subprocess.run(command, input=settings.encode(), capture_output=True, timeout=SECONDS)
    return done.returncode, done.stdout, done.stderr


def settings_refused(program: str) -> None:
    """Settings with a fault, of which the first is named."""
    one = gateway_table(1)
    rows = [("gateway = [", "NotToml"), (SETTINGS + "---\n", "NotToml"), ("", "Count"), (gateway_table(1, id=None), "Missing")]
    rows += [(gateway_table(1, eui=None) + DEVICE, "Missing"), (gateway_table(1, eui='"aa555a00000001"'), "Kind")]
    rows += [(gateway_table(1, eui=1), "Kind"), (gateway_table(1, **{"from": '"localhost"'}), "Kind")]
    rows += [(gateway_table(1, power=-1), "Kind"), (gateway_table(1, power=256), "Kind"), (gateway_table(1, power=28), "Range")]
    rows += [(gateway_table(1, lead='"1"'), "Kind"), (gateway_table(1, lead=700_001), "Range"), (gateway_table(1, cap=0), "Range")]
    rows += [(gateway_table(1, gap=44_999), "Gap"), (gateway_table(1, gap=None), "Gap")]
    rows += [(one + gateway_table(2, eui=f'"{EUIS[1].hex().upper()}"'), "DoubleEui")]
    rows += [(one + one, "DoubleGateway"), (one + DEVICE + DEVICE, "DoubleDevice")]
    rows += [(one + DEVICE + "rx2_freq = 865000000\n", "NoBand")]
    rows += [(gateway_table(1, eui=None) + gateway_table(2, id=0), "Range"), (gateway_table(1, gap=0, power=28), "Range")]
    for settings, name in rows:
        expect((2, b"", f"airbook: {name}\n".encode()), ran(program, settings), f"settings {settings!r}")


def arguments_refused(program: str) -> None:
    """Without --shadow, and with an address that is none, the arguments are refused."""
    for words in (["--bind", "127.0.0.1:1"], ["--shadow", "x"], *(["--shadow", "--bind", to] for to in ("here", "[::1]:1700"))):
        status, output, errors = ran(program, SETTINGS, words)
        expect((2, b"", True), (status, output, errors.startswith(b"error: ")), f"{words}, which brings {errors!r}")


def port_taken(program: str) -> None:
    with Server(program, SETTINGS) as server:
        words = ["--shadow", "--bind", f"127.0.0.1:{server.port}"]
        expect((2, b"", b"airbook: Bind\n"), ran(program, SETTINGS, words), "a port that is taken")


def write_failed(program: str) -> None:
    """An output that takes nothing, and one that nobody reads, end it at the first lines."""
    with open("/dev/full", "wb") as full:
        for output in (full, subprocess.PIPE):
            with Server(program, SETTINGS, output) as server, Sender(server) as one:
                if server.child.stdout:
                    server.child.stdout.close()
                one.pull(EUIS[1])
                one.send(FIRST)
                expect((2, "airbook: Write\n"), server.ended(), f"the output {output}")


def killed(program: str) -> None:
    """It runs on until it is killed."""
    with Server(program, SETTINGS) as server:
        server.child.terminate()
        expect((-signal.SIGTERM, ""), server.ended(), "a program that is killed")


def main() -> int:
    program, (datagrams, seconds, seed) = asked_by(__doc__, 3_000, 4, 1)
    lorawan.checked()
    signal.signal(signal.SIGTERM, lambda *_: sys.exit(1))
    trials = [
        ("the worked run", lambda: worked(program)),
        ("each cut", lambda: cuts(program)),
        ("copies that are refused", lambda: copies_refused(program)),
        (f"{datagrams} drawn datagrams", lambda: drawn(program, datagrams, seed)),
        ("counters that jump", lambda: jumps(program, seed)),
        (f"four forwarders for {seconds} s", lambda: four_forwarders(program, seconds, seed)),
        ("settings with a fault", lambda: settings_refused(program)),
        ("arguments that are refused", lambda: arguments_refused(program)),
        ("a port that is taken", lambda: port_taken(program)),
        ("a write that fails", lambda: write_failed(program)),
        ("a kill", lambda: killed(program)),
    ]
    if seconds >= 60:
        trials.append(("a minute", lambda: a_minute(program)))
    return tell(trials)


if __name__ == "__main__":
    sys.exit(main())
