#!/usr/bin/env python3
"""What a server's journal costs: reading one of 65,536 transmissions beside loading a saved book of as many, and how soon a server
sends that keeps one.

Usage: bench/journal.py [PROGRAM [SECONDS]]      (the program that the gate builds; 60)

Reading is `airbook recover`, loading is `airbook book --resume --save`: both write the saved book. Printed are the least processor
seconds of five runs of each in turn, and their ratio; at most 1.5 is the goal. Then four gateways hear 200 uplinks a second for so
many seconds, of which 20 want an answer. Printed is how long the PULL_RESPs came after the first copies of their uplinks: the
median, and what 99.9 % keep, in milliseconds, beside that time for a sync of a file on the same disk. The goal is 206 ms and two
syncs. Printed is also how many of them a packet forwarder would refuse, of which the goal is none: those that come less than 42,500
us before their start, and those that begin within 43,500 us of another one's end. It needs Linux and two processors with little
else to do.
"""
from __future__ import annotations

import contextlib
import json
import os
import pathlib
import sys
import tempfile
import time

TOP = pathlib.Path(__file__).resolve().parent.parent
sys.path.insert(0, str(TOP / "tests"))
sys.dont_write_bytecode = True
from lib import lorawan
from lib.gateway_model import RATES
from lib.played_forwarders import entry, push_data
from lib.serving import EUIS, TOKEN, Sender, Server, device_table, gateway_table
from measured import STEP, used

GATEWAYS = range(1, 5)
DEVICES = {0x26011000 + number: (bytes([number] * 16), bytes([number, 1] * 8)) for number in range(64)}
SETTINGS = "".join([*map(gateway_table, GATEWAYS), *(device_table(*device) for device in DEVICES.items())])
MEMBERS, EACH_US, ANSWERED_EACH = 65_536, 5_000, 10


def starts() -> range:
    return range(0, MEMBERS * STEP, STEP)


def journal() -> bytes:
    rows = "".join(f"sent 1 {start} 868300000 6 12\n" for start in starts())
    head = f"airbook journal 1\ngateway 1 {EUIS[1].hex()} 65536 45000\n"
    return f"{head}{rows}clock 1 {MEMBERS * STEP} 0\n.\n".encode()


def saved() -> bytes:
    rows = "".join(f"r 0 {start} 868300000 6 12\n" for start in starts())
    return f"airbook 2\ngateway 1 65536 0 45000\n{rows}end {MEMBERS}\n".encode()


def compare_reading(program: str) -> bool:
    """Whether a journal is read within the goal."""
    read, _ = used(program, ["recover", "--gateway", "1"], journal())
    loaded, _ = used(program, ["book", "--resume", "--save"], saved())
    print(f"reading a journal {read * 1000:.0f} ms, loading a book {loaded * 1000:.0f} ms, which is {read / loaded:.2f}")
    return read <= 1.5 * loaded


def sync_ms(folder: str) -> float:
    """The median milliseconds of a sync behind 200 bytes."""
    taken = []
    with open(pathlib.Path(folder, "synced"), "wb", buffering=0) as file:
        for _ in range(101):
            began = time.perf_counter()
            file.write(b"x" * 200)
            os.fdatasync(file.fileno())
            taken.append(time.perf_counter() - began)
    return sorted(taken)[50] * 1000


class Answers:
    """When the first copies were sent, by what their answers may start at, and how long after them the PULL_RESPs came, in
    milliseconds; by gateway when each begins and ends on its counter, in microseconds, and how many came too late."""

    def __init__(self, senders: list[Sender]) -> None:
        self.senders, self.began, self.waits, self.late = senders, {}, [], 0
        self.asked: list[list[tuple[int, int]]] = [[] for _ in senders]

    def look(self) -> None:
        """Takes in what has come, without waiting."""
        for sender, asked in zip(self.senders, self.asked):
            with contextlib.suppress(BlockingIOError):
                while True:
                    self.take(sender.socket.recv(65_536), asked)

    def take(self, came: bytes, asked: list[tuple[int, int]]) -> None:
        if came[3:4] != b"\3":
            return
        moment, told = time.monotonic_ns() // 1000, json.loads(came[4:])["txpk"]
        self.waits.append((time.monotonic() - self.began.pop(told["tmst"])) * 1000)
        ahead = (told["tmst"] - moment) % (1 << 32)
        self.late += not 42_500 <= ahead < 1 << 31
        asked.append((moment + ahead, moment + ahead + lorawan.airtime(RATES.index(told["datr"]), told["size"])))

    def refused(self) -> int:
        """How many PULL_RESPs a packet forwarder would refuse."""
        pairs = (pair for asked in self.asked for pair in zip(sorted(asked), sorted(asked)[1:]))
        return self.late + sum(after[0] < before[1] + 43_500 for before, after in pairs)


def sent_uplinks(server: Server, answers: Answers, count: int) -> None:
    """Sends so many uplinks, each by two gateways, the second one a millisecond late, at an even pace."""
    addresses, began = list(DEVICES), time.monotonic()
    for place in range(count):
        addr, at = addresses[place % len(addresses)], began + place * EACH_US / 1e6
        while time.monotonic() < at:
            answers.look()
            time.sleep(0.0003)
        data = lorawan.uplink(place % ANSWERED_EACH == 0, addr, place // len(addresses) + 1, DEVICES[addr])
        first, second = (GATEWAYS[(place + more) % len(GATEWAYS)] for more in (0, 1))
        moment = (time.monotonic_ns() // 1000) % (1 << 32)
        answers.began[(moment + 1_000_000) % (1 << 32)] = answers.began[(moment + 2_000_000) % (1 << 32)] = time.monotonic()
        for gateway in (first, second):
            answers.senders[gateway - 1].send(push_data(EUIS[gateway], TOKEN, [entry(data, moment)]))


def time_answers(program: str, count: int) -> bool:
    """Whether PULL_RESPs come within the goal."""
    with tempfile.TemporaryDirectory(prefix="journal-", dir=".") as folder:
        sync = sync_ms(folder)
        with Server(program, SETTINGS, words=("--state", folder, "--new")) as server:
            senders = [Sender(server) for _ in GATEWAYS]
            for gateway, sender in zip(GATEWAYS, senders):
                sender.pull(EUIS[gateway])
                sender.socket.setblocking(False)
            answers = Answers(senders)
            sent_uplinks(server, answers, count)
            ends = time.monotonic() + 1
            while time.monotonic() < ends:
                answers.look()
                time.sleep(0.001)
    waits = sorted(answers.waits)
    most = waits[min(len(waits) - 1, len(waits) * 999 // 1000)]
    print(f"{len(waits)} PULL_RESPs to {count} uplinks, of which {answers.refused()} would be refused: median")
    print(f"{waits[len(waits) // 2]:.0f} ms, 99.9 % within {most:.0f} ms, beside a sync of {sync:.1f} ms")
    return most <= 206 + 2 * sync and answers.refused() == 0


def main(words: list[str]) -> int:
    program = os.path.abspath(words[0]) if words else str(TOP / "crates/airbook/out/airbook")
    count = int(float(words[1] if words[1:] else 60) * 1e6) // EACH_US
    return 0 if all([compare_reading(program), time_answers(program, count)]) else 1


if __name__ == "__main__":
    sys.exit(main(sys.argv[1:]))
