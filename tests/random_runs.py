#!/usr/bin/env python3
"""Compares `airbook run` with a plain model of the server on random settings and events.

Usage: tests/random_runs.py [PROGRAM [RUNS [SEED]]]     (the program that the gate leaves, 200, 1)

The model (lib/plain_server.py) goes over lists, with ciphers and frames of its own (lib/lorawan.py). Each run has 1 to 6
gateways, 1 to 6 devices and some dozens of lines: uplinks heard by one or more gateways, given as bytes or made by the program,
heard again in time, late or later; payloads; moments; cancellations; and frames, counters, MICs and lines with faults. A few runs
have settings with a fault. The last of 200 or more has more uplinks at a time than are gathered. Every second run has one worker,
who answers in the order of the numbers as one thread does. All of the output, what stands on standard error and the status are
compared.

What differs has a line. Then comes how many of each answer were wanted; where 200 runs or more were asked for, a common kind
that never came is one failure. TooManyCopies never comes, as there are no more gateways than copies that are kept, nor does
NoMemory here. The last line is 'N passed, M failed', of the runs. The status is 0 where none failed, 1 where one did, 2 where
there is no program.
"""
from __future__ import annotations

import random
import sys
from typing import Iterator, Sequence

sys.dont_write_bytecode = True
from lib.drawn_settings import rows_of, settings_of, spoiled, table_text
from lib.drawn_traffic import Traffic
from lib.model_trials import Tried, compared
from lib.plain_server import JOINS, OPEN_AT_MOST, Table, played

# The input of a run, and what is wanted: output, standard error, status.
Run = tuple[bytes, bytes, bytes, int]
RUNS = 200
COMMON = """queued;no queue UnknownDevice;no queue Port;no queue Long;no queue QueueFull;opened;opened repeat;joined;no hear Short
no hear Long;no hear NotData;no hear Major;no hear OptionsCut;no hear UnknownGateway;no hear NoRate;no hear NoBand
no hear Moment;no hear SameGateway;no hear Late;no hear UnknownDevice;no hear BadMic;no hear Crowded;silent;send RX1;send RX2
frame;unanswered Passed;unanswered Taken;unanswered DutyFull;unanswered Full;no CounterSpent;floor;no tick UnknownGateway
cancelled;no cancel Begun;no cancel NotHere;bad Syntax;gateway;busiest;answered;refused Kind;refused Range"""


def trial(seed: int) -> Run:
    """The input of a run, and what is wanted: output, standard error, status."""
    chance = random.Random(seed)
    gateways, devices = settings_of(chance)
    rows = rows_of(chance, gateways, devices)
    name = spoiled(chance, rows) if chance.random() < 0.12 else None
    if name is None:
        chance.shuffle(rows)
    end = b"\r\n" if chance.random() < 0.1 else b"\n"
    events = end.join(Traffic(chance, gateways, devices).drawn()) + chance.choice([end, end, b""])
    text = table_text(rows).encode() + b"---" + end + events
    if name is not None:
        return text, b"", f"airbook: {name}\n".encode(), 2
    return wanted_of(text, played(gateways, devices, events))


def wanted_of(text: bytes, told: Sequence[str]) -> Run:
    """An input, with what is wanted where these lines are written."""
    refused = any(line.split(" ")[0] in ("no", "bad") for line in told)
    return text, "".join(line + "\n" for line in told).encode(), b"", int(refused)


def crowded() -> Run:
    """As many uplinks as are gathered at a time, and more; then some are closed."""
    keys = (bytes(16), bytes(range(16)))
    device: Table = {"addr": 0x26011BDA, "keys": keys, "delay": 1, "offset": 0, "rx2_freq": 869_525_000, "rx2_dr": 0}
    device |= {"up": None, "down": 0}
    gateway = {"id": 1, "cap": 4_096, "gap": 0}
    heard = [f"hear 1 {place} 868100000 5 0 0 {place // 4} @u:26011bda:{place}" for place in range(OPEN_AT_MOST + 2)]
    more = [f"hear 1 0 868100000 5 0 0 {JOINS} @u:26011bda:{counter}" for counter in (OPEN_AT_MOST, 0, OPEN_AT_MOST + 1)]
    events = "\n".join(heard + [f"pass {JOINS + 1}"] + more + heard[-1:] + [f"pass {JOINS + 7}"]).encode()
    rows = rows_of(random.Random(0), [gateway], [device])
    return wanted_of(table_text(rows).encode() + b"---\n" + events, played([gateway], [device], events))


def kinds_of(out: bytes, err: bytes) -> Iterator[str]:
    """The kind of each answer: its first word, with the words behind it that are no number and no bytes."""
    for line in out.decode().splitlines():
        words = line.split()
        word = {"opened": words[2:], "send": words[3:4], "unanswered": words[2:], "bad": words[2:]}.get(words[0], [])
        yield " ".join(["no"] + [w for w in words[1:] if not w.isdigit()] if words[0] == "no" else [words[0], *word])
    if err:
        yield "refused " + err.decode().split()[-1]


def tried(seed: int, is_last: bool) -> Tried:
    text, *wanted = crowded() if is_last else trial(seed)
    words = ["run", *["--workers", "1"] * (seed % 2)]
    return words, text, tuple(wanted), kinds_of(*wanted[:2]), " ".join(words)


def main(words: Sequence[str]) -> int:
    return compared(words, RUNS, COMMON, tried)


if __name__ == "__main__":
    sys.exit(main(sys.argv[1:]))
