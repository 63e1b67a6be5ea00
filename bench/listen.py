#!/usr/bin/env python3
"""How much of what one sender sends as fast as it can `airbook listen` answers.

Usage: bench/listen.py [PROGRAM] [--datagrams COUNT]      (the one that the gate builds; 100,000)

The datagrams go over loopback. Each third is a copy of an uplink with a wrong MIC, and the others tick. What the socket has no
room for is dropped by the system, which counts it; the rest has to be answered. Printed are how many were delivered and answered,
seconds, and the program's peak memory. The status is 0 where all that was delivered was answered, else 1. It needs Linux.
"""
from __future__ import annotations

import contextlib
import os
import pathlib
import socket
import subprocess
import sys
import tempfile
import time
from typing import IO, Iterator

sys.path.insert(0, str(pathlib.Path(__file__).resolve().parent.parent / "tests"))
sys.dont_write_bytecode = True
from lib.serving import SECONDS, awaited, free_port, is_bound
from lib.trials import Failed
from measured import arguments, count, held

UPLINK = "80da1b0126000700" + 8 * "0"
SETTINGS = b"""[[gateway]]
id = 1
[[device]]
addr = "26011bda"
nwkskey = "2b7e151628aed2a6abf7158809cf4f3c"
appskey = "000102030405060708090a0b0c0d0e0f"
"""


def datagram(place: int) -> bytes:
    return (f"tick 1 {place}" if place % 3 else f"hear 1 {place} 868100000 5 0 -100 {place} {UPLINK}").encode()


def dropped_at(port: int) -> int:
    """How many datagrams the system has dropped at this port."""
    with open("/proc/net/udp") as sockets:
        rows = [line.split() for line in list(sockets)[1:]]
    return next((int(row[-1]) for row in rows if row[1].endswith(f":{port:04X}")), 0)


def settled(output: IO[bytes]) -> float:
    """The moment at which the output last grew, once it has not grown for half a second."""
    size, since = -1, time.monotonic()
    while time.monotonic() - since < 0.5:
        now = os.fstat(output.fileno()).st_size
        if now != size:
            size, since = now, time.monotonic()
        time.sleep(0.01)
    return since


@contextlib.contextmanager
def listening(program: str, turns: int, output: IO[bytes]) -> Iterator[tuple[subprocess.Popen, int]]:
    """The program at work, and its port."""
    port = free_port()
    words = [program, "listen", "--port", str(port), "--turns", str(turns)]
    with subprocess.Popen(words, stdin=subprocess.PIPE, stdout=output) as child:
        try:
            with child.stdin:
                child.stdin.write(SETTINGS)
            awaited(lambda: is_bound(port), "its socket", child)
            yield child, port
        finally:
            child.kill()


def status_of(child: subprocess.Popen, sender: socket.socket, to: tuple[str, int], left: int) -> int:
    """The program's status, once it has taken the turns that are left, one by one, so that it ends by itself."""
    ends = time.monotonic() + SECONDS + left / 1000
    while child.poll() is None:
        if time.monotonic() > ends:
            raise Failed(f"it did not end, though {left} turns were left")
        sender.sendto(b"", to)
        time.sleep(0.0002)
    return child.returncode


def tell(program: str, sent: int) -> None:
    """Sends so many datagrams and prints what became of them. One turn more than there are leaves the program at work behind the
    last, so that its memory can be told."""
    datagrams = [datagram(place) for place in range(sent)]
    with tempfile.TemporaryFile() as output, socket.socket(type=socket.SOCK_DGRAM) as sender:
        with listening(program, sent + 1, output) as (child, port):
            to, began = ("127.0.0.1", port), time.monotonic()
            for one in datagrams:
                sender.sendto(one, to)
            seconds, delivered = settled(output) - began, sent - dropped_at(port)
            if child.poll() is not None:
                raise Failed(f"it ended with status {child.returncode} before all turns were over")
            # Read at a place, which leaves that of the program alone.
            answered = os.pread(output.fileno(), os.fstat(output.fileno()).st_size, 0).count(b"\n")
            memory = held(child.pid)
            status = status_of(child, sender, to, sent + 1 - answered)
    told = f"{answered} answered, {seconds:.2f} s, {memory / 1024:.0f} MiB"
    print(f"{sent} sent, {delivered} delivered, {told}")
    if status != 1 or answered != delivered:
        raise Failed(f"status {status}: not all that was delivered was answered")


def main() -> int:
    words = arguments(__doc__)
    words.add_argument("--datagrams", metavar="COUNT", type=count, default=100_000)
    asked = words.parse_args()
    try:
        tell(asked.program, asked.datagrams)
    except Failed as why:
        print(f"{asked.program} listen: {why}", file=sys.stderr)
        return 1
    return 0


if __name__ == "__main__":
    sys.exit(main())
