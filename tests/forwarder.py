#!/usr/bin/env python3
"""Runs examples/forwarder.py over the program, and plays the packet forwarders of its gateways over loopback.

Usage: forwarder.py PROGRAM

Each trial starts a converter with a program of its own, and ends both. Every wait ends within ten seconds. A failing trial has a
line; the last line is 'N passed, M failed'. The status is 0 where none failed, 1 where one did, 2 where nothing could be run.
"""
from __future__ import annotations

import base64
import functools
import json
import os
import signal
import socket
import subprocess
import sys
import tempfile
import threading
import time
from typing import Any, Sequence

sys.dont_write_bytecode = True
from lib import lorawan
from lib.arguments import asked_by
from lib.places import TOP
from lib.trials import Failed, expect, tell

SECONDS = 10
EXAMPLE = TOP / "examples" / "forwarder.py"
KEYS = bytes.fromhex("2b7e151628aed2a6abf7158809cf4f3c"), bytes.fromhex("000102030405060708090a0b0c0d0e0f")
DEVICE = 0x26011BDA
SETTINGS = f"""
[[gateway]]
id = 1
gap = 45000
[[gateway]]
id = 2
gap = 45000
[[device]]
addr = "{DEVICE:08x}"
nwkskey = "{KEYS[0].hex()}"
appskey = "{KEYS[1].hex()}"
"""
EUIS = {1: bytes.fromhex("aa555a0000000001"), 2: bytes.fromhex("aa555a0000000002")}
PUSH_DATA, PUSH_ACK, PULL_DATA, PULL_RESP, PULL_ACK, TX_ACK = range(6)
# A packet, as a packet forwarder tells it.
Entry = dict[str, object]


class Forwarder:
    """A gateway's packet forwarder."""

    def __init__(self, number: int, address: tuple[str, int]) -> None:
        self.eui, self.address = EUIS[number], address
        self.socket = socket.socket(type=socket.SOCK_DGRAM)
        self.socket.bind(("127.0.0.1", 0))
        self.socket.settimeout(SECONDS)

    def send(self, kind: int, rest: bytes = b"", token: bytes = b"\x12\x34") -> None:
        self.socket.sendto(b"\2" + token + bytes([kind]) + self.eui + rest, self.address)

    def wanted(self, kind: int) -> bytes:
        """The next datagram, which has to be of this kind."""
        try:
            datagram = self.socket.recv(65536)
        except socket.timeout:
            raise Failed(f"no datagram of kind {kind} came") from None
        expect((2, kind), (datagram[0], datagram[3]), "the version and the kind of a datagram")
        return datagram

    def pull(self) -> None:
        self.send(PULL_DATA)
        expect(b"\2\x12\x34\4", self.wanted(PULL_ACK), "the PULL_ACK")

    def push(self, *entries: Entry) -> None:
        self.send(PUSH_DATA, json.dumps({"rxpk": entries}).encode())
        expect(b"\2\x12\x34\1", self.wanted(PUSH_ACK), "the PUSH_ACK")

    def is_quiet(self) -> None:
        self.socket.settimeout(0.6)
        try:
            raise Failed(f"{self.socket.recv(65536)!r} came")
        except socket.timeout:
            self.socket.settimeout(SECONDS)


class Converter:
    """The example at work, over a program of its own."""

    def __init__(self, program: str, more: Sequence[str] = ("--fresh",), settings: str = SETTINGS) -> None:
        with socket.socket(type=socket.SOCK_DGRAM) as probe:
            probe.bind(("127.0.0.1", 0))
            self.address = probe.getsockname()
        self.text = tempfile.NamedTemporaryFile("w")
        self.text.write(settings)
        self.text.flush()
        words = [sys.executable, str(EXAMPLE), program, self.text.name, f"127.0.0.1:{self.address[1]}", *more]
        words += [f"{eui.hex()}={number}" for number, eui in EUIS.items()]
        pipes: dict[str, Any] = {"stdin": subprocess.PIPE, "stdout": subprocess.PIPE, "text": True}
        self.child: subprocess.Popen[str] = subprocess.Popen(words, start_new_session=True, **pipes)
        self.log: list[str] = []
        self.reading = threading.Thread(target=self.read, daemon=True)
        self.reading.start()

    def read(self) -> None:
        for line in self.child.stdout:
            self.log.append(line.rstrip("\n"))

    def line(self, begin: str) -> str:
        """The first line of the log that begins so."""
        ends = time.monotonic() + SECONDS
        while time.monotonic() < ends:
            found = next((line for line in self.log if line.startswith(begin)), None)
            if found is not None:
                return found
            time.sleep(0.005)
        raise Failed(f"no line {begin!r} in the log {self.log}")

    def __enter__(self) -> tuple[Converter, Forwarder, Forwarder]:
        self.line("floor 2")
        return self, Forwarder(1, self.address), Forwarder(2, self.address)

    def __exit__(self, *_: object) -> None:
        self.child.terminate()
        try:
            self.child.wait(SECONDS)
        except subprocess.TimeoutExpired:
            os.killpg(self.child.pid, signal.SIGKILL)
            self.child.wait()
        self.reading.join(SECONDS)
        self.child.stdin.close()
        self.child.stdout.close()
        self.text.close()


def entry(tmst: int, counter: int, snr: float = 5.5, confirmed: bool = True, **other: object) -> Entry:
    """A packet as a packet forwarder tells it."""
    data = lorawan.uplink(confirmed, DEVICE, counter, KEYS)
    told = {"tmst": tmst, "freq": 868.1, "chan": 0, "rfch": 1, "stat": 1, "modu": "LORA", "datr": "SF7BW125", "codr": "4/5"}
    return told | {"rssi": -90, "lsnr": snr, "size": len(data), "data": base64.b64encode(data).decode()} | other


def response(forwarder: Forwarder) -> tuple[int, dict[str, Any]]:
    """The token of a PULL_RESP, and what is to be sent."""
    datagram = forwarder.wanted(PULL_RESP)
    return int.from_bytes(datagram[1:3], "big"), json.loads(datagram[4:])["txpk"]


def the_best_gateway_answers(program: str) -> None:
    with Converter(program) as (_, one, two):
        one.pull()
        two.pull()
        began = time.monotonic()
        one.push(entry(5_000_000, 7))
        two.push(entry(4_294_000_000, 7, snr=8))
        token, txpk = response(two)
        took = time.monotonic() - began
        frame = lorawan.downlink(DEVICE, 0, KEYS, ack=True)
        wanted = {"imme": False, "tmst": 32_704, "freq": 868.1, "rfch": 0, "powe": 14, "modu": "LORA", "datr": "SF7BW125"}
        wanted |= {"codr": "4/5", "ipol": True, "ncrc": True, "size": 12, "data": base64.b64encode(frame).decode()}
        expect((1, wanted), (token, txpk), "the token, and what is to be sent")
        if not 0.2 <= took <= 0.9:
            raise Failed(f"it was answered after {took:.3f} s")
        one.is_quiet()


def the_clock_goes_on_where_tmst_wraps(program: str) -> None:
    with Converter(program) as (converter, one, _):
        one.pull()
        one.push(entry(4_294_900_000, 1))
        expect((4_294_900_000 + 1_000_000) % (1 << 32), response(one)[1]["tmst"], "when the first answer is sent")
        one.push(entry(1_032_704, 2))
        expect(2_032_704, response(one)[1]["tmst"], "when the second answer is sent")
        ends = [int(line.split()[3]) for line in converter.log if line.startswith("> hear")]
        expect(1_100_000, ends[1] - ends[0], "how far the uplinks are apart")


def what_is_no_uplink_is_passed_over(program: str) -> None:
    with Converter(program) as (converter, one, two):
        one.pull()
        one.push(entry(1, 1, stat=-1), entry(1, 1, modu="FSK"))
        faults: list[Entry]
        faults = [{"datr": "SF7BW500"}, {"data": "%"}, {"data": "A" * 40_000}, {"freq": "a"}, {"tmst": None}, {"rssi": 1e999}]
        for other in faults:
            one.push(entry(1, 1) | other)
        for text in (b"", b"{", b"[]", b'{"rxpk":1}', b'{"rxpk":[1]}', b"\xff", b"[" * 50_000):
            one.send(PUSH_DATA, text)
            one.wanted(PUSH_ACK)
        for datagram in (b"", b"\2", b"\2\0\0\2", b"\1\0\0\2" + one.eui, b"\2\0\0\2" + bytes(8), b"\2\0\0\7" + one.eui):
            one.socket.sendto(datagram, one.address)
        one.is_quiet()
        expect([], [line for line in converter.log if line.startswith("> hear")], "what was heard")
        one.push(entry(1, 1))
        expect(1_000_001, response(one)[1]["tmst"], "when the answer is sent")


def a_queued_payload_goes_along(program: str) -> None:
    with Converter(program) as (converter, one, _):
        one.pull()
        converter.child.stdin.write("queue 26011bda 9 0102\n")
        converter.child.stdin.flush()
        expect("queued 26011bda 1", converter.line("queued"), "what is told of the payload")
        one.push(entry(1, 1, confirmed=False))
        token, txpk = response(one)
        expect(lorawan.downlink(DEVICE, 0, KEYS, body=(9, b"\1\2")), base64.b64decode(txpk["data"]), "the frame with the payload")
        one.send(TX_ACK, b'{"txpk_ack":{"error":"TOO_LATE"}}', token.to_bytes(2, "big"))
        expect("# TX_ACK 1 b'{\"txpk_ack\":{\"error\":\"TOO_LATE\"}}'", converter.line("# TX_ACK"), "what is told of the error")


def nothing_is_sent_in_the_first_hour(program: str) -> None:
    with Converter(program, more=()) as (converter, one, two):
        one.pull()
        one.push(entry(1, 1))
        expect("unanswered 1 Passed", converter.line("unanswered"), "what is told of the first uplink")
        two.pull()
        two.push(entry(1, 2))
        expect("unanswered 2 Passed", converter.line("unanswered 2"), "what is told of the second uplink")
        one.is_quiet()
        two.is_quiet()


def counters_are_carried_over(program: str) -> None:
    """Two lives with one settings file use one counter for two payloads; with `down` of the first one's log they don't."""
    frames: list[bytes] = []
    for settings in (SETTINGS, SETTINGS, SETTINGS + "up = 1\ndown = 1\n"):
        with Converter(program, settings=settings) as (converter, one, _):
            one.pull()
            converter.child.stdin.write(f"queue 26011bda 9 {len(frames):02x}ff\n")
            converter.child.stdin.flush()
            converter.line("queued")
            one.push(entry(1, len(frames) // 2 + 1))
            frames.append(base64.b64decode(response(one)[1]["data"]))
            converter.line("frame 1 " + frames[-1].hex())
    expect([0, 0, 1], [int.from_bytes(frame[6:8], "little") for frame in frames], "the counters of the frames")
    streams = [frame[9:-4] for frame in frames]
    expect(bytes([0 ^ 1, 0]), bytes(a ^ b for a, b in zip(streams[0], streams[1])), "two payloads under one counter")


TRIALS = [
    the_best_gateway_answers,
    the_clock_goes_on_where_tmst_wraps,
    what_is_no_uplink_is_passed_over,
    a_queued_payload_goes_along,
    nothing_is_sent_in_the_first_hour,
    counters_are_carried_over,
]


def main() -> int:
    program, _ = asked_by("usage: forwarder.py PROGRAM")
    return tell([(trial.__name__, functools.partial(trial, program)) for trial in TRIALS])


if __name__ == "__main__":
    sys.exit(main())
