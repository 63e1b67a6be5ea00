#!/usr/bin/env python3
"""Starts `airbook listen`, sends it datagrams over loopback, and compares what it writes.

Usage: listen.py PROGRAM [DATAGRAMS [SEED]]     (5,000, 1: how many random datagrams)

Each datagram is sent once the answers to those before it were read, so none is lost. What the random ones are answered is found
in lib/drawn_turns.py, as docs/FORMATS.md says. The lines of a case and of some drawn runs are sent too, a datagram each, and have
to be answered as the case has it, and as by the model in lib/plain_server.py. Libraries that are loaded before the C library
count the threads, of which there have to be some where workers are asked for, and refuse threads, random bytes and one receive.
Every program that is started ends within a minute, or is stopped. A failing trial has a line; the last line is 'N passed, M
failed'. The status is 0 where none failed, 1 where one did, 2 where nothing could be run.
"""
from __future__ import annotations

import os
import pathlib
import random
import select
import socket
import subprocess
import sys
import tempfile
import time
from typing import Any, Optional, Sequence

sys.dont_write_bytecode = True
from lib import lorawan, plain_server
from lib.arguments import asked_by
from lib.drawn_turns import KEYS, NO_REPORT, SESSION, SETTINGS, STEPS, UPLINK, Alone, Turn, drawn_run, run_of_steps
from lib.places import TOP
from lib.plain_server import Table
from lib.preloaded import COUNTING, FAILING_RECEIVE, NO_RANDOM_BYTES, NO_THREADS, NO_TIME_LIMIT, Counter, library_of, over
from lib.serving import LOOPBACK, free_port, is_bound
from lib.trials import tell

# Options of Popen.
Options = dict[str, Any]
SECONDS = 60
EXAMPLE = TOP / "examples" / "settings.toml"
# As many uplinks as several workers share out.
SHARED = 64
# How many runs are drawn, of some dozens of datagrams each.
RUNS = 12
# What is answered to an uplink whose counter is past, and to four more, of which the last was heard twice.
OWN_ANSWERS = ["no"] + ["opened"] * 4 + ["joined"] + ["send"] * 3 + ["unanswered"]


class Server:
    """A program that listens, and two senders, who take turns."""

    def __init__(
        self, program: str, turns: int, more: Sequence[str] = (), settings: str = SETTINGS, options: Optional[Options] = None
    ) -> None:
        self.port = free_port()
        self.ends = time.monotonic() + SECONDS
        self.read = b""
        self.senders = [socket.socket(type=socket.SOCK_DGRAM) for _ in range(2)]
        words = [program, "listen", "--port", str(self.port), "--turns", str(turns), *more]
        pipes: Options = {"stdin": subprocess.PIPE, "stdout": subprocess.PIPE, "stderr": subprocess.PIPE}
        self.child: subprocess.Popen[bytes] = subprocess.Popen(words, **(pipes | (options or {})))
        self.child.stdin.write(settings.encode())
        self.child.stdin.close()

    def __enter__(self) -> Server:
        while not is_bound(self.port, LOOPBACK) and self.child.poll() is None and time.monotonic() < self.ends:
            time.sleep(0.005)
        return self

    def __exit__(self, *_: object) -> None:
        if self.child.poll() is None:
            self.child.kill()
        self.child.wait()
        for sender in self.senders:
            sender.close()
        if self.child.stdout is not None:
            self.child.stdout.close()
        self.child.stderr.close()

    def send(self, datagram: bytes) -> None:
        self.senders[0].sendto(datagram, ("127.0.0.1", self.port))
        self.senders.reverse()

    def lines(self, count: int) -> list[str]:
        """The next lines that are written, so many of them; fewer where no more come."""
        while self.read.count(b"\n") < count:
            left = self.ends - time.monotonic()
            if left <= 0 or not select.select([self.child.stdout], [], [], left)[0]:
                break
            block = os.read(self.child.stdout.fileno(), 65536)
            if not block:
                break
            self.read += block
        parts = self.read.split(b"\n")
        taken = parts[:-1][:count]
        self.read = b"\n".join(parts[len(taken):])
        return [line.decode("utf-8", "backslashreplace") for line in taken]

    def rest(self) -> tuple[list[str], Optional[int], str]:
        """All lines that are still written, the status, and standard error."""
        lines = self.lines(1 << 30)
        try:
            status = self.child.wait(max(0.1, self.ends - time.monotonic()))
        except subprocess.TimeoutExpired:
            return lines, None, ""
        return lines, status, self.child.stderr.read().decode("utf-8", "backslashreplace")


def exchange(
    program: str, turns: Sequence[Turn], wanted_rest: list[str], wanted_status: int, more: Sequence[str] = (),
    options: Optional[Options] = None, settings: str = SETTINGS,
) -> Optional[str]:
    """Sends each datagram once its turn has come. What differs from what is wanted, if anything."""
    with Server(program, len(turns), more, settings, options) as server:
        for turn, (datagram, answer) in enumerate(turns, 1):
            server.send(datagram)
            got = server.lines(len(answer))
            if got != answer:
                return f"turn {turn}, {datagram[:80]!r}: wanted {answer}, got {got}"
        lines, status, errors = server.rest()
        if lines != wanted_rest or status != wanted_status or errors:
            return f"wanted {wanted_rest} and status {wanted_status}, got {lines}, {status} and {errors!r}"
    return None


def worked(program: str) -> Optional[str]:
    """Two gateways hear an uplink, and it is answered."""
    turns: list[Turn] = [
        (f"hear 1 5000000 868100000 5 55 -90 1000 {UPLINK}".encode(), ["opened 1"]),
        (f"hear 2 9000000 868100000 5 55 -80 1100 {UPLINK}\r\n".encode(), ["joined 1 2"]),
        (b"pass 201000", []),
        (b"pass 201001\n", ["send 1 2 RX1 10000000 868100000 5 12", "frame 1 60da1b0126200000240347ca"]),
    ]
    report = [
        "gateway 1 booked 0 cancelled 0 retired 0 kept 0",
        "gateway 2 booked 41216 cancelled 0 retired 0 kept 1",
        "busiest 2 M 10000000 41216",
        "answered 1 unanswered 0 silent 0",
    ]
    return exchange(program, turns, report, 0) or exchange(program, turns, report, 0, ["--workers", "16"])


def silent_uplinks() -> list[str]:
    """As many as are shared out, to which no answer is owed."""
    keys = [bytes.fromhex(key) for key in SESSION]
    return [lorawan.uplink(False, 0x26011BDA, counter, keys).hex() for counter in range(SHARED)]


def shared_out(program: str, workers: int, options: Options) -> Optional[str]:
    """As many uplinks as are shared out are heard and closed. What differs from what is wanted, if anything."""
    heard = [f"hear 1 0 868100000 5 0 -100 0 {uplink}".encode() for uplink in silent_uplinks()]
    turns = [(line, [f"opened {number}"]) for number, line in enumerate(heard, 1)]
    turns += [(b"pass 200001", [f"silent {number}" for number in range(1, SHARED + 1)])]
    report = [*NO_REPORT[:-1], f"answered 0 unanswered 0 silent {SHARED}"]
    return exchange(program, turns, report, 0, ["--workers", str(workers)], options)


def threads_started(program: str) -> Optional[str]:
    """Two workers are two threads where they have enough to do, of sixteen three have. Hashes are keyed at random."""
    with tempfile.TemporaryDirectory() as folder:
        library = library_of(COUNTING, pathlib.Path(folder))
        for workers, threads in ((1, 0), (2, 2), (16, 3)):
            counter = Counter(library)
            fault = shared_out(program, workers, counter.options)
            calls = counter.calls()
            if fault or calls.threads != threads or not calls.random:
                return f"{workers} workers: {fault or calls}"
    return None


def threads_refused(program: str) -> Optional[str]:
    """Where no thread can be started, the one that listens answers all."""
    with tempfile.TemporaryDirectory() as folder:
        counter = Counter(library_of(NO_THREADS, pathlib.Path(folder)))
        fault = shared_out(program, 2, counter.options)
        calls = counter.calls()
    return fault or (None if calls.threads else "no thread was asked for")


def own_settings(program: str) -> Optional[str]:
    """Caps, a gap and a device that differ from what they are where nothing is said: the answers are those of a plain model."""
    gateways: list[Table] = [{"id": 1, "cap": 2, "gap": 100_000}, {"id": 2, "cap": 1, "gap": 0}]
    device: Table = {"addr": 0x26011BDA, "delay": 2, "offset": 1, "rx2_freq": 868_500_000, "rx2_dr": 3, "up": 6, "down": 5}
    rows = [f"[[{name}]]\n" + "".join(f"{key} = {value}\n" for key, value in one.items()) for name, one in
            [("gateway", gateways[0]), ("gateway", gateways[1]), ("device", device | {"addr": '"26011bda"'})]]
    keys = [bytes.fromhex(key) for key in SESSION]
    model = plain_server.Server(gateways, [device | {"keys": keys}])
    # The first has a counter that is past. RX1 of the third lies in the gap behind the second; the last finds both books full.
    copies = [(1, 4_000_000), (1, 5_000_000), (1, 5_100_000), (2, 30_000_000), (1, 60_000_000), (2, 60_000_000)]
    lines = []
    for counter, (gateway, at) in zip([5, 7, 8, 9, 10, 10], copies):
        uplink = lorawan.uplink(True, device["addr"], counter, keys).hex()
        lines.append(f"hear {gateway} {at} 868100000 5 55 -90 {300_000 * counter} {uplink}")
    for counter in range(7, 11):
        lines.append(f"pass {300_000 * counter + 200_001}")
    turns = [(line.encode(), model.answers(line.encode(), place)) for place, line in enumerate(lines, 1)]
    told = [answer for _, answers in turns for answer in answers]
    if [line.split()[0] for line in told if not line.startswith("frame")] != OWN_ANSWERS:
        return f"the model answers {told}"
    return exchange(program, turns, model.report(), 1, settings="".join(rows) + KEYS)


def turns_above_16_bits(program: str) -> Optional[str]:
    """A program that was asked for more turns than 16 bits hold takes a third one."""
    with Server(program, (1 << 16) + 2) as server:
        for moment in (1, 2, 3):
            server.send(f"tick 1 {moment}".encode())
            got = server.lines(1)
            if got != [f"floor 1 {moment}"]:
                return f"turn {moment}: {got}"
    return None


def receive_failed(program: str) -> Optional[str]:
    """A receive that fails takes a turn, which is answered, and a warning goes to standard error; the next one is as ever."""
    with over(FAILING_RECEIVE) as options, Server(program, 2, options=options) as server:
        first = server.lines(1)
        server.send(b"tick 1 5")
        lines, status, errors = server.rest()
    is_warned = errors.count("\n") == 1 and "nothing was received" in errors
    if first == ["bad 1 Read"] and lines == ["floor 1 5", *NO_REPORT] and status == 1 and is_warned:
        return None
    return f"{first}, then {lines}, status {status}, {errors!r}"


def write_failed(program: str) -> Optional[str]:
    """An output that takes nothing, and one that nobody reads, end it at the first answer."""
    found = []
    with open("/dev/full", "wb") as full, Server(program, 2, options={"stdout": full}) as one, Server(program, 2) as other:
        other.child.stdout.close()
        for server in (one, other):
            server.send(b"tick 1 5")
            found.append((server.child.wait(SECONDS), server.child.stderr.read()))
    return None if found == [(2, b"airbook: Write\n")] * 2 else f"a full device and a closed pipe: {found}"


def waits_for_ever(program: str) -> Optional[str]:
    """No time is set in which a datagram has to come: who sets one is stopped."""
    with over(NO_TIME_LIMIT) as options:
        return exchange(program, [(b"tick 1 5", ["floor 1 5"])], NO_REPORT, 0, options=options)


def no_random_bytes(program: str) -> Optional[str]:
    """Hashes can't be keyed."""
    with over(NO_RANDOM_BYTES) as options:
        return refused(program, SETTINGS, "Read", options)


def run_of_turns(program: str, settings: str, turns: Sequence[Turn], report: list[str], more: Sequence[str] = ()) -> Optional[str]:
    """The lines of a run, a datagram each, with one worker or with those that are asked for."""
    refused = any(answer.split()[0] in ("no", "bad") for _, answers in turns for answer in answers)
    return exchange(program, turns, report, int(refused), more, settings=settings)


def steps(program: str, case: str) -> Optional[str]:
    """A case's lines: what is booked is cancelled, and a payload sent, beside a gathering that is open; signals decide."""
    run = run_of_steps(case)
    if run is None:
        return "the model answers otherwise than the case"
    return run_of_turns(program, *run) or run_of_turns(program, *run, ["--workers", "16"])


def drawn_runs(program: str, seed: int) -> Optional[str]:
    """Runs as tests/random_runs.py draws them: the answers are those of a plain model. Every second one has two workers."""
    for one in range(seed, seed + RUNS):
        fault = run_of_turns(program, *drawn_run(one), ["--workers", "2"] * (one % 2))
        if fault:
            return f"run {one}: {fault}"
    return None


def at_random(program: str, datagrams: int, seed: int) -> Optional[str]:
    """Random datagrams, each answered by itself."""
    alone = Alone(random.Random(seed))
    return exchange(program, [alone.turn(turn) for turn in range(1, datagrams + 1)], NO_REPORT, 1)


def example(program: str) -> Optional[str]:
    """The example of README.md."""
    with Server(program, 1, settings=EXAMPLE.read_text()) as server:
        server.send(b"tick 1 5")
        got = server.rest()
    return None if got == (["floor 1 5", *NO_REPORT], 0, "") else f"got {got}"


def example_of_help(program: str) -> Optional[str]:
    """The example of the help, in which bash sends the datagram."""
    with Server(program, 1, settings=EXAMPLE.read_text()) as server:
        subprocess.run(["bash", "-c", f"echo tick 1 5 > /dev/udp/127.0.0.1/{server.port}"], check=True, timeout=SECONDS)
        got = server.rest()
    return None if got == (["floor 1 5", *NO_REPORT], 0, "") else f"got {got}"


def refused(program: str, settings: str, name: str, options: Optional[Options] = None) -> Optional[str]:
    """A program that doesn't begin to listen, for a fault of this name."""
    with Server(program, 1, settings=settings, options=options) as server:
        got = server.rest()
    return None if got == ([], 2, f"airbook: {name}\n") else f"wanted {name}, got {got}"


def port_taken(program: str) -> Optional[str]:
    """A port that another socket has."""
    with Server(program, 1) as first:
        words = [program, "listen", "--port", str(first.port), "--turns", "1"]
        second = subprocess.run(words, input=SETTINGS.encode(), capture_output=True, timeout=SECONDS)
        first.send(b"tick 1 5")
        answered = first.rest()
    if (second.returncode, second.stdout, second.stderr) != (2, b"", b"airbook: Bind\n"):
        return f"the second program: {second}"
    return None if answered[:2] == (["floor 1 5"] + NO_REPORT, 0) else f"the first program: {answered}"


def told_in_notes(program: str) -> Optional[str]:
    """With notes: that it listens, why a datagram was refused, and what was never closed. Answers and status stay as they are."""
    turns: list[Turn] = [
        (f"hear 1 5000000 868100000 5 55 -90 1000 {UPLINK}".encode(), ["opened 1"]),
        (f"hear 9 5000000 868100000 5 55 -90 1000 {UPLINK}\r\n".encode(), ["no hear UnknownGateway"]),
        (b"", []),
        (b"tick 1\n", ["bad 4 Syntax"]),
    ]
    with Server(program, len(turns), ["--notes"]) as server:
        for datagram, answer in turns:
            server.send(datagram)
            if server.lines(len(answer)) != answer:
                return f"{datagram!r} is answered otherwise"
        lines, status, errors = server.rest()
    notes = [
        f"listening on 127.0.0.1:{server.port}",
        "note: line 2: gateway 9: device 26011bda: this gateway is not in the settings",
        "note: line 4: tick is followed by GATEWAY NOW",
        "note: uplinks that were never closed: 1; `pass` closes an uplink more than 200000 us after its first copy",
    ]
    if (lines, status, errors.splitlines()) != (NO_REPORT, 1, notes):
        return f"{lines}, status {status}, {errors!r}"
    return None


def why_not_bound(program: str) -> Optional[str]:
    """With notes a port that another socket has is told with the system's reason, and settings at fault with their place."""
    with Server(program, 1) as first:
        words = [program, "listen", "--port", str(first.port), "--turns", "1", "--notes"]
        second = subprocess.run(words, input=SETTINGS.encode(), capture_output=True, timeout=SECONDS)
        third = subprocess.run(words, input=b"gateway = [", capture_output=True, timeout=SECONDS)
    told = second.stderr.decode().splitlines()
    reason = f"note: 127.0.0.1:{first.port} can't be bound: "
    if (second.returncode, second.stdout) != (2, b"") or len(told) != 2 or not told[0].startswith(reason):
        return f"the second program: {second}"
    if told[1] != "airbook: Bind" or not third.stderr.startswith(b"note: settings, line 1, column "):
        return f"{second}, {third}"
    return None


def main() -> int:
    program, (datagrams, seed) = asked_by(__doc__, 5_000, 1)
    trials = [
        ("the example", lambda: example(program)),
        ("the example of the help", lambda: example_of_help(program)),
        ("worked turns", lambda: worked(program)),
        ("threads", lambda: threads_started(program)),
        ("no threads", lambda: threads_refused(program)),
        ("settings of its own", lambda: own_settings(program)),
        ("a step for each event", lambda: steps(program, STEPS[0])),
        ("signals of all strengths", lambda: steps(program, STEPS[1])),
        (f"{RUNS} runs", lambda: drawn_runs(program, seed)),
        ("turns above 16 bits", lambda: turns_above_16_bits(program)),
        ("a receive that fails", lambda: receive_failed(program)),
        ("a write that fails", lambda: write_failed(program)),
        ("a receive without a time limit", lambda: waits_for_ever(program)),
        ("no random bytes", lambda: no_random_bytes(program)),
        (f"{datagrams} random datagrams", lambda: at_random(program, datagrams, seed)),
        ("a port that is taken", lambda: port_taken(program)),
        ("notes", lambda: told_in_notes(program)),
        ("notes of a port that is taken", lambda: why_not_bound(program)),
        ("settings that are not TOML", lambda: refused(program, "gateway = [", "NotToml")),
        ("settings with a line of dashes", lambda: refused(program, SETTINGS + "---\n", "NotToml")),
        ("no settings", lambda: refused(program, "", "Count")),
    ]
    return tell(trials)


if __name__ == "__main__":
    sys.exit(main())
