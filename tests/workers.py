#!/usr/bin/env python3
"""Runs a program with workers and without on inputs that are larger than those of cases/, and compares what it writes.

Usage: workers.py PROGRAM

With workers which gateway and window an answer gets may depend on the schedule; here no two answers stand in each other's way,
so all have to write the same. Libraries that are loaded before the C library count threads, and refuse them and random bytes. A
failing trial has a line; the last line is 'N passed, M failed'. The status is 0 where none failed, 1 where one did, 2 where
nothing could be run.
"""
from __future__ import annotations

import pathlib
import subprocess
import sys
import tempfile
from typing import Any, Callable, Iterable, Optional, Sequence

sys.dont_write_bytecode = True
from lib.arguments import asked_by
from lib.preloaded import COUNTING, NO_RANDOM_BYTES, NO_THREADS, Counter, library_of, over
from lib.trials import tell

# Status, lines of standard output, and standard error.
Wrote = tuple[int, list[str], str]
SECONDS = 120
DEVICES = 1_000
GATEWAYS = 4
OPEN_AT_MOST = 4_096
ROUNDS = 5
# So many uplinks want 16 workers, one and one more for each 32 of them.
ONCE = 480
# So many lines of a comment are a text that is worth a second thread.
COMMENTS = 3_000
# How many threads a run starts by how many workers were asked for, where one `pass` closes 1,000 uplinks: one that makes events
# behind the first quarter, the workers, and those that make lines of the answers, which are halved by twos.
THREADS = {0: 0, 1: 0, 2: 1 + 2 + 1, 4: 1 + 4 + 3}
# A line that alone is a text worth a second thread.
LONG = 70_000
# From so many bytes of lines on a second thread makes events, and from so many answers on their lines are made in halves.
IN_PARTS, IN_HALVES = 65_536, 1_024
# So far apart, in microseconds, a gateway may answer for days.
SPACE = 5_000_000
KEYS = 'nwkskey = "2b7e151628aed2a6abf7158809cf4f3c"\nappskey = "000102030405060708090a0b0c0d0e0f"\n'
# Clocks that run for longer than 25 days.
LONG_AGO = 1 << 41


def addr(device: int) -> str:
    return f"{0x26010000 + device:08x}"


def settings(gateways: int, devices: int, cap: int = OPEN_AT_MOST) -> str:
    rows = [f"[[gateway]]\nid = {gateway}\ncap = {cap}\ngap = 100000\n" for gateway in range(1, gateways + 1)]
    return "".join(rows + [f'[[device]]\naddr = "{addr(device)}"\n{KEYS}' for device in range(devices)]) + "---\n"


def hear(device: int, gateway: int, at: int, counter: int = 0, snr: int = 0, arrived: int = 0) -> str:
    return f"hear {gateway} {LONG_AGO + at} 868100000 5 {snr} -100 {LONG_AGO + arrived} @c:{addr(device)}:{counter}"


def apart() -> str:
    """Each device is heard once, by one gateway, and is answered in RX1. One more is open then, is heard a second time, better,
    after that, and is answered last. Before it four are heard whose RX1 begins in the gap behind a transmission, so that they are
    answered in RX2; and what was booked is cancelled, in part, and retired. A line that is none stands at the end, behind most of
    the text, and is named by its number."""
    lines = [f"queue {addr(device)} 9 0102" for device in range(0, DEVICES, 3)]
    lines += [hear(device, 1 + device % GATEWAYS, 200_000 * (device // GATEWAYS)) for device in range(DEVICES)]
    last = 200_000 * ((DEVICES - 1) // GATEWAYS)
    lines += [hear(DEVICES, 1, last + SPACE, arrived=900_000), f"pass {LONG_AGO + 1_000_000}"]
    lines += [hear(DEVICES, 2, last + SPACE, snr=1, arrived=1_050_000)]
    lines += [hear(device, 1 + device, last + 100_000, 1) for device in range(GATEWAYS)]
    lines += [f"pass {LONG_AGO + 1_000_000}", f"pass {LONG_AGO + 1_200_000}"]
    lines += [f"cancel {number}" for number in [*range(1, DEVICES + GATEWAYS + 3, 7), 1]]
    lines += [f"tick {gateway} {LONG_AGO + 3_620_000_000 + gateway}" for gateway in range(1, GATEWAYS + 2)]
    return settings(GATEWAYS, DEVICES + 1) + "\n".join([*lines, "hear"]) + "\n"


def one_pass() -> str:
    """Uplinks to which no answer is owed, all closed by one `pass`; one thread makes the events, and the lines of the answers."""
    lines = [hear(device, 1, 0).replace("@c", "@u") for device in range(ONCE)] + [f"pass {LONG_AGO + 1_000_000}"]
    return settings(1, ONCE) + "\n".join(lines) + "\n"


def commented() -> str:
    """Comments and lines that end in CR LF stand in front of a line that is none, whose number counts them all; then comes one
    that is longer than a line may be, without an end, so that no line feed stands behind most of the text."""
    return settings(1, 1) + "# c\r\n\r\n" * COMMENTS * 4 + "hear\r\n" + "#" * LONG


def one_line() -> str:
    """There is no line feed at all."""
    return settings(1, 1) + "#" * LONG


def crammed() -> str:
    """One gateway, whose book keeps more than one does where nobody says so, hears each device once in each of its rounds."""
    lines = []
    for turn in range(ROUNDS):
        lines += [hear(device, 1, SPACE * (DEVICES * turn + device), turn) for device in range(DEVICES)]
        lines += [f"pass {LONG_AGO + 1_000_000}"]
    return settings(1, DEVICES, ROUNDS * DEVICES) + "\n".join(lines) + "\n"


def twice() -> str:
    """Each device is heard with two uplinks, each answered in RX1; one `pass` closes them all. Which of the two has the first
    downlink counter depends on which worker is first."""
    lines = [
        hear(device, 1 + device % GATEWAYS, 200_000 * (DEVICES * turn + device // GATEWAYS), turn)
        for turn in range(2) for device in range(DEVICES)
    ]
    return settings(GATEWAYS, DEVICES) + "\n".join([*lines, f"pass {LONG_AGO + 1_000_000}"]) + "\n"


def crowded() -> str:
    """One device is heard with more uplinks than are gathered at a time, none owed an answer; one `pass` closes them all."""
    lines = [hear(0, 1, 0, counter).replace("@c", "@u") for counter in range(OPEN_AT_MOST + 2)]
    return settings(1, 1) + "\n".join([*lines, f"pass {LONG_AGO + 1_000_000}"]) + "\n"


def written(program: str, text: str, workers: int, options: Optional[dict[str, Any]] = None) -> Wrote:
    words = [program, "run", "--workers", str(workers)]
    ran = subprocess.run(words, input=text.encode(), capture_output=True, timeout=SECONDS, **(options or {}))
    return ran.returncode, ran.stdout.decode().splitlines(), ran.stderr.decode()


def first_difference(wanted: Sequence[str], got: Sequence[str]) -> str:
    for place, (want, line) in enumerate(zip(wanted, got), 1):
        if want != line:
            return f"line {place}: wanted {want}, got {line}"
    return f"wanted {len(wanted)} lines, got {len(got)}"


def without_frames(wrote: Wrote) -> Wrote:
    """What was written but for the bytes of frames."""
    status, lines, errors = wrote
    return status, [" ".join(line.split()[:2]) if line.startswith("frame ") else line for line in lines], errors


def alike(
    program: str, text: str, is_wanted: Callable[[Wrote], bool], seen: Callable[[Wrote], Wrote] = lambda wrote: wrote
) -> Optional[str]:
    """What differs from what one thread writes, or is not wanted of it, if anything, by what is seen of it."""
    wanted = seen(written(program, text, 0))
    if not is_wanted(wanted):
        return f"without workers: status {wanted[0]}, {wanted[1][-3:]}, {wanted[2]!r}"
    for workers in (1, 2, 4, 16):
        got = seen(written(program, text, workers))
        if got != wanted:
            return f"{workers} workers: status {got[0]}, {first_difference(wanted[1], got[1])}, {got[2]!r}"
    return None


def threads_started(program: str) -> Optional[str]:
    """With no worker and with one all is done by the thread that runs; two or more are threads. Each run keys its hashes at
    random."""
    with tempfile.TemporaryDirectory() as folder:
        library = library_of(COUNTING, pathlib.Path(folder))
        for workers in (0, 1, 2, 4):
            counter = Counter(library)
            status, _, errors = written(program, apart(), workers, counter.options)
            calls = counter.calls()
            if errors or status != 1 or calls.threads != THREADS[workers] or not calls.random:
                return f"{workers} workers: status {status}, {errors!r}, {calls}"
    return None


def threads_by(program: str, trials: Iterable[tuple[int, str, int]], wanted_status: int) -> Optional[str]:
    """Runs of so many workers on a text start so many threads. What differs, if anything."""
    with tempfile.TemporaryDirectory() as folder:
        library = library_of(COUNTING, pathlib.Path(folder))
        for workers, text, threads in trials:
            counter = Counter(library)
            status, _, errors = written(program, text, workers, counter.options)
            calls = counter.calls()
            if errors or status != wanted_status or calls.threads != threads:
                return f"{workers} workers, {len(text)} bytes: status {status}, {errors!r}, {calls}"
    return None


def threads_of_a_pass(program: str) -> Optional[str]:
    """As many threads start for one `pass` as workers were asked for, where there is work for them."""
    return threads_by(program, [(workers, one_pass(), workers) for workers in (2, 4, 16)], 0)


def threads_of_a_full_pass(program: str) -> Optional[str]:
    """So do they where as many gatherings are closed as may be open at a time; with those that make events and lines."""
    return threads_by(program, [(workers, crowded(), THREADS[workers]) for workers in (2, 4)], 1)


def thread_of_events(program: str) -> Optional[str]:
    """One thread more makes events of the lines behind the first quarter, where there are enough of them and two workers or more
    were asked for; a text of comments has nothing else to do."""
    text = settings(1, 1) + "# nothing is asked for here\n" * COMMENTS
    trials = [(workers, text, threads) for workers, threads in ((0, 0), (1, 0), (2, 1), (16, 1))]
    # Lines of so many bytes in all, each but the last of 16.
    lines = [settings(1, 1) + ("#" * 15 + "\n") * (IN_PARTS // 16 - 1) + "#" * left + "\n" for left in (14, 15)]
    return threads_by(program, trials + [(2, lines[0], 0), (2, lines[1], 1)], 0)


def threads_of_lines(program: str) -> Optional[str]:
    """Where there are enough answers one thread more makes the lines of half of them; here they answer lines that ask nothing."""
    texts = [settings(1, 1) + "hear\n" * count for count in (IN_HALVES - 1, IN_HALVES)]
    return threads_by(program, [(16, texts[0], 0), (16, texts[1], 1), (1, texts[1], 0)], 1)


def threads_refused(program: str) -> Optional[str]:
    """Where no thread can be started, one does it all; with two workers or more a thread was asked for."""
    wanted = written(program, apart(), 0)
    with tempfile.TemporaryDirectory() as folder:
        library = library_of(NO_THREADS, pathlib.Path(folder))
        for workers in (1, 2, 4, 16):
            counter = Counter(library)
            got = written(program, apart(), workers, counter.options)
            asked = counter.calls().threads
            if got != wanted or (asked > 0) != (workers > 1):
                difference = first_difference(wanted[1], got[1])
                return f"{workers} workers: status {got[0]}, {difference}, {got[2]!r}, {asked} threads asked for"
    return None


def no_random_bytes(program: str) -> Optional[str]:
    """Hashes can't be keyed."""
    with over(NO_RANDOM_BYTES) as options:
        for workers in (0, 1, 2):
            got = written(program, apart(), workers, options)
            if got != (2, [], "airbook: Read\n"):
                return f"{workers} workers: {got}"
    return None


def sent(wanted: Wrote) -> list[list[str]]:
    """What is sent: by which gateway, and in which window."""
    return [line.split()[2:4] for line in wanted[1] if line.startswith("send ")]


def windows(wanted: Wrote) -> list[str]:
    """The windows in which uplinks are answered."""
    return [window for _, window in sent(wanted)]


def is_answered(wanted: Wrote) -> bool:
    """Every uplink is answered, all in RX1 but four, the last one by the gateway that heard it better."""
    wanted_windows = ["RX1"] * DEVICES + ["RX2"] * GATEWAYS + ["RX1"]
    return windows(wanted) == wanted_windows and sent(wanted)[-1] == ["2", "RX1"]


def is_full(wanted: Wrote) -> bool:
    """Every uplink is answered in RX1."""
    return windows(wanted) == ["RX1"] * (ROUNDS * DEVICES)


def is_twice(wanted: Wrote) -> bool:
    """Every uplink is answered in RX1."""
    return windows(wanted) == ["RX1"] * (2 * DEVICES)


def is_crowded(wanted: Wrote) -> bool:
    """As many gatherings open as may, and no more, and as many are closed."""
    opened, silent = ([f"{word} {number}" for number in range(1, OPEN_AT_MOST + 1)] for word in ("opened", "silent"))
    return wanted[1][: 2 * OPEN_AT_MOST + 2] == opened + ["no hear Crowded"] * 2 + silent


def is_numbered(wanted: Wrote) -> bool:
    """The two lines behind the comments are named by their numbers."""
    return wanted[1][:2] == [f"bad {8 * COMMENTS + more} Syntax" for more in (1, 2)]


def is_long(wanted: Wrote) -> bool:
    """The one line is named."""
    return wanted[1][:1] == ["bad 1 Syntax"]


def main() -> int:
    program, _ = asked_by(__doc__)
    trials = [
        (f"{DEVICES} uplinks apart", lambda: alike(program, apart(), is_answered)),
        (f"{ROUNDS * DEVICES} uplinks of one gateway", lambda: alike(program, crammed(), is_full)),
        (f"{2 * DEVICES} answers owed at a time", lambda: alike(program, twice(), is_twice, without_frames)),
        (f"{OPEN_AT_MOST + 2} uplinks at a time", lambda: alike(program, crowded(), is_crowded)),
        ("comments in front of a line that is none", lambda: alike(program, commented(), is_numbered)),
        ("one long line", lambda: alike(program, one_line(), is_long)),
    ]
    trials += [
        ("threads", lambda: threads_started(program)),
        ("threads of one pass", lambda: threads_of_a_pass(program)),
        ("threads of a full pass", lambda: threads_of_a_full_pass(program)),
        ("thread of events", lambda: thread_of_events(program)),
        ("threads of lines", lambda: threads_of_lines(program)),
        ("no threads", lambda: threads_refused(program)),
        ("no random bytes", lambda: no_random_bytes(program)),
    ]
    return tell(trials)


if __name__ == "__main__":
    sys.exit(main())
