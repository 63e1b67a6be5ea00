"""What the scripts here measure of a program: which one it is, on which bookings, and the time and the memory that it takes.

The program is `airbook`, or one that reads the same lines. All seconds are those of the processors, in user code and in the system,
where nothing else is said. It needs Linux. Of a program that has ended Linux tells no less memory than the script held that began
it, some 15 MiB.
"""
from __future__ import annotations

import argparse
import os
import pathlib
import shutil
import subprocess
import sys
import tempfile
import time
from typing import IO, Any, Iterable, Iterator, NamedTuple, Sequence

TOP = pathlib.Path(__file__).resolve().parent.parent
GATES = TOP / "crates/airbook/out/airbook"
STEP = 6_000_000            # 600 in each hour, six seconds apart, in microseconds
STRIDE = 7_919              # from place to place, where they spread over all
CAP = 65_536                # how many transmissions a book keeps


class Cost(NamedTuple):
    """What one run of a program took."""

    seconds: float
    elapsed: float          # seconds that went by
    memory: int             # the greatest, in KiB


def arguments(told: str, takes_other: bool = False) -> argparse.ArgumentParser:
    """The arguments of a script that this text tells of: the program that is measured, and a second one where it takes one."""
    words = argparse.ArgumentParser(description=told, formatter_class=argparse.RawDescriptionHelpFormatter)
    words.add_argument("program", metavar="PROGRAM", nargs="?", type=program_at, default=str(GATES))
    if takes_other:
        words.add_argument("--other", metavar="PATH", type=program_at)
    return words


def program_at(path: str) -> str:
    if shutil.which(path) is None:
        where = GATES.relative_to(TOP)
        raise argparse.ArgumentTypeError(f"there is no program at {path}: run make test, which builds {where}, or name another")
    return path


def count(text: str) -> int:
    """A number of an argument, at least 1."""
    if not text.isdecimal() or int(text) < 1:
        raise argparse.ArgumentTypeError(f"{text!r} is no number from 1 on")
    return int(text)


def book(number: int, start: int) -> str:
    return f"book {number} {start} 868300000 6 12\n"


def kept(members: int, stride: int = 1) -> str:
    """So many bookings, in the order of their starts, or with the starts by another stride, each once."""
    return "".join(book(number, number * stride % members * STEP) for number in range(members))


def between(members: int, places: int, stride: int = STRIDE) -> Iterator[int]:
    """So many places between the members that are kept, from one to the next by a stride."""
    return (place * stride % members * STEP + STEP // 2 for place in range(places))


def words_of(command: str, more: Sequence[str] = ()) -> list[str]:
    return [command, "--cap", str(CAP), *more]


def require(program: str, words: Sequence[str], status: int, statuses: Sequence[int] = (0, 1)) -> None:
    """Ends the script where a program ended with another status."""
    if status not in statuses:
        raise SystemExit(f"{program} {' '.join(words)} ended with status {status}")


def cost(
    program: str, words: Sequence[str], given: IO[bytes], written: Any = subprocess.DEVNULL, statuses: Sequence[int] = (0, 1)
) -> Cost:
    """What a run of the program with these words takes, whose input is a file, from its beginning."""
    given.seek(0)
    began = time.monotonic()
    child = subprocess.Popen([program, *words], stdin=given, stdout=written)
    _, status, usage = os.wait4(child.pid, 0)
    elapsed = time.monotonic() - began
    child.returncode = os.waitstatus_to_exitcode(status)
    require(program, words, child.returncode, statuses)
    return Cost(usage.ru_utime + usage.ru_stime, elapsed, usage.ru_maxrss)


def seconds(program: str, lines: Iterable[str], runs: int = 1, command: str = "book", more: Sequence[str] = ()) -> float:
    """The least seconds of so many runs of a command, with more arguments if any, over these lines."""
    with tempfile.TemporaryFile() as given:
        given.writelines(line.encode() for line in lines)
        return min(cost(program, words_of(command, more), given).seconds for _ in range(runs))


def added(program: str, before: str, lines: str, runs: int, more: Sequence[str] = ()) -> float:
    """The seconds that these lines take behind those that come before them."""
    return seconds(program, [before, lines], runs, more=more) - seconds(program, [before], runs, more=more)


def used(program: str, words: Sequence[str], text: bytes) -> tuple[float, int]:
    """The least seconds, and the greatest memory in KiB, of several runs of the program on this text."""
    with tempfile.TemporaryFile() as given:
        given.write(text)
        costs = [cost(program, words, given, statuses=(0,)) for _ in range(5)]
    return min(one.seconds for one in costs), max(one.memory for one in costs)


def answers(program: str, text: str, more: Sequence[str] = ()) -> str:
    """What `book` answers to these lines."""
    words = words_of("book", more)
    ran = subprocess.run([program, *words], input=text, stdout=subprocess.PIPE, text=True)
    require(program, words, ran.returncode)
    return ran.stdout


def held(pid: int, what: str = "VmHWM") -> int:
    """The peak memory of a process in KiB, 0 where it has ended; or by another name of Linux's /proc, as RssAnon: what it has
    allocated, without the pages of the files that it maps."""
    lines = pathlib.Path(f"/proc/{pid}/status").read_text().splitlines()
    return next((int(line.split()[1]) for line in lines if line.startswith(what)), 0)


def memory(program: str, lines: Iterable[str], what: str = "VmHWM") -> int:
    """What `book` holds in KiB, by its name in /proc, once these lines are read, while the input is still open."""
    words = words_of("book")
    try:
        with subprocess.Popen([program, *words], stdin=subprocess.PIPE, stdout=subprocess.DEVNULL) as child:
            for line in lines:
                child.stdin.write(line.encode())
            child.stdin.flush()
            time.sleep(0.5)
            found = held(child.pid, what)
    except BrokenPipeError:
        raise SystemExit(f"{program} {' '.join(words)} ended before its input") from None
    require(program, words, child.returncode)
    return found


def uplinks(*numbers: int) -> IO[bytes]:
    """A file of the input of `run` that uplinks.py makes of these numbers, in a process of its own: so this one stays small."""
    given = tempfile.TemporaryFile()
    subprocess.run([sys.executable, str(TOP / "bench/uplinks.py"), *map(str, numbers)], stdout=given, check=True)
    return given


def run_of(program: str, given: IO[bytes], more: Sequence[str] = ()) -> tuple[Cost, str]:
    """What `run` takes over this input, and the last line that it writes."""
    with tempfile.TemporaryFile() as written:
        taken = cost(program, ["run", *more], given, written)
        written.seek(max(0, written.seek(0, os.SEEK_END) - 4096))
        lines = written.read().splitlines()
    if not lines:
        raise SystemExit(f"{program} run wrote nothing")
    return taken, lines[-1].decode()
