"""Makes trials, and prints what came of them: why each one failed, and at the end how many passed and failed.

A trial passes where it finds no fault. What it finds is a line, or some of which the first ones say what is wrong. It may also
raise Failed, or be late in a program that it runs.
"""
from __future__ import annotations

import concurrent.futures
import pathlib
import subprocess
import tempfile
import threading
from typing import Callable, Iterable, Optional, Sequence, Union

# What is wrong, in a line or some; nothing where a trial passed.
Fault = Union[None, str, Sequence[str]]
# A trial, by its name.
Trial = tuple[str, Callable[[], Fault]]
# A trial that works in a folder of its own, and may tell something.
FolderTrial = tuple[str, Callable[[pathlib.Path], Optional[str]]]

# Set where a script is ended, so that its threads end too.
STOPPED = threading.Event()


class Failed(Exception):
    """What was not as it had to be."""


def expect(wanted: object, got: object, what: str) -> None:
    if wanted != got:
        raise Failed(f"{what}: wanted {wanted!r}, got {got!r}"[:2000])


def expect_all(wanted: Sequence[object], got: Sequence[object], what: str) -> None:
    """Two long lists are the same. Else the first place is told at which they aren't."""
    for place, (one, other) in enumerate(zip(wanted, got)):
        expect(one, other, f"{what}, at place {place} of {len(wanted)}")
    expect(len(wanted), len(got), f"how many there are of {what}")


def expect_going() -> None:
    if STOPPED.is_set():
        raise Failed("the script was ended")


def last_line(passed: int, failed: int) -> int:
    """Prints how many passed and failed: the status, which is 0 where some were tried and none failed."""
    print(f"{passed} passed, {failed} failed", flush=True)
    return 0 if passed and not failed else 1


class Tally:
    """How many trials passed and failed, of which each that failed has a line."""

    def __init__(self) -> None:
        self.passed = self.failed = 0

    def take(self, is_well: bool, line: str) -> None:
        """A trial, and the line that tells why it failed, if it did."""
        self.passed, self.failed = self.passed + is_well, self.failed + (not is_well)
        if not is_well:
            print(line, flush=True)

    def named(self, name: str, fault: Fault) -> None:
        """A trial of this name, and its fault; where that has several lines, they stand below the name."""
        told = f": {fault}" if isinstance(fault, str) else "".join(f"\n    {line}" for line in fault or ())
        self.take(not fault, f"failed: {name}{told}")

    def status(self) -> int:
        """The last line, and the status that goes with it."""
        return last_line(self.passed, self.failed)


def words_of(fault: BaseException) -> str:
    """What an exception says; all of it where it isn't one of the trials."""
    return str(fault) or "it failed" if isinstance(fault, Failed) else repr(fault)


def fault_of(trial: Callable[[], Fault]) -> Fault:
    """What a trial finds, or why it could not end well."""
    try:
        return trial()
    except Failed as fault:
        return words_of(fault)
    except subprocess.TimeoutExpired as late:
        return f"it did not end within {late.timeout:g} seconds"


def tell(trials: Iterable[Trial], beside: int = 1) -> int:
    """Makes these trials, so many side by side, and prints what came of them: the status."""
    named, tally = list(trials), Tally()
    with concurrent.futures.ThreadPoolExecutor(beside) as pool:
        made = pool.map if beside > 1 else map
        for (name, _), fault in zip(named, made(fault_of, [trial for _, trial in named])):
            tally.named(name, fault)
    return tally.status()


def tell_of_folders(groups: Sequence[Sequence[FolderTrial]]) -> int:
    """Makes one group behind the other, the trials of each side by side, and prints what came of them: the status."""
    tally = Tally()
    with tempfile.TemporaryDirectory(prefix="lives-") as name:
        for trials in groups:
            make_in_folders(trials, pathlib.Path(name), tally)
    return tally.status()


def make_in_folders(trials: Sequence[FolderTrial], folder: pathlib.Path, tally: Tally) -> None:
    """Makes these side by side, each in a folder of its own, and prints what they tell, or why they fail."""
    with concurrent.futures.ThreadPoolExecutor(len(trials)) as pool:
        made = [(name, pool.submit(trial, pathlib.Path(tempfile.mkdtemp(dir=folder)))) for name, trial in trials]
        try:
            for name, one in made:
                fault = one.exception()
                tally.named(name, None if fault is None else words_of(fault))
                if fault is None and one.result():
                    print(f"{name}: {one.result()}", flush=True)
        except BaseException:
            # Those that go on end soon.
            STOPPED.set()
            raise
