"""Compares a program with a plain model, on what is drawn by seeds."""
from __future__ import annotations

import collections
import subprocess
from typing import Callable, Iterable, Optional, Sequence

from lib import lorawan
from lib.arguments import asked_for
from lib.plain_book import Book
from lib.trials import last_line

SECONDS = 60
# Output, standard error and status; no status where it didn't end.
Written = tuple[bytes, bytes, Optional[int]]
# What is tried by a seed: the arguments, the input, what is wanted, its kinds, and what is told beside a difference.
Tried = tuple[Sequence[str], bytes, Written, Iterable[str], str]
# So long a book of many commands may take.
BOOK_SECONDS = 600


def answers_alike(program: str, name: str, plain: Book, lines: Iterable[str], wanted: Sequence[str]) -> bool:
    """Whether a book with the plain one's cap and gap answers the lines as wanted; each answer that differs has a line."""
    arguments = ["book", "--cap", str(plain.cap), "--gap", str(plain.gap)]
    given = "".join(line + "\n" for line in lines)
    try:
        ran = subprocess.run([program, *arguments], input=given, capture_output=True, text=True, timeout=BOOK_SECONDS)
    except subprocess.TimeoutExpired:
        print(f"{name}: it did not end within {BOOK_SECONDS} seconds")
        return False
    written = ran.stdout.splitlines()
    differs = [(i, w, g) for i, (w, g) in enumerate(zip(wanted, written)) if w != g]
    for place, want, got in differs[:10]:
        print(f"{name}, line {place + 1}: wanted '{want}', written '{got}'")
    if len(wanted) != len(written):
        print(f"{name}: {len(wanted)} lines wanted, {len(written)} written")
    refused = int(any(line.split()[0] in ("no", "bad") for line in wanted))
    if (ran.returncode, ran.stderr) != (refused, ""):
        print(f"{name}: wanted status {refused}, ended with {ran.returncode} {ran.stderr}")
        return False
    return wanted == written


def shown(seed: int, wanted: Written, got: Written) -> None:
    """The first differences of a run."""
    for name, want, have in zip(("output", "standard error"), wanted, got):
        lines, written = want.decode().splitlines(), have.decode("utf-8", "backslashreplace").splitlines()
        places = [i for i in range(max(len(lines), len(written))) if lines[i:i + 1] != written[i:i + 1]]
        for i in places[:3]:
            print(f"run {seed}, {name}, line {i + 1}: wanted {lines[i:i + 1]}, written {written[i:i + 1]}")
    if wanted[2] != got[2]:
        print(f"run {seed}: status {wanted[2]} wanted, {got[2]} found")


def ran(program: str, words: Sequence[str], text: bytes) -> Written:
    """What a program writes, and how it ends."""
    try:
        done = subprocess.run([program, *words], input=text, capture_output=True, timeout=SECONDS)
    except subprocess.TimeoutExpired:
        return b"", f"it did not end within {SECONDS} seconds".encode(), None
    return done.stdout, done.stderr, done.returncode


def compared(words: Sequence[str], usual: int, common: str, tried: Callable[[int, bool], Tried]) -> int:
    """Compares a program with a model, and answers the status.

    `tried` says what is tried by a seed, and is told whether it is the last of as many as are usual. Of `common` each kind has to
    come among as many as are usual.
    """
    lorawan.checked()
    asked = asked_for(words, usual)
    if asked is None:
        return 2
    program, count, seed = asked
    kinds: collections.Counter[str] = collections.Counter()
    passed = 0
    for one in range(seed, seed + count):
        arguments, text, wanted, came, note = tried(one, count >= usual and one == seed + count - 1)
        got = ran(program, arguments, text)
        passed += wanted == got
        kinds.update(came)
        if wanted != got:
            shown(one, wanted, got)
            print(f"    {note}")
    print(", ".join(f"{kinds[kind]} {kind}" for kind in sorted(kinds)))
    missing = [kind for kind in common.replace("\n", ";").split(";") if not kinds[kind]] if count >= usual else []
    if missing:
        print(f"never came: {', '.join(missing)}")
    return last_line(passed, count - passed + bool(missing))
