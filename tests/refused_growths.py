#!/usr/bin/env python3
"""Refuses each growth of the program in turn, on cases of cases/, and looks how it ends.

Usage: tests/refused_growths.py [PROGRAM [NAME ..]]      (the program that the gate leaves; the cases of CASES below)

It is for the texts that take the global allocator, which no test can replace: a library that is loaded before the C library
refuses what the program itself asks of `malloc`, `realloc` and `posix_memalign`, by its number. A C compiler makes it, `cc` or
that of CC. Each growth is refused alone, and then with all that follow, until there is none of that number. The program has
to end within SECONDS, by no signal, and
    as with memory   it may always end
    with status 2    want of memory is named on standard error, and what was written is a front of what is written with memory
    with 0 or 1      a line of the output ends in NoMemory, and the status is 1 where a line begins with no or bad, else 0; all of
                     a run's output is what a plain model of the server writes (lib/starved_server.py), in which a number that
                     finds no memory books nothing (texts of a book are compared by refused_books.py). With workers it may
                     also be that the report and the status alone are as with memory, since what a worker finds no memory
                     for is answered last
Prints a line for each run that ends otherwise, and one for each case with the number of its growths and how often each answer
came. A case in which no growth was refused, or in which there is no end of them, has failed, and so has one that finds no memory
though none is refused. The status is 0 where none has failed or ended otherwise, 1 where one has, 2 where nothing could be run.
"""
from __future__ import annotations

import collections
import os
import pathlib
import re
import sys
import tempfile
from typing import Optional, Sequence

sys.dont_write_bytecode = True
from lib.case_files import input_of, words_in
from lib.drawn_settings import said_in
from lib.drawn_turns import SETTINGS
from lib.places import CASES as FOLDER, PROGRAM
from lib.plain_server import Table
from lib.preloaded import library_of
from lib.refusing import ALL, DATAGRAMS, MOST, REFUSING, Ended, Opened, run_on
from lib.serving import free_port
from lib.starved_server import is_followed

# Refuses `server_core` `answer_events` (a run without workers calls it; no test counts them): as `replay`, but for its
# steps and their copies of bytes.
# Refuses `settings_text` `read_settings`: by size.
# Refuses `settings_text` `settings_in`: by size.
# Refuses `settings_text` `document_settings` (a check): by size: two lists.
# Refuses `settings_check` `report_of` (a check): by size: the document, and what each finding says.
# Refuses `settings_check` `Report::text` (a check): by size.
# Refuses `check_texts` `check_text` (a check): by size.
# Refuses `run_lines` `read_all`: by size.
# Refuses `run_lines` `events_from` (of a text in two parts too): by size.
# Refuses `run_lines` `datagram_event` (`listen`): by size.
# Refuses `run_lines` `write_lines_by_threads` (two workers): by size: 0 for fewer than two threads.
# Refuses `run_server` `answers` (workers): by size.
# Refuses `run_server` `Shift::new` (workers): by size.
# Refuses `run_server` `Shift::answer` (workers): by size.
# Refuses `run_server` `Shift::answer_all` (workers): as `Shift::answer` for each event.
# Refuses `run_server` `Shift::close` (workers): by size.
# Refuses `run_server` `answer_with_workers` (workers): by size.
# Refuses `airbook_text` `run_text`: by size.
# Refuses `airbook_text` `read_whole_settings` (`listen`): by size.
# Refuses `airbook_text` `listen_text` (`listen`): by size.
# Refuses `serve_settings` `read_serve_settings` (`serve`): by size.
# Refuses `airbook_text` `read_whole_serve_settings` (`serve`): by size.
# Refuses `serve_turns` `forwarders_of` (`serve`): 1.
# Refuses `serve_turns` `Serving::open` (`serve`): by size.
# Refuses `serve_turns` `Serving::new` (`serve`): by size.

# The name of a case, and more arguments.
Case = tuple[str, str]
CASES = [
    ("run_two_gateways", ""), ("run_two_gateways", "--workers 1"), ("run_two_gateways", "--workers 2"),
    ("run_three_devices_at_once", ""), ("run_three_devices_at_once", "--workers 1"), ("run_payload_in_rx1", "--workers 1"),
    ("run_each_line_again", ""), ("run_each_line_again", "--workers 1"), ("run_queue_refusals", ""),
    ("run_lines_passed_over_and_malformed", ""), ("run_settings_alone", ""), ("run_settings_not_toml", ""),
    ("check_misspelt", ""), ("check_faults_of_each_kind", ""),
    ("book_two_bookings_example", ""), ("book_resume_example", ""), ("plan_earliest_example", ""), ("toa_dr5_12_bytes", ""),
    ("listen", "--workers 1"), ("run_in_two_parts", "--workers 2"), ("serve_bind_to_another_machine", ""),
]
# Where the lists that workers begin with, five for each, find no memory, the thread that runs answers all: so many growths at
# least may be refused, each alone, and nothing of it is seen.
UNSEEN = {("run_three_devices_at_once", "--workers 1"): 9, ("run_payload_in_rx1", "--workers 1"): 9}


def opened(name: str, more: str, folder: pathlib.Path) -> Opened:
    """The arguments of a case, its standard input, and the port that it listens to, if it does."""
    if name != "listen":
        return [*words_in(FOLDER / name / "args"), *more.split()], input_of(FOLDER / name, [], folder), None
    port = free_port()
    (folder / "settings").write_text(SETTINGS)
    words = ["listen", "--port", str(port), "--turns", str(len(DATAGRAMS)), *more.split()]
    return words, os.open(folder / "settings", os.O_RDONLY), port


def run(program: pathlib.Path, library: pathlib.Path, folder: pathlib.Path, case: Case, first: int, last: int) -> tuple[int, Ended]:
    """The same on a case."""
    return run_on(program, library, folder, opened(*case, folder), first, last)


def report_of(out: bytes) -> list[bytes]:
    return [line for line in out.splitlines() if line.startswith((b"gateway ", b"busiest ", b"answered "))]


def asked_in(name: str) -> Optional[tuple[list[Table], list[Table], bytes]]:
    """The gateways, the devices and the events of a case; nothing where it is no run."""
    if name == "listen":
        return *said_in(SETTINGS), "\n".join(DATAGRAMS).encode()
    if not name.startswith("run_"):
        return None
    settings, _, events = (FOLDER / name / "stdin").read_bytes().partition(b"---\n")
    return *said_in(settings.decode()), events


def answer(case: Case, how: Ended, ordinary: Ended) -> Optional[str]:
    """What a run answered, in a word or two; nothing where it had to end otherwise."""
    if how == ordinary:
        return "as with memory"
    if how.status == 2:
        fault = re.search(rb"(?m)^(airbook: NoMemory|error: out of memory)$", how.err)
        return fault[1].decode() if fault and ordinary.out.startswith(how.out) else None
    if how.status not in (0, 1):
        return None
    if re.search(rb"(?m) NoMemory$", how.out):
        asked, is_told = asked_in(case[0]), how.status == int(re.search(rb"(?m)^(no|bad) ", how.out) is not None)
        is_told = is_told and (asked is None or is_followed(*asked, how.out.decode().splitlines()))
        return "a line with NoMemory" if is_told else None
    is_moved = "--workers" in case[1] and how.status == ordinary.status and report_of(how.out) == report_of(ordinary.out)
    return "in another order" if is_moved else None


def too_few(case: Case, unseen: int) -> int:
    """1 where fewer growths that are refused alone go unseen than there have to be, which is told; or else 0."""
    if unseen >= UNSEEN.get(case, 0):
        return 0
    print(f"{' '.join(case)}: {unseen} growths that are refused alone go unseen, {UNSEEN[case]} at least are wanted", flush=True)
    return 1


def refuse_each(
    program: pathlib.Path, library: pathlib.Path, folder: pathlib.Path, case: Case
) -> tuple[int, collections.Counter[str], int]:
    """Refuses each growth of a case: how many there are, how often each answer came, and how many runs ended otherwise."""
    _, ordinary = run(program, library, folder, case, ALL, ALL)
    answers: collections.Counter[str]
    answers, wrong, unseen = collections.Counter(), 0, 0
    if ordinary.status not in (0, 1, 2) or b"NoMemory" in ordinary.err:
        print(f"{' '.join(case)}: with memory: {ordinary}", flush=True)
        return 0, answers, 1
    for number in range(1, MOST):
        for last in (number, ALL):
            count, how = run(program, library, folder, case, number, last)
            if count == 0 and number == 1:
                print(f"{' '.join(case)}: no growth was refused", flush=True)
                return 0, answers, wrong + 1
            if count == 0:
                return number - 1, answers, wrong + too_few(case, unseen)
            found = answer(case, how, ordinary)
            answers[found or "otherwise"] += 1
            unseen += last == number and how == ordinary
            if found is None:
                wrong += 1
                print(f"{' '.join(case)}: growth {number}{' and all after it' * (last == ALL)} refused: {how}", flush=True)
    print(f"{' '.join(case)}: no end of growths after {MOST}", flush=True)
    return MOST, answers, wrong + 1


def main(words: Sequence[str]) -> int:
    program = pathlib.Path(words[0] if words else PROGRAM).resolve()
    if not program.is_file():
        print(f"refused_growths.py: no program at {program}", file=sys.stderr)
        return 2
    unknown = [name for name in words[1:] if name != "listen" and not (FOLDER / name).is_dir()]
    if unknown:
        print(f"refused_growths.py: no case {' '.join(unknown)}", file=sys.stderr)
        return 2
    chosen = [(name, "") for name in words[1:]] or CASES
    wrong = 0
    with tempfile.TemporaryDirectory() as made:
        folder = pathlib.Path(made)
        library = library_of(REFUSING, folder)
        for case in chosen:
            growths, answers, otherwise = refuse_each(program, library, folder, case)
            wrong += otherwise
            counts = ", ".join(f"{count} {found}" for found, count in answers.most_common())
            print(f"{' '.join(case).strip()}: {growths} growths: {counts}", flush=True)
    return 1 if wrong else 0


if __name__ == "__main__":
    sys.exit(main(sys.argv[1:]))
