#!/usr/bin/env python3
"""Runs the commands of README.md and docs/RUNNING.md on the program, and compares what they write with what the page says.

Usage: pages.py PROGRAM

A command is a line of a page that begins with four blanks and `$ `, with the lines behind it that begin with eight blanks. What
it is to write is the lines between it and the next. Those of one block are run by one bash, in a folder with examples/ and
with the files that the pages speak of, `log` and `lines.txt`. Where nothing is to be written the status has to be 0. Port 1700
is another one here. What names `forwarder.py` is left to tests/forwarder.py. Each block ends within a minute, or is stopped. A
failing one has a line; the last line is 'N passed, M failed'. The status is 0 where none failed, 1 where one did, 2 where
nothing could be run.
"""
from __future__ import annotations

import os
import pathlib
import re
import signal
import subprocess
import sys
import tempfile
from typing import Any, Iterable, Iterator, Optional

sys.dont_write_bytecode = True
from lib.arguments import asked_by
from lib.places import TOP
from lib.serving import free_port
from lib.trials import Tally

PAGES = ["README.md", "docs/RUNNING.md"]
SECONDS = 60
# What examples/forwarder.py would log of examples/two-gateways.txt.
LOG = """> hear 1 5000000 868100000 5 55 -90 1000 80da1b012600070009c89141
> hear 2 9000000 868100000 5 55 -80 1100 80da1b012600070009c89141
opened 1
joined 1 2
> tick 1 5600001
> tick 2 9599901
> pass 201001
floor 1 5600001
floor 2 9599901
send 1 2 RX1 10000000 868100000 5 12
frame 1 60da1b0126200000240347ca
"""
LINES = "book 1 10000000 868100000 5 12\nbook 2 10000000 868100000 5 12\n"
# The socket is waited for, as someone who types would do.
AWAIT = "for i in $(seq 200); do grep -q ':{:04X} ' /proc/net/udp && break; sleep 0.05; done"


def blocks(text: str) -> Iterator[tuple[list[str], list[str]]]:
    """The commands that stand together, and all that they are to write."""
    for block in re.split(r"\n(?!    )", text):
        commands: list[str]
        wanted: list[str]
        commands, wanted = [], []
        for line in block.split("\n"):
            if line.startswith("    $ "):
                commands.append(line[6:])
            elif line.startswith("        ") and commands and not wanted:
                commands[-1] += "\n" + line.strip()
            elif line.startswith("    ") and commands:
                wanted.append(line[4:])
        if commands and not any("forwarder.py" in command for command in commands):
            yield commands, wanted


def script(commands: Iterable[str], port: int) -> Iterator[str]:
    for command in commands:
        yield command.replace("1700", str(port))
        if command.endswith(" &"):
            yield AWAIT.format(port)
    yield "status=$?; wait; exit $status"


def ran(text: str, folder: pathlib.Path, path: str) -> tuple[Optional[list[str]], Optional[int]]:
    """What a bash writes, and its status; None where it didn't end."""
    pipes: dict[str, Any] = {"stdin": subprocess.DEVNULL, "stdout": subprocess.PIPE, "stderr": subprocess.DEVNULL, "text": True}
    child = subprocess.Popen(["bash", "-c", text], cwd=folder, env=os.environ | {"PATH": path}, start_new_session=True, **pipes)
    try:
        return child.communicate(timeout=SECONDS)[0].splitlines(), child.returncode
    except subprocess.TimeoutExpired:
        os.killpg(child.pid, signal.SIGKILL)
        child.communicate()
        return None, None


def main() -> int:
    program, _ = asked_by("usage: pages.py PROGRAM")
    tally = Tally()
    with tempfile.TemporaryDirectory(prefix="pages-") as room:
        folder, tools = pathlib.Path(room, "work"), pathlib.Path(room, "bin")
        folder.mkdir()
        tools.mkdir()
        (tools / "airbook").symlink_to(program)
        (folder / "examples").symlink_to(TOP / "examples")
        (folder / "log").write_text(LOG)
        (folder / "lines.txt").write_text(LINES)
        port = free_port()
        for page in PAGES:
            for commands, wanted in blocks((TOP / page).read_text(encoding="utf-8")):
                got, status = ran("\n".join(script(commands, port)), folder, f"{tools}:{os.environ['PATH']}")
                is_well = got == wanted and (wanted or status == 0)
                fault = None if is_well else f"wanted {wanted}, got {got} and status {status}"
                tally.named(f"{page}: {commands[0]}", fault)
    return tally.status()


if __name__ == "__main__":
    sys.exit(main())
