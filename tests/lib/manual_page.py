"""The manual page of airbook, from what the program's own --help tells."""
from __future__ import annotations

import pathlib
import subprocess
from typing import Union

# Where a program stands.
Path = Union[str, pathlib.Path]
COMMANDS = ("toa", "book", "plan", "picture", "recover", "check", "run", "listen", "serve")
SECONDS = 60
FILES = """\
share/doc/airbook/FORMATS.md
  settings, lines, answers, statuses and the names of faults
share/doc/airbook/examples/
  the inputs that the examples name
share/airbook/BUILD
  the version, the toolchain, the commit and the program's sum"""


def help_of(program: Path, *words: str) -> str:
    """What --help tells of a command, or of the program where none is named."""
    ran = subprocess.run([program, *words, "--help"], capture_output=True, text=True, timeout=SECONDS, check=True)
    return ran.stdout.rstrip("\n")


def version_of(program: Path) -> str:
    ran = subprocess.run([program, "--version"], capture_output=True, text=True, timeout=SECONDS, check=True)
    return ran.stdout.split()[1]


def as_it_stands(text: str) -> list[str]:
    """Lines of roff that show a text as it stands."""
    escaped = (line.rstrip().replace("\\", "\\e").replace("-", "\\-").replace("'", "\\(aq") for line in text.splitlines())
    return [".nf", *("\\&" + line if line else "" for line in escaped), ".fi"]


def page(program: Path) -> str:
    """The manual page, in roff."""
    lines = [f'.TH AIRBOOK 1 "" "airbook {version_of(program)}" "User Commands"']
    lines += [".SH NAME", "airbook \\- answers LoRaWAN uplinks in EU868 within the duty cycle"]
    lines += [".SH DESCRIPTION", *as_it_stands(help_of(program))]
    for command in COMMANDS:
        lines += [f".SH AIRBOOK {command.upper()}", *as_it_stands(help_of(program, command))]
    return "\n".join([*lines, ".SH FILES", "Below the folder that it was installed in:", *as_it_stands(FILES)]) + "\n"
