#!/usr/bin/env python3
"""Installs the proved program, with its manual page, completions for bash, examples and formats, and what it was made of.

Usage: tests/install.py FOLDER      (writes FOLDER/bin/airbook, and below FOLDER/share what PAGES names)

It refuses a program that tests/gate.py did not leave, or that it left of other sources than those that stand here now. BUILD has
the version, the toolchain's line, the commit and the program's sum. The status is 0 where both were written, 1 where there is no
such program, 2 where something can't be read or written.
"""
from __future__ import annotations

import pathlib
import shutil
import subprocess
import sys

sys.dont_write_bytecode = True
import prover
from lib import manual_page, told_version

CRATE = "airbook"
# What is copied below the folder, from where in the repository.
PAGES = {
    "share/doc/airbook/FORMATS.md": "docs/FORMATS.md",
    "share/doc/airbook/RUNNING.md": "docs/RUNNING.md",
    "share/doc/airbook/SERVE.md": "docs/SERVE.md",
    "share/doc/airbook/examples": "examples",
    "share/bash-completion/completions/airbook": "share/airbook.bash",
}


def answer_of(*words: str) -> str:
    """What a command writes; `unknown` where there is none, or it fails."""
    try:
        ran = subprocess.run(words, cwd=prover.TOP, stdin=subprocess.DEVNULL, capture_output=True, text=True)
    except OSError:
        return "unknown"
    return ran.stdout.strip() if ran.returncode == 0 else "unknown"


def commit() -> str:
    """The commit that stands here, and whether files that it has are changed."""
    changed = answer_of("git", "status", "--porcelain", "--untracked-files=no")
    return answer_of("git", "rev-parse", "HEAD") + (" with changes" if changed else "")


def record() -> list[str]:
    return [
        f"version {told_version.told()[0]}",
        f"toolchain {answer_of('rt', 'version')}",
        f"commit {commit()}",
        f"sha256 {prover.program_sum(CRATE)}",
    ]


def put_program(folder: pathlib.Path) -> None:
    """The program, put in the place of another one at once."""
    (folder / "bin").mkdir(parents=True, exist_ok=True)
    made = folder / "bin" / f".{CRATE}.new"
    shutil.copyfile(prover.program(CRATE), made)
    made.chmod(0o755)
    made.rename(folder / "bin" / CRATE)


def put_pages(folder: pathlib.Path) -> None:
    """What is read beside the program."""
    for to, source in PAGES.items():
        (folder / to).parent.mkdir(parents=True, exist_ok=True)
        if (prover.TOP / source).is_dir():
            shutil.copytree(prover.TOP / source, folder / to, dirs_exist_ok=True)
        else:
            shutil.copyfile(prover.TOP / source, folder / to)
    for part in ("share/airbook", "share/man/man1"):
        (folder / part).mkdir(parents=True, exist_ok=True)
    (folder / "share/airbook/BUILD").write_text("\n".join(record()) + "\n")
    (folder / "share/man/man1/airbook.1").write_text(manual_page.page(prover.program(CRATE)))


def main() -> int:
    if len(sys.argv) != 2:
        print(__doc__.strip(), file=sys.stderr)
        return 2
    if not prover.is_proved(CRATE) or not prover.is_gates_program(CRATE):
        print("install.py: the gate has not proved this program as the sources stand: run make test first", file=sys.stderr)
        return 1
    try:
        put_pages(pathlib.Path(sys.argv[1]))
        put_program(pathlib.Path(sys.argv[1]))
    except (OSError, subprocess.SubprocessError, IndexError) as why:
        print(f"install.py: {why}", file=sys.stderr)
        return 2
    return 0


if __name__ == "__main__":
    sys.exit(main())
