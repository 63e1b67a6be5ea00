"""The words with which the prover checks one crate over the libraries that the gate left in crates/*/out/rlib.

For the scripts of this repository; it needs the toolchain's command rt.
"""
from __future__ import annotations

import hashlib
import pathlib
import shutil
import sys
from typing import Iterable, Sequence

TOP = pathlib.Path(__file__).resolve().parent.parent
PARTS = ("src", "specs", "proofs")
KIT = pathlib.Path(shutil.which("rt") or "rt").resolve().parent.parent
# Crates by their names, each with the libraries that it uses.
Uses = dict[str, list[str]]


def crates(top: pathlib.Path = TOP) -> Uses:
    """The crates of crates.txt, each with the libraries that it uses, of the repository and of the toolchain."""
    lines = [line.split("#")[0] for line in (top / "crates.txt").read_text().splitlines()]
    named = [line.split(":", 1) for line in lines if ":" in line]
    return {name.split()[0]: words.split() for name, words in named}


def stands_on(top: pathlib.Path = TOP) -> Uses:
    """The crates of crates.txt, each with those of the repository that it stands on."""
    named = crates(top)
    return {name: [word for word in words if word in named] for name, words in named.items()}


def below(libraries: Iterable[str], uses: Uses) -> list[str]:
    """All crates of the repository among these libraries, and those that they stand on."""
    found, waiting = set(), list(libraries)
    while waiting:
        name = waiting.pop()
        if name in uses and name not in found:
            found.add(name)
            waiting += uses[name]
    return sorted(found)


def sum_of(crate: str) -> str:
    """A sum of all that the proof of a crate rests on: its files and those of the crates below it, and the toolchain."""
    uses = crates()
    found = hashlib.sha256((KIT / "WHAT").read_bytes())
    for name in below([crate], uses):
        found.update(repr((name, uses[name])).encode())
        for part in PARTS:
            for path in sorted(filter(pathlib.Path.is_file, (TOP / "crates" / name / part).rglob("*"))):
                found.update(repr((path.relative_to(TOP).as_posix(), path.read_bytes())).encode())
    return found.hexdigest()


def sum_file(crate: str) -> pathlib.Path:
    """Where tests/gate.py keeps that sum once the gate has proved the crate."""
    return TOP / "crates" / crate / "out" / "proved"


def is_proved(crate: str) -> bool:
    """Whether the gate has proved the crate as it stands here."""
    return sum_file(crate).is_file() and sum_file(crate).read_text() == sum_of(crate)


def program(crate: str) -> pathlib.Path:
    """Where the gate leaves the program of a crate, as LLVM builds it."""
    return TOP / "crates" / crate / "out" / crate


def program_sum(crate: str) -> str:
    return hashlib.sha256(program(crate).read_bytes()).hexdigest()


def program_sum_file(crate: str) -> pathlib.Path:
    """Where tests/gate.py keeps the sum of that program."""
    return TOP / "crates" / crate / "out" / "program_sum"


def is_gates_program(crate: str) -> bool:
    """Whether the program that stands there is the one that the gate left."""
    kept = program_sum_file(crate)
    return kept.is_file() and program(crate).is_file() and kept.read_text() == program_sum(crate)


def rlib(name: str, uses: Uses) -> pathlib.Path:
    folder = TOP / "crates" / name / "out" / "rlib" if name in uses else KIT / "rlibs"
    return folder / f"{name}.rlib"


def check(crate: str, root: str, libraries: Sequence[str]) -> list[str]:
    """The words that check a crate with this root file over these libraries; SystemExit with 2 where one isn't built."""
    uses = crates()
    own = below(libraries, uses)
    lacking = [name for name in own if not rlib(name, uses).is_dir()]
    if lacking:
        print(f"not built: {', '.join(lacking)}; run the gate (rt ci) here first", file=sys.stderr)
        raise SystemExit(2)
    words = [KIT / "bin" / "rattle", "check", "--crate-name", crate, root]
    for name in ["std", *libraries]:
        words += ["--extern", f"{name}={rlib(name, uses)}"]
    for folder in [KIT / "rlibs", *(rlib(name, uses).parent for name in own)]:
        words += ["-L", f"dependency={folder}"]
    words += ["--antt-project", KIT / "rattle" / "logic" / "antt-project.json", "--logic-built", KIT / "logic_built"]
    return [*map(str, words), "--jobs", "1"]
