#!/usr/bin/env python3
"""Tries edits, which are wrong changes of the sources: the prover has to refuse each.

Usage: tests/edits.py [--anew] FOLDER [CRATE ..]
       (FOLDER: one whose folders are named after crates, as edits or mutants; --anew: tries all. Without it an edit that an
       earlier run on this machine saw refused, over the same files, is told so and not tried: tests/kept_verdicts.py)

What an edit is says tests/edit_files.py. It is refused only if the function that it names isn't proved, for a goal of its
own; of a changed statement, if the fact that it names isn't. Without the edit both are proved, as tests/gate.py has shown, which
has to have passed here on the crates as they stand; an edit is checked over the libraries that it left in crates/*/out/rlib.

Several edits go into one check, since a body is proved against the clauses of what it calls and not against their bodies: those
of one crate, each within a function of its own, none of which may call another. All others are tried alone, and so is what was
not refused in company. Each edit has a line with the function and the goal that stays open; the last line is 'N passed, M
failed'. The status is 0 where none failed, 1 where one did, 2 where nothing could be run.
"""
from __future__ import annotations

import concurrent.futures
import pathlib
import resource
import shutil
import subprocess
import sys
import tempfile
import time
from typing import Callable, Collection, Iterable, Optional, Sequence

sys.dont_write_bytecode = True
import antt_source
import edit_files
import machine
import prover
import rattle_source
from edit_files import BadEdit, Edit
from edit_verdicts import Kind, Said, Verdict
from kept_verdicts import KeptVerdicts, cache_folder

MOST_AT_A_TIME = 12
BYTES_OF_A_CHECK = 2_200_000_000
SECONDS = 1_200
# Edits by their crates.
EditsOfCrates = dict[str, list[Edit]]


def folder_of(crate: str) -> pathlib.Path:
    return prover.TOP / "crates" / crate


def stays_within(edit: Edit, functions: dict[str, rattle_source.Function]) -> bool:
    """Whether an edit changes nothing outside of the function that it names."""
    place = functions.get(edit.only)
    if place is None or edit.fact or edit.files() != {place.file}:
        return False
    lines = (folder_of(edit.crate) / place.file).read_text(encoding="utf-8").splitlines(keepends=True)
    own = "".join(lines[place.first : place.last + 1])
    whole = "".join(lines)
    return all(own.count(old) == whole.count(old) <= 1 for _, old, _ in edit.pairs)


class Batches:
    """Which edits of a crate go into one check."""

    def __init__(self, crate: str) -> None:
        self.functions = rattle_source.functions_of(folder_of(crate))
        self.reached = rattle_source.reached_from(self.functions)
        self.words = antt_source.all_of(folder_of(crate))

    def may_meet(self, one: Edit, other: Edit) -> bool:
        """Whether neither of two edits within functions turns what the other's function calls."""
        reached = self.reached
        return one.only != other.only and other.only not in reached[one.only] and one.only not in reached[other.only]

    def may_be_told_apart(self, one: Edit, other: Edit) -> bool:
        """Whether neither of two changes of statements turns what the other's fact rests on."""
        pairs = ((one, other), (other, one))
        return not any(turned(changed) & antt_source.rests_on(told.fact[1], self.words) for changed, told in pairs)

    def of(self, edits: Sequence[Edit]) -> list[list[Edit]]:
        within = [it for it in edits if stays_within(it, self.functions)]
        told = [it for it in edits if it.fact and None not in turned(it)]
        alone = [[it] for it in edits if it not in within and it not in told]
        return batched(within, self.may_meet) + batched(told, self.may_be_told_apart) + alone


def turned(edit: Edit) -> set[Optional[str]]:
    """The definitions that an edit changes in specs/; None among them where one can't be told."""
    texts = {path: edit_files.text_of(folder_of(edit.crate), path) for path in edit.files() if path.startswith("specs/")}
    return {antt_source.defined_at(texts[path], old) for path, old, _ in edit.pairs if path in texts} - {""}


def batched(edits: Iterable[Edit], may_meet: Callable[[Edit, Edit], bool]) -> list[list[Edit]]:
    """These edits in as few groups as come of it that any two of a group may meet."""
    batches: list[list[Edit]] = []
    for edit in edits:
        fits = (it for it in batches if len(it) < MOST_AT_A_TIME and all(may_meet(edit, other) for other in it))
        batch = next(fits, None)
        if batch is None:
            batches.append([edit])
        else:
            batch.append(edit)
    return batches


def check(crate: str, edits: Sequence[Edit], kept: str) -> Said:
    """What the prover says of a copy of a crate with these edits in it, over what earlier checks of the crate kept."""
    texts = edit_files.applied(edits, folder_of(crate))
    with tempfile.TemporaryDirectory(prefix="edits-") as room:
        for part in prover.PARTS:
            if (folder_of(crate) / part).is_dir():
                shutil.copytree(folder_of(crate) / part, pathlib.Path(room, part))
        for path, text in texts.items():
            pathlib.Path(room, path).write_text(text, encoding="utf-8")
        for edit in edits:
            if edit.fact:
                read_with(edit, room)
        root = "src/main.rt" if pathlib.Path(room, "src/main.rt").exists() else "src/lib.rt"
        words = prover.check(crate, root, prover.crates()[crate])
        words += ["--incremental", kept, *(it for edit in edits for it in ("--only", edit.only))]
        ran = subprocess.run(
            words, cwd=room, stdin=subprocess.DEVNULL, stdout=subprocess.PIPE, stderr=subprocess.STDOUT, text=True,
            errors="replace", timeout=SECONDS,
        )
    return Said(ran.stdout.splitlines(), ran.returncode, set(texts))


def read_with(edit: Edit, room: str) -> None:
    """Has the lemma file of an edit's fact read with the proof of the function that it names."""
    file, name = edit.fact
    path = pathlib.Path(room, "proofs", *edit.only.split("::"), "Answers.antt")
    if not path.is_file():
        raise BadEdit(f"{edit.only} has no file Answers.antt, so no fact can be read with its proof")
    line = f"use Rattle.{edit.crate}.proofs.{file.replace('/', '.')}.{{{name}}}\n"
    path.write_text(line + path.read_text(encoding="utf-8"), encoding="utf-8")


def verdicts(crate: str, edits: Sequence[Edit], kept: str) -> dict[Edit, Verdict]:
    """What becomes of edits that go into one check, and of each alone where that check refuses it not."""
    try:
        said = check(crate, edits, kept)
        told = {edit: said.of(edit) for edit in edits}
    except BadEdit as why:
        told = dict.fromkeys(edits, Verdict(Kind.BAD, str(why)))
    except subprocess.TimeoutExpired:
        told = dict.fromkeys(edits, Verdict(Kind.UNTOLD, f"no end within {SECONDS} s"))
    except OSError as fault:
        told = dict.fromkeys(edits, Verdict(Kind.UNTOLD, str(fault)))
    if len(edits) > 1:
        for edit in edits:
            if told[edit].kind is not Kind.REFUSED:
                told |= verdicts(crate, [edit], kept)
    return told


def gathered(folder: pathlib.Path, crates: Collection[str]) -> tuple[EditsOfCrates, dict[str, Verdict]]:
    """The edits of these crates, by crate, and what is said of those that can't be read."""
    found: EditsOfCrates
    bad: dict[str, Verdict]
    found, bad = {}, {}
    for path in sorted(folder.glob("*/*")):
        if path.parent.name in crates:
            try:
                if path.suffix != ".edit":
                    raise BadEdit("the name of an edit ends in .edit")
                found.setdefault(path.parent.name, []).append(edit_files.read(path))
            except (BadEdit, OSError, UnicodeDecodeError) as why:
                bad[f"{path.parent.name}/{path.stem}"] = Verdict(Kind.BAD, str(why))
    return found, bad


def lanes() -> int:
    """How many checks go on side by side: one a processor, as far as memory holds them."""
    return max(1, min(machine.processors(), machine.free_memory() // BYTES_OF_A_CHECK))


class Progress:
    """Tells what became of each edit as it is known."""

    def __init__(self, count: int) -> None:
        self.told: dict[str, Verdict]
        self.count, self.told, self.kept, self.started = count, {}, 0, time.monotonic()

    def tell(self, label: str, verdict: Verdict, of: str = "") -> None:
        self.told[label] = verdict
        minutes = (time.monotonic() - self.started) / 60
        print(f"[{len(self.told)} of {self.count}, {minutes:.1f} min] {label}: {verdict.kind.value}{of}: {verdict.goal}", flush=True)

    def tell_kept(self, label: str, verdict: Verdict) -> None:
        self.kept += 1
        self.tell(label, verdict, " by an earlier run")

    def failed(self) -> dict[str, Verdict]:
        return {label: it for label, it in self.told.items() if it.kind is not Kind.REFUSED}


def tried_of(crate: str, edits: Sequence[Edit], progress: Progress, known: KeptVerdicts) -> None:
    """Tries the edits of a crate, one check after another: what is proved for one need not be proved for the next, nor what the
    crate's own checks (rt check) have left."""
    with tempfile.TemporaryDirectory(prefix="edits-kept-") as kept:
        left = folder_of(crate) / "out" / "incremental"
        if left.is_dir():
            shutil.copytree(left, kept, dirs_exist_ok=True)
        for batch in Batches(crate).of(edits):
            for edit, verdict in verdicts(crate, batch, kept).items():
                known.keep(edit, verdict)
                progress.tell(edit.label, verdict)


def new_ones(found: EditsOfCrates, known: KeptVerdicts, progress: Progress) -> EditsOfCrates:
    """The edits of which no earlier run has said that they are refused, by crate; the others are told."""
    new: EditsOfCrates = {}
    for crate, edits in found.items():
        for edit in edits:
            verdict = known.of(edit)
            if verdict is None:
                new.setdefault(crate, []).append(edit)
            else:
                progress.tell_kept(edit.label, verdict)
    return new


def tried(found: EditsOfCrates, bad: dict[str, Verdict], known: KeptVerdicts) -> Progress:
    """Tries all edits of which nothing is known, crates side by side, first those that take longest."""
    progress = Progress(sum(map(len, found.values())) + len(bad))
    for label, verdict in bad.items():
        progress.tell(label, verdict)
    new = new_ones(found, known, progress)
    crates = sorted(new, key=lambda it: -len(new[it]) * size_of(it))
    with concurrent.futures.ThreadPoolExecutor(lanes()) as pool:
        for done in [pool.submit(tried_of, crate, new[crate], progress, known) for crate in crates]:
            done.result()
    return progress


def size_of(crate: str) -> int:
    return sum(path.stat().st_size for part in prover.PARTS for path in (folder_of(crate) / part).rglob("*"))


def report(progress: Progress) -> int:
    used = resource.getrusage(resource.RUSAGE_CHILDREN)
    minutes = (time.monotonic() - progress.started) / 60
    failed = progress.failed()
    print(f"{minutes:.1f} minutes, {(used.ru_utime + used.ru_stime) / 60:.1f} processor minutes; {progress.kept} told by earlier runs")
    for label, verdict in failed.items():
        print(f"{label}: {verdict.kind.value}: {verdict.goal}")
    print(f"{len(progress.told) - len(failed)} passed, {len(failed)} failed")
    return 1 if failed or not progress.told else 0


def main(words: list[str]) -> int:
    is_anew = words[:1] == ["--anew"]
    words = words[is_anew:]
    if not words or any(word.startswith("-") for word in words):
        print(__doc__.strip(), file=sys.stderr)
        return 2
    if not shutil.which("rt"):
        print("edits.py: there is no command rt: install the toolchain that README.md names", file=sys.stderr)
        return 2
    folder = prover.TOP / words[0]
    crates = words[1:] or sorted(path.name for path in folder.glob("*") if path.is_dir())
    unknown = sorted(set(crates) - set(prover.crates()))
    if not folder.is_dir() or unknown:
        print(f"edits.py: there is no {words[0]} with edits of {' '.join(unknown) or 'a crate'}", file=sys.stderr)
        return 2
    unproved = [crate for crate in crates if not prover.is_proved(crate)]
    if unproved:
        print(f"edits.py: the gate has not proved {', '.join(unproved)} as they stand: run tests/gate.py first", file=sys.stderr)
        return 2
    return report(tried(*gathered(folder, crates), KeptVerdicts(cache_folder() / folder.name, not is_anew)))


if __name__ == "__main__":
    sys.exit(main(sys.argv[1:]))
