#!/usr/bin/env python3
"""Which call of the libraries may find no memory, how often it allocates, and which test refuses that: compares the table in
docs/MEMORY.md with the sources, or writes it.

Usage: tests/growths.py [--write]

Such a call is a `pub fn`, or a function of a public trait, that a library passes on from its root and whose result names
NoMemory or AllocError, or a type of the repository that does: an enum with that variant, a struct with such a field, and a
fault or a cause that holds one of these; and the calls of UNNAMED, which name none. Crates of tests are left out. What is told
of a call stands above the test that refuses its allocations, as `Refuses `gateway_book` `GatewayBook::load` (over a tree): ..`,
in a crate of tests or in a script of tests/; of a call that takes nothing it stands in NOTHING. Each call has to be told of once,
and nothing else. The last line is 'N passed, M failed', over the calls and the table; status 0 where none failed, 1 where one did,
2 where the page can't be read or written.
"""
from __future__ import annotations

import pathlib
import re
import sys
from typing import Iterable, Iterator, Sequence

sys.dont_write_bytecode = True
from lib.trials import last_line
from lib.written_pages import WrittenPart

TOP = pathlib.Path(__file__).resolve().parent.parent
PAGE = TOP / "docs" / "MEMORY.md"
FOR_TESTS = {"worked_inputs", "refusing_alloc", "test_asserts"}
WANT = r"\b(NoMemory|AllocError)\b"
BEGIN = "<!-- allocations: written by tests/growths.py -->"
TOLD = re.compile(r"Refuses `(\w+)` `([\w:]+)`(?: \((.+?)\))?: (.+)\.$")
COMMENT = re.compile(r"^(?://|#) ")
# A call: its crate, and its name.
Call = tuple[str, str]
# What is told of each call: its allocations, and what refuses them.
Told = dict[Call, tuple[str, str]]
# They answer out of memory by handing back what was given, within what another call's fault is told in, or go on without it.
UNNAMED = {
    ("server_workers", "Worked::new"), ("server_station", "Station::answer"), ("server_workers", "work"),
    ("run_lines", "write_lines_by_threads"),
}
# They take none, and no test refuses it: the fault is that of another call, or is handed on, or comes of a type that has it.
NOTHING = {
    ("uplink_gather", "Gather::place"): "0: its fault is that of `hear`, of which it gives the first three",
    ("server_core", "queued_line"): "0: it hands NoMemory on",
    ("server_core", "heard_line"): "0: it hands NoMemory on",
    ("book_texts", "toa_text"): "0: only `Write` comes",
    ("noted_texts", "noted_book"): "0 beside `book_text`: a note that finds none is left out",
    ("noted_texts", "noted_plan"): "0 beside `plan_text`: a note that finds none is left out",
}


def braced(text: str, at: int) -> str:
    """What stands between the next brace and the one that closes it."""
    start = text.index("{", at)
    depth = 0
    for place in range(start, len(text)):
        depth += {"{": 1, "}": -1}.get(text[place], 0)
        if depth == 0:
            return text[start + 1:place]
    return text[start + 1:]


def sources() -> Iterator[tuple[str, str]]:
    """Each source of a library that is no crate of tests, by its crate, without comments."""
    for root in sorted(TOP.glob("crates/*/src/lib.rt")):
        crate = root.parent.parent.name
        if not crate.endswith("_tests") and crate not in FOR_TESTS:
            for path in sorted(root.parent.rglob("*.rt")):
                yield crate, re.sub(r"//[^\n]*", "", path.read_text())


def naming_types(texts: Iterable[str]) -> set[str]:
    """The public types that name out of memory."""
    bodies = {}
    for text in texts:
        for made in re.finditer(r"(?m)^pub (?:enum|struct) (\w+)[^;{]*\{", text):
            bodies[made[1]] = braced(text, made.start())
    named = {name for name, body in bodies.items() if re.search(WANT, body)}
    faults = {name for name in bodies if name.endswith(("Fault", "Cause"))} - named
    return named | {name for name in faults if named & set(re.findall(r"\w+", bodies[name]))}


def passed_on(text: str) -> set[str]:
    """The names that a library's root passes on."""
    return set(re.findall(r"\w+", " ".join(re.findall(r"(?s)\bpub use (.*?);", text))))


def result_of(signature: str) -> str:
    """What a function answers; nothing where it answers nothing."""
    for rest in reversed(re.split(r"\) ->", signature)[1:]):
        if rest.count("(") == rest.count(")"):
            return rest
    return ""


def functions_in(text: str) -> Iterator[tuple[str, str]]:
    """The public functions of a source: the name of each, with its type's or trait's, and what it answers."""
    owner, is_trait = "", False
    for found in re.finditer(r"(?m)^(?:unsafe )?(impl|(?:pub )?trait)\b([^{;]*)\{|^( *)(pub )?(?:const )?fn (\w+)", text):
        if found[1]:
            is_trait = found[1] != "impl"
            head = re.sub(r"^<.*?> (?=\w)", "", re.sub(r"\s+", " ", found[2]).strip())
            owner = "" if " for " in head else re.match(r"\w+", head)[0]
        elif found[4] or (is_trait and found[3] and owner):
            # A semicolon within brackets stands before the length of an array.
            signature = re.split(r"\b(?:where|requires|ensures)\b|\{|;(?! \w+\])", text[found.end():], maxsplit=1)[0]
            name = f"{owner}::{found[5]}" if found[3] else found[5]
            yield name, result_of(re.sub(r"\s+", " ", signature))


def calls() -> Iterator[Call]:
    """The crate and the name of each call that has to have a row."""
    texts = list(sources())
    named = naming_types([text for _, text in texts])
    roots = {crate: passed_on((TOP / "crates" / crate / "src/lib.rt").read_text()) for crate, _ in texts}
    for crate, text in texts:
        for name, result in functions_in(text):
            is_named = re.search(WANT, result) or named & set(re.findall(r"\w+", result))
            if name.split("::")[0] in roots[crate] and is_named:
                yield crate, name


def paragraphs(lines: Sequence[str]) -> Iterator[tuple[int, str]]:
    """What is told of a call in comments, each as one text, with the number of the line behind it."""
    text = None
    for number, line in enumerate([*lines, ""]):
        is_comment = COMMENT.match(line)
        begins = is_comment and line[is_comment.end() :].startswith("Refuses `")
        if text is not None and (begins or not is_comment):
            yield number, text
            text = None
        if begins:
            text = line[is_comment.end() :]
        elif text is not None:
            text += " " + line[is_comment.end() :]


def told_in(path: pathlib.Path) -> Iterator[tuple[Call, str, str]]:
    """What a file tells of calls: of each its allocations, and what refuses them."""
    lines = path.read_text(encoding="utf-8").splitlines()
    is_script = path.suffix == ".py"
    for number, text in paragraphs(lines):
        told = TOLD.match(text)
        if not told:
            raise ValueError(f"{path}: {text}")
        crate, call, note, allocations = told.groups()
        if is_script:
            by = f"`tests/{path.name}`"
        else:
            test = next(found[1] for line in lines[number:] if (found := re.match(r"fn (\w+)\(", line)))
            by = f"`{path.relative_to(TOP).parts[1]}`: `{test}`"
        yield (crate, call), allocations, by + (f" ({note})" if note else "")


def all_told() -> tuple[Told, list[Call]]:
    """What is told of each call, and what is told of twice."""
    twice: list[Call]
    found, twice = {call: (told, "") for call, told in NOTHING.items()}, []
    for path in [*sorted(TOP.glob("crates/*_tests/src/**/*.rt")), *sorted(TOP.glob("tests/*.py"))]:
        if path.name != pathlib.Path(__file__).name:
            for call, allocations, by in told_in(path):
                twice += [call] if call in found else []
                found[call] = allocations, by
    return found, twice


def table(told: Told) -> list[str]:
    crates = [line.split(":")[0] for line in (TOP / "crates.txt").read_text(encoding="utf-8").splitlines()]
    rows = sorted(told.items(), key=lambda row: (crates.index(row[0][0]), row[0][1]))
    lines = [f"| `{crate}` | `{call}` | {allocations} | {by} |" for (crate, call), (allocations, by) in rows]
    return ["", "| Crate | Call | Allocations | Refused by |", "|---|---|---|---|", *lines]


def main() -> int:
    if sys.argv[1:] not in ([], ["--write"]):
        print(__doc__.strip(), file=sys.stderr)
        return 2
    wanted = set(calls()) | UNNAMED
    try:
        told, twice = all_told()
        if sys.argv[1:]:
            WrittenPart(PAGE, BEGIN).write(table(told))
        same = WrittenPart(PAGE, BEGIN).holds(table(told))
    except (OSError, ValueError, StopIteration) as why:
        print(f"growths.py: {why}", file=sys.stderr)
        return 2
    for crate, call in sorted(wanted - set(told)):
        print(f"no test says that it refuses the allocations of {call} of {crate}")
    for crate, call in sorted(set(told) - wanted):
        print(f"a test speaks of {call} of {crate}, which can't answer out of memory")
    for crate, call in twice:
        print(f"two tests speak of {call} of {crate}")
    if not same:
        print("docs/MEMORY.md has another table than the sources: tests/growths.py --write")
    return last_line(len(wanted & set(told)) + same, len(wanted ^ set(told)) + len(twice) + (not same))


if __name__ == "__main__":
    sys.exit(main())
