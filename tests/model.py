#!/usr/bin/env python3
"""Lists the definitions that contracts speak of, from the comments in the sources: compares docs/MODEL.md with them, or writes it.

Usage: tests/model.py [--write | --bare]

A row has a definition that a contract in src/ names by a `ghost use`, also of another crate, and the comment above it in its file
of specs/. Above a file's rows stands the comment at the file's head. Crates without such definitions have no section, and crates
of tests none. With --bare the definitions are listed that have no comment. Lemmas are left out. Other text of the page is written
by hand. The last line is 'N passed, M failed'; status 0 where the page is that of the sources, 1 where it isn't, 2 where it can't
be told.
"""
from __future__ import annotations

import pathlib
import re
import sys
from typing import Iterable, Sequence

sys.dont_write_bytecode = True
from lib.written_pages import WrittenPart

TOP = pathlib.Path(__file__).resolve().parent.parent
PAGE = TOP / "docs" / "MODEL.md"
BEGIN = "<!-- definitions: written by tests/model.py -->"
# A definition, which says its kind; a lemma says none.
KIND = "(?:abbrev|unfoldable|opaque|record|data) "
MADE = re.compile(rf"(?:{KIND}pub |pub {KIND})([^\s(){{}},.;:]+)(?=[\s:({{])")
NAMED = re.compile(r"ghost use Rattle\.(\w+)\.specs\.(\w+)(?:\.\{([^}]*)\}| as (\w+))")
OF_TESTS = re.compile(r"_tests$|^example_|^worked_|^test_|^refusing_")
# By its crate and its name the definitions of a file of specs/ that contracts name.
Named = dict[tuple[str, str], set[str]]


def product() -> list[str]:
    """The crates in the order of crates.txt, but for those of tests."""
    lines = (TOP / "crates.txt").read_text(encoding="utf-8").splitlines()
    crates = [line.split(":")[0] for line in lines if ":" in line and not line.startswith("#")]
    return [crate for crate in crates if not OF_TESTS.search(crate)]


def named_by_contracts() -> Named:
    """For each file of specs/, as its crate and its name, the definitions that a contract names."""
    found: Named = {}
    for path in (path for crate in product() for path in (TOP / "crates" / crate / "src").rglob("*.rt")):
        text = path.read_text(encoding="utf-8")
        for crate, file, names, other in NAMED.findall(text):
            told = names.split(",") if names else re.findall(rf"\b{other}\.([\w-]+)", text)
            found.setdefault((crate, file), set()).update(name.split(" as ")[0].strip() for name in told)
    return found


def sentence(lines: Iterable[str]) -> str:
    """A comment as a cell of a table."""
    return " ".join(line.lstrip("- ").strip() for line in lines).replace("|", "\\|")


def comment_above(lines: Sequence[str], at: int) -> str:
    first = at
    while first and lines[first - 1].startswith("--"):
        first -= 1
    return sentence(lines[first:at])


def definitions(path: pathlib.Path) -> tuple[str, list[tuple[str, str]]]:
    """The comment at the head of a file, and each public definition with its comment, in order."""
    lines = path.read_text(encoding="utf-8").splitlines()
    begins = next((at for at, line in enumerate(lines) if line and not line.startswith("use ")), len(lines))
    ends = next((at for at in range(begins, len(lines)) if not lines[at].startswith("--")), len(lines))
    head = sentence(lines[begins:ends]) if ends < len(lines) and not lines[ends] else ""
    made = [(found[1], comment_above(lines, at)) for at, line in enumerate(lines) if (found := MADE.match(line))]
    return head, made


def sections(named: Named) -> tuple[list[str], list[str]]:
    """The lines of each crate's section, and the definitions without a comment."""
    lines, bare = [], []
    for crate in product():
        files = sorted((TOP / "crates" / crate / "specs").glob("*.antt"))
        told = [(path, named[crate, path.stem]) for path in files if (crate, path.stem) in named]
        lines += ["", f"## {crate}"] if told else []
        for path, wanted in told:
            head, made = definitions(path)
            rows = [(name, comment) for name, comment in made if name in wanted]
            bare += [f"crates/{crate}/specs/{path.name}: {name}" for name, comment in rows if not comment]
            if rows:
                lines += ["", f"`{path.name}`" + (f": {head}" if head else ""), "", "| Definition | What it says |", "|---|---|"]
                lines += [f"| `{name}` | {comment} |" for name, comment in rows]
    return lines, bare


def main() -> int:
    if sys.argv[1:] not in ([], ["--write"], ["--bare"]):
        print(__doc__.strip(), file=sys.stderr)
        return 2
    try:
        part, (lines, bare) = WrittenPart(PAGE, BEGIN), sections(named_by_contracts())
    except (OSError, ValueError) as why:
        print(f"model.py: {why}", file=sys.stderr)
        return 2
    if "--bare" in sys.argv:
        print("\n".join(bare))
        return 0
    differs = "docs/MODEL.md has other definitions than the sources: tests/model.py --write"
    return part.status(lines, "--write" in sys.argv, differs)


if __name__ == "__main__":
    sys.exit(main())
