#!/usr/bin/env python3
"""Which changes of statements are tried, law by law: compares the table in docs/PROOFS.md with the edits, or writes it.

Usage: tests/edit_table.py [--write]

A row has a law, and each edit in edits/ or mutants/ that changes its statement or a definition that it uses, with the fact that
refuses it; where there is none, the law's own proof does. That each is refused shows tests/edits.py. The last line is 'N passed,
M failed'; status 0 where the table is that of the edits, 1 where it isn't, 2 where it can't be told.
"""
from __future__ import annotations

import sys

sys.dont_write_bytecode = True
import edit_files
import prover
from lib.written_pages import WrittenPart

PAGE = prover.TOP / "docs" / "PROOFS.md"
BEGIN = "<!-- changes of statements: written by tests/edit_table.py -->"
# By its crate and its name the edits of a law.
Changes = dict[tuple[str, str], list[str]]


def changes() -> Changes:
    """For each law the edits of its statement, with the facts that refuse them."""
    found: Changes = {}
    for folder in ("edits", "mutants"):
        for path in sorted((prover.TOP / folder).glob("*/*.edit")):
            edit = edit_files.read(path)
            if any(file.startswith("specs/") for file in edit.files()):
                told = f"`{edit.name}`" + (f" by `{edit.fact[1]}`" if edit.fact else "")
                found.setdefault((edit.crate, edit.law), []).append(told + (" (before a release)" if folder == "mutants" else ""))
    return found


def table() -> list[str]:
    rows = [f"| `{crate}` | `{law}` | {'; '.join(told)} |" for (crate, law), told in sorted(changes().items())]
    return ["", "| Crate | Law | Changes that are refused |", "|---|---|---|", *rows]


def main() -> int:
    if sys.argv[1:] not in ([], ["--write"]):
        print(__doc__.strip(), file=sys.stderr)
        return 2
    try:
        part, lines = WrittenPart(PAGE, BEGIN), table()
    except (OSError, ValueError, edit_files.BadEdit) as why:
        print(f"edit_table.py: {why}", file=sys.stderr)
        return 2
    differs = "docs/PROOFS.md has another table than the edits: tests/edit_table.py --write"
    return part.status(lines, bool(sys.argv[1:]), differs)


if __name__ == "__main__":
    sys.exit(main())
