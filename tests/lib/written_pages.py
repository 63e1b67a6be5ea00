"""Parts of documents that scripts write from the sources: each stands between two lines that say so."""
from __future__ import annotations

import pathlib
from typing import Sequence

from lib.trials import last_line

END = "<!-- end -->"


class WrittenPart:
    """The part of a page that a script writes; OSError or ValueError comes where there is none."""

    def __init__(self, page: pathlib.Path, begin: str) -> None:
        self.page, self.begin, self.text = page, begin, page.read_text(encoding="utf-8")
        self.start = self.text.index(begin)
        self.end = self.text.index(END, self.start) + len(END)

    def holds(self, lines: Sequence[str]) -> bool:
        """Whether just these lines stand there."""
        return self.text[self.start:self.end] == self.whole(lines)

    def whole(self, lines: Sequence[str]) -> str:
        return "\n".join([self.begin, *lines, "", END])

    def write(self, lines: Sequence[str]) -> None:
        text = self.text[:self.start] + self.whole(lines) + self.text[self.end:]
        self.page.write_text(text, encoding="utf-8")

    def status(self, lines: Sequence[str], is_asked_for: bool, differs: str) -> int:
        """Writes these lines where that is asked for, or else prints whether they stand there: the status."""
        if is_asked_for:
            self.write(lines)
            return 0
        is_well = self.holds(lines)
        if not is_well:
            print(differs)
        return last_line(int(is_well), int(not is_well))
