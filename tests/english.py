#!/usr/bin/env python3
"""Counts the words a sentence of the documents, and lists the sentences that are too long.

Usage: tests/english.py [PAGE ..]      (none: README.md, CHANGELOG.md and docs/*.md of this repository)

Prints for each page the average and the longest, and a line for each sentence of more than 45 words: its page, the line on which
it begins, how many words it has and how it begins. A page's average may be at most 20. Tables, blocks of code, headings and
comments are left out, and a paragraph that is in italics from end to end: that is the promise, which is one sentence. A sentence
ends by `.`, `?` or `!` before a blank, or with its paragraph or item of a list. A span of code counts as one word. The last line
is 'N passed, M failed', over the pages; status 0 where none failed, 1 where one did, 2 where a page can't be read.
"""
from __future__ import annotations

import pathlib
import re
import sys
from typing import Iterator, Union

sys.dont_write_bytecode = True
from lib.trials import last_line

TOP = pathlib.Path(__file__).resolve().parent.parent
LONGEST, AVERAGE = 45, 20
LEFT_OUT = re.compile(r"\||#|    |\t|<!--")
ITEM = re.compile(r"\s*(?:[-*]|\d+\.) +")
PROMISE = re.compile(r"\*[^*]+\*\s*")
END = re.compile(r"(?<=[.?!])[)*_\"']*(?=\s|$)")
# Lines with their numbers.
Lines = list[tuple[int, str]]


def paragraphs(text: str) -> list[Lines]:
    """Each paragraph or item of a list: its lines, with their numbers."""
    found, fenced, after_blank = [], False, True
    for number, line in enumerate(text.splitlines(), 1):
        if line.startswith("```"):
            fenced, after_blank = not fenced, True
        elif fenced or not line.strip() or (LEFT_OUT.match(line) and (after_blank or line.startswith(("|", "#", "<!--")))):
            after_blank = True
        elif after_blank or ITEM.match(line):
            found.append([(number, ITEM.sub("", line, count=1))])
            after_blank = False
        else:
            found[-1].append((number, line))
    return found


def sentences(lines: Lines) -> Iterator[tuple[int, int, str]]:
    """The sentences of a paragraph: the number of the line on which each begins, how many words it has, and the first of them."""
    line: Union[int, str]
    text, starts = "", []
    for number, line in lines:
        starts.append((len(text), number))
        text += line.strip() + "\n"
    if PROMISE.fullmatch(text):
        return
    masked = re.sub(r"`[^`]+`", lambda code: "x" * len(code[0]), text)
    begin = 0
    for end in [found.end() for found in END.finditer(masked)] + [len(text)]:
        words = [word for word in re.finditer(r"\S+", masked[begin:end]) if re.search(r"\w", word[0])]
        if words:
            first = begin + words[0].start()
            line = max(number for start, number in starts if start <= first)
            yield line, len(words), " ".join(text[first:end].split()[:8])
            begin = end


def main() -> int:
    own = [TOP / "README.md", TOP / "CHANGELOG.md", *sorted((TOP / "docs").glob("*.md"))]
    pages = [pathlib.Path(name) for name in sys.argv[1:]] or own
    failed = 0
    for page in pages:
        try:
            text = page.read_text(encoding="utf-8")
        except (OSError, ValueError) as why:
            print(f"english.py: {page}: {why}", file=sys.stderr)
            return 2
        name = page.relative_to(TOP) if page.is_relative_to(TOP) else page
        found = [sentence for lines in paragraphs(text) for sentence in sentences(lines)]
        counts = [count for _, count, _ in found]
        average = sum(counts) / max(1, len(counts))
        print(f"{name}: {len(counts)} sentences, {average:.1f} words on average, {max(counts, default=0)} in the longest")
        for number, count, words in found:
            if count > LONGEST:
                print(f"{name}:{number}: {count} words: {words} ..")
        if average > AVERAGE:
            print(f"{name}: more than {AVERAGE} words a sentence on average")
        failed += average > AVERAGE or max(counts, default=0) > LONGEST
    return last_line(len(pages) - failed, failed)


if __name__ == "__main__":
    sys.exit(main())
