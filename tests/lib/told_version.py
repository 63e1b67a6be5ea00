"""The version and the toolchain's line that the program tells."""
from __future__ import annotations

import re
from typing import Sequence

from lib.places import TOP

LINE = r"rattle-kit-\w+ logic [0-9a-f]{16}"


def found(path: str, what: str) -> Sequence[str]:
    """The parts of what a file of the repository has; SystemExit with 1 where it has none."""
    text = (TOP / path).read_text(encoding="utf-8")
    match = re.search(what, text)
    if not match:
        print(f"{path}: there is nothing like {what}\n0 passed, 1 failed")
        raise SystemExit(1)
    return match.groups()


def told() -> Sequence[str]:
    """The version and the toolchain's line that the program tells."""
    return found("crates/airbook/src/arguments.rt", rf'const VERSION: &str =\s*"(\S+) \(sources proved with ({LINE})\)"')
