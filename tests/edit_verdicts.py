"""What a check of the prover says of an edit: whether the function that it names is refused, and for which goal of its own."""
from __future__ import annotations

import dataclasses
import enum
import re
from typing import Optional, Sequence

from edit_files import Edit

FUNCTION = re.compile(r"^fn (\S+): (.*)")
PLACED = re.compile(r"^(?:note: )?(?:\./)?((?:src|specs|proofs)/\S+?):(\d+):\d+: error: (?:`([^`]*)`: )?(.*)")
GOALS = re.compile(r"`search` did not prove (.*)")
CALLS = re.compile(r"no proof: it calls `([^`]*)`")
FRONT_END = re.compile(r"\berror\[[\w-]+\]")
# What a proof file says where it names what is not there any more.
LEMMAS = re.compile(r"proofs/\w+\.antt")
NAMES = re.compile(r"has no field|is not in scope|has no `|was not admitted|is not declared|does not export|no goal")
# The same of a fact, of which what lacks a field may be the changed statement itself.
NAMES_BESIDE_FIELDS = re.compile(NAMES.pattern.removeprefix("has no field|"))
DEPENDS = re.compile(r"declarations? that depends? on|which was not admitted|was rejected, w")
UNREAD = re.compile(r"is not in scope|has no field|is no name|operand is missing|expected the end|cannot continue")
LIMIT = re.compile(r"antt ran out of|outgrew the memory limit|stopped at the step limit|could not tell|no verdict")


class Kind(enum.Enum):
    REFUSED = "refused"
    PROVED = "NOT REFUSED: it is still proved"
    OTHER = "NOT REFUSED BY WHAT IT NAMES"
    NAMES = "REFUSED FOR A NAME ALONE: a proof file names what the edit took away; change a value and keep the names"
    UNREAD = "NO EDIT: the prover can't read the changed text"
    COMPILER = "NO EDIT: it does not compile"
    BAD = "NO EDIT"
    UNTOLD = "NOT TRIED: the check came to no end"


@dataclasses.dataclass(frozen=True)
class Verdict:
    kind: Kind
    goal: str


class Said:
    """The lines of one check."""

    def __init__(self, lines: Sequence[str], status: int, changed: set[str]) -> None:
        self.lines, self.status = lines, status
        self.functions: dict[str, str] = dict(found.groups() for found in map(FUNCTION.match, lines) if found)
        self.errors = [found.groups() for found in map(PLACED.match, lines) if found]
        self.is_whole = any(line.startswith("only=") for line in lines)
        self.unread = next((line for line in lines if self.is_unread(line, changed)), None)

    @staticmethod
    def is_unread(line: str, changed: set[str]) -> bool:
        """Whether the prover could not read a source, a statement or a changed file; one that is false reads well."""
        found = PLACED.match(line)
        if not found or found[1] not in changed and not found[1].startswith(("src/", "specs/")):
            return False
        return not found[3] or bool(UNREAD.search(re.sub(r"`[^`]*`", "", found[4])))

    def first(self, pattern: re.Pattern[str]) -> Optional[str]:
        return next((line.strip() for line in self.lines if pattern.search(line)), None)

    def fault(self) -> Optional[Verdict]:
        """Why the check as a whole says nothing of any function, if that is so."""
        compiler = self.first(FRONT_END)
        if compiler:
            return Verdict(Kind.COMPILER, compiler)
        if self.unread:
            return Verdict(Kind.UNREAD, self.unread)
        if self.status not in (0, 1) or not self.is_whole:
            last = self.lines[-1].strip() if self.lines else "it said nothing"
            return Verdict(Kind.UNTOLD, f"status {self.status}: {self.first(LIMIT) or last}")
        return None

    def of(self, edit: Edit) -> Verdict:
        """What becomes of an edit by the function, or the fact, that it names."""
        return self.fault() or (self.of_fact(edit) if edit.fact else self.of_function(edit))

    def of_fact(self, edit: Edit) -> Verdict:
        file, name = edit.fact
        own = [text for path, _, of, text in self.errors if path == f"proofs/{file}.antt" and of == name]
        if not own:
            return Verdict(Kind.PROVED, f"proofs/{file}.antt: {name}")
        return named(own, f"{file}.{name}", NAMES_BESIDE_FIELDS)

    def of_function(self, edit: Edit) -> Verdict:
        told = self.functions.get(f"{edit.crate}::{edit.only}")
        if told is None:
            return Verdict(Kind.BAD, f"the check says nothing of {edit.only}")
        if told == "proved":
            return Verdict(Kind.PROVED, edit.only)
        if "could not tell" in told:
            return Verdict(Kind.UNTOLD, told)
        goals = GOALS.search(told)
        if goals:
            return Verdict(Kind.REFUSED, goals[1].split(",")[0].strip("`"))
        calls = CALLS.search(told)
        if calls:
            return Verdict(Kind.OTHER, f"{edit.only} calls {calls[1]}, which is refused")
        own = [(of, text) for path, _, of, text in self.errors if is_own(edit, path)]
        if not own:
            return Verdict(Kind.UNTOLD, f"{edit.only}: {told}")
        goal = next((of for of, text in own if of and not NAMES.search(text) and not DEPENDS.search(text)), own[0][0])
        return named([text for _, text in own], goal)


def is_own(edit: Edit, path: str) -> bool:
    """Whether an error there is one of the function's own proof, which functions that call one another share; of a law whose
    statement is changed also one of its lemmas."""
    module = edit.only.rpartition("::")[0]
    if path.startswith((f"proofs/{edit.only.replace('::', '/')}/", f"proofs/{module.replace('::', '/')}/+")):
        return True
    return LEMMAS.fullmatch(path) is not None and all(file.startswith("specs/") for file in edit.files())


def named(texts: Sequence[str], goal: str, names: re.Pattern[str] = NAMES) -> Verdict:
    """A refusal by these errors: for a goal of its own, or only since names are gone."""
    own = [text for text in texts if not DEPENDS.search(text)]
    if not own:
        return Verdict(Kind.OTHER, f"{goal}: {texts[0][:120]}")
    if all(names.search(text) for text in own):
        return Verdict(Kind.NAMES, f"{goal}: {own[0][:120]}")
    return Verdict(Kind.REFUSED, goal or own[0][:80])
