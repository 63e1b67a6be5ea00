"""Which functions a crate's sources have, where each stands, and which of them may call which, by reading the text."""
from __future__ import annotations

import dataclasses
import pathlib
import re
from typing import Optional, Sequence

HEAD = re.compile(r"^(\s*)(?:pub(?:\([^)]*\))? )?(?:const |unsafe |extern \"C\" )*fn (\w+)")
IMPL = re.compile(r"^(?:unsafe )?impl\b(?:<.*?>)? (?:(?P<trait>.+?) for )?(?P<type>.+?)(?: \{|$)")
TYPE = re.compile(r"^(?:pub(?:\([^)]*\))? )?(?:struct|enum) (\w+)", re.M)
TRAIT = re.compile(r"^(?:pub(?:\([^)]*\))? )?trait (\w+)")
WORD = re.compile(r"[A-Za-z_]\w*")
TEXT_OR_COMMENT = re.compile(r'"(?:\\.|[^"\\])*"|//.*')
# A call, behind a dot, a path or nothing; and a function that is handed on as a value.
CALL = re.compile(r"(\.|::)?\b([A-Za-z_]\w*)(?:::<[^()]*>)?\s*\(")
HANDED_ON = re.compile(r"(?<=[(,])\s*&?(?:mut )?(?:\w+::)*([A-Za-z_]\w*)\s*(?=[,)])")
# Methods of traits that a source calls without their names: operators, loops, formatting, conversions, and what is let go.
UNNAMED = {"add", "sub", "mul", "eq", "ne", "cmp", "partial_cmp", "hash", "index", "deref", "next", "fmt", "from", "drop", "not"}


@dataclasses.dataclass(frozen=True)
class Function:
    path: str
    file: str
    first: int
    last: int
    # Whether it is a method, or another function of a type or a trait, and whether it is one of a trait.
    is_owned: bool
    is_of_trait: bool
    code: str

    @property
    def name(self) -> str:
        return self.path.rsplit("::", 1)[-1]


def name_of(text: str) -> str:
    """The name of a type or a trait without its path and its parameters."""
    found = WORD.findall(re.sub(r"<.*", "", text))
    return found[-1] if found else ""


def module_of(file: str) -> list[str]:
    parts = file.removeprefix("src/").removesuffix(".rt").split("/")
    return [] if parts[-1] in ("lib", "main") and len(parts) == 1 else parts


def end_of(lines: Sequence[str], at: int, indent: str) -> int:
    """The last line of an item that begins at a line, where the file is laid out as the toolchain lays it out."""
    for number in range(at, len(lines)):
        code = TEXT_OR_COMMENT.sub("", lines[number]).rstrip()
        if code == indent + "}" or code == indent + "{}" or (number == at and code.endswith(("}", ";"))):
            return number
        if number > at and code.endswith(";") and code.startswith(indent + "    ensures"):
            return number
    return len(lines) - 1


def functions_in(folder: pathlib.Path, file: str, homes: dict[str, list[str]]) -> list[Function]:
    """The functions of a file, in the order of their lines. A method's path begins with the module of its type, a trait's with
    that of the `impl`."""
    lines = pathlib.Path(folder, file).read_text(encoding="utf-8").splitlines()
    found, owner, module, is_of_trait = [], "", module_of(file), False
    for number, line in enumerate(lines):
        impl, trait, head = IMPL.match(line), TRAIT.match(line), HEAD.match(line)
        if impl:
            owner, is_of_trait = name_of(impl["type"]) + name_of(impl["trait"] or ""), bool(impl["trait"])
            module = module_of(file) if impl["trait"] else homes.get(name_of(impl["type"]), module_of(file))
        elif trait:
            owner, is_of_trait = trait[1], True
        elif line.startswith("}"):
            owner, module = "", module_of(file)
        if head:
            is_owned = bool(head[1] and owner)
            path = "::".join([*module, *([owner] if is_owned else []), head[2]])
            last = end_of(lines, number, head[1])
            code = " ".join(TEXT_OR_COMMENT.sub("", it) for it in lines[number + 1 : last + 1])
            found.append(Function(path, file, number, last, is_owned, is_owned and is_of_trait, code))
    return found


def functions_of(folder: pathlib.Path) -> dict[str, Function]:
    """The functions of a crate by their paths."""
    files = [it.relative_to(folder).as_posix() for it in sorted(pathlib.Path(folder, "src").rglob("*.rt"))]
    texts = {file: pathlib.Path(folder, file).read_text(encoding="utf-8") for file in files}
    homes = {name: module_of(file) for file, text in texts.items() for name in TYPE.findall(text)}
    return {it.path: it for file in files for it in functions_in(folder, file, homes)}


def reached_from(functions: dict[str, Function]) -> dict[str, set[str]]:
    """For each function those of the crate that it may call, itself or through others: by name, so that it may be too many."""
    by_name: dict[str, list[Function]] = {}
    for it in functions.values():
        by_name.setdefault(it.name, []).append(it)
    unnamed = {it.path for name in UNNAMED for it in by_name.get(name, ()) if it.is_of_trait}
    calls = {it.path: (unnamed | called_in(it.code, by_name)) - {it.path} for it in functions.values()}
    return {path: closure(path, calls) for path in calls}


def called_in(code: str, by_name: dict[str, list[Function]]) -> set[str]:
    """The paths of the functions that code may name: behind a dot those of a type or a trait, behind nothing the others."""
    found = set()
    for before, name in CALL.findall(code):
        found |= {it.path for it in by_name.get(name, ()) if before == "::" or it.is_owned == (before == ".")}
    for name in HANDED_ON.findall(code):
        found |= {it.path for it in by_name.get(name, ()) if not it.is_owned or f"::{name}" in code}
    return found


def closure(path: str, calls: dict[str, set[str]]) -> set[str]:
    found, waiting = set(), [path]
    while waiting:
        for it in calls[waiting.pop()]:
            if it not in found:
                found.add(it)
                waiting.append(it)
    return found


def function_at(functions: dict[str, Function], file: str, line: int) -> Optional[Function]:
    """The innermost function whose lines hold this one."""
    holding = [it for it in functions.values() if it.file == file and it.first <= line <= it.last]
    return max(holding, key=lambda it: it.first, default=None)
