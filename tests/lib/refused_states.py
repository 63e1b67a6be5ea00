"""Folders, journals and arguments with which `airbook serve` doesn't begin to serve; and worked journals.

It is written from docs/FORMATS.md ("airbook serve", "Journal") and docs/SERVE.md.
"""
from __future__ import annotations

import pathlib
import subprocess
import tempfile
from typing import Optional, Sequence

from lib.plain_journal import MALFORMED
from lib.serving import EUIS, SECONDS, Sender, Server, free_port, gateway_table
from lib.trials import Failed, expect
from lib.worked_run import DEVICE, SETTINGS

GATEWAYS = """airbook journal 1
gateway 1 aa555a0000000001 4096 45000
gateway 2 aa555a0000000002 4096 45000
"""
# A word in braces stands for a number, the same wherever it stands.
NEW_JOURNAL = GATEWAYS + """device 26011bda 5c7efb43 - 0
clock 1 {first} 0
clock 2 {first} 0
.
"""
BATCH = """clock 2 {high} {floor}
device 26011bda 5c7efb43 7 1
sent 2 {start} 868100000 5 12
.
"""
NUMBERS = {"first": 2_000_000, "high": 2_200_981, "floor": 601_001, "start": 1_001_100}
NO_BATCH = "is missing: no line `.` ends a batch of entries"
NO_HEAD, VERSION = "is not the line of its version", "has another version than 1"


def state_words(folder: pathlib.Path, *more: str) -> list[str]:
    return ["--state", str(folder), *more]


def folder_with(parent: pathlib.Path, journal: Optional[str] = None) -> pathlib.Path:
    """A new folder, with this journal if one is given."""
    folder = pathlib.Path(tempfile.mkdtemp(dir=parent))
    if journal is not None:
        (folder / "journal").write_text(journal)
    return folder


def files_in(folder: pathlib.Path) -> dict[str, Optional[bytes]]:
    """The names in a folder but that of the lock, with the bytes of those that are files."""
    if not folder.is_dir():
        return {}
    return {one.name: one.read_bytes() if one.is_file() else None for one in folder.iterdir() if one.name != "lock"}


def ran(program: str, words: Sequence[str], settings: str = SETTINGS) -> tuple[int, bytes, list[str]]:
    """The status, standard output and the lines of standard error of a program that doesn't begin to serve."""
    done = subprocess.run([program, "serve", *words], input=settings.encode(), capture_output=True, timeout=SECONDS / 3)
    return done.returncode, done.stdout, done.stderr.decode().splitlines()


def refused(
    program: str,
    folder: pathlib.Path,
    name: str,
    words: Sequence[str] = (),
    port: int = 0,
    settings: str = SETTINGS,
    told: Optional[str] = None,
) -> None:
    """The program names this fault, and leaves the folder as it is. The line before the name ends as told, if that is given."""
    before, bind = files_in(folder), ["--bind", f"127.0.0.1:{port or free_port()}"]
    status, output, lines = ran(program, [*state_words(folder, *words), *bind], settings)
    what = f"{words} with {before}, where {lines} is told"
    expect((2, b"", [f"airbook: {name}"]), (status, output, lines[-1:]), what)
    if told is not None and not any(line.endswith(told) for line in lines[-2:-1]):
        raise Failed(f"{told!r} is not told before the name of {what}")
    expect(before, files_in(folder), f"what stands in the folder behind {name}")


def folders_refused(program: str, parent: pathlib.Path) -> None:
    """Folders that can't be used, in the order of the faults; a journal beside --new; one that can't be written anew."""
    new, journal = ["--new"], NEW_JOURNAL.format(**NUMBERS)
    for words in ([], new):
        refused(program, parent / "none", "Journal", words)
        locked = folder_with(parent, journal)
        (locked / "lock").mkdir()
        refused(program, locked, "Journal", words)
    refused(program, folder_with(parent), "NoState")
    refused(program, folder_with(parent, journal), "HasState", new)
    refused(program, folder_with(parent, "\0"), "HasState", new)
    blocked = folder_with(parent, journal)
    (blocked / "journal.new").mkdir()
    refused(program, blocked, "Journal")


def folder_used(program: str, parent: pathlib.Path) -> None:
    """A folder that another server has, which goes on; and the same one behind its end."""
    used = folder_with(parent)
    with Server(program, SETTINGS, words=state_words(used, "--new")) as server, Sender(server) as one:
        one.pull(EUIS[1])
        for words in ([], ["--new"]):
            refused(program, used, "Locked", words)
        refused(program, used, "Bind", port=server.port)
        refused(program, parent / "none", "Bind", port=server.port)
        refused(program, parent / "none", "Gap", port=server.port, settings=gateway_table(1, gap=44_999) + DEVICE)
        one.pull(EUIS[1])
        expect([], server.lines(), "the lines of a server beside which others were refused")
    refused(program, used, "HasState", ["--new"])
    # A new journal that never got its name is none.
    (used / "journal").rename(used / "journal.new")
    refused(program, used, "NoState")
    with Server(program, SETTINGS, words=state_words(used, "--new")) as server, Sender(server) as one:
        one.pull(EUIS[1])
    expect(["journal"], list(files_in(used)), "the files of a state that begins anew")


def journals_refused(program: str, parent: pathlib.Path) -> None:
    """Journals that are at fault, each with the line that is."""
    text, last = NEW_JOURNAL.format(**NUMBERS), BATCH.format(**NUMBERS)
    whole, later = text + last, last.replace("1001100", "9001100")
    rows = [("", 1, NO_BATCH), (text[:-2], 7, NO_BATCH), (whole.replace("journal 1", "journal 2"), 1, VERSION)]
    rows += [("\0" + whole[1:], 1, NO_HEAD), (whole.replace("airbook", "airbooks"), 1, NO_HEAD)]
    # In the first batch a malformed line is a fault, and in each that isn't the last.
    rows += [(text.replace("4096", "x", 1), 2, MALFORMED), (whole.replace("0001 ", "0001  "), 2, MALFORMED)]
    rows += [(text.replace("43 - 0", "43 - 4294967297"), 4, MALFORMED), (text.replace("gateway 2", "gateway 1"), 3, MALFORMED)]
    rows += [(text + last.replace(" 12\n", " 12 \n") + later, 10, MALFORMED)]
    rows += [(text + last.replace("\nd", "\0d") + later, 8, MALFORMED)]
    # What is well spelled and can't be there is a fault of the last batch too.
    rows += [(whole + last, 14, MALFORMED), (whole + "clock 3 1 1\n.\n", 12, MALFORMED)]
    rows += [(whole + "taken 26011bda\n.\n", 12, MALFORMED)]
    for journal, place, told in rows:
        refused(program, folder_with(parent, journal), "Journal", told=f"line {place} of the journal {told}")
    # Beyond what a server opens with, and just that.
    refused(program, folder_with(parent, text.replace("clock 1 2000000", f"clock 1 {(1 << 60) + 1}")), "Journal", told="")
    most = text.replace("clock 1 2000000", f"clock 1 {1 << 60}").replace("43 - 0", "43 - 4294967296")
    with Server(program, SETTINGS, words=state_words(folder_with(parent, most))) as server, Sender(server) as one:
        one.pull(EUIS[1])


def arguments_refused(program: str, parent: pathlib.Path) -> None:
    """A state or a shadow is asked for, and not both; and only a state may be new."""
    folder, bind = folder_with(parent), ["--bind", f"127.0.0.1:{free_port()}"]
    for words in ([], ["--new"], state_words(folder, "--shadow"), ["--state"], ["--shadow", "--new"]):
        status, output, lines = ran(program, [*bind, *words])
        expect((2, b"", True), (status, output, "".join(lines).startswith("error: ")), f"{words}, where {lines} is told")
    expect({}, files_in(folder), "what stands in the folder")
