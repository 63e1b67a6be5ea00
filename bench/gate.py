#!/usr/bin/env python3
"""Runs `make test` on a clone of this repository, tells where its processor time goes, and writes that to bench/results/gate.md.

Usage: bench/gate.py [--processors N] [--gigabytes G] [COMMIT]
       (N and G: how many processors and 10^9 bytes of memory it may use, which are kept from it by control groups of version 1;
       these it has to be allowed to make. COMMIT: what is checked out in the clone; none: HEAD)

For each crate the table has the processor seconds of its proof, of its tests and of the edits that are tried on it, how many
edits these are, the most memory that one of its checks took, and its chain: the proofs of the crates below it that have to end
first, and then the longer of its own proof and tests, which go on side by side. So the longest chain is the time that proofs
and tests take on as many processors as they can use. Above the table stand the sums, the time that went by, that which two
processors would take for proofs and tests by these seconds, and the machine with its pace. The status is that of `make test`.

What an earlier gate passed on this machine is kept beside the toolchain, and then takes no time: for a table from nothing move
the folder rattle-kept aside that lies beside the toolchain's. Nothing else should run on the machine meanwhile. It needs git,
python3, Linux's /proc and the toolchain's command rt.
"""
from __future__ import annotations

import argparse
import collections
import datetime
import os
import pathlib
import re
import resource
import subprocess
import sys
import tempfile
import time
from typing import Any, Mapping, Optional, Sequence

TOP = pathlib.Path(__file__).resolve().parent.parent
RESULT = TOP / "bench" / "results" / "gate.md"
TICKS = os.sysconf("SC_CLK_TCK")
POLL_SECONDS = 0.2
PARTS = ("proof", "tests", "edits")
GROUPS = pathlib.Path("/sys/fs/cgroup")
# Of each process by its number: its parent, its processor seconds with those of its children that have ended, and when it began.
Processes = dict[int, tuple[int, float, int]]
# A process by its number, and when it began.
Run = tuple[int, int]
# What a run works on: a crate, and a part of the gate.
Task = tuple[str, str]
# Processor seconds of each task.
Sums = Mapping[Task, float]

sys.path.insert(0, str(TOP / "tests"))
sys.dont_write_bytecode = True
import gate as gate_run
import prover


class Limits:
    """Control groups that keep processors and memory from whoever goes into them; none where nothing is to be kept."""

    def __init__(self, processors: Optional[int], gigabytes: Optional[int]) -> None:
        self.groups: list[pathlib.Path]
        self.words: list[str]
        self.groups, self.words = [], []
        if processors:
            self.limit("cpuset", "cpuset.cpus", f"0-{processors - 1}", f"{processors} processors")
        if gigabytes:
            self.limit("memory", "memory.limit_in_bytes", str(gigabytes * 10**9), f"{gigabytes} GB")

    def limit(self, controller: str, name: str, value: str, word: str) -> None:
        group = GROUPS / controller / "airbook-gate"
        group.mkdir(exist_ok=True)
        if controller == "cpuset":
            (group / "cpuset.mems").write_text((GROUPS / controller / "cpuset.mems").read_text())
        (group / name).write_text(value)
        self.groups.append(group)
        self.words.append(word)

    def enter(self) -> None:
        """For the process that is to be limited, before it runs anything."""
        for group in self.groups:
            (group / "tasks").write_text(str(os.getpid()))

    def told(self) -> str:
        return f" It was kept to {' and '.join(self.words)}." if self.words else ""


def processes() -> Processes:
    """Each process: its parent, its processor seconds with those of its children that have ended, and when it began."""
    found = {}
    for pid in filter(str.isdigit, os.listdir("/proc")):
        try:
            fields = pathlib.Path(f"/proc/{pid}/stat").read_text().rpartition(")")[2].split()
        except OSError:
            continue
        found[int(pid)] = int(fields[1]), sum(map(int, fields[11:15])) / TICKS, int(fields[19])
    return found


def task_of(pid: int) -> Optional[Task]:
    """Which crate a process of the prover works on, and for which part of the gate; None for any other process."""
    try:
        words = pathlib.Path(f"/proc/{pid}/cmdline").read_bytes().decode(errors="replace").split("\0")
        folder = os.path.basename(os.readlink(f"/proc/{pid}/cwd"))
    except OSError:
        return None
    if os.path.basename(words[0]) != "rattle" or "--crate-name" not in words:
        return None
    return words[words.index("--crate-name") + 1], part_of(words, folder)


def part_of(words: Sequence[str], folder: str) -> str:
    """Which part of the gate a run of the prover is, by its words and the folder that it runs in."""
    if folder.startswith("edits-"):
        return "edits"
    if "--test" in words:
        return "tests"
    return "pace" if words[1] == "check" and gate_run.PACE_CRATE in words else "proof"


def peak_of(pid: int) -> int:
    """The most memory that a process has held, in MiB."""
    try:
        found = re.search(r"VmHWM:\s+(\d+)", pathlib.Path(f"/proc/{pid}/status").read_text())
    except OSError:
        found = None
    return int(found[1]) // 1024 if found else 0


class Meter:
    """The processor seconds and the memory of each run of the prover below one process, by what it worked on."""

    def __init__(self, top: int) -> None:
        self.top = top
        self.runs: dict[Run, tuple[Task, float]] = {}
        self.peaks: collections.Counter[str] = collections.Counter()

    def look(self) -> None:
        found = processes()
        below = collections.defaultdict(list)
        for pid, (parent, _, _) in found.items():
            below[parent].append(pid)
        waiting = [self.top]
        while waiting:
            for pid in below[waiting.pop()]:
                # A number is given again to a later process: when it began tells the two apart.
                run = pid, found[pid][2]
                task = self.runs.get(run, (None, 0))[0] or task_of(pid)
                if task is None:
                    waiting.append(pid)
                else:
                    self.note(run, task, found, below)

    def note(self, run: Run, task: Task, found: Processes, below: dict[int, list[int]]) -> None:
        seconds: float
        seconds, waiting = 0, [run[0]]
        while waiting:
            one = waiting.pop()
            seconds += found[one][1]
            waiting += below[one]
            self.peaks[task[0]] = max(self.peaks[task[0]], peak_of(one))
        self.runs[run] = task, max(seconds, self.runs.get(run, (task, 0))[1])

    def sums(self) -> Sums:
        sums: collections.Counter[Task] = collections.Counter()
        for task, seconds in self.runs.values():
            sums[task] += seconds
        return sums


def chain_of_proofs(crate: str, below: prover.Uses, sums: Sums) -> float:
    return sums[crate, "proof"] + max([chain_of_proofs(it, below, sums) for it in below[crate]], default=0)


def chain(crate: str, below: prover.Uses, sums: Sums) -> float:
    first = max((chain_of_proofs(it, below, sums) for it in below[crate]), default=0)
    return first + max(sums[crate, part] for part in ("proof", "tests"))


def count_of_edits(folder: pathlib.Path, crate: str) -> int:
    return len(list((folder / "edits" / crate).glob("*.edit")))


def side_by_side(lanes: int, below: prover.Uses, sums: Sums) -> float:
    """How long so many lanes take for all proofs and tests, those first that others wait for longest."""
    tasks = {(crate, part): sums[crate, part] for crate in below for part in ("proof", "tests")}
    behind = {crate: longest_behind(crate, below, sums) for crate in below}
    order = sorted(tasks, key=lambda it: (it[1] == "tests", -behind[it[0]]))
    ended: dict[Task, float]
    running: list[tuple[float, Task]]
    ended, running, now = {}, [], 0.0
    while order or running:
        for task in [it for it in order if all((low, "proof") in ended for low in below[it[0]])][: lanes - len(running)]:
            order.remove(task)
            running.append((now + tasks[task], task))
        now, task = min(running)
        running.remove((now, task))
        ended[task] = now
    return now


def longest_behind(crate: str, below: prover.Uses, sums: Sums) -> float:
    above = [it for it in below if crate in below[it]]
    own = max(sums[crate, part] for part in ("proof", "tests"))
    return own + max([longest_behind(it, below, sums) for it in above], default=0)


def table(folder: pathlib.Path, sums: Sums, peaks: collections.Counter[str]) -> tuple[list[str], float, str]:
    """The rows of the table, and its longest chain in seconds with the crate that it ends in."""
    below = prover.stands_on(folder)
    chains = {it: chain(it, below, sums) for it in below}
    lines = ["| Crate | Proof | Tests | Edits | Number of edits | Own | MiB | Chain |", "|---|---|---|---|---|---|---|---|"]
    for crate in sorted(below, key=lambda it: -chains[it]):
        parts = [sums[crate, part] for part in PARTS]
        shown = " | ".join(f"{seconds:.0f}" for seconds in parts)
        count = count_of_edits(folder, crate)
        lines.append(f"| `{crate}` | {shown} | {count} | {sum(parts):.0f} | {peaks[crate]} | {chains[crate]:.0f} |")
    whole = [sum(sums[crate, part] for crate in below) for part in PARTS]
    shown = " | ".join(f"{seconds:.0f}" for seconds in whole)
    count = sum(count_of_edits(folder, crate) for crate in below)
    most = max(peaks.values(), default=0)
    lines.append(f"| all | {shown} | {count} | {sum(whole):.0f} | {most} | {max(chains.values()):.0f} |")
    return lines, max(chains.values()), max(chains, key=chains.get)


def machine() -> str:
    model = re.search(r"model name\s*: (.*)", pathlib.Path("/proc/cpuinfo").read_text())
    memory = re.search(r"MemTotal:\s+(\d+)", pathlib.Path("/proc/meminfo").read_text())
    return f"{len(os.sched_getaffinity(0))} processors ({model[1] if model else 'unknown'}), {int(memory[1]) / 2**20:.0f} GiB"


def result(folder: pathlib.Path, commit: str, meter: Meter, minutes: float, said: Sequence[str], kept_to: str = "") -> str:
    """The text of bench/results/gate.md."""
    sums = meter.sums()
    lines, longest, crate = table(folder, sums, meter.peaks)
    on_two = side_by_side(2, prover.stands_on(folder), sums)
    used = resource.getrusage(resource.RUSAGE_CHILDREN)
    whole = used.ru_utime + used.ru_stime
    slower = sums[gate_run.PACE_CRATE, "pace"] / gate_run.PACE
    last = said[-1] if said else ""
    return "\n".join([
        "# Where the gate's time goes",
        "",
        f"Written by `bench/gate.py` on {datetime.date.today()}, of commit {commit[:8]}, on {machine()}.{kept_to}",
        "",
        f"- `make test` took {whole / 60:.0f} processor minutes, and {minutes:.0f} by the clock. Its last line: `{last}`.",
        f"- Its longest chain of proofs and tests takes {longest / 60:.0f} minutes; it ends in `{crate}`.",
        f"- Two proofs at a time would take {on_two / 60:.0f} minutes for all proofs and tests, by the seconds below.",
        f"- The machine's pace, by the proof of `{gate_run.PACE_CRATE}`: {slower:.2f} times the time of that by which"
        " `tests/gate.py` reckons.",
        "",
        "Processor seconds:",
        "",
        *lines,
        "",
    ])


def run_gate(folder: pathlib.Path, room: str, limits: Limits) -> tuple[int, Meter, float, list[str]]:
    """Runs the gate in a clone: its status, the meter, the minutes that went by, and what it said."""
    started = time.monotonic()
    with open(pathlib.Path(room, "said"), "w+") as said:
        words: dict[str, Any] = {"cwd": folder, "stdin": subprocess.DEVNULL, "stdout": said, "stderr": subprocess.STDOUT}
        gate = subprocess.Popen(["bash", ".ci/run"], preexec_fn=limits.enter, **words)
        meter = Meter(gate.pid)
        while gate.poll() is None:
            meter.look()
            time.sleep(POLL_SECONDS)
        said.seek(0)
        return gate.returncode, meter, (time.monotonic() - started) / 60, said.read().splitlines()


def main() -> int:
    words = argparse.ArgumentParser(description=__doc__, formatter_class=argparse.RawDescriptionHelpFormatter)
    words.add_argument("--processors", type=int, metavar="N")
    words.add_argument("--gigabytes", type=int, metavar="G")
    words.add_argument("commit", nargs="?", default="HEAD", metavar="COMMIT")
    asked = words.parse_args()
    try:
        limits = Limits(asked.processors, asked.gigabytes)
    except OSError as why:
        print(f"gate.py: no control group could be made: {why}", file=sys.stderr)
        return 2
    with tempfile.TemporaryDirectory(prefix="gate-") as room:
        folder = pathlib.Path(room, "clone")
        subprocess.run(["git", "clone", "--quiet", TOP, folder], check=True)
        named = subprocess.check_output(["git", "-C", TOP, "rev-parse", asked.commit], text=True).strip()
        subprocess.run(["git", "-C", folder, "checkout", "--quiet", named], check=True)
        status, meter, minutes, lines = run_gate(folder, room, limits)
        text = result(folder, named, meter, minutes, lines, limits.told())
    print(text)
    if status:
        print("\n".join(lines), file=sys.stderr)
    else:
        RESULT.parent.mkdir(exist_ok=True)
        RESULT.write_text(text)
    return status


if __name__ == "__main__":
    sys.exit(main())
