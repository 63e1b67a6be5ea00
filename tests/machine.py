"""How many processors and how much memory this process may use: what the machine has, less what control groups keep from it.

For the scripts of this repository. A container, a service or a job that is limited sees all of the machine's memory in
/proc/meminfo; what it may use stands with its control groups, whose files of both versions are looked at here.
"""
from __future__ import annotations

import os
import pathlib
import re
from typing import Optional

ROOT = pathlib.Path("/sys/fs/cgroup")


def number_in(path: pathlib.Path, pattern: str) -> Optional[int]:
    """The number that a pattern finds in a file; None where the file isn't there or has no such number."""
    try:
        found = re.search(pattern, path.read_text(), re.MULTILINE)
    except OSError:
        return None
    return int(found[1]) if found else None


def groups(controller: str) -> list[pathlib.Path]:
    """The folders of the control groups that limit this process, its own first; of version 2 for an empty name."""
    try:
        lines = pathlib.Path("/proc/self/cgroup").read_text().splitlines()
    except OSError:
        return []
    named = [line.split(":", 2) for line in lines]
    own = [path for _, controllers, path in named if controller in controllers.split(",")]
    top = ROOT / controller
    return [top / part for path in own for part in [path.lstrip("/"), *map(str, pathlib.PurePosixPath(path.lstrip("/")).parents)]]


def processors() -> int:
    """How many processors it may use at a time, at least one."""
    found = len(os.sched_getaffinity(0))
    for group in groups("cpu"):
        found = at_most(found, number_in(group / "cpu.cfs_quota_us", r"^(\d+)"), number_in(group / "cpu.cfs_period_us", r"(\d+)"))
    for group in groups(""):
        found = at_most(found, number_in(group / "cpu.max", r"^(\d+)"), number_in(group / "cpu.max", r" (\d+)"))
    return found


def at_most(found: int, quota: Optional[int], period: Optional[int]) -> int:
    return min(found, max(quota // period, 1)) if quota and period else found


def free_memory() -> int:
    """How many bytes of memory are free for it."""
    free = [1024 * number_in(pathlib.Path("/proc/meminfo"), r"MemAvailable:\s+(\d+)")]
    for group in groups("memory"):
        limit, used = number_in(group / "memory.limit_in_bytes", r"(\d+)"), number_in(group / "memory.stat", r"^total_rss (\d+)")
        free += [limit - used] if limit and used is not None else []
    for group in groups(""):
        limit, used = number_in(group / "memory.max", r"^(\d+)"), number_in(group / "memory.stat", r"^anon (\d+)")
        free += [limit - used] if limit and used is not None else []
    return max(0, min(free))
