"""The resident memory of `airbook serve --state` over many uplinks, for tests/soak.py and tests/desks.py.

It is compared where desks are full. Right behind a new desk it is whatever the system's allocator has given back by then.
"""
from __future__ import annotations

import pathlib
import time
from typing import Sequence

from lib.many_uplinks import DESK, MOST, Load, uplinks
from lib.plain_restarts import SetDevice, SetGateway, Settings
from lib.serving import EUIS, Sender, Server
from lib.trials import Failed, expect_all

DEVICES, TENTHS = 16, 10
# Where the last desk is full it may be so many times what it is where the first one is: more than the allocator wastes at times, and
# less than two desks take.
AT_MOST = 1.5


def over_uplinks(program: str, folder: pathlib.Path, count: int) -> str:
    """What it is behind each tenth of so many uplinks that want no answer, where each desk is full, and where it was made anew."""
    devices = [SetDevice(0x26011000 + number, (bytes([number] * 16), bytes(16))) for number in range(DEVICES)]
    settings, began, numbers = Settings([SetGateway(1, EUIS[1])], devices), time.monotonic(), []
    tenths, ends = [count * place // TENTHS for place in range(TENTHS + 1)], list(range(DESK, count + 1, DESK))
    full, words = [end - MOST for end in ends], ["--state", str(folder), "--new"]
    made, seen = uplinks(devices, count), {}
    with Server(program, settings.text(), words=words) as server, Sender(server) as puller, Sender(server) as sender:
        load, place = Load(sender, [EUIS[1]], puller), 0
        for end in sorted({*tenths, *full, *ends}):
            load.send_all(made[place:end])
            # Behind the last uplink of a desk this is acknowledged once there is a new one.
            load.pull()
            seen[end], place = server.memory(), end
            numbers += opened_in(server.lines())
        time.sleep(0.5)
        numbers += opened_in(server.lines())
    expect_all([place % DESK + 1 for place in range(count)], numbers, "numbers of uplinks")
    by_place = [[seen[place] for place in places] for places in (tenths, full, ends)]
    return told(*by_place, count) + f"; {time.monotonic() - began:.0f} s"


def opened_in(lines: Sequence[str]) -> list[int]:
    """The numbers of the uplinks that these lines open."""
    return [int(line.split()[1]) for line in lines if line.startswith("opened ")]


def told(tenths: Sequence[int], full: Sequence[int], behind: Sequence[int], count: int) -> str:
    """The figures, where memory stays flat from one desk to another."""
    grown = (tenths[-1] - tenths[1]) * 1024 / (count - count // TENTHS)
    found = f"{tenths[0]} KiB at first, then by tenths {' '.join(map(str, tenths[1:]))} KiB; the last is "
    found += f"{tenths[-1] / tenths[1]:.2f} times the first, {grown:.0f} bytes for each uplink between them"
    if len(full) < 2:
        return found
    found += f"; where desks are full {' '.join(map(str, full))} KiB, the last is {full[-1] / full[0]:.2f} times the first"
    found += f"; right behind them {' '.join(map(str, behind))} KiB"
    if full[-1] > AT_MOST * full[0]:
        raise Failed(f"more than {AT_MOST} times: {found}")
    return found
