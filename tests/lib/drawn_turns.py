"""Datagrams for `airbook listen`, each with the lines that answer it, for tests/listen.py.

Those of `Alone` are answered whatever came before; those of a run are its lines, answered as the model in plain_server.py does.
"""
from __future__ import annotations

from random import Random
from typing import Optional, Sequence

from lib.drawn_settings import rows_of, settings_of, table_text
from lib.drawn_traffic import Traffic
from lib.places import CASES
from lib.plain_server import Malformed, Server, Table

SESSION = "2b7e151628aed2a6abf7158809cf4f3c", "000102030405060708090a0b0c0d0e0f"
KEYS = f'nwkskey = "{SESSION[0]}"\nappskey = "{SESSION[1]}"\n'
SETTINGS = f'[[gateway]]\nid = 1\n[[gateway]]\nid = 2\n[[device]]\naddr = "26011bda"\n{KEYS}'
UPLINK = "80da1b012600070009c89141"
# The report where nothing was answered.
NO_REPORT = [f"gateway {g} booked 0 cancelled 0 retired 0 kept 0" for g in (1, 2)] + ["answered 0 unanswered 0 silent 0"]
# In the first of these cases each event takes a step that shows, beside a gathering that is open, what is booked and what is
# queued; in the second one the copies' signals decide, strong ones and weak ones. Both have the settings above.
STEPS = ["run_each_event_takes_its_own_step_alone", "run_signals_of_all_strengths"]


# A datagram, and the lines that answer it.
Turn = tuple[bytes, list[str]]


class Alone:
    """Draws datagrams, under the settings above, and what each is answered."""

    def __init__(self, chance: Random) -> None:
        self.chance = chance
        self.floor = {1: 0, 2: 0}
        self.queued = 0

    def tick(self) -> tuple[str, str]:
        gateway, now = self.chance.choice([1, 2, 3]), self.chance.randrange(1 << 60)
        if gateway == 3:
            return f"tick 3 {now}", "no tick UnknownGateway"
        self.floor[gateway] = max(self.floor[gateway], now)
        return f"tick {gateway} {now}", f"floor {gateway} {self.floor[gateway]}"

    def queue(self) -> tuple[str, str]:
        addr, port = self.chance.choice(["26011bda", "26011BDA", "00000001"]), self.chance.choice([0, 1, 223, 224])
        line = f"queue {addr} {port} {self.chance.choice(['-', '00', 'aBcD'])}"
        if addr == "00000001":
            return line, "no queue UnknownDevice"
        if port in (0, 224):
            return line, "no queue Port"
        if self.queued == 16:
            return line, "no queue QueueFull"
        self.queued += 1
        return line, f"queued 26011bda {self.queued}"

    def hear(self) -> tuple[str, str]:
        uplink = self.chance.choice(["40", "00" * 12, UPLINK[:-1] + "0"])
        name = {2: "Short", 24: "NotData"}[len(uplink)] if uplink != UPLINK[:-1] + "0" else "BadMic"
        return f"hear 1 5000000 868100000 5 0 -100 0 {uplink}", f"no hear {name}"

    def cancel(self) -> tuple[str, str]:
        number = self.chance.randrange(1 << 64)
        return f"cancel {number}", f"no cancel {number} NotHere"

    def line(self) -> tuple[str, str]:
        """A line of the format, and its answer."""
        return self.chance.choice([self.tick, self.queue, self.hear, self.cancel])()

    def whole(self, turn: int) -> Turn:
        line, answer = self.line()
        spread = line.replace(" ", self.chance.choice([" ", "\t", "  "]))
        return (spread + self.chance.choice(["", "\n", "\r\n"])).encode(), [answer]

    def passed_over(self, turn: int) -> Turn:
        text = self.chance.choice(["", " ", "\t \t", "# tick 1 5", "#" * 1024, "#@"])
        return (text + self.chance.choice(["", "\n", "\r\n"])).encode(), []

    def malformed(self, turn: int) -> Turn:
        texts = [
            "tick 1", "ticks 1 5", "tick 1 5 6", "tick 70000 5", "tick 1 5\r", "\r", "tick 1 5\n\n", "\ntick 1 5",
            "tick 1 5\ntick 2 5", "hear 1 5000000 868100000 5 0 -100 0 @c:26011bda:7",
            "hear 1 5000000 868100000 5 0 -100 0 ", "cancel @", "---", "plan",
            "cancel 1" + " " * 1017, "#" * 1025, " " * 1026, "#" * 1027, "tick 1 5" + " " * 1020, "#" * 3000,
            "tick 1 5".ljust(1024) + "\r\ntick 2 5",
        ]
        return self.chance.choice(texts).encode(), [f"bad {turn} Syntax"]

    def noise(self, turn: int) -> Turn:
        size = self.chance.randrange(1, 1400)
        datagram = bytes(self.chance.choice(b"\x00\xff\x80xyz\n\r") for _ in range(size))
        return b"x" + datagram, [f"bad {turn} Syntax"]

    def turn(self, turn: int) -> Turn:
        kinds = [self.whole, self.passed_over, self.malformed, self.noise]
        return self.chance.choices(kinds, [6, 1, 2, 1])[0](turn)


def spelled(model: Server, line: bytes) -> bytes:
    """A line of a run with the bytes of the uplink that it asks for by an `@`, which a datagram has to bring."""
    head, at, word = line.rpartition(b"@")
    asked = word.rstrip(b" \t")
    try:
        return head + model.uplink(at + asked).hex().encode() + word[len(asked):] if at else line
    except Malformed:
        return line


def turns_of(gateways: list[Table], devices: list[Table], lines: Sequence[bytes]) -> tuple[list[Turn], list[str]]:
    """Datagrams with these lines, each with its answers, and the report."""
    turns: list[Turn] = []
    model = Server(gateways, devices)
    for place, line in enumerate(lines, 1):
        datagram = spelled(model, line)
        turns.append((datagram, model.answers(datagram, place)))
    return turns, model.report()


def run_of_steps(case: str) -> Optional[tuple[str, list[Turn], list[str]]]:
    """The settings of such a case, and its datagrams and report; none where the model answers otherwise than the case."""
    settings, events = (CASES / case / "stdin").read_text().split("---\n")
    gateways = [{"id": one, "cap": 4_096, "gap": 0} for one in (1, 2)]
    device: Table = {"addr": 0x26011BDA, "keys": tuple(bytes.fromhex(key) for key in SESSION), "delay": 1, "offset": 0}
    device |= {"rx2_freq": 869_525_000, "rx2_dr": 0, "up": None, "down": 0}
    turns, report = turns_of(gateways, [device], events.encode().splitlines())
    told = [answer for _, answers in turns for answer in answers] + report
    return (settings, turns, report) if told == (CASES / case / "stdout").read_text().splitlines() else None


def drawn_run(seed: int) -> tuple[str, list[Turn], list[str]]:
    """Settings, datagrams and a report, of a run as tests/random_runs.py draws it. A datagram is one line."""
    chance = Random(seed)
    gateways, devices = settings_of(chance)
    rows = rows_of(chance, gateways, devices)
    lines = [line for line in Traffic(chance, gateways, devices).drawn() if b"\n" not in line]
    return table_text(rows), *turns_of(gateways, devices, lines)
