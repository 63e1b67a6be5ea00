"""A gateway's book as a plain list, asked as docs/FORMATS.md says.

It keeps no sum and no tree: each answer is found by going over it. Moments are in microseconds.
"""
from __future__ import annotations

import bisect
from typing import Optional

from lib.lorawan import END, HOUR, LIMITS, airtime, band_of, greatest

# A channel in Hz, its band, the band's limit within an hour, and two frames on it: data rate, length, time on air.
Channel = tuple[int, str, int, list[tuple[int, int, int]]]
K: Channel = (863_500_000, "K", 3_600_000, [(0, 12, 991_232), (5, 12, 41_216)])
M: Channel = (868_100_000, "M", 36_000_000, [(5, 12, 41_216), (3, 12, 144_384)])
P: Channel = (869_525_000, "P", 360_000_000, [(0, 12, 991_232), (1, 12, 577_536)])

# A transmission: its start, end, number, band and time on air.
Member = tuple[int, int, int, str, int]


class Book:
    """Members by start, and what was counted."""

    def __init__(self, cap: int, gap: int) -> None:
        self.cap, self.gap, self.floor = cap, gap, 0
        self.members: list[Member] = []
        self.booked = self.cancelled = self.retired = 0

    def refusal(self, start: int, channel: Channel, airtime: int) -> Optional[str]:
        """Why it can't be booked, if there is a reason."""
        _, band, limit, _ = channel
        if start < self.floor:
            return "Passed"
        at = bisect.bisect_left(self.members, (start,))
        for other in self.members[max(at - 1, 0):at + 1]:
            if other[0] < start + airtime + self.gap and start < other[1] + self.gap:
                return f"Taken {other[0]}"
        over = self.overfull(start, band, limit, airtime)
        if over is not None:
            return f"DutyFull {band} {over[0]} {over[1]}"
        return "Full" if len(self.members) >= self.cap else None

    def book(self, number: int, start: int, channel: Channel, airtime: int) -> str:
        refusal = self.refusal(start, channel, airtime)
        if refusal is not None:
            return f"no {number} {refusal}"
        bisect.insort(self.members, (start, start + airtime, number, channel[1], airtime))
        self.booked += airtime
        return f"ok {number} {start} {start + airtime}"

    def overfull(self, start: int, band: str, limit: int, airtime: int) -> Optional[tuple[int, int]]:
        """The first hour that holds the start and would be overfull, by where it opens, and what begins in it."""
        low = bisect.bisect_left(self.members, (start - HOUR + 1,))
        near = [(m[0], m[4]) for m in self.members[low:bisect.bisect_left(self.members, (start + HOUR,))] if m[3] == band]
        opens = [s for s, _ in near if s <= start]
        if not opens or opens[-1] != start:
            opens.append(start)
        behind, spent, first = 0, 0, 0
        for opening in opens:
            while behind < len(near) and near[behind][0] < opening + HOUR:
                spent += near[behind][1]
                behind += 1
            while first < len(near) and near[first][0] < opening:
                spent -= near[first][1]
                first += 1
            if spent + airtime > limit:
                return opening, spent
        return None

    def cancel(self, number: int, start: int) -> str:
        if start <= self.floor:
            return f"no {number} Begun"
        at = bisect.bisect_left(self.members, (start,))
        if at < len(self.members) and self.members[at][0] == start and self.members[at][2] == number:
            airtime = self.members.pop(at)[4]
            self.cancelled += airtime
            return f"cancelled {number} {airtime}"
        return f"no {number} NotHere"

    def tick(self, now: int) -> str:
        self.floor = max(self.floor, now)
        at = bisect.bisect_left(self.members, (self.floor - HOUR,))
        self.retired += sum(m[4] for m in self.members[:at])
        del self.members[:at]
        return f"floor {self.floor}"

    def busiest(self, band: str) -> list[str]:
        near = [(m[0], m[4]) for m in self.members if m[3] == band]
        best: Optional[tuple[int, int]] = None
        behind, spent = 0, 0
        for opening, airtime in near:
            while behind < len(near) and near[behind][0] < opening + HOUR:
                spent += near[behind][1]
                behind += 1
            if best is None or spent > best[1]:
                best = (opening, spent)
            spent -= airtime
        return [f"busiest {band} {best[0]} {best[1]}"] if best else []

    def report(self) -> list[str]:
        kept = sum(m[4] for m in self.members)
        lines = [f"booked {self.booked}", f"cancelled {self.cancelled}", f"retired {self.retired}"]
        lines += [f"kept {len(self.members)} {kept}", f"floor {self.floor}"]
        return lines + [line for band in "KLMNPQ" for line in self.busiest(band)]


class PlainBook(Book):
    """A gateway's book that also knows how its members were asked for."""

    def __init__(self, cap: int, gap: int, gateway: int = 1) -> None:
        super().__init__(cap, gap)
        self.gateway = gateway
        # By its start the frequency, data rate and length of a member.
        self.asks: dict[int, tuple[int, int, int]] = {}

    def unfit(self, start: int, frequency: int, rate: int, length: int) -> Optional[str]:
        """What refuses it whatever is booked, if anything."""
        if band_of(frequency, rate) is None:
            return "NoBand"
        if length > greatest(rate):
            return "TooLong"
        return "PastEnd" if start + airtime(rate, length) > END else None

    def ask(self, number: int, start: int, frequency: int, rate: int, length: int) -> str:
        """Books it, or tells why not, as `airbook book` does."""
        unfit, band = self.unfit(start, frequency, rate, length), band_of(frequency, rate)
        if unfit is not None or band is None:
            return f"no {number} {unfit}"
        told = self.book(number, start, (frequency, band, LIMITS[band], []), airtime(rate, length))
        if told.startswith("ok"):
            self.asks[start] = (frequency, rate, length)
        return told
