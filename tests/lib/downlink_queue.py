"""What a packet forwarder does with what it is asked to send: it has a queue by its counter, as Semtech's has, for tests/soak.py.

From memory of its jitqueue.c. Moments are in microseconds, on one clock that doesn't wrap.
"""
from __future__ import annotations

from typing import Optional

from lib.trials import expect

# What is asked for less than this before its start is too late; what is asked for so long before it, too early.
LATEST, EARLIEST = 42_500, 512_000_000
# One that begins so little behind the end of another, or less, stands in its way. So many have room.
BESIDE, SLOTS = 43_500, 32


class DownlinkQueue:
    """What is to be sent, by start and end."""

    def __init__(self) -> None:
        self.waiting: list[tuple[int, int]] = []

    def fault(self, own: int, start: int, airtime: int) -> Optional[str]:
        """Puts a transmission in at this moment, or tells why not."""
        self.waiting = [one for one in self.waiting if one[1] > own]
        if start - own <= LATEST:
            return "TOO_LATE"
        if start - own > EARLIEST:
            return "TOO_EARLY"
        if len(self.waiting) >= SLOTS:
            return "full"
        if any(start <= ends + BESIDE and begins <= start + airtime + BESIDE for begins, ends in self.waiting):
            return "COLLISION_PACKET"
        self.waiting.append((start, start + airtime))
        return None


def expect_rules() -> None:
    """The rules at their edges. Behind a first transmission of 1 s: when another one is asked for, its start, and its fault."""
    rows = [(0, 2_043_500, "COLLISION_PACKET"), (0, 2_043_501, None), (0, 956_498, None), (0, 956_499, "COLLISION_PACKET")]
    rows += [(500_000, 542_500, "TOO_LATE"), (500_000, 542_501, None)]
    rows += [(500_000, 512_500_001, "TOO_EARLY"), (500_000, 512_500_000, None)]
    # It has ended by then.
    rows += [(2_000_000, 2_042_501, None)]
    for own, start, fault in rows:
        queue = DownlinkQueue()
        expect(None, queue.fault(0, 1_000_000, 1_000_000), "a first transmission")
        expect(fault, queue.fault(own, start, 1), f"another one at {start}, asked for at {own}")
    queue = DownlinkQueue()
    told = [queue.fault(0, 1_000_000 * place, 1) for place in range(1, SLOTS + 2)]
    expect([None] * SLOTS + ["full"], told, "more of them than there is room for")
