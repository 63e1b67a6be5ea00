"""The plain server of plain_server.py beside a program that finds no memory at times, for tests/refused_growths.py.

It answers as that model does, but for the numbers of which the program wrote that there was no memory. One that was not taken up
has changed nothing; one that was taken up and then given up has used a downlink counter, and books nothing.
"""
from __future__ import annotations

import copy

from lib.plain_server import Server, Table, lines_of


class StarvedServer(Server):
    """A server that knows what the program wrote."""

    def __init__(self, gateways: list[Table], devices: list[Table], wrote: list[str]) -> None:
        super().__init__(gateways, devices)
        self.wrote, self.at = wrote, 0

    def has_next(self, line: str) -> bool:
        return self.wrote[self.at : self.at + 1] == [line]

    def answered(self, number: int, gathering: Table) -> list[str]:
        twin = copy.deepcopy(self)
        is_owed = Server.answered(twin, number, twin.gathered[number - 1])[0].startswith(("send ", "unanswered "))
        if is_owed and self.has_next(f"no {number} NoMemory"):
            told = [f"no {number} NoMemory"]
        elif is_owed and self.has_next(f"unanswered {number} NoMemory"):
            told = [f"unanswered {number} NoMemory"]
            gathering["device"]["down"] += 1
            self.counts["unanswered"] += 1
        else:
            told = Server.answered(self, number, gathering)
        self.at += len(told)
        return told

    def answers(self, line: bytes, place: int) -> list[str]:
        before = self.at
        told = super().answers(line, place)
        self.at = before + len(told)
        return told


def is_followed(gateways: list[Table], devices: list[Table], events: bytes, wrote: list[str]) -> bool:
    """Whether these lines are what is written for these settings and events, but for numbers that found no memory."""
    server = StarvedServer(gateways, devices, wrote)
    told = [answer for place, line in enumerate(lines_of(events), 1) for answer in server.answers(line, place)]
    return told + server.report() == wrote
