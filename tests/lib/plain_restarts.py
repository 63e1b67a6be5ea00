"""A plain model of what `airbook serve --state` goes on with behind a restart.

It is written from docs/FORMATS.md ("Journal") and docs/SERVE.md: the settings, and what the journal says by the reader of
plain_journal.py, come to a state, which is compared with that of the journal that the server wrote anew. Moments are in
microseconds.
"""
from __future__ import annotations

from typing import NamedTuple, Optional

from lib import lorawan
from lib.plain_book import PlainBook
from lib.plain_journal import State
from lib.serving import SECONDS, device_table, gateway_table
from lib.trials import Failed, expect

GAP = 45_000
# What the clock of a gateway shows at least that no journal knows.
FIRST_HIGH = 2_000_000
# How long a gateway is silent behind a restart, from the end of what it was asked for last and the gap behind that.
SILENCE = 2_000_000
# A channel in Hz, and a data rate.
RX2 = (869_525_000, 5)


class SetGateway(NamedTuple):
    """A gateway as the settings have it."""

    number: int
    eui: bytes
    cap: int = 4_096
    gap: int = GAP

    def table(self) -> str:
        return gateway_table(self.number, eui=f'"{self.eui.hex()}"', cap=self.cap, gap=self.gap)


class SetDevice(NamedTuple):
    """A device as the settings have it."""

    addr: int
    keys: tuple[bytes, bytes]
    up: Optional[int] = None
    down: int = 0
    delay: int = 1
    rx2: tuple[int, int] = RX2

    def table(self) -> str:
        more = "" if self.up is None else f"up = {self.up}\n"
        more += f"down = {self.down}\ndelay = {self.delay}\nrx2_freq = {self.rx2[0]}\nrx2_dr = {self.rx2[1]}\n"
        return device_table(self.addr, self.keys) + more

    def session(self) -> bytes:
        return lorawan.cmac(*self.keys)[:4]


class Settings(NamedTuple):
    """The settings of a server."""

    gateways: list[SetGateway]
    devices: list[SetDevice]

    def text(self) -> str:
        return "".join(one.table() for one in [*self.gateways, *self.devices])

    def journal(self, *lines: str) -> bytes:
        """A journal of one batch, with these gateways and devices and with more lines."""
        gateways = [f"gateway {one.number} {one.eui.hex()} {one.cap} {one.gap}" for one in self.gateways]
        ups = ["-" if one.up is None else one.up for one in self.devices]
        devices = [f"device {one.addr:08x} {one.session().hex()} {up} {one.down}" for one, up in zip(self.devices, ups)]
        return "".join(line + "\n" for line in ["airbook journal 1", *gateways, *devices, *lines, "."]).encode()


def ruled(book: PlainBook, one: SetGateway) -> PlainBook:
    """A book under the cap and the gap of the settings, where all that it holds may be booked so; else under its own."""
    for cap, gap in ((one.cap, one.gap), (book.cap, book.gap)):
        made = PlainBook(cap, gap, one.number)
        told = [made.ask(0, start, *book.asks[start]) for start, *_ in book.members]
        if all(answer.startswith("ok") for answer in told):
            break
    made.floor = book.floor
    return made


def silenced(book: PlainBook) -> PlainBook:
    """A book whose floor is behind all that it holds."""
    book.tick(max((end + book.gap + SILENCE for _, end, *_ in book.members), default=0))
    return book


def goes_on(before: State, settings: Settings) -> State:
    """What a server with these settings has that goes on with what a journal says."""
    state, by_eui = State(), {eui: (high, book) for eui, high, book in before.gateways.values()}
    for one in settings.gateways:
        high, book = by_eui.get(one.eui, (FIRST_HIGH, PlainBook(one.cap, one.gap, one.number)))
        state.gateways[one.number] = [one.eui, high, silenced(ruled(book, one))]
    for one in settings.devices:
        session, up, down, waiting = before.devices.get(one.addr, (None, None, 0, []))
        if session == one.session():
            ups = [counter for counter in (up, one.up) if counter is not None]
            state.devices[one.addr] = [session, max(ups, default=None), max(down, one.down), waiting]
        else:
            state.devices[one.addr] = [one.session(), one.up, one.down, []]
    return state


def rows_of(state: State) -> dict[str, list[tuple]]:
    """All that it says but what the clocks show at least: a table's rows in one order, without their own numbers."""
    rows = state.rows()
    return {
        "gateway": sorted(row[:4] + row[5:] for row in rows["gateway"]),
        "device": sorted(rows["device"], key=lambda row: row[0]),
        # What waits for a device stays in its order.
        "queued": sorted((row[1:] for row in rows["queued"]), key=lambda row: row[0]),
        "sent": sorted(row[1:] for row in rows["sent"]),
    }


def expect_state(wanted: State, got: State, what: str) -> None:
    """The state is the wanted one. A clock may show what has passed since the server began."""
    wanted_rows, rows = rows_of(wanted), rows_of(got)
    for table, own in wanted_rows.items():
        expect(own, rows[table], f"{what}, table {table}")
    for number, (_, high, _) in wanted.gateways.items():
        most = high + SECONDS * 1_000_000
        within(high, got.gateways[number][1], most, f"{what}, what the clock of gateway {number} shows at least")


def within(low: int, number: int, high: int, what: str) -> None:
    if not low <= number <= high:
        raise Failed(f"{what}: {number} is not within {low} and {high}")
