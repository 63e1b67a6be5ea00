"""Payloads that wait while an `airbook serve --state` is killed, each time right behind an answer, for tests/control.py.

Of what it keeps there is a plain list, and what it sends is compared with plain frames.
"""
from __future__ import annotations

import contextlib
import pathlib
from typing import Iterator

from lib import lorawan
from lib.control_lines import EMPTY, FULL, MOST, queue, text_of
from lib.failing_disk import KEYS
from lib.plain_journal import reader
from lib.plain_restarts import SetDevice, SetGateway, Settings
from lib.plain_server import report_of
from lib.played_forwarders import tell_uplink
from lib.played_gateway import read_pull_resp
from lib.refused_states import state_words
from lib.serving import EUIS, Sender, Server
from lib.trials import expect

# What is queued for a device, behind its ports.
WAITING = [(9, b"\xc0\xff\xee"), (1, b""), (223, bytes(range(242))), (10, b"\0")]


class Kept:
    """A state over lives that end by a kill, each right behind an answer; and a plain list of what waits for each device."""

    def __init__(self, program: str, folder: pathlib.Path, settings: Settings) -> None:
        self.program, self.folder, self.settings = program, folder, settings
        self.waiting: dict[int, list[tuple[int, bytes]]] = {one.addr: [] for one in settings.devices}
        self.downs = dict.fromkeys(self.waiting, 0)
        self.ups = dict.fromkeys(self.waiting, 0)

    @contextlib.contextmanager
    def life(self) -> Iterator[None]:
        """A life, which ends by a kill. The journal that it begins with has what waits, and its report the books of that. At the
        kill all was read that came."""
        is_new = not (self.folder / "journal").exists()
        server = Server(self.program, self.settings.text(), words=state_words(self.folder, *["--new"] * is_new))
        with server as self.server, Sender(server) as self.sender, Sender(server) as self.client:
            for one in self.settings.gateways:
                self.sender.pull(one.eui)
            self.compare("a start")
            self.expect_report("a start")
            yield
            server.child.kill()
            server.child.wait()
            self.compare("a kill")
            self.sender.is_quiet()
            self.client.is_quiet()

    def compare(self, behind: str) -> None:
        """What waits by the journal, and the next counters."""
        devices = reader((self.folder / "journal").read_bytes())[0].devices
        expect(self.waiting, {addr: waiting for addr, (*_, waiting) in devices.items()}, f"what waits behind {behind}")
        expect(self.downs, {addr: down for addr, (_, _, down, _) in devices.items()}, f"the next counters behind {behind}")

    def expect_report(self, behind: str, **counts: int) -> None:
        """A report has the books of the journal, and these counts."""
        gateways = reader((self.folder / "journal").read_bytes())[0].gateways
        wanted = text_of(report_of({number: book for number, (_, _, book) in gateways.items()}, **counts))
        expect(wanted, self.client.answer(b"report\n"), f"the report behind {behind}")

    def queue(self, addr: int, port: int, payload: bytes) -> None:
        """A payload is queued, or there are too many."""
        waiting = self.waiting[addr]
        is_full = len(waiting) == MOST
        if not is_full:
            waiting.append((port, payload))
        wanted = "no queue QueueFull\n" if is_full else f"queued {addr:08x} {len(waiting)}\n"
        expect(wanted, self.client.answer(queue(addr, port, payload)), f"the answer to payload {len(waiting)}")

    def tell(self, gateway: int, addr: int, is_confirmed: bool) -> None:
        self.ups[addr] += 1
        tell_uplink(self.sender, EUIS[gateway], lorawan.uplink(is_confirmed, addr, self.ups[addr], KEYS))

    def silent(self, gateway: int, addr: int) -> None:
        """An uplink to which no answer is owed."""
        self.tell(gateway, addr, False)
        self.server.upto("silent ")

    def uplink(self, gateway: int, addr: int, is_confirmed: bool = False) -> None:
        """An uplink, and the frame that answers it: the first payload goes along, under the next counter."""
        self.tell(gateway, addr, is_confirmed)
        body = self.waiting[addr].pop(0) if self.waiting[addr] else None
        wanted = lorawan.downlink(addr, self.downs[addr], KEYS, is_confirmed, bool(self.waiting[addr]), body)
        self.downs[addr] += 1
        expect(wanted, read_pull_resp(self.sender.acknowledged())[4], f"the frame that answers an uplink of gateway {gateway}")


def over_kills(program: str, folder: pathlib.Path) -> None:
    """Five lives. Each time another gateway answers, since one that had something to send is silent behind a kill."""
    one, full = int(EMPTY, 16), int(FULL, 16)
    gateways = [SetGateway(number, EUIS[number]) for number in range(1, 6)]
    kept = Kept(program, folder, Settings(gateways, [SetDevice(addr, KEYS) for addr in (one, full)]))
    with kept.life():
        for place in range(MOST + 1):
            kept.queue(full, 9, bytes([place]))
        for port, payload in WAITING[:3]:
            kept.queue(one, port, payload)
    with kept.life():
        kept.uplink(1, one)
        kept.queue(full, 9, b"\xff")
        kept.queue(one, *WAITING[3])
    with kept.life():
        kept.uplink(2, one, is_confirmed=True)
    with kept.life():
        kept.uplink(3, one)
        kept.uplink(4, one, is_confirmed=True)
        kept.expect_report("two answers", send=2)
        kept.silent(5, one)
        kept.expect_report("three uplinks", send=2, silent=1)
    with kept.life():
        kept.queue(full, 9, b"\xff")
        kept.uplink(5, full)
        kept.queue(full, 9, b"\xff")
        kept.queue(full, 9, b"\xfe")
