"""A payload whose downlink an `airbook serve --state` holds back, for tests/soak.py.

A gateway's counter jumps between an uplink and its answer, so that this isn't sent. The next payload goes along with the next
answer, and in the next life comes the one behind that. None is sent twice.
"""
from __future__ import annotations

import pathlib
import time

from lib import lorawan
from lib.failing_disk import ADDR, KEYS
from lib.plain_journal import reader
from lib.plain_restarts import SILENCE, SetDevice, SetGateway, Settings
from lib.played_forwarders import entry, now, push_data
from lib.played_gateway import read_pull_resp
from lib.serving import EUIS, TOKEN, Sender, Server
from lib.trials import Failed, expect

PAYLOADS = [bytes([place, 255]) for place in range(4)]
JUMP = 1 << 31


def tell(sender: Sender, addr: int, counter: int, shift: int, is_confirmed: bool = True) -> None:
    data = lorawan.uplink(is_confirmed, addr, counter, KEYS)
    told = push_data(EUIS[1], TOKEN, [entry(data, (now() + shift) % (1 << 32))])
    sender.asked(told, b"\2" + TOKEN + b"\1")


def answered(sender: Sender) -> bytes:
    """The payload of the next downlink."""
    frame = read_pull_resp(sender.acknowledged())[4]
    counter = int.from_bytes(frame[6:8], "little")
    return lorawan.crypted(KEYS[1], lorawan.DOWN, ADDR, counter, frame[9:-4])


def held_back(program: str, folder: pathlib.Path) -> None:
    """Two lives: what is sent, and what still waits by the journal."""
    settings = Settings([SetGateway(1, EUIS[1])], [SetDevice(ADDR, KEYS), SetDevice(ADDR + 1, KEYS)])
    (folder / "journal").write_bytes(settings.journal(*[f"queue {ADDR:08x} 9 {one.hex()}" for one in PAYLOADS]))
    sent = []
    for shift in (JUMP, 0):
        with Server(program, settings.text(), words=["--state", str(folder)]) as server, Sender(server) as sender:
            sender.pull(EUIS[1])
            if shift:
                tell(sender, ADDR, 1, 0)
                tell(sender, ADDR + 1, 1, shift, False)
                expect(["failed 1 1 Session"], server.upto("failed")[-1:], "what is told of the first answer")
            time.sleep(SILENCE / 1_000_000 + 0.5)
            tell(sender, ADDR, 2 if shift else 3, shift)
            sent.append(answered(sender))
        waiting = [payload for _, payload in reader((folder / "journal").read_bytes())[0].devices[ADDR][3]]
        if set(sent) & set(waiting) or sorted(set(sent)) != sent:
            raise Failed(f"the payloads {sent} were sent, and by the journal {waiting} still wait")
