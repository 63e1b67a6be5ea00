"""Floods of datagrams of which nothing comes but drops, and answers that they ask for nothing, for tests/soak.py and
bench/serve.py."""
from __future__ import annotations

import threading
import time
from typing import Sequence

from lib.serving import Sender

# So many datagrams are sent in a millisecond.
EACH_MS = 20


def malformed(eui: bytes) -> list[bytes]:
    """Datagrams with every kind of slip, some with this EUI."""
    own = b"\2\0\0\0" + eui
    bad = [b"", b"\2", b"\1\0\0\0", b"\2\0\0\7" + eui, b"\2\0\0\0" + bytes(8), b"x" * 1400]
    return bad + [own + text for text in (b'{"rxpk":[{"tmst":1', b'{"rxpk":[{"stat":-1}]}', b"[" * 1400)]


class Flood:
    """Datagrams that a thread sends in turn, so many each millisecond, in a `with`."""

    def __init__(self, sender: Sender, made: Sequence[bytes]) -> None:
        self.sender, self.made, self.sent, self.is_over = sender, made, 0, threading.Event()
        self.thread = threading.Thread(target=self.send)

    def __enter__(self) -> Flood:
        self.began = time.monotonic()
        self.thread.start()
        return self

    def __exit__(self, *_: object) -> None:
        self.is_over.set()
        self.thread.join()
        self.seconds = time.monotonic() - self.began

    def send(self) -> None:
        while not self.is_over.is_set():
            due = int((time.monotonic() - self.began) * 1_000) * EACH_MS
            for place in range(self.sent, min(due, self.sent + 10 * EACH_MS)):
                self.sender.send(self.made[place % len(self.made)])
            self.sent = max(self.sent, min(due, self.sent + 10 * EACH_MS))
            time.sleep(0.001)
