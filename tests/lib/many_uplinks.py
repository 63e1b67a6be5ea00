"""Many uplinks at once, and how they are sent to `airbook serve`, for tests/desks.py and tests/soak.py.

Made one by one they would take minutes. So AES goes over all blocks together here: byte 0 of each block is one text, byte 1 another
one, and each step of the cipher is a step on these texts. `uplinks` compares some of what it makes with lorawan.py.
"""
from __future__ import annotations

import time
from typing import Sequence

from lib import lorawan
from lib.plain_restarts import SetDevice
from lib.played_forwarders import entry, now, push_data
from lib.serving import TOKEN, Sender
from lib.trials import expect

# Sixteen numbers, in each of which a byte stands for each block.
Texts = list[int]
BOX, TWICE = bytes(lorawan.BOX), bytes(lorawan.TWICE)
# So many uplinks are told by a datagram at most, and so many datagrams are not acknowledged yet: the socket has room for these.
MOST, WINDOW = 32, 8
# So many microseconds apart at least, so that of those of the last 0.2 s no more are open than may be.
APART = 65
# A gateway that sent no PULL_DATA for a minute would not be heard.
PULLED_EVERY = 20_000_000
# Behind so many uplinks a desk is made anew, once each of them is answered.
DESK = 32_768


def texts_of(blocks: Sequence[bytes]) -> Texts:
    whole = b"".join(blocks)
    return [int.from_bytes(whole[place::16], "little") for place in range(16)]


def replaced(text: int, count: int, by: bytes) -> int:
    """Each byte of a text is replaced by what stands for it."""
    return int.from_bytes(text.to_bytes(count, "little").translate(by), "little")


def mixed(column: Sequence[int], count: int) -> Texts:
    """MixColumns of one column."""
    whole = column[0] ^ column[1] ^ column[2] ^ column[3]
    twice = [replaced(text, count, TWICE) for text in column]
    return [text ^ whole ^ twice[place] ^ twice[(place + 1) % 4] for place, text in enumerate(column)]


def encrypted(keys: Sequence[Texts], texts: Texts, count: int) -> Texts:
    """So many blocks under AES-128, each under its own key."""
    state = [one ^ key for one, key in zip(texts, keys[0])]
    for turn in range(1, 11):
        state = [replaced(state[(4 * (i // 4 + i % 4) + i % 4) % 16], count, BOX) for i in range(16)]
        if turn < 10:
            state = [text for at in range(0, 16, 4) for text in mixed(state[at:at + 4], count)]
        state = [one ^ key for one, key in zip(state, keys[turn])]
    return state


def mics(devices: Sequence[SetDevice], heads: Sequence[bytes], counters: Sequence[int]) -> list[bytes]:
    """The MIC of each uplink, which has no more than this head of 8 bytes, by the device and the counter beside it."""
    count, keys = len(heads), [one.keys[0] for one in devices]
    rounds = {key: lorawan.round_keys(key) for key in keys}
    texts = [texts_of([rounds[key][turn] for key in keys]) for turn in range(11)]
    last = {key: lorawan.doubled(lorawan.doubled(lorawan.encrypted(key, bytes(16)))) for key in rounds}
    first = [lorawan.header(0x49, lorawan.UP, one.addr, counter, 8) for one, counter in zip(devices, counters)]
    ends = [texts_of([head + b"\x80" + bytes(7) for head in heads]), texts_of([last[key] for key in keys])]
    chain = encrypted(texts, texts_of(first), count)
    codes = encrypted(texts, [one ^ end ^ key for one, end, key in zip(chain, *ends)], count)
    return [bytes(code) for code in zip(*(text.to_bytes(count, "little") for text in codes[:4]))]


def uplinks(devices: Sequence[SetDevice], count: int) -> list[bytes]:
    """So many unconfirmed uplinks without a payload, of these devices in turn, whose counters go on from 1."""
    of = [devices[place % len(devices)] for place in range(count)]
    counters = [place // len(devices) + 1 for place in range(count)]
    rows = zip(of, counters)
    heads = [b"\x40" + one.addr.to_bytes(4, "little") + b"\0" + (up & 0xFFFF).to_bytes(2, "little") for one, up in rows]
    made = [head + code for head, code in zip(heads, mics(of, heads, counters))]
    for place in {0, 1, len(devices) % count, count // 2, count - 1}:
        expect(lorawan.uplink(False, of[place].addr, counters[place], of[place].keys), made[place], f"uplink {place}")
    return made


class Load:
    """Uplinks that are told as fast as a server takes them, by gateways with these EUIs in turn. From another socket, to which
    downlinks go, comes a PULL_DATA of each at first, and then every 20 s."""

    def __init__(self, sender: Sender, euis: Sequence[bytes], puller: Sender) -> None:
        self.sender, self.euis, self.puller, self.due, self.pulled = sender, euis, puller, 0, 0
        # When each datagram was acknowledged, in microseconds; how many are not yet; how many were sent; and PULL_RESPs that came.
        self.came, self.waiting, self.sent, self.asked = [], 0, 0, []
        self.pull()

    def pull(self) -> None:
        """A PULL_DATA of each gateway, which is acknowledged."""
        self.pulled = now()
        for eui in self.euis:
            self.puller.send(b"\2" + TOKEN + b"\2" + eui)
            while (came := self.puller.acknowledged()) != b"\2" + TOKEN + b"\4":
                self.asked.append(came)

    def pull_resp(self) -> bytes:
        """The next PULL_RESP."""
        return self.asked.pop(0) if self.asked else self.puller.acknowledged()

    def send(self, some: Sequence[bytes]) -> None:
        """Tells some, by a datagram."""
        if now() > self.pulled + PULLED_EVERY:
            self.pull()
        while now() < self.due:
            time.sleep(0.0005)
        self.due = max(self.due, now()) + APART * len(some)
        moment = now() % (1 << 32)
        self.sender.send(push_data(self.euis[self.sent % len(self.euis)], TOKEN, [entry(data, moment) for data in some]))
        self.sent, self.waiting = self.sent + 1, self.waiting + 1
        self.settle(WINDOW - 1)

    def send_all(self, made: Sequence[bytes]) -> None:
        """Tells these, as many at a time as may be, until all are acknowledged."""
        for place in range(0, len(made), MOST):
            self.send(made[place:place + MOST])
        self.settle()

    def settle(self, most: int = 0) -> None:
        """Waits until no more datagrams than these aren't acknowledged."""
        while self.waiting > most:
            expect(b"\2" + TOKEN + b"\1", self.sender.acknowledged(), "an acknowledgement")
            self.came.append(now())
            self.waiting -= 1

    def longest(self) -> int:
        """The longest time between two acknowledgements, in microseconds."""
        return max(later - sooner for sooner, later in zip(self.came, self.came[1:]))
