"""Lines of `airbook run` that are drawn, for tests/random_runs.py and datagrams of tests/listen.py."""
from __future__ import annotations

from random import Random

from lib import lorawan
from lib.drawn_settings import NARROW
from lib.plain_book import HOUR
from lib.plain_server import COUNTERS, JOINS, LAST_MOMENT, LATE, Server, Table

# A frequency in a sub-band at each data rate, or at 125 kHz alone where it is an edge; the last ones are in none.
CHANNELS = [868_100_000, 868_300_000, 868_537_500, 867_100_000, 863_500_000, 868_850_000, 869_525_000, 869_850_000]
NO_CHANNELS = [868_537_501, 865_000_000, 868_650_000, 433_000_000, 0]
STEPS = [0, 0, 1_000, 50_000, 150_000, 200_000, 200_001, 1_000_001, 5_000_000]


class Traffic:
    """Draws lines, beside a server that says how far devices and gatherings have come."""

    def __init__(self, chance: Random, gateways: list[Table], devices: list[Table]) -> None:
        self.chance, self.server = chance, Server(gateways, devices)
        self.lines: list[bytes] = []
        self.now = chance.choice([0, 0, 0, 7_000_000_000, 7_000_000_000, LAST_MOMENT - 20_000_000])
        ahead = [0, 0, 3_000_000, HOUR] if self.now < LAST_MOMENT // 2 else [0]
        self.clocks = {one["id"]: chance.choice(ahead) for one in gateways}
        self.channels, self.rates, self.steps = chance.sample(CHANNELS, 2), chance.sample(range(7), 3), STEPS
        if devices[0]["rx2_freq"] in NARROW:
            self.channels, self.rates, self.steps = NARROW, [0, 0, 1], STEPS[-4:] + [5_000_000, 60_000_000]
        self.heard: list[bytes] = []

    def add(self, line: bytes) -> None:
        self.server.answers(line, 0)
        self.lines.append(line)

    def drawn(self) -> list[bytes]:
        """Some dozens of lines."""
        steps = [self.uplink] * 9 + [self.again, self.payload] * 3 + [self.passing] * 6 + [self.ticking, self.cancelling] * 2
        steps += [self.odd_copy, self.odd_frame, self.odd_counter, self.damaged, self.nothing]
        for _ in range(self.chance.randrange(10, 60)):
            self.now += self.chance.choice(self.steps)
            self.chance.choice(steps)()
        self.now += 200_001
        self.add(b"pass %d" % self.now)
        return self.lines

    def counter(self, device: Table) -> int:
        """A counter that may come next, or none."""
        last = device["up"]
        first = 0 if last is None else last + 1
        counter = first + self.chance.choice([0, 0, 0, 1, 7, 65_534])
        return counter if counter < COUNTERS else last

    def copy(self, where: int, word: bytes, **other: int) -> bytes:
        """A line `hear`, but for what is told otherwise."""
        chance = self.chance
        after = chance.choice([0, 0, 1, 41_216, chance.randrange(600_000)])
        said = {"gateway": where, "at": self.now + self.clocks.get(where, 0) + after}
        said |= {"frequency": chance.choice(self.channels), "rate": chance.choice(self.rates)}
        while lorawan.band_of(said["frequency"], said["rate"]) is None:
            said["rate"] = chance.randrange(6)
        said |= {"snr": chance.choice([-200, -20, 55, 55, 0]), "rssi": chance.choice([-120, -90, -90, 0])}
        said |= {"arrived": max(self.now + chance.choice([0, 0, 0, -5, 100, 90_000]), 0)} | other
        words = " ".join(str(value) for value in said.values())
        return b"hear " + words.encode() + b" " + word

    def uplink(self) -> None:
        """An uplink that some gateways hear."""
        chance = self.chance
        device = chance.choice(list(self.server.devices.values()))
        counter = self.counter(device)
        kind = chance.choice("cccua")
        word = f"@{kind}:{device['addr']:08x}:{counter}".encode()
        if chance.random() < 0.5:
            body = chance.choice([None, (0, b""), (chance.randrange(224), chance.randbytes(chance.randrange(40)))])
            said = {"adr": chance.random() < 0.5, "ack": chance.random() < 0.2, "body": body}
            said |= {"options": chance.randbytes(chance.choice([0, 0, 3, 15])), "adr_ack_req": kind == "a"}
            made = lorawan.uplink(kind == "c", device["addr"], counter, device["keys"], **said)
            # The bits that are not looked at.
            unseen = chance.choice([0, 0, 0, 0x1C]), chance.choice([0, 0, 0, 0x10])
            made = bytes([made[0] | unseen[0]]) + made[1:5] + bytes([made[5] | unseen[1]]) + made[6:-4]
            word = (made + lorawan.mic(device["keys"][0], lorawan.UP, device["addr"], counter, made)).hex().encode()
        self.heard.append(word)
        gateways = list(self.clocks)
        for gateway in chance.sample(gateways, chance.randrange(1, len(gateways) + 1)):
            self.add(self.copy(gateway, word))

    def again(self) -> None:
        """An uplink that was heard before, now or about where copies no longer join, or where they open a gathering."""
        word = self.chance.choice(self.heard) if self.heard else b"-"
        edges = JOINS, JOINS + 1, LATE, LATE + 1
        arrived = self.chance.choice([self.now] + [one["opened"] + far for one in self.server.gathered[-3:] for far in edges])
        self.add(self.copy(self.chance.choice(list(self.clocks)), word, arrived=arrived))

    def payload(self) -> None:
        chance = self.chance
        addr = chance.choice(list(self.server.devices) + [chance.randrange(1 << 32)] * (chance.random() < 0.2))
        length = chance.choice([0, 1, 10, 38, 39, 46, 47, 51, 52, 102, 110, 115, 116, 242, 243])
        port = chance.choice([1, 9, 223, 223, 1] + [0, 224, 255] * (chance.random() < 0.2))
        line = f"queue {addr:08x} {port} {chance.randbytes(length).hex() or '-'}".encode()
        for _ in range(17 if chance.random() < 0.03 else 1):
            self.add(line)

    def passing(self) -> None:
        opened = [one["opened"] for one in self.server.gathered if not one["closed"]]
        self.add(b"pass %d" % self.chance.choice([self.now] + [moment + far for moment in opened for far in (JOINS, JOINS + 1)]))

    def ticking(self) -> None:
        gateway = self.chance.choice(list(self.clocks) + [4])
        clock = self.now + self.clocks.get(gateway, 0)
        ahead = self.chance.choice([-1_000_000, -100_000, 0, 0, 500_000, 1_500_000, 3_000_000, HOUR + 2_000_000])
        self.add(b"tick %d %d" % (gateway, max(clock + (ahead if ahead < HOUR or self.chance.random() < 0.3 else 0), 0)))

    def cancelling(self) -> None:
        booked = list(self.server.booked)
        self.add(b"cancel %d" % self.chance.choice(booked[-3:] + [len(self.server.gathered), self.chance.randrange(9)]))

    def odd_copy(self) -> None:
        """A copy that no gateway may have."""
        word = self.chance.choice(self.heard + [b"@c:00000000:0", b"@u:ffffffff:70000"])
        gateway = self.chance.choice(list(self.clocks))
        other = self.chance.choice([
            {"rate": self.chance.choice([7, 255])}, {"frequency": self.chance.choice(NO_CHANNELS)}, {"at": LAST_MOMENT + 1},
            {"at": (1 << 64) - 1}, {"arrived": LAST_MOMENT + 1}, {"at": LAST_MOMENT}, {"gateway": 4, "rate": 7}, {"gateway": 4},
            {"frequency": 868_537_501, "rate": 5}, {}, {"snr": 32_767, "rssi": -32_768}, {"frequency": 0, "rate": 7},
        ])
        self.add(self.copy(gateway, word, **other))

    def odd_frame(self) -> None:
        """Bytes that are no uplink, or one of no device, or with a fault."""
        chance, device = self.chance, self.chance.choice(list(self.server.devices.values()))
        good = lorawan.uplink(True, device["addr"], self.counter(device), device["keys"])
        flipped = bytearray(good)
        flipped[chance.randrange(len(flipped))] ^= 1 << chance.randrange(8)
        other = lorawan.uplink(False, device["addr"] ^ 1 << 31, 0, device["keys"])
        major, cut = bytes([good[0] | chance.randrange(1, 4)]) + good[1:], good[:5] + b"\x01" + good[6:]
        kind = bytes([chance.choice([0x00, 0x20, 0x60, 0xA0, 0xE0])]) + good[1:]
        short = good[:chance.randrange(12)]
        word = chance.choice([bytes(flipped), bytes(flipped), other, major, kind, cut, good[:11], short, good + bytes(244)])
        self.add(self.copy(chance.choice(list(self.clocks)), word.hex().encode() or b"-"))

    def odd_counter(self) -> None:
        """A counter that can't come next, or that the last uplink had; or other keys."""
        chance, device = self.chance, self.chance.choice(list(self.server.devices.values()))
        last = device["up"] or 0
        counter = max(last + chance.choice([-1, -1, 0, 0, 65_536, 65_537, -65_536, 200_000]), 0) % COUNTERS
        keys = device["keys"] if chance.random() < 0.8 else device["keys"][::-1]
        made = lorawan.uplink(chance.random() < 0.5, device["addr"], counter, keys, adr=True)
        self.heard.append(made.hex().encode())
        self.add(self.copy(chance.choice(list(self.clocks)), self.heard[-1]))

    def damaged(self) -> None:
        """A line of before, spelled otherwise, or no line of any kind."""
        chance = self.chance
        line = chance.choice(self.lines) if self.lines else b"pass 0"
        at, words = chance.randrange(len(line) + 1), line.split(b" ")
        place = chance.randrange(len(words))
        byte = chance.choice([b" ", b"\t", b"-", b"\r", b"\0", b"0", b":", b"\xff"])
        odd = [b"", b"-0", b"+1", b"18446744073709551616", b"0" * 20 + b"1", b"4294967296", b"65536", b"256", b"32768", b"-32769"]
        odd += [b"@", b"@c:1:2", b"0" + words[place]]
        drawn = [b" ".join(words[:place] + [word] + words[place + 1:]) for word in chance.sample(odd, 6)]
        drawn += [line[:at] + new + line[at + old:] for new, old in ((b"", 1), (byte, 0), (bytes([chance.randrange(256)]), 1))]
        drawn += [line[:at], line + b" 0", b"\t" + line.replace(b" ", b" \t ") + b"  ", b"#" + line, b" #" + line, line.upper()]
        drawn += [line.ljust(1024), line.ljust(1025), b"#".ljust(1025), b" " * 1024, b"---"]
        self.add(chance.choice(drawn))

    def nothing(self) -> None:
        self.add(self.chance.choice([b"", b"# nothing", b" \t ", b"#" * 1024]))
