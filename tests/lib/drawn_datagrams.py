"""Datagrams of packet forwarders, right ones and those with every kind of slip, for tests/serve.py.

Most are a PUSH_DATA of which one part is another: a key, a number, the packet's bytes, the object around, the head, or single
bytes. Each uplink is made once, with the keys of a device, so that what is heard is not a copy of something else.
"""
from __future__ import annotations

import base64
import json
from random import Random

from lib import lorawan
from lib.gateway_model import PULL_DATA, PUSH_DATA, RATES, TX_ACK

MOST_BYTES = 65_507
UNKNOWN_DEVICE = 0x26019999
# Numbers as texts: at the edges of 16 and 32 bits, with many digits, with decimals, with exponents, and some that are no JSON.
NUMBERS = ["0", "-0", "1", "-1", "2", "1.0", "1.9", "0.9", "-1.5", "12", "255", "256", "32767", "32768", "-32768", "-32769"]
NUMBERS += ["3276.79", "-3276.89", "3276.8", "4294967295", "4294967296", "9999999999", "10000000000", "1e0", "1E+2", "1e400"]
NUMBERS += ["868.1", "868", "868.1000000", "868.1000001", "868.100000" + "0" * 990, "4294.967295", "4294.967296", "869.52500"]
NUMBERS += ["868.12345", "-0.04", "1" * 1000, "0." + "1" * 1000, "1." + "0" * 1000, "-" + "9" * 1000]
NUMBERS += ["01", "1.", ".5", "+1", "0x1", "NaN", "-Infinity", "1 2"]
OTHERS = ["null", "true", "false", '""', '"x"', '"1"', "[]", "{}", "[1]", '{"stat":1}', '"\\u004c\\u004fRA"', '"\\ud834\\udd1e"']
OTHERS += ['"\\ud834"', '"\\udd1e"', '"\\x"', '"a\tb"', "nul", '"', "[" * 127 + "]" * 127, "[" * 124 + "]" * 124, "[" * 3000]
NUMBERED = ["tmst", "freq", "stat", "rssi", "lsnr", "size"]
TEXTS = {
    "modu": ['"LORA"', '"FSK"', '"lora"', '"LORA "', '"\\u004cORA"'],
    "datr": [f'"{rate}"' for rate in RATES] + ['"SF7BW500"', '"SF6BW125"', '"SF12BW250"', "50000", '"sf7bw125"', '"SF7BW125 "'],
    "freq": ["868.1", "868.100000", "868.3", "868.5", "869.525", "868.6", "868.65", "900", "867.1000", "433.175"],
    "lsnr": ["5.5", "-5.5", "-20", "9.99", "-0.05", "12.8"],
    "stat": ["1", "-1", "0", "1.0", "1.7"],
}
# What a TX_ACK may have as its error, and what else may stand behind its head.
ERRORS = ['"NONE"', '"TOO_LATE"', "null", "1", '""', '"too_late"', '"A B"', f'"{"A" * 32}"', f'"{"A" * 33}"']
ERRORS += ['"TX_FREQ","error":"NONE"']
ACKS = [b'{"txpk_ack":{"error":%s}}' % error.encode() for error in ERRORS]
ACKS += [b"", b"{}", b'{"txpk_ack":{}}', b'{"txpk_ack":null}', b'{"txpk_ack":{"warn":"TX_POWER"}}', b"[]", b"{", b"\xff", b" "]
HEAD_VERSIONS, HEAD_KINDS = [0, 1, 3, 255], [1, 3, 4, 6, 255]


class Drawn:
    """Draws datagrams of the gateways with these EUIs, of which the last sends no PULL_DATA, and uplinks of these devices, by
    address with their keys."""

    def __init__(self, chance: Random, euis: list[bytes], devices: dict[int, tuple[bytes, bytes]]) -> None:
        self.chance, self.euis, self.devices = chance, euis, devices
        self.counters = dict.fromkeys([*devices, UNKNOWN_DEVICE], 0)
        # That of the gateways' packets, which goes on as their time does, and begins anew on the way.
        self.counter = (1 << 32) - 500_000

    def uplink(self) -> bytes:
        """The bytes of an uplink that wasn't there before, which wants no answer."""
        addr = self.chance.choices([*self.devices, UNKNOWN_DEVICE], [10] * len(self.devices) + [1])[0]
        self.counters[addr] += 1
        payload = self.chance.randbytes(self.chance.randrange(9))
        body = None if self.chance.random() < 0.5 else (self.chance.randrange(1, 224), payload)
        keys = self.devices.get(addr, (bytes(16), bytes(16)))
        return lorawan.uplink(False, addr, self.counters[addr], keys, adr=True, body=body)

    def noise(self) -> bytes:
        """Bytes that are no uplink, or one with a fault."""
        data = bytearray(self.uplink())
        data[self.chance.choice([0, 0, 1, 5, 5, 5, 6, 7, -1])] ^= 1 << self.chance.randrange(8)
        size = self.chance.randrange(300)
        return self.chance.choice([bytes(data), data[:size % 13], self.chance.randbytes(size)])

    def fields(self, data: bytes) -> dict[str, str]:
        """A packet's keys, each with its text."""
        self.counter += 500
        told = {"tmst": str(self.counter % (1 << 32)), "chan": "2", "rfch": "1", "freq": "868.100000", "stat": "1"}
        told |= {"modu": '"LORA"', "datr": '"SF7BW125"', "codr": '"4/5"', "rssi": str(-self.chance.randrange(140))}
        told |= {"lsnr": f"{self.chance.randrange(-200, 130) / 10}", "size": str(len(data))}
        return told | {"data": json.dumps(base64.b64encode(data).decode())}

    def slip(self, told: dict[str, str]) -> None:
        """Another text for one of a packet's keys, or none."""
        key, kind = self.chance.choice(list(told)), self.chance.randrange(6)
        if kind < 2:
            told[self.chance.choice(NUMBERED)] = self.chance.choice(NUMBERS)
        elif kind == 2:
            told[key] = self.chance.choice(OTHERS)
        elif kind == 3:
            del told[key]
        elif kind == 4:
            key = self.chance.choice(list(TEXTS))
            told[key] = self.chance.choice(TEXTS[key])
        else:
            told["data"] = self.other_data(told.get("data", '""'))

    def other_data(self, text: str) -> str:
        """A packet's text in base64 with other padding, or other symbols."""
        symbols = text.strip('"')
        slips = [symbols.rstrip("="), symbols + "=", symbols + "==", symbols[:-1], symbols[1:], "=" + symbols, symbols.lower()]
        slips += [symbols[:-1] + "/", symbols.replace("A", "-"), symbols[:4] + "=" + symbols[4:], symbols + "\\n"]
        slips += ["", "A", "AA", "AB"]
        return f'"{self.chance.choice(slips)}"'

    def blank(self) -> str:
        return self.chance.choice(["", "", "", " ", "\n", "\t", "\r\n "])

    def spelt(self, told: dict[str, str]) -> str:
        """A packet as a JSON object, of which a key may come twice, in any order, with blanks or escapes."""
        parts = [(json.dumps(key), text) for key, text in told.items()]
        if self.chance.random() < 0.1:
            self.chance.shuffle(parts)
        if self.chance.random() < 0.1:
            key, text = self.chance.choice(parts)
            parts.insert(self.chance.randrange(len(parts) + 1), (key, self.chance.choice([text, "1", '"LORA"', "null"])))
        if self.chance.random() < 0.1:
            place = self.chance.randrange(len(parts))
            escaped = "".join(f"\\u{ord(letter):04x}" for letter in parts[place][0].strip('"'))
            parts[place] = (f'"{escaped}"', parts[place][1])
        between = self.blank if self.chance.random() < 0.1 else str
        members = [key + between() + ":" + between() + text for key, text in parts]
        return "{" + ("," + between()).join(members) + between() + "}"

    def packet(self) -> str:
        """A packet's text: a right one, or one with a slip."""
        told = self.fields(self.uplink() if self.chance.random() < 0.7 else self.noise())
        for _ in range(self.chance.choice([0, 0, 1, 1, 1, 2])):
            self.slip(told)
        return self.spelt(told)

    def ghosts(self) -> list[str]:
        """One uplink as a concentrator tells it several times."""
        data = self.uplink()
        texts = []
        for _ in range(self.chance.randrange(2, 5)):
            told = self.fields(data) | {"lsnr": self.chance.choice(["5.5", "5.50", "5.59", "-3", "9"])}
            if self.chance.random() < 0.3:
                self.slip(told)
            texts.append(self.spelt(told))
        return texts

    def packets(self) -> list[str]:
        """The texts of a datagram's packets, at times more than are read."""
        kind = self.chance.random()
        if kind < 0.7:
            return [self.packet()]
        if kind < 0.85:
            return [self.packet() for _ in range(self.chance.randrange(4))]
        if kind < 0.97:
            return self.ghosts() + [self.packet()]
        told = self.fields(self.noise())
        return [self.spelt(told | {"tmst": str(number)}) for number in range(self.chance.randrange(30, 36))]

    def object(self) -> bytes:
        """The text of a PUSH_DATA: an object with packets, and at times other members, or something else."""
        packets = "[" + ",".join(self.packets()) + "]"
        rare = ["{}", "", " ", "null", packets, '{"stat":{"rxnb":1}}', '{"rxpk":{}}', '{"rxpk":"x"}', f'{{"Rxpk":{packets}}}']
        rare += [f'{{"rxpk":1,"rxpk":{packets}}}', f'{{"rxpk":{packets},"rxpk":null}}', f'{{"rxpk":{packets},"rxpk":[]}}']
        rare += [f'{{"rxpk":{packets}}}x', f'{{"rxpk":[{packets}]}}', f'{{"rxpk":{packets},}}', f'\ufeff{{"rxpk":{packets}}}']
        rare += [f'{{"a":{"[" * 127}{"]" * 127}}}', f'{{"a":{"[" * 128}{"]" * 128}}}']
        rare += [f'{{"stat":{{"time":"x"}},"rxpk":{packets}}}', f' {{"r\\u0078pk" :{packets}}} \n']
        text = f'{{"rxpk":{packets}}}' if self.chance.random() < 0.85 else self.chance.choice(rare)
        return text.encode()

    def changed(self, text: bytes) -> bytes:
        """A text with some other bytes."""
        told = bytearray(text)
        for _ in range(self.chance.randrange(1, 4)):
            place, byte = self.chance.randrange(len(told) + 1), self.chance.choice(b'"\\{}[],:0-e.u \x00\x1f\x7f\xff\xc3')
            told[place:place + self.chance.choice([0, 1, 1, 5])] = self.chance.choice([b"", bytes([byte]), bytes([byte])])
        return bytes(told)

    def push(self) -> tuple[int, bytes]:
        text = self.object()
        return PUSH_DATA, self.changed(text) if self.chance.random() < 0.15 else text

    def large(self) -> tuple[int, bytes]:
        """The text of a datagram as large as there may be: nested deep, with many packets, with one long text, or blank."""
        room = MOST_BYTES - 12
        packets = ",".join(['{"stat":1}'] * ((room - 11) // 11))
        deep, right = "[" * (room // 2) + "]" * (room // 2), self.spelt(self.fields(self.uplink()))
        spelt = [deep, '{"rxpk":' + deep[:room - 9] + "}", f'{{"rxpk":[{packets}]}}', "[" * room, '{"a":' * (room // 5)]
        spelt += [f'{{"x":"{"y" * (room - len(right) - 19)}","rxpk":[{right}]}}']
        spelt += [" " * (room - len(right) - 11) + f'{{"rxpk":[{right}]}}']
        return PUSH_DATA, self.chance.choice(spelt).encode()

    def datagram(self) -> bytes:
        """A datagram: mostly of a gateway that is known, and mostly a PUSH_DATA."""
        kinds = [self.push, self.large, lambda: (PULL_DATA, b""), lambda: (TX_ACK, self.chance.choice(ACKS))]
        kind, text = self.chance.choices(kinds, [90, 0.3, 3, 5])[0]()
        euis = self.euis[:-1] if kind == PULL_DATA else self.euis
        token, eui = self.chance.randbytes(2), self.chance.choice([*euis[:2] * 10, euis[-1], self.chance.randbytes(8)])
        whole = bytes([2]) + token + bytes([kind]) + eui + text
        slip = self.chance.random()
        if slip < 0.01:
            return bytes([self.chance.choice(HEAD_VERSIONS)]) + whole[1:]
        if slip < 0.02:
            return whole[:3] + bytes([self.chance.choice(HEAD_KINDS)]) + whole[4:]
        return whole[:self.chance.randrange(20)] if slip < 0.03 else whole
