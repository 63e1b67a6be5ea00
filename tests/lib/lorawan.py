"""What the models in Python share: time on air, the sub-bands of EU868, AES-128, CMAC and data frames of LoRaWAN 1.0.4.

All is written from docs/FORMATS.md, docs/MODEL.md and the standards that these name, by hand and without any library of ciphers.
`checked` compares it with values of the standards, of a published frame and of docs/FORMATS.md; those who use this call it first.
"""
from __future__ import annotations

import functools
import sys
from typing import Iterable, Iterator, Optional, Sequence

# NwkSKey and AppSKey.
Keys = tuple[bytes, bytes]
# A port and a payload; none where a frame has neither.
Body = Optional[tuple[int, bytes]]
HOUR = 3_600_000_000
# The end of time: nothing that is booked ends later.
END = 1 << 61
# By its number the data rate's spreading factor, bandwidth in Hz and greatest MACPayload in bytes.
RATES = [(12, 125_000, 59), (11, 125_000, 59), (10, 125_000, 59), (9, 125_000, 123), (8, 125_000, 250), (7, 125_000, 250)]
RATES += [(7, 250_000, 250)]
# A sub-band's letter, its edges in Hz, and its duty cycle in thousandths.
BANDS = [
    ("K", 863_000_000, 865_000_000, 1),
    ("L", 865_000_000, 868_000_000, 10),
    ("M", 868_000_000, 868_600_000, 10),
    ("N", 868_700_000, 869_200_000, 1),
    ("P", 869_400_000, 869_650_000, 100),
    ("Q", 869_700_000, 870_000_000, 10),
]
LIMITS = {letter: HOUR // 1000 * duty for letter, _, _, duty in BANDS}
UNCONFIRMED_UP, UNCONFIRMED_DOWN, CONFIRMED_UP = 2, 3, 4
UP, DOWN = 0, 1


def greatest(rate: int) -> int:
    """The longest PHYPayload: MHDR and MIC are five bytes."""
    return RATES[rate][2] + 5


def airtime(rate: int, length: int) -> int:
    """The time on air in microseconds: 8 + 4.25 symbols and the payload's, with explicit header, coding rate 4/5 and no CRC."""
    factor, bandwidth, _ = RATES[rate]
    quarter = (1 << factor) * 1_000_000 // (4 * bandwidth)
    optimised = 1 if 4 * quarter > 16_000 else 0
    crc, implicit, coding = 0, 0, 1
    bits = 8 * length - 4 * factor + 28 + 16 * crc - 20 * implicit
    blocks = -(-bits // (4 * (factor - 2 * optimised)))
    symbols = 8 + max(blocks * (coding + 4), 0)
    return (4 * 8 + 17 + 4 * symbols) * quarter


def band_of(frequency: int, rate: int) -> Optional[str]:
    """The sub-band in which the channel lies, edges included; none where it lies in no sub-band."""
    half = RATES[rate][1] // 2
    return next((b for b, low, high, _ in BANDS if low <= frequency - half and frequency + half <= high), None)


def times(a: int, b: int) -> int:
    """The product of two bytes as polynomials over two elements, modulo x^8 + x^4 + x^3 + x + 1."""
    product = 0
    for place in range(8):
        if b >> place & 1:
            product ^= a << place
    for place in range(14, 7, -1):
        if product >> place & 1:
            product ^= 0x11B << place - 8
    return product


def substitute(byte: int) -> int:
    """The S-box of FIPS 197: the inverse, and then each bit with four others and one of 63."""
    inverse = next((b for b in range(1, 256) if times(byte, b) == 1), 0)
    bits = [inverse >> i & 1 for i in range(8)]
    mixed = [bits[i] ^ bits[(i + 4) % 8] ^ bits[(i + 5) % 8] ^ bits[(i + 6) % 8] ^ bits[(i + 7) % 8] for i in range(8)]
    return sum((bit ^ (0x63 >> i & 1)) << i for i, bit in enumerate(mixed))


BOX = [substitute(byte) for byte in range(256)]
TWICE, THRICE = [times(2, byte) for byte in range(256)], [times(3, byte) for byte in range(256)]


def added(one: Iterable[int], other: Iterable[int]) -> bytes:
    return bytes(a ^ b for a, b in zip(one, other))


@functools.lru_cache(maxsize=None)
def round_keys(key: bytes) -> list[bytes]:
    words, constant = [key[4 * i:4 * i + 4] for i in range(4)], 1
    for i in range(4, 44):
        last = words[-1]
        if i % 4 == 0:
            last = added([BOX[b] for b in last[1:] + last[:1]], [constant, 0, 0, 0])
            constant = times(2, constant)
        words.append(added(words[i - 4], last))
    return [b"".join(words[4 * i:4 * i + 4]) for i in range(11)]


def encrypted(key: bytes, block: bytes) -> bytes:
    """A block under AES-128: the state is 4 by 4, filled column by column."""
    keys = round_keys(key)
    state: Sequence[int] = added(block, keys[0])
    for turn in range(1, 11):
        # ShiftRows: byte r of column c comes from column c + r.
        state = [BOX[state[(4 * (i // 4 + i % 4) + i % 4) % 16]] for i in range(16)]
        if turn < 10:
            mixed: list[int] = []
            for at in range(0, 16, 4):
                a, b, c, d = state[at:at + 4]
                mixed += [TWICE[a] ^ THRICE[b] ^ c ^ d, a ^ TWICE[b] ^ THRICE[c] ^ d]
                mixed += [a ^ b ^ TWICE[c] ^ THRICE[d], THRICE[a] ^ b ^ c ^ TWICE[d]]
            state = mixed
        state = added(state, keys[turn])
    return bytes(state)


def doubled(block: bytes) -> bytes:
    """A block shifted left by one bit, with 87 added to its last byte where a bit falls out."""
    number = int.from_bytes(block, "big") << 1
    return (number ^ (1 << 128 | 0x87) if number >> 128 else number).to_bytes(16, "big")


def cmac(key: bytes, message: bytes) -> bytes:
    """The code of RFC 4493."""
    first = doubled(encrypted(key, bytes(16)))
    count = max(-(-len(message) // 16), 1)
    last = message[16 * (count - 1):]
    last = added(last, first) if len(last) == 16 else added((last + b"\x80").ljust(16, b"\0"), doubled(first))
    chain = bytes(16)
    for block in [message[16 * i:16 * i + 16] for i in range(count - 1)] + [last]:
        chain = encrypted(key, added(chain, block))
    return chain


def header(first: int, way: int, addr: int, counter: int, last: int) -> bytes:
    """What B0 and the blocks A i share."""
    return bytes([first, 0, 0, 0, 0, way]) + addr.to_bytes(4, "little") + counter.to_bytes(4, "little") + bytes([0, last])


@functools.lru_cache(maxsize=None)
def mic(key: bytes, way: int, addr: int, counter: int, message: bytes) -> bytes:
    return cmac(key, header(0x49, way, addr, counter, len(message)) + message)[:4]


def crypted(key: bytes, way: int, addr: int, counter: int, payload: bytes) -> bytes:
    """The payload and the key stream, added: encrypted, or decrypted again."""
    blocks = -(-len(payload) // 16)
    return added(payload, b"".join(encrypted(key, header(1, way, addr, counter, i)) for i in range(1, blocks + 1)))


def frame(kind: int, way: int, addr: int, control: int, counter: int, options: bytes, body: Body, keys: Keys) -> bytes:
    """A PHYPayload."""
    text = bytes([kind << 5]) + addr.to_bytes(4, "little") + bytes([control]) + (counter & 0xFFFF).to_bytes(2, "little") + options
    if body is not None:
        port, payload = body
        text += bytes([port]) + crypted(keys[0] if port == 0 else keys[1], way, addr, counter, payload)
    return text + mic(keys[0], way, addr, counter, text)


def uplink(
    confirmed: bool, addr: int, counter: int, keys: Keys, adr: bool = False, adr_ack_req: bool = False, ack: bool = False,
    options: bytes = b"", body: Body = None,
) -> bytes:
    """What a device sends."""
    control = 0x80 * adr | 0x40 * adr_ack_req | 0x20 * ack | len(options)
    return frame(CONFIRMED_UP if confirmed else UNCONFIRMED_UP, UP, addr, control, counter, options, body, keys)


def downlink(addr: int, counter: int, keys: Keys, ack: bool = False, pending: bool = False, body: Body = None) -> bytes:
    """What a server sends: unconfirmed, without FOpts."""
    return frame(UNCONFIRMED_DOWN, DOWN, addr, 0x20 * ack | 0x10 * pending, counter, b"", body, keys)


def uplink_fault(data: bytes) -> Optional[str]:
    """Why the bytes are no uplink; none where they are one."""
    if len(data) < 12:
        return "Short"
    if len(data) > 255:
        return "Long"
    if data[0] >> 5 not in (UNCONFIRMED_UP, CONFIRMED_UP):
        return "NotData"
    if data[0] & 3:
        return "Major"
    return "OptionsCut" if 8 + data[5] % 16 > len(data) - 4 else None


def has_mic(data: bytes, counter: int, key: bytes) -> bool:
    """Whether an uplink ends in the MIC that it has under the counter."""
    return data[-4:] == mic(key, UP, int.from_bytes(data[1:5], "little"), counter, data[:-4])


def inferred(last: Optional[int], low: int) -> Optional[int]:
    """The least counter that is not below the last one and has these low 16 bits; none where that needs more than 32 bits."""
    counter = next(c for c in range(last or 0, (last or 0) + 0x10000) if c & 0xFFFF == low)
    return counter if counter < 1 << 32 else None


def published() -> Iterator[tuple[str, object, object]]:
    """A name, a value that is published, or stands in docs/FORMATS.md, and what is found here."""
    text = bytes.fromhex
    yield "FIPS 197, 5.1.1, S(53)", 0xED, BOX[0x53]
    yield "FIPS 197, 4.2, a product", 0xC1, times(0x57, 0x83)
    key = text("2b7e151628aed2a6abf7158809cf4f3c")
    yield "FIPS 197, A.1, last round key", text("d014f9a8c9ee2589e13f0cc8b6630ca6"), round_keys(key)[10]
    code = text("3925841d02dc09fbdc118597196a0b32")
    yield "FIPS 197, appendix B", code, encrypted(key, text("3243f6a8885a308d313198a2e0370734"))
    code = text("69c4e0d86a7b0430d8cdb78070b4c55a")
    yield "FIPS 197, C.1", code, encrypted(bytes(range(16)), text("00112233445566778899aabbccddeeff"))
    message = text("6bc1bee22e409f96e93d7e117393172aae2d8a571e03ac9c9eb76fac45af8e51")
    message += text("30c81c46a35ce411e5fbc1191a0a52eff69f2445df4f9b17ad2b417be66c3710")
    yield "RFC 4493, K1", text("fbeed618357133667c85e08f7236a8de"), doubled(encrypted(key, bytes(16)))
    for example, length, code in [
        (1, 0, "bb1d6929e95937287fa37d129b756746"),
        (2, 16, "070a16b46b4d4144f79bdd9dd04a287c"),
        (3, 40, "dfa66747de9ae63030ca32611497c827"),
        (4, 64, "51f0bebf7e3b9d92fc49741779363cfe"),
    ]:
        yield f"RFC 4493, example {example}", text(code), cmac(key, message[:length])
    # The frame that the library lora-packet takes apart in its own description.
    keys = text("44024241ed4ce9a68c6a8bc055233fd3"), text("ec925802ae430ca77fd3dd73cb2cc588")
    whole = text("40f17dbe4900020001954378762b11ff0d")
    yield "an uplink of port 1", whole, uplink(False, 0x49BE7DF1, 2, keys, body=(1, b"test"))
    # docs/FORMATS.md, "airbook toa".
    for rate, time in enumerate([991_232, 577_536, 288_768, 144_384, 72_192, 41_216, 20_608]):
        yield f"time on air of 12 bytes at data rate {rate}", time, airtime(rate, 12)
    # docs/FORMATS.md, the table of sub-bands: an hour times the duty cycle.
    yield "limits", [3_600_000, 36_000_000, 36_000_000, 3_600_000, 360_000_000, 36_000_000], [LIMITS[b[0]] for b in BANDS]


def faults() -> list[str]:
    """What is found otherwise than it is published."""
    return [f"{name}: wanted {want}, found {found}" for name, want, found in published() if want != found]


def checked() -> None:
    """Ends the program with status 1 where something here is not as it is published."""
    found = faults()
    if found:
        print("\n".join(found))
        print(f"0 passed, {len(found)} failed")
        sys.exit(1)
