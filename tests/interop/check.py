"""Compares frames with a second implementation (python3-cryptography), and has tshark check those it can read.

Usage: check.py FRAMES   (the lines that frames.rt.txt prints)
"""
import shutil
import struct
import subprocess
import sys
import tempfile

from cryptography.hazmat.primitives.ciphers import Cipher, algorithms, modes
from cryptography.hazmat.primitives.cmac import CMAC

ADDR = 0x26011BDA
NWK = bytes.fromhex("2b7e151628aed2a6abf7158809cf4f3c")
APP = bytes(range(16))
ADDR_ORDER = "<I"  # tshark's preference has the DevAddr as it stands in the frame


def aes(key, block):
    return Cipher(algorithms.AES(key), modes.ECB()).encryptor().update(block)


def finished(direction, counter, head, port, payload):
    message = head
    if port is not None:
        key = APP if port else NWK
        stream = b"".join(
            aes(key, b"\x01" + bytes(4) + bytes([direction]) + struct.pack("<II", ADDR, counter) + bytes([0, i]))
            for i in range(1, (len(payload) + 15) // 16 + 1)
        )
        message += bytes([port]) + bytes(a ^ b for a, b in zip(payload, stream))
    code = CMAC(algorithms.AES(NWK))
    code.update(b"\x49" + bytes(4) + bytes([direction]) + struct.pack("<II", ADDR, counter) + bytes([0, len(message)]) + message)
    return message + code.finalize()[:4]


def counter_of(size):
    return (70001 if size % 4 == 0 else 257) * (size % 256)


def filled(size):
    return bytes((7 * i + size % 256) % 256 for i in range(242))


def down(size, bare):
    control = 0x20 * (size % 2 == 1) + 0x10 * (size % 3 == 1)
    counter = counter_of(size)
    head = bytes([0x60]) + struct.pack("<IBH", ADDR, control, counter % 65536)
    return finished(1, counter, head, None if bare else size % 223 + 1, filled(size)[:size])


def up(size, bare):
    options = bytes([2]) * (size % 5)  # LinkCheckReq
    control = 0x80 * (size % 3 == 0) + 0x40 * (size % 5 == 0) + 0x20 * (size % 7 == 0) + len(options)
    counter = counter_of(size)
    head = bytes([0x80 if size % 2 == 0 else 0x40]) + struct.pack("<IBH", ADDR, control, counter % 65536) + options
    return finished(0, counter, head, None if bare else size % 224, filled(size)[:size])


cases = [("down", n, False) for n in range(243)] + [("down", 1, True)]
cases += [("up", n, False) for n in range(239)] + [("up", 3, True)]
lines = open(sys.argv[1]).read().split()
assert len(lines) == len(cases), f"{len(lines)} frames for {len(cases)} cases"
wrong = 0
for line, (kind, size, bare) in zip(lines, cases):
    wanted = (down if kind == "down" else up)(size, bare).hex()
    if line != wanted:
        wrong += 1
        print(f"{kind} of {size} bytes: {line} is not {wanted}")
print(f"second implementation: {len(cases) - wrong} of {len(cases)} frames are equal")

if shutil.which("tshark") is None:
    print("tshark: skipped, it is not installed")
    sys.exit(1 if wrong else 0)

# tshark 4.0 reads frames with an FPort, of at most 239 bytes, and takes the counter's high bits for 0
readable = [
    (bytes.fromhex(line), filled(size)[:size], size)
    for line, (kind, size, bare) in zip(lines, cases)
    if not bare and size and len(line) <= 2 * 239 and counter_of(size) < 65536
]
capture = struct.pack("<IHHiIII", 0xA1B2C3D4, 2, 4, 0, 0, 65535, 270)
for frame, _, size in readable:
    packet = struct.pack(">BBHIBBBBBBB", 0, 0, 15, 868100000, 1, 7, 0, 0, 0, 0, 0x34) + frame
    capture += struct.pack("<IIII", size, 0, len(packet), len(packet)) + packet
with tempfile.NamedTemporaryFile(suffix=".pcap") as file:
    file.write(capture)
    file.flush()
    keys = ",".join(f'"{key}"' for key in (struct.pack(ADDR_ORDER, ADDR).hex(), NWK.hex(), APP.hex(), bytes(8).hex()))
    fields = ["-e", "lorawan.mic.status", "-e", "lorawan.frmpayload_decrypted"]
    command = ["tshark", "-r", file.name, "-o", f"uat:encryption_keys_lorawan:{keys}", "-T", "fields", *fields]
    output = subprocess.run(command, capture_output=True, text=True, check=True).stdout.splitlines()
assert len(output) == len(readable), f"tshark read {len(output)} of {len(readable)} frames"
unread = 0
for answer, (frame, payload, size) in zip(output, readable):
    if answer.split("\t") != ["1", payload.hex()]:
        unread += 1
        print(f"tshark says of {frame.hex()}: {answer!r}")
print(f"tshark: the MIC and the payload of {len(readable) - unread} of {len(readable)} frames are confirmed")
sys.exit(1 if wrong or unread else 0)
