"""Checks the frames of `airbook run` with a second implementation (python3-cryptography).

Usage: run_frames.py FOLDER..   (folders of cases, each with the program's input as stdin and its output as stdout)

Of each line `frame N HEX` the MIC and, where there is one, the FRMPayload are computed anew: with the keys of the
device that the frame is for, by the settings at the head of the input, and with the least counter from the device's
first one on that has the frame's low 16 bits. The payload has to be one that was queued for the device.
"""
import pathlib
import re
import struct
import sys
import tomllib

from cryptography.hazmat.primitives.ciphers import Cipher, algorithms, modes
from cryptography.hazmat.primitives.cmac import CMAC

DOWN = 1


def aes(key, block):
    return Cipher(algorithms.AES(key), modes.ECB()).encryptor().update(block)


def block_of(kind, addr, counter, last):
    return bytes([kind, 0, 0, 0, 0, DOWN]) + struct.pack("<II", addr, counter) + bytes([0, last])


def mic(key, addr, counter, message):
    code = CMAC(algorithms.AES(key))
    code.update(block_of(0x49, addr, counter, len(message)) + message)
    return code.finalize()[:4]


def crypted(key, addr, counter, payload):
    blocks = (aes(key, block_of(1, addr, counter, i)) for i in range(1, (len(payload) + 15) // 16 + 1))
    return bytes(a ^ b for a, b in zip(payload, b"".join(blocks)))


def fault_of(frame, device, queued):
    """What is wrong with a frame, if anything is."""
    addr = int(device["addr"], 16)
    nwk, app = (bytes.fromhex(device[name]) for name in ("nwkskey", "appskey"))
    first = device.get("down", 0)
    counter = first + (struct.unpack_from("<H", frame, 6)[0] - first) % 65536
    if frame[0] != 0x60 or frame[5] & 0xCF:
        return "its MHDR or FCtrl is not a downlink's"
    if mic(nwk, addr, counter, frame[:-4]) != frame[-4:]:
        return "its MIC is not that of the second implementation"
    body = frame[8:-4]
    if body and (body[0], crypted(app, addr, counter, body[1:])) not in queued:
        return "its payload was not queued for the device"
    return None


def check(folder):
    """How many frames a case has, after each wrong one is printed; and how many are wrong."""
    settings, _, events = (folder / "stdin").read_text(errors="replace").partition("\n---\n")
    try:
        devices = {int(d["addr"], 16): d for d in tomllib.loads(settings).get("device", [])}
    except tomllib.TOMLDecodeError:
        return 0, 0
    queued = {}
    for line in events.splitlines():
        words = re.fullmatch(r"queue\s+([0-9a-fA-F]{8})\s+(\d+)\s+((?:[0-9a-fA-F]{2})+|-)", line.strip())
        if words:
            payload = bytes.fromhex(words[3].strip("-"))
            queued.setdefault(int(words[1], 16), []).append((int(words[2]), payload))
    lines = (folder / "stdout").read_text().splitlines()
    frames = [bytes.fromhex(line.split()[2]) for line in lines if line.startswith("frame ")]
    wrong = 0
    for frame in frames:
        addr = struct.unpack_from("<I", frame, 1)[0]
        fault = fault_of(frame, devices[addr], queued.get(addr, [])) if addr in devices else "no device has its address"
        if fault:
            wrong += 1
            print(f"{folder.name}: {frame.hex()}: {fault}")
    return len(frames), wrong


def main(folders):
    cases = [folder for folder in map(pathlib.Path, folders) if (folder / "stdin").is_file()]
    counts = [check(folder) for folder in cases]
    frames, wrong = (sum(column) for column in zip(*counts)) if counts else (0, 0)
    print(f"second implementation: {frames - wrong} of {frames} frames of {len(cases)} cases are confirmed")
    return 1 if wrong or not frames else 0


if __name__ == "__main__":
    sys.exit(main(sys.argv[1:]))
