"""The worked run of `airbook serve`: its settings, its first datagrams and its lines; and whether `airbook run` answers alike."""
from __future__ import annotations

import subprocess
from typing import Iterable

from lib.serve_lines import Follower
from lib.serving import SECONDS, device_table, gateway_table
from lib.trials import Failed, expect

KEYS = bytes.fromhex("2b7e151628aed2a6abf7158809cf4f3c"), bytes.fromhex("000102030405060708090a0b0c0d0e0f")
DEVICE = device_table(0x26011BDA, KEYS)
SETTINGS = gateway_table(1) + gateway_table(2) + DEVICE
PACKET = '{"rxpk":[{"tmst":5000000,"freq":868.100000,"stat":1,"modu":"LORA","datr":"SF7BW125","codr":"4/5","rssi":-90,"lsnr":5.5,'
PACKET += '"size":12,"data":"gNobASYABwAJyJFB"}]}'
FIRST = bytes.fromhex("02123400aa555a0000000001") + PACKET.encode()
OTHER = PACKET.replace("5000000", "4294000000").replace("-90", "-80").encode()
# A word in braces stands for a number, the same wherever it stands.
WORKED = """session 1 {at1}
> hear 1 {at1} 868100000 5 55 -90 {arrived1} 80da1b012600070009c89141
opened 1
session 2 {at2}
> hear 2 {at2} 868100000 5 55 -80 {arrived2} 80da1b012600070009c89141
joined 1 2
> tick 1 {floor1}
floor 1 {floor1}
> tick 2 {floor2}
floor 2 {floor2}
> pass {now}
send 1 2 RX1 {start} 868100000 5 12
frame 1 60da1b0126200000240347ca"""


def words_of(template: str, text: str, what: str) -> dict[str, int]:
    """The numbers that stand in a text for the words in braces of a template, which else is the text."""
    expect(template.count("\n"), text.count("\n"), f"how many lines has {what}, {text!r}")
    found: dict[str, str] = {}
    for wanted, line in zip(template.split("\n"), text.split("\n")):
        expect(len(wanted.split(" ")), len(line.split(" ")), f"how many words has {line!r} of {what}")
        for name, word in zip(wanted.split(" "), line.split(" ")):
            expect(found.setdefault(name, word) if name.startswith("{") else name, word, f"a word of {line!r} of {what}")
    return {name.strip("{}"): int(word) for name, word in found.items()}


def numbers_of(lines: list[str]) -> dict[str, int]:
    """The numbers of the worked lines, by their names."""
    return words_of(WORKED, "\n".join(lines), "the worked lines")


def run_over(program: str, settings: str, events: Iterable[bytes]) -> list[str]:
    """What `airbook run` writes for these settings and lines."""
    text = b"".join(line + b"\n" for line in [settings.encode() + b"---", *events])
    ran = subprocess.run([program, "run"], input=text, capture_output=True, timeout=SECONDS)
    lines = ran.stdout.decode().splitlines()
    wanted = int(any(line.startswith(("no ", "bad ")) for line in lines)), b""
    expect(wanted, (ran.returncode, ran.stderr), "the status of run, and what it says on standard error")
    return lines


def answered_alike(program: str, settings: str, follower: Follower) -> None:
    """`airbook run` answers the lines behind `> ` as they were answered."""
    lines = run_over(program, settings, [event.encode() for event in follower.events])
    for place, (own, other) in enumerate(zip(follower.answers, lines)):
        expect(other, own, f"answer {place} of serve, and of run")
    report = lines[len(follower.answers):]
    if not report or not report[0].startswith("gateway "):
        raise Failed(f"behind {len(follower.answers)} answers run tells {report[:3]}")
