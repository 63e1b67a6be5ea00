#!/usr/bin/env python3
"""What `airbook serve --shadow` costs: beside `listen`, and where others flood its port.

Usage: bench/serve.py [PROGRAM [DATAGRAMS]]     (the program that the gate builds; 100,000)

First so many copies of uplinks, which eight gateways hear, are sent to `serve`, each as a PUSH_DATA of one packet, and to `listen`,
each as a line `hear`. Sixty-four at a time are sent and awaited, so that none is lost. Printed are the least processor seconds of
three runs of each in turn, and their ratio; at most 2.0 is the goal. Then 20,000 malformed datagrams a second are sent for ten
seconds beside 100 copies a second. Printed are how many of the copies were heard, of which the goal is 99 %, and the resident
memory before and after. It needs Linux and two processors with little else to do.
"""
from __future__ import annotations

import base64
import contextlib
import os
import pathlib
import socket
import subprocess
import sys
import time
from typing import IO, Callable, Iterator

TOP = pathlib.Path(__file__).resolve().parent.parent
sys.path.insert(0, str(TOP / "tests"))
sys.dont_write_bytecode = True
from lib import lorawan
from lib.flooding import malformed
from lib.serving import EUIS, TOKEN, Sender, Server, awaited, device_table, free_port, gateway_table, is_bound

GATEWAYS = range(1, 9)
DEVICES = {0x26011000 + number: (bytes([number] * 16), bytes([number, 1] * 8)) for number in range(16)}
SETTINGS = "".join([*map(gateway_table, GATEWAYS), *(device_table(*device) for device in DEVICES.items())])
# An uplink as a gateway hears it at a moment.
Copy = tuple[int, int, bytes]
RUNS, WINDOW = 3, 64
SECONDS, BAD_EACH_MS, MS_EACH_GOOD = 10, 20, 10
BAD = malformed(EUIS[1])


def uplinks(count: int) -> Iterator[bytes]:
    """So many uplinks of the devices in turn, which want no answer."""
    addresses = list(DEVICES)
    for place in range(count):
        addr = addresses[place % len(addresses)]
        yield lorawan.uplink(False, addr, place // len(addresses) + 1, DEVICES[addr])


def push_data(gateway: int, moment: int, data: bytes) -> bytes:
    text = f'{{"rxpk":[{{"tmst":{moment},"chan":2,"rfch":1,"freq":868.100000,"stat":1,"modu":"LORA","datr":"SF7BW125","codr":"4/5",'
    text += f'"lsnr":5.5,"rssi":-90,"size":{len(data)},"data":"{base64.b64encode(data).decode()}"}}]}}'
    return b"\2" + TOKEN + b"\0" + EUIS[gateway] + text.encode()


def line(gateway: int, moment: int, data: bytes) -> bytes:
    return f"hear {gateway} {moment} 868100000 5 55 -90 {moment} {data.hex()}".encode()


def windows(copies: list[Copy], made_by: Callable[[int, int, bytes], bytes]) -> list[list[bytes]]:
    """The datagrams of these copies, so many at a time."""
    datagrams = [made_by(*copy) for copy in copies]
    return [datagrams[at:at + WINDOW] for at in range(0, len(datagrams), WINDOW)]


def processor_seconds(child: subprocess.Popen) -> float:
    """What a program has used, in user code and in the system."""
    fields = pathlib.Path(f"/proc/{child.pid}/stat").read_text().rpartition(")")[2].split()
    return (int(fields[11]) + int(fields[12])) / os.sysconf("SC_CLK_TCK")


def cost_of_serve(program: str, copies: list[Copy]) -> float:
    with Server(program, SETTINGS) as server, Sender(server) as sender:
        for gateway in GATEWAYS:
            sender.pull(EUIS[gateway])
        for window in windows(copies, push_data):
            for datagram in window:
                sender.send(datagram)
            for _ in window:
                sender.acknowledged()
        told = sum(text.startswith("> hear ") for text in server.upto_counts())
        if told != len(copies):
            raise SystemExit(f"of {len(copies)} copies {told} were told")
        return processor_seconds(server.child)


def cost_of_listen(program: str, copies: list[Copy]) -> float:
    """A `pass` behind each window closes what is due, as `serve` does by itself."""
    port, pipes = free_port(), {"stdin": subprocess.PIPE, "stdout": subprocess.PIPE}
    words = [program, "listen", "--port", str(port), "--turns", "1000000"]
    with subprocess.Popen(words, **pipes) as child, socket.socket(type=socket.SOCK_DGRAM) as sender:
        try:
            child.stdin.write(SETTINGS.encode())
            child.stdin.close()
            awaited(lambda: is_bound(port), "the socket of listen", child)
            for window in windows(copies, line):
                for datagram in [*window, b"pass " + window[-1].split()[7]]:
                    sender.sendto(datagram, ("127.0.0.1", port))
                await_copies(child.stdout, len(window))
            return processor_seconds(child)
        finally:
            child.kill()


def await_copies(answers: IO[bytes], count: int) -> None:
    """Reads answers, up to those of so many copies."""
    while count:
        answer = answers.readline()
        if not answer or answer.startswith((b"no ", b"bad ")):
            raise SystemExit(f"listen answers {answer!r}")
        count -= answer.startswith((b"opened ", b"joined "))


def compared(program: str, datagrams: int) -> None:
    """Each copy a millisecond behind the one before, so that uplinks are closed on the way."""
    made = list(uplinks(datagrams // len(GATEWAYS)))
    copies = [(gateway, 1_000 * place, data) for place, data in enumerate(made) for gateway in GATEWAYS]
    seconds = [(cost_of_serve(program, copies), cost_of_listen(program, copies)) for _ in range(RUNS)]
    serve, listen = (min(run[place] for run in seconds) for place in (0, 1))
    print(f"{len(copies)} copies: serve {serve:.2f} processor seconds, listen {listen:.2f}, ratio {serve / listen:.2f}", flush=True)


def drained(sender: Sender) -> None:
    """Reads what came back, so that the system keeps none of it."""
    sender.socket.setblocking(False)
    with contextlib.suppress(BlockingIOError):
        while True:
            sender.socket.recv(64)
    sender.socket.setblocking(True)


def flooded(program: str) -> None:
    """Malformed datagrams come so many each millisecond, and a copy each ten."""
    made = list(uplinks(SECONDS * 1_000 // MS_EACH_GOOD))
    with Server(program, SETTINGS) as server, Sender(server) as good, Sender(server) as bad:
        good.pull(EUIS[1])
        before, sent, began = server.memory(), 0, time.monotonic()
        for slot in range(SECONDS * 1_000):
            while time.monotonic() - began < slot / 1_000:
                pass
            for place in range(BAD_EACH_MS):
                bad.send(BAD[(slot + place) % len(BAD)])
            if slot % MS_EACH_GOOD == 0:
                good.send(push_data(1, 1_000 * slot, made[sent]))
                sent += 1
                drained(good)
                drained(bad)
        took, lines = time.monotonic() - began, server.upto_counts()
        after = server.memory()
    heard = sum(text.startswith("> hear ") for text in lines)
    dropped = sum(int(text.split()[2]) for text in lines if text.startswith("dropped "))
    print(f"{SECONDS * 1_000 * BAD_EACH_MS} malformed in {took:.1f} s, {dropped} dropped, others answered; {heard} of {sent} copies heard")
    print(f"resident memory {before} KiB before, {after} KiB after")


def main() -> None:
    program = sys.argv[1] if len(sys.argv) > 1 else str(TOP / "crates/airbook/out/airbook")
    compared(program, int(sys.argv[2]) if len(sys.argv) > 2 else 100_000)
    flooded(program)


if __name__ == "__main__":
    main()
