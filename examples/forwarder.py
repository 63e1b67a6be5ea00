#!/usr/bin/env python3
"""An example, which is not proved: gateways with Semtech's UDP packet forwarder on one side, `airbook listen` on the other.

Usage: forwarder.py PROGRAM SETTINGS ADDRESS:PORT [--fresh] EUI=ID [EUI=ID ..]

PROGRAM is airbook, SETTINGS the file with its settings, ADDRESS:PORT where packet forwarders send to, and each EUI=ID a gateway:
its EUI in 16 hexadecimal digits, and its id in the settings. Lines of standard input are handed on, as `queue ADDR PORT HEX`.
Standard output is the log: each line that is handed to the program behind `> `, and each line that the program writes.
Without --fresh nothing is sent in the first hour, since a new server doesn't know what was sent in the hour before. It ends when
the program does, after 1,000,000 lines. docs/RUNNING.md says what it leaves out.
"""
import base64
import decimal
import json
import os
import select
import signal
import socket
import subprocess
import sys
import time

RATES = {"SF12BW125": 0, "SF11BW125": 1, "SF10BW125": 2, "SF9BW125": 3, "SF8BW125": 4, "SF7BW125": 5, "SF7BW250": 6}
PUSH_DATA, PUSH_ACK, PULL_DATA, PULL_RESP, PULL_ACK, TX_ACK = range(6)
GATHERING, MARGIN, FRESH, RESTARTED, HOUR = 200_001, 400_000, 2_000_000, 20_000_000, 3_600_000_000
# How far ahead an answer may begin that an earlier server has booked: RX2 with the greatest delay.
AHEAD = 16_000_000
BEGIN = time.monotonic_ns()


def now():
    """The server's clock, in microseconds."""
    return (time.monotonic_ns() - BEGIN) // 1000


class Gateway:
    """A gateway, and its clock: that of its `tmst`, which wraps after 72 minutes, carried on in 64 bits."""

    def __init__(self, number):
        self.number, self.peer, self.at, self.heard, self.offset = number, None, RESTARTED, 0, None

    def clock(self):
        """What its clock is now, or was a moment ago, by its newest uplink."""
        return self.at + now() - self.heard

    def place(self, tmst):
        """When an uplink ended on this clock. A tmst that is far from what was expected is that of a gateway which restarted."""
        line = at = self.clock()
        if self.offset is not None:
            at = line + (tmst + self.offset - line + (1 << 31)) % (1 << 32) - (1 << 31)
        if self.offset is None or abs(at - line) > RESTARTED:
            at, self.offset = line, line - tmst
        self.at, self.heard = at, now()
        return at


class Lines:
    """The whole lines that can be read from a file."""

    def __init__(self, file):
        self.file, self.rest = file, b""

    def fileno(self):
        return self.file.fileno()

    def take(self):
        block = os.read(self.fileno(), 65536)
        *whole, self.rest = (self.rest + block).split(b"\n")
        return whole if block else None


class Converter:
    """What is received from packet forwarders is told as lines; what is answered to them is sent back."""

    def __init__(self, program, settings, address, gateways):
        self.gateways, self.numbered, self.passes, self.booked = gateways, {g.number: g for g in gateways.values()}, [], None
        self.air, self.inner = [socket.socket(type=socket.SOCK_DGRAM) for _ in range(2)]
        self.air.bind((address.rpartition(":")[0], int(address.rpartition(":")[2])))
        with socket.socket(type=socket.SOCK_DGRAM) as probe:
            probe.bind(("127.0.0.1", 0))
            self.port = probe.getsockname()[1]
        words = [program, "listen", "--port", str(self.port), "--turns", "1000000"]
        with open(settings) as text:
            self.child = subprocess.Popen(words, stdin=text, stdout=subprocess.PIPE)

    def tell(self, line):
        print(">", line, flush=True)
        self.inner.sendto(line.encode(), ("127.0.0.1", self.port))

    def send(self, datagram, peer):
        try:
            self.air.sendto(datagram, peer)
        except OSError as fault:
            print("# not sent:", ascii(fault), flush=True)

    def received(self, datagram, source):
        gateway = self.gateways.get(datagram[4:12])
        if len(datagram) < 12 or datagram[0] != 2 or gateway is None:
            return
        if datagram[3] == PULL_DATA:
            gateway.peer = source
            self.send(datagram[:3] + bytes([PULL_ACK]), source)
        elif datagram[3] == PUSH_DATA:
            self.send(datagram[:3] + bytes([PUSH_ACK]), source)
            for entry in json.loads(datagram[12:], parse_float=decimal.Decimal).get("rxpk", []):
                self.heard(gateway, entry)
        elif datagram[3] == TX_ACK:
            print("# TX_ACK", int.from_bytes(datagram[1:3], "big"), ascii(datagram[12:200]), flush=True)

    def heard(self, gateway, entry):
        """One packet: those with a wrong CRC and those that are no LoRa are passed over."""
        if entry["stat"] == 1 and entry["modu"] == "LORA":
            data, rate = base64.b64decode(entry["data"] + "=" * (-len(entry["data"]) % 4), validate=True), RATES[entry["datr"]]
            frequency, snr = int(entry["freq"] * 1_000_000), int(entry["lsnr"] * 10)
            rssi, tmst = int(entry["rssi"]), int(entry["tmst"]) % (1 << 32)
            if len(data) > 255 or max(frequency, abs(snr), abs(rssi)) >= 1 << 32:
                raise ValueError("no packet is so long or so strong")
            at = gateway.place(tmst)
            self.tell(f"hear {gateway.number} {at} {frequency} {rate} {snr} {rssi} {now()} {data.hex() or '-'}")

    def answered(self, line):
        print(line, flush=True)
        first, *words = line.split(" ")
        if first == "opened":
            self.passes.append(now() + GATHERING)
        elif first == "send":
            self.booked = words
        elif first == "frame":
            self.respond(bytes.fromhex(words[1]), *(int(word) for word in self.booked if not word.startswith("RX")))

    def respond(self, frame, number, gateway, start, frequency, rate, length):
        gateway, datr = self.numbered[gateway], next(name for name, one in RATES.items() if one == rate)
        txpk = {"imme": False, "tmst": (start - gateway.offset) % (1 << 32), "freq": frequency / 1_000_000, "rfch": 0, "powe": 14}
        txpk |= {"modu": "LORA", "datr": datr, "codr": "4/5", "ipol": True, "ncrc": True, "size": length}
        text = json.dumps({"txpk": txpk | {"data": base64.b64encode(frame).decode()}})
        if gateway.peer:
            self.send(b"\2" + (number % 65536).to_bytes(2, "big") + bytes([PULL_RESP]) + text.encode(), gateway.peer)

    def run(self, floor):
        lines, orders = Lines(self.child.stdout), Lines(sys.stdin)
        inputs = [self.air, lines, orders]
        # Until the program's socket is there, what is sent to it is lost. Each tick has an answer.
        while not select.select([lines], [], [], 0.05)[0]:
            self.tell(f"tick {min(self.numbered)} {floor}")
        for number in self.numbered:
            self.tell(f"tick {number} {floor}")
        while True:
            wait = max(0, self.passes[0] - now()) / 1_000_000 if self.passes else None
            ready = select.select(inputs, [], [], wait)[0]
            if self.air in ready:
                try:
                    self.received(*self.air.recvfrom(65536))
                except (ArithmeticError, AttributeError, KeyError, RecursionError, TypeError, ValueError) as fault:
                    print("# passed over:", ascii(fault), flush=True)
            if lines in ready:
                answers = lines.take()
                if answers is None:
                    return self.child.wait()
                for line in answers:
                    self.answered(line.decode())
            if orders in ready:
                told = orders.take()
                if told is None:
                    inputs.remove(orders)
                for line in told or []:
                    self.tell(line.decode("ascii", "replace"))
            while self.passes and self.passes[0] <= now():
                self.passes.pop(0)
                for gateway in self.numbered.values():
                    if gateway.offset is not None and now() - gateway.heard < FRESH:
                        self.tell(f"tick {gateway.number} {gateway.clock() + MARGIN}")
                self.tell(f"pass {now()}")


def main():
    program, settings, address, *words = [word for word in sys.argv[1:] if word != "--fresh"]
    gateways = {bytes.fromhex(eui): Gateway(int(number)) for eui, number in (word.split("=") for word in words)}
    converter = Converter(program, settings, address, gateways)
    signal.signal(signal.SIGTERM, lambda *_: sys.exit(1))
    try:
        return converter.run(0 if "--fresh" in sys.argv else RESTARTED + AHEAD + HOUR)
    finally:
        converter.child.kill()


if __name__ == "__main__":
    sys.exit(main())
