"""Starts `airbook serve` for the scripts that play packet forwarders to it, and reads what it writes; and a packet forwarder's socket.

What the program writes goes to a file, so that it never waits for a reader. Each wait ends within a minute.
"""
from __future__ import annotations

import contextlib
import itertools
import os
import pathlib
import socket
import subprocess
import tempfile
import time
from typing import Any, Callable, Sequence

from lib.trials import Failed, expect, expect_going

SECONDS = 60
EUIS = [bytes.fromhex(f"aa555a00000000{number:02x}") for number in range(65)]
TOKEN = b"\x12\x34"
# 127.0.0.1, as /proc/net/udp has it.
LOOPBACK = "0100007F"
# Ports below those that Linux gives out by itself. One process begins far from the next, since a server that is started again and
# again keeps its port without having it bound.
PORTS = map(lambda number: 20_000 + number % 12_000, itertools.count(500 * os.getpid()))


def awaited(found: Callable[[], Any], what: str, child: subprocess.Popen | None = None) -> Any:
    """What is found, once something is; the program that it depends on has to run on."""
    ends = time.monotonic() + SECONDS
    while time.monotonic() < ends:
        expect_going()
        is_over = child is not None and child.poll() is not None
        got = found()
        if got:
            return got
        if is_over:
            raise Failed(f"the program ended with {child.returncode} before {what}")
        time.sleep(0.002)
    raise Failed(f"{what} did not come within {SECONDS} s")


def is_bound(port: int, address: str = "") -> bool:
    """Whether a socket has this port; of this address alone where one is given, as /proc/net/udp has it."""
    with open("/proc/net/udp") as sockets:
        return any(line.split()[1].endswith(f"{address}:{port:04X}") for line in list(sockets)[1:])


def outer_address() -> str | None:
    """An address of this machine that is none of 127.x, by which it would reach others; None where it has none."""
    with socket.socket(type=socket.SOCK_DGRAM) as probe:
        try:
            probe.connect(("192.0.2.1", 9))
        except OSError:
            return None
        found = probe.getsockname()[0]
    return None if found.startswith("127.") else found


def free_port() -> int:
    """A port that nobody has, and that no socket gets which asks for any port. None is bound to try it: a process that another
    thread starts at this moment would hold it too, until it is on its own."""
    return next(port for port in PORTS if not is_bound(port))


def gateway_table(number: int, **more: object) -> str:
    """A gateway's table of the settings, with the EUI of this number, or with another key or value where one is given."""
    said = {"id": number, "gap": 45_000, "eui": f'"{EUIS[number].hex()}"'} | more
    return "[[gateway]]\n" + "".join(f"{key} = {value}\n" for key, value in said.items() if value is not None)


def device_table(addr: int, keys: tuple[bytes, bytes]) -> str:
    return f'[[device]]\naddr = "{addr:08x}"\nnwkskey = "{keys[0].hex()}"\nappskey = "{keys[1].hex()}"\n'


def recovered(program: str, journal: str, *words: str) -> str:
    """What `airbook recover` writes of a journal."""
    done = subprocess.run([program, "recover", *words], input=journal.encode(), capture_output=True, timeout=SECONDS)
    expect((0, b""), (done.returncode, done.stderr), f"the status of recover, and what it tells of {journal!r}")
    return done.stdout.decode()


class Server:
    """The program at work, in a `with`: a shadow, or as these words say; with more options of Popen where some are given."""

    def __init__(
        self, program: str, settings: str, output: Any = None, words: Sequence[str] = ("--shadow",), **options: Any
    ) -> None:
        self.program, self.settings, self.given, self.port = program, settings, output, free_port()
        self.address, self.read, self.rest = ("127.0.0.1", self.port), 0, b""
        self.words, self.options = words, options

    def __enter__(self) -> Server:
        self.folder = tempfile.TemporaryDirectory(prefix="serve-")
        self.output = pathlib.Path(self.folder.name, "lines").open("w+b")
        self.errors = pathlib.Path(self.folder.name, "errors").open("w+b")
        words = [self.program, "serve", *self.words, "--bind", f"127.0.0.1:{self.port}"]
        pipes = {"stdin": subprocess.PIPE, "stdout": self.given or self.output, "stderr": self.errors}
        self.child = subprocess.Popen(words, **pipes, **self.options)
        try:
            # One that has ended by now reads none of it.
            with contextlib.suppress(BrokenPipeError), self.child.stdin:
                self.child.stdin.write(self.settings.encode())
            awaited(lambda: is_bound(self.port), "its socket", self.child)
        except BaseException:
            self.__exit__()
            raise
        return self

    def __exit__(self, *_: object) -> None:
        self.child.kill()
        self.child.wait()
        self.output.close()
        self.errors.close()
        self.folder.cleanup()

    def lines(self) -> list[str]:
        """The whole lines that it wrote since they were read last."""
        block = os.pread(self.output.fileno(), 1 << 24, self.read)
        self.read += len(block)
        *whole, self.rest = (self.rest + block).split(b"\n")
        return [line.decode("ascii", "backslashreplace") for line in whole]

    def upto(self, begin: str) -> list[str]:
        """The next lines, up to one that begins so."""
        found: list[str] = []

        def is_there() -> bool:
            found.extend(self.lines())
            return any(line.startswith(begin) for line in found)

        awaited(is_there, f"a line {begin!r}", self.child)
        return found

    def upto_counts(self) -> list[str]:
        """The next lines, up to those that count all that was dropped: these come once a second."""
        time.sleep(2)
        return self.lines()

    def ended(self) -> tuple[int, str]:
        """The status, and what is written to standard error; what it writes otherwise is passed over."""
        status = self.child.wait(SECONDS)
        self.errors.seek(0)
        return status, self.errors.read().decode("ascii", "backslashreplace")

    def memory(self) -> int:
        """Its resident memory in KiB."""
        text = pathlib.Path(f"/proc/{self.child.pid}/status").read_text()
        return next(int(line.split()[1]) for line in text.splitlines() if line.startswith("VmRSS"))


class Sender:
    """A socket on an address of this machine: that of a packet forwarder, or of a client that sends control datagrams."""

    def __init__(self, server: Server, own: str = "127.0.0.1") -> None:
        self.server, self.own = server, own
        self.socket = socket.socket(type=socket.SOCK_DGRAM)
        self.socket.bind((own, 0))
        self.socket.setsockopt(socket.SOL_SOCKET, socket.SO_RCVBUF, 1 << 20)

    def __enter__(self) -> Sender:
        return self

    def __exit__(self, *_: object) -> None:
        self.socket.close()

    def send(self, datagram: bytes) -> None:
        self.socket.sendto(datagram, self.server.address)

    def acknowledged(self) -> bytes:
        """The next datagram that comes back."""
        self.socket.settimeout(1)
        found: list[bytes] = []

        def is_there() -> list[bytes]:
            with contextlib.suppress(socket.timeout):
                found.append(self.socket.recv(65536))
            return found

        return awaited(is_there, "an acknowledgement", self.server.child)[0]

    def asked(self, datagram: bytes, wanted: bytes) -> None:
        """Sends a datagram, which has to be acknowledged so."""
        self.send(datagram)
        expect(wanted, self.acknowledged(), f"the acknowledgement of {datagram[:200]!r}")

    def pull(self, eui: bytes) -> None:
        self.asked(b"\2" + TOKEN + b"\2" + eui, b"\2" + TOKEN + b"\4")

    def push(self, eui: bytes, text: bytes) -> None:
        self.asked(b"\2" + TOKEN + b"\0" + eui + text, b"\2" + TOKEN + b"\1")

    def answer(self, line: bytes) -> str:
        """What a control datagram is answered."""
        self.send(line)
        return self.acknowledged().decode("ascii", "backslashreplace")

    def is_quiet(self) -> None:
        """Nothing more has come back: no downlink is sent."""
        self.socket.setblocking(False)
        with contextlib.suppress(BlockingIOError):
            raise Failed(f"{self.socket.recv(65536)!r} came")
