"""Runs a program of which growths are refused by their number, for tests/refused_growths.py and tests/refused_books.py.

A library that is loaded before the C library refuses what the program itself asks of `malloc`, `realloc` and `posix_memalign`.
"""
from __future__ import annotations

import os
import pathlib
import socket
import subprocess
import time
from typing import NamedTuple, Optional, Sequence, Union

from lib.drawn_turns import UPLINK
from lib.serving import LOOPBACK, is_bound

# The arguments of a program, what it reads, opened, and the port that it listens to, if it does.
Opened = tuple[Sequence[Union[str, bytes]], int, Optional[int]]


class Ended(NamedTuple):
    """How a program ended: its status, if it did in time, and what it wrote to standard output and error."""

    status: Optional[int]
    out: bytes
    err: bytes


# What is sent to a server that listens: two gateways hear an uplink, a payload is queued, and the uplink is answered.
DATAGRAMS = [
    f"hear 1 5000000 868100000 5 55 -90 1000 {UPLINK}", f"hear 2 9000000 868100000 5 55 -80 1100 {UPLINK}",
    "queue 26011bda 9 0102", "pass 201001",
]
SECONDS = 20
MOST = 20_000
ALL = 1 << 62
REFUSING = r"""
#define _GNU_SOURCE
#include <dlfcn.h>
#include <errno.h>
#include <link.h>
#include <stdatomic.h>
#include <stdlib.h>
#include <unistd.h>

static atomic_long asked;
static long first, last, tell;
static char *low, *high;

static int own(struct dl_phdr_info *info, size_t size, void *data) {
    for (int i = 0; i < info->dlpi_phnum; i++)
        if (info->dlpi_phdr[i].p_type == PT_LOAD && (info->dlpi_phdr[i].p_flags & PF_X)) {
            low = (char *)info->dlpi_addr + info->dlpi_phdr[i].p_vaddr;
            high = low + info->dlpi_phdr[i].p_memsz;
        }
    return 1; /* the program is the first */
}

__attribute__((constructor)) static void begin(void) {
    first = atol(getenv("REFUSE_FIRST"));
    last = atol(getenv("REFUSE_LAST"));
    tell = atol(getenv("REFUSE_TELL"));
    dl_iterate_phdr(own, 0);
}

static int refused(void *caller) {
    if ((char *)caller < low || (char *)caller >= high) return 0;
    long number = atomic_fetch_add(&asked, 1) + 1;
    if (number < first || number > last) return 0;
    if (write(tell, "x", 1)) {}
    return 1;
}

void *malloc(size_t size) {
    static void *(*real)(size_t);
    if (!real) real = (void *(*)(size_t))dlsym(RTLD_NEXT, "malloc");
    return refused(__builtin_return_address(0)) ? 0 : real(size);
}

void *realloc(void *old, size_t size) {
    static void *(*real)(void *, size_t);
    if (!real) real = (void *(*)(void *, size_t))dlsym(RTLD_NEXT, "realloc");
    return refused(__builtin_return_address(0)) ? 0 : real(old, size);
}

int posix_memalign(void **made, size_t align, size_t size) {
    static int (*real)(void **, size_t, size_t);
    if (!real) real = (int (*)(void **, size_t, size_t))dlsym(RTLD_NEXT, "posix_memalign");
    return refused(__builtin_return_address(0)) ? ENOMEM : real(made, align, size);
}
"""


def ended(child: subprocess.Popen, port: Optional[int]) -> Ended:
    """Waits for the end of a program, to which the datagrams are sent where it listens."""
    ends = time.monotonic() + SECONDS
    if port is not None:
        while not is_bound(port, LOOPBACK) and child.poll() is None and time.monotonic() < ends:
            time.sleep(0.001)
        with socket.socket(type=socket.SOCK_DGRAM) as sender:
            for datagram in DATAGRAMS:
                sender.sendto(datagram.encode(), ("127.0.0.1", port))
    try:
        out, err = child.communicate(timeout=SECONDS)
        return Ended(child.returncode, out, err)
    except subprocess.TimeoutExpired:
        child.kill()
        return Ended(None, *child.communicate())


def run_on(
    program: pathlib.Path, library: pathlib.Path, folder: pathlib.Path, opened: Opened, first: int, last: int
) -> tuple[int, Ended]:
    """Runs the program on these words, standard input and port with these growths refused: how many were, and how it ended."""
    words, given, port = opened
    read, write = os.pipe()
    env = {"LD_PRELOAD": str(library), "REFUSE_FIRST": str(first), "REFUSE_LAST": str(last), "REFUSE_TELL": str(write)}
    child = subprocess.Popen(
        [program, *words], stdin=given, stdout=subprocess.PIPE, stderr=subprocess.PIPE, env=env, pass_fds=[write], cwd=folder
    )
    os.close(write)
    os.close(given)
    how = ended(child, port)
    with os.fdopen(read, "rb") as told:
        return len(told.read()), how
