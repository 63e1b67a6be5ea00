"""Libraries that are loaded before the C library, to refuse or to count what a program asks of it.

For the scripts of this repository, on Linux. A C compiler makes them, `cc` or that of CC.
"""
from __future__ import annotations

import contextlib
import os
import pathlib
import subprocess
import tempfile
from typing import Any, Iterator, NamedTuple


class Calls(NamedTuple):
    """How many threads a program asked for, and how often it asked the system for random bytes."""

    threads: int
    random: int


# Tells a call of the program by one letter.
TELLING = r"""
#define _GNU_SOURCE
#include <stdlib.h>
#include <unistd.h>

static void told(const char *call) {
    if (write(atoi(getenv("CALLS_TOLD")), call, 1)) {}
}
"""
COUNTING = TELLING + r"""
#include <dlfcn.h>
#include <pthread.h>

int pthread_create(pthread_t *thread, const pthread_attr_t *attributes, void *(*start)(void *), void *given) {
    int (*real)(pthread_t *, const pthread_attr_t *, void *(*)(void *), void *);
    real = (int (*)(pthread_t *, const pthread_attr_t *, void *(*)(void *), void *))dlsym(RTLD_NEXT, "pthread_create");
    told("t");
    return real(thread, attributes, start, given);
}

int getentropy(void *bytes, size_t count) {
    int (*real)(void *, size_t) = (int (*)(void *, size_t))dlsym(RTLD_NEXT, "getentropy");
    told("r");
    return real(bytes, count);
}
"""

# The first receive fails, as where the other end has closed its port.
FAILING_RECEIVE = r"""
#define _GNU_SOURCE
#include <dlfcn.h>
#include <errno.h>
#include <sys/socket.h>

ssize_t recv(int from, void *into, size_t count, int flags) {
    static int failed;
    ssize_t (*real)(int, void *, size_t, int) = (ssize_t (*)(int, void *, size_t, int))dlsym(RTLD_NEXT, "recv");
    if (!failed++) {
        errno = ECONNREFUSED;
        return -1;
    }
    return real(from, into, count, flags);
}
"""
# Whoever sets a time in which a receive has to end is stopped.
NO_TIME_LIMIT = r"""
#define _GNU_SOURCE
#include <dlfcn.h>
#include <stdlib.h>
#include <sys/socket.h>

int setsockopt(int at, int level, int name, const void *value, socklen_t size) {
    int (*real)(int, int, int, const void *, socklen_t);
    real = (int (*)(int, int, int, const void *, socklen_t))dlsym(RTLD_NEXT, "setsockopt");
    if (level == SOL_SOCKET && name == SO_RCVTIMEO) abort();
    return real(at, level, name, value, size);
}
"""
# No thread can be started, as where there are too many; each that was asked for is told.
NO_THREADS = TELLING + r"""
#include <errno.h>
#include <pthread.h>

int pthread_create(pthread_t *thread, const pthread_attr_t *attributes, void *(*start)(void *), void *given) {
    told("t");
    return EAGAIN;
}
"""
# The system has no random bytes.
NO_RANDOM_BYTES = r"""
#include <errno.h>
#include <stddef.h>

int getentropy(void *bytes, size_t count) {
    errno = EIO;
    return -1;
}
"""


def library_of(text: str, folder: pathlib.Path) -> pathlib.Path:
    """The library of this text in C, in this folder."""
    source, library = folder / "shim.c", folder / "shim.so"
    source.write_text(text)
    compiler = os.environ.get("CC", "cc").split()
    subprocess.run([*compiler, "-O1", "-shared", "-fPIC", "-o", library, source, "-ldl"], check=True)
    return library


@contextlib.contextmanager
def over(text: str) -> Iterator[dict[str, Any]]:
    """How a program is started over the library of this text in C."""
    with tempfile.TemporaryDirectory() as folder:
        yield {"env": {**os.environ, "LD_PRELOAD": str(library_of(text, pathlib.Path(folder)))}}


class Counter:
    """Counts how many threads a program asks for, and how often it asks the system for random bytes: the program is started with
    the options, over a library of COUNTING or of NO_THREADS, which tells no random bytes, and what it called is told once it has
    ended."""

    def __init__(self, library: pathlib.Path) -> None:
        self.read, self.write = os.pipe()
        environment = {**os.environ, "LD_PRELOAD": str(library), "CALLS_TOLD": str(self.write)}
        self.options: dict[str, Any] = {"env": environment, "pass_fds": [self.write]}

    def calls(self) -> Calls:
        os.close(self.write)
        with open(self.read, "rb") as told:
            letters = told.read()
        return Calls(letters.count(b"t"), letters.count(b"r"))
