"""A library that tells by a letter each call of a program that changes something, and strikes one of them: it kills the program
just before or behind that call, or has the call fail.

It is loaded before the C library, for tests/soak.py and tests/restarts.py, on Linux. A C compiler makes it (preloaded.py). The
letters: `o` a file is opened, `j` a file is written, `l` and `e` standard output and standard error are, `f` a file, `F` a folder
and `d` a file's bytes are synced, `r` a file is renamed, `v` a datagram was received, and one is sent: `p` a PULL_RESP, `q` the
answer that a payload is queued, `a` another one. Behind a call that it has fail stands `!`.
"""
from __future__ import annotations

import os
import pathlib
import sys
from typing import NamedTuple, Optional

from lib.preloaded import library_of

# All calls, and those that keep a journal.
ALL, KEEPING = "ojlefFdrvpqa", "jfFdr"
LIBRARY = r"""
#define _GNU_SOURCE
#include <errno.h>
#include <fcntl.h>
#include <signal.h>
#include <stdarg.h>
#include <stdlib.h>
#include <string.h>
#include <sys/socket.h>
#include <sys/stat.h>
#include <sys/syscall.h>
#include <unistd.h>

/* How a call is struck: the program is killed before it, behind it, or behind half of its bytes; it fails; or half of its bytes
   are taken, and the next call for a file fails. */
enum way { NOT = 0, BEFORE = 'b', BEHIND = 'a', HALF = 'h', FAILING = 'f', PART = 'p' };

static int told = -1, kept = -1;
static long count, rest_fails;

__attribute__((constructor)) static void begin(void) {
    told = syscall(SYS_openat, AT_FDCWD, getenv("CALLS_TOLD"), O_WRONLY | O_CREAT | O_TRUNC | O_APPEND | O_CLOEXEC, 0600);
    kept = syscall(SYS_openat, AT_FDCWD, getenv("SYNCED_TOLD"), O_WRONLY | O_CREAT | O_TRUNC | O_CLOEXEC, 0600);
}

static void tell(char letter) {
    syscall(SYS_write, told, &letter, 1);
}

static enum way struck(char letter) {
    const char *kinds = getenv("STRUCK_KINDS");
    tell(letter);
    if (!kinds || !strchr(kinds, letter)) return NOT;
    return ++count == atol(getenv("STRUCK_AT")) ? *getenv("STRUCK_WAY") : NOT;
}

static void die(void) {
    syscall(SYS_kill, getpid(), SIGKILL);
    for (;;) pause();
}

static long failed(int error) {
    tell('!');
    errno = error;
    return -1;
}

/* Whether the file of this variable's name is there: so long all calls of a kind fail. */
static int is_there(const char *name) {
    struct stat seen;
    return getenv(name) && !syscall(SYS_newfstatat, AT_FDCWD, getenv(name), &seen, 0);
}

#define STRIKE(letter, error, call) \
    enum way way = struck(letter); \
    if (way == BEFORE) die(); \
    if (way == FAILING) return failed(error); \
    long result = call; \
    if (way == BEHIND) die(); \
    return result

ssize_t write(int file, const void *bytes, size_t size) {
    char letter = file == 1 ? 'l' : file == 2 ? 'e' : 'j';
    enum way way = struck(letter);
    if (way == BEFORE) die();
    int is_full = letter == 'j' && (rest_fails || is_there("WRITE_FAILS"));
    if (letter == 'j') rest_fails = way == PART;
    if (way == FAILING || is_full) return failed(ENOSPC);
    ssize_t result = syscall(SYS_write, file, bytes, way == HALF || way == PART ? size - size / 2 : size);
    if (way == BEHIND || way == HALF) die();
    return result;
}

static int synced(int file, long call, char letter) {
    enum way way = struck(letter);
    if (way == BEFORE) die();
    if (way == FAILING || is_there("SYNC_FAILS")) return failed(EIO);
    int result = syscall(call, file);
    struct stat seen;
    if (!result && letter != 'F' && !fstat(file, &seen)) syscall(SYS_pwrite64, kept, &seen.st_size, sizeof seen.st_size, 0);
    if (way == BEHIND) die();
    return result;
}

int fdatasync(int file) {
    return synced(file, SYS_fdatasync, 'd');
}

int fsync(int file) {
    struct stat seen;
    return synced(file, SYS_fsync, !fstat(file, &seen) && S_ISDIR(seen.st_mode) ? 'F' : 'f');
}

int rename(const char *from, const char *to) {
    STRIKE('r', EIO, syscall(SYS_renameat, AT_FDCWD, from, AT_FDCWD, to));
}

int open(const char *path, int flags, ...) {
    va_list more;
    va_start(more, flags);
    int mode = flags & (O_CREAT | O_TMPFILE) ? va_arg(more, int) : 0;
    va_end(more);
    STRIKE('o', EIO, syscall(SYS_openat, AT_FDCWD, path, flags, mode));
}

ssize_t sendto(int to, const void *bytes, size_t size, int flags, const struct sockaddr *address, socklen_t length) {
    const char *text = bytes;
    char letter = size > 3 && text[3] == 3 ? 'p' : size > 3 && !memcmp(text, "queu", 4) ? 'q' : 'a';
    STRIKE(letter, ENOBUFS, syscall(SYS_sendto, to, bytes, size, flags, address, length));
}

ssize_t recvfrom(int from, void *into, size_t size, int flags, struct sockaddr *address, socklen_t *length) {
    ssize_t received = syscall(SYS_recvfrom, from, into, size, flags, address, length);
    if (received < 0) return received;
    STRIKE('v', EIO, received);
}
"""


class Strike(NamedTuple):
    """The call that is struck, by its number among those of these kinds, and how."""

    way: str
    number: int
    kinds: str = ALL


class StruckCalls:
    """The library, which is made in a folder where none is given; and where it tells."""

    def __init__(self, folder: pathlib.Path, library: Optional[pathlib.Path] = None) -> None:
        self.file, self.size = folder / "calls", folder / "synced"
        self.env = {**os.environ, "LD_PRELOAD": str(library or library_of(LIBRARY, folder))}
        self.env |= {"CALLS_TOLD": str(self.file), "SYNCED_TOLD": str(self.size)}

    def options(self, strike: Optional[Strike] = None, **more: str) -> dict[str, object]:
        """How a program is started over it, with more variables. Nothing is told yet."""
        self.file.write_text("")
        self.size.write_bytes(b"")
        own = {} if strike is None else {"STRUCK_WAY": strike.way, "STRUCK_AT": str(strike.number), "STRUCK_KINDS": strike.kinds}
        return {"env": {**self.env, **own, **more}}

    def told(self) -> str:
        """The letters of all calls since the program was started last."""
        return self.file.read_text()

    def synced(self) -> int:
        """How many bytes the file has that was synced last."""
        return int.from_bytes(self.size.read_bytes(), sys.byteorder)
