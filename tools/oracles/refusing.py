"""Runs a program with calls of the C library refused. tools/oracles/failing.py and tests/starved.py say of which programs, and how they
have to end.

`cc` has to be there: it makes the library that refuses the calls.
"""
import os
import subprocess
from typing import NamedTuple

# The calls that the program makes, but for those of its start. Where one is refused, the library says so in a file.
LIBRARY = r"""
#define _GNU_SOURCE
#include <dlfcn.h>
#include <errno.h>
#include <fcntl.h>
#include <pthread.h>
#include <stdatomic.h>
#include <stdlib.h>
#include <string.h>
#include <sys/syscall.h>
#include <unistd.h>

static atomic_int calls, writes;

// REFUSED is KIND:FIRST:COUNT. With REFUSED_BETWEEN, calls count only between the program's first two writes to standard output.
static int is_due(const char *kind) {
    const char *asked = getenv("REFUSED");
    size_t len = strlen(kind);
    if (!asked || strncmp(asked, kind, len) || asked[len] != ':') return 0;
    if (getenv("REFUSED_BETWEEN") && writes != 1) return 0;
    char *end;
    long first = strtol(asked + len + 1, &end, 10), call = atomic_fetch_add(&calls, 1) + 1;
    if (call < first || call >= first + atol(end + 1)) return 0;
    syscall(SYS_close, syscall(SYS_open, getenv("REFUSED_AT"), O_CREAT | O_WRONLY, 0600));
    return 1;
}

#define REAL(name) ((typeof(&name))dlsym(RTLD_NEXT, #name))

void *malloc(size_t size) {
    static typeof(&malloc) real;
    if (!real) real = REAL(malloc);
    return is_due("memory") ? NULL : real(size);
}

void *realloc(void *at, size_t size) {
    return is_due("memory") ? NULL : REAL(realloc)(at, size);
}

int open(const char *path, int flags, ...) {
    if (is_due("open")) return errno = EACCES, -1;
    return syscall(SYS_open, path, flags, 0600);
}

ssize_t read(int file, void *to, size_t size) {
    if (is_due("read")) return errno = EIO, -1;
    if (is_due("interrupted-read")) return errno = EINTR, -1;
    return syscall(SYS_read, file, to, size && is_due("short-read") ? 1 : size);
}

ssize_t write(int file, const void *from, size_t size) {
    if (file == 1 && is_due("write")) return errno = ENOSPC, -1;
    if (file == 2 && is_due("write-fault")) return errno = ENOSPC, -1;
    if (is_due("interrupted-write")) return errno = EINTR, -1;
    writes += file == 1;
    return syscall(SYS_write, file, from, size && is_due("short-write") ? 1 : size);
}

ssize_t __write(int file, const void *from, size_t size) { return write(file, from, size); }

int pthread_create(pthread_t *id, const pthread_attr_t *how, void *(*run)(void *), void *with) {
    return is_due("thread") ? EAGAIN : REAL(pthread_create)(id, how, run, with);
}
"""


class Refused(NamedTuple):
    """Which calls are refused: so many of a kind, from one on, which is counted from 1."""

    kind: str
    first: int
    count: int = 1


class Ended(NamedTuple):
    """How a run ended, and whether a call was made that was to be refused."""

    status: int
    output: bytes
    said: str
    was_refused: bool


class Refuser:
    """The library that refuses calls, made in a folder."""

    def __init__(self, folder):
        self.folder, self.library = folder, os.path.join(folder, "refuse.so")
        subprocess.run(["cc", "-O1", "-shared", "-fPIC", "-x", "c", "-", "-o", self.library, "-ldl"], input=LIBRARY.encode(), check=True)

    def run(self, words, refused=None, between=False, number=0, **how):
        """A run of a program. Runs at a time have different numbers. `between`: calls count between its first two writes alone."""
        mark = os.path.join(self.folder, f"refused-{number}")
        if os.path.exists(mark):
            os.remove(mark)
        env = dict(os.environ, LD_PRELOAD=self.library, REFUSED_AT=mark)
        env |= {"REFUSED": f"{refused.kind}:{refused.first}:{refused.count}"} if refused else {}
        env |= {"REFUSED_BETWEEN": "yes"} if between else {}
        done = subprocess.run(words, env=env, capture_output=True, timeout=60, check=False, **how)
        return Ended(done.returncode, done.stdout, done.stderr.decode(), os.path.exists(mark))

    @staticmethod
    def plain(words, folder):
        """What a program prints with no call refused."""
        return subprocess.run(words, cwd=folder, capture_output=True, timeout=60, check=True).stdout
