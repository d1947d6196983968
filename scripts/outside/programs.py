"""Runs of programs that may misbehave: never end, print gigabytes, leave programs of their own.

A program is started in a session of its own, and its whole process group is killed when it ends, when it exceeds a limit, and when the
script is stopped: a program that it has left would otherwise go on, and keep its output open (tests/sharing.py). Its output is read as it
comes, not by `communicate`, which has no limit and waits for all that keep the output open.
"""
from __future__ import annotations

import math
import os
import resource
import selectors
import shutil
import signal
import subprocess
import sys
import time
from collections.abc import Callable
from contextlib import suppress
from dataclasses import dataclass

from . import stopping
from .faults import Fault
from .texts import last_line, shown, visible

# The most bytes that are kept of a program's output, unless its caller asks for more.
KEPT = 64 << 10
# Seconds between two looks at whether a program has ended: one that it has started may keep its output open. With `until`, or once the output
# is closed, it is looked at more often.
TICK, SHORT_TICK = 0.05, 0.002
# Seconds for the last of its output, once its group is killed.
LAST = 1.0


@dataclass(frozen=True)
class Limits:
    """The most seconds of a program, bytes of its standard output, and bytes of its memory and of a file that it writes."""

    seconds: float = math.inf
    out: int = KEPT
    memory: int | None = None
    file: int | None = None


@dataclass(frozen=True)
class Ran:
    """The outcome of a run: the status (negative for a signal), standard output, the end of standard error, and whether `until` cut it short."""

    status: int
    out: bytes
    err: bytes
    is_cut: bool = False

    @property
    def ended(self) -> str:
        """How it has ended: by itself with a status, or by a signal."""
        if self.status >= 0:
            return f"status {self.status}"
        names = {each.value: each.name for each in signal.Signals}
        return f"ended by {names.get(-self.status, f'signal {-self.status}')}"

    @property
    def said(self) -> str:
        """The last line of standard error, or how it has ended. With `--explain`, the line of `rim` has the reason."""
        return last_line(self.err.decode(errors="surrogateescape"), self.ended)


class SaysTooMuch(Fault):
    """A program prints more on standard output than its caller has asked for."""


class Output:
    """The output of a program so far."""

    def __init__(self, process: subprocess.Popen[bytes], most: int):
        self.process, self.most, self.out, self.err = process, most, bytearray(), bytearray()
        self.selector = selectors.PollSelector()
        for pipe, kept in ((process.stdout, self.out), (process.stderr, self.err)):
            if pipe:
                self.selector.register(pipe, selectors.EVENT_READ, kept)

    @property
    def is_open(self) -> bool:
        return bool(self.selector.get_map())

    def read(self, seconds: float):
        """Waits for output for at most this long, and keeps it."""
        for key, _ in self.selector.select(seconds):
            part = os.read(key.fd, KEPT)
            key.data.extend(part)
            if not part:
                self.selector.unregister(key.fileobj)
        del self.err[:-KEPT]
        if len(self.out) > self.most:
            raise SaysTooMuch(f"{visible(self.process.args[0])}: it says more than {self.most} bytes, expected at most that")


def started(words: list[str], limits: Limits, folder: str | None, shows: bool) -> subprocess.Popen[bytes]:
    """Starts a program in a session of its own, with its limits. With `shows`, it shares the script's standard error."""
    error = None if shows else subprocess.PIPE
    with stopping.held():
        try:
            process = subprocess.Popen(words, stdin=subprocess.DEVNULL, stdout=subprocess.PIPE, stderr=error, cwd=folder, start_new_session=True)
        except (OSError, ValueError) as why:
            raise Fault(f"{visible(words[0])}: {getattr(why, 'strerror', None) or why}, expected a program") from None
        stopping.RUNNING.add(process)
        if stopping.is_stopped():
            # the signal came before this program was known, and has killed the others
            stopping.kill(process)
    for which, most in ((resource.RLIMIT_AS, limits.memory), (resource.RLIMIT_FSIZE, limits.file)):
        with suppress(ProcessLookupError, PermissionError):
            # -1 is no limit
            hard = resource.prlimit(process.pid, which)[1] % (1 << 64)
            if most is not None:
                resource.prlimit(process.pid, which, (min(most, hard), min(most, hard)))
    return process


def has_ended(process: subprocess.Popen[bytes]) -> bool:
    """Whether a program has ended. It is not waited for yet, so that its number stays that of its group."""
    return os.waitid(os.P_PID, process.pid, os.WEXITED | os.WNOHANG | os.WNOWAIT) is not None


def run(words: list[str], limits: Limits = Limits(), folder: str | None = None, until: Callable[[], bool] | None = None, shows: bool = False) -> Ran:
    """Runs a program until it ends, or `until` returns true."""
    end, is_cut = time.monotonic() + limits.seconds, False
    process = started(words, limits, folder, shows)
    with process:
        try:
            output = Output(process, limits.out)
            while not has_ended(process) and not is_cut:
                if time.monotonic() > end:
                    raise Fault(f"{visible(words[0])}: it takes more than {limits.seconds:g} s, expected it to end")
                output.read(TICK if output.is_open and not until else SHORT_TICK)
                is_cut = until is not None and until()
            stopping.kill(process)
            end = time.monotonic() + LAST
            while output.is_open and time.monotonic() < end:
                output.read(TICK)
        finally:
            stopping.kill(process)
            stopping.RUNNING.discard(process)
    stopping.check()
    return Ran(process.returncode, bytes(output.out), bytes(output.err), is_cut)


def found() -> str:
    """The program `rim`: the one that the variable RIM names, or else `rim` beside the script that was started, or of the PATH."""
    named = os.environ.get("RIM")
    own = os.path.join(os.path.dirname(sys.argv[0]), "rim")
    path = shutil.which(named) if named else own if os.access(own, os.X_OK) and os.path.isfile(own) else shutil.which("rim")
    if not path:
        raise Fault(f"no program {shown(named or 'rim')} is found, expected it in the PATH or its path in the variable RIM")
    return os.path.abspath(path)


def check(path: str) -> str:
    """The version of `rim`, which is started once and prints its standard error here: the script of a checkout may first have to build it."""
    ran = run([path, "--version"], shows=True)
    if ran.status:
        raise Fault(f"{visible(path)} --version: {ran.ended}, expected the program rim")
    return last_line(ran.out.decode(errors="replace"), "").removeprefix("rim ")
