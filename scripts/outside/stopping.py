"""The signals that stop a script: INT, TERM and HUP. The first one kills the programs that run and raises `Stopped` in the main thread; later
ones only kill programs, so that clean-up runs exactly once.

Two things look like more than is needed, and tests/building.py fails without them:

- A thread of its own kills the programs. The system may give a signal to a thread that starts a program, and then the main thread goes on
  waiting for such a thread: Python would call the handler only once the program has ended.
- A step that must not be left half-done is `held`: a signal that comes in it is raised at its end. Else a program that has just been started
  would be orphaned, and a file that has just been made would stay.
"""
from __future__ import annotations

import os
import signal
import subprocess
import threading
from collections.abc import Iterator
from contextlib import contextmanager, suppress
from dataclasses import dataclass
from types import FrameType

SIGNALS = (signal.SIGINT, signal.SIGTERM, signal.SIGHUP)
# The programs that run, each the leader of a process group of its own.
RUNNING: set[subprocess.Popen[bytes]] = set()


class Stopped(KeyboardInterrupt):
    """A signal has stopped the script."""

    def __init__(self, number: int):
        super().__init__(number)
        self.status = 128 + number


@dataclass
class State:
    """The first signal that has come, whether the main thread has raised it, and the number of its steps that hold it off."""

    number: int = 0
    is_raised: bool = False
    held: int = 0


STATE = State()


def heed():
    """Handles the signals, except those that the caller of the script has it ignore, as nohup does."""
    # If SIGCHLD is ignored, the system discards the statuses of programs.
    signal.signal(signal.SIGCHLD, signal.SIG_DFL)
    ours, theirs = os.pipe()
    os.set_blocking(theirs, False)
    signal.set_wakeup_fd(theirs, warn_on_full_buffer=False)
    threading.Thread(target=watch, args=(ours,), daemon=True).start()
    for number in SIGNALS:
        if signal.getsignal(number) != signal.SIG_IGN:
            signal.signal(number, came)


def heed_no_more():
    """Ignores the signals from here on. At its end Python would replace a handler by the default, which loses the status."""
    for number in SIGNALS:
        signal.signal(number, signal.SIG_IGN)


def watch(ours: int):
    """Kills the programs at each signal, whose number Python writes into the pipe in whichever thread it comes."""
    while number := os.read(ours, 1):
        kill_all(number[0])


def came(number: int, _frame: FrameType | None):
    kill_all(number)
    raise_in_main()


def raise_in_main():
    """Raises a signal that has come, once, unless a step holds it off."""
    if STATE.number and not STATE.held and not STATE.is_raised:
        STATE.is_raised = True
        raise Stopped(STATE.number)


def is_stopped() -> bool:
    return STATE.number > 0


def check():
    """Raises a signal that has come, in whichever thread this is."""
    if is_stopped():
        STATE.is_raised |= threading.current_thread() is threading.main_thread()
        raise Stopped(STATE.number)


@contextmanager
def held() -> Iterator[None]:
    """Runs a step to its end before a signal is raised. Signals are raised in the main thread alone."""
    if threading.current_thread() is not threading.main_thread():
        yield
        return
    STATE.held += 1
    try:
        yield
    finally:
        STATE.held -= 1
    raise_in_main()


def kill(process: subprocess.Popen[bytes]):
    """Kills a program and all that it has started in its group, unless it was waited for: its number may be another program's then."""
    if process.returncode is None:
        with suppress(ProcessLookupError, PermissionError):
            os.killpg(process.pid, signal.SIGKILL)


def kill_all(number: int = 0):
    """Kills all programs, because of a signal if one is given."""
    STATE.number = STATE.number or number
    for process in list(RUNNING):
        kill(process)
