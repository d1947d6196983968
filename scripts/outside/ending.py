"""How a script ends: with a status, and with lines on standard error if something stops it."""
import os
import sys
import traceback
from collections.abc import Callable

from . import stopping
from .faults import Fault, WrongWords
from .stopping import Stopped
from .texts import plain, visible


def say(name: str, *lines: str):
    """Prints lines of the script on standard error."""
    try:
        print("".join(f"{name}: {plain(line)}\n" for line in lines), end="", file=sys.stderr, flush=True)
    except OSError:
        pass


def drop_output():
    """Discards output that was not written: Python would try to write it again at its end."""
    nowhere = os.open(os.devnull, os.O_WRONLY)
    os.dup2(nowhere, sys.stdout.fileno())
    os.close(nowhere)


def prepare():
    """Has both outputs take each text: a path need not be UTF-8, and a terminal need not know each letter."""
    if sys.stdout is None:
        raise Fault("output: it is closed, expected one that can be written to")
    for output in (sys.stdout, sys.stderr):
        if hasattr(output, "reconfigure"):
            output.reconfigure(errors="backslashreplace")


def status_of(name: str, run: Callable[[], int]) -> int:
    """Runs the script of this name and returns its status."""
    if sys.stderr is None:
        # first of all: the next file that is opened would get its number
        sys.stderr = open(os.devnull, "w", encoding="utf-8")
    try:
        stopping.heed()
        status = status_or_fault(name, run)
        stopping.heed_no_more()
    except KeyboardInterrupt as why:
        stopping.heed_no_more()
        status = why.status if isinstance(why, Stopped) else 130
    try:
        if sys.stdout is not None:
            sys.stdout.flush()
    except OSError:
        drop_output()
    return status


def status_or_fault(name: str, run: Callable[[], int]) -> int:
    """Returns the status of a run, and prints why it has failed."""
    try:
        prepare()
        status = run()
        sys.stdout.flush()
        return status
    except (WrongWords, Fault) as why:
        say(name, *why.lines)
        print(getattr(why, "block", ""), end="", file=sys.stderr, flush=True)
        return why.status
    except OSError as why:
        drop_output()
        if not isinstance(why, BrokenPipeError):
            say(name, f"{visible(str(why.filename or 'output'))}: {why.strerror or why}")
    except MemoryError:
        say(name, "there is not enough memory")
    except RecursionError:
        say(name, "what is read has values too deep in one another")
    except Exception as why:
        last = traceback.extract_tb(why.__traceback__)[-1]
        say(name, f"{type(why).__name__} in line {last.lineno} of {visible(last.filename)}: {why}, which is a fault of this script")
    return 3
