"""What came of tries: each has a name, and what is wrong with it as lines."""
import concurrent.futures
import os
from collections.abc import Callable, Iterable

from . import TOP

PROCESSORS = len(os.sched_getaffinity(0))
# The name of a try, and what is wrong.
Outcome = tuple[str, list[str]]


def differs(what: str, has, expected) -> list[str]:
    return [] if has == expected else [f"{what}: {has!r}, expected {expected!r}"]


def tried(look, *with_) -> list[str]:
    """What is wrong by a function; one that fails is wrong too."""
    try:
        return look(*with_)
    except Exception as why:  # whatever a wrong manifest leads to
        return [f"{type(why).__name__}: {why}"]


def program_of(words: list[str]) -> str:
    """The program of a test's command line: by default the one that `rt ci` has built."""
    program = os.path.abspath(words[0] if words else os.path.join(TOP, "crates", "rim", "out", "rim"))
    if not os.path.exists(program):
        raise SystemExit(f"{program} is not built")
    return program


def at_a_time(tries: Iterable[tuple[str, Callable[[], list[str]]]], count: int = PROCESSORS) -> list[Outcome]:
    """The outcomes of tries, of which so many run at a time."""
    with concurrent.futures.ThreadPoolExecutor(count) as pool:
        waiting = [(name, pool.submit(tried, look)) for name, look in tries]
        return [(name, done.result()) for name, done in waiting]


def told(outcomes: Iterable[Outcome], most: int | None = None) -> int:
    """Prints what is wrong as it comes, at most this many lines of each try, and how many passed and failed as the last line. Returns the status
    of the test."""
    count = failed = 0
    for name, wrong in outcomes:
        count, failed = count + 1, failed + bool(wrong)
        if wrong:
            more = [] if most is None or len(wrong) <= most else [f"and {len(wrong) - most} more"]
            print(f"WRONG: {name}", *wrong[:most], *more, sep="\n  ", flush=True)
    print(f"{count - failed} passed, {failed} failed")
    return int(failed > 0 or not count)
