"""Processes that tests have started or have had started."""
import time


def is_running(number: int) -> bool:
    """Whether a process runs: one that has ended may still be waited for."""
    try:
        with open(f"/proc/{number}/stat", encoding="ascii", errors="replace") as file:
            return file.read().rpartition(")")[2].split()[0] != "Z"
    except OSError:
        return False


def still_running(numbers: list[int], seconds: float = 5) -> list[int]:
    """Returns the processes that still run after a while: a killed process may need a moment to end."""
    until = time.monotonic() + seconds
    while (left := list(filter(is_running, numbers))) and time.monotonic() < until:
        time.sleep(0.01)
    return left
