"""What a machine has logged of a launch: a trace, also without its RIMs, a listing, or a monitor's log of its commands.

A step is the words of a command that is measured. A word that a log has not is None: nothing is known of it.
"""
from __future__ import annotations

from collections.abc import Callable, Iterable
from dataclasses import dataclass
from typing import Optional

from outside import files, parameters
from outside.faults import Fault
from outside.texts import shown, visible

# The longest log that is read, as long as the longest file that `rim` reads.
MOST = 256 << 20
# The words of a line after the RIM and the command, as docs/FORMATS.md names them.
WORDS = {
    "realm_create": ("rtt_level_start", "rtt_num_start", "s2sz", "algo", "flags", *parameters.TRACED, "rpv"),
    "init_ripas": ("base", "top"),
    "data_create": ("ipa", "measured", "contents"),
    "rec_create": ("flags", "mpidr", "pc", *(f"x{number}" for number in range(8))),
}
# Those of them that are not measured: the personalization value, and the number of a processor.
UNMEASURED = {"rpv", "mpidr"}
Step = tuple[Optional[str], ...]
# A monitor's own log, as TF-RMM is remembered to print it: `SMC_RMI_` and the command, its arguments as hexadecimal digits, `>` and what came.
MONITOR = "SMC_RMI_"
WHAT = "lines as `rim trace` prints them"


@dataclass(frozen=True)
class Log:
    """The steps of a log, what it is, and what it does not hold. `rims`: whether each step begins with the RIM after it. `joins`: whether RAM
    that goes on where the last command ended is one step, since a command may be of more than one entry. `one_rec`: whether the RECs after the
    first are left out. `rim`: the measurement after all steps, where it is known."""

    steps: list[Step]
    about: str
    lacks: str = ""
    rims: bool = False
    joins: bool = False
    one_rec: bool = False
    rim: str | None = None

    @property
    def is_known(self) -> bool:
        """Whether it says all words of its steps."""
        return not any(None in step for step in self.steps)

    def of_trace(self, lines: Iterable[str]) -> list[Step]:
        """The steps of a trace that `rim` has printed, in the form of this log."""
        steps: list[Step] = [tuple(line.split(" ")) if self.rims else tuple(line.split(" ")[1:]) for line in lines]
        steps = with_one_rec(steps) if self.one_rec else steps
        return joined(steps) if self.joins else steps


def same(one: Step, other: Step) -> bool:
    """Whether two steps are one, as far as is known."""
    return len(one) == len(other) and all(mine is None or theirs is None or mine == theirs for mine, theirs in zip(one, other))


def text(step: Step) -> str:
    """A step as a line; what is not known of it is a dash."""
    return " ".join("-" if each is None else each for each in step)


def is_ram(step: Step) -> bool:
    return len(step) == 3 and step[0] == "init_ripas" and None not in step


def goes_on(step: Step, after: Step) -> bool:
    """Whether a step makes RAM that goes on where the one before it ended."""
    return is_ram(step) and is_ram(after) and step[2] == after[1]


def joined(steps: list[Step]) -> list[Step]:
    """The steps with RAM that goes on where the last command ended as one."""
    found: list[Step] = []
    for step in steps:
        if found and goes_on(found[-1], step):
            found[-1] = ("init_ripas", found[-1][1], step[2])
        else:
            found.append(step)
    return found


def with_one_rec(steps: list[Step]) -> list[Step]:
    """The steps without the RECs after the first."""
    recs = [step for step in steps if step[0] == "rec_create"]
    return [step for step in steps if step[0] != "rec_create" or step is recs[0]]


# ---- a listing


def of_listing(lines: list[str]) -> list[Step]:
    """The commands of a listing that are measured, without the granules of the host's choosing."""
    is_runnable = lines[0].endswith(" rec runnable")
    kept: dict[str, Callable[[list[str]], list[str]]] = {
        "realm_create": lambda words: words[2:], "init_ripas": lambda words: words, "data_create": lambda words: words[1:],
        "rec_create": lambda words: words[1:12]}
    found: list[Step] = []
    for line in lines[1:]:
        command, *words = line.split(" ")
        if command in kept and not (command == "rec_create" and is_runnable and words[1:2] == ["0" * 16]):
            found.append((command, *kept[command](words)))
    return joined(found)


# ---- a monitor's log


def number(word: str) -> str | None:
    """An argument as 16 digits; None where it is no number."""
    try:
        value = int(word, 16)
    except ValueError:
        return None
    return f"{value:016x}" if 0 <= value < 1 << 64 and word.replace("0x", "", 1).isalnum() else None


def of_command(name: str, given: list[str | None]) -> Step | None:
    """The step of a command by its arguments; None where it measures nothing, or has too few of them."""
    if name == "REALM_CREATE":
        return ("realm_create", *[None] * len(WORDS["realm_create"]))
    if name == "RTT_INIT_RIPAS" and len(given) >= 3:
        return ("init_ripas", given[1], given[2])
    if name == "DATA_CREATE" and len(given) >= 5:
        is_measured = given[4] is None or int(given[4], 16) & 1
        return ("data_create", given[2], "measured", None) if is_measured else ("data_create", given[2], "unmeasured")
    return ("rec_create", *[None] * len(WORDS["rec_create"])) if name == "REC_CREATE" else None


def of_monitor(lines: list[str]) -> list[Step]:
    """The commands of a monitor's log that have succeeded and are measured. RAM ends where the monitor says that it has come to."""
    found: list[Step] = []
    for line in lines:
        _, is_one, rest = line.partition(MONITOR)
        given, _, came = rest.partition(">")
        name, *words = given.split() or [""]
        outcome = came.split()
        if not is_one or (outcome and outcome[0] not in ("RMI_SUCCESS", "0")):
            continue
        step = of_command(name, [number(each) for each in words])
        if step is not None and step[0] == "init_ripas" and len(outcome) > 1 and number(outcome[1]):
            step = ("init_ripas", step[1], number(outcome[1]))
        if step is not None:
            found.append(step)
    return joined(with_one_rec(found))


# ---- all of them


LACKS = ("it has no contents of pages, no parameters of the realm, no registers and no levels of tables, nor which RECs after the first run: what "
         "differs in these alone is not seen, and the value may still be another one")
NO_LEVELS = "it has no RIM at its end, and the levels of tables are not compared"


def read(path: str) -> Log:
    """The log at a path."""
    lines = [line.rstrip() for line in files.text_of(path, files.read(path, MOST, WHAT), WHAT).rstrip().split("\n")]
    words = lines[0].split(" ")
    if len(words) > 1 and words[1] in WORDS:
        return Log([tuple(line.split(" ")) for line in lines], "a trace", rims=True)
    if words[0] in WORDS:
        return Log([tuple(line.split(" ")) for line in lines], "a trace without RIMs")
    if words[0] == "rim-list":
        rim = lines[-1].split(" ")[-1] if lines[-1].startswith("rim ") else None
        return Log(of_listing(lines), "a listing", "" if rim else NO_LEVELS, joins=True, rim=rim)
    if steps := of_monitor(lines):
        return Log(steps, "a monitor's log as TF-RMM is remembered to print it", LACKS, joins=True, one_rec=True)
    raise Fault(f"{visible(path)}: its first line is {shown(lines[0])}, expected {WHAT}, a listing of `rim list`, or a log with lines of {MONITOR}..")
