#!/usr/bin/env python3
"""Times `rim measure` as lines and with --json, by one worker and by four, by one or two programs in turn. Not part of the gate.

usage: bench/reports.py [--runs N] PROGRAM [PROGRAM]

PROGRAM is a built `rim`, as crates/rim/out/rim. It measures two releases, whose files are the same bytes in each run of the script:

- one guest with a kernel of 30 MB and an initrd of 160 MB;
- 300 launches with other RAM over one kernel of 40 MB, one initrd of 30 MB and one more file of 11 MB.

Each is measured N times by each program, 5 times by default, by turns. A row has the medians in seconds: of the time that passed, and of the
time of all processors. The status is 3 where a program fails, or where two reports differ in more than the name of their program.

It takes up to a minute a program and turn, and 400 MB of memory and of disk.
"""
import argparse
import json
import os
import pathlib
import random
import resource
import statistics
import subprocess
import sys
import tempfile
import time
from collections.abc import Iterator
from dataclasses import dataclass

TOP = pathlib.Path(__file__).resolve().parents[1]
sys.path.insert(0, str(TOP / "tests"))

from helpers import manifests  # noqa: E402, the path is set above
from outside import ending  # noqa: E402, the path is set above
from outside.faults import Fault  # noqa: E402
from outside.texts import last_line, visible  # noqa: E402

MB, MIB = 1_000_000, 1 << 20
RAM, MOST_RUNS = 0x40000000, 1000
SEED = "reports"


@dataclass(frozen=True)
class Item:
    """A file of a release, and where each launch has it, counted from the start of RAM."""

    name: str
    kind: str
    size: int
    at: int


@dataclass(frozen=True)
class Release:
    """Launches over some files. Each has two MiB of RAM more than the one before it."""

    name: str
    items: tuple[Item, ...]
    launches: int
    ram: int


RELEASES = (
    Release("one guest, 190 MB", (Item("kernel", "kernel", 30 * MB, 2 * MIB), Item("initrd", "initrd", 160 * MB, 128 * MIB)), 1, 1024 * MIB),
    Release("300 launches, 81 MB",
            (Item("kernel", "kernel", 40 * MB, 2 * MIB), Item("initrd", "initrd", 30 * MB, 64 * MIB), Item("more", "raw", 11 * MB, 128 * MIB)),
            300, 256 * MIB),
)


@dataclass(frozen=True)
class Ask:
    """A report that is asked for: by how many workers, and in which form."""

    workers: int
    is_json: bool

    @property
    def words(self) -> list[str]:
        return ["measure", "manifest.toml", "--workers", str(self.workers), *(["--json"] if self.is_json else [])]

    @property
    def form(self) -> str:
        return "JSON" if self.is_json else "lines"


ASKS = tuple(Ask(workers, is_json) for is_json in (False, True) for workers in (1, 4))


@dataclass(frozen=True)
class Taken:
    """The seconds that passed in a run, and those of all processors."""

    passed: float
    processors: float


# The releases.


def header(size: int) -> bytes:
    """The header of an arm64 Image of this many bytes, which may be placed anywhere."""
    fields = bytearray(64)
    fields[16:24] = size.to_bytes(8, "little")
    fields[56:60] = b"ARMd"
    return bytes(fields)


def contents(item: Item) -> Iterator[bytes]:
    """The bytes of a file in pieces, the same in each run."""
    begin = header(item.size) if item.kind == "kernel" else b""
    yield begin
    source, left = random.Random(f"{SEED} {item.name} {item.size}"), item.size - len(begin)
    while left:
        count = min(left, 8 * MIB)
        yield source.randbytes(count)
        left -= count


def manifest(release: Release) -> str:
    items = [{"name": item.name, "kind": item.kind, "file": item.name, "at": RAM + item.at} for item in release.items]
    launches = [manifests.launch(f"launch-{number}", s2sz=40, ram=[[RAM, RAM + release.ram + 2 * MIB * number]], item=items)
                for number in range(release.launches)]
    return manifests.manifest(*launches, files=[item.name for item in release.items])


def write(release: Release, folder: pathlib.Path):
    """Writes a release into a folder."""
    (folder / "manifest.toml").write_text(manifest(release))
    for item in release.items:
        with open(folder / item.name, "wb") as file:
            file.writelines(contents(item))


# The runs.


def waited(child: subprocess.Popen[bytes]) -> resource.struct_rusage:
    """Waits for a program, and answers what it has used. It is ended where the script is stopped."""
    try:
        _, status, used = os.wait4(child.pid, 0)
    except BaseException:
        child.kill()
        raise
    child.returncode = os.waitstatus_to_exitcode(status)
    return used


def run(program: str, ask: Ask, folder: pathlib.Path) -> tuple[Taken, bytes]:
    """What a report takes, and the report."""
    with tempfile.TemporaryFile() as out, tempfile.TemporaryFile() as err:
        began = time.monotonic()
        try:
            child = subprocess.Popen([program, *ask.words], cwd=folder, stdin=subprocess.DEVNULL, stdout=out, stderr=err)
        except OSError as why:
            raise Fault(f"{visible(program)}: {why.strerror}, expected a program") from None
        used = waited(child)
        passed = time.monotonic() - began
        out.seek(0)
        err.seek(0)
        if child.returncode:
            said = last_line(err.read().decode(errors="surrogateescape"), f"status {child.returncode}")
            raise Fault(f"{visible(program)} {' '.join(ask.words)}: {said}")
        return Taken(passed, used.ru_utime + used.ru_stime), out.read()


def compared(ask: Ask, report: bytes) -> bytes:
    """What is to be the same in the reports of all programs."""
    if not ask.is_json:
        return report
    try:
        found = json.loads(report)
        del found["program"]
    except (ValueError, KeyError, TypeError):
        raise Fault(f"{' '.join(ask.words)}: a report is no object with a program") from None
    return json.dumps(found).encode()


def timed(programs: list[str], folder: pathlib.Path, runs: int) -> dict[tuple[Ask, str], list[Taken]]:
    """What each report takes each program, by turns."""
    times: dict[tuple[Ask, str], list[Taken]] = {(ask, program): [] for ask in ASKS for program in programs}
    reports: dict[bool, set[bytes]] = {False: set(), True: set()}
    for turn in range(runs):
        for ask, program in times if turn % 2 == 0 else reversed(times):
            taken, report = run(program, ask, folder)
            times[ask, program].append(taken)
            reports[ask.is_json].add(compared(ask, report))
            if len(reports[ask.is_json]) > 1:
                raise Fault(f"{visible(program)} {' '.join(ask.words)}: its report is another one than those before it")
    return times


# The table.


def medians(taken: list[Taken]) -> Taken:
    return Taken(statistics.median(each.passed for each in taken), statistics.median(each.processors for each in taken))


def cells(found: list[Taken]) -> list[str]:
    """The cells of a row: the times of each program, and the first over the second where there are two."""
    shown = [f"{number:.2f}" for taken in found for number in (taken.passed, taken.processors)]
    if len(found) == 2:
        shown += [f"{found[0].passed / found[1].passed:.2f}", f"{found[0].processors / found[1].processors:.2f}"]
    return shown


def line(words: list[str]):
    print("| " + " | ".join(words) + " |", flush=True)


def show(release: Release, programs: list[str], times: dict[tuple[Ask, str], list[Taken]]):
    for ask in ASKS:
        found = [medians(times[ask, program]) for program in programs]
        line([release.name, ask.form, str(ask.workers), *cells(found)])


def heads(programs: list[str]) -> list[str]:
    two = ["first over second", "processors"] if len(programs) == 2 else []
    return ["Release", "Report", "Workers", *(head for program in programs for head in (f"`{visible(program)}`", "processors")), *two]


# The words.


def some_runs(text: str) -> int:
    """How often each report is made."""
    if not (text.isascii() and text.isdigit()) or not 1 <= int(text) <= MOST_RUNS:
        raise argparse.ArgumentTypeError(f"{visible(text)}, expected a number from 1 to {MOST_RUNS}")
    return int(text)


def main() -> int:
    parser = argparse.ArgumentParser(usage="bench/reports.py [--runs N] PROGRAM [PROGRAM]", allow_abbrev=False)
    parser.add_argument("--runs", type=some_runs, default=5)
    parser.add_argument("programs", nargs="+", metavar="PROGRAM")
    given = parser.parse_args()
    if len(given.programs) > 2:
        parser.error(f"there are {len(given.programs)} programs, expected one or two")
    programs = [os.path.abspath(program) for program in given.programs]
    columns = heads(programs)
    line(columns)
    line(["---"] * len(columns))
    for release in RELEASES:
        with tempfile.TemporaryDirectory() as name:
            folder = pathlib.Path(name)
            write(release, folder)
            show(release, programs, timed(programs, folder, given.runs))
    return 0


if __name__ == "__main__":
    sys.exit(ending.status_of("reports.py", main))
