"""Runs of `rim` over manifests that are written for it."""
from __future__ import annotations

import functools
import itertools
import os
from collections.abc import Callable, Hashable, Iterable, Iterator, Sequence
from dataclasses import dataclass, field
from typing import Any, NamedTuple

from outside import files
from outside.faults import Fault
from outside.rim import Rim
from outside.texts import visible
from outside.measurement import Value
from outside.programs import Ran

# The most launches and files of a manifest.
MOST_LAUNCHES, MOST_FILES = 1024, 64
# How many runs there are at a time: while the last launches of one leave workers idle, the other goes on.
AT_ONCE = 2
# What `rim` says where it could not do what a run is for: no launch is refused for these.
FAULTS = ("no-memory", "file-unreadable", "file-too-large", "output-failed", "status ")


def processors() -> int:
    """How many processors there are for it, of which 64 are used."""
    return min(64, len(os.sched_getaffinity(0)))


class NamedFile(NamedTuple):
    """A file of a launch: its name in a manifest, and how many bytes it has."""

    name: str
    length: int


def bytes_of(some: Iterable[NamedFile]) -> int:
    return sum(each.length for each in some)


@dataclass(frozen=True)
class Candidate:
    """A launch: by what it is told apart from others; its table in a manifest, without its name; what is measured of it, part by part in their
    order, each with about how many steps it has; its files, where a manifest has those of its launches alone; and what its owner knows of it."""

    key: Hashable
    table: str
    parts: tuple[tuple[Hashable, int], ...]
    files: frozenset[NamedFile] = frozenset()
    origin: Any = None

    @functools.cached_property
    def steps(self) -> int:
        """About how many steps are measured."""
        return sum(count for _, count in self.parts)

    def steps_after(self, other: "Candidate") -> int:
        """About how many of its steps come after those with which another launch begins too."""
        shared = sum(1 for _ in itertools.takewhile(lambda pair: pair[0] == pair[1], zip(self.parts, other.parts)))
        return sum(count for _, count in self.parts[shared:])


@dataclass(frozen=True)
class Outcome:
    """What came of some launches: the place of the one that has the value, and how many `rim` has refused."""

    hit: int | None
    refused: int


@dataclass
class Runs:
    """The program, the text of the files that launches name, and a folder for manifests. `rim` is started there, or in another one that is
    named: paths of files are as from there. Runs may be made by several threads."""

    rim: Rim
    head: str
    folder: str
    start: str = ""
    workers: int = field(default_factory=lambda: max(1, processors() // AT_ONCE))
    numbers: Iterator[int] = field(default_factory=lambda: itertools.count(1))

    def head_of(self, launches: Sequence[Candidate]) -> str:
        """What is before the launches in a manifest."""
        return self.head

    def text(self, launches: Sequence[Candidate]) -> bytes:
        """A manifest of launches, which are named by their places."""
        tables = (f'[[launch]]\nname = "{number}"\n{each.table}' for number, each in enumerate(launches))
        return "".join([self.head_of(launches), *tables]).encode()

    def run(self, launches: Sequence[Candidate], words: Callable[[str], list[str]]) -> Ran:
        """What `rim` says by some words of a manifest of launches; `words` is given its path."""
        path = os.path.join(self.folder, f"search-{next(self.numbers)}.toml")
        files.write(path, self.text(launches))
        try:
            return self.rim.run(*words(path), folder=self.start or self.folder)
        finally:
            os.remove(path)

    def measured(self, launches: Sequence[Candidate]) -> Ran:
        """The report of a manifest of launches."""
        return self.run(launches, lambda path: ["measure", "--workers", str(self.workers), path])

    def trace(self, launch: Candidate) -> list[str]:
        """The lines of a launch's trace; none where it is refused."""
        ran = self.run([launch], lambda path: ["trace", path, "0"])
        return ran.out.decode("ascii", errors="replace").splitlines() if ran.status == 0 else []

    def outcome(self, launches: Sequence[Candidate], value: Value) -> Outcome:
        """Measures some launches. Where all of a run are refused for one of them, each half is tried by itself."""
        ran = self.measured(launches)
        if ran.status in (0, 1):
            before, line, _ = ran.out.decode("ascii", errors="replace").partition(f" {value.algo} {value.digits}\n")
            return Outcome(int(before.rsplit("\n", 1)[-1]) if line else None, ran.out.count(b" refused "))
        if ran.status < 0 or ran.status > 4 or any(word in ran.said for word in FAULTS):
            raise Fault(f"{visible(self.rim.path)} measure: {ran.ended}: {ran.said}")
        if len(launches) == 1:
            return Outcome(None, 1)
        half = len(launches) // 2
        first = self.outcome(launches[:half], value)
        if first.hit is not None:
            return first
        second = self.outcome(launches[half:], value)
        return Outcome(None if second.hit is None else half + second.hit, first.refused + second.refused)
