"""Runs of `rim` over launches: a manifest has the files that its launches name, and paths are as from where the user is."""
from __future__ import annotations

import hashlib
from collections.abc import Sequence
from dataclasses import dataclass, field

from finder import runs
from finder.runs import Candidate, NamedFile
from outside.measurement import Value
from outside.rim import Rim

from .files import Files
from .launch import Launch, is_whole, manifest_head, parts_of, table_text


@dataclass(frozen=True)
class Change:
    """A launch, and the changes that lead to it."""

    texts: tuple[str, ...]
    launch: Launch


@dataclass
class Runs(runs.Runs):
    files: Files = field(default_factory=lambda: Files(Rim("")))

    def head_of(self, launches: Sequence[Candidate]) -> str:
        return manifest_head({file.name for each in launches for file in each.files}, self.files)

    def candidate(self, change: Change) -> Candidate | None:
        """A launch for a run; None where no manifest may have it. Its table tells it apart from others: what is measured of a launch, `rim` alone
        says."""
        launch = change.launch
        if not is_whole(launch):
            return None
        table = table_text(launch)
        # a digest takes less room than what it is of, and no two of them are alike; Python's hash of 0 is that of 2 ** 61 - 1
        key = hashlib.blake2b(table.encode(errors="surrogateescape"), digest_size=16).digest()
        named = frozenset(NamedFile(each.file, self.files[each.file].length) for each in launch.item if each.file is not None)
        # parts say which launches are side by side, where two that are taken for one cost time alone: so they are kept by their hashes
        parts = tuple((hash(part), count) for part, count in parts_of(launch, self.files))
        return Candidate(key, table, parts, named, change)

    def has(self, launch: Launch, value: Value) -> bool:
        """Whether a launch has the value, measured by itself."""
        return self.hit([launch], value) is not None

    def hit(self, launches: Sequence[Launch], value: Value) -> int | None:
        """Which of some launches of a manifest has the value."""
        some = [(place, self.candidate(Change((), each))) for place, each in enumerate(launches)]
        given = [(place, each) for place, each in some if each is not None]
        hit = self.outcome([each for _, each in given], value).hit if given else None
        return None if hit is None else given[hit][0]


def begun(rim: Rim, folder: str, files: Files) -> Runs:
    return Runs(rim, "", folder, start=".", files=files)
