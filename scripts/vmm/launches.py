"""A launch for each combination, with a name that says it, and groups of launches for each manifest."""
from __future__ import annotations

import math
from dataclasses import dataclass

from outside.faults import Fault

from . import layout, names
from .guest import PAGE, Blob, Guest, up
from .layout import Places
from .realm import Realm

# What a manifest takes at most (docs/FORMATS.md): launches, files, and different pages that are measured.
MOST_LAUNCHES, MOST_FILES, MOST_PAGES = 1024, 64, 1 << 20
# How many launches one run makes.
MOST_COMBINATIONS = 1 << 16


@dataclass
class Launch:
    name: str
    guest: Guest
    places: Places
    tree: Blob | None = None        # its devicetree, once it is made
    stub: Blob | None = None
    zeros: Blob | None = None       # a file of zeros, where some are measured before a blob
    realm: Realm | None = None      # what a manifest says of it

    @property
    def processors(self) -> int:
        return self.guest.smp.count

    @property
    def initrd(self) -> Blob | None:
        """The initrd that is in RAM: firmware is given it otherwise."""
        return None if self.guest.firmware else self.guest.initrd

    @property
    def files(self) -> list[Blob]:
        return [blob for blob in (self.guest.loaded, self.initrd, self.tree, self.stub, self.zeros) if blob]

    @property
    def made(self) -> Realm:
        assert self.realm is not None
        return self.realm


def combinations(lists: dict, ways: dict[str, str], most_bits: int, handed: str, firmware_address: str) -> list[Guest]:
    """A guest for each combination. Those that share a devicetree are neighbours."""
    count = math.prod(len(values) for values in lists.values())
    if count > MOST_COMBINATIONS:
        raise Fault(f"the words have {count} combinations, expected at most {MOST_COMBINATIONS}")
    return [Guest(machine, cpu, memory, smp, kernel, initrd, append, algo, ways, most_bits, handed, firmware_address)
            for machine in lists["machine"] for cpu in lists["cpu"] for memory in lists["memory"] for smp in lists["smp"]
            for append in lists["append"] for initrd in lists["initrd"] for kernel in lists["kernel"] for algo in lists["algo"]]


def named(guests: list[Guest], lists: dict, table: list, is_short: bool) -> list[Launch]:
    """The launches of some guests. No two have one name, and none has a name that a manifest does not take."""
    several = {key for key, values in lists.items() if len(values) > 1}
    found: dict[str, Launch] = {}
    for guest in guests:
        name = names.name_of(guest, several, is_short)
        if name in found:
            raise Fault(f"launch {name}: two combinations have this name, expected each value of a list once")
        if len(name) > names.MOST:
            raise Fault(f"launch {name}: its name has {len(name)} characters, expected at most {names.MOST}: give the files shorter names")
        found[name] = Launch(name, guest, layout.places(table, guest))
    return list(found.values())


def pages_of(launch: Launch) -> dict[tuple[str, str, int], int]:
    """The pages that are measured, by algorithm, file and place in the first page: what `rim` hashes once."""
    items = ((item, item.start % PAGE) for item in launch.made.items)
    return {(launch.guest.algo, item.file, lead): up(item.end - item.start + lead, PAGE) // PAGE for item, lead in items}


class Group:
    """Launches of one manifest."""

    def __init__(self):
        self.launches: list[Launch] = []
        self.files: dict[str, Blob] = {}
        self.pages: dict = {}

    def __str__(self):
        launches, files = len(self.launches), len(self.files)
        return f"{launches} launch{'es' * (launches > 1)}, {files} file{'s' * (files > 1)}"

    def takes(self, launch: Launch) -> bool:
        files = self.files | {blob.file: blob for blob in launch.files}
        pages = self.pages | pages_of(launch)
        return len(self.launches) < MOST_LAUNCHES and len(files) <= MOST_FILES and sum(pages.values()) <= MOST_PAGES

    def add(self, launch: Launch):
        self.launches.append(launch)
        self.files |= {blob.file: blob for blob in launch.files}
        self.pages |= pages_of(launch)


def groups(launches: list[Launch]) -> list[Group]:
    """As few manifests as go one after the other. Launches of one devicetree are kept side by side, so that they share it."""
    first: dict[str, int] = {}
    for launch in launches:
        first.setdefault(launch.tree.file, len(first))
    made: list[Group] = []
    for launch in sorted(launches, key=lambda each: first[each.tree.file]):
        if not made or not made[-1].takes(launch):
            made.append(Group())
        made[-1].add(launch)
    return made
