"""Tables of layouts: a row for each thing that a hypervisor decides, with its formula, its source and how sure it is. A row that a realm
may change has its alternatives too, the likeliest first."""
from __future__ import annotations

from collections.abc import Callable, Iterable
from dataclasses import dataclass, field
from typing import Any

from .guest import Guest

# How sure a row is.
SEEN, SOURCE, MEMORY = "seen", "source", "memory"
SURE = """seen: read in the source, and the same in each trial on running programs
source: read in the source, not tried
memory: remembered, no source was at hand and nothing was tried
"""


@dataclass(frozen=True)
class Way:
    """An alternative of a row: the word that a file has for it, what it means, how likely it is in percent, and how sure that is."""

    name: str
    does: str
    likely: int
    sure: str = MEMORY


@dataclass(frozen=True)
class Row:
    name: str                                # what it gives: an attribute of Places
    rule: str                                # the formula in words, for people and for the manifest
    formula: Callable[[Guest, "Places"], Any] | None    # what it comes to, of the launch and the rows before it
    source: str
    sure: str
    ways: tuple[Way, ...] = ()               # what a realm may have, the likeliest first; nothing where that is not asked
    apart: str = ""                          # a guest for which the alternatives give different measurements
    more: str = ""                           # what a file may have in the place of an alternative's name

    @property
    def names(self) -> list[str]:
        return [each.name for each in self.ways]

    def way(self, name: str) -> Way | None:
        return next((each for each in self.ways if each.name == name), None)

    @property
    def expected(self) -> str:
        """What a fault expects of a word for it."""
        return " or ".join([*self.names, *filter(None, [self.more])])


@dataclass
class Places:
    """Where everything of a launch is. Each attribute is what the row of its name comes to."""

    ram: list[tuple[int, int]] = field(default_factory=list)    # what the devicetree says
    kernel: int = 0                 # the kernel's base, `at` of its item
    entry: int = 0                  # the kernel's first byte
    kernel_end: int = 0             # where the hypervisor takes the kernel to end
    initrd: int = 0                 # the initrd's address, also where there is none
    dtb: int = 0
    stub: int | None = None         # the address of a boot stub, or None
    stub_bytes: bytes = b""
    firmware: int = 0               # the firmware's address, where there is one
    firmware_ram: list[tuple[int, int]] = field(default_factory=list)   # RAM that is for the firmware alone
    pc: int = 0                     # of the first processor
    x: list[int] = field(default_factory=list)
    s2sz: int = 0
    width_from: str = "rule s2sz"   # what decides s2sz

    @property
    def all_ram(self) -> list[tuple[int, int]]:
        return sorted(self.firmware_ram + self.ram)


def places(table: list[Row], guest: Guest) -> Places:
    """What the rows come to, from the first to the last."""
    found = Places()
    for row in table:
        if row.formula and row.name in Places.__dataclass_fields__:
            setattr(found, row.name, row.formula(guest, found))
    return found


def rows_with_ways(tables: Iterable[list[Row]]) -> dict[str, Row]:
    """The rows of some tables that have alternatives, each once."""
    return {row.name: row for table in tables for row in table if row.ways}


def way_lines(row: Row) -> list[str]:
    """The alternatives of a row, a line for each."""
    return [f"{row.name} = {way.name}: {way.likely}%, {way.sure}: {way.does}" for way in row.ways]


def shown(table: list[Row], title: str = "") -> str:
    """A table for people: each row with its rule, its source and how sure it is, and its alternatives."""
    lines = [f"\n{row.name}: {row.rule}\n    {row.sure} ({row.source})" + "".join(f"\n    {line}" for line in way_lines(row)) for row in table]
    return title + "".join(lines)
