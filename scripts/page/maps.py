"""The map of a launch, as `rim map --json` prints it, of one that is refused too."""
from __future__ import annotations

from dataclasses import dataclass, replace

from comparer.report import Malformed, member, or_none

PAGE = 4096
VERSION = 1


@dataclass(frozen=True)
class Item:
    """An item of a launch: at its place, or as the manifest states it where the launch cannot be laid out. Sizes are in bytes; `size` is None
    where none is stated, and `pages` where it has no place. `lead` is where its first byte is in its first page."""

    name: str
    kind: str
    file: str | None
    is_edited: bool
    is_measured: bool
    address: int
    size: int | None
    pages: int | None = None
    lead: int = 0

    @property
    def end(self) -> int:
        return self.address + (self.size or 0)

    @property
    def first(self) -> int:
        """The address of its first page."""
        return self.address - self.lead

    @property
    def how(self) -> str:
        """Whether its contents are measured, in words."""
        if self.kind == "unknown":
            return "content unknown"
        return "measured" if self.is_measured else "contents not measured"


@dataclass(frozen=True)
class Map:
    """The map of a launch. `regions` are the first address of each region of RAM and the first past it, rising. `extensions` and `granules` are
    how many there are of each kind; they are empty for a launch that is refused, which has the word and the line of its refusal."""

    name: str
    algorithm: str
    s2sz: int
    block_level: int
    recs: int
    regions: tuple[tuple[int, int], ...]
    items: tuple[Item, ...]
    extensions: dict[str, int]
    granules: dict[str, int]
    tables: tuple[int, ...] = ()
    warnings: tuple[str, ...] = ()
    refused: str = ""
    refusal: str = ""

    @property
    def ram(self) -> int:
        """How many bytes of RAM it has."""
        return sum(end - base for base, end in self.regions)

    def of_kind(self, kind: str) -> Item | None:
        return next((each for each in self.items if each.kind == kind), None)


def item_of(table: object) -> Item:
    name, kind, file = member(table, "name", str), member(table, "kind", str), or_none(table, "file", str)
    is_edited, is_measured = member(table, "edited", bool), member(table, "measured", bool)
    if isinstance(table, dict) and "stated" in table:
        stated = member(table, "stated", dict)
        return Item(name, kind, file, is_edited, is_measured, member(stated, "at", int), or_none(stated, "size", int))
    place = member(table, "place", dict)
    return Item(name, kind, file, is_edited, is_measured, *(member(place, key, int) for key in ("address", "bytes", "pages", "lead")))


def counts_of(table: object, name: str) -> dict[str, int]:
    """The numbers of an object by their names."""
    return {key: value for key, value in member(table, name, dict).items() if type(value) is int}


def region_of(table: object) -> tuple[int, int]:
    base, end = member(table, "base", int), member(table, "end", int)
    if not 0 <= base < end:
        raise Malformed(f"a region is from {base} to {end}")
    return base, end


def map_of(table: object) -> Map:
    """The map that some JSON is; `Malformed` where it is none."""
    version = member(table, "version", int)
    if version != VERSION:
        raise Malformed(f"version is {version}, expected {VERSION}")
    launch = member(table, "launch", dict)
    regions = tuple(sorted(map(region_of, member(table, "regions", list))))
    found = Map(member(launch, "name", str), member(launch, "algorithm", str), member(launch, "s2sz", int), member(launch, "block_level", int),
                member(launch, "recs", int), regions, tuple(map(item_of, member(table, "items", list))), {}, {})
    if isinstance(table, dict) and "refused" in table:
        return replace(found, refused=member(table, "refused", str), refusal=member(table, "refusal", str))
    tables = member(member(table, "granules", dict), "tables", list)
    return replace(found, extensions=counts_of(table, "extensions"), granules=counts_of(table, "granules"),
                 tables=tuple(each for each in tables if type(each) is int),
                 warnings=tuple(str(each) for each in member(table, "warnings", list)))

