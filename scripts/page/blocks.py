"""How RAM is made of blocks, and which parts of it a table of level 3 divides into pages.

`rim map` says how many blocks are measured and how many tables there are, and not where. Where they are is worked out here, by the rule of
docs/FORMATS.md ("Blocks of RAM"), and is shown only if there are just as many of them as `rim` says.
"""
from __future__ import annotations

from collections.abc import Iterable, Iterator
from typing import NamedTuple

from matcher.explain import BLOCKS

from .maps import PAGE, Map

SIZES = tuple(size for size, _ in BLOCKS)
NAMES = tuple(name for _, name in BLOCKS)
# The level of tables whose entries are pages, and what such a table divides.
LAST = len(SIZES) - 1
DIVIDED = SIZES[LAST - 1]


class Stretch(NamedTuple):
    """Addresses in blocks of one level, or what tables divide."""

    base: int
    end: int
    level: int


def largest(block_level: int, s2sz: int) -> int:
    """The level of the largest blocks that there may be: the tables of a narrow realm begin lower."""
    return max(block_level, 2 if s2sz < 35 else 1 if s2sz < 44 else 0)


def stretches(base: int, end: int, level: int) -> Iterator[Stretch]:
    """Some addresses, rising, as blocks that are at multiples of their size, the largest ones of this level."""
    size = SIZES[level]
    first, last = -(-base // size) * size, end // size * size
    if level == LAST or first >= last:
        if level == LAST:
            yield Stretch(base, end, level)
        else:
            yield from stretches(base, end, level + 1)
        return
    if base < first:
        yield from stretches(base, first, level + 1)
    yield Stretch(first, last, level)
    if last < end:
        yield from stretches(last, end, level + 1)


def of_ram(here: Map) -> list[Stretch]:
    """The blocks of RAM that are measured, as stretches of one level; none where `rim` counts another number of them."""
    found = [each for base, end in here.regions for each in stretches(base, end, largest(here.block_level, here.s2sz))]
    count = sum((each.end - each.base) // SIZES[each.level] for each in found)
    return found if here.extensions.get("ripas") == count else []


def joined(some: Iterable[tuple[int, int]]) -> Iterator[Stretch]:
    """Stretches of whole tables of level 3, rising: those that meet or share something as one."""
    base, end = 0, 0
    for first, last in sorted((base // DIVIDED * DIVIDED, -(-end // DIVIDED) * DIVIDED) for base, end in some):
        if end and first <= end:
            end = max(end, last)
            continue
        if end:
            yield Stretch(base, end, LAST)
        base, end = first, last
    if end:
        yield Stretch(base, end, LAST)


def divided(here: Map) -> list[Stretch]:
    """What tables of level 3 divide into pages: where items are, and RAM that is in pages. None where `rim` counts another number of them."""
    pages = [(each.first, each.first + each.pages * PAGE) for each in here.items if each.pages]
    pages += [(each.base, each.end) for each in of_ram(here) if each.level == LAST]
    found = list(joined(pages))
    count = sum((each.end - each.base) // DIVIDED for each in found)
    return found if here.tables[LAST - 1:LAST] == (count,) else []
