"""What is measured of a launch, exactly: two launches that agree in it have one measurement, and two that do not have not."""
from collections.abc import Mapping
from dataclasses import dataclass

from .guest import GIB, MIB, PAGE, up
from .realm import Item, Realm, Region

# Blocks of RAM by their level (docs/FORMATS.md, "Blocks of RAM").
SIZES = (512 * GIB, GIB, 2 * MIB, PAGE)


@dataclass(frozen=True)
class Content:
    """The bytes of a file without the zeros at its end: what they are, and how many."""

    digest: str
    length: int


def blocks(region: Region, level: int) -> list[tuple[int, int, int]]:
    """The blocks of a region, as runs of one size: the size, the first address, how many."""
    at, end = region
    found = []
    while at < end:
        number = next(each for each in range(level, len(SIZES)) if at % SIZES[each] == 0 and at + SIZES[each] <= end)
        size = SIZES[number]
        count = (end - at) // size
        if number > level:
            larger = SIZES[number - 1]
            next_larger = up(at + 1, larger)
            if next_larger + larger <= end:
                count = min(count, (next_larger - at) // size)
        found.append((size, at, count))
        at += size * count
    return found


def pages(item: Item, content: Content) -> list[tuple]:
    """The pages of an item: those that its bytes make, and those that are zero."""
    lead, (first, end) = item.start % PAGE, item.pages
    count = up(lead + content.length, PAGE) // PAGE if content.length else 0
    found: list[tuple] = [("data", content.digest, lead, first, count)] if count else []
    zeros = (end - first) // PAGE - count
    return [*found, ("zeros", PAGE, first + count * PAGE, zeros)] if zeros else found


def joined(runs: list[tuple], run: tuple):
    """Adds a run; one that goes on where the last of its kind ends is one with it."""
    kind, size, at, count = run
    if runs and runs[-1][:2] == (kind, size) and runs[-1][2] + size * runs[-1][3] == at:
        runs[-1] = (kind, size, runs[-1][2], runs[-1][3] + count)
    else:
        runs.append(run)


def body_of(realm: Realm, contents: Mapping[str, Content], level: int) -> tuple:
    """What is measured after the realm's parameters, where the largest blocks have this level."""
    items = {each.name: each for each in realm.items}
    runs: list[tuple] = []
    for step in realm.steps:
        what, _, which = step.partition(" ")
        if what == "ram":
            for block in blocks(realm.regions[int(which)], level):
                joined(runs, ("ram", *block))
        elif what == "item":
            for run in pages(items[which], contents[items[which].file]):
                if run[0] == "zeros":
                    joined(runs, run)
                else:
                    runs.append(run)
        elif which == "0":
            runs.append(("rec", realm.pc, realm.x))
        elif realm.is_measured_off:
            runs.append(("rec that is off",))
    return tuple(runs)


def parts_of(body: tuple) -> tuple[tuple[tuple, int], ...]:
    """Its runs, each with how many steps of it are measured."""
    return tuple((run, run[-1] if run[0] in ("ram", "zeros", "data") else 1) for run in body)
