"""The numbers of a machine that a search tries: those that the file about the host gives, those beside them, and then all of their range."""
from __future__ import annotations

from collections.abc import Mapping, Sequence
from dataclasses import dataclass

from outside.parameters import MOST, Parameter

from .layout import Row
from .rows import ADDS, NUMBERS

# How likely it is that a number of the host's file holds, that it is one off, and that it is another one.
GIVEN, BESIDE, OTHER = 0.90, 0.06, 0.04
# How likely a number that is usual is where the file does not give one.
USUAL = 0.8


@dataclass(frozen=True)
class Number:
    """A number as it is measured; that which is read off the machine for it, and by which alternative."""

    value: int
    read: int
    way: str
    likely: float


def by_likelihood(found: Sequence[Number]) -> list[Number]:
    """Each value once, with the likelihoods of all that come to it, and read as the likeliest of them; the likeliest first."""
    each: dict[int, list[Number]] = {}
    for number in found:
        each.setdefault(number.value, []).append(number)
    joined = []
    for value, some in each.items():
        best = max(some, key=lambda number: number.likely)
        joined.append(Number(value, best.read, best.way, sum(number.likely for number in some)))
    return sorted(joined, key=lambda number: -number.likely)


def read_as(row: Row, ways: Mapping[str, float], read: int, likely: float) -> list[Number]:
    """What a number that is read off the machine comes to, by each alternative of its row."""
    return [Number(read + ADDS[way.name], read, way.name, likely * ways[way.name]) for way in row.ways
            if way.name in ways and read + ADDS[way.name] >= 0]


def plain(value: int, way: str, likely: float) -> Number:
    """A number as it is measured, which was read off no machine."""
    return Number(value, value - ADDS[way], way, likely)


def options(about: Parameter, ways: Mapping[str, float], given: int | None) -> list[Number]:
    """The values that are tried for a number. `ways` has how likely each alternative of its row is."""
    row = NUMBERS[about.key]
    everything = range(max(about.below, given or 0) + 1)
    usual = max(ways, key=lambda way: ways[way])
    found = [plain(value, usual, OTHER / len(everything)) for value in everything]
    if given is not None:
        found += read_as(row, ways, given, GIVEN)
        found += [plain(value, usual, BESIDE / 2) for value in (given - 1, given + 1)]
    else:
        weights = [1 / (place + 1) for place in range(len(about.usual))]
        for value, weight in zip(about.usual, weights):
            found += read_as(row, ways, value, USUAL * weight / sum(weights))
    return by_likelihood([each for each in found if 0 <= each.value <= MOST and 0 <= each.read <= MOST])
