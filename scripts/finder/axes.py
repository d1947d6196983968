"""Axes of a search: what may be one way or another, and how likely each way is."""
import heapq
import math
from collections.abc import Iterator, Sequence
from dataclasses import dataclass

# The place of a way on each axis.
At = tuple[int, ...]
# A likelihood is at least this: what is held for nearly impossible is tried too, last.
LEAST = 1e-12


@dataclass(frozen=True)
class Axis:
    """What may be one way or another: how likely each way is, the likeliest first. What a way means, its owner knows by its place."""

    name: str
    likely: tuple[float, ...]

    @property
    def costs(self) -> list[float]:
        """What each way costs beside the likeliest: costs are added where likelihoods are multiplied."""
        return [math.log(max(self.likely[0], LEAST)) - math.log(max(each, LEAST)) for each in self.likely]


def count_of(axes: Sequence[Axis]) -> int:
    """How many combinations there are."""
    return math.prod(len(axis.likely) for axis in axes)


def best_first(axes: Sequence[Axis]) -> Iterator[At]:
    """All combinations, by falling product of their likelihoods. Each is made of one before it: the last axis that is not at its first way
    goes on, or the one after it leaves its first way, beside it or in its place. So memory holds what comes next, and not all."""
    costs = [axis.costs for axis in axes]
    if any(later < earlier for each in costs for earlier, later in zip(each, each[1:])):
        raise ValueError("the ways of an axis are not the likeliest first")
    # an axis of one way has nothing to choose; the cheapest first step comes first, so that none is made of a later one
    order = sorted((number for number, each in enumerate(costs) if len(each) > 1), key=lambda number: costs[number][1])
    yield (0,) * len(axes)
    heap = [(costs[order[0]][1], 0, _moved((0,) * len(axes), order[0], 1))] if order else []
    while heap:
        cost, last, at = heapq.heappop(heap)
        yield at
        axis = order[last]
        here, steps = at[axis], costs[axis]
        if here + 1 < len(steps):
            heapq.heappush(heap, (cost - steps[here] + steps[here + 1], last, _moved(at, axis, here + 1)))
        if last + 1 < len(order):
            following = order[last + 1]
            more = costs[following][1]
            heapq.heappush(heap, (cost + more, last + 1, _moved(at, following, 1)))
            if here == 1:
                heapq.heappush(heap, (cost - steps[1] + more, last + 1, _moved(_moved(at, axis, 0), following, 1)))


def _moved(at: At, axis: int, place: int) -> At:
    return (*at[:axis], place, *at[axis + 1:])
