"""What is tried near a launch, round by round: the launch as it is, and then what its axes change."""
from __future__ import annotations

import itertools
import math
from collections.abc import Iterator
from dataclasses import dataclass

from finder.runs import Candidate
from finder.search import COSTLY, Planned, Search

from .axes import AXES, Axis
from .files import Files
from .launch import Launch, steps_of
from .program import Change, Runs

# How many axes are changed at once, and how many of the changes need not be likely ones; what is said of a round. The first NEAR rounds
# are tried where nothing else is said: what is in the others is rare, and they take minutes.
NEAR = 2
ROUNDS = ((1, 1, "one change"), (2, 0, "two likely changes"), (2, 2, "two changes"), (3, 0, "three likely changes"),
          (3, 1, "three changes, two of them likely"), (3, 3, "three changes"))
LAST_ROUND = "changes of many steps"


def combined(texts: tuple[str, ...], launch: Launch, files: Files, axes: tuple[Axis, ...], count: int, others: int,
             one_of: int | None = None) -> Iterator[Change]:
    """The launches that are changed by `count` of these axes, each change of one with each of another; at most `others` are not likely, and one
    of the axes is among the first so many, where that is said."""
    for at, axis in enumerate(axes[:len(axes) - count + 1][:one_of]):
        changes = axis.changes(launch, files)
        for number, (text, changed) in enumerate(changes if others else itertools.islice(changes, axis.likely)):
            if count == 1:
                yield Change((*texts, text), changed)
            else:
                yield from combined((*texts, text), changed, files, axes[at + 1:], count - 1, others - (number >= axis.likely))


@dataclass(frozen=True)
class Near:
    """What is near a launch."""

    runs: Runs
    base: Launch
    axes: tuple[Axis, ...] = AXES

    def changed(self, count: int, others: int) -> Iterator[Change]:
        """The launches of a round, of all steps. What people change is in front of the table; where not all changes are likely, it comes last."""
        files, peoples = self.runs.files, sum(1 for _ in itertools.takewhile(lambda axis: axis.is_peoples, self.axes))
        if count == 1 or not others or not peoples:
            return combined((), self.base, files, self.axes, count, others)
        return itertools.chain(combined((), self.base, files, self.axes[peoples:], count, others),
                               combined((), self.base, files, self.axes, count, others, peoples))

    def launches(self, count: int, others: int) -> Iterator[Candidate | None]:
        return map(self.runs.candidate, self.changed(count, others))

    def vast(self, count: int, others: int) -> float:
        """How many steps are too many for a round where more than one thing is changed, not all of it likely: a few of its launches would take
        most of the time."""
        return max(COSTLY, 2 * steps_of(self.base, self.runs.files)) if count > 1 and others else math.inf

    def planned(self, search: Search, is_far: bool) -> Iterator[Planned]:
        """What is tried, as long as the search goes on: the launch as it is, and then round after round."""
        yield Planned("", [self.runs.candidate(Change((), self.base))])
        for count, others, about in ROUNDS if is_far else ROUNDS[:NEAR]:
            if search.is_ended:
                return
            yield Planned(about, self.launches(count, others), vast=self.vast(count, others))
        if is_far and not search.is_ended:
            yield search.last(LAST_ROUND)
