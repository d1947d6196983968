"""The launches that are tried: each once, in the order in which they are given, and as many in a run of `rim` as a manifest has."""
from __future__ import annotations

import math
import time
from collections import deque
from collections.abc import Callable, Hashable, Iterable, Iterator, Sequence
from concurrent.futures import Future, ThreadPoolExecutor
from dataclasses import dataclass, field
from typing import NamedTuple

from outside import stopping
from outside.measurement import Value
from outside.stopping import Stopped

from .progress import Progress
from .runs import AT_ONCE, MOST_FILES, MOST_LAUNCHES, Candidate, NamedFile, Outcome, Runs, bytes_of

# About how many steps the launches of a run have, where those that they share count once; and how many bytes of files, where these are not one
# launch's own, or small.
MOST_STEPS, MOST_BYTES = 1 << 23, 1 << 28
# Among how many launches those that share their first steps are looked for: among few at first, since what is likely is found at once, and then
# among GROWTH times as many as were made before; at most among MOST_AMONG, or MOST_AMONG_LONG where they have many steps, since then these take the time.
FIRST, GROWTH, MOST_AMONG, MOST_AMONG_LONG = 64, 2, 4 * MOST_LAUNCHES, 16 * MOST_LAUNCHES
# A file of as many bytes takes as long to be read as launches take that share nothing.
LARGE = 1 << 22
# A launch of more steps than this, and than twice those of the first one, is put aside until the end of its round, or until there are FIRST such,
# and later more, so that those which begin alike are in one run: RAM in pages of 4 KiB takes as long as hundreds of other launches.
COSTLY = 1 << 12
# A run that is not full and has fewer launches than an eighth of all that were made waits for more, once, those of the next round too: its files take
# as long as those of many.
FEW = 8
# How many launches are looked at for each one that may be tried: many were tried, or can't be.
LOOKED_AT = 20
# How many runs wait for those that go on: what is made next, or the run whose outcome comes first, may take as long as several.
AHEAD = 6


@dataclass(frozen=True)
class Planned:
    """A round that is to be tried: what is said of it, and its launches in their order. It tries so many at most, and ends at a time, where that
    is said. What has more steps than `vast` is left for a last round."""

    about: str
    candidates: Iterable[Candidate | None]
    most: int | None = None
    until: float = math.inf
    vast: float = math.inf


@dataclass
class Round:
    """Launches that were tried one after another: what is said of them, how many were tried, how many were made and their run was not begun or
    has not ended, and whether all were made."""

    about: str
    tried: int = 0
    not_tried: int = 0
    are_made: bool = False

    @property
    def is_whole(self) -> bool:
        """Whether all of them were tried."""
        return self.are_made and not self.not_tried


class Begun(NamedTuple):
    """A run that goes on or waits for others: its launches, and what comes of it; None where it was not begun."""

    batch: list[Candidate]
    future: Future[Outcome | None]


def large_of(each: Candidate) -> list[str]:
    """The names of a launch's large files."""
    return sorted(file.name for file in each.files if file.length >= LARGE)


def places_in_runs(some: Sequence[Candidate]) -> list[list[int]]:
    """The places of launches for a run each, of which all but the last are full. `rim measure` takes the steps once with which launches of a run
    begin, and each run hashes the files anew: so a run has those with the same large files, and of these those that begin alike."""
    ranks: dict[Hashable, int] = {}
    begin = [[ranks.setdefault(part, len(ranks)) for part, _ in each.parts] for each in some]
    found, here, steps = list[list[int]](), set[NamedFile](), 0
    for place in sorted(range(len(some)), key=lambda place: (large_of(some[place]), begin[place])):
        each = some[place]
        both = here | each.files
        is_too_long = bytes_of(both) > MOST_BYTES and bytes_of(both - here) >= LARGE
        if not found or len(found[-1]) == MOST_LAUNCHES or steps > MOST_STEPS or len(both) > MOST_FILES or is_too_long:
            both, steps = set(each.files), each.steps
            found.append([])
        else:
            steps += each.steps_after(some[found[-1][-1]])
        here = both
        found[-1].append(place)
    return found


def in_runs(some: Sequence[Candidate], found: Sequence[list[int]] | None = None) -> Iterator[list[Candidate]]:
    """Launches for a run each, by their places or by those of places_in_runs, both in their order: the likeliest first."""
    for places in sorted(map(sorted, places_in_runs(some) if found is None else found)):
        yield [some[place] for place in places]


@dataclass
class Search:
    """The search for a launch that has a value. `heard` gets the launches that were tried."""

    runs: Runs
    value: Value
    limit: int
    progress: Progress
    until: float = math.inf                                     # when it ends, by the clock of time.monotonic
    waits: bool = False                                         # whether what is costly waits for the end of its round
    heard: Callable[[Sequence[Candidate]], None] | None = None
    at_once: int = AT_ONCE
    rounds: list[Round] = field(default_factory=list)
    refused: int = 0
    made: int = 0
    costly: int = 0
    made_of: dict[object, Round] = field(default_factory=dict)  # the rounds of launches that were made and not tried so far, by their keys
    over: list[Candidate] = field(default_factory=list)         # those of them that are too few for a run, and until when that would begin
    over_until: float = math.inf
    keys: set[object] = field(default_factory=set)              # of all launches that were tried: by what one is known from another, whole
    is_found: bool = False                                      # whether a run has what is looked for: no more are begun
    left: list[Candidate] = field(default_factory=list)

    @property
    def tried(self) -> int:
        return sum(each.tried for each in self.rounds)

    @property
    def is_over(self) -> bool:
        """Whether its time is."""
        return time.monotonic() >= self.until

    @property
    def is_ended(self) -> bool:
        """Whether no more launches are tried."""
        return self.is_over or self.made >= self.limit

    def found(self, about: str, candidates: Iterable[Candidate | None], most: int | None = None, until: float = math.inf,
              vast: float = math.inf) -> Candidate | None:
        """The first launch of one round that has the value."""
        return self.found_in([Planned(about, candidates, most, until, vast)])

    def found_in(self, planned: Iterable[Planned]) -> Candidate | None:
        """The first launch that has the value, of some rounds. While launches are measured, the next ones are made, those of the next
        round too: no processor waits for the last runs of a round."""
        pool = ThreadPoolExecutor(self.at_once)
        waiting: deque[Begun] = deque()
        try:
            hit = next(filter(None, (self.found_of(each, pool, waiting) for each in planned)), None)
            hit = hit or self.found_by(in_runs(self.over), self.over_until, pool, waiting)
            return hit or next(filter(None, map(self.taken, waiting)), None)
        except Stopped:
            pool.shutdown(cancel_futures=True)
            self.count_ended(waiting)
            raise
        finally:
            self.over = []
            pool.shutdown(cancel_futures=True)
            self.progress.end()

    def found_of(self, planned: Planned, pool: ThreadPoolExecutor, waiting: deque[Begun]) -> Candidate | None:
        """Begins the runs of a round."""
        here, self.over_until = Round(planned.about), min(planned.until, self.until)
        self.rounds.append(here)
        return self.found_by(self.batches(self.new(planned, here, self.over_until)), self.over_until, pool, waiting)

    def found_by(self, batches: Iterable[list[Candidate]], end: float, pool: ThreadPoolExecutor, waiting: deque[Begun]) -> Candidate | None:
        """Begins runs. What came of earlier ones is taken, in their order, where it has come or too many would wait."""
        for batch in batches:
            while waiting and (len(waiting) >= self.at_once + AHEAD or waiting[0].future.done()):
                if hit := self.taken(waiting.popleft()):
                    return hit
            waiting.append(Begun(batch, pool.submit(self.outcome, batch, end)))
        return None

    def outcome(self, batch: list[Candidate], end: float) -> Outcome | None:
        """What comes of a run; None where it is not begun: the script is stopped, its time is over, or one before it has what is looked for."""
        if self.is_found or stopping.is_stopped() or end <= time.monotonic():
            return None
        came = self.runs.outcome(batch, self.value)
        if came.hit is not None:
            self.is_found = True
        return came

    def last(self, about: str) -> Planned:
        """The last round: of what was left."""
        left, self.left = self.left, []
        return Planned(about, self.again(left))

    def again(self, left: list[Candidate]) -> Iterator[Candidate]:
        for each in left:
            self.keys.discard(each.key)
            yield each

    def new(self, planned: Planned, here: Round, until: float) -> Iterator[Candidate]:
        """The launches of a round that were not tried, as long as there is time."""
        end, left = self.limit if planned.most is None else min(self.limit, self.made + planned.most), len(self.left)
        most_looks = (end - self.made) * LOOKED_AT
        for looks, each in enumerate(planned.candidates):
            if self.made >= end or looks > most_looks or time.monotonic() >= until:
                return
            if each is not None and each.key not in self.keys:
                self.keys.add(each.key)
                if each.steps > planned.vast:
                    self.left.append(each)
                    continue
                self.made += 1
                self.made_of[each.key] = here
                yield each
        here.are_made = len(self.left) == left

    @property
    def among(self) -> int:
        """Among how many launches, from here on, those that share their first steps are looked for."""
        return min(max(FIRST, GROWTH * self.made), MOST_AMONG_LONG if self.costly > COSTLY else MOST_AMONG)

    def batches(self, launches: Iterator[Candidate]) -> Iterator[list[Candidate]]:
        """Launches for a run each."""
        some: list[Candidate] = []
        late: list[Candidate] = []
        among, most_late = self.among, FIRST
        for each in launches:
            self.costly = self.costly or max(COSTLY, 2 * each.steps)
            if each.steps > self.costly:
                late.append(each)
                if len(late) == most_late and not self.waits:
                    yield from in_runs(late)
                    late, most_late = [], min(4 * most_late, MOST_LAUNCHES)
                continue
            some.append(each)
            if len(some) == among:
                yield from self.filled(some)
                some, among = [], self.among
        for each in filter(None, (some, late)):
            yield from self.filled(each)

    def filled(self, some: list[Candidate]) -> Iterator[list[Candidate]]:
        """Launches for a run each, with those that were too few before. The last of them, where they are too few and none has waited before, wait."""
        waited = len(self.over)
        every = [*self.over, *some]
        found, self.over = places_in_runs(every), []
        if found and FEW * len(found[-1]) < self.made and min(found[-1]) >= waited:
            self.over = [every[place] for place in sorted(found.pop())]
        yield from in_runs(every, found)

    def taken(self, run: Begun) -> Candidate | None:
        """What came of a run: the launch that was looked for, where it is among these. Those of a run that was not begun are as if they were not
        made."""
        came = run.future.result()
        if came is None:
            self.made -= len(run.batch)
            self.keys.difference_update(each.key for each in run.batch)
            self.count_not_tried(run.batch)
            return None
        about = self.made_of[run.batch[-1].key].about
        self.count(run, came)
        self.progress.show(f"{self.tried:,} launches tried" + f", {about}" * bool(about))
        return None if came.hit is None else run.batch[came.hit]

    def count(self, run: Begun, came: Outcome):
        """Counts the launches of a run as tried."""
        for number, each in enumerate(run.batch):
            self.made_of.pop(each.key).tried += came.hit is None or number <= came.hit
        self.refused += came.refused
        if self.heard is not None:
            self.heard(run.batch)

    def count_not_tried(self, some: Iterable[Candidate]):
        for each in some:
            self.made_of.pop(each.key).not_tried += 1

    def count_ended(self, waiting: Iterable[Begun]):
        """Counts what was tried where a signal has come: runs that had ended, and whose outcome waited for that of an earlier one. One that has the
        value is none of them: that is not said any more, nor is the opposite."""
        for run in waiting:
            if not run.future.cancelled() and run.future.exception() is None and (came := run.future.result()) and came.hit is None:
                self.count(run, came)
        for here in self.made_of.values():
            here.not_tried += 1
