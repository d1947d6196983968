"""Which launch of a manifest shares the longest beginning with what a machine has logged, and where it parts from it."""
from __future__ import annotations

from collections import Counter
from collections.abc import Sequence
from dataclasses import dataclass, field

from outside.faults import Fault
from outside.measurement import last_shared
from outside.rim import Rim
from outside.texts import plain, visible

from . import explain
from .explain import Content, Known
from .logs import NO_LEVELS, UNMEASURED, WORDS, Log, Step, goes_on, is_ram, same, text


@dataclass(frozen=True)
class Shared:
    """The beginning that a launch and a machine share: how many lines of each it has, and whether the two split RAM in other lines."""

    here: int
    there: int
    is_split: bool = False


@dataclass(frozen=True)
class Near:
    """A launch: the beginning that it shares with the machine, and how many of its steps the machine has too."""

    name: str
    shared: Shared
    steps: int

    @property
    def rank(self) -> tuple[int, int]:
        """The longest beginning is the nearest, and of several the one with most of the machine's steps: where a parameter of the realm
        differs, no launch shares a line."""
        return self.shared.there, self.steps


@dataclass
class Found:
    """The launches that `rim` takes, in their order; the nearest of them with its trace, the only one that is kept; what `rim` says of
    the others."""

    all: list[Near] = field(default_factory=list)
    best: Near | None = None
    trace: list[str] = field(default_factory=list)
    steps: list[Step] = field(default_factory=list)
    refused: list[str] = field(default_factory=list)

    def take(self, near: Near, trace: list[str], steps: list[Step]):
        self.all.append(near)
        if self.best is None or near.rank > self.best.rank:
            self.best, self.trace, self.steps = near, trace, steps


def bare(step: Step, log: Log) -> Step:
    """A step without its RIM, which is another one in all steps after the first difference."""
    return step[1:] if log.rims else step


def run_of(steps: Sequence[Step], log: Log) -> list[Step]:
    """Returns the first steps as far as they make RAM, each where the one before it ended."""
    run: list[Step] = []
    for step in steps:
        if not (goes_on(bare(run[-1], log), bare(step, log)) if run else is_ram(bare(step, log))):
            break
        run.append(step)
    return run


def both_ram(here: Sequence[Step], there: Sequence[Step], log: Log) -> tuple[list[Step], list[Step]] | None:
    """Returns the first steps on both sides as far as they make RAM, if they do so from the same address on."""
    mine, theirs = run_of(here, log), run_of(there, log)
    return (mine, theirs) if mine and theirs and bare(mine[0], log)[1] == bare(theirs[0], log)[1] else None


def shared(here: Sequence[Step], there: Sequence[Step], log: Log) -> Shared:
    """Returns the beginning that two sequences of steps share. RAM may be a line for each block or for each command: it is the same up to the
    last line with the same RIM, or in a log without RIMs with the same end."""
    mine, theirs, is_split = 0, 0, False
    while mine < len(here) and theirs < len(there):
        some = others = int(same(here[mine], there[theirs]))
        if not some and (runs := both_ram(here[mine:], there[theirs:], log)):
            some, others = last_shared(*([str(step[0 if log.rims else 2]) for step in run] for run in runs))
            is_split = is_split or some > 0
        if not some:
            break
        mine, theirs = mine + some, theirs + others
    return Shared(mine, theirs, is_split)


def blocks(here: Sequence[Step], there: Sequence[Step], log: Log) -> tuple[Step, Step]:
    """Returns the first step on each side, or all RAM that goes on there if both make RAM from the same address on."""
    if (runs := both_ram(here, there, log)) is None:
        return here[0], there[0]
    one, other = ((*run[-1][:1], *run[0][1:-1], run[-1][-1]) for run in runs)
    return one, other


def counted(steps: Sequence[Step], log: Log) -> Counter[Step]:
    return Counter(bare(step, log) for step in steps)


def differing(one: Step, other: Step, log: Log) -> list[str]:
    """The names of the words in which two steps of one command differ."""
    mine, theirs = bare(one, log), bare(other, log)
    if mine[0] != theirs[0] or mine[0] not in WORDS or len(mine) != len(theirs):
        return ["the command"]
    names = [name for name, here, there in zip(WORDS[mine[0] or ""], mine[1:], theirs[1:]) if None not in (here, there) and here != there]
    return names or ["the RIM"] * (one != other)


def of_launches(rim: Rim, manifest: str, names: list[str], there: Log) -> Found:
    """How near each launch is."""
    found, steps = Found(), counted(there.steps, there)
    for name in names:
        ran = rim.run("trace", "--explain", "--", manifest, name)
        out = ran.out.decode("ascii", errors="replace")
        if ran.status == 0:
            lines = out.splitlines()
            here = there.of_trace(lines)
            found.take(Near(name, shared(here, there.steps, there), sum((counted(here, there) & steps).values())), lines, here)
        elif ran.status == 1:
            found.refused.append(out.strip())
        else:
            raise Fault(ran.said.strip())
    return found


def is_all(found: Found, there: Log) -> bool:
    """Whether the nearest launch has all steps of the log, and no more, and the RIM at its end, where it has one."""
    return has_all(found, there) and there.rim in (None, last_rim(found))


def has_all(found: Found, there: Log) -> bool:
    return found.best is not None and (len(found.steps), len(there.steps)) == (found.best.shared.here, found.best.shared.there)


def last_rim(found: Found) -> str:
    return found.trace[-1].split(" ")[0]


def said_of(found: Found, near: Near, path: str, log: Log) -> list[str]:
    """What is said of the nearest launch, with its steps, and of the machine's log at a path."""
    here, there, path = found.steps, log.steps, visible(path)
    mine, theirs, is_split = near.shared.here, near.shared.there, near.shared.is_split
    what = "steps" if log.joins else "lines"
    why = log.lacks or NO_LEVELS * (is_split and not log.rims)
    lacks = [f"{path} is {log.about}: {why}"] * bool(why)
    if has_all(found, log):
        known = "" if log.is_known and not why else ", if what it does not hold is as in the launch"
        rim = [f"the RIM after them is {last_rim(found)}{known}"] * (not log.rims)
        if log.rim not in (None, last_rim(found)):
            rim = [f"the RIM after them is {last_rim(found)}, and {log.rim} there: the tables have other levels, or the rule of RECs is another"]
        return [f'launch "{near.name}": all {mine} {what} are those of {path}{f", which has {theirs} and splits RAM otherwise" * is_split}', *rim, *lacks]
    first = f"the first {theirs} of the {len(there)} of {path}, which splits RAM otherwise" if is_split else f"those of {path}, which has {len(there)}"
    lines, word = [f'launch "{near.name}": the first {mine} of its {len(here)} {what} are {first}'], what[:-1]
    if mine == len(here) or theirs == len(there):
        which, at = ("the launch", theirs) if mine == len(here) else (path, mine)
        return [*lines, f"{word} {at + 1}: {which} has none"] + [
            f"{where}: {plain(text(steps[at]))}" for where, steps, at in ((near.name, here, mine), (path, there, theirs)) if at < len(steps)] + lacks
    one, other = blocks(here[mine:], there[theirs:], log)
    names = differing(one, other, log)
    where = f"{word} {mine + 1}" + f" ({word} {theirs + 1} of {path})" * (mine != theirs)
    return [*lines, f"{where} differs in {', '.join(names)}", *unmeasured(names, here[mine:], there[theirs:], log, word),
            *["RAM is the same, so its blocks are of other levels"] * (names == ["the RIM"] and is_ram(bare(one, log))),
            f"{near.name}: {text(one)}", f"{path}: {plain(text(other))}", *lacks]


def unmeasured(names: Sequence[str], here: Sequence[Step], there: Sequence[Step], log: Log, word: str) -> list[str]:
    """Says that the RIM is the same if the first of two sequences of steps differ only in words that are not measured."""
    if set(names) - UNMEASURED or (log.rims and here[0][0] != there[0][0]):
        return []
    is_last = log.rims and here[-1][0] == there[-1][0]
    return [f"{' and '.join(names)} {'is' if len(names) == 1 else 'are'} not measured: the RIM after this {word} is the same"
            + ", and so is the last RIM" * is_last]


def explained(rim: Rim, folder: str, manifest: str, found: Found, log: Log, contents: list[Content]) -> list[str]:
    """What the first step that differs is, by the names of the launch, and where the machine's pages are in files."""
    if found.best is None or has_all(found, log):
        return []
    known, at = Known(rim, folder, manifest, found.best.name, contents), found.best.shared
    mine, theirs = found.steps[at.here:], log.steps[at.there:]
    here, there = ([bare(step, log) for step in steps] for steps in (mine, theirs))
    recs = sum(1 for step in found.steps[:at.here] if bare(step, log)[0] == "rec_create")
    both = [bare(step, log) for step in blocks(mine, theirs, log)] if mine and theirs else None
    first, other = both or ((here or [None])[0], (there or [None])[0])
    return [*explain.of_step(known, first, other, recs), *explain.of_tree(known, first), *explain.where_found(known, there, here)]


def about_others(best: Near, found: list[Near]) -> list[str]:
    """What is said of the launches with the same beginning."""
    others = [each for each in found if each is not best and each.shared.there == best.shared.there]
    if not others:
        return []
    several = len(others) > 1
    fewer = ", and fewer of the other steps" * all(each.steps < best.steps for each in others)
    return [f"{len(others)} other launch{'es' * several} share{'s' * (not several)} that beginning too{fewer}"]
