"""The near things: launches whose parts are those of other launches, of this manifest and of others that are named.

A machine that is between two launches is likelier than one that is wrong in a number: it has the kernel of one release and the initrd of
another, or the devicetree of another size of RAM. Each part is an axis of the finder's search; its own is the likeliest.
"""
from __future__ import annotations

from collections.abc import Callable, Iterable, Iterator, Sequence
from dataclasses import dataclass, field, replace

from finder.axes import At, Axis, best_first
from finder.runs import Candidate
from typing import Optional
from outside.texts import quoted

from . import people, trees
from .files import Files
from .launch import MIB, Item, Launch, Rec, Region, with_item, with_ram, with_recs, without_item
from .program import Change, Runs

# How many other ways a part has at most, and how many launches are tried.
MOST_WAYS, MOST_TRIED = 64, 8192
# How likely a part is that of this launch, and how likely a devicetree is where and as it was.
OWN, AS_IT_IS = 0.8, 0.3
Way = Callable[[Launch], Optional[Launch]]


@dataclass(frozen=True)
class Other:
    """Another launch, and how it is called."""

    launch: Launch
    text: str


@dataclass
class Part:
    """What one part may be: how a text calls each way, and the change; the first is none."""

    name: str
    ways: list[tuple[str, Way]] = field(default_factory=lambda: [("", lambda launch: launch)])

    def add(self, text: str, change: Way):
        if len(self.ways) <= MOST_WAYS:
            self.ways.append((text, change))

    @property
    def axis(self) -> Axis:
        others = len(self.ways) - 1
        return Axis(self.name, (OWN, *((1 - OWN) / others for _ in range(others))) if others else (1.0,))


def item_like(launch: Launch, kind: str, other: Item | None) -> Launch | None:
    """The launch with an item of this kind as another launch has it, under its own name."""
    mine = launch.of_kind(kind)
    if other is None or mine is None:
        if other is None and mine is not None:
            return without_item(launch, mine)
        if other is None or launch.steps is not None or any(each.name == other.name for each in launch.item):
            return None
        return replace(launch, item=(*launch.item, other))
    return with_item(launch, mine, replace(other, name=mine.name))


def of_kind(name: str, kind: str, base: Launch, others: Sequence[Other], files: Files) -> Part:
    """The items of one kind that launches have."""
    def change(item: Item | None) -> Way:
        def changed(launch: Launch) -> Launch | None:
            new = item_like(launch, kind, item)
            return people.with_entry(launch, new, files) if new is not None and kind == "kernel" else new
        return changed

    part, mine = Part(name), base.of_kind(kind)
    seen = {mine and replace(mine, name="")}
    for other in others:
        item = other.launch.of_kind(kind)
        key = item and replace(item, name="")
        if key not in seen:
            seen.add(key)
            part.add(f"the {kind} of {other.text}" if item else f"no {kind}, as {other.text}", change(item))
            if item and mine and item.at != mine.at:
                part.add(f"the {kind} of {other.text}, at its own place", change(replace(item, at=mine.at)))
    return part


def of_ram(base: Launch, others: Sequence[Other]) -> Part:
    def change(ram: tuple[Region, ...]) -> Way:
        def changed(launch: Launch) -> Launch | None:
            return with_ram(launch, [[each] for each in ram]) if len(ram) == len(launch.ram) else None
        return changed

    part, seen = Part("RAM"), {base.ram}
    for other in others:
        if other.launch.ram not in seen:
            seen.add(other.launch.ram)
            part.add(f"the RAM of {other.text}", change(other.launch.ram))
    return part


def of_recs(base: Launch, others: Sequence[Other]) -> Part:
    def change(rec: tuple[Rec, ...], rule: str | None) -> Way:
        return lambda launch: replace(with_recs(launch, rec), rec_rule=rule)

    part, seen = Part("RECs"), {(base.rec, base.rec_rule)}
    for other in others:
        key = other.launch.rec, other.launch.rec_rule
        if key not in seen:
            seen.add(key)
            part.add(f"the RECs of {other.text}", change(*key))
    return part


# How many command lines and numbers of processors are tried together with all else.
MOST_LINES, COUNTS, MOST_TOGETHER = 16, (1, 2, 4, 8, 3, 6, 16), 1024


def of_lines(base: Launch, files: Files) -> Part:
    """The command lines: those that are named, and the nearest."""
    part, here = Part("command line"), trees.bootargs_of(base, files) or ""
    several = [text for text in dict.fromkeys((*files.hints.appends, *people.lines_near(here))) if text != here]
    for text in several[:max(MOST_LINES, len(files.hints.appends))]:
        part.add(f"the command line {quoted(text)}", lambda launch, text=text: trees.with_bootargs(launch, files, text))
    return part


def of_sizes(base: Launch) -> Part:
    part = Part("size of RAM")
    for size in (each * MIB for each in people.USUAL_SIZES) if len(base.ram) == 1 else ():
        if size != base.ram[0][1] - base.ram[0][0]:
            part.add(people.size_text(size), lambda launch, size=size: people.with_size(launch, size))
    return part


def of_processors(base: Launch, files: Files) -> Part:
    def change(count: int) -> Way:
        def changed(launch: Launch) -> Launch | None:
            new = trees.with_processors(launch, files, count)
            return new and replace(with_recs(new, people.more_recs(new, count, True)), rec_rule=new.rec_rule or "runnable")
        return changed

    part = Part("processors")
    for count in COUNTS:
        if count != len(base.rec):
            part.add(f"{count} processor{'s' * (count > 1)}", change(count))
    return part


def of_named(base: Launch, files: Files) -> Part:
    """The contents of files that are named: of the kernel and the initrd, since the devicetree is another one for all the rest."""
    def change(kind: str, name: str) -> Way:
        def changed(launch: Launch) -> Launch | None:
            item = launch.of_kind(kind)
            return people.with_file(launch, item, name, files) if item else None
        return changed

    part = Part("contents")
    for item in base.item:
        for name in files.hints.contents.get(item.file or "", ()) if item.kind in ("kernel", "initrd") else ():
            called = files[name].about or f'the file "{name}"'
            part.add(f'"{item.name}" is {called}', change(item.kind, name))
    return part


@dataclass
class Parts:
    """What is tried: the parts of a launch, each its own or another's, with a devicetree that says so or as it is."""

    runs: Runs
    base: Launch
    parts: list[Part]

    @property
    def axes(self) -> list[Axis]:
        return [*(each.axis for each in self.parts), Axis("devicetree", (1 - AS_IT_IS, AS_IT_IS * 0.7, AS_IT_IS * 0.3))]

    def launch(self, at: At) -> Launch | None:
        new: Launch | None = self.base
        for part, place in zip(self.parts, at):
            new = part.ways[place][1](new) if new is not None else None
        if new is None:
            return None
        several = list(people.settled(self.base, new, self.runs.files))
        return several[at[-1]] if at[-1] < len(several) else None

    def candidate(self, at: At) -> Candidate | None:
        new = self.launch(at)
        return None if new is None else self.runs.candidate(Change(self.texts(at), new))

    def texts(self, at: At) -> tuple[str, ...]:
        return tuple(part.ways[place][0] for part, place in zip(self.parts, at) if place)

    def launches(self) -> Iterator[Candidate | None]:
        """The launches of such parts, the likeliest first."""
        return map(self.candidate, best_first(self.axes))


def parts_of(runs: Runs, base: Launch, others: Sequence[Other]) -> Parts:
    kinds = (("kernel", "kernel"), ("initrd", "initrd"), ("devicetree", "dtb"))
    of_items = [of_kind(name, kind, base, others, runs.files) for name, kind in kinds]
    return Parts(runs, base, [*of_items, of_ram(base, others), of_recs(base, others)])


def together(runs: Runs, base: Launch) -> Parts:
    """What people change at once: another machine has another command line, another size and other processors."""
    return Parts(runs, base, [of_lines(base, runs.files), of_sizes(base), of_processors(base, runs.files), of_named(base, runs.files)])


def others_of(launches: Iterable[Launch], base: Launch, path: str) -> list[Other]:
    """The other launches of a manifest; `path` is that of one which is named beside the base's."""
    of_path = f" of {path}" if path else ""
    return [Other(each, f'launch "{each.name}"{of_path}') for each in launches if path or each.name != base.name]
