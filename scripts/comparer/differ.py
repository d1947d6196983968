"""What differs between a kept report and another one, as values; a line and a member of JSON of each."""
from __future__ import annotations

import enum
from collections import Counter
from collections.abc import Callable, Iterator, Mapping, Sequence
from dataclasses import dataclass, replace
from typing import Union

from outside.texts import quoted, shown

from .report import STATED_SIZE, Content, Inputs, Report, Value

Entry = Union[Value, Content]


class Kind(enum.Enum):
    """How a launch or a file differs; the value is the word that JSON has."""

    VALUE = "value"             # another measurement
    CONTENTS = "contents"       # other bytes
    REFUSED = "refused"         # it was accepted
    ACCEPTED = "accepted"       # it was refused
    REASON = "reason"           # it is refused for another reason
    RPV = "rpv"                 # the same measurement, and another personalization value
    RENAMED = "renamed"         # one that is gone had its value or its contents
    GONE = "gone"
    NEW = "new"


@dataclass(frozen=True)
class Input:
    """Something that a launch is made of, and what it was and is; "" where it is not there."""

    what: str
    was: str
    now: str

    @property
    def line(self) -> str:
        if not self.was:
            return f"  {self.what} is new: {self.now}"
        return f"  {self.what}: {self.now}, was {self.was}" if self.now else f"  {self.what} is gone: it was {self.was}"

    @property
    def table(self) -> dict[str, str]:
        return {"what": self.what} | {key: value for key, value in (("was", self.was), ("now", self.now)) if value}


@dataclass(frozen=True)
class Difference:
    """How one launch or file differs. `had`: the name of another one that had in the kept report what this one has now. `inputs`: what
    differs of all that the launch is made of, or None where that is not known."""

    of: str
    name: str
    kind: Kind
    was: Entry | None
    now: Entry | None
    had: str | None = None
    inputs: tuple[Input, ...] | None = None

    @property
    def lines(self) -> list[str]:
        """Its line, and one for each of the inputs."""
        found = [each.line for each in self.inputs or ()]
        return [f"{self.of} {quoted(self.name)} {self.text}", *found, *["  of all that the reports have of it nothing differs"] * (self.inputs == ())]

    @property
    def text(self) -> str:
        if self.kind in (Kind.VALUE, Kind.CONTENTS) and self.had is not None:
            return f"has {self.what} that {self.of} {quoted(self.had)} had: {self.now}, was {self.was}"
        return {
            Kind.GONE: lambda: f"is gone: it was {self.was}",
            Kind.NEW: lambda: f"is new: {self.now}",
            Kind.RENAMED: lambda: f"has {self.what} that {self.of} {quoted(self.had or '')} had, which is gone: {self.now}",
            Kind.VALUE: lambda: f"has another value: {self.now}, was {self.was}",
            Kind.CONTENTS: lambda: f"has other contents: {self.now}, was {self.was}",
            Kind.REFUSED: lambda: f"is refused now: {reason(self.now)}, was {self.was}",
            Kind.ACCEPTED: lambda: f"is accepted now: {self.now}, was {self.was}",
            Kind.RPV: lambda: f"has another personalization value: {rpv(self.now)}, was {rpv(self.was)}",
            Kind.REASON: lambda: f"is refused for another reason: {reason(self.now)}, was {reason(self.was)}",
        }[self.kind]()

    @property
    def what(self) -> str:
        return "the value" if isinstance(self.now, Value) else "the contents"

    @property
    def table(self) -> dict[str, object]:
        """The same as a member of JSON. What there is not is left out."""
        entries = (("was", self.was), ("now", self.now))
        found: dict[str, object] = {"of": self.of, "name": self.name, "kind": self.kind.value}
        found |= {key: entry.table for key, entry in entries if entry is not None}
        found |= {"had": self.had} if self.had is not None else {}
        return found | ({"inputs": [each.table for each in self.inputs]} if self.inputs is not None else {})


def reason(entry: Entry | None) -> str:
    return entry.refused if isinstance(entry, Value) else ""


def rpv(entry: Entry | None) -> str:
    return entry.rpv if isinstance(entry, Value) else ""


def of_value(was: Value, now: Value) -> Kind:
    """How the value of a launch differs from what it was."""
    if replace(was, rpv=now.rpv) == now:
        return Kind.RPV
    if now.refused:
        return Kind.REASON if was.refused else Kind.REFUSED
    return Kind.ACCEPTED if was.refused else Kind.VALUE


def of_content(_was: Content, _now: Content) -> Kind:
    return Kind.CONTENTS


def names_of_one(entries: Mapping[str, Entry]) -> dict[Entry, str]:
    """The name of each entry that no other one is the same as. A refusal is the same as others by chance, so it is none."""
    counts = Counter(entries.values())
    return {entry: name for name, entry in entries.items() if counts[entry] == 1 and not reason(entry)}


def new_names_of(was: Mapping[str, Entry], now: Mapping[str, Entry]) -> dict[str, str]:
    """The new name of each that is gone, where something new is what it was. Of several that are the same each has one, in their order."""
    new: dict[Entry, list[str]] = {}
    for name, entry in now.items():
        if name not in was and not reason(entry):
            new.setdefault(entry, []).append(name)
    return {name: new[old].pop(0) for name, old in was.items() if name not in now and new.get(old)}


def of_all(of: str, was: Mapping[str, Entry], now: Mapping[str, Entry], kind_of: Callable[..., Kind]) -> Iterator[Difference]:
    """Each that differs: first those that were there, in their order, then the new ones in theirs. One that has another name now is one
    difference, at the place of the old name."""
    had, new_names = names_of_one(was), new_names_of(was, now)
    for name, old in was.items():
        if name in new_names:
            yield Difference(of, new_names[name], Kind.RENAMED, old, old, name)
        elif name not in now:
            yield Difference(of, name, Kind.GONE, old, None)
        elif now[name] != old:
            kind = kind_of(old, now[name])
            yield Difference(of, name, kind, old, now[name], had.get(now[name]) if kind in (Kind.VALUE, Kind.CONTENTS) else None)
    renamed = set(new_names.values())
    yield from (Difference(of, name, Kind.NEW, None, new) for name, new in now.items() if name not in was and name not in renamed)


def of_texts(front: str, was: Mapping[str, str], now: Mapping[str, str]) -> Iterator[Input]:
    """Each text that both have and that differs. What one alone has is known of it alone: the other launch could not be laid out."""
    twice = {STATED_SIZE} if "size" in was and "size" in now else set()
    yield from (Input(front + what, old, now[what]) for what, old in was.items() if now.get(what, old) != old and what not in twice)


def of_inputs(was: Inputs, now: Inputs) -> Iterator[Input]:
    """What differs of all that a launch is made of, in the order in which reports have it; then items that are gone and new."""
    yield from of_texts("", was.own, now.own)
    for name, item in was.items.items():
        if name in now.items:
            yield from of_texts(f"item {quoted(name)}, ", item, now.items[name])
        else:
            yield Input(f"item {quoted(name)}", f"{item['kind']}, sha256 {item['sha256']}", "")
    for name, item in now.items.items():
        if name not in was.items:
            yield Input(f"item {quoted(name)}", "", f"{item['kind']}, sha256 {item['sha256']}")


def with_inputs(each: Difference, was: Report, now: Report) -> Difference:
    """The same with the inputs that differ, where the launch is in both reports and they have them. A new name has those of the old one."""
    if was.inputs is None or now.inputs is None or each.kind in (Kind.GONE, Kind.NEW, Kind.RENAMED, Kind.RPV):
        return each
    return replace(each, inputs=tuple(of_inputs(was.inputs[each.name], now.inputs[each.name])))


def without_rpv(launches: Mapping[str, Value]) -> dict[str, Value]:
    return {name: replace(value, rpv="") for name, value in launches.items()}


def differences(was: Report, now: Report) -> Iterator[Difference]:
    """All that differs: launches, and files where both reports have them. Personalization values count where both have them."""
    both = was.inputs is not None and now.inputs is not None
    values = (was.launches, now.launches) if both else (without_rpv(was.launches), without_rpv(now.launches))
    for each in of_all("launch", *values, of_value):
        yield with_inputs(each, was, now)
    if was.files is not None and now.files is not None:
        yield from of_all("file", was.files, now.files, of_content)


@dataclass(frozen=True)
class Group:
    """Launches that changed for one cause: what differs in the same way in all of them, and nowhere else. Any other difference is alone."""

    members: tuple[Difference, ...]
    shared: tuple[Input, ...] = ()

    def own(self, each: Difference) -> tuple[Input, ...] | None:
        """What differs of a member alone."""
        return each.inputs and tuple(one for one in each.inputs if one not in self.shared)

    @property
    def lines(self) -> list[str]:
        """The lines of its members, then what all of them share."""
        if not self.shared:
            return self.members[0].lines
        found = [line for each in self.members for line in (each.lines[0], *(one.line for one in self.own(each) or ()))]
        return found + [f"  each of these {len(self.members)} launches:{one.line[1:]}" for one in self.shared]


def groups(found: Sequence[Difference]) -> list[Group]:
    """All differences, with those of one cause together at the place of the first. A cause is what differs in the same way in several launches."""
    counts = Counter(one for each in found for one in each.inputs or ())
    made: dict[object, list[Difference]] = {}
    for number, each in enumerate(found):
        made.setdefault(tuple(one for one in each.inputs or () if counts[one] > 1) or number, []).append(each)
    return [Group(tuple(some), cause if isinstance(cause, tuple) and len(some) > 1 else ()) for cause, some in made.items()]


def notes(was: Report, now: Report) -> list[str]:
    """What is said of two reports and is no difference."""
    if was.program is None or now.program is None:
        versions = f"the kept report has version {was.version}, the other one version {now.version}"
        return [f"{versions}: values alone are compared, since versions 1 and 2 have no files"]
    return [f"the program is {shown(now.program)}, was {shown(was.program)}"] * (was.program != now.program)
