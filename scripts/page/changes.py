"""What changed since a kept report, launch by launch and file by file, in words.

No value of the kept report is shown, since a page has no value but those that `rim` has just computed: whoever copies one from it copies one of this
release. `rim-compare` prints the old ones.
"""
from __future__ import annotations

from collections.abc import Mapping, Sequence
from dataclasses import dataclass, field

from comparer import differ
from comparer.differ import Difference, Group, Input, Kind
from comparer.report import Report

from .markup import escaped, listed, named
from .names import link, links

# How a launch differs, in the word of a cell.
WORDS = {Kind.VALUE: "another value", Kind.REFUSED: "refused now", Kind.ACCEPTED: "accepted now", Kind.REASON: "another reason",
         Kind.RPV: "another personalization value", Kind.RENAMED: "another name", Kind.NEW: "new"}


def of_input(each: Input) -> str:
    """What differs of something that a launch is made of."""
    if not each.was:
        return f"{named(each.what)} is new: {named(each.now)}"
    if not each.now:
        return f"{named(each.what)} is gone: it was {named(each.was)}"
    return f"{named(each.what)}: {named(each.now)}, was {named(each.was)}"


def of_launch(each: Difference) -> str:
    """How a launch differs, without a value."""
    had = escaped(each.had or "")
    return {
        Kind.VALUE: f"has the value that launch {had} had" if each.had else "has another value",
        Kind.RENAMED: f"has the value that launch {had} had, which is gone", Kind.GONE: "is gone", Kind.NEW: "is new",
        Kind.REFUSED: f"is refused now: {escaped(differ.reason(each.now))}", Kind.ACCEPTED: f"is accepted now, was refused: "
        f"{escaped(differ.reason(each.was))}", Kind.REASON: f"is refused for another reason: {escaped(differ.reason(each.now))}, was "
        f"{escaped(differ.reason(each.was))}", Kind.RPV: "has another personalization value, and the same value"}[each.kind]


def of_file(each: Difference) -> str:
    """How a file differs."""
    now, was, had = (named(str(text or "")) for text in (each.now, each.was, each.had))
    return {Kind.CONTENTS: f"has other contents: {now}, was {was}" if not each.had else f"has the contents that file {had} had: {now}, was {was}",
            Kind.RENAMED: f"has the contents that file {had} had, which is gone", Kind.GONE: f"is gone: it was {was}",
            Kind.NEW: f"is new: {now}"}[each.kind]


@dataclass
class Changes:
    """What differs from kept reports, which are named; of each launch that is there now by its name, and of others."""

    since: str
    notes: list[str] = field(default_factory=list)
    launches: dict[str, Difference] = field(default_factory=dict)
    gone: list[Difference] = field(default_factory=list)
    files: list[Difference] = field(default_factory=list)

    def word_of(self, name: str) -> str:
        """How a launch differs, in a word."""
        each = self.launches.get(name)
        return "" if each is None else f"<b>{WORDS[each.kind]}</b>"

    def lines_of(self, name: str) -> list[str]:
        """How a launch differs, and what of all that it is made of; nothing where nothing does."""
        each = self.launches.get(name)
        if each is None:
            return []
        nothing = ["of all that the reports have of it nothing differs"] * (each.inputs == ())
        return [f"Since {self.since}: {of_launch(each)}", *map(of_input, each.inputs or ()), *nothing]


def between(was: Report, now: Report, since: Sequence[str], notes: list[str]) -> Changes:
    """What differs of two reports."""
    found = Changes(", ".join(map(named, since)), notes)
    for each in differ.differences(was, now):
        if each.of == "file":
            found.files.append(each)
        elif each.kind == Kind.GONE:
            found.gone.append(each)
        else:
            found.launches[each.name] = each
    return found


def of_group(group: Group, ids: Mapping[str, str]) -> str:
    """The launches of a group, with what differs of each alone and of all of them."""
    if not group.shared:
        each = group.members[0]
        return f"{link(each.name, ids)} {of_launch(each)}{listed(list(map(of_input, each.inputs or ())))}"
    names: dict[str, list[str]] = {}
    for each in group.members:
        names.setdefault(of_launch(each), []).append(each.name)
    said = "; ".join(f"{links(some, ids)}: {'each ' * (len(some) > 1)}{text}" for text, some in names.items())
    own = [f"{link(each.name, ids)}: {of_input(one)}" for each in group.members for one in group.own(each) or ()]
    return f"{said}, for one cause{listed([*map(of_input, group.shared), *own])}"


def part(changes: Changes, ids: Mapping[str, str]) -> str:
    """The part of a page that has all of them."""
    lines = [of_group(each, ids) for each in differ.groups(list(changes.launches.values()))]
    lines += [f"{escaped(each.name)} {of_launch(each)}" for each in changes.gone]
    files = [f"<code>{named(each.name)}</code> {of_file(each)}" for each in changes.files]
    head = f'<h2 id="changes">What changed since {changes.since}</h2>'
    said = listed([escaped(each) for each in changes.notes])
    nothing = "" if lines or files else "<p>Nothing: each launch has the value that it had, and each file its contents.</p>"
    of_launches = f"<h3>Launches</h3>{listed(lines)}" if lines else ""
    of_files = f"<h3>Files</h3>{listed(files)}" if files else ""
    more = "<p>No old value is on this page: rim-compare prints them.</p>" if lines else ""
    return "\n".join(filter(None, [head, said, nothing, of_launches, of_files, more])) + "\n"
