"""Tables of a hypervisor's words, and how words are sorted by such a table: what of them makes the layout, what changes the devicetree
alone, what changes nothing, what no launch can be made with. What is in no table is unknown, and all that is unknown is named at once."""
from __future__ import annotations

from collections import deque
from collections.abc import Callable, Iterable
from dataclasses import dataclass, field
from enum import Enum

from outside.faults import WrongWords
from outside.texts import MOST_SHOWN, shown, visible


# How many words a line names.
MOST_NAMED = 32


class Effect(Enum):
    """What a word does to a launch."""

    LAYOUT = "layout"
    TREE = "tree"
    HARMLESS = "harmless"
    REFUSED = "refused"


class Unknown(Enum):
    """What a word does that is in no table."""

    UNKNOWN = "unknown"


class Takes(Enum):
    """What comes after a word."""

    NOTHING = "nothing"
    VALUE = "a value"
    VALUES = "values"       # as many as come before the next word


@dataclass(frozen=True)
class Realm:
    """What words say of the realm itself, and which words these are."""

    source: str
    name: str | None = None
    algorithm: str | None = None
    personalization: str | None = None


@dataclass(frozen=True)
class Given:
    """A word as it is given: the name by which the table has it, and all of it with its values."""

    name: str
    words: tuple[str, ...]
    value: str = ""

    def __str__(self) -> str:
        text = " ".join(self.words)
        return visible(text[:MOST_SHOWN]) + ".." * (len(text) > MOST_SHOWN)


# A word, what it does, and how.
Explained = tuple[str, Effect, str]


@dataclass
class Sorted:
    """Words by what they do: those of the layout by their keys; what a dump is given, and what it is not given as it is; what they say of
    the realm. `features`: by words, the values that they leave for keys of the host's file. `opens`: those that change the devicetree and that no dump may be given, since it would open what they name. `faults` has a
    line for each that is refused, and `unknown` those that are in no table."""

    title: str = ""
    said: dict[str, list[str]] = field(default_factory=dict)
    kept: list[str] = field(default_factory=list)
    dropped: list[str] = field(default_factory=list)
    realm: Realm | None = None
    features: dict[str, dict[str, tuple[int | None, ...]]] = field(default_factory=dict)
    opens: list[Given] = field(default_factory=list)
    faults: list[str] = field(default_factory=list)
    unknown: list[Given] = field(default_factory=list)
    effects: list[Explained] = field(default_factory=list)
    flash: dict[str, str] = field(default_factory=dict)             # files of flash, by their units
    backends: dict[str, str] = field(default_factory=dict)          # sizes of RAM, by the names of their objects
    warnings: list[str] = field(default_factory=list)
    nodes: dict[str, dict[str, str]] = field(default_factory=dict)  # nodes of disks, by their names

    def keep(self, given: Given, instead: Iterable[str] | None = None):
        """Has a dump given a word, or others in its place."""
        kept = list(given.words if instead is None else instead)
        self.kept += kept
        if kept != list(given.words):
            self.dropped += given.words

    def drop(self, given: Given):
        self.dropped += given.words

    def refuse(self, given: Given, why: str):
        self.faults.append(f"{given}: {why}")

    def explained(self) -> Iterable[tuple[str, Effect | Unknown, str]]:
        """What each word does, in the order of the line; then those that are unknown."""
        yield from self.effects
        yield from ((str(each), Unknown.UNKNOWN, "it is in no table") for each in self.unknown)

    def raise_faults(self):
        """Raises what is refused and what is unknown, each thing once."""
        lines = list(dict.fromkeys(self.faults))
        if unknown := list(dict.fromkeys(shown(str(each)) for each in self.unknown)):
            word, is_, they = ("word", "is", "it changes") if len(unknown) == 1 else ("words", "are", "they change")
            lines.append(f"{listed(unknown)}: no {word} of {self.title}'s that {is_} known, so what {they} is not known, expected no such {word}")
        if lines:
            raise WrongWords(*lines)


def listed(names: list[str]) -> str:
    """Names in a line; of very many the first."""
    return ", ".join(names[:MOST_NAMED]) + f" and {len(names) - MOST_NAMED} more" * (len(names) > MOST_NAMED)


def last(_name: str, texts: list[str]) -> str:
    """Of several values the last counts."""
    return texts[-1]


@dataclass(frozen=True)
class Entry:
    """A row of a table of words. `why` says what they do, and `instead` what is to be done where they are refused. What depends on the
    value, or is passed on to a dump in another form, is decided by `read`."""

    names: tuple[str, ...]
    effect: Effect
    why: str
    instead: str = ""
    takes: Takes = Takes.VALUE
    key: str = ""
    joined: Callable[[str, list[str]], str] = last
    read: Callable[[Sorted, Given], None] | None = None
    parts: Callable[[str], Iterable[Explained]] = lambda value: ()      # what the words in its value do


@dataclass(frozen=True)
class Grammar:
    """How a hypervisor spells its words: what it calls itself, its table, and how a word parts into its name and a value after `=`."""

    title: str
    table: list[Entry]
    parted: Callable[[str], tuple[str, str | None]]

    def entries(self) -> dict[str, Entry]:
        return {name: entry for entry in self.table for name in entry.names}

    def each(self, words: Iterable[str]) -> Iterable[tuple[Given, Entry | None]]:
        """The words with their values, and the row of each."""
        entries, left = self.entries(), deque(words)
        while left:
            word = left.popleft()
            name, value = self.parted(word)
            entry = entries.get(name)
            if entry is None or (entry.takes is Takes.NOTHING and value is not None):
                after = [left.popleft()] if entry is None and word.startswith("-") and left and not left[0].startswith("-") else []
                yield Given(name, (word, *after)), None
                continue
            values = [] if value is None else [value]
            after = []
            if entry.takes is not Takes.NOTHING and value is None:
                if not left:
                    raise WrongWords(f"{visible(word)}: nothing is given, expected a value")
                after.append(left.popleft())
            while entry.takes is Takes.VALUES and left and not left[0].startswith("-"):
                after.append(left.popleft())
            yield Given(name, (word, *after), " ".join([*values, *after])), entry

    def sort(self, words: Iterable[str], is_whole: bool) -> Sorted:
        """Sorts words: of a whole line, or those that are beside a layout."""
        found = Sorted(self.title)
        layout: dict[str, tuple[Entry, list[Given]]] = {}
        for given, entry in self.each(words):
            if entry is None:
                found.unknown.append(given)
                continue
            before = len(found.faults), len(found.kept) + len(found.opens), len(found.flash)
            if entry.effect is Effect.REFUSED:
                found.refuse(given, f"{entry.why}; {entry.instead}")
            elif entry.effect is Effect.LAYOUT and not is_whole:
                found.refuse(given, "it is of what the table places, expected it before `--`, or all of the line after `--`, its program first")
            elif entry.effect is Effect.LAYOUT:
                layout.setdefault(entry.key, (entry, []))[1].append(given)
            elif entry.read:
                entry.read(found, given)
            elif entry.effect is Effect.TREE:
                found.keep(given)
            else:
                found.drop(given)
            found.effects += [(str(given), effect_of(entry, found, before), entry.why), *entry.parts(given.value)]
        for path in found.flash.values() if not is_whole else ():
            found.faults.append(f"flash of {shown(path)}: it is of what the table places, expected -bios FILE before `--`, or all of the line there")
        for key, (entry, some) in layout.items():
            found.said[key] = [entry.joined(some[-1].words[0], [each.value for each in some])]
        return found

    def refuse_before(self, words: list[str]):
        """Says of words before `--`, the first of which is no option, why a launch has none such, or that they go after `--`."""
        before = words[:words.index("--")] if "--" in words else words
        found = [(given, entry) for given, entry in self.each(before) if entry and entry.effect is not Effect.LAYOUT]
        if not found or found[0][0].words[0] != words[0]:
            return
        again = self.sort((word for given, _ in found for word in given.words), False)
        again.raise_faults()
        them = "it" if len(found) == 1 else "them"
        raise WrongWords(f"{listed([shown(given.words[0]) for given, _ in found])}: rim-manifest makes no launch of {them}, expected {them} "
                         "after `--`, or all of the line there, its program first")


def effect_of(entry: Entry, found: Sorted, before: tuple[int, int, int]) -> Effect:
    """What a word has done, where its value decides."""
    if not entry.read:
        return entry.effect
    refused, kept, flash = before
    if len(found.flash) > flash:
        return Effect.LAYOUT
    return Effect.REFUSED if len(found.faults) > refused else Effect.TREE if len(found.kept) + len(found.opens) > kept else Effect.HARMLESS


def shown_table(table: list[Entry]) -> str:
    """A table of words for people: what each does."""
    lines = ["layout: a launch is made of it", "tree: it changes the devicetree", "harmless: it changes nothing that is measured",
             "refused: no launch is made with it", ""]
    return "\n".join(lines + [f"{', '.join(entry.names)}\n    {entry.effect.value}: {entry.why}{'; ' * bool(entry.instead)}{entry.instead}"
                              for entry in table])


def spelled(names: str, dash: str = "") -> tuple[str, ...]:
    """The names of a row, out of a text with blanks between them."""
    return tuple(dash + name for name in names.split())


def one_dash(word: str) -> tuple[str, str | None]:
    """Words as QEMU has them: one dash or two, and no `=`."""
    return ("-" + word.lstrip("-") if word.startswith("-") and not word.startswith("---") else word), None


def two_dashes(word: str) -> tuple[str, str | None]:
    """Words as most programs have them: a long one may have its value after `=`."""
    name, equals, value = word.partition("=") if word.startswith("--") else (word, "", "")
    return name, value if equals else None
