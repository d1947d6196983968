"""Where the part of each launch is in a page, and how it is named in the parts of others. A name is in the page, and no `id` is made of one."""
from __future__ import annotations

from collections.abc import Iterable, Mapping

from .markup import escaped

# What `rim` writes before the rest of a warning or a refusal of one launch.
FRONT, WARNING = 'launch "%s": ', "warning: "
# How many launches a line names.
MOST_NAMED = 6


def ids_of(names: Iterable[str]) -> dict[str, str]:
    """The id of the part of each launch."""
    return {name: f"l{number}" for number, name in enumerate(names, 1)}


def link(name: str, ids: Mapping[str, str]) -> str:
    """A launch, with where its part is; one that has none is named alone."""
    return f'<a href="#{ids[name]}">{escaped(name)}</a>' if name in ids else escaped(name)


def links(names: list[str], ids: Mapping[str, str]) -> str:
    """Some launches, and how many more there are."""
    more = len(names) - MOST_NAMED
    return ", ".join(link(name, ids) for name in names[:MOST_NAMED]) + (f" and {more:,} more" if more > 0 else "")


def rest(line: str, name: str) -> str:
    """A line of `rim` about a launch, without what says which launch it is."""
    return line.removeprefix(WARNING).removeprefix(FRONT % name)
