"""The table of all launches of a page, which can be sorted and searched where scripts are run."""
from __future__ import annotations

from collections.abc import Mapping

from comparer.report import Value

from .changes import Changes
from .maps import Map
from .markup import MOST_LINE, MOST_PATH, code, count_of, digits, element, escaped, scrolled, size_of
from .names import link
from .reading import Launch

# The heads of the columns; those of numbers are sorted as such.
HEADS = ("Name", "Kernel", "Initrd", "Memory", "Processors", "Command line", "Algorithm", "Value", "Warnings")
NUMBERS = (3, 4)
SEARCH = ('<div class="tools"><label for="search">Search the launches</label> <input id="search" type="search" autocomplete="off" '
          'spellcheck="false"> <span id="found" role="status"></span></div>')


def value_of(value: Value) -> str:
    """The value of a launch, or that it is refused and why, in a word."""
    return f'<em>refused: {escaped(value.refused)}</em>' if value.refused else digits(value.digits)


def file_of(here: Map, kind: str) -> str:
    """The file of the item of a kind."""
    item = here.of_kind(kind)
    return code(item.file, MOST_PATH) if item is not None and item.file is not None else "none"


def row(launch: Launch, ids: Mapping[str, str], changes: Changes | None) -> str:
    """The row of a launch."""
    here = launch.map
    warnings = f"<b>{count_of(len(here.warnings), 'warning')}</b>" if here.warnings else ""
    cells = [*(f"<td>{file_of(here, kind)}</td>" for kind in ("kernel", "initrd")),
             f'<td data-n="{here.ram}">{size_of(here.ram) if here.ram else "none"}</td>',
             f"<td>{here.recs}</td>",
             "<td>" + ("none" if launch.command_line is None else code(launch.command_line, MOST_LINE)) + "</td>",
             f"<td>{escaped(launch.value.algorithm)}</td>", f"<td>{value_of(launch.value)}</td>", f"<td>{warnings}</td>"]
    cells += [f"<td>{changes.word_of(launch.name)}</td>"] if changes is not None else []
    return f'<tr><th scope="row">{link(launch.name, ids)}</th>{"".join(cells)}</tr>\n'


def table(launches: tuple[Launch, ...], ids: Mapping[str, str], changes: Changes | None) -> str:
    """The table with what searches it."""
    heads = (*HEADS, *(["Change"] if changes is not None else []))
    head = "".join(f'<th scope="col"{" data-kind=num" if at in NUMBERS else ""}>{each}</th>' for at, each in enumerate(heads))
    body = "".join(row(each, ids, changes) for each in launches)
    caption = "<caption>Each launch with its value. A name leads to the launch’s own part.</caption>"
    whole = element("table", f"{caption}<thead><tr>{head}</tr></thead><tbody>\n{body}</tbody>", id="launches", class_="more" if changes is not None else None)
    return SEARCH + scrolled("Launches", whole)
