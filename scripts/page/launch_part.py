"""The part of a page that one launch has: its value, what is wrong or odd, its map, what its measurement is made of, its parameters and files."""
from __future__ import annotations

from collections.abc import Mapping
from dataclasses import dataclass, field

from comparer.report import NONE

from . import picture
from .bar import bar, granules
from .changes import Changes
from .launches import value_of
from .markup import code, digits, element, escaped, listed, named, pairs, scrolled, table
from .names import rest
from .reading import Launch

ITEMS = ["Item", "Kind", "Address", "Bytes", "Pages", "Measured", "File", "SHA-256"]
ZEROS = "0" * 128


@dataclass
class Pictures:
    """The pictures that are in a page already. One that is the same as another is drawn by that one."""

    ids: dict[str, str] = field(default_factory=dict)

    def of(self, content: str) -> str:
        """What draws a content: itself, once, and then where it is."""
        if content in self.ids:
            return f'<use href="#{self.ids[content]}"/>'
        self.ids[content] = f"m{len(self.ids) + 1}"
        return f'<g id="{self.ids[content]}">{content}</g>'


def figure(launch: Launch, pictures: Pictures) -> str:
    """The map of a launch. The table of its items says the same in words."""
    drawn = picture.drawn(launch.map)
    said = f"Map of {escaped(launch.name)}: see the table of items"
    content = f"<title>{said}</title>{pictures.of(drawn.content)}"
    return f"<figure>{element('svg', content, class_='map', viewBox=f'0 0 {picture.WIDTH} {drawn.height}', role='img')}</figure>"


def parameters(launch: Launch) -> str:
    """What is measured of the realm beside its items, and what is not: the personalization value."""
    own = dict(launch.inputs.own)
    edited = own.pop("edited devicetree")
    rows = [(escaped(name.removeprefix("parameter ")), named(said)) for name, said in own.items() if name != "algorithm"]
    rows += [("edited devicetree", f"SHA-256 {digits(edited.rpartition(' ')[2])}")] if edited != NONE else []
    rows += [("personalization value", "zeros" if launch.value.rpv == ZEROS else digits(launch.value.rpv))]
    rows += [("command line", code(launch.command_line))] if launch.command_line is not None else []
    rows += [("granules", granules(launch.map))] if launch.map.granules else []
    return pairs(rows)


def items(launch: Launch) -> str:
    """The items of a launch, in the manifest's order, with their files and digests."""
    rows = []
    for item in launch.map.items:
        digest = launch.inputs.items[item.name]["sha256"]
        size = "none" if item.size is None else f"{item.size:,}"
        rows.append([escaped(item.name), escaped(item.kind) + ", edited" * item.is_edited, f"{item.address:#x}", size,
                     "not placed" if item.pages is None else f"{item.pages:,}", item.how, "none" if item.file is None else code(item.file),
                     "none" if digest == NONE else digits(digest)])
    return scrolled("Items", table("Items", ITEMS, rows)) if rows else "<p>No items.</p>"


def part(launch: Launch, ids: Mapping[str, str], changes: Changes | None, pictures: Pictures) -> str:
    """The whole part."""
    here = launch.map
    head = f"<h3>{escaped(launch.name)}</h3>"
    value = f"<p>{escaped(launch.value.algorithm)} {value_of(launch.value)}</p>"
    refused = f'<div class="bad"><strong>Refused, no value:</strong> {escaped(rest(here.refusal, launch.name))}</div>' if here.refusal else ""
    odd = listed([escaped(rest(each, launch.name)) for each in here.warnings], class_="odd")
    changed = listed(changes.lines_of(launch.name), class_="odd") if changes is not None else ""
    made = bar(here) if here.extensions else ""
    back = '<a class="back" href="#launches">All launches</a>'
    content = "\n".join(filter(None, [head, value, refused, odd, changed, figure(launch, pictures), made, parameters(launch), items(launch), back]))
    return element("section", content, id=ids[launch.name]) + "\n"
