"""The map of a launch as a picture (SVG): its RAM to scale with its items in it, and beside that each item enlarged.

Addresses rise downwards, as in the lines of `rim map`. All lengths are in units of the picture, which is `WIDTH` of them wide. From left to
right it has addresses, the blocks of RAM by their size, what tables of level 3 divide, RAM, and the items. An item is as its kind by its colour, and
by its outline as it is measured: whole where its contents are, dashed where only its addresses are, dotted where it is not measured.
"""
from __future__ import annotations

from bisect import bisect_right
from collections.abc import Iterator, Sequence
from dataclasses import dataclass

from outside.texts import quoted

from . import blocks, style
from .maps import PAGE, Item, Map
from .markup import count_of, escaped, size_of

WIDTH = 860
# Where each column begins and ends; the last one is text, which ends where the picture does.
ADDRESS, BLOCKS, TABLES, RAM, ITEM, TEXT = 104, (110, 122), (125, 135), (140, 220), (300, 420), 430
# The first line below the heads; how high all RAM is, a region at least, and what is between two; how high the row of an item is, and its box.
TOP, HEIGHT, LEAST, BETWEEN, ROW, BOX = 24, 260, 8, 20, 40, 26
# How near two addresses may be to be read.
NEAR = 12
# How long a name may be in the picture.
MOST_NAME = 32
LETTERS = {"kernel": "k", "initrd": "i", "dtb": "d", "raw": "w", "unknown": "u"}
LEGEND_HEIGHT = 46


def number(value: float) -> str:
    """A length, to a tenth."""
    return f"{value:.1f}".rstrip("0").rstrip(".")


def area(left: float, top: float, right: float, bottom: float) -> str:
    """The path of a box that is filled and has no outline."""
    width = number(right - left)
    return f"M{number(left)} {number(top)}h{width}v{number(bottom - top)}h-{width}"


def box(left: float, top: float, right: float, bottom: float) -> str:
    """The path of a box with an outline."""
    return area(left, top, right, bottom) + "z"


def path(kind: str, lines: str) -> str:
    """What is drawn along some lines, by its class; nothing where there are none."""
    return f'<path class="{kind}" d="{lines}"/>' if lines else ""


def text(left: float, at: float, content: str, kind: str = "") -> str:
    of_kind = f' class="{kind}"' if kind else ""
    return f'<text x="{number(left)}" y="{number(at)}"{of_kind}>{content}</text>'


@dataclass(frozen=True)
class Region:
    """A region of RAM, and where in the picture it is."""

    base: int
    end: int
    top: float
    bottom: float

    def at(self, address: int) -> float:
        """Where an address of it is."""
        within = min(max(address, self.base), self.end) - self.base
        return self.top + within * (self.bottom - self.top) / (self.end - self.base)


def placed(regions: Sequence[tuple[int, int]]) -> list[Region]:
    """The regions one below the other, each as high as its size is of all RAM."""
    found: list[Region] = []
    top, whole = float(TOP), sum(end - base for base, end in regions)
    for base, end in regions:
        bottom = top + max(LEAST, HEIGHT * (end - base) / whole)
        found.append(Region(base, end, top, bottom))
        top = bottom + BETWEEN
    return found


def region_of(regions: Sequence[Region], bases: Sequence[int], address: int) -> Region | None:
    """The region that an address is in."""
    at = bisect_right(bases, address) - 1
    return regions[at] if at >= 0 and address < regions[at].end else None


def strip(columns: tuple[int, int], regions: Sequence[Region], some: Sequence[blocks.Stretch]) -> dict[int, str]:
    """Stretches of RAM as a strip beside it: the path of those of each level. Both rise, so each is looked at once."""
    found: dict[int, str] = {}
    at = 0
    for each in some:
        while at < len(regions) and regions[at].end <= each.base:
            at += 1
        here = at
        while here < len(regions) and regions[here].base < each.end:
            top, bottom = regions[here].at(each.base), regions[here].at(each.end)
            found[each.level] = found.get(each.level, "") + area(columns[0], top, columns[1], max(bottom, top + 1))
            here += 1
    return found


def addresses(regions: Sequence[Region]) -> Iterator[str]:
    """The address of each end of a region, as far as there is room, its size, and what is between two."""
    last = -float(NEAR)
    for number_, here in enumerate(regions):
        before = regions[number_ - 1] if number_ else None
        if before is not None and here.base > before.end:
            yield text(RAM[0], here.top - 6, f"no RAM: {size_of(here.base - before.end)}", "m")
        for at, address in ((here.top + 4, here.base), (here.bottom + 4, here.end)):
            if at - last >= NEAR:
                yield text(ADDRESS, at, f"{address:#x}", "a")
                last = at
        if here.bottom - here.top >= 4 * NEAR:
            yield text(ADDRESS, (here.top + here.bottom) / 2 + 4, size_of(here.end - here.base), "a m")


def look(item: Item) -> str:
    """The classes of an item: its kind, and how it is measured."""
    letter = LETTERS.get(item.kind, "u")
    return letter if letter == "u" or item.is_measured else f"{letter} n"


def bytes_of(item: Item) -> str:
    """How large an item is, in words."""
    if item.size is None:
        return "no size stated"
    return count_of(item.size, "byte") + (f", {count_of(item.pages, 'page')}" if item.pages is not None else " stated")


def extent_of(item: Item) -> str:
    return f"at {item.address:#x}" if item.size is None else f"{item.address:#x} to {item.end:#x}"


def inner(item: Item, top: float) -> str:
    """The path of an item's bytes in the box of its pages. An item that has no place has a mark of its kind."""
    left, right = ITEM
    whole, size = (item.pages or 0) * PAGE, item.size or 0
    if not whole:
        return box(left, top, left + 4, top + BOX)
    first, last = (left + (right - left) * each / whole for each in (item.lead, min(item.lead + size, whole)))
    return box(first, top, max(last, first + 1), top + BOX)


def said_of(item: Item, top: float) -> str:
    """What is said of an item beside its box, in two lines."""
    name = escaped(item.name if len(item.name) <= MOST_NAME else item.name[:MOST_NAME] + "..")
    kind = "" if item.kind == item.name else f" {escaped(item.kind)}"
    edited = ", edited" if item.is_edited else ""
    where = f"{extent_of(item)}, {bytes_of(item)}"
    return text(TEXT, top + 11, f'<tspan class="h">{name}</tspan>{kind}{edited}, {item.how}<tspan class="m" x="{TEXT}" dy="14">{where}</tspan>')


def zoomed(region: Region, item: Item, top: float) -> str:
    """The path of what leads from an item in RAM to its box."""
    first, last = region.at(item.first), region.at(item.end)
    return f"M{RAM[1]} {number(first)}L{ITEM[0]} {number(top)}v{BOX}L{RAM[1]} {number(max(last, first + 1))}z"


@dataclass(frozen=True)
class Picture:
    """What a picture shows, how high it is, and what it is in words: a title, and a line for each thing in it."""

    content: str
    height: int
    title: str
    lines: tuple[str, ...]


def words_of(here: Map) -> tuple[str, ...]:
    """What the picture shows, in words."""
    regions = [f"RAM {base:#x} to {end:#x}: {size_of(end - base)}" for base, end in here.regions] or ["no RAM"]
    items = [f"{extent_of(each)} {each.kind} {quoted(each.name)}: {bytes_of(each)}, {each.how}" for each in in_order(here)]
    return (*regions, *items)


def in_order(here: Map) -> list[Item]:
    return sorted(here.items, key=lambda each: (each.address, each.end))


def drawn(here: Map) -> Picture:
    """The picture of a launch."""
    regions = placed(here.regions)
    bases = [each.base for each in regions]
    boxes, leads, items, words = "", "", [], []
    for at, item in enumerate(in_order(here)):
        top = TOP + at * ROW
        boxes += area(ITEM[0], top, ITEM[1], top + BOX)
        lines, region = inner(item, top), region_of(regions, bases, item.address)
        if region is not None:
            leads += zoomed(region, item, top)
            lines += box(RAM[0], region.at(item.first), RAM[1], max(region.at(item.end), region.at(item.first) + 1.5))
        items.append(path(look(item), lines))
        words.append(said_of(item, top))
    strips = [path(f"b{level}", lines) for level, lines in sorted(strip(BLOCKS, regions, blocks.of_ram(here)).items())]
    strips.append(path("t", "".join(strip(TABLES, regions, blocks.divided(here)).values())))
    ram = path("r", "".join(box(RAM[0], each.top, RAM[1], each.bottom) for each in regions))
    said = f'RAM, to scale<tspan x="{ITEM[0]}">{"items, enlarged" if here.items else "no items"}</tspan>'
    height = max([TOP + len(here.items) * ROW, *(each.bottom + 12 for each in regions)])
    content = "".join([text(RAM[0], 12, said, "m"), path("l", leads), *strips, ram, path("p", boxes), *items, *addresses(regions), *words])
    return Picture(content, int(height) + 1, f"The map of launch {quoted(here.name)}", words_of(here))


def legend(top: float) -> str:
    """What the colours are, in two lines."""
    rows = ([(letter, kind) for kind, letter in LETTERS.items() if kind != "unknown"] + [("k n", "contents not measured"), ("u", "content unknown")],
            [(f"b{level}", f"blocks of {name}") for level, name in enumerate(blocks.NAMES)] + [("t", "divided by a table of level 3")])
    found = []
    for at, row in enumerate(rows):
        left = 8.0
        for kind, said in row:
            found.append(path(kind, box(left, top + at * 20, left + 12, top + at * 20 + 12)) + text(left + 18, top + at * 20 + 10, said))
            left += 34 + 6.2 * len(said)
    return "".join(found)


def alone(here: Map) -> str:
    """The picture as a file of its own, on its own ground."""
    picture = drawn(here)
    refused = [here.refusal] * bool(here.refusal)
    height = picture.height + LEGEND_HEIGHT + 20 * len(refused)
    said = escaped("; ".join([*refused, *picture.lines]))
    below = "".join(text(8, height - 8, escaped(short(each)), "x") for each in refused)
    return (f'<svg xmlns="http://www.w3.org/2000/svg" viewBox="0 0 {WIDTH} {height}" width="{WIDTH}" height="{height}" class="map" role="img" '
            f'aria-labelledby="title desc">\n<title id="title">{escaped(picture.title)}</title>\n<desc id="desc">{said}</desc>\n'
            f"<style>{style.OF_PICTURE_ALONE}</style>\n{path('g', area(0, 0, WIDTH, height))}\n{picture.content}\n"
            f"{legend(picture.height + 8)}{below}\n</svg>\n")


def short(line: str, most: int = 110) -> str:
    return line if len(line) <= most else line[:most] + ".."
