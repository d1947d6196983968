"""What a step of a launch is, by the launch's own names: an item and the bytes of its file, a region of RAM, a register of a REC; and where the
pages of a machine's trace are in files that are named."""
from __future__ import annotations

import hashlib
import json
import os
import re
from collections.abc import Iterator, Sequence
from dataclasses import dataclass, field

from outside import files
from outside.faults import Fault
from outside.rim import Node, Rim, Tree, tree_of
from outside.texts import plain, shown, visible

from .launch import PAGE
from .logs import WORDS, Step

# The longest file that is looked in, and how many lines are said of a thing.
MOST, MOST_SAID = 256 << 20, 8
DIGITS = 128


@dataclass(frozen=True)
class Content:
    """Bytes that a machine may have had, and how they are called."""

    name: str
    data: bytes


@dataclass
class Known:
    """What is known of a launch: its map, and the bytes that are at hand: of its items, and of files that are named."""

    rim: Rim
    folder: str
    manifest: str
    name: str
    contents: list[Content]
    map: dict = field(default_factory=dict)

    def __post_init__(self):
        ran = self.rim.run("map", "--json", "--", self.manifest, self.name)
        if ran.status == 0:
            self.map = json.loads(ran.out)

    @property
    def items(self) -> list[dict]:
        return [each for each in self.map.get("items", []) if "place" in each]

    def item_at(self, address: int) -> dict | None:
        """The item that has a page."""
        return next((each for each in self.items if each["place"]["address"] // PAGE * PAGE <= address < each["place"]["end"]), None)

    def data_of(self, item: dict) -> bytes:
        """The bytes of an item: those of its file, or of the devicetree that `rim` has edited."""
        if item["edited"]:
            return self.rim.run("dtb", "--", self.manifest, self.name).out
        return files.read(item["file"], MOST) if item["file"] is not None else b""

    @property
    def algo(self) -> str:
        return self.map.get("launch", {}).get("algorithm", "sha256")


def contents(paths: Sequence[str]) -> list[Content]:
    return [Content(visible(path), files.read(path, MOST)) for path in paths]


# ---- a step


def spanned(item: dict, address: int) -> tuple[int, int]:
    """The first byte of an item that is in a page, and the first past it."""
    start = item["place"]["address"]
    return max(0, address - start), max(0, min(address + PAGE - start, item["place"]["bytes"]))


def address(step: Step | None, at: int = 1) -> int | None:
    """An address in a step of anybody's; None where there is none."""
    given = step[at] if step is not None and len(step) > at else None
    return int(given, 16) if given and re.fullmatch(r"[0-9a-f]{1,16}", given) else None


def of_page(known: Known, address: int) -> str:
    item = known.item_at(address)
    if item is None:
        return f"{address:#x} is in no item of the launch"
    first, last = spanned(item, address)
    if first >= last:
        return f'item "{item["name"]}", zeros after its bytes'
    edited = ", edited," if item["edited"] else ""
    of_file = f' of {visible(item["file"])}{edited}' if item["file"] is not None else ""
    return f'item "{item["name"]}", bytes {first:,} to {last - 1:,}{of_file}'.rstrip(",")


# The sizes of blocks of RAM, by their level.
BLOCKS = ((512 << 30, "512 GiB"), (1 << 30, "1 GiB"), (2 << 20, "2 MiB"), (PAGE, "4 KiB"))


def of_ram(known: Known, here: Step, there: Step | None) -> str:
    """The region of a step that makes RAM, and the entry of it at which the machine's step parts from it."""
    base, top = address(here) or 0, address(here, 2) or 0
    region = next(((number, each) for number, each in enumerate(known.map.get("regions", [])) if each["base"] <= base < each["end"]), None)
    if region is None:
        return f"RAM at {base:#x} is in no region of the launch"
    number, of = region
    said = f'RAM, region {number} from {of["base"]:#x} to {of["end"]:#x}'
    other = address(there, 2)
    if there is None or there[:2] != here[:2] or other is None:
        return said
    at = min(top, other)
    size, name = BLOCKS[known.map["launch"]["block_level"]]
    return f"{said}: they part at {at:#x}, entry {(at - of['base']) // size:,} of {name}"


def named(step: Step) -> dict[str, str | None]:
    """The words of a step by their names."""
    return dict(zip(WORDS.get(step[0] or "", ()), step[1:]))


def between(one: Step, other: Step) -> list[str]:
    """The words of one command that differ, each with both values."""
    mine, theirs = named(one), named(other)
    return [f"{name}: {mine[name]} in the launch, {theirs[name]} there" for name in mine
            if name in theirs and None not in (mine[name], theirs[name]) and mine[name] != theirs[name]]


def of_step(known: Known, here: Step | None, there: Step | None, recs: int) -> list[str]:
    """What a step of the launch is, beside one of the machine's in its place. Steps are without RIMs; `recs` are the RECs before it."""
    step = here or there
    if step is None:
        return []
    command, at, other = step[0], address(step), address(there)
    if command == "data_create" and at is not None:
        said = [of_page(known, at)]
        if here and there and there[0] == command and other is not None and at != other:
            said.append(f"there: {of_page(known, other)}")
        return said
    if command == "init_ripas" and at is not None:
        said = [of_ram(known, step, there if here else None)]
    else:
        said = [f"REC {recs}" if command == "rec_create" else "the parameters of the realm"]
    return said + (between(here, there) if here and there and here[0] == there[0] else [])


# ---- devicetrees


def properties(node: Node, path: str = "") -> Iterator[tuple[str, str, bytes]]:
    yield path or "/", "", b""
    for key, value in node.properties.items():
        yield path or "/", key, value
    for child in node.children:
        yield from properties(child, f"{path}/{child.name}")


def value_text(value: bytes | None) -> str:
    if value is None:
        return "none"
    if value.endswith(b"\0") and value[:-1] and all(32 <= each < 127 for each in value[:-1].replace(b"\0", b" ")):
        return shown(value[:-1].decode("ascii").replace("\0", " "))
    return f"<{value.hex()[:64]}{'..' if len(value) > 32 else ''}>" if value else "empty"


def tree_lines(known: Known, mine: bytes, content: Content) -> list[str]:
    """The properties by which two devicetrees differ."""
    trees: list[Tree] = []
    for data in (mine, content.data):
        path = os.path.join(known.folder, "tree")
        files.write(path, data)
        try:
            trees.append(tree_of(known.rim, path, content.name))
        except Fault:
            return []
    here, there = ({(path, key): value for path, key, value in properties(each.root)} for each in trees)
    keys = [key for key in dict.fromkeys((*here, *there)) if here.get(key) != there.get(key)]
    lines = [f"{plain(path)} {plain(key)}: {value_text(here.get((path, key)))} in the launch, {value_text(there.get((path, key)))} in {content.name}"
             if key else f"{plain(path)}: a node that {'the launch' if (path, key) in here else content.name} alone has" for path, key in keys]
    more = len(lines) - MOST_SAID
    return lines[:MOST_SAID] + [f"{more} more properties differ"] * (more > 0)


def of_tree(known: Known, here: Step | None) -> list[str]:
    """What differs in the devicetree, where a file that is named is one."""
    at = address(here)
    if here is None or here[0] != "data_create" or at is None:
        return []
    item = known.item_at(at)
    if item is None or item["kind"] != "dtb":
        return []
    return [line for content in known.contents for line in tree_lines(known, known.data_of(item), content)]


# ---- pages


def digest(algo: str, page: bytes) -> str:
    return hashlib.new(algo, page).hexdigest().ljust(DIGITS, "0")


def pages_of(algo: str, content: Content, lead: int) -> Iterator[tuple[str, int, int]]:
    """The digest of each page of some bytes that begin so far in their first page, and which bytes it has."""
    for at in range(-lead, len(content.data), PAGE):
        first, last = max(0, at), min(len(content.data), at + PAGE)
        yield digest(algo, (bytes(first - at) + content.data[first:last]).ljust(PAGE, b"\0")), first, last


@dataclass(frozen=True)
class Run:
    """Pages of the machine that are side by side in a file too."""

    address: int
    end: int
    name: str
    first: int
    last: int

    def line(self) -> str:
        return f"there: pages {self.address:#x} to {self.end:#x} are bytes {self.first:,} to {self.last - 1:,} of {self.name}"


def where_found(known: Known, there: Sequence[Step], here: Sequence[Step]) -> list[str]:
    """Where the pages of the machine that the launch has not are in files: those that are named, and those of the launch's items."""
    mine = set(here)
    asked = [step for step in there if step[0] == "data_create" and len(step) > 3 and address(step) is not None and step[3] and step not in mine]
    if not asked:
        return []
    some = known.contents + [Content(visible(str(each["file"])), known.data_of(each)) for each in known.items if each["file"]]
    leads = sorted({0, *(each["place"]["lead"] for each in known.items)})
    wanted, places = {step[3] for step in asked}, dict[str, tuple[str, int, int]]()
    for content in some:
        for lead in leads:
            for found, first, last in pages_of(known.algo, content, lead):
                if found in wanted:
                    places.setdefault(found, (content.name, first, last))
    lines = [each.line() for each in runs_of(asked, places)]
    left = sum(1 for step in asked if step[3] not in places)
    lines = lines[:MOST_SAID] + [f"{len(lines) - MOST_SAID} more such runs of pages"] * (len(lines) > MOST_SAID)
    none = f"there: {left:,} of {len(asked):,} pages that the launch has not are in no file that is at hand; --contents FILE names more"
    return lines + [none] * (left > 0)


def runs_of(asked: Sequence[Step], places: dict[str, tuple[str, int, int]]) -> list[Run]:
    found: list[Run] = []
    for step in asked:
        if step[3] not in places:
            continue
        at, (name, first, last) = address(step) or 0, places[step[3] or ""]
        if found and (found[-1].end, found[-1].name, found[-1].last) == (at, name, first):
            found[-1] = Run(found[-1].address, at + PAGE, name, found[-1].first, last)
        else:
            found.append(Run(at, at + PAGE, name, first, last))
    return found
