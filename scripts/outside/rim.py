"""What `rim` says of files: the header of an arm64 Image, and a devicetree. No second reader of them is here."""
from __future__ import annotations

import io
import re
import struct
import sys
from collections.abc import Iterator
from dataclasses import dataclass, field, replace
from typing import NamedTuple

from . import files, programs
from .faults import Fault
from .programs import Limits, Ran, SaysTooMuch
from .texts import visible

# The most bytes of a report, a listing and a trace; those of the text of a devicetree, and of the memory that `rim` has for it: names in
# names can make gigabytes of text out of a devicetree of 2 MiB.
MOST_OUT, MOST_TREE, TREE_MEMORY = 1 << 30, 32 << 20, 512 << 20
# How long `rim` may take for an Image or a devicetree.
SECONDS = 60
REPORT = Limits(out=MOST_OUT)
# What `rim image` says of a file that is no Image.
NO_IMAGE = ("kernel-short", "kernel-bad-magic")


@dataclass(frozen=True)
class Rim:
    """The program, with the version that it has said. It runs where the user is, so that paths are read as from there."""

    path: str
    version: str = ""

    def run(self, *words: str, limits: Limits = REPORT, folder: str | None = None) -> Ran:
        ran = programs.run([self.path, *words], limits, folder)
        return replace(ran, err=ran.err if ran.err.strip() else f"rim: {ran.ended}".encode())


def started() -> Rim:
    """The program, once it has said its version."""
    path = programs.found()
    return Rim(path, programs.check(path))


@dataclass(frozen=True)
class Image:
    """What the header of a kernel says, and what `rim` makes of it."""

    text_offset: int
    image_size: int
    load_offset: int
    extent: int

    @property
    def taken(self) -> int:
        """The bytes of RAM that it is said to take: image_size, or the file's length where that is 0."""
        return self.image_size or self.extent


def image_of(rim: Rim, path: str) -> Image | None:
    """The header of the Image at a path; None where the file is no Image."""
    files.size_of(path)
    ran = rim.run("image", "--", path, limits=Limits(seconds=SECONDS))
    if ran.status == 3 and any(word in ran.said for word in NO_IMAGE):
        return None
    said = dict(line.split(" ") for line in lines_of(ran, f"{visible(path)}: rim image") if line.count(" ") == 1)
    try:
        return Image(*(int(said[name], 16) for name in ("text_offset", "image_size", "load_offset", "extent")))
    except (KeyError, ValueError):
        raise Fault(f"{visible(path)}: rim image has not said what it is, expected text_offset, image_size, load_offset, extent") from None


def lines_of(ran: Ran, what: str) -> Iterator[str]:
    """The lines that a run has printed."""
    if ran.status:
        raise Fault(f"{what}: {ran.said}")
    return (line.decode("ascii", errors="replace").rstrip("\n") for line in io.BytesIO(ran.out))


@dataclass
class Node:
    """A node of a devicetree. Of two properties of one name the first counts."""

    name: str
    properties: dict[str, bytes] = field(default_factory=dict)
    children: list["Node"] = field(default_factory=list)

    def child(self, name: str) -> "Node | None":
        """The first child of this name, with a unit address or without; None where there is none."""
        return next((each for each in self.children if each.name.split("@")[0] == name), None)

    def text(self, name: str) -> str | None:
        """A property that is a text; None where it is absent."""
        value = self.properties.get(name)
        return None if value is None else value.rstrip(b"\0").decode(errors="surrogateescape")

    def cells(self, name: str, default: int) -> int:
        """A number of cells, `#address-cells` or `#size-cells`."""
        value = self.properties.get(name, b"")
        return int.from_bytes(value, "big") if len(value) == 4 else default

    def copy(self) -> "Node":
        return Node(self.name, dict(self.properties), [each.copy() for each in self.children])

    def walk(self) -> "Iterator[Node]":
        yield self
        for each in self.children:
            yield from each.walk()


class Header(NamedTuple):
    """The header of a devicetree: 10 words of 4 bytes (Devicetree Specification, chapter 5.2). `rim fdt` reads it, and prints of it which
    processor boots alone."""

    magic: int
    total: int
    structure: int
    strings: int
    reservations: int
    version: int
    last_version: int
    boot_cpu: int
    strings_size: int
    structure_size: int

    @property
    def data(self) -> bytes:
        return WORDS.pack(*self)


WORDS = struct.Struct(">10I")


@dataclass(frozen=True)
class Tree:
    """A devicetree: its root, and its header."""

    root: Node
    header: Header

    @property
    def total(self) -> int:
        """How many bytes its header says that it has."""
        return self.header.total

    @property
    def used(self) -> int:
        """Where the last of its blocks ends."""
        return max(self.header.structure + self.header.structure_size, self.header.strings + self.header.strings_size)


# A property of 4 bytes with the value "hvc": its token, its length, the offset of its name, its value. One may begin within another.
HVC = re.compile(rb"(?=\x00{3}\x03\x00{3}\x04(....)hvc\x00)", re.S)


def with_smc(data: bytes) -> Iterator[bytes]:
    """Yields a devicetree with one property `method = "hvc"` replaced by `smc` in place, for each such property. Bytes within the value of
    another property may look like one, so the caller checks the result."""
    head = Header(*WORDS.unpack(data[:WORDS.size].ljust(WORDS.size, b"\0")))
    for found in HVC.finditer(data, head.structure, head.structure + head.structure_size):
        name, value = head.strings + int.from_bytes(found[1], "big"), found.start() + 12
        if data[name:name + 7] == b"method\0":
            yield data[:value] + b"smc" + data[value + 3:]


def tree_of(rim: Rim, path: str, name: str = "") -> Tree:
    """The devicetree at a path; `name` is what a fault calls it. What `rim` does not read is a fault."""
    name = name or path
    header = Header(*WORDS.unpack(files.head(path, WORDS.size).ljust(WORDS.size, b"\0")))
    too_large = Fault(f"{visible(name)}: it is too large to be shown by rim fdt, expected at most {MOST_TREE} bytes of text")
    try:
        ran = rim.run("fdt", "--", path, limits=Limits(SECONDS, MOST_TREE, TREE_MEMORY))
    except SaysTooMuch:
        raise too_large from None
    if "no-memory" in ran.said:
        raise too_large
    if ran.status == 3:
        raise Fault(f"{visible(name)}: {ran.said.removeprefix('rim: ')}, expected a flattened devicetree that rim fdt shows")
    return Tree(root_of(lines_of(ran, f"{visible(name)}: rim fdt"), name), header)


def root_of(lines: Iterator[str], name: str) -> Node:
    """The root of the tree in the lines of `rim fdt`: a line for each node, with its path, and after it one for each of its properties."""
    nodes: list[Node] = []
    try:
        for line in lines:
            word, _, rest = line.partition(" ")
            if word == "node":
                above, _, last = rest.rpartition("/")
                depth = above.count("/") + 1 if last else 0
                nodes[depth:] = [Node(sys.intern(last))]
                if depth:
                    nodes[depth - 1].children.append(nodes[depth])
            elif word == "prop":
                key, _, digits = rest.partition(" ")
                nodes[-1].properties.setdefault(sys.intern(key), bytes.fromhex(digits))
        return nodes[0]
    except (IndexError, ValueError):
        raise Fault(f"{visible(name)}: rim fdt has shown no tree, expected lines of nodes and properties") from None
