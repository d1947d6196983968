"""Writes the devicetree of another launch: takes a tree that a hypervisor has written, and changes what the other launch changes in it.

`rim fdt` reads the tree, and `written` writes it as libfdt does, byte for byte. A tree that does not round-trip is left alone: another
program has written it, or it has something that is not read here.
"""
from __future__ import annotations

import struct
from collections.abc import Iterator
from dataclasses import dataclass, field

from .rim import Node, Tree

BEGIN, END, PROPERTY, LAST = 1, 2, 3, 9
# The names before which libfdt has that of bootargs in the strings, as QEMU adds them: the first that a tree has.
AFTER_BOOTARGS = (b"linux,initrd-start\0", b"method\0cpu_suspend\0", b"cpu_suspend\0")
START, FINISH = "linux,initrd-start", "linux,initrd-end"
Region = tuple[int, int]
# The place of a property: the path of its node, and its name.
Place = tuple[str, str]


@dataclass(frozen=True)
class Flat:
    """A devicetree: its bytes, and how `rim fdt` reads them."""

    data: bytes
    tree: Tree


@dataclass
class Draft:
    """A tree that is changed: its root, the names of its properties, and the bytes after each value up to the next multiple of 4 bytes.
    These are not zero: libfdt moves the tree on to make room for a property, and leaves there what was there before. `moved`: the
    properties after which the bytes are those that were moved on from there. `known`: the number of bytes of names that there are when a
    new property is added. `is_sure`: whether the bytes after each new value are known."""

    root: Node
    strings: bytes
    rests: dict[Place, bytes] = field(default_factory=dict)
    moved: frozenset[Place] = frozenset()
    known: int | None = None
    is_sure: bool = True

    @property
    def chosen(self) -> Node | None:
        return self.root.child("chosen")

    def copy(self) -> "Draft":
        return Draft(self.root.copy(), self.strings, dict(self.rests), self.moved, self.known, self.is_sure)


# How much of what was moved on is kept, in bytes: no value is longer.
MOST_VALUE = 1 << 16


def word(value: int) -> bytes:
    return value.to_bytes(4, "big")


def padded(data: bytes) -> bytes:
    return data + bytes(-len(data) % 4)


def tokens(node: Node, path: str) -> Iterator[tuple[str, str, bytes | None]]:
    """Yields the tokens of a node in their order: the path, the name of a property and its value; None where the node begins or ends."""
    yield path, node.name, None
    for key, value in node.properties.items():
        yield path, key, value
    for child in node.children:
        yield from tokens(child, f"{path}/{child.name}")
    yield path, "", b""


def structure_of(draft: Draft) -> bytes:
    """Returns the structure block, made from its end to its beginning: what is after a new property says what is in its rest."""
    parts, tail = [word(LAST)], word(LAST) + draft.strings[:draft.known]
    for path, key, value in reversed(list(tokens(draft.root, ""))):
        if value is None:
            part = word(BEGIN) + padded(key.encode() + b"\0")
        elif not key:
            part = word(END)
        else:
            front = word(PROPERTY) + word(len(value)) + word(draft.strings.index(key.encode() + b"\0")) + value
            length = -len(front) % 4
            rest = draft.rests.get((path, key))
            if rest is None:
                rest = tail[len(front):len(front) + length]
                draft.is_sure = draft.is_sure and len(rest) == length
            part = front + rest.ljust(length, b"\0")
        parts.append(part)
        tail = (part + tail)[:MOST_VALUE]
    return b"".join(reversed(parts))


def rests_of(root: Node, data: bytes, at: int) -> tuple[dict[Place, bytes], frozenset[Place]]:
    """Returns the bytes after each value of a tree whose structure block begins there, and the properties after which they are those that
    were moved on from there."""
    found, moved = {}, set()
    for path, key, value in tokens(root, ""):
        if value is None:
            at += 4 + len(padded(key.encode() + b"\0"))
        elif not key:
            at += 4
        else:
            front = 12 + len(value)
            length = -front % 4
            rest, after = data[at + front:at + front + length], at + front + length
            found[path, key] = rest
            if rest == data[after + front:after + front + length]:
                moved.add((path, key))
            at = after
    return found, frozenset(moved)


def written(draft: Draft, flat: Flat) -> bytes:
    """Returns a tree as libfdt writes it where the other one was: as long, or as short as it may be where that one was."""
    head, data, structure = flat.tree.header, flat.data, structure_of(draft)
    used = head.strings + head.strings_size
    strings = head.structure + len(structure)
    end, is_packed = strings + len(draft.strings), head.total == used
    new = head._replace(total=end if is_packed else max(head.total, end), strings=strings, strings_size=len(draft.strings),
                        structure_size=len(structure)).data
    whole = new + data[len(new):head.structure] + structure + draft.strings
    return whole if is_packed and len(data) == used else whole.ljust(max(len(data), end), b"\0")


def drafted(flat: Flat) -> Draft | None:
    """Returns a tree to change, or None if it does not round-trip."""
    head, root = flat.tree.header, flat.tree.root
    draft = Draft(root, flat.data[head.strings:head.strings + head.strings_size], *rests_of(root, flat.data, head.structure))
    is_plain = head.structure % 4 == 0 and head.structure + head.structure_size == head.strings
    try:
        return draft if is_plain and written(draft, flat) == flat.data else None
    except (ValueError, struct.error):
        return None


# ---- changes


def set_bootargs(draft: Draft, text: str) -> bool:
    """Sets the command line in /chosen, or removes it if it is empty. Returns whether that is done."""
    chosen, name = draft.chosen, b"bootargs\0"
    if chosen is None:
        return False
    draft.rests.pop((f"/{chosen.name}", "bootargs"), None)
    had = chosen.properties.pop("bootargs", None)
    if not text:
        if had is not None and not any("bootargs" in each.properties for each in draft.root.walk()):
            draft.strings = draft.strings.replace(b"\0" + name, b"\0", 1)
        return True
    value = text.encode(errors="surrogateescape") + b"\0"
    order = list(chosen.properties.items())
    at = next((number for number, (key, _) in enumerate(order) if key not in (START, FINISH)), len(order))
    chosen.properties = dict([*order[:at], ("bootargs", value), *order[at:]])
    if name not in draft.strings:
        before = next((draft.strings.index(each) for each in AFTER_BOOTARGS if each in draft.strings), len(draft.strings))
        draft.strings = draft.strings[:before] + name + draft.strings[before:]
    draft.known = draft.strings.index(name) + len(name)
    return True


def memory_bytes(root: Node, ram: tuple[Region, ...]) -> bytes:
    cells = root.cells("#address-cells", 2), root.cells("#size-cells", 1)
    return b"".join(base.to_bytes(4 * cells[0], "big") + (end - base).to_bytes(4 * cells[1], "big") for base, end in ram)


def set_memory(draft: Draft, old: tuple[Region, ...], new: tuple[Region, ...]) -> bool:
    """Sets the RAM of the memory node, if that has the old one. Returns whether that is done. QEMU adds /psci before it later, so what is
    after a value there may be a part of it."""
    node = draft.root.child("memory")
    try:
        if node is None or node.properties.get("reg") != memory_bytes(draft.root, old):
            return False
        node.properties["reg"] = memory_bytes(draft.root, new)
    except OverflowError:
        return False
    draft.rests = {place: rest for place, rest in draft.rests.items() if place[0] != "/psci" or place not in draft.moved}
    return True


def set_initrd(draft: Draft, old: Region, new: Region | None) -> bool:
    """Sets the place of the initrd in /chosen, if that has the old one, or removes it. Returns whether that is done."""
    chosen, names = draft.chosen, f"{START}\0{FINISH}\0".encode()
    if chosen is None:
        return False
    given = [chosen.properties.get(key, b"") for key in (START, FINISH)]
    if tuple(int.from_bytes(each, "big") for each in given) != old or not all(len(each) in (4, 8) for each in given):
        return False
    if new is None:
        chosen.properties = {key: value for key, value in chosen.properties.items() if key not in (START, FINISH)}
        is_done, draft.strings = names in draft.strings, draft.strings.replace(names, b"", 1)
        return is_done
    if not all(value < 1 << 8 * len(each) for each, value in zip(given, new)):
        return False
    for key, value, had in zip((START, FINISH), new, given):
        chosen.properties[key] = value.to_bytes(len(had), "big")
    return True


# ---- as QEMU has them


def added(strings: bytes, names: list[str]) -> bytes:
    """Returns the names of properties with more of them, each at the end unless it is there already."""
    for name in names:
        strings += b"" if name.encode() + b"\0" in strings else name.encode() + b"\0"
    return strings


def is_of_qemu(draft: Draft) -> bool:
    """Returns whether QEMU has written a tree last: it adds the one memory node, the command line, the initrd and /psci in this order, each
    before what there is, and nothing after them."""
    chosen, first = draft.chosen, draft.root.children[:2]
    if chosen is None or [each.name.split("@")[0] for each in first] != ["psci", "memory"]:
        return False
    last = [name for name in ("bootargs", START, FINISH) if name in chosen.properties]
    names = last + list(reversed(first[0].properties))
    fronts = {draft.strings.find(name.encode() + b"\0") for name in last[:1] or names}
    return list(chosen.properties)[:len(last)] == last[::-1] and any(added(draft.strings[:at], names) == draft.strings for at in fronts if at >= 0)


PHANDLE = "phandle"
# The properties of which each cell that is a phandle is one.
REFERENCES = ("interrupt-parent", "msi-parent", "gpios", "interrupt-map", "msi-map", "clocks", "cpu", "phandle", "iommu-map", "interrupts-extended")
MOST_PROCESSORS = 16


def processors_of(root: Node) -> list[Node]:
    return [each for each in (root.child("cpus") or Node("")).children if each.name.split("@")[0] == "cpu"]


def shifted(value: bytes, first: int, by: int, last: int) -> bytes:
    """Returns the cells of a property, with the phandles from one on shifted."""
    cells = [int.from_bytes(value[at:at + 4], "big") for at in range(0, len(value) - 3, 4)]
    return b"".join(word(each + by if first <= each <= last else each) for each in cells) + value[len(cells) * 4:]


def set_method(draft: Draft, has_method: bool):
    """Adds or removes the name `enable-method`, after the one that QEMU adds before it. The name `method` of PSCI is the end of it, if
    there is one."""
    long, short, before, after = b"\0enable-method\0", b"\0method\0", b"\0device_type\0", b"\0cpu_suspend\0"
    if has_method == (long in draft.strings):
        return
    if has_method:
        draft.strings = draft.strings.replace(short, b"\0", 1).replace(before, before + long[1:], 1)
    else:
        draft.strings = draft.strings.replace(long, b"\0", 1).replace(after, short + after[1:], 1)


def set_processors(draft: Draft, count: int) -> bool:
    """Sets the number of processors in /cpus of QEMU's tree, all in one cluster. Returns whether that is done. QEMU draws their phandles
    before those of all that follows, and numbers them in decimal digits."""
    cpus, now = draft.root.child("cpus"), processors_of(draft.root)
    handles = [int.from_bytes(each.properties.get(PHANDLE, b""), "big") for each in now]
    if cpus is None or not 0 < count <= MOST_PROCESSORS or not handles or handles != list(range(handles[0], handles[0] - len(now), -1)):
        return False
    if [each.properties.get("reg") for each in now] != [word(number) for number in range(len(now))] or count == len(now):
        return False
    cluster = next((each for each in cpus.walk() if each.name == "cluster0"), None)
    if cluster is None or len(cluster.children) != len(now):
        return False
    low, by = handles[-1], count - len(now)
    last = max(int.from_bytes(each.properties.get(PHANDLE, b""), "big") for each in draft.root.walk())
    for node in draft.root.walk():
        for key in REFERENCES:
            if key in node.properties:
                node.properties[key] = shifted(node.properties[key], low + len(now), by, last)
    method = {"enable-method": b"psci\0"} if count > 1 else {}
    set_method(draft, count > 1)
    draft.rests = {place: rest for place, rest in draft.rests.items() if place not in draft.moved and not place[0].startswith("/cpus/")}
    like = {key: value for key, value in now[0].properties.items() if key not in (PHANDLE, "reg", "enable-method")}
    new = [Node(f"cpu@{number}", {PHANDLE: word(low + count - 1 - number), "reg": word(number)} | method | like) for number in range(count)]
    others = [each for each in cpus.children if each not in now]
    cpus.children = [*others, *new] if cpus.children[0] in others else [*new, *others]
    cluster.children = [Node(f"core{number}", {"cpu": word(low + count - 1 - number)}) for number in range(count)]
    return True
