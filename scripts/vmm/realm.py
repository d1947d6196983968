"""A launch as a manifest has it: numbers, RAM, items, RECs and steps, by the places of its table and by the alternatives that are taken."""
from __future__ import annotations

from collections.abc import Mapping
from dataclasses import dataclass

from outside import parameters
from outside.faults import Fault
from outside.texts import shown

from . import ways
from .guest import PAGE, Blob, Guest, Kernel, up
from .hypervisor import Hypervisor
from .layout import Places
from .rows import ADDS

GRANULES = {"4k": PAGE, "16k": 4 * PAGE, "64k": 16 * PAGE}
# The least width of an IPA at which tables of each level exist (docs/FORMATS.md, "Blocks of RAM").
WIDTHS = (44, 35, 0, 0)
# The file of zeros before a blob, where pages of the host are larger than 4 KiB.
ZEROS = "zeros"
KINDS = ("kernel", "initrd", "dtb")
Region = tuple[int, int]


@dataclass(frozen=True)
class Item:
    """An item: its keys, and what is measured of it: from its first byte on, up to the end of its last page."""

    name: str
    kind: str
    file: str
    at: int
    start: int
    end: int
    size: int | None = None

    @property
    def pages(self) -> Region:
        return self.start // PAGE * PAGE, self.end


@dataclass(frozen=True)
class Group:
    """A blob with the zeros that are measured before it, and what of RAM is made for it: its own range, and after that its BSS."""

    items: tuple[Item, ...]
    own: Region
    bss: Region | None

    @property
    def name(self) -> str:
        return self.items[-1].name


@dataclass(frozen=True)
class Realm:
    """What a manifest says of a launch; `steps` are its steps, where `ram N` counts the regions."""

    numbers: dict[str, int | bool | str]
    s2sz: int
    regions: tuple[Region, ...]
    items: tuple[Item, ...]
    recs: int
    pc: int
    x: tuple[int, ...]
    steps: tuple[str, ...]

    @property
    def is_measured_off(self) -> bool:
        """Whether RECs that are off are measured."""
        return self.numbers.get("rec_rule") == "all"


@dataclass(frozen=True)
class Parts:
    """What a launch is made of, once its devicetree is there."""

    guest: Guest
    places: Places
    tree: Blob
    stub: Blob | None


def level_at(level: int, s2sz: int) -> int:
    """The level that blocks have: one below that where tables begin is as that."""
    return next(number for number in range(level, len(WIDTHS)) if s2sz >= WIDTHS[number])


def level_of(block_level: str, s2sz: int) -> int:
    """The level of the largest blocks by an alternative of its row. A number holds for each width."""
    return int(block_level) if block_level.isdigit() else level_at(0, s2sz) + 1


def granule_of(taken: Mapping[str, str]) -> int:
    return GRANULES[taken.get("host_pages", "4k")]


def blobs_of(parts: Parts) -> list[tuple[str, str, Blob, int, int]]:
    """The blobs: name, kind, file, `at` and the address of the first byte."""
    guest, places = parts.guest, parts.places
    found: list[tuple[str, str, Blob, int, int]] = []
    if guest.firmware:
        found.append(("firmware", "raw", guest.firmware, places.firmware, places.firmware))
    else:
        found.append(("kernel", "kernel", guest.kernel, places.kernel, places.entry))
        if guest.initrd:
            found.append(("initrd", "initrd", guest.initrd, places.initrd, places.initrd))
    found.append(("dtb", "dtb", parts.tree, places.dtb, places.dtb))
    if parts.stub and places.stub is not None:
        found.append(("stub", "raw", parts.stub, places.stub, places.stub))
    return found


def length_of(blob: Blob, taken: Mapping[str, str]) -> int:
    """How many bytes of a blob are measured, before whole pages are made of them."""
    return blob.image.extent if isinstance(blob, Kernel) and taken.get("kernel_pages") == "image_size" else blob.length


def group_of(blob: tuple[str, str, Blob, int, int], taken: Mapping[str, str]) -> Group:
    """A blob in whole pages of the host."""
    name, kind, file, at, start = blob
    granule, length = granule_of(taken), length_of(file, taken)
    low, page, end = start // granule * granule, start // PAGE * PAGE, up(start + length, granule)
    is_longer = end > up(start + length, PAGE)
    size = end - start if is_longer else length if isinstance(file, Kernel) and taken.get("kernel_pages") == "image_size" else None
    item = Item(name, kind, file.file, at, start, end, size)
    zeros = [Item(f"{name}_lead", "raw", ZEROS, low, low, page, page - low)] if low < page else []
    room = up(start + file.image.taken, granule) if isinstance(file, Kernel) else end
    return Group((*zeros, item), (low, end), (end, room) if room > end else None)


def in_order(groups: list[Group], order: str) -> list[Group]:
    """The groups in the order in which they are measured."""
    if order in ("address", "dtb_first"):
        return sorted(groups, key=lambda each: (order == "dtb_first" and each.name != "dtb", each.items[-1].start))
    if order == "kind":
        return sorted(groups, key=lambda each: KINDS.index(each.items[-1].kind) if each.items[-1].kind in KINDS else len(KINDS))
    words = order.split(",")
    if missing := [each.name for each in groups if each.name not in words]:
        raise Fault(f"order: {shown(order)} has no {', '.join(missing)}, expected each blob of the launch")
    return sorted(groups, key=lambda each: words.index(each.name))


def regions_of(groups: list[Group], bss_apart: bool) -> list[tuple[list[Region], Group, list[Region]]]:
    """Of each group what is made RAM before it, and after it."""
    found = []
    for each in groups:
        if each.bss and not bss_apart:
            found.append(([(each.own[0], each.bss[1])], each, []))
        else:
            found.append(([each.own], each, [each.bss] if each.bss else []))
    return found


def made_first(groups: list[Group], regions: list[Region], taken: Mapping[str, str], recs: int) -> tuple[str, ...]:
    """The steps where all of RAM is made at once."""
    ram, last = [f"ram {number}" for number in range(len(regions))], [f"rec {number}" for number in range(recs)]
    order = taken.get("order", "address")
    if taken.get("firmware_order") == "after" and any(group.name == "firmware" for group in groups):
        ram = ram[1:] + ram[:1]
    items = [f"item {item.name}" for group in groups for item in group.items]
    if "," not in order:
        return (*ram, *items, *last)
    of_group = {group.name: [f"item {item.name}" for item in group.items] for group in groups} | {ways.RAM: ram, ways.RECS: last}
    return tuple(step for word in order.split(",") for step in of_group.get(word, []))


def made_each(groups: list[Group], bss_apart: bool, order: str, recs: int) -> tuple[tuple[Region, ...], tuple[str, ...]]:
    """The regions and the steps where each blob's range is made RAM right before it."""
    if "," in order:
        raise Fault(f"order: {shown(order)} and ram each: RAM is made before each blob then, expected order address or kind")
    regions: list[Region] = []
    steps: list[str] = []
    for before, group, after in regions_of(groups, bss_apart):
        for region in before:
            steps.append(f"ram {len(regions)}")
            regions.append(region)
        steps += [f"item {item.name}" for item in group.items]
        for region in after:
            steps.append(f"ram {len(regions)}")
            regions.append(region)
    return tuple(regions), (*steps, *(f"rec {number}" for number in range(recs)))


def read_number(key: str, value: int, taken: Mapping[str, str], source: str) -> int:
    """A number of the host's file as the realm has it."""
    found = value + ADDS[taken.get(key, "as_read")]
    if not 0 <= found <= parameters.MOST:
        raise Fault(f"{source}: {key} = {value} and {key} = {taken[key]} in [realm] come to {found}, expected 0 to {parameters.MOST}")
    return found


def numbers_of(values: Mapping[str, int | str | bool | None], taken: Mapping[str, str], source: str) -> dict[str, int | bool | str]:
    """The keys of a launch that are measured, by the host's file and the alternatives."""
    found: dict[str, int | bool | str] = {}
    flag_of = {key: flag for flag, key in parameters.FLAGGED}
    for key in parameters.ALL:
        value = values.get(key)
        if value is not None:
            is_read = key in parameters.KEYS and (key not in flag_of or bool(values.get(flag_of[key])))
            found[key] = read_number(key, int(value), taken, source) if is_read else value
    return found


def of_parts(vmm: Hypervisor, parts: Parts, numbers: dict[str, int | bool | str], taken: Mapping[str, str]) -> Realm:
    """The realm of a launch."""
    places, recs = parts.places, parts.guest.smp.count
    numbers = numbers | {"block_level": level_of(taken["block_level"], places.s2sz), "rec_rule": taken["rec_rule"]}
    groups = in_order([group_of(blob, taken) for blob in blobs_of(parts)], taken.get("order", "address"))
    regions: tuple[Region, ...] = tuple(places.all_ram)
    if taken.get("ram", "first") == "first":
        steps = made_first(groups, list(regions), taken, recs)
    else:
        regions, steps = made_each(groups, vmm.FACTS.bss_apart and taken["ram"] == "each", taken.get("order", "address"), recs)
    items = tuple(item for group in sorted(groups, key=lambda each: each.own) for item in group.items)
    return Realm(numbers, places.s2sz, regions, items, recs, places.pc, tuple(places.x), steps)
