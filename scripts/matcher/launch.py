"""A launch: what its table in the manifest says, and the text of its table. What of it is measured, `rim` says."""
from __future__ import annotations

import functools
import json
import operator
from collections.abc import Hashable, Mapping
from dataclasses import dataclass, fields, replace

from outside import parameters
from outside.texts import is_hidden

from .files import Blob

PAGE, MIB, GIB = 1 << 12, 1 << 20, 1 << 30
KINDS = ("kernel", "initrd", "dtb", "raw", "unknown")
Region = tuple[int, int]


@dataclass(frozen=True)
class Item:
    """An item; a key that its table has not is None."""

    name: str
    kind: str
    at: int
    file: str | None = None
    size: int | None = None
    measured: bool | None = None
    bootargs: str | None = None
    initrd: bool | None = None
    memory: bool | None = None


@dataclass(frozen=True)
class Rec:
    """A REC; a key that its table has not is None."""

    pc: int | None = None
    x: tuple[int, ...] | None = None
    runnable: bool | None = None

    @property
    def is_off(self) -> bool:
        return self.runnable is False


@dataclass(frozen=True)
class Launch:
    """A launch; a key that its table has not is None, and an array of it is empty."""

    name: str
    algo: str
    s2sz: int
    numbers: tuple[tuple[str, int | bool], ...] = ()     # the parameters that are numbers, and their flags
    rpv: str | None = None
    block_level: int | None = None
    num_aux: int | None = None
    pool_base: int | None = None
    pool_count: int | None = None
    ram: tuple[Region, ...] = ()
    item: tuple[Item, ...] = ()
    rec_rule: str | None = None
    rec: tuple[Rec, ...] = ()
    steps: tuple[str, ...] | None = None

    def of_kind(self, kind: str) -> Item | None:
        return next((each for each in self.item if each.kind == kind), None)

    def number(self, key: str) -> int:
        """A parameter that is a number, or its flag, also where its table has it not."""
        return dict(self.numbers).get(key, 0)

    def with_numbers(self, values: Mapping[str, int | bool | None]) -> "Launch":
        """The launch with other parameters; one that is None, its table has not."""
        found = dict(self.numbers) | values
        return replace(self, numbers=tuple((key, value) for key in parameters.ALL if (value := found.get(key)) is not None))


# The keys of a launch that have one value each, which of them are no parameters, and what docs/FORMATS.md says where a table has not the key.
SCALARS = ("algo", "s2sz", *parameters.ALL, "rpv", "block_level", "num_aux", "pool_base", "pool_count", "rec_rule")
BESIDE = tuple(key for key in SCALARS if key not in parameters.ALL)
DEFAULTS = {**dict.fromkeys(parameters.KEYS, 0), **dict.fromkeys(parameters.FLAGS, False), "block_level": 2}


# ---- reading


def word(value: int | str) -> int:
    """A word of a REC: a number, or a text with its digits."""
    return int(value, 16) if isinstance(value, str) else value


def rec_of(table: dict) -> Rec:
    return Rec(word(table["pc"]) if "pc" in table else None, tuple(map(word, table["x"])) if "x" in table else None, table.get("runnable"))


def launch_of(table: dict) -> Launch:
    """The launch of a table that `rim` has taken."""
    lists = {"ram": tuple((base, end) for base, end in table.get("ram", [])), "item": tuple(Item(**each) for each in table.get("item", [])),
             "rec": tuple(map(rec_of, table.get("rec", []))), "steps": tuple(table["steps"]) if "steps" in table else None}
    numbers = tuple((key, table[key]) for key in parameters.ALL if key in table)
    others = {key: value for key, value in table.items() if key not in parameters.ALL}
    return Launch(**(others | lists), numbers=numbers)


def scalar(launch: Launch, key: str) -> int | str | bool | None:
    """The value of a key of SCALARS, or None where the table has it not."""
    return dict(launch.numbers).get(key) if key in parameters.ALL else getattr(launch, key)


# ---- changes that keep the steps in order


def with_recs(launch: Launch, recs: tuple[Rec, ...]) -> Launch:
    """The launch with these RECs. New ones come right after the last one that has a step."""
    steps = launch.steps
    if steps is not None and len(recs) != len(launch.rec):
        kept = [step for step in steps if not step.startswith("rec ") or int(step[4:]) < len(recs)]
        at = max((at + 1 for at, step in enumerate(kept) if step.startswith("rec ")), default=len(kept))
        kept[at:at] = [f"rec {number}" for number in range(len(launch.rec), len(recs))]
        steps = tuple(kept)
    return replace(launch, rec=recs, steps=steps)


def with_item(launch: Launch, old: Item, new: Item) -> Launch:
    return replace(launch, item=tuple(new if each is old else each for each in launch.item))


def without_item(launch: Launch, item: Item) -> Launch:
    """The launch without an item. A devicetree has not the place of an initrd that is left out."""
    items = tuple(each for each in launch.item if each is not item)
    if item.kind == "initrd":
        items = tuple(replace(each, initrd=None) if each.initrd else each for each in items)
    steps = launch.steps and tuple(step for step in launch.steps if step != f"item {item.name}")
    return replace(launch, item=items, steps=steps)


def with_ram(launch: Launch, groups: list[list[Region]]) -> Launch:
    """The launch with some regions, or none, in the place of each of its own."""
    steps = launch.steps
    if steps is not None:
        starts = [sum(map(len, groups[:number])) for number in range(len(groups))]
        new = {f"ram {old}": [f"ram {start + at}" for at in range(len(group))] for old, (start, group) in enumerate(zip(starts, groups))}
        steps = tuple(each for step in steps for each in new.get(step, [step]))
    return replace(launch, ram=tuple(region for group in groups for region in group), steps=steps)


# ---- how much it is


def blocks_of(region: Region, level: int | None) -> int:
    """About how many blocks of a region of RAM are measured: those at its ends may be many smaller ones."""
    base, end = region
    return (end - base) // (512 * GIB, GIB, 2 * MIB, PAGE)[2 if level is None else level] + 1


def pages_of(item: Item, files: Mapping[str, Blob]) -> int:
    """About how many pages an item has; none where it has no file."""
    if item.file is None:
        return 0
    return (files[item.file].length if item.size is None else item.size) // PAGE + 1


def all_steps(launch: Launch) -> tuple[str, ...]:
    """Its steps; where its table has none, the default ones: RAM, items by their kinds, RECs."""
    if launch.steps is not None:
        return launch.steps
    ram, rec = ([f"{name} {number}" for number in range(len(some))] for name, some in (("ram", launch.ram), ("rec", launch.rec)))
    return (*ram, *(f"item {each.name}" for each in sorted(launch.item, key=lambda each: KINDS.index(each.kind))), *rec)


def parts_of(launch: Launch, files: Mapping[str, Blob]) -> tuple[tuple[Hashable, int], ...]:
    """What is measured of it, in its order, each with about how many steps it has: the realm's parameters, each region, each item, all RECs. That
    launches with the same first parts begin alike is sure enough to put them side by side, and no more: some with other parts are measured alike."""
    items, level = {each.name: each for each in launch.item}, launch.block_level
    parts: list[tuple[Hashable, int]] = [((launch.algo, launch.s2sz, launch.numbers), 1)]
    recs: list[tuple[Hashable, int]] = [((launch.rec, launch.rec_rule), sum(not each.is_off or launch.rec_rule != "runnable" for each in launch.rec))]
    for step in all_steps(launch):
        what, _, which = step.partition(" ")
        if what == "ram":
            region = launch.ram[int(which)]
            parts.append(((region, level), blocks_of(region, level)))
        elif what == "item":
            parts.append((edited(launch, items[which]), pages_of(items[which], files)))
        else:
            # they are few steps, wherever the others of them are
            parts += recs
            recs = []
    return tuple(parts)


def edited(launch: Launch, item: Item) -> Hashable:
    """An item, with what a devicetree is edited by."""
    if not (item.initrd or item.memory):
        return item
    return item, launch.of_kind("initrd") if item.initrd else None, launch.ram[0] if item.memory else None


def steps_of(launch: Launch, files: Mapping[str, Blob]) -> int:
    """About how many steps of it are measured."""
    return sum(count for _, count in parts_of(launch, files))


def is_whole(launch: Launch) -> bool:
    """Whether a manifest may have it, and its RECs are in their order. One launch that a manifest may not have costs a run of many."""
    recs = [int(step[4:]) for step in launch.steps or () if step.startswith("rec ")]
    if len(launch.rec) > 512 or recs != sorted(recs) or (launch.rec_rule is None and any(rec.is_off for rec in launch.rec)):
        return False
    if len(launch.ram) > 64 or any(base >= end or base % PAGE or end % PAGE for base, end in launch.ram):
        return False
    dtb = launch.of_kind("dtb")
    return dtb is None or ((not dtb.initrd or launch.of_kind("initrd") is not None) and (not dtb.memory or bool(launch.ram)))


# ---- text


def text(value: str) -> str:
    """A text of TOML, in which a character that nobody sees is written by its number."""
    if value.isascii() and value.isprintable():
        return json.dumps(value)
    return "".join(numbered(letter) if is_hidden(letter) else letter for letter in json.dumps(value, ensure_ascii=False))


def numbered(letter: str) -> str:
    return f"\\u{ord(letter):04x}" if ord(letter) < 0x10000 else f"\\U{ord(letter):08x}"


def value_text(key: str, value) -> str:
    """A value of a key, as a manifest has it."""
    if isinstance(value, bool):
        return "true" if value else "false"
    if isinstance(value, str):
        return text(value)
    return f"{value:#x}" if key in ("at", "size", "pool_base") else str(value)


def ram_text(ram: tuple[Region, ...]) -> str:
    return "[" + ", ".join(f"[{base:#x}, {end:#x}]" for base, end in ram) + "]"


def item_text(item: Item) -> str:
    given = [(each.name, getattr(item, each.name)) for each in fields(Item)]
    return "{ " + ", ".join(f"{key} = {value_text(key, value)}" for key, value in given if value is not None) + " }"


@functools.lru_cache(maxsize=4096)
def items_text(items: tuple[Item, ...]) -> str:
    return "[" + ", ".join(map(item_text, items)) + "]"


def rec_text(rec: Rec) -> str:
    parts = [] if rec.pc is None else [f'pc = "{rec.pc:#x}"']
    parts += [] if rec.x is None else ["x = [" + ", ".join(f'"{each:#x}"' for each in rec.x) + "]"]
    parts += [] if rec.runnable is None else [f"runnable = {value_text('runnable', rec.runnable)}"]
    return "{ " + ", ".join(parts) + " }" if parts else "{}"


@functools.lru_cache(maxsize=4096)
def recs_text(recs: tuple[Rec, ...]) -> str:
    return "[" + ", ".join(map(rec_text, recs)) + "]"


@functools.lru_cache(maxsize=4096)
def steps_text(steps: tuple[str, ...]) -> str:
    return "[" + ", ".join(map(text, steps)) + "]"


scalars_of = operator.attrgetter("numbers", *BESIDE)


@functools.lru_cache(maxsize=4096)
def scalars_text(numbers: tuple[tuple[str, int | bool], ...], *beside: int | str | None) -> str:
    """The lines of SCALARS: of launches that are tried one after another most have the same."""
    given = dict(numbers) | dict(zip(BESIDE, beside))
    return "".join(f"{key} = {value_text(key, given[key])}\n" for key in SCALARS if given.get(key) is not None)


def table_text(launch: Launch) -> str:
    """The table of a launch, without its name."""
    lists = [f"ram = {ram_text(launch.ram)}\n", f"item = {items_text(launch.item)}\n", f"rec = {recs_text(launch.rec)}\n"]
    if launch.steps is not None:
        lists.append(f"steps = {steps_text(launch.steps)}\n")
    return "".join([scalars_text(*scalars_of(launch)), *lists])


def manifest_head(names: set[str], files: Mapping[str, Blob]) -> str:
    """What is before the launches in a manifest: these files. More of them may be made meanwhile, by another thread."""
    heads = [f"[[file]]\nname = {text(name)}\npath = {text(files[name].path)}\n" for name in sorted(names)]
    return "".join(["rim_manifest = 2\n", *heads])
