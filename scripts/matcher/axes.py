"""What people and hosts get wrong in a launch: one table of axes.

An axis yields changes of a launch: a short text, and the changed launch. The likeliest come first. It need not leave out what changes
nothing: the search tries no table twice. A change that no manifest may have is passed over there, and one that `rim` refuses too. A new
axis is a function and a row of the table.
"""
import itertools
from collections.abc import Callable
from dataclasses import dataclass, replace

from outside import parameters
from outside.parameters import RMM_1_0, Parameter

from . import people
from .begins import entry_of, first_rec
from .files import Files
from .launch import KINDS, MIB, PAGE, Item, Launch, Rec, all_steps, value_text, with_item, with_ram, with_recs, without_item
from .people import USUAL_SIZES, Changes, more_recs


def block_levels(launch: Launch, _files: Files) -> Changes:
    for level in (3, 2, 1, 0):
        if level != (2 if launch.block_level is None else launch.block_level):
            yield f"block_level {level}", replace(launch, block_level=level)


# ---- RECs


def recs(launch: Launch, _files: Files) -> Changes:
    here = len(launch.rec)
    usual = (here, 1, 2, 4, here + 1, here - 1, 8, 16)
    for count in dict.fromkeys(each for each in (*usual, *range(1, 17)) if each > 1):
        for text, is_off, rule in (("the others off and measured", True, "all"), ("all runnable", False, launch.rec_rule)):
            yield f"{count} RECs, {text}", replace(with_recs(launch, more_recs(launch, count, is_off)), rec_rule=rule)
        if count == here:
            off = with_recs(launch, more_recs(launch, count, True))
            yield f"{count} RECs, the others off and not measured", replace(off, rec_rule="runnable")
    yield "1 REC", with_recs(launch, more_recs(launch, 1, False))
    yield "no REC", with_recs(launch, ())


def entries(launch: Launch, files: Files) -> Changes:
    """With which values REC 0 begins, and with which the others do."""
    kernel, dtb, first = launch.of_kind("kernel"), launch.of_kind("dtb"), first_rec(launch, files) if launch.rec else None
    if first is None:
        return
    counters = [("", first.pc)] + ([("the kernel's address", entry_of(launch, files)), ("the kernel's base", kernel.at)] if kernel else [])
    counters += [("0", 0)] + [(f'the address of "{each.name}"', each.at) for each in launch.item if each.kind == "raw"]
    registers = [("", first.x)] + ([("the devicetree's address", (dtb.at,))] if dtb else []) + [("0", ())]
    different: dict[Rec, str] = {first: ""}
    for (pc_text, pc), (x_text, x) in itertools.product(counters, registers):
        texts = [f"pc {pc_text}"] * (pc_text != "") + [f"x0 {x_text}"] * (x_text != "")
        different.setdefault(replace(first, pc=pc, x=x), f"REC 0: {', '.join(texts)}")
    for new, text in list(different.items())[1:]:
        yield text, with_recs(launch, (new, *launch.rec[1:]))
    for text, like in (("as the first one", first), ("at the first one's pc, with zeros", replace(first, x=())),
                       ("at 0, with zeros", Rec(0, ()))):
        others = tuple(replace(each, pc=like.pc, x=like.x) for each in launch.rec[1:])
        yield f"the other RECs begin {text}", with_recs(launch, (*launch.rec[:1], *others))


# ---- the order


def item_orders(launch: Launch) -> list[tuple[str, list[Item]]]:
    """Orders of the items: the usual ones, and of few items all."""
    items = list(launch.item)
    found = [("kind", sorted(items, key=lambda each: KINDS.index(each.kind))), ("address", sorted(items, key=lambda each: each.at)),
             ("the manifest's order", items), ("falling address", sorted(items, key=lambda each: -each.at))]
    if len(items) <= 4:
        found += [(", ".join(each.name for each in order), list(order)) for order in itertools.permutations(items)]
    different = {tuple(each.name for each in order): (text, order) for text, order in reversed(found)}
    return list(reversed(different.values()))


def starts_of(launch: Launch, files: Files) -> dict[str, int]:
    """The address of each item's first byte."""
    starts = {each.name: each.at for each in launch.item}
    kernel, entry = launch.of_kind("kernel"), entry_of(launch, files)
    return starts | {kernel.name: entry} if kernel and entry is not None else starts


def regions_before(launch: Launch, files: Files, items: list[Item]) -> list[str]:
    """Each region, rising, before the items in it."""
    starts = starts_of(launch, files)
    found: list[str] = []
    for number, (base, end) in sorted(enumerate(launch.ram), key=lambda each: each[1]):
        found += [f"ram {number}", *(f"item {each.name}" for each in items if base <= starts[each.name] < end)]
    return found + [f"item {each.name}" for each in items if f"item {each.name}" not in found]


def orders(launch: Launch, files: Files) -> Changes:
    ram, last = [f"ram {number}" for number in range(len(launch.ram))], [f"rec {number}" for number in range(len(launch.rec))]
    rising = [f"ram {number}" for number in sorted(range(len(launch.ram)), key=lambda number: launch.ram[number])]
    different: dict[tuple[str, ...], str] = {all_steps(launch): ""}
    named = [(f"items by {text}" if "," not in text else f"items {text}", order) for text, order in item_orders(launch)]
    for text, order in named:
        items = [f"item {each.name}" for each in order]
        for where, some in (("RAM, items, RECs", [*ram, *items, *last]), ("RECs before RAM", [*last, *ram, *items]),
                            ("RECs after RAM", [*ram, *last, *items]),
                            ("each region before its items", regions_before(launch, files, order) + last),
                            ("RECs, each region before its items", last + regions_before(launch, files, order)),
                            ("RAM rising", [*rising, *items, *last]), ("RAM falling", [*rising[::-1], *items, *last])):
            different.setdefault(tuple(some), f"{where}; {text}")
    for steps, text in list(different.items())[1:]:
        yield text, replace(launch, steps=steps)


# ---- items


def measured(launch: Launch, _files: Files) -> Changes:
    some = [each for each in launch.item if each.kind != "unknown"]
    for item in some:
        is_measured = item.measured is not False
        text = f'"{item.name}" {"not " * is_measured}measured'
        yield text, with_item(launch, item, replace(item, measured=False if is_measured else None))
    for text, value in (("no item measured", False), ("each item measured", None)):
        yield text, replace(launch, item=tuple(replace(each, measured=value) if each in some else each for each in launch.item))


def left_out(launch: Launch, files: Files) -> Changes:
    for item in launch.item:
        rest = without_item(launch, item)
        yield f'"{item.name}" left out', rest
        first = first_rec(launch, files) if launch.rec and item.kind in ("kernel", "dtb") else None
        if first is not None:
            yield f'"{item.name}" left out, and not its address', with_recs(rest, (first, *launch.rec[1:]))


def sizes(launch: Launch, files: Files) -> Changes:
    some = [(each, files[each.file]) for each in launch.item if each.kind != "unknown"]
    several = [(each, "as far as its bytes", None) for each, _ in some if each.size is not None]
    several += [(each, "as far as its header's image_size", blob.image.extent) for each, blob in some if blob.image]
    for unit in (2 * MIB, MIB, 64 << 10, 16 << 10):
        several += [(each, f"in whole {unit >> 10} KiB", -(-blob.length // unit) * unit) for each, blob in some]
    several += [(each, "a page more", (blob.length if each.size is None else each.size) + PAGE) for each, blob in some]
    for item, text, size in several:
        yield f'"{item.name}" {text}', with_item(launch, item, replace(item, size=size))


def devicetrees(launch: Launch, _files: Files) -> Changes:
    """The devicetree as it is, or edited in other ways."""
    dtb = launch.of_kind("dtb")
    if dtb is None:
        return
    has_initrd = launch.of_kind("initrd") is not None
    texts = dict.fromkeys((None, dtb.bootargs, ""))
    for bootargs, initrd, memory in itertools.product(texts, (None, True) if has_initrd else (None,), (None, True)):
        said = [name for name, value in (("bootargs", bootargs), ("initrd", initrd), ("memory", memory)) if value is not None]
        text = f"the devicetree edited: {', '.join(said)}" if said else "the devicetree as it is"
        yield text + " (empty)" * (bootargs == ""), with_item(launch, dtb, replace(dtb, bootargs=bootargs, initrd=initrd, memory=memory))


def kernel_bases(launch: Launch, files: Files) -> Changes:
    """The kernel moved; a REC whose pc is at it begins there still, or at the address where it was."""
    kernel, entry = launch.of_kind("kernel"), entry_of(launch, files)
    if kernel is None or entry is None:
        return
    for count in (1, -1, 2, -2, 3, -3, 4, -4):
        by = count * 2 * MIB
        if kernel.at + by >= 0:
            moved = with_item(launch, kernel, replace(kernel, at=kernel.at + by))
            yield f"the kernel's base {kernel.at + by:#x}", with_recs(moved, tuple(
                replace(each, pc=entry + by) if each.pc == entry else each for each in launch.rec))
            yield f"the kernel's base {kernel.at + by:#x}, and not the RECs' pc", moved


# ---- the realm's parameters


def widths(launch: Launch, _files: Files) -> Changes:
    for bits in dict.fromkeys((40, 48, 36, 39, 42, 33, 34, launch.s2sz + 1, launch.s2sz - 1, *range(32, 49))):
        if 32 <= bits <= 48:
            yield f"s2sz {bits}", replace(launch, s2sz=bits)


def near(here: int, end: int, usual: int) -> list[int]:
    """Other numbers below the end. First one less and one more: what counts from one is often given for what counts from zero."""
    several = dict.fromkeys((here - 1, here + 1, usual, *range(end)))
    return [each for each in several if 0 <= each < max(end, min(here + 2, 256)) and each != here]


def flagged(has: bool, here: int, end: int, usual: int) -> list[tuple[bool, int]]:
    """Other flags with their counts. The likeliest are no flag, with zero, where there is one; and where there is none, a usual one."""
    others = near(here, end, usual)
    return [(not has, 0 if has else usual), *((True, each) for each in (others if has else [0, 1, *others])),
            *((False, each) for each in (here, *others))]


def numbers(about: Parameter, launch: Launch) -> Changes:
    """Other values of a number, with its flag where it has one."""
    here = launch.number(about.key)
    if about.flag is None:
        for count in near(here, about.below, about.by_hand):
            yield f"{about.key} {count}", launch.with_numbers({about.key: count})
        return
    for has, count in flagged(bool(launch.number(about.flag)), here, about.below, about.by_hand):
        new = launch.with_numbers({about.flag: has or None, about.key: count or None})
        yield f"{about.flag} {value_text(about.flag, has)}, {about.key} {count}", new


def counts(launch: Launch, _files: Files) -> Changes:
    """Several of the numbers one off at once: those without a flag, with one that has a flag, and all."""
    bare = [about.key for about in RMM_1_0 if about.flag is None]
    together = [bare, *([*bare, key] for _, key in reversed(parameters.FLAGGED)), parameters.KEYS]
    for more, keys in itertools.product((-1, 1), together):
        new = {key: launch.number(key) + more for key in keys}
        if all(0 <= value <= parameters.MOST for value in new.values()):
            yield f"{', '.join(keys)} {more:+}", launch.with_numbers(new)


# ---- RAM


def joined(launch: Launch) -> list[list[tuple[int, int]]]:
    """Regions that meet as one."""
    groups: list[list[tuple[int, int]]] = []
    last = -1
    for base, end in launch.ram:
        if groups and groups[last] and groups[last][0][1] == base:
            groups[last] = [(groups[last][0][0], end)]
            groups.append([])
        else:
            groups.append([(base, end)])
            last = len(groups) - 1
    return groups


def split(launch: Launch, places: set[int]) -> list[list[tuple[int, int]]]:
    """Each region in parts, which begin at these places too."""
    groups = []
    for base, end in launch.ram:
        starts = [base, *sorted(place for place in places if base < place < end)]
        groups.append(list(zip(starts, [*starts[1:], end])))
    return groups


def ends(base: int, end: int) -> dict[int, None]:
    """Other ends of a region, each once: of sizes near its own, and where a size was taken for an end or an end for a size."""
    size = end - base
    above = 1 << (size - 1).bit_length()
    below = 1 << (size.bit_length() - 1)
    lengths = (above, below, 2 * size, size // 2, 2 * above, below // 2, 4 * above, below // 4)
    return dict.fromkeys(new for new in (size, end + base, *(base + each for each in lengths), 1 << (end - 1).bit_length(),
                                         1 << (end.bit_length() - 1)) if new > base and new % PAGE == 0)


def rams(launch: Launch, files: Files) -> Changes:
    kept = [[region] for region in launch.ram]
    for number, (base, end) in enumerate(launch.ram):
        for new in ends(base, end):
            yield f"region {number} ends at {new:#x}", with_ram(launch, [*kept[:number], [(base, new)], *kept[number + 1:]])
    yield "regions joined", with_ram(launch, joined(launch))
    places = {name: start // PAGE * PAGE for name, start in starts_of(launch, files).items()}
    for name, place in places.items():
        yield f'RAM split at "{name}"', with_ram(launch, split(launch, {place}))
    parts = with_ram(launch, split(launch, set(places.values())))
    yield "RAM split at each item", parts
    last = [f"rec {number}" for number in range(len(launch.rec))]
    yield "RAM split at each item, each part before it", replace(parts, steps=tuple(regions_before(parts, files, list(parts.item)) + last))
    for number, (base, _) in enumerate(launch.ram):
        for new in (base + size * MIB for size in USUAL_SIZES):
            yield f"region {number} ends at {new:#x}", with_ram(launch, [*kept[:number], [(base, new)], *kept[number + 1:]])


@dataclass(frozen=True)
class Axis:
    """What may be wrong, and how many of its first changes are likely: three at once are tried of these first. Of what people change there are
    many ways: where not all changes are likely, those of hosts alone are tried first."""

    name: str
    about: str
    changes: Callable[[Launch, Files], Changes]
    likely: int
    is_peoples: bool = False


# In the order in which they are tried.
def number_axis(about: Parameter) -> Axis:
    """The axis of a number of the realm."""
    what = f"{about.flag}, and {about.key} 0 to {about.below - 1}" if about.flag else f"{about.what}, 0 to {about.below - 1}"
    return Axis(about.flag or about.key, what, lambda launch, _files: numbers(about, launch), 3 if about.flag else 2)


AXES = (
    Axis("append", "the command line: those of --append-file, and those near it", people.command_lines, 4, True),
    Axis("memory", "the size of RAM, with a devicetree that says so", people.memories, 4, True),
    Axis("smp", "the number of processors, with a devicetree that says so", people.processors, 4, True),
    Axis("place", "an item up or down, with the devicetree that says so", people.places, 4, True),
    Axis("contents", "the contents of a file: those of --file", people.contents, 4, True),
    Axis("block_level", "the level of the largest blocks of RAM, 0 to 3", block_levels, 2),
    Axis("rec", "how many RECs, none to 16; which are off; rec_rule", recs, 8),
    Axis("entry", "pc and x0 of REC 0, and with what the others begin", entries, 5),
    Axis("steps", "the order of RAM, items and RECs", orders, 8),
    Axis("measured", "an item, or all, measured or not", measured, 4),
    Axis("item", "an item left out", left_out, 6),
    Axis("size", "how many pages an item has", sizes, 3),
    Axis("devicetree", "bootargs, initrd and memory of the devicetree", devicetrees, 4),
    Axis("kernel", "the kernel's base, up to 8 MiB off", kernel_bases, 4),
    Axis("s2sz", "the width of an IPA, 32 to 48", widths, 5),
    *map(number_axis, RMM_1_0),
    Axis("counts", f"{parameters.in_words(parameters.KEYS)} one off at once", counts, 3),
    Axis("ram", "a region's end; regions joined, or split at items", rams, 7),
    # each is a file of its own, and large: none is tried beside others before all else is
    Axis("length", "a file unpacked, padded or cut short", people.lengths, 0),
)
