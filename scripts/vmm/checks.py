"""The five checks of a launch against its devicetree, and the layout's own. Each difference names both sides."""
from __future__ import annotations

import os
import re
from collections.abc import Iterator
from dataclasses import dataclass

from outside.rim import Node, Tree
from outside.texts import shown

from . import devicetree
from .dumps import Dump
from .guest import MIB, PAGE
from .hypervisor import Hypervisor
from .launches import Launch
from .realm import granule_of


@dataclass(frozen=True)
class Difference:
    """What is wrong, by the check that finds it. `seen` is what the devicetree or the layout has, `expected` what the words ask for."""

    check: str
    seen: str
    expected: str

    def __str__(self):
        return f"{self.check}: {self.seen}, expected {self.expected}"


def in_brackets(word: str) -> str:
    return f" ({word})" if word else ""


def span(base: int, end: int) -> str:
    return f"{base:#x} to {end:#x}"


def spans(ranges: list[tuple[int, int]]) -> str:
    return " and ".join(span(*each) for each in ranges) or "none"


def ram(launch: Launch, tree: Tree) -> Iterator[Difference]:
    """1. The memory nodes have exactly the launch's regions."""
    has, wanted = devicetree.memory(tree), devicetree.merged(launch.places.ram)
    if has != wanted:
        yield Difference("RAM", f"the devicetree has {spans(has)}", spans(wanted) + " by the size of RAM")


def boot_words(vmm: Hypervisor, launch: Launch, tree: Tree) -> Iterator[Difference]:
    """2. `bootargs` is the command line, and the initrd's place is its address and its end, in 4 or 8 bytes."""
    chosen = tree.root.child("chosen") or Node("chosen")
    args, text = chosen.text("bootargs") or "", launch.guest.append.text
    if args != text and not (vmm.FACTS.adds_boot_words and is_among(text, args)):
        other, own = command_lines_shown(args, text)
        yield Difference("boot words", f"the devicetree has bootargs {other}", own)
    values = [chosen.properties.get(f"linux,initrd-{end}") for end in ("start", "end")]
    if launch.initrd is None:
        if any(value is not None for value in values):
            yield Difference("boot words", f"the devicetree has an initrd, {initrd_shown(values)}", "none")
        return
    wanted = launch.places.initrd, launch.places.initrd + launch.guest.initrd_length
    has = tuple(int.from_bytes(value, "big") for value in values if value is not None and len(value) in (4, 8))
    if has != wanted:
        yield Difference("boot words", f"the devicetree has the initrd at {initrd_shown(values)}", span(*wanted))


def is_among(text: str, args: str) -> bool:
    """Whether the words of a command line come among others, side by side: kvmtool puts words of its own beside them."""
    return f" {text} " in f" {args} " or not text


def initrd_shown(values: list[bytes | None]) -> str:
    return " to ".join("nothing" if value is None else hex(int.from_bytes(value, "big")) if len(value) <= 16 else f"{len(value)} bytes"
                       for value in values)


def command_lines_shown(*texts: str) -> list[str]:
    """Command lines that differ, as they are shown: where they begin alike for long, from a bit before the first that differs."""
    same = len(os.path.commonprefix(texts))
    start = same - 40 if same > 100 else 0
    return [(f"{start} characters and " if start else "") + shown(text[start:]) for text in texts]


def processors(vmm: Hypervisor, launch: Launch, tree: Tree, has_pmu: bool | None) -> Iterator[Difference]:
    """3. A node for each processor with its number and its model, and a PMU where the host says so."""
    has = devicetree.processors(tree)
    wanted = [number % 16 + 256 * (number // 16) for number in range(launch.processors)]
    if len(has) != len(wanted):
        yield Difference("processors", f"the devicetree has {len(has)}", f"{len(wanted)}")
    elif sorted(has) != wanted:
        wrong = next(each for each in has if each not in wanted) if set(has) - set(wanted) else has[0]
        yield Difference("processors", f"the devicetree has one with reg {wrong:#x}", "n mod 16 + 256 * (n / 16) of each number n")
    if (model := vmm.processor(launch.guest)) and devicetree.processor_models(tree) not in ([], [model]):
        seen = next(each for each in devicetree.processor_models(tree) if each != model)
        has_model = "one of no model" if seen is None else shown(seen)
        yield Difference("processors", f"the devicetree has {has_model}", f"{shown(model)} by -cpu")
    if has_pmu is not None and (tree.root.child("pmu") is not None) != has_pmu:
        has_node, wants_node = ("no", "one") if has_pmu else ("a", "none")
        yield Difference("processors", f"the devicetree has {has_node} node /pmu", f"{wants_node} by pmu of the host")


def controller(vmm: Hypervisor, launch: Launch, tree: Tree) -> Iterator[Difference]:
    """3, the end. No realm has an interrupt controller other than GIC 3, and it is the one that the words ask for."""
    has = devicetree.controllers(tree)
    if other := next((each for each in has if each != devicetree.GIC_3), None):
        yield Difference("interrupt controller", f"the devicetree has {shown(other)}, and no realm has GIC 2",
                         f"{shown(devicetree.GIC_3)}{in_brackets(vmm.FACTS.gic_3)}")
    elif not has and vmm.has_gic_3(launch.guest):
        yield Difference("interrupt controller", "the devicetree has none", f"{shown(devicetree.GIC_3)} by gic-version")


def same_bytes(vmm: Hypervisor, dump: Dump) -> Iterator[Difference]:
    """4. No seeds, and as many bytes as the hypervisor loads, of one that it makes. That two dumps are equal is looked at there."""
    if dump.is_own:
        return
    for name in devicetree.seeds(dump.tree):
        yield Difference("same bytes twice", f"the devicetree has {name}, which differs at each start", f"none{in_brackets(vmm.FACTS.no_seeds)}")
    length = vmm.FACTS.dtb_length
    if length and dump.length != length:
        yield Difference("same bytes twice", f"the devicetree has {dump.length} bytes", f"{length}, as long as it is loaded")
    if length and dump.length == length != dump.tree.total:
        yield Difference("same bytes twice", f"the devicetree's header says {dump.tree.total} bytes", f"{length}")


def extents(launch: Launch, dump: Dump) -> list[tuple[str, int, int]]:
    """What takes RAM, by rising address: each with its first address and the one past its last byte."""
    guest, places = launch.guest, launch.places
    found = [("dtb", places.dtb, places.dtb + dump.length)]
    if guest.firmware:
        found.append(("firmware", places.firmware, places.firmware + guest.firmware.length))
    else:
        found.append(("kernel", places.entry, places.entry + guest.kernel.image.extent))
    if launch.initrd:
        found.append(("initrd", places.initrd, places.initrd + guest.initrd_length))
    if places.stub is not None:
        found.append(("stub", places.stub, places.stub + len(places.stub_bytes)))
    return sorted(found, key=lambda each: each[1])


def place(vmm: Hypervisor, launch: Launch, dump: Dump) -> Iterator[Difference]:
    """5. All is in RAM, nothing overlaps, the devicetree is where one may be, and all ends in the protected half."""
    places, taken = launch.places, extents(launch, dump)
    for name, base, end in taken:
        if not any(low <= base and end <= high for low, high in places.all_ram):
            yield Difference("place", f"{name} is at {span(base, end)}", f"all of it in RAM, {spans(places.all_ram)}")
    granule = granule_of(launch.guest.ways)
    for (name, base, end), (other, other_base, other_end) in zip(taken, taken[1:]):
        if end > other_base // granule * granule:
            of_host = " of the host, by host_pages" * (granule > PAGE)
            yield Difference("place", f"{name} {span(base, end)} and {other} {span(other_base, other_end)} share a page{of_host}", "no such page")
    if places.dtb % vmm.FACTS.dtb_align or places.kernel % (2 * MIB):
        yield Difference("place", f"dtb at {places.dtb:#x} and kernel's base at {places.kernel:#x}", "multiples of 2 MiB")
    if launch.guest.firmware:
        return
    if vmm.FACTS.dtb_is_past_initrd and places.dtb < places.initrd + launch.guest.initrd_length:
        yield Difference("place", f"dtb at {places.dtb:#x}", "it past the initrd")
    if (places.pc == places.entry) != (places.stub is None) or places.stub not in (None, places.pc):
        yield Difference("place", f"pc {places.pc:#x} and stub {places.stub}", "both or neither")


def protected(launch: Launch, tree: Tree) -> Iterator[Difference]:
    """5, the end. RAM and each window of the devicetree are in the protected half of the realm's addresses."""
    limit = 1 << (launch.places.s2sz - 1)
    ranges = [("RAM", *each) for each in launch.places.all_ram] + devicetree.windows(tree)
    for name, base, end in ranges:
        if end > limit:
            half = f"its end at most at {limit:#x}, half of what s2sz {launch.places.s2sz} has"
            yield Difference("place", f"{name} is at {span(base, end)}", half)


def of_tree(vmm: Hypervisor, launch: Launch, dump: Dump, has_pmu: bool | None) -> list[Difference]:
    """What does not fit between the words and the devicetree: checks 1 to 3."""
    return [*ram(launch, dump.tree), *boot_words(vmm, launch, dump.tree), *processors(vmm, launch, dump.tree, has_pmu),
            *controller(vmm, launch, dump.tree)]


def all_of(vmm: Hypervisor, launch: Launch, dump: Dump, has_pmu: bool) -> list[Difference]:
    return [*of_tree(vmm, launch, dump, has_pmu), *same_bytes(vmm, dump), *place(vmm, launch, dump), *protected(launch, dump.tree)]


def of_unsettled(vmm: Hypervisor, launch: Launch, dump: Dump) -> list[Difference]:
    """All but what only a settled host decides: whether there is a PMU, and how wide an IPA is."""
    return [*of_tree(vmm, launch, dump, None), *same_bytes(vmm, dump), *place(vmm, launch, dump)]


def faults(found: dict[str, list[Difference]], paths: dict[str, str]) -> list[str]:
    """A line for each kind of difference, with the first launch that has it, its devicetree and how many more there are."""
    by_check: dict[str, list[tuple[str, Difference]]] = {}
    for name, differences in found.items():
        for each in differences:
            by_check.setdefault(each.check, []).append((name, each))
    lines = []
    for differing in by_check.values():
        name, first = differing[0]
        others = len({other for other, _ in differing} - {name})
        more = f" (and {others} launch{'es' if others > 1 else ''} more)" if others else ""
        path = paths.get(name, "")
        lines.append(f"launch {name}{', ' + path if path else ''}: {first}{more}")
    return lines


# The address of an early console in a command line.
EARLY = re.compile(r"(?:^|\s)earlycon=[a-z0-9_]+,(?:mmio(?:16|32)?,)?(0x[0-9a-fA-F]{1,16})")


def of_console(launches: list[Launch]) -> list[str]:
    """Early consoles in the protected half, where no realm has a device: Linux takes such an address as it is."""
    found = {}
    for launch in launches:
        top = 1 << (launch.places.s2sz - 1)
        for text in EARLY.findall(launch.guest.append.text):
            if int(text, 16) < top:
                found.setdefault(text, f"earlycon at {text}, in the protected half, where no realm has a device, expected "
                                 f"{top | int(text, 16):#x}, with the top bit of an IPA of {launch.places.s2sz} bits (launch {launch.name})")
    return list(found.values())


def warnings(trees: list[Tree]) -> list[str]:
    """What no realm has in its devicetree. Linux looks for the monitor only where PSCI's calls are SMC."""
    methods = [devicetree.psci_method(tree) for tree in trees]
    found = []
    for method in dict.fromkeys(methods):
        if method == "smc":
            continue
        count, has = methods.count(method), "no psci method" if method is None else f"the psci method {shown(method)}"
        found.append(f'{count} of {len(trees)} devicetrees have {has}, expected "smc": no realm has such a devicetree, since Linux looks '
                     "for the monitor only where PSCI's calls are SMC. The measurements are those of a plain guest's devicetree")
    return found
