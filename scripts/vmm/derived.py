"""Derives the devicetrees that are not among the dumps of --dtb from those that are.

A dump that fits a launch was made by its words. RAM, the command line and the initrd of another launch are changed in it as the hypervisor
writes them, and the number of processors only if two dumps show that step. Where the bytes are not certain, the launch is refused.
"""
from __future__ import annotations

import functools
import hashlib
from collections.abc import Callable
from dataclasses import dataclass, replace

from outside import trees
from outside.faults import Fault
from outside.texts import visible
from outside.trees import Draft, Flat, Region

from .dumps import Derived, Dump, Program, Reader, commands, key_of, written
from .hypervisor import Hypervisor
from .launches import Launch

# How many dumps a fault names, and of how many that it asks for others are foreseen to be derived.
MOST_REASONS, MOST_ASKED = 3, 64
# The longest command line, in bytes, of which it is foreseen that the bytes after it are known.
MOST_SHORT = 400


class Refused(Exception):
    """A devicetree is not derived, and why."""


@dataclass(frozen=True)
class Source:
    """A dump, a launch that it fits, and the tree to change."""

    launch: Launch
    dump: Dump
    flat: Flat
    draft: Draft


def initrd_of(launch: Launch) -> Region | None:
    """Returns the place of the initrd that is in RAM, if there is one."""
    return (launch.places.initrd, launch.places.initrd + launch.initrd.length) if launch.initrd else None


def source_of(launch: Launch, dump: Dump) -> Source:
    flat = Flat(dump.data, dump.tree)
    draft = trees.drafted(flat)
    if draft is None or not trees.is_of_qemu(draft):
        raise Refused("it is not written as QEMU writes a devicetree")
    source = Source(launch, dump, flat, draft)
    again = draft.copy()
    is_done = trees.set_memory(again, tuple(launch.places.ram), tuple(launch.places.ram)) and trees.set_bootargs(again, launch.guest.append.text)
    if not is_done or (trees.written(again, flat) != dump.data and again.is_sure):
        raise Refused("it is not written as QEMU writes a devicetree")
    return source


def changes(old: Launch, new: Launch) -> tuple[str, ...]:
    """Returns what differs between two launches in the devicetree."""
    here, there = ((each.processors, each.places.ram, initrd_of(each), each.guest.append.text) for each in (old, new))
    return tuple(name for name, mine, theirs in zip(("number of processors", "RAM", "initrd", "command line"), here, there) if mine != theirs)


def edited(source: Source, new: Launch) -> bytes:
    """Returns the devicetree of another launch."""
    old, draft = source.launch, source.draft.copy()
    differing, was, place = changes(old, new), initrd_of(old), initrd_of(new)
    if "number of processors" in differing and not trees.set_processors(draft, new.processors):
        raise Refused(f"only up to {trees.MOST_PROCESSORS} processors of one cluster are derived")
    if "RAM" in differing and not trees.set_memory(draft, tuple(old.places.ram), tuple(new.places.ram)):
        raise Refused("its memory node is another one than a plain line has")
    if "initrd" in differing and was is None:
        raise Refused("it has no initrd, so it does not show how long the addresses of one are")
    if "initrd" in differing and not (was and trees.set_initrd(draft, was, place)):
        raise Refused("its initrd is written in another way than QEMU writes it")
    if {"number of processors", "command line"} & set(differing):
        trees.set_bootargs(draft, new.guest.append.text)
    data = trees.written(draft, source.flat)
    if not draft.is_sure:
        raise Refused("the command line is so long that the bytes after it are not known")
    return data


class Sources:
    """The dumps that fit a launch, from which the devicetrees of others are derived."""

    def __init__(self, vmm: Hypervisor, kept: list[str], fitting: dict[str, tuple[Dump, list[Launch]]]):
        self.vmm, self.kept, self.fitting = vmm, kept, fitting
        self.of_path = functools.lru_cache(maxsize=None)(self.made)
        self.steps_of = functools.lru_cache(maxsize=None)(self.agreeing)

    def made(self, path: str) -> Source:
        """Returns the source of a path. It is not known which machine has made a dump that fits launches of two."""
        dump, launches = self.fitting[path]
        if len({(each.guest.machine.text, each.guest.cpu.text, each.guest.smp.words) for each in launches}) > 1:
            raise Refused("it fits launches of several machines, and only one of them has made it")
        return source_of(launches[0], dump)

    def others(self, path: str) -> list[Source]:
        """Returns the other dumps of the same machine whose devicetrees are derived from that of a path."""
        found = []
        for each in self.fitting:
            try:
                if each != path and not self.why_not(self.of_path(path), self.of_path(each).launch):
                    found.append(self.of_path(each))
            except Refused:
                continue
        return found

    def why_not(self, source: Source, launch: Launch) -> str:
        return self.vmm.FACTS.why_not_derived(source.launch.guest, launch.guest, self.kept)

    def agreeing(self, path: str) -> frozenset[int]:
        """Returns the numbers of processors of the other dumps that are derived from that of a path byte for byte. One of the same number that is
        not has something else that differs."""
        source, counts = self.of_path(path), set()
        for other in self.others(path):
            try:
                is_same = edited(source, other.launch) == other.dump.data
            except Refused:
                continue
            if is_same:
                counts.add(other.launch.processors)
            elif other.launch.processors == source.launch.processors:
                raise Refused(f"it and {other.dump.path} differ in more than {' and '.join(changes(source.launch, other.launch)) or 'their words'}")
        return frozenset(counts - {source.launch.processors})

    def of_source(self, path: str, launch: Launch) -> Dump:
        """Returns what is derived from the dump of a path, with the tree of that dump."""
        source = self.of_path(path)
        if why := self.why_not(source, launch):
            raise Refused(why)
        counts, has = self.steps_of(path), source.launch.processors
        if launch.processors != has and not counts or launch.processors == 1 != has and 1 not in counts:
            raise Refused(f"no other dump shows the step from {has} to {launch.processors} processors")
        return replace(source.dump, packed=(made := written(edited(source, launch))).packed, length=made.length, derived=Derived(
            source.dump.source, hashlib.sha256(source.dump.data).hexdigest(), source.launch.name, changes(source.launch, launch)))

    def near(self, launch: Launch) -> list[str]:
        """Returns the paths of the dumps, those with the fewest changes first."""
        return sorted(self.fitting, key=lambda path: len(changes(self.fitting[path][1][0], launch)))

    def derived(self, reader: Reader, launch: Launch) -> Dump:
        reasons: dict[str, str] = {}
        for path in self.near(launch):
            try:
                made = self.of_source(path, launch)
            except Refused as why:
                reasons.setdefault(str(why), path)
            else:
                read = reader.dump(f"the devicetree of launch {launch.name}, derived from {path}", made)
                return replace(read, derived=made.derived)
        raise Refused("; ".join(f"{visible(path)}: {why}" for why, path in list(reasons.items())[:MOST_REASONS]))

    def leads_to(self, dumped: Launch, launch: Launch, counts: set[int]) -> bool:
        """Whether the devicetree of a launch is likely to be derived, once that of another one is dumped; `counts`: the numbers of processors of all
        dumps of the machine."""
        differing, count = changes(dumped, launch), launch.processors
        is_known = not ("initrd" in differing and not dumped.initrd or "command line" in differing and len(launch.guest.append.text) > MOST_SHORT)
        is_step = count == dumped.processors or len(counts) > 1 and count <= trees.MOST_PROCESSORS and (count > 1 or 1 in counts)
        return is_known and is_step and not self.vmm.FACTS.why_not_derived(dumped.guest, launch.guest, self.kept)

    def needed(self, launches: list[Launch]) -> list[Launch]:
        """Returns those of some launches whose devicetrees have to be dumped: the others are likely to be derived from these then."""
        firsts, asked = [group[0] for _, group in self.fitting.values()], []
        for launch in launches:
            machine, cpu = launch.guest.machine, launch.guest.cpu
            counts = {each.processors for each in (*firsts, *asked) if (each.guest.machine, each.guest.cpu) == (machine, cpu)}
            if not any(self.leads_to(each, launch, counts) for each in asked[:MOST_ASKED]):
                asked.append(launch)
        return asked


def completed(program: Program, reader: Reader, launches: list[Launch], chosen: dict[str, Dump],
              differences: Callable[[Launch, Dump], list]) -> dict[str, Dump]:
    """Returns the devicetree of each launch: the dump that fits it, or else one that is derived. If no dump fits any launch, nothing is
    derived, and the checks say what differs."""
    fitting: dict[str, tuple[Dump, list[Launch]]] = {}
    unfit = []
    for launch in launches:
        dump = chosen[launch.name]
        if differences(launch, dump):
            unfit.append(launch)
        else:
            fitting.setdefault(dump.source, (dump, []))[1].append(launch)
    if not program.vmm.FACTS.dumped_by or not fitting:
        return chosen
    sources, made, reasons = Sources(program.vmm, program.kept, fitting), {}, {}
    for launch in unfit:
        key = key_of(launch)
        try:
            if key not in made and key not in reasons:
                made[key] = sources.derived(reader, launch)
        except Refused as why:
            reasons[key] = f"launch {launch.name}: no --dtb fits it, and its devicetree cannot be derived: {why}"
    if reasons:
        needed = sources.needed([launch for launch in unfit if key_of(launch) in reasons])
        refuse(program, needed, next(iter(reasons.values())), len(reasons) - 1)
    return chosen | {launch.name: made[key_of(launch)] for launch in unfit}


def refuse(program: Program, launches: list[Launch], why: str, more: int):
    """Raises a fault with the commands that make the devicetrees of some launches on the machine of the realm."""
    others, several = f" (and {more} devicetree{'s' * (more > 1)} more)" if more else "", "s" * (len(launches) > 1)
    fault = Fault(f"{why}{others}; run the command{several} below on the machine of the realm, and add the options in the last line")
    fault.block = commands(program, program.path, launches)
    raise fault
