"""What people change in a machine: the command line, its RAM, its processors, where an item is, what a file has.

Each is a change of the whole launch: a devicetree that said what there was says what there is, and what comes right after something that
has grown comes later. Where a tree can't be written for that, the launch has it as it is.
"""
from __future__ import annotations

import zlib
from collections.abc import Callable, Iterator
from dataclasses import replace

from outside.texts import quoted
from outside.trees import MOST_PROCESSORS

from . import begins, trees
from .files import MOST, Files
from .launch import GIB, MIB, PAGE, Item, Launch, Rec, with_item, with_ram, with_recs

Changes = Iterator[tuple[str, Launch]]
KIB = 1 << 10


# ---- a launch of which a part is another one


def with_dtb_at(launch: Launch, at: int) -> Launch:
    """The devicetree elsewhere, and so the x0 of REC 0 that was its address."""
    dtb = launch.of_kind("dtb")
    if dtb is None or dtb.at == at:
        return launch
    first = launch.rec[0] if launch.rec else None
    if first and first.x and first.x[0] == dtb.at:
        launch = with_recs(launch, (replace(first, x=(at, *first.x[1:])), *launch.rec[1:]))
    return with_item(launch, dtb, replace(dtb, at=at))


def settled(old: Launch, new: Launch, files: Files) -> Iterator[Launch]:
    """A launch with other RAM or another initrd, as a hypervisor makes it: the tree says so, and is after the initrd where it was. Then with
    the tree where it was, and then without a word of it in the tree."""
    with_tree = trees.followed(old, new, files)
    at = trees.placed_after(old, new, files, 2 * MIB)
    if at is not None:
        yield with_dtb_at(with_tree, at)
    yield with_tree
    yield new


def with_entry(old: Launch, new: Launch, files: Files) -> Launch:
    """A REC that began at the kernel begins there still."""
    if all(each.pc is None for each in new.rec):
        return new
    before, after = begins.entry_of(old, files), begins.entry_of(new, files)
    return replace(new, rec=tuple(replace(each, pc=after) if each.pc is not None and each.pc == before else each for each in new.rec))


def with_file(launch: Launch, item: Item, file: str, files: Files) -> Launch:
    """An item with another file; what was said of its size held of the old one."""
    new = with_item(launch, item, replace(item, file=file, size=None if item.size and item.size < files[file].length else item.size))
    return with_entry(launch, new, files) if item.kind == "kernel" else new


# ---- the command line


# Words that people add to a command line or take away, and values that they give to those that have one.
USUAL = ("quiet", "debug", "nokaslr", "earlycon", "rw", "ro", "console=ttyAMA0", "console=hvc0", "root=/dev/vda", "root=/dev/vda1",
         "root=/dev/vda2", "panic=1", "panic=-1", "loglevel=3", "loglevel=7", "loglevel=8", "ignore_loglevel", "acpi=off", "single",
         "init=/bin/sh", "rdinit=/bin/sh", "swiotlb=force", "net.ifnames=0", "ip=dhcp", "splash", "--")
VALUES = {"root": ("/dev/vda", "/dev/vda1", "/dev/vda2", "/dev/vda3", "/dev/vdb", "/dev/sda1", "/dev/sda2", "/dev/nfs"),
          "console": ("ttyAMA0", "ttyAMA0,115200", "hvc0", "ttyS0"), "loglevel": tuple("01234567"), "panic": ("0", "1", "-1", "10"),
          "ip": ("dhcp", "on", "off")}
MOST_BOOTARGS = 2048


def lines_near(text: str) -> Iterator[str]:
    """Command lines near one: with a word more, with one less, with another value of a word."""
    words = text.split()
    yield from ("", text.strip(), f"{text} ", " ".join(words))
    yield from (" ".join([*words, word]) for word in USUAL)
    for number, word in enumerate(words):
        yield " ".join([*words[:number], *words[number + 1:]])
        key, _, _ = word.partition("=")
        yield from (" ".join([*words[:number], f"{key}={value}", *words[number + 1:]]) for value in VALUES.get(key, ()))
    yield from (" ".join([word, *words]) for word in USUAL)


def command_lines(launch: Launch, files: Files) -> Changes:
    """The command line of the devicetree: those that are named, and those that are near it."""
    here = trees.bootargs_of(launch, files)
    if launch.of_kind("dtb") is None:
        return
    for text in dict.fromkeys((*files.hints.appends, *lines_near(here or ""))):
        changed = trees.with_bootargs(launch, files, text) if text != here and len(text.encode(errors="surrogateescape")) < MOST_BOOTARGS else None
        if changed is not None:
            yield f"the command line {quoted(text)}", changed


# ---- RAM


# Sizes of RAM that people give to a machine, in MiB.
USUAL_SIZES = (256, 512, *(1024 * gib for gib in (1, 2, 3, 4, 6, 8, 12, 16)), 128, 64, 384, 768, 1536, 32 * 1024, 64 * 1024)
# Where QEMU has an initrd: half of RAM up, and no more than this.
INITRD_AT = 128 * MIB


def size_text(size: int) -> str:
    return f"{size // GIB} GiB of RAM" if size % GIB == 0 else f"{size // MIB} MiB of RAM"


def with_size(launch: Launch, size: int) -> Launch:
    """Another size of RAM, with the initrd where QEMU has it then, if it was where QEMU has it."""
    base, end = launch.ram[0]
    new, initrd = with_ram(launch, [[(base, base + size)]]), launch.of_kind("initrd")
    if initrd is None or initrd.at != base + min((end - base) // 2, INITRD_AT):
        return new
    return with_item(new, initrd, replace(initrd, at=base + min(size // 2, INITRD_AT)))


def from_the_end(launch: Launch, size: int) -> Launch:
    """Another size of RAM, with initrd and devicetree as far from its end as they were."""
    (base, end), dtb = launch.ram[0], launch.of_kind("dtb")
    by = base + size - end
    new = with_ram(launch, [[(base, base + size)]])
    new = replace(new, item=tuple(replace(each, at=each.at + by) if each.kind == "initrd" and each.at + by > 0 else each for each in new.item))
    return with_dtb_at(new, max(0, dtb.at + by)) if dtb else new


def memories(launch: Launch, files: Files) -> Changes:
    """Another size of RAM: initrd and devicetree are as QEMU has them, or as far from the end of RAM as they were."""
    if len(launch.ram) != 1 or launch.of_kind("dtb") is None:
        return
    (base, end), = launch.ram
    for size in (each * MIB for each in USUAL_SIZES):
        if size == end - base:
            continue
        for each in dict.fromkeys((with_size(launch, size), from_the_end(launch, size), with_ram(launch, [[(base, base + size)]]))):
            yield from ((size_text(size), whole) for whole in settled(launch, each, files))


# ---- processors


def more_recs(launch: Launch, count: int, is_off: bool) -> tuple[Rec, ...]:
    """RECs as those that exist; the first one runs, and the others run or are off."""
    others = launch.rec[1:] or (Rec(),)
    flag = False if is_off else None
    new = tuple(replace(others[min(at, len(others) - 1)], runnable=flag) for at in range(count - 1))
    return (*(replace(each, runnable=None if each.is_off else each.runnable) for each in launch.rec[:1] or (Rec(),)), *new)


def processors(launch: Launch, files: Files) -> Changes:
    """Another number of processors, in the devicetree and of RECs."""
    here = len(launch.rec)
    for count in dict.fromkeys((1, 2, 4, 8, here + 1, here - 1, *range(1, MOST_PROCESSORS + 1))):
        changed = trees.with_processors(launch, files, count) if count != here else None
        if changed is None:
            continue
        for rule in dict.fromkeys((launch.rec_rule or "runnable", "runnable", "all")):
            yield f"{count} processors", replace(with_recs(changed, more_recs(launch, count, True)), rec_rule=rule)
        yield f"{count} processors, all running", with_recs(changed, more_recs(launch, count, False))


# ---- places


# How far an item is moved: by pages, and by the steps in which hypervisors place things.
STEPS = (PAGE, -PAGE, 2 * MIB, -2 * MIB, 2 * PAGE, -2 * PAGE, *(count * PAGE for count in range(3, 17)), -3 * PAGE, -4 * PAGE, 64 * KIB, -64 * KIB,
         *(sign * count * 2 * MIB for count in range(2, 9) for sign in (1, -1)),
         *(sign * count * 16 * MIB for count in range(2, 9) for sign in (1, -1)))


def moved_text(by: int) -> str:
    unit, name = (2 * MIB, "2 MiB") if by % (2 * MIB) == 0 else (PAGE, "page")
    count = abs(by) // unit
    size = (f"{count} page{'s' * (count > 1)}" if name == "page" else f"{count * 2} MiB")
    return f"{size} {'up' if by > 0 else 'down'}"


def places(launch: Launch, files: Files) -> Changes:
    """An item elsewhere, and what goes with it: the tree says where the initrd is, REC 0 begins at the item where it did."""
    some = sorted((each for each in launch.item if each.kind != "kernel"), key=lambda each: ("initrd", "dtb", "raw", "unknown").index(each.kind))
    for by in STEPS:
        for item in some:
            at, text = item.at + by, f'"{item.name}" {moved_text(by)}'
            if at < 0:
                continue
            if item.kind == "dtb":
                yield text, with_dtb_at(launch, at)
            elif item.kind == "initrd":
                yield from ((text, each) for each in settled(launch, with_item(launch, item, replace(item, at=at)), files))
            else:
                recs = tuple(replace(each, pc=at) if each.pc == item.at else each for each in launch.rec)
                yield text, with_recs(with_item(launch, item, replace(item, at=at)), recs)


# ---- contents


def unpacked(data: bytes) -> bytes:
    """What gzip has packed; nothing where that is not so, or too much."""
    try:
        reader = zlib.decompressobj(wbits=31)
        out = reader.decompress(data, MOST + 1)
        return out if reader.eof and len(out) <= MOST else b""
    except zlib.error:
        return b""


def cut(length: int) -> Iterator[tuple[str, int]]:
    """Lengths to which a file may have been cut."""
    for unit, text in ((PAGE, "4 KiB"), (64 * KIB, "64 KiB"), (MIB, "1 MiB"), (2 * MIB, "2 MiB"), (16 * MIB, "16 MiB"), (512, "512 bytes")):
        if length % unit and length > unit:
            yield f"cut to whole {text}", length // unit * unit
    for size in (1 << power for power in range(12, 28)):
        if size < length <= 2 * size:
            yield f"cut to {size:#x} bytes", size


def made(files: Files, item: Item, text: str, make: Callable[[bytes], bytes]) -> str | None:
    """A file that is made of an item's; None where there is nothing to make."""
    key = (item.file, text)
    if item.file is None:
        return None
    if key not in files.of_changes:
        data = make(files.data(item.file))
        files.of_changes[key] = files.made(files.changed(item.file, text), data) if data else None
    return files.of_changes[key]


def resized(files: Files, item: Item, text: str, length: int) -> str | None:
    """The file of an item, cut or with zeros after it; None where it has this length."""
    if item.file is None or length == files[item.file].length:
        return None
    return files.resized(item.file, files.changed(item.file, text), length)


def of_file(launch: Launch, item: Item, text: str, file: str | None, files: Files) -> Changes:
    """A launch with another file of an item, and what goes with that."""
    if file is None or file == item.file:
        return
    new = with_file(launch, item, file, files)
    for each in settled(launch, new, files) if item.kind == "initrd" else (new,):
        yield text, each


def contents(launch: Launch, files: Files) -> Changes:
    """The other contents of a file that are named, as they are and unpacked."""
    for item in launch.item:
        for name in files.hints.contents.get(item.file or "", ()):
            called = files[name].about or f'the file "{name}"'
            yield from of_file(launch, item, f'"{item.name}" is {called}', name, files)
            packed = made(files, replace(item, file=name), "unpacked by gzip", unpacked)
            yield from of_file(launch, item, f'"{item.name}" is {called}, unpacked by gzip', packed, files)


def lengths(launch: Launch, files: Files) -> Changes:
    """The files of a launch unpacked, padded or cut short."""
    some = [each for each in launch.item if each.file in files]
    for item in some:
        yield from of_file(launch, item, f'"{item.name}" unpacked by gzip', made(files, item, "unpacked by gzip", unpacked), files)
    for item in some:
        for unit in (PAGE, 16 * KIB, 64 * KIB, 512, 4):
            text = f"padded with zeros to whole {unit // KIB} KiB" if unit >= KIB else f"padded with zeros to whole {unit} bytes"
            padded = resized(files, item, text, -(-files[item.file or ""].length // unit) * unit)
            yield from of_file(launch, item, f'"{item.name}" {text}', padded, files)
    for item in some:
        for text, length in cut(files[item.file or ""].length):
            yield from of_file(launch, item, f'"{item.name}" {text}', resized(files, item, text, length), files)
