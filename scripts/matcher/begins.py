"""Where a kernel begins, and with what REC 0 begins where a manifest does not say it: `rim` says both, of a launch that has nothing else."""
from __future__ import annotations

import os
from dataclasses import replace

from outside import files as outside_files

from .files import Files
from .launch import Item, Launch, Rec, manifest_head, table_text

# RAM in which each item may be, in the largest blocks that a realm can have.
WIDTH, LEVEL = 48, 0
EVERYWHERE = ((0, 1 << (WIDTH - 1)),)


def bare(item: Item) -> Item:
    """An item, neither measured nor edited."""
    return Item(item.name, item.kind, item.at, item.file, item.size, measured=False)


def default_rec(launch: Launch, files: Files) -> Rec | None:
    """With what REC 0 begins by default; None where `rim` takes the launch's kernel or its devicetree at no place. Each is asked of by itself, and
    once: the first is where the REC begins, and the second what it is given, whatever else there is."""
    first = Rec(0, ())
    for item in (launch.of_kind("kernel"), launch.of_kind("dtb")):
        if item is not None:
            alone = alone_with(item, files)
            if alone is None:
                return None
            first = Rec(alone.pc or first.pc, alone.x or first.x)
    return first


def alone_with(item: Item, files: Files) -> Rec | None:
    """With what the REC of a launch begins that has an item alone."""
    key = item.kind, item.at, item.file if item.kind == "kernel" else ""
    if key not in files.of_begins:
        files.of_begins[key] = traced(Launch("0", "sha256", WIDTH, block_level=LEVEL, ram=EVERYWHERE, item=(bare(item),), rec=(Rec(),)), files)
    return files.of_begins[key]


def traced(launch: Launch, files: Files) -> Rec | None:
    """The first REC of a launch, as its trace has it."""
    path = os.path.join(files.folder, "begins.toml")
    head = manifest_head({each.file for each in launch.item if each.file is not None}, files)
    outside_files.write(path, f'{head}[[launch]]\nname = "0"\n{table_text(launch)}'.encode())
    try:
        ran = files.rim.run("trace", path, "0")
    finally:
        os.remove(path)
    words = next((line.split()[2:] for line in ran.out.decode("ascii", errors="replace").splitlines() if " rec_create " in line), None)
    if ran.status or words is None:
        return None
    _, _, pc, *registers = (int(word, 16) for word in words)
    while registers and not registers[-1]:
        registers.pop()
    return Rec(pc, tuple(registers))


def first_rec(launch: Launch, files: Files) -> Rec | None:
    """REC 0 with its values, also where they are the default ones; None where those are not known."""
    own, default = launch.rec[0], default_rec(launch, files)
    return default and replace(own, pc=default.pc if own.pc is None else own.pc, x=default.x if own.x is None else own.x)


def entry_of(launch: Launch, files: Files) -> int | None:
    """The address of the kernel's first byte; None without a kernel, or where that is not known."""
    default = default_rec(launch, files)
    return default.pc if default and launch.of_kind("kernel") else None
