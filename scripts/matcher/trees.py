"""Devicetrees of changed launches: `outside.trees` writes the bytes that a hypervisor writes, from a tree that it has written."""
from __future__ import annotations

from collections.abc import Callable
from dataclasses import replace

from outside.texts import quoted
from outside.trees import Draft, Flat, drafted, set_bootargs, set_initrd, set_memory, set_processors, written

from .files import Files
from .launch import MIB, PAGE, Launch, with_item


def draft_of(files: Files, name: str, flat: Flat) -> Draft | None:
    """Returns a file's tree to change, or None if it does not round-trip. That is checked once for each file."""
    if name not in files.drafts:
        files.drafts[name] = drafted(flat)
    draft = files.drafts[name]
    return draft and draft.copy()


def range_of(launch: Launch, files: Files) -> tuple[int, int] | None:
    initrd = launch.of_kind("initrd")
    return None if initrd is None or initrd.file is None else (initrd.at, initrd.at + files[initrd.file].length)


def changed(files: Files, name: str, key: object, about: str, change: Callable[[Draft], bool], **words: str) -> str | None:
    """The file of a tree that is changed; None where it cannot be. `key` says what the change is, and `words` what QEMU is given for it, where it
    is there to make the tree."""
    dumped = files.dumper.another(files, name, about, **words) if files.dumper is not None and words else None
    if dumped is not None:
        return dumped
    if (name, key) not in files.of_changes:
        flat = files.flat(name)
        draft = draft_of(files, name, flat) if flat else None
        is_done = draft is not None and change(draft)
        files.of_changes[name, key] = files.made(files.changed(name, about), written(draft, flat)) if is_done and draft and flat else None
    return files.of_changes[name, key]


def bootargs_of(launch: Launch, files: Files) -> str | None:
    """The command line of a launch's devicetree; None where it has none or there is no tree that is read."""
    dtb = launch.of_kind("dtb")
    if dtb is None or dtb.file is None:
        return None
    if dtb.bootargs is not None:
        return dtb.bootargs
    flat = files.flat(dtb.file)
    chosen = flat.tree.root.child("chosen") if flat else None
    return chosen.text("bootargs") if chosen else None


def with_bootargs(launch: Launch, files: Files, text: str) -> Launch | None:
    """The launch with another command line: the tree is edited by `rim` where it is anyway, and else written anew."""
    dtb = launch.of_kind("dtb")
    if dtb is None or dtb.file is None:
        return None
    if dtb.bootargs is not None:
        return with_item(launch, dtb, replace(dtb, bootargs=text))
    file = changed(files, dtb.file, ("bootargs", text), f"with bootargs {quoted(text)} in /chosen", lambda draft: set_bootargs(draft, text),
                   append=text)
    return None if file is None else with_item(launch, dtb, replace(dtb, file=file))


def with_processors(launch: Launch, files: Files, count: int) -> Launch | None:
    dtb = launch.of_kind("dtb")
    if dtb is None or dtb.file is None:
        return None
    file = changed(files, dtb.file, ("processors", count), f"with {count} processors", lambda draft: set_processors(draft, count), smp=str(count))
    return None if file is None else with_item(launch, dtb, replace(dtb, file=file))


def followed(old: Launch, new: Launch, files: Files) -> Launch:
    """The new launch with a devicetree that says its RAM and its initrd, where that of the old one said those of the old one."""
    dtb = new.of_kind("dtb")
    if dtb is None or dtb.file is None or (old.ram[:1] == new.ram[:1] and range_of(old, files) == range_of(new, files)):
        return new
    was, place, said = range_of(old, files), range_of(new, files), []
    if new.ram and old.ram[:1] != new.ram[:1]:
        said.append(f"RAM up to {new.ram[0][1]:#x}")
    if place and place != was:
        said.append(f"an initrd from {place[0]:#x} to {place[1]:#x}")

    def change(draft: Draft) -> bool:
        is_done = [not dtb.memory and old.ram[:1] != new.ram[:1] and set_memory(draft, old.ram[:1], new.ram[:1])]
        is_done += [not dtb.initrd and was is not None and place is not None and was != place and set_initrd(draft, was, place)]
        return any(is_done)

    key = ("followed", old.ram[:1], new.ram[:1], was, place, dtb.memory, dtb.initrd)
    words: dict[str, str] = {}
    if len(new.ram) == 1 and old.ram != new.ram and (new.ram[0][1] - new.ram[0][0]) % MIB == 0:
        words["memory"] = f"{(new.ram[0][1] - new.ram[0][0]) // MIB}M"
    file = changed(files, dtb.file, key, f"that says {' and '.join(said)}", change, **words)
    return new if file is None else with_item(new, dtb, replace(dtb, file=file))


def placed_after(old: Launch, new: Launch, files: Files, alignment: int) -> int | None:
    """Where the devicetree is after another initrd, where it was right after the old one."""
    dtb, before, after = old.of_kind("dtb"), range_of(old, files), range_of(new, files)
    if dtb is None or before is None or after is None or new.of_kind("dtb") is None:
        return None
    if -(-before[1] // alignment) * alignment != dtb.at or dtb.at % PAGE:
        return None
    return -(-after[1] // alignment) * alignment
