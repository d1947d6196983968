#!/usr/bin/env python3
"""Gives rim-match machines that are changed in ten ways, each from eight base launches, and looks at which change it names.

    tests/bases.py [PROGRAM]          by default the program that `rt ci` has built

- Four launches of examples/, whose devicetree `rim` edits, or which have none.
- Four launches of one kernel, initrd and command line, as rim-manifest writes them: of two sizes of RAM and two numbers of processors. The
  devicetrees are those of tests/causes.py, as QEMU writes them.
- The ten changes: the command line, a byte of the initrd, RAM and processors with their devicetrees, another devicetree, s2sz, the order, SVE,
  PMU, the hash, an initrd one page on. What has other contents is found where these are named, and else it is said that they have to be.

The machine's launches are made here, and PROGRAM measures them. The last line is 'N passed, M failed'.
"""
import copy
import os
import re
import sys
from collections.abc import Callable, Iterator
from dataclasses import dataclass

from causes import INITRD, qemu_tree
from helpers import MIB, SECONDS, TOP
from helpers.folders import Folder
from helpers.guests import LOW, QEMU, STAND_IN, replaced
from helpers.manifests import launch_of, measured, of_example, of_name, whole
from helpers.tries import at_a_time, differs, program_of, told

START = os.path.join(TOP, "rim-match")
CONSOLE = "console=ttyAMA0"
# More than this many launches are tried for none of them.
MOST = 1200


@dataclass
class Base:
    """A base launch: a folder with its manifest, the launch's name, how its devicetree is made where `rim` does not edit it, and how much RAM and how
    many processors its machine has."""

    here: Folder
    table: dict
    name: str
    tree: Callable[..., bytes] | None
    memory: int
    count: int

    @property
    def launch(self) -> dict:
        return launch_of(self.table, self.name)

    def path(self, item: str) -> str:
        file = of_name(self.launch, item)["file"]
        return next(each["path"] for each in self.table["file"] if each["name"] == file)

    def has(self, item: str) -> bool:
        return any(each["name"] == item for each in self.launch["item"])


@dataclass
class Machine:
    """A machine that was changed: its launch, the contents of its items that are others, what rim-match is given, and what it says. No text: the
    contents have to be named."""

    launch: dict
    contents: dict[str, bytes]
    options: tuple[str, ...]
    text: str


Changed = Machine | None


def machine(base: Base, text: str, named: dict[str, bytes] | None = None, contents: dict[str, bytes] | None = None, **keys) -> Machine:
    """A machine whose launch has other keys, and other contents: those that are named, and those that rim-match makes itself."""
    options = [word for item in named or {} for word in ("--file", f"{of_name(base.launch, item)['file']}={item}-2")]
    return Machine(copy.deepcopy(base.launch) | keys, (named or {}) | (contents or {}), tuple(options), text)


def with_item(found: Machine, item: str, **keys) -> Machine:
    of_name(found.launch, item).update(keys)
    return found


# ---- the ten changes: of each base, or none where it has no such thing


def command_line(base: Base) -> Changed:
    if base.tree:
        return machine(base, f'the command line "{CONSOLE} quiet"', contents={"dtb": base.tree(bootargs=f"{CONSOLE} quiet")})
    if base.has("dtb"):
        here = of_name(base.launch, "dtb")["bootargs"]
        return with_item(machine(base, f'the command line "{here} quiet"'), "dtb", bootargs=f"{here} quiet")
    return None


def a_byte(base: Base) -> Changed:
    data = bytearray(base.here.read(base.path("initrd"))) if base.has("initrd") else b""
    if not data:
        return None
    data[5000] ^= 0xFF
    return machine(base, '"initrd" is the file "initrd-2"', {"initrd": bytes(data)})


def a_byte_that_is_not_named(base: Base) -> Changed:
    found = a_byte(base)
    return found and Machine(found.launch, found.contents, (), "")


def memory(base: Base) -> Changed:
    (start, _), = base.launch["ram"]
    size = 512 * MIB
    text = "512 MiB of RAM" if base.has("dtb") else f"region 0 ends at {start + size:#x}"
    return machine(base, text, contents={"dtb": base.tree(memory=512)} if base.tree else {}, ram=[[start, start + size]])


def processors(base: Base) -> Changed:
    if base.tree is None:
        return None
    steps = [step for step in base.launch["steps"] if not step.startswith("rec ")] + ["rec 0", "rec 1"]
    return machine(base, "2 processors", contents={"dtb": base.tree(count=2)}, rec=[{}, {"runnable": False}], steps=steps)


def another_tree(base: Base) -> Changed:
    if not base.has("dtb"):
        return None
    own = base.tree(model="arm,cortex-a72") if base.tree else base.here.read(base.path("dtb")).replace(b"arm,armv8", b"arm,armv9")
    return machine(base, '"dtb" is the file "dtb-2"', {"dtb": own})


def a_width(base: Base) -> Changed:
    return machine(base, "s2sz 39", s2sz=39)


def order(base: Base) -> Changed:
    if not (base.has("dtb") and base.has("initrd")):
        return None
    rest = [f"item {each['name']}" for each in base.launch["item"] if each["name"] not in ("kernel", "dtb", "initrd")]
    recs = [f"rec {number}" for number in range(len(base.launch["rec"]))]
    return machine(base, "items kernel, dtb, initrd", steps=["ram 0", "item kernel", "item dtb", "item initrd", *rest, *recs])


def sve(base: Base) -> Changed:
    return machine(base, "sve true, sve_vl 3", sve=True, sve_vl=3)


def pmu(base: Base) -> Changed:
    if base.launch.get("pmu"):
        return machine(base, "pmu false, pmu_num_ctrs 0", pmu=False, pmu_num_ctrs=0)
    return machine(base, "pmu true, pmu_num_ctrs 6", pmu=True, pmu_num_ctrs=6)


def the_hash(base: Base) -> Changed:
    algo = {"sha256": "sha512", "sha512": "sha256"}[base.launch["algo"]]
    return machine(base, f"algo {algo}", algo=algo)


def a_page_on(base: Base) -> Changed:
    if not base.has("initrd"):
        return None
    at = of_name(base.launch, "initrd")["at"] + 4096
    contents = {"dtb": base.tree(initrd=at)} if base.tree else {}
    return with_item(machine(base, '"initrd" 1 page up', contents=contents), "initrd", at=at)


CHANGES = (command_line, a_byte, a_byte_that_is_not_named, memory, processors, another_tree, a_width, order, sve, pmu, the_hash, a_page_on)


# ---- the bases


EXAMPLES = (("vm", "one-vcpu", 1), ("vm", "two-vcpus", 2), ("vm", "two-vcpus-sha512", 2), ("kernel", "vm", 1))
SIZES = [(memory, count) for memory in (256, 1024) for count in (1, 4)]


def example(folder: str, name: str, count: int) -> Base:
    here, table = of_example(folder)
    return Base(here, table, name, None, 256, count)


def tree_of(said: dict) -> bytes:
    """A devicetree of the installer's machine, by what is said of it."""
    return qemu_tree(**(said | {"initrd": (said["initrd"], said["initrd"] + len(INITRD))}))


def installer(memory: int, count: int) -> Base:
    """A launch as rim-manifest writes it, alone in its manifest. Where its initrd is, its first manifest says."""
    at = LOW + min(memory // 2, 128) * MIB
    said_of = {"memory": memory, "count": count, "bootargs": CONSOLE, "initrd": at}
    here = Folder({f"trees/{memory}M-{count}-{CONSOLE}": tree_of(said_of), "initrd": INITRD})
    here.put("stand-in", STAND_IN.encode(), is_program=True)
    status, out, said = here.run(*replaced(QEMU, "-m", f"{memory}M"), "-smp", str(count), "-initrd", "initrd", "-append", CONSOLE, "--algo", "sha256",
                                 "--qemu", "./stand-in", start=os.path.join(TOP, "rim-manifest"))
    if status:
        raise ValueError(f"{out}{said}")
    table = here.toml()
    for each in table["file"]:
        each["path"] = f"out/{each['path']}"
    (launch,) = table["launch"]
    if of_name(launch, "initrd")["at"] != at:
        raise ValueError(f"the initrd is at {of_name(launch, 'initrd')['at']:#x}")
    return Base(here, table, launch["name"], lambda **others: tree_of(said_of | others), memory, count)


def bases() -> Iterator[tuple[str, Callable[[], Base]]]:
    for folder, name, count in EXAMPLES:
        yield f"{name} of examples/{folder}", lambda folder=folder, name=name, count=count: example(folder, name, count)
    for size, count in SIZES:
        yield f"an installer of {size} MiB and {count} processors", lambda size=size, count=count: installer(size, count)


# ---- what rim-match says


def changed(program: str, base: Base, there: Machine) -> list[str]:
    """The change is named, it is one, and few launches are tried; or what has to be named is said."""
    here, table = base.here, copy.deepcopy(base.table)
    table["launch"] = [there.launch]
    for item, data in there.contents.items():
        here.put(f"{item}-2", data)
        named = of_name(there.launch, item)["file"]
        for each in table["file"]:
            each["path"] = f"{item}-2" if each["name"] == named else each["path"]
    value = measured(program, here, table)[base.name]
    alone = base.table | {"launch": [base.launch]}
    here.put("m.toml", whole(alone).encode())
    status, out, said = here.run("--seconds", str(SECONDS), *there.options, "m.toml", base.name, value, start=START, RIM=program)
    said = re.sub(r"rim-match: [\d,]+ launches tried.*\n", "", said)
    first = out.split("\n", maxsplit=1)[0]
    if not there.text:
        return differs(f"{out!r}", (status, said, "--file NAME=OTHER" in out, "does not have the value" in first), (1, "", True, True))
    wrong = differs(f"{first!r}", (status, said, "by 1 change: " in first and there.text in first), (0, "", True))
    count = re.search(r"\n  ([\d,]+) launches were tried\n$", out)
    return wrong + differs(f"{out!r}: few were tried", count is not None and int(count[1].replace(",", "")) <= MOST, True)


def all_tries(program: str) -> Iterator[tuple[str, Callable[[], list[str]]]]:
    for name, make in bases():
        for change in CHANGES:
            def look(make=make, change=change) -> list[str]:
                base = make()
                there = change(base)
                return [] if there is None else changed(program, base, there)
            yield f"{name}: {change.__name__}", look


def run_all() -> int:
    return told(at_a_time(all_tries(program_of(sys.argv[1:]))))


if __name__ == "__main__":
    sys.exit(run_all())
