"""Devicetrees that QEMU makes anew by changed words: those of the launch are in the record.json of the folder that rim-manifest has written."""
from __future__ import annotations

import os
from dataclasses import dataclass, field, replace

from outside import files, programs
from outside.faults import Fault
from outside.programs import Limits
from outside.rim import with_smc
from outside.texts import last_line, shown, visible

from .files import Files

# How long a dump may take, and the longest record and devicetree.
SECONDS, MOST_RECORD, MOST_TREE = 60, 64 << 20, 2 << 20
RECORD, WHAT = "record.json", "the record of a folder that rim-manifest has written"
# What rim-manifest gives QEMU beside the words of a launch: it changes nothing in the devicetree.
QUIET = ("-nodefaults", "-display", "none", "-S")


@dataclass(frozen=True)
class Words:
    """The words by which QEMU makes a devicetree."""

    machine: str
    cpu: str
    smp: str
    memory: str
    kernel: str
    initrd: str | None
    append: str
    rest: tuple[str, ...]

    def line(self, path: str) -> list[str]:
        doubled = path.replace(",", ",,")
        given = ["-machine", f"{self.machine},dumpdtb={doubled}", "-cpu", self.cpu, "-smp", self.smp, "-m", self.memory, *QUIET]
        given += ["-kernel", self.kernel, *(["-initrd", self.initrd] if self.initrd else [])]
        return [*given, *(["-append", self.append] if self.append else []), *self.rest]


@dataclass
class Dumper:
    """The program, and the words of each devicetree that it has made; `is_of_realm`: whether its hvc becomes smc, as rim-manifest has it."""

    program: str
    folder: str
    is_of_realm: bool = False
    words: dict[str, Words] = field(default_factory=dict)

    def dump(self, words: Words) -> bytes:
        path = os.path.abspath(os.path.join(self.folder, "dump"))
        ran = programs.run([self.program, *words.line(path)], Limits(SECONDS, file=MOST_TREE + 4096))
        if not os.path.lexists(path):
            said = last_line(ran.err.decode(errors="surrogateescape"))
            raise Fault(f"{visible(self.program)} has written no devicetree ({ran.ended}): {said}")
        data = files.read(path, MOST_TREE, "a devicetree")
        os.remove(path)
        return next(with_smc(data), data) if self.is_of_realm else data

    def another(self, held: Files, name: str, about: str, **changes: str) -> str | None:
        """The file of a devicetree by changed words; None where that of the name was not made by words that are known, or QEMU refuses them."""
        if name not in self.words:
            return None
        words = replace(self.words[name], **changes)
        key = ("dumped", words)
        if key not in held.of_changes:
            try:
                data = self.dump(words)
            except Fault:
                data = b""
            made = held.of_changes[key] = held.made(held.changed(name, about), data) if data else None
            if made is not None:
                self.words.setdefault(made, words)
        return held.of_changes[key]


def text(value: object) -> str:
    if not isinstance(value, str):
        raise TypeError
    return value


def words_of(table: dict, folder: str) -> Words:
    """The words of a launch, as its record says them."""
    given = [text(each) for each in table["words"]]
    named = dict(zip(given[::2], given[1::2]))
    initrd = None if table["initrd"] is None else os.path.join(folder, text(table["initrd"]))
    return Words(named["-machine"], named["-cpu"], named["-smp"], named["-m"], os.path.join(folder, text(table["kernel"])), initrd,
                 text(table["append"]), tuple(text(each) for each in table["rest"]))


def begun(program: str, scratch: str, manifest: str, launch: str, dtb: str, held: Files) -> Dumper:
    """The program, once it has made the devicetree of a launch as it is."""
    folder = os.path.dirname(manifest)
    path = os.path.join(folder, RECORD)
    table = files.json_of(path, files.read(path, MOST_RECORD, WHAT), WHAT)
    try:
        if not isinstance(table, dict) or table["hypervisor"] != "qemu":
            raise Fault(f"{visible(path)}: it is of another hypervisor, expected qemu for --qemu")
        words = next(words_of(each, folder) for each in table["launches"] if each["name"] == launch)
    except StopIteration:
        raise Fault(f"{visible(path)}: it has no launch {shown(launch)}, expected one for --qemu") from None
    except (KeyError, TypeError, AttributeError):
        raise Fault(f"{visible(path)}: it does not say the words of its launches, expected {WHAT}") from None
    dumper = Dumper(program, scratch)
    made, mine = dumper.dump(words), held.data(dtb)
    changed = next(with_smc(made), made)
    dumper.is_of_realm = made[:len(mine)] != mine and changed[:len(mine)] == mine
    if made[:len(mine)] != mine and not dumper.is_of_realm or any(made[len(mine):]):
        expected = shown(str(table.get("program")))
        raise Fault(f"--qemu: {visible(program)} makes another devicetree of the words of launch {shown(launch)}, expected {expected}")
    dumper.words[dtb] = words
    return dumper
