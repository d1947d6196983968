"""Devicetrees: made by the hypervisor's program, or handed in. None is edited here but for the method of PSCI; `derived` has the others."""
import concurrent.futures
import hashlib
import os
import platform
import re
import shutil
import stat
import struct
import sys
import time
from collections.abc import Callable
from dataclasses import dataclass, replace

from outside import files, programs, stopping
from outside.faults import Fault
from outside.programs import Limits, Ran
from outside.rim import Rim, Tree, tree_of, with_smc
from outside.texts import last_line, pasted, plain, visible

from .devicetree import psci_method
from .guest import Guest, Word
from .hypervisor import Hypervisor
from .launches import Launch

# How long a program may take for one devicetree, and how many run at a time.
SECONDS, AT_A_TIME = 60, 2
# No devicetree is longer (Linux, booting.rst).
MOST = 2 << 20
# What QEMU adds to a file of -dtb before it doubles its length.
ROOM = 10_000
# How long a file may be that a program writes: a devicetree that is too long is seen to be.
MOST_WRITTEN = MOST + 4096


class NotMade(Fault):
    """A program has written no devicetree."""


@dataclass(frozen=True)
class Written:
    """The bytes of a devicetree. The zeros at its end, of which QEMU's have a million, are left out."""

    packed: bytes
    length: int

    @property
    def data(self) -> bytes:
        return self.packed.ljust(self.length, b"\0")


@dataclass(frozen=True)
class Derived:
    """The dump from which a devicetree is derived: its path, its digest and the launch that it fits; and what is changed."""

    path: str
    sha256: str
    launch: str
    changed: tuple[str, ...]

    def __str__(self) -> str:
        return f'derived from "{visible(self.path)}", the devicetree of launch {self.launch}; changed: {", ".join(self.changed)}'


@dataclass(frozen=True)
class Dump(Written):
    """A devicetree as it is loaded, what a fault calls it, what it says, and the path or the words by which it is called; `is_own`: whether
    it is a file that the hypervisor is given, and no longer one that it makes; `of_realm`: the same with `smc` as the method of PSCI, if a
    plain guest's method is all that it has; `derived`: from which dump it is derived, if it is."""

    path: str
    tree: Tree
    source: str
    is_own: bool = False
    of_realm: "Dump | None" = None
    derived: "Derived | None" = None

    def by(self, psci: str) -> "Dump":
        """Returns the devicetree by an alternative of the row psci."""
        return self.of_realm if self.of_realm and psci == "smc" else self


def written(data: bytes) -> Written:
    return Written(data.rstrip(b"\0"), len(data))


class Reader:
    """Reads devicetrees by `rim`, each of some bytes once, in a folder that is made for that."""

    def __init__(self, rim: Rim, folder: str):
        self.rim, self.folder = rim, folder
        self.trees: dict[bytes, Tree] = {}

    def tree(self, name: str, data: bytes) -> Tree:
        digest = hashlib.sha256(data).digest()
        if digest not in self.trees:
            path = os.path.join(self.folder, "tree")
            files.write(path, data)
            self.trees[digest] = tree_of(self.rim, path, name)
        return self.trees[digest]

    def dump(self, name: str, read: Written) -> Dump:
        found = Dump(read.packed, read.length, visible(name), self.tree(name, read.data), name)
        if psci_method(found.tree) != "hvc":
            return found
        changed = ((written(data), self.tree(name, data)) for data in with_smc(read.data))
        return replace(found, of_realm=next((replace(found, packed=each.packed, tree=tree) for each, tree in changed if psci_method(tree) == "smc"), None))


def version(program: str) -> tuple[str, str]:
    """What the program says of its version: its first line, and the number in it."""
    ran = programs.run([program, "--version"], Limits(SECONDS))
    line = (ran.out or ran.err).decode(errors="surrogateescape").strip().split("\n")[0]
    found = re.search(r"[0-9]{1,6}(\.[0-9]{1,6})+", line)
    return plain(line[:200]), found[0] if found else ""


def key_of(launch: Launch) -> tuple:
    """What a devicetree depends on of the words: all but the hash algorithm, and a kernel that moves nothing."""
    guest = launch.guest
    return (guest.machine.text, guest.cpu.text, guest.memory.words, guest.smp.words, guest.append.text,
            guest.initrd and guest.initrd.file, launch.places.initrd, launch.places.dtb, guest.firmware and guest.firmware.file)


class Program:
    """The hypervisor's program, which writes a devicetree and ends. `kept`: what it is given of the words after `--`; `model`: the processor
    of a devicetree that is only like the realm's, or nothing."""

    def __init__(self, vmm: Hypervisor, path: str, kept: list[str], folder: str, model: str = ""):
        self.vmm, self.path, self.kept, self.folder, self.model = vmm, path, kept, folder, model

    def words(self, launch: Launch, path: str) -> list[str]:
        guest, kept = launch.guest, self.kept
        if self.model:
            like = self.vmm.approximated(guest.machine.text, guest.cpu.text, kept, self.model)
            guest, kept = replace(guest, machine=Word(like.machine, ""), cpu=Word(like.cpu, "")), like.kept
        loads = self.vmm.load_words(guest, lambda blob: os.path.join(self.folder, blob.file))
        return [self.path, *self.vmm.dump_words(guest, path), *loads, *kept]

    def lacking(self, guest: Guest) -> list[str]:
        """Returns what is missing here for the dumps of a realm."""
        needs = self.vmm.needs(guest, self.kept) if not self.model else []
        found = ["this machine has no KVM of arm64"] * ("KVM" in needs and not has_kvm())
        for name in set(needs) - {"KVM"}:
            ran = programs.run([self.path, "-object", "help"], Limits(SECONDS))
            found += [f"it has no object {name}"] * (name.encode() not in ran.out)
        return found

    def run(self, launch: Launch, path: str) -> bytes:
        """The devicetree that one run writes into a folder of its own. A program that goes on after that is stopped."""
        folder = os.path.dirname(path)
        with files.faults_of(folder, "a folder that can be made"):
            os.mkdir(folder)
        try:
            until = None if self.vmm.FACTS.ends_after_dump else lambda: is_whole(path)
            ran = programs.run(self.words(launch, path), Limits(SECONDS, file=MOST_WRITTEN), until=until)
            if not os.path.lexists(path):
                raise NotMade(f"launch {launch.name}: {visible(self.path)} has written no devicetree ({ran.ended}): "
                              f"{said_by(ran, self.copies(launch))}")
            return read(path, f"the devicetree of launch {launch.name}")
        finally:
            shutil.rmtree(folder, ignore_errors=True)

    def copies(self, launch: Launch) -> dict[str, str]:
        """The paths that the program was given of copies, each with the one that the user has given. A longer one comes first."""
        blobs = [each for each in (launch.guest.loaded, launch.guest.initrd) if each]
        return {os.path.join(self.folder, each.file): each.path for each in sorted(blobs, key=lambda each: -len(each.file))}

    def both(self, launch: Launch, number: int) -> Written:
        """The devicetree of a launch, which two runs agree on."""
        path = os.path.join(self.folder, f".dump-{number}", "dtb")
        first, second = self.run(launch, path), self.run(launch, path)
        if first != second:
            at = next((i for i, (a, b) in enumerate(zip(first, second)) if a != b), min(len(first), len(second)))
            raise Fault(f"launch {launch.name}: same bytes twice: two dumps of {visible(self.path)} differ from byte {at} on, expected "
                        "equal ones")
        return written(first)


def has_kvm() -> bool:
    return platform.machine() in ("aarch64", "arm64") and os.access("/dev/kvm", os.R_OK | os.W_OK)


def commands(program: Program, name: str, launches: list[Launch]) -> str:
    """Returns the commands by which the program of a name makes the devicetree of each launch on another machine, and how to hand them in."""
    firsts = {key_of(launch): launch for launch in reversed(launches)}
    lines, paths = [], []
    for launch in reversed(firsts.values()):
        paths.append(f"{launch.name}.dtb")
        loads = program.vmm.load_words(launch.guest, lambda blob: blob.path)
        words = [name, *program.vmm.dump_words(launch.guest, paths[-1]), *loads, *program.kept]
        lines.append(" ".join(map(pasted, words)))
    return "\n".join([*lines, "# " + " ".join(f"--dtb {pasted(path)}" for path in paths)]) + "\n"


def said_by(ran: Ran, copies: dict[str, str]) -> str:
    """The last line that a program has said, on standard error or else on standard output. A copy's path is the user's there."""
    said = (ran.err or ran.out).decode(errors="surrogateescape")
    for copy, path in copies.items():
        said = said.replace(copy, path)
    return last_line(said)


def read(path: str, name: str) -> bytes:
    """The bytes of a devicetree, of which `name` is what a fault calls it."""
    try:
        return files.read(path, MOST, "a devicetree")
    except Fault as why:
        raise Fault(*(line.replace(visible(path), visible(name)) for line in why.lines)) from None


def is_whole(path: str) -> bool:
    """Whether a file has all the bytes that its header as a devicetree says, and has stayed so for a moment."""
    def length() -> int:
        try:
            head = os.lstat(path)
            if not stat.S_ISREG(head.st_mode) or head.st_size < 8:
                return 0
            return head.st_size if head.st_size >= int.from_bytes(files.head(path, 8)[4:], "big") else 0
        except (OSError, Fault):
            return 0

    before = length()
    if not before:
        return False
    time.sleep(0.2)
    return length() == before


def made(program: Program, reader: Reader, launches: list[Launch]) -> dict[str, Dump]:
    """The devicetree of each launch, by its name: made once for all that share one. Progress is shown on a terminal."""
    firsts: dict[tuple, Launch] = {}
    for launch in launches:
        firsts.setdefault(key_of(launch), launch)
    found: dict[tuple, Written] = {}
    shows = sys.stderr.isatty()
    pool = concurrent.futures.ThreadPoolExecutor(AT_A_TIME)
    try:
        waiting = {pool.submit(program.both, launch, number): key for number, (key, launch) in enumerate(firsts.items())}
        for done in concurrent.futures.as_completed(waiting):
            found[waiting[done]] = done.result()
            if shows:
                print(f"\rrim-manifest: {len(found)} of {len(firsts)} devicetrees", end="", file=sys.stderr, flush=True)
    finally:
        stopping.kill_all()
        pool.shutdown(cancel_futures=True)
        if shows:
            print("\r\033[K", end="", file=sys.stderr, flush=True)
    dumps = {key: reader.dump(f"the devicetree of launch {launch.name}", found[key]) for key, launch in firsts.items()}
    return {launch.name: dumps[key_of(launch)] for launch in launches}


def padded(name: str, data: bytes) -> bytes:
    """A file as QEMU makes it longer: its header says so, and zeros come after it. A file whose blocks are in another order than usual would
    be written anew by libfdt."""
    length, words = 2 * (len(data) + ROOM), struct.unpack(">10I", data[:40])
    reserved, structure, strings, version = words[4], words[2], words[3], words[5]
    if not 40 <= reserved < structure < strings or version < 17:
        raise Fault(f"{visible(name)}: its blocks are in another order than usual, and QEMU writes it anew then, expected dtb_file=given, or "
                    "a file that dtc has written")
    if length > MOST:
        raise Fault(f"{visible(name)}: it has {len(data)} bytes, and {length} by dtb_file=padded, expected at most {MOST}, which Linux takes")
    return (data[:4] + length.to_bytes(4, "big") + data[8:20] + (17).to_bytes(4, "big") + data[24:]).ljust(length, b"\0")


def own(path: str, is_padded: bool, reader: Reader, launches: list[Launch]) -> dict[str, Dump]:
    """The file that the hypervisor is given, which is that of each launch."""
    data = files.read(path, MOST, "a devicetree")
    found = replace(reader.dump(path, written(data)), is_own=True, of_realm=None)
    if is_padded:
        longer = written(padded(path, data))
        found = replace(found, packed=longer.packed, length=longer.length)
    return {launch.name: found for launch in launches}


def handed_in(paths: list[str], reader: Reader, launches: list[Launch], differences: Callable[[Launch, Dump], list]) -> dict[str, Dump]:
    """The one of some files that fits each launch. Where none does, the one with the fewest differences, for the checks to name."""
    dumps = [reader.dump(path, written(files.read(path, MOST, "a devicetree"))) for path in paths]
    chosen = {}
    for launch in launches:
        counts = [len(differences(launch, each)) for each in dumps]
        fitting = [each for each, count in zip(dumps, counts) if not count]
        if len({(each.packed, each.length) for each in fitting}) > 1:
            raise Fault(f"launch {launch.name}: {fitting[0].path} and {fitting[1].path} both fit and differ, expected one --dtb for it")
        chosen[launch.name] = dumps[counts.index(min(counts))]
    return chosen
