#!/usr/bin/env python3
"""Gives rim-match measurements of machines that people have changed, and looks at which change it names.

    tests/causes.py [PROGRAM]          by default the program that `rt ci` has built

- The ten changes: the command line, a byte of the initrd, RAM with its devicetree, processors with theirs, another QEMU's devicetree, s2sz,
  order, SVE and PMU, the hash, an initrd one page on. The machine's devicetrees are written here as QEMU writes them, by a second libfdt: node by
  node and property by property, with what that leaves in the gaps. Where the other bytes are not named, nothing is found, and it is said what
  would be needed.
- Devicetrees that QEMU makes anew by changed words; a stand-in is QEMU here.
- Near things: the kernel of one launch with the initrd of another, launches of another manifest, a kept report.
- What the first step is that differs: of an item, a devicetree, RAM, the parameters and a REC; of a trace without RIMs, a listing, a log.

PROGRAM measures. The last line is 'N passed, M failed'.
"""
import json
import os
import re
import struct
import subprocess
import sys

from helpers import SECONDS, TOP, manifests
from helpers.files import image
from helpers.folders import Folder
from helpers.tries import at_a_time, differs, program_of, told

START = os.path.join(TOP, "rim-match")
LOW, MIB, PAGE = 0x4000_0000, 1 << 20, 4096
NEVER = "5a" * 32
INITRD = bytes(n * 91 % 253 for n in range(9005))
OTHER = INITRD[:5000] + b"\xff" + INITRD[5001:]


# ---- devicetrees as QEMU writes them


class Fdt:
    """A flattened devicetree in a buffer of 1 MiB, which is changed in place as libfdt does it: what comes later is moved on, and what was in
    the room that is made stays there where nothing is written."""

    def __init__(self):
        self.data, self.at, self.structure, self.strings = bytearray(MIB), 64, 16, 0
        self.data[64:80] = struct.pack(">4I", 1, 0, 2, 9)

    def room(self, at: int, length: int):
        end = self.at + self.structure + self.strings
        self.data[at + length:end + length] = self.data[at:end]
        self.structure += length

    def token(self, at: int) -> tuple[int, int]:
        """The token at a place, and where the next one is."""
        kind, = struct.unpack_from(">I", self.data, at)
        if kind == 1:
            end = self.data.index(b"\0", at + 4)
            return kind, at + 4 + (end - at - 4 + 4) // 4 * 4
        return kind, at + 12 + (struct.unpack_from(">I", self.data, at + 4)[0] + 3) // 4 * 4 if kind == 3 else at + 4

    def inside(self, path: str) -> int:
        """Where the properties of a node begin."""
        at, wanted, names = self.at, [""] + [each for each in path.split("/") if each], []
        while True:
            kind, following = self.token(at)
            if kind == 1:
                names.append(bytes(self.data[at + 4:following]).split(b"\0")[0].decode())
                if names == wanted:
                    return following
            elif kind == 2:
                names.pop()
            at = following

    def put(self, path: str, name: str, value: bytes):
        block = bytes(self.data[self.at + self.structure:self.at + self.structure + self.strings])
        place = block.find(name.encode() + b"\0")
        if place < 0:
            place, end = self.strings, self.at + self.structure + self.strings
            self.data[end:end + len(name) + 1] = name.encode() + b"\0"
            self.strings += len(name) + 1
        at = self.inside(path)
        self.room(at, 12 + (len(value) + 3) // 4 * 4)
        self.data[at:at + 12] = struct.pack(">3I", 3, len(value), place)
        self.data[at + 12:at + 12 + len(value)] = value

    def node(self, path: str):
        above, _, name = path.rpartition("/")
        at = self.inside(above)
        while self.token(at)[0] == 3:
            at = self.token(at)[1]
        length = (len(name) + 4) // 4 * 4
        self.room(at, 8 + length)
        self.data[at:at + 8 + length] = struct.pack(">I", 1) + name.encode().ljust(length, b"\0") + struct.pack(">I", 2)

    def whole(self) -> bytes:
        head = struct.pack(">10I", 0xD00DFEED, MIB, self.at, self.at + self.structure, 48, 17, 16, 0, self.strings, self.structure)
        return head + bytes(self.data[40:])


def word(number: int) -> bytes:
    return struct.pack(">I", number)


def qemu_tree(memory=512, count=1, bootargs="console=ttyAMA0", initrd=(0x4800_0000, 0x4800_0000 + len(INITRD)), model="arm,cortex-a57") -> bytes:
    """A devicetree in the order in which QEMU's machine virt writes it."""
    tree = Fdt()
    tree.put("", "compatible", b"linux,dummy-virt\0")
    tree.put("", "#address-cells", word(2))
    tree.put("", "#size-cells", word(2))
    tree.node("/chosen")
    tree.node("/apb-pclk")
    tree.put("/apb-pclk", "compatible", b"fixed-clock\0")
    tree.put("/apb-pclk", "phandle", word(0x8000))
    tree.node("/cpus")
    tree.put("/cpus", "#address-cells", word(1))
    tree.put("/cpus", "#size-cells", word(0))
    for number in reversed(range(count)):
        path = f"/cpus/cpu@{number}"
        tree.node(path)
        tree.put(path, "device_type", b"cpu\0")
        tree.put(path, "compatible", model.encode() + b"\0")
        if count > 1:
            tree.put(path, "enable-method", b"psci\0")
        tree.put(path, "reg", word(number))
        tree.put(path, "phandle", word(0x8000 + count - number))
    tree.node("/cpus/cpu-map")
    tree.node("/cpus/cpu-map/socket0")
    tree.node("/cpus/cpu-map/socket0/cluster0")
    for number in reversed(range(count)):
        path = f"/cpus/cpu-map/socket0/cluster0/core{number}"
        tree.node(path)
        tree.put(path, "cpu", word(0x8000 + count - number))
    tree.put("", "interrupt-parent", word(0x8001 + count))
    tree.node("/intc@8000000")
    tree.put("/intc@8000000", "compatible", b"arm,gic-v3\0")
    tree.put("/intc@8000000", "interrupt-controller", b"")
    tree.put("/intc@8000000", "phandle", word(0x8001 + count))
    tree.node("/pmu")
    tree.put("/pmu", "compatible", b"arm,armv8-pmuv3\0")
    tree.put("/chosen", "stdout-path", b"/pl011@9000000\0")
    tree.node("/gpio-keys")
    tree.put("/gpio-keys", "gpios", struct.pack(">3I", 0x8001 + count, 3, 0))
    tree.node(f"/memory@{LOW:x}")
    tree.put(f"/memory@{LOW:x}", "device_type", b"memory\0")
    tree.put(f"/memory@{LOW:x}", "reg", struct.pack(">QQ", LOW, memory * MIB))
    if bootargs:
        tree.put("/chosen", "bootargs", bootargs.encode() + b"\0")
    if initrd:
        tree.put("/chosen", "linux,initrd-start", word(initrd[0]))
        tree.put("/chosen", "linux,initrd-end", word(initrd[1]))
    tree.node("/psci")
    tree.put("/psci", "method", b"smc\0")
    tree.put("/psci", "cpu_suspend", word(0xC4000001))
    tree.put("/psci", "cpu_off", word(0x84000002))
    tree.put("/psci", "compatible", b"arm,psci-1.0\0arm,psci-0.2\0arm,psci\0")
    return tree.whole()


# ---- launches


FILES = {"Image": image(text_offset=0), "Image-2": image(length=30_000), "initrd": INITRD, "initrd-2": OTHER, "tree": qemu_tree(),
         "lines": b"console=ttyAMA0 root=/dev/vda rw quiet swiotlb=force a=b\nconsole=hvc0\n"}
PATHS = {"kernel": "Image", "initrd": "initrd", "dtb": "tree"}
EDITED = ', bootargs = "console=ttyAMA0", initrd = true, memory = true'


def launch(name="vm", memory=512, count=1, initrd_at=0x4800_0000, dtb_at=0x4820_0000, algo="sha256", edited="", files=None, more="", ram=None, **numbers) -> str:
    """A launch as rim-manifest writes it; `files` are the names of its kernel, initrd and devicetree, `ram` its regions if it has several."""
    kernel, initrd, dtb = files or ("kernel", "initrd", "dtb")
    keys = {"s2sz": 41, "num_bps": 5, "num_wps": 3, "pmu": True, "pmu_num_ctrs": 6} | numbers
    items = (f'item = [{{ name = "kernel", kind = "kernel", file = "{kernel}", at = 0x40200000 }}, '
             f'{{ name = "initrd", kind = "initrd", file = "{initrd}", at = {initrd_at:#x} }}, '
             f'{{ name = "dtb", kind = "dtb", file = "{dtb}", at = {dtb_at:#x}{edited} }}]')
    return manifests.launch(name, more, items, algo=algo, **keys, rec_rule="runnable", ram=ram or [[LOW, LOW + memory * MIB]],
                            rec=[{}] + [{"runnable": False}] * (count - 1))


def manifest(*launches: str, paths: dict[str, str] | None = None) -> bytes:
    return manifests.manifest(*launches, files=PATHS | (paths or {}), version=2).encode()


def match(program: str, here: Folder, *words: str) -> tuple[int, str, str]:
    """What rim-match says, without the lines that say how far it is."""
    status, out, said = here.run(*words, start=START, RIM=program)
    return status, out, re.sub(r"rim-match: [\d,]+ launches tried.*\n", "", said)


def value_of(program: str, here: Folder, data: bytes) -> str:
    here.put("there.toml", data)
    ran = subprocess.run([program, "measure", "there.toml"], cwd=here.path, capture_output=True, text=True, check=True)
    return ran.stdout.splitlines()[1].split(" ")[2]


def printed(program: str, here: Folder, word_: str, path: str) -> str:
    return subprocess.run([program, word_, path, "vm"], cwd=here.path, capture_output=True, text=True, check=True).stdout


# ---- the ten changes: the name, what the machine has, what rim-match is given, and what it has to say

MOVED = (0x4800_1000, 0x4800_1000 + len(INITRD))
CHANGES = [
    ("a command line", {"tree": qemu_tree(bootargs="console=ttyAMA0 quiet")}, {}, (), 'the command line "console=ttyAMA0 quiet"'),
    ("none", {"tree": qemu_tree(bootargs="")}, {}, (), 'the command line ""'),
    ("a command line that is named", {"tree": qemu_tree(bootargs="console=ttyAMA0 root=/dev/vda rw quiet swiotlb=force a=b")}, {},
     ("--append-file", "lines"), 'the command line "console=ttyAMA0 root=/dev/vda rw quiet swiotlb=force a=b"'),
    ("a byte of the initrd", {"initrd": OTHER}, {}, ("--file", "initrd=initrd-2"), '"initrd" is the file "initrd-2"'),
    ("RAM", {"tree": qemu_tree(memory=1024)}, {"memory": 1024}, (), "1 GiB of RAM"),
    ("processors", {"tree": qemu_tree(count=4)}, {"count": 4}, (), "4 processors"),
    ("another tree", {"tree": qemu_tree(model="arm,cortex-a72")}, {}, ("--file", "dtb=tree-2"), '"dtb" is the file "tree-2"'),
    ("s2sz", {}, {"s2sz": 40}, (), "s2sz 40"),
    ("the order", {}, {"more": 'steps = ["ram 0", "item kernel", "item dtb", "item initrd", "rec 0"]\n'}, (), "items kernel, dtb, initrd"),
    ("SVE", {}, {"sve": True, "sve_vl": 3}, (), "sve true, sve_vl 3"),
    ("PMU", {}, {"pmu": False, "pmu_num_ctrs": 0}, (), "pmu false, pmu_num_ctrs 0"),
    ("the hash", {}, {"algo": "sha512"}, (), "algo sha512"),
    ("an initrd a page on", {"tree": qemu_tree(initrd=MOVED)}, {"initrd_at": MOVED[0]}, (), '"initrd" 1 page up'),
    ("a devicetree 2 MiB on", {}, {"dtb_at": 0x4840_0000}, (), '"dtb" 2 MiB up'),
    ("an initrd that is cut short", {"initrd": INITRD[:8192], "tree": qemu_tree(initrd=(0x4800_0000, 0x4800_2000))}, {}, (), "cut to whole 4 KiB"),
    ("an initrd that is padded", {"initrd": INITRD + bytes(16384 - 9005), "tree": qemu_tree(initrd=(0x4800_0000, 0x4800_4000))}, {}, (),
     "padded with zeros to whole 16 KiB"),
]
# The same where `rim` edits the devicetree: what the machine has, and what is said.
OF_EDITED = [
    ("a command line", {"edited": EDITED.replace("ttyAMA0", "ttyAMA0 rw")}, (), 'the command line "console=ttyAMA0 rw"'),
    ("RAM", {"memory": 1024}, (), "1 GiB of RAM"),
    ("an initrd a page on", {"initrd_at": MOVED[0]}, (), '"initrd" 1 page up'),
]


def change(program: str, there: dict[str, bytes], numbers: dict, options: tuple[str, ...], text: str, edited="") -> list[str]:
    """A machine whose files are others, and whose launch is another one: the change is named, and it is one."""
    here = Folder(FILES | there)
    value = value_of(program, here, manifest(launch(**({"edited": edited} | numbers))))
    for name in there:
        here.put(name, FILES[name])
    if "tree-2" in " ".join(options):
        here.put("tree-2", there["tree"])
    here.put("m.toml", manifest(launch(edited=edited)))
    status, out, said = match(program, here, *options, "m.toml", "vm", value)
    first = out.split("\n", maxsplit=1)[0]
    wrong = differs(f"status, what is said and {first!r}", (status, said, "by 1 change: " in first and text in first), (0, "", True))
    # where its axis does not find it, what people change together may, once all pairs were tried
    count = re.search(r"\n  ([\d,]+) launches were tried\n$", out)
    return wrong + differs(f"{out!r}: few were tried", count is not None and int(count[1].replace(",", "")) < 800, True)


def not_named(program: str) -> list[str]:
    """Contents that nobody names are not found; it is said what would be needed, and how to look further."""
    here = Folder(FILES)
    value = value_of(program, here, manifest(launch(), paths={"initrd": "initrd-2"}))
    here.put("m.toml", manifest(launch()))
    status, out, said = match(program, here, "--seconds", str(SECONDS), "m.toml", "vm", value)
    has = [part in out for part in ("one change: ", "two likely changes: ", "--far tries more", "--file NAME=OTHER", "--append-file", "--also", "--kept")]
    return differs("not named", (status, said, all(has)), (1, "", True))


def together(program: str) -> list[str]:
    """Three things that people change, at once."""
    here = Folder(FILES)
    here.put("tree", qemu_tree(memory=1024, count=4, bootargs="console=hvc0"))
    value = value_of(program, here, manifest(launch(memory=1024, count=4)))
    here.put("tree", FILES["tree"])
    here.put("m.toml", manifest(launch()))
    status, out, said = match(program, here, "--append-file", "lines", "m.toml", "vm", value)
    first = 'launch "vm" has the value by 3 changes: the command line "console=hvc0"; 1 GiB of RAM; 4 processors\n'
    return differs(f"together: {out!r}", (status, said, out.startswith(first)), (0, "", True))


# ---- near things


def near_things(program: str) -> list[str]:
    here, more = Folder(FILES), {"kernel-2": "Image-2", "initrd-2": "initrd-2", "dtb-2": "tree-1g"}
    here.put("tree-1g", qemu_tree(memory=1024))
    two = [launch(), launch("other", memory=1024, files=("kernel-2", "initrd-2", "dtb-2"))]
    here.put("m.toml", manifest(*two, paths=more))
    here.put("one.toml", manifest(launch()))
    value = value_of(program, here, manifest(launch(files=("kernel-2", "initrd", "dtb")), paths=more))
    kernel = 'launch "vm" has the value by 1 change: the kernel of launch "other"'
    status, out, said = match(program, here, "m.toml", "vm", value)
    wrong = differs("a kernel", (status, out.startswith(f'{kernel}\n  item "kernel": file = "kernel-2" '), said), (0, True, ""))
    status, out, said = match(program, here, "--also", "m.toml", "one.toml", "vm", value)
    has = out.startswith(f"{kernel} of m.toml\n") and '[[file]] name = "kernel-2", path = "Image-2"' in out
    wrong += differs("of another manifest", (status, has, said), (0, True, ""))
    value = value_of(program, here, manifest(launch(memory=1024, files=("kernel", "initrd-2", "dtb-2")), paths=more))
    status, out, said = match(program, here, "m.toml", "vm", value)
    first = out.split("\n", maxsplit=1)[0]
    # the devicetree of the other one is what this one's is with its RAM
    has = [f'the {what} of launch "other"' in first for what in ("initrd", "RAM")] + ["by 2 changes" in first]
    wrong += differs(f"two parts: {first!r}", (status, all(has), said), (0, True, ""))
    value = value_of(program, here, manifest(launch("other", memory=1024, files=("kernel-2", "initrd-2", "dtb-2")), paths=more))
    ran = match(program, here, "--also", "m.toml", "one.toml", "vm", value)
    wrong += differs("as it is", ran, (0, 'launch "other" of m.toml has the value, and none of the manifest\n', ""))
    ran = subprocess.run([program, "measure", "--json", "m.toml"], cwd=here.path, capture_output=True, check=True)
    here.put("kept.json", ran.stdout)
    ran_ = match(program, here, "--kept", "kept.json", "one.toml", "vm", value)
    return wrong + differs("a kept report", ran_, (0, 'launch "other" of the kept report kept.json had the value: `rim-compare kept.json MANIFEST` '
                                                      "says what is another one since\n", ""))


# It is run in the place of QEMU, and copies a devicetree of the folder `trees`, one for each -m, -smp and -append.
QEMU = r"""#!/bin/sh
while [ $# -gt 0 ]; do
    case $1 in
    -machine) path=${2#*dumpdtb=} ;;
    -m) memory=$2 ;;
    -smp) processors=$2 ;;
    -append) args=$2 ;;
    esac
    shift
done
cp "$(dirname "$0")/trees/$memory-$processors-$args" "$path"
"""
RECORD = {"rim_manifest_record": 2, "hypervisor": "qemu", "program": "QEMU 10.0.2", "launches": [
    {"name": "vm", "manifest": "m.toml", "words": ["-machine", "virt,dtb-randomness=off", "-cpu", "max", "-smp", "1", "-m", "512M"],
     "kernel": "Image", "firmware": None, "initrd": "initrd", "append": "console=ttyAMA0", "rest": []}]}


def made_anew(program: str) -> list[str]:
    """QEMU makes devicetrees by changed words: such as nobody would have written anew. A plain QEMU makes those of a realm but for PSCI's
    method. One that makes others is refused."""
    strange = {"512M-1-console=hvc0": qemu_tree(bootargs="console=hvc0", model="arm,a"), "1024M-1-console=ttyAMA0": qemu_tree(memory=1024, model="arm,b"),
               "512M-4-console=ttyAMA0": qemu_tree(count=4, model="arm,c")}
    here = Folder(FILES | {"record.json": json.dumps(RECORD).encode(), "m.toml": manifest(launch())} | {f"loaded/{name}": data for name, data in strange.items()})
    here.put("qemu", QEMU.encode(), is_program=True)
    wrong = []
    for method in (b"hvc\0", b"smc\0"):
        for name, data in (strange | {"512M-1-console=ttyAMA0": qemu_tree()}).items():
            here.put(f"trees/{name}", data.replace(b"smc\0", method))
        for name, numbers, text in (("512M-1-console=hvc0", {}, 'the command line "console=hvc0"'), ("1024M-1-console=ttyAMA0", {"memory": 1024}, "1 GiB of RAM"),
                                    ("512M-4-console=ttyAMA0", {"count": 4}, "4 processors")):
            value = value_of(program, here, manifest(launch(**numbers), paths={"dtb": f"loaded/{name}"}))
            status, out, said = match(program, here, "--qemu", "./qemu", "--append-file", "lines", "m.toml", "vm", value)
            wrong += differs(f"{name} {method!r}: {out!r}", (status, said, f"by 1 change: {text}\n" in out), (0, "", True))
    for path, data, text in (
            ("trees/512M-1-console=ttyAMA0", qemu_tree(model="arm,d"), '--qemu: ./qemu makes another devicetree of the words of launch "vm", expected "QEMU 10.0.2"'),
            ("record.json", json.dumps(RECORD | {"launches": []}).encode(), 'record.json: it has no launch "vm", expected one for --qemu'),
            ("record.json", json.dumps(RECORD | {"hypervisor": "kvmtool"}).encode(), 'record.json: it is of another hypervisor, expected qemu for --qemu'),
            ("record.json", json.dumps(RECORD | {"launches": [{"name": "vm"}]}).encode(), "record.json: it does not say the words of its launches, expected"),
            ("qemu", b"#!/bin/sh\necho no >&2; exit 1\n", "")):
        here.put(path, data)
        status, out, said = match(program, here, "--qemu", "./qemu", "m.toml", "vm", NEVER)
        wrong += differs(f"{path}: {said!r}", (status, out, said.count("\n"), text in said), (3, "", 1, True))
    return wrong


# ---- what the first step is


def monitors_log(listing: str) -> str:
    """The commands of a listing as TF-RMM is remembered to print them."""
    def line(words: list[str]) -> str:
        rd, given = "0x88000000", words[1:] + [""] * 3
        return {"realm_create": f"{rd} 0x99000000", "init_ripas": f"{rd} {given[0]} {given[1]}", "rec_create": f"{rd} 0x77000 0x66000",
                "data_create": f"{rd} {given[0]} {given[1].lstrip('0')} 0x55000 {int(given[2] == 'measured')}"}.get(words[0], rd)

    names = {"init_ripas": "RTT_INIT_RIPAS", "delegate": "GRANULE_DELEGATE", "activate": "REALM_ACTIVATE", "rtt_create": "RTT_CREATE"}
    rows = [each.split(" ") for each in listing.splitlines()[1:-1]]
    return "booting\n" + "".join(f"[ 0.1] SMC_RMI_{names.get(words[0], words[0].upper())} {line(words)} > RMI_SUCCESS\n" for words in rows)


def explained(program: str) -> list[str]:
    """The first step that differs, by the launch's names; a file that the machine had, and what of it."""
    here = Folder(FILES | {"tree-2": qemu_tree(bootargs="console=ttyAMA0 quiet")})
    here.put("m.toml", manifest(launch()))
    wrong = []
    for name, data, options, parts in (
            ("a byte", manifest(launch(), paths={"initrd": "initrd-2"}), ("--contents", "initrd-2"), [
                'item "initrd", bytes 4,096 to 8,191 of initrd\n', "there: pages 0x48001000 to 0x48002000 are bytes 4,096 to 8,191 of initrd-2\n"]),
            ("a byte of a file that is not at hand", manifest(launch(), paths={"initrd": "initrd-2"}), (), [
                "there: 1 of 1 pages that the launch has not are in no file that is at hand; --contents FILE names more\n"]),
            ("a command line", manifest(launch(), paths={"dtb": "tree-2"}), ("--contents", "tree-2"), [
                'item "dtb", bytes 0 to 4,095 of tree\n', '/chosen bootargs: "console=ttyAMA0" in the launch, "console=ttyAMA0 quiet" in tree-2\n']),
            ("an initrd a page on", manifest(launch(initrd_at=MOVED[0])), (), [
                'item "initrd", bytes 0 to 4,095 of initrd\n', 'there: item "initrd", bytes 4,096 to 8,191 of initrd\n',
                "there: pages 0x48001000 to 0x48004000 are bytes 0 to 9,004 of initrd\n"]),
            ("RAM", manifest(launch(memory=256)), (), [
                "RAM, region 0 from 0x40000000 to 0x60000000: they part at 0x50000000, entry 128 of 2 MiB\n"]),
            ("a parameter", manifest(launch(num_bps=4)), (), ["the parameters of the realm\nnum_bps: 5 in the launch, 4 there\n"]),
            ("a register", manifest(launch(more="").replace("rec = [{}]", 'rec = [{ pc = "0x40200040" }]')), (), [
                "REC 0\npc: 0000000040200000 in the launch, 0000000040200040 there\n"])):
        here.put("there.toml", data)
        here.put("log", printed(program, here, "trace", "there.toml").encode())
        status, out, said = match(program, here, *options, "--nearest", "log", "m.toml")
        wrong += differs(f"{name}: status, what is said", (status, said), (1, ""))
        wrong += [f"{name}: {part!r} is not in {out!r}" for part in parts if part not in out]
    return wrong


def forms_of_logs(program: str) -> list[str]:
    """A trace without RIMs, a listing with its RIM and without, and a monitor's log: of this launch, and of others."""
    here = Folder(FILES)
    here.put("m.toml", manifest(launch(count=2)))
    trace, listing = (printed(program, here, word_, "m.toml") for word_ in ("trace", "list"))
    rim = trace.splitlines()[-1].split(" ")[0]
    here.put("other.toml", manifest(launch(count=2, block_level=3, memory=64, initrd_at=0x4100_0000, dtb_at=0x4120_0000)))
    levels = printed(program, here, "list", "other.toml")
    here.put("level.toml", manifest(launch(count=2, memory=64, initrd_at=0x4100_0000, dtb_at=0x4120_0000)))
    bare = without_rims(trace)
    log, all_steps = monitors_log(listing), 'launch "vm": all '
    wrong = []
    for name, data, path, status, parts in (
            ("a trace without RIMs", bare, "m.toml", 0, [all_steps, f"the RIM after them is {rim}\n"]),
            ("a listing", listing, "m.toml", 0, [all_steps, f"the RIM after them is {rim}\n"]),
            ("a listing without its RIM", listing[:listing.rindex("rim ")], "m.toml", 0, [
                f"the RIM after them is {rim}, if what it does not hold is as in the launch\n", "the levels of tables are not compared\n"]),
            ("a listing of other levels", levels, "level.toml", 1, [all_steps, " there: the tables have other levels, or the rule of RECs is another\n"]),
            ("a monitor's log", log, "m.toml", 0, [all_steps, f"the RIM after them is {rim}, if what it does not hold is as in the launch\n",
                                                   "is a monitor's log as TF-RMM is remembered to print it: it has no contents of pages"]),
            ("a log of an initrd elsewhere", log.replace(" 48000000 ", " 48008000 "), "m.toml", 1, [
                "differs in ipa\n", 'item "initrd", bytes 0 to 4,095 of initrd\n', "there: 0x48008000 is in no item of the launch\n"]),
            ("a trace of junk", "init_ripas x\ndata_create y measured z\n", "m.toml", 1, ["differs in the command\n"]),
            ("a listing of junk", "rim-list 1 aux 0\ninit_ripas\ninit_ripas 1\ndata_create\n", "m.toml", 1, ["differs in the command\n"]),
            ("a command that was refused", log + "SMC_RMI_DATA_CREATE 0x1 0x2 0x3000 0x4 1 > RMI_ERROR_INPUT\n", "m.toml", 0, [all_steps])):
        here.put("log", data.encode())
        ran, out, said = match(program, here, "--nearest", "log", path, "vm")
        wrong += differs(f"{name}: status, what is said", (ran, said), (status, ""))
        wrong += [f"{name}: {part!r} is not in {out!r}" for part in parts if part not in out]
    return wrong


LOW_PLACES = {"count": 2, "initrd_at": 0x4100_0000, "dtb_at": 0x4120_0000}
ALL_SPLIT = 'launch "vm": all {} lines are those of log, which has 298 and splits RAM otherwise\n'
RAM_PART = "RAM, region 0 from 0x40000000 to 0x44000000: they part at 0x42000000, entry 16 of 2 MiB\n"


def by_blocks(program: str, here: Folder, memory: int, size: int, **numbers) -> str:
    """The trace of a machine that logs each block of RAM by itself: the RIMs are the same."""
    regions = [[at, at + size] for at in range(LOW, LOW + memory * MIB, size)]
    here.put("blocks.toml", manifest(launch(ram=regions, **LOW_PLACES, **numbers)))
    return printed(program, here, "trace", "blocks.toml")


def without_rims(trace: str) -> str:
    return "".join(line.split(" ", 1)[1] + "\n" for line in trace.splitlines())


def split_ram(program: str) -> list[str]:
    """Logs that have RAM in other lines than `rim trace`: by blocks where that has a command, or by one command. It is the first step that differs
    that is found, and not the first line."""
    here, wrong = Folder(FILES), []
    here.put("m.toml", manifest(launch(memory=64, **LOW_PLACES)))
    here.put("parts.toml", manifest(launch(ram=[[LOW, LOW + 16 * MIB], [LOW + 16 * MIB, LOW + 64 * MIB]], **LOW_PLACES)))
    blocks, half = (by_blocks(program, here, memory, 2 * MIB) for memory in (64, 32))
    pages, more = by_blocks(program, here, 64, 2 * MIB, block_level=3), by_blocks(program, here, 128, 2 * MIB)
    bps, pc = by_blocks(program, here, 64, 2 * MIB, num_bps=4), blocks.replace(" 0000000040200000 0000000041200000", " 0000000040200000 0000000041200008")
    assert len(blocks.splitlines()) == 298 and pc != blocks
    levels = "RAM is the same, so its blocks are of other levels\n"
    for name, data, path, status, parts in (
            ("blocks", blocks, "m.toml", 0, [ALL_SPLIT.format(267)]),
            ("blocks without RIMs", without_rims(blocks), "m.toml", 0, [ALL_SPLIT.format(267), "the levels of tables are not compared\n", "if what it does not hold"]),
            ("blocks, and two commands", blocks, "parts.toml", 0, [ALL_SPLIT.format(268)]),
            ("a register after blocks", pc, "m.toml", 1, ["the first 266 of its 267 lines are the first 297 of the 298 of log, which splits RAM otherwise\n",
                                                          "line 267 (line 298 of log) differs in x0\n", "REC 0\nx0: "]),
            ("less RAM by blocks", half, "m.toml", 1, ["the first 1 of its 267 lines are those of log, which has 282\n", "line 2 differs in top\n", RAM_PART]),
            ("less RAM by blocks without RIMs", without_rims(half), "m.toml", 1, ["line 2 differs in top\n", RAM_PART]),
            ("less RAM by blocks, and two commands", half, "parts.toml", 1, ["the first 2 of its 268 lines are the first 9 of the 282 of log, which splits", "differs in top\n",
                                                                            "they part at 0x42000000, entry 8 of 2 MiB\n"]),
            ("more RAM by blocks", more, "m.toml", 1, ["the first 2 of its 267 lines are the first 33 of the 330 of log, which splits", "differs in the command\n"]),
            ("blocks of other levels", pages, "m.toml", 1, ["line 2 differs in the RIM\n", levels]),
            ("a parameter", bps, "m.toml", 1, ["line 1 differs in num_bps\n"])):
        here.put("log", data.encode())
        ran, out, said = match(program, here, "--nearest", "log", path, "vm")
        wrong += differs(f"{name}: status, what is said", (ran, said), (status, ""))
        wrong += [f"{name}: {part!r} is not in {out!r}" for part in parts if part not in out]
    return wrong


def all_tries(program: str):
    for name, there, numbers, options, text in CHANGES:
        yield name, lambda there=there, numbers=numbers, options=options, text=text: change(program, there, numbers, options, text)
    for name, numbers, options, text in OF_EDITED:
        yield f"{name}, edited by rim", lambda numbers=numbers, options=options, text=text: change(program, {}, numbers, options, text, EDITED)
    for look in (not_named, together, near_things, made_anew, explained, forms_of_logs, split_ram):
        yield look.__name__, lambda look=look: look(program)


def run_all() -> int:
    return told(at_a_time(all_tries(program_of(sys.argv[1:]))))


if __name__ == "__main__":
    sys.exit(run_all())
