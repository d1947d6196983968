#!/usr/bin/env python3
"""Simulates machines that do this or that of what a realm may change, and has rim-manifest settle find it by the value that each gives.

    tests/settling.py [PROGRAM]                                                 by default the program that `rt ci` has built
    tests/settling.py --machines N [--seed N] [--limit N] [--kinds LIST] [PROGRAM]

- Machines: each has an alternative of each row and numbers, drawn by their likelihoods or at random, of each hypervisor. Its manifest is
  written here, by code apart from rim-manifest's, PROGRAM measures it, and rim-manifest settle is given the value. A file that it writes
  has to give the same value again; where a value pins a row, the file has to name what the machine does.
- Several guests, a trace, forms of the value, what is known, a machine that does what no row says, wrong words and faults, a terminal.

With --machines only machines are simulated, of which each may take --limit launches: N of each of these kinds: `likely`, drawn by the
likelihoods; `random`, at random; `blind`, by the likelihoods with no number known. What came of each kind is printed. The last line is 'N
passed, M failed'.
"""
import argparse
import base64
import enum
import os
import random
import re
import signal
import subprocess
import sys
import time
from collections.abc import Iterator
from dataclasses import dataclass, field

from helpers import PATIENCE, manifests
from helpers.files import image, tree
from helpers.folders import Folder
from helpers.guests import START, replaced
from helpers.tries import Outcome, differs, program_of, told, tried

from finder.axes import Axis, best_first, count_of
from outside import measurement, parameters
from outside.faults import WrongWords
from outside.measurement import Value
from vmm.hypervisors import HYPERVISORS
from vmm.layout import rows_with_ways
from vmm.rows import ADDS, NUMBERS

MIB, PAGE = 1 << 20, 1 << 12
FLAG_OF = {each.key: each.flag for each in parameters.RMM_1_0}
LOW, LKVM = 0x4000_0000, 0x8000_0000
KERNEL, BSS = 70_000, 2 * MIB
INITRD = bytes(n * 91 % 253 for n in range(9001))
SIZE = 1153 * MIB
SECONDS = 600
GRANULES = {"4k": 4 << 10, "16k": 16 << 10, "64k": 64 << 10}


# ---- a guest of each hypervisor: its words, and where its blobs are, by hand from docs/VMM.md


@dataclass(frozen=True)
class Layout:
    """Where a guest's blobs are; `words` are its command line."""

    words: list[str]
    ram: list[tuple[int, int]]
    kernel: int
    initrd: int
    dtb: int
    width: int              # of a plain guest; of cloud-hypervisor none
    length: int | None      # of its devicetree


QEMU = ["qemu-system-aarch64", "-M", "virt,gic-version=3,dtb-randomness=off", "-cpu", "max", "-smp", "2", "-m", "1153M", "-kernel", "Image",
        "-initrd", "initrd"]
LAYOUTS = {
    "qemu": Layout(QEMU, [(LOW, LOW + SIZE)], 0x4020_0000, 0x4800_0000, 0x4820_0000, 40, MIB),
    "kvmtool": Layout(["lkvm", "run", "--realm", "-c", "2", "-m", "1153", "-k", "Image", "-i", "initrd"], [(LKVM, LKVM + SIZE)], LKVM,
                      0x8FDF_DCD4, 0x8FE0_0000, 32, 65536),
    "cloud-hypervisor": Layout(["cloud-hypervisor", "--cpus", "boot=2", "--memory", f"size={SIZE}", "--kernel", "Image", "--initramfs", "initrd"],
                               [(LOW, LOW + SIZE)], 0x4040_0000, LOW + SIZE - 0x3000, LOW, 0, None)}
FILES = {"Image": image(BSS, length=KERNEL), "initrd": INITRD}


def tree_of(name: str) -> bytes:
    about = LAYOUTS[name]
    return tree(about.ram, initrd=(about.initrd, about.initrd + len(INITRD)), count=2, length=about.length, method=b"hvc\0",
                **{"pcie@10000000": None})


# ---- a machine


class Kind(enum.Enum):
    """How a machine is drawn: by the likelihoods, with numbers of which most are known; at random; by the likelihoods, with no number known."""

    LIKELY = "by likelihoods"
    RANDOM = "at random"
    BLIND = "with no number known"


@dataclass
class Machine:
    """What a machine does: an alternative of each row, its width, and its numbers as they are read off it."""

    vmm: str
    ways: dict[str, str]
    width: int
    numbers: dict[str, int | bool]
    recs_first: bool = False        # what no row says
    values: dict[str, int | bool] = field(default_factory=dict)

    def __post_init__(self):
        self.values = dict(self.numbers)
        for key, flag in FLAG_OF.items():
            self.values[key] = self.numbers[key] + ADDS[self.ways[key]] if not flag or self.numbers[flag] else 0


def drawn(vmm: str, draw: random.Random, is_weighted: bool) -> Machine:
    rows = rows_with_ways([HYPERVISORS[vmm].TABLE])
    likely = is_weighted
    ways = {name: draw.choices(row.names, [way.likely if likely else 1 for way in row.ways])[0] for name, row in rows.items() if name != "dtb_file"}
    numbers = {flag: flag == "pmu" or draw.random() < 0.5 for flag in parameters.FLAGS}
    numbers |= {each.key: draw.choice(each.usual[:3]) if likely else draw.randrange(1, each.below) for each in parameters.RMM_1_0}
    plain = LAYOUTS[vmm].width
    width = plain + (ways["s2sz"] == "one_more") if plain else draw.choice((40, 48) if likely else range(36, 49))
    return Machine(vmm, ways, width, numbers)


def blob(name: str, kind: str, at: int, start: int, length: int, granule: int) -> list[tuple]:
    """A blob in whole pages of the host: the zeros before it, and itself."""
    low, high = start & -granule, (start + length + granule - 1) & -granule
    page = start & -PAGE
    lead = [(f"{name}-zeros", "raw", "zeros", low, page - low, low, page)] if low < page else []
    return [*lead, (name, kind, name, at, high - start if granule > PAGE else length, page, high)]


def loaded_tree(machine: Machine) -> bytes:
    """The devicetree that a machine loads, of which a plain guest has dumped `tree_of`."""
    data = tree_of(machine.vmm)
    return data.replace(b"hvc\0", b"smc\0") if machine.ways["psci"] == "smc" else data


def manifest(machine: Machine) -> str:
    """The manifest of a machine's guest."""
    about, ways, granule = LAYOUTS[machine.vmm], machine.ways, GRANULES[machine.ways["host_pages"]]
    data = loaded_tree(machine)
    used = len(data.rstrip(b"\0")) if ways["dtb_pages"] == "used" else len(data)
    blobs = {"kernel": blob("kernel", "kernel", about.kernel, about.kernel, BSS if ways["kernel_pages"] == "image_size" else KERNEL, granule),
             "initrd": blob("initrd", "initrd", about.initrd, about.initrd, len(INITRD), granule),
             "dtb": blob("dtb", "dtb", about.dtb, about.dtb, (used + PAGE - 1) & -PAGE, granule)}
    has_stub = ways.get("stub") == "measured"
    if has_stub:
        blobs["stub"] = blob("stub", "raw", LOW, LOW, 40, granule)
    names = list(blobs) if ways["order"] == "kind" else sorted(blobs, key=lambda each: blobs[each][-1][5])
    names = ["dtb", *(each for each in names if each != "dtb")] if ways["order"] == "dtb_first" else names
    steps, ram = [], []
    for name in names:
        first, last = blobs[name][0], blobs[name][-1]
        if ways["ram"] != "first":
            bss = (about.kernel + BSS + granule - 1) & -granule if name == "kernel" else 0
            is_apart = machine.vmm == "kvmtool" and ways["ram"] == "each"
            steps.append(f"ram {len(ram)}")
            ram.append((first[5], last[6] if is_apart else max(last[6], bss)))
            steps += [f"item {each[0]}" for each in blobs[name]]
            if is_apart and bss > last[6]:
                steps.append(f"ram {len(ram)}")
                ram.append((last[6], bss))
        else:
            steps += [f"item {each[0]}" for each in blobs[name]]
    if ways["ram"] == "first":
        ram, steps = about.ram, [*(f"ram {number}" for number in range(len(about.ram))), *steps]
    recs = ["rec 0", "rec 1"]
    steps = recs + steps if machine.recs_first else steps + recs
    items = [{"name": name, "kind": kind, "file": file, "at": at, "size": size} for some in blobs.values() for name, kind, file, at, size, _, _ in some]
    level = int(ways["block_level"]) if ways["block_level"] != "below" else 1 if machine.width >= 44 else 2 if machine.width >= 35 else 3
    pc, x = (LOW, []) if has_stub else (about.kernel, [f"{about.dtb:#x}"])
    paths = {"kernel": "Image", "initrd": "initrd", "dtb": "used" if ways["dtb_pages"] == "used" else "loaded", "stub": "stub", "zeros": "zeros"}
    return manifests.manifest(manifests.launch("a", algo=ways["hash"], s2sz=machine.width, **machine.values, block_level=level, rec_rule=ways["rec_rule"],
                                               ram=ram, item=items, rec=[{"pc": f"{pc:#x}", "x": x}, {"runnable": False}], steps=steps), files=paths, version=2)


def stub(machine: Machine) -> bytes:
    about = LAYOUTS[machine.vmm]
    code = bytes.fromhex("c0000058e1031faae2031faae3031faa8400005880001fd6")
    return code + about.dtb.to_bytes(8, "little") + about.kernel.to_bytes(8, "little")


def host_file(known: dict, realm: dict | None = None) -> bytes:
    """A file about the host, with what is known; a `?` is not."""
    def written(value) -> str:
        return f'"{value}"' if isinstance(value, str) else str(value).lower()
    return "".join([*(f"{key} = {written(value)}\n" for key, value in known.items()), "[realm]\n",
                    *(f"{key} = {written(value)}\n" for key, value in (realm or {}).items())]).encode()


def known_of(machine: Machine, draw: random.Random, is_known: bool) -> dict:
    """What a user knows of a machine: its numbers, of which one in ten is one off; or nothing."""
    if not is_known:
        return dict.fromkeys(parameters.ASKED, "?")
    numbers = dict(machine.numbers)
    for key in NUMBERS:
        if draw.random() < 0.1:
            numbers[key] = max(0, numbers[key] + draw.choice((-1, 1)))
    for flag, key in parameters.FLAGGED:
        if not numbers[flag]:
            numbers.pop(key)
    return numbers | ({"s2sz_max": machine.width} if machine.vmm == "cloud-hypervisor" else {})


def folder_of(machine: Machine) -> Folder:
    data = loaded_tree(machine)
    packed = data.rstrip(b"\0")
    return Folder(FILES | {"tree": tree_of(machine.vmm), "loaded": data, "used": packed.ljust((len(packed) + PAGE - 1) & -PAGE, b"\0"), "stub": stub(machine), "zeros": b"\0",
                           "machine.toml": manifest(machine).encode()})


def value_of(program: str, folder: Folder, name="machine.toml") -> str:
    """The value that a machine gives; nothing where a monitor refuses it."""
    ran = subprocess.run([program, "measure", name], cwd=folder.path, capture_output=True, text=True, timeout=SECONDS, check=False)
    if ran.returncode > 1:
        raise RuntimeError(f"{ran.stdout}{ran.stderr}")
    line = ran.stdout.splitlines()[1].split(" ")
    return "" if line[1] == "refused" else line[2]


def settle(folder: Folder, machine: Machine, *words: str):
    """What rim-manifest settle says of a machine's guest."""
    all_words = [START, "settle", machine.vmm, "--host", "known.toml", "--dtb", "tree", *words, "--", *LAYOUTS[machine.vmm].words]
    ran = subprocess.run(all_words, cwd=folder.path, capture_output=True, timeout=SECONDS, check=False, stdin=subprocess.DEVNULL, text=True)
    return ran.returncode, ran.stdout, ran.stderr


def is_told(machine: Machine, has: dict, said: str) -> list[str]:
    """How a settled file differs from what the machine does, where the value pins it."""
    rows = rows_with_ways([HYPERVISORS[machine.vmm].TABLE])
    unsettled = {each.partition("=")[0] for each in has["not_settled"]}
    realm = has.get("realm", {})
    wrong = differs("what is said to be open", set(re.findall(r"^not settled: (\w+) = ", said, re.M)) - unsettled, set())
    for name, way in machine.ways.items():
        if name in rows and name not in unsettled and name not in NUMBERS and name != "s2sz":
            wrong += differs(name, str(realm.get(name)), way)
    for key, flag in FLAG_OF.items():
        if not flag or machine.numbers[flag]:
            wrong += differs(key, has.get(key, 0) + ADDS[realm.get(key, "as_read")], machine.values[key])
    return wrong + [line for flag in parameters.FLAGS for line in differs(flag, has[flag], machine.numbers[flag])]


def possible(program: str, vmm: str, draw: random.Random, is_weighted: bool) -> Machine:
    """A machine that there can be: a monitor refuses others, such as one whose RAM is not in the protected half."""
    while True:
        machine = drawn(vmm, draw, is_weighted)
        with folder_of(machine) as folder:
            if value_of(program, folder):
                return machine


def simulated(program: str, vmm: str, seed: int, kind: Kind, limit=""):
    """What comes of a machine: what is wrong, whether it was found, how many launches were tried, and seconds."""
    draw = random.Random(f"{vmm} {seed} {kind.value}")
    machine = possible(program, vmm, draw, kind is not Kind.RANDOM)
    with folder_of(machine) as folder:
        folder.put("known.toml", host_file(known_of(machine, draw, kind is not Kind.BLIND)))
        begun = time.monotonic()
        limits = [f"--limit={limit}"] if limit else []
        status, out, said = settle(folder, machine, "--rim", value_of(program, folder), "--out", "settled.toml", *limits)
        seconds = time.monotonic() - begun
        count = re.search(r"(?:after|none of) ([0-9,]+) launches", out)
        tried_ = int(count[1].replace(",", "")) if count else 0
        if status == 1 and (limit or kind is not Kind.LIKELY):
            return [], False, tried_, seconds
        if status:
            return [f"{machine}: status {status}, {out}{said}"], False, tried_, seconds
        return is_told(machine, folder.toml("settled.toml"), out), True, tried_, seconds


def machines(program: str, count: int, seed: int, limit: str, kinds: list[Kind]) -> Iterator[Outcome]:
    """Simulates many machines, and prints how long each took."""
    for kind in kinds:
        found, tries, times = 0, [], []
        for number in range(count):
            vmm = list(LAYOUTS)[number % len(LAYOUTS)]
            wrong, was_found, tried_, seconds = simulated(program, vmm, seed + number, kind, limit)
            found += was_found
            if was_found:
                tries.append(tried_)
            times.append(seconds)
            yield f"{vmm} {seed + number} {kind.value}", wrong
            print(f"{number} {vmm} {kind.value} {was_found} {tried_} {seconds:.1f}", flush=True)
        tries.sort()
        times.sort()
        middle = f"launches tried: half within {tries[len(tries) // 2]:,}, at most {tries[-1]:,}; " if tries else ""
        print(f"{kind.value}: {found} of {len(times)} found; {middle}"
              f"seconds: half within {times[len(times) // 2]:.1f}, at most {times[-1]:.1f}, {sum(times):.0f} in all", flush=True)


# ---- tests


def best_first_is_right(_program: str):
    """All combinations come, each once, by falling likelihood."""
    wrong, draw = [], random.Random(3)
    for _ in range(50):
        axes = [Axis(str(n), tuple(sorted((draw.random() for _ in range(draw.randrange(1, 5))), reverse=True))) for n in range(draw.randrange(1, 6))]
        found = list(best_first(axes))
        likely = []
        for at in found:
            product = 1.0
            for axis, place in zip(axes, at):
                product *= axis.likely[place] / axis.likely[0]
            likely.append(product)
        wrong += differs("each once", (len(found), len(set(found))), (count_of(axes),) * 2)
        wrong += [f"it rises: {earlier} {later}" for earlier, later in zip(likely, likely[1:]) if later > earlier * (1 + 1e-9)]
    return wrong


LIKELY = {each.key: each.usual[0] for each in parameters.RMM_1_0} | {flag: flag == "pmu" for flag in parameters.FLAGS}


def likeliest(vmm="qemu", **ways: str) -> Machine:
    rows = rows_with_ways([HYPERVISORS[vmm].TABLE])
    ways = {name: row.names[0] for name, row in rows.items() if name != "dtb_file"} | ways
    plain = LAYOUTS[vmm].width
    return Machine(vmm, ways, plain + (ways["s2sz"] == "one_more") if plain else 48, dict(LIKELY))


def unlikely(folder: Folder, name: str) -> dict[str, str]:
    """Returns the rows of a file about a host of QEMU that are not at their likeliest alternative."""
    rows = rows_with_ways([HYPERVISORS["qemu"].TABLE, HYPERVISORS["qemu"].FIRMWARE])
    return {row: way for row, way in folder.toml(name)["realm"].items() if str(way) != rows[row].names[0]}


KNOWN = {key: value for key, value in LIKELY.items() if LIKELY.get(FLAG_OF.get(key), True)}
EXPECTED = "".join(f"{key} = {str(value).lower()}\n" for key, value in KNOWN.items())


# The rows that the value of the guest pins, also those that are at their likeliest alternative.
SETTLED = {"ram": "first", "stub": "measured", "order": "address", "s2sz": "one_more", "kernel_pages": "file", "dtb_pages": "whole", "hash": "sha512",
           "host_pages": "4k", "rec_rule": "all", "psci": "smc", "num_bps": "as_read", "num_wps": "as_read", "pmu_num_ctrs": "as_read"}


def the_file(program: str):
    """What is printed and what the file has; that --out is not replaced; that the file is taken; and that a named row comes first."""
    machine = likeliest(stub="measured", rec_rule="all")
    wrong = []
    with folder_of(machine) as folder:
        folder.put("known.toml", host_file(KNOWN))
        rim = value_of(program, folder)
        status, out, said = settle(folder, machine, "--rim", rim, "--out", "settled.toml")
        wrong += differs("status", (status, re.sub("[0-9][0-9,]*", "N", said)), (0, "rim-manifest: N combinations of N rows, the width and four "
                         "numbers; N of the rows are measured in other ways\n"))
        wrong += [line for line in ("  stub = measured: settled, and not the likeliest", "  rec_rule = all: settled, and not the likeliest",
                                    "  num_bps = 5 (as_read): settled", "  block_level = 0: not settled",
                                    "not settled: block_level = 0: 1 gives the same; a guest for which they differ: one with more than 1 GiB")
                  if line not in out]
        text = folder.read("settled.toml").decode()
        wrong += [line for line in (EXPECTED, 'rec_rule = "all"\n', 'settled_by = "rim-manifest settle: sha512 ') if line not in text]
        has = folder.toml("settled.toml")
        wrong += differs("its rows", has["realm"], SETTLED)
        wrong += differs("what is open", has["not_settled"], ["block_level=1", "dtb_file=padded", "firmware_ram=whole", "firmware_order=after"])
        wrong += differs("what no guest has", "\nnot settled: dtb_file, firmware_ram, firmware_order: no guest has these rows\n" in out, True)
        wrong += differs("again", settle(folder, machine, "--rim", rim, "--out", "settled.toml")[::2][0], 3)
        status, report, _ = folder.run("qemu", "--host", "settled.toml", "--dtb", "tree", "--measure", "--", *QEMU)
        wrong += differs("the file is taken", (status, report.splitlines()[1].split(" ")[1:]), (0, ["sha512", rim]))
        folder.put("known.toml", folder.read("settled.toml") + b'firmware_ram = "whole"\n')
        status, out, _ = settle(folder, machine, "--rim", rim, "--out", "settled.toml", "--force")
        wrong += differs("what is named comes first", (status, "after 1 launch:" in out), (0, True))
        has = folder.toml("settled.toml")
        wrong += differs("what it says of other guests stays", has["realm"], SETTLED | {"firmware_ram": "whole"})
        return wrong + differs("what is open still", has["not_settled"], ["block_level=1", "dtb_file=padded", "firmware_ram=file", "firmware_order=after"])


def forms(program: str):
    """A value in each form; several guests; a trace; what --row says is sure."""
    machine, wrong = likeliest(ram="each", hash="sha256", num_wps="one_more"), []
    with folder_of(machine) as folder:
        folder.put("known.toml", host_file(KNOWN))
        rim = value_of(program, folder)
        data = bytes.fromhex(rim)
        trace = subprocess.run([program, "trace", "machine.toml", "a"], cwd=folder.path, capture_output=True, check=True).stdout
        for name, data_ in (("bytes", data), ("cbor", b"\x19\xac\xce\x58\x20" + data), ("text", rim.encode()), ("trace", trace)):
            folder.put(name, data_)
        folder.put("line", " ".join(QEMU).encode())
        folder.put("guests.toml", f'[[guest]]\nline = "line"\ndtb = "tree"\nrim = "{rim}"\n'.encode())
        for name, words in (("base64", ["--rim", base64.b64encode(data).decode()]), ("bytes", ["--rim-file", "bytes"]),
                            ("cbor", ["--rim-file", "cbor"]), ("text", ["--rim-file", "text"]), ("trace", ["--trace", "trace"]),
                            ("a row", ["--rim", rim, "--row", "ram=each"]),
                            ("two guests", ["--rim", rim, "--guests", "guests.toml"])):
            status, out, said = settle(folder, machine, *words, "--out", f"{name}.toml")
            wrong += differs(name, status, 0) + ([out + said] if status else [])
            if not status:
                wrong += differs(name, unlikely(folder, f"{name}.toml"), {"ram": "each", "hash": "sha256", "num_wps": "one_more"})
        status, out, said = settle(folder, machine, "--rim", rim, "--row", "ram=first", "--limit", "200", "--out", "n.toml")
        wrong += differs("another row", (status, "ram: first\n" in out, "each" in out), (1, True, False))
        status, out, said = folder.run("settle", "qemu", "--host", "known.toml", "--guests", "guests.toml", "--out", "alone.toml")
        return wrong + differs("a file of guests alone", status, 0)


def values_of_files(_program: str):
    """A file with a value: text with or without line feeds, also of the length of raw bytes; raw bytes, also with those of a claim in CBOR first."""
    wrong = []
    short, long = bytes(range(0x80, 0xA0)), bytes(range(0x80, 0xC0))
    for data in (short, long, b"\x58\x20" + short[2:], b"\x58\x40" + long[2:], b"\x19\xac\xce" + short[3:]):
        value = Value("sha256" if len(data) == 32 else "sha512", data.hex())
        base64_lines, claim = base64.encodebytes(data), bytes((0x58, len(data))) + data
        for name, file in (("bytes", data), ("digits", data.hex().encode()), ("digits and a line feed", data.hex().encode() + b"\n"),
                           ("capitals", b"0x" + data.hex().upper().encode()), ("base64", base64.b64encode(data)), ("base64 in lines", base64_lines),
                           ("claim", claim), ("label and claim", b"\x19\xac\xce" + claim)):
            wrong += differs(f"{name} of {data.hex()[:8]}", measurement.of_file(file, "f"), value)
    for file, text in ((short[1:], "f: 31 bytes, expected 32 or 64 bytes"), (b"ab" * 20, "has 30 bytes"), (b"no value", "has 5 bytes"), (b"", "f: 0 bytes")):
        try:
            wrong.append(f"{file!r}: {measurement.of_file(file, 'f')}")
        except WrongWords as why:
            wrong += differs(f"{file!r}", text in str(why), True)
    return wrong


ALONE = [word if word not in ("2", "1153M") else {"2": "1", "1153M": "1024M"}[word] for word in QEMU]


def narrowed(program: str):
    """A guest of one processor leaves a row open, which another guest of the machine settles; guests of firmware and of -dtb are settled too.
    Their values are of manifests that rim-manifest makes."""
    wrong = []
    at = LOW + 128 * MIB
    trees = {"one": tree([(LOW, LOW + 1024 * MIB)], initrd=(at, at + len(INITRD)), **{"pcie@10000000": None}), "tree": tree_of("qemu"),
             "short": tree([(LOW, LOW + SIZE)], initrd=(at, at + len(INITRD)), count=2, length=None, **{"pcie@10000000": None}),
             "fw": bytes(n * 7 % 251 for n in range(9001)), "firm": tree([(LOW, LOW + 1024 * MIB)], **{"pcie@10000000": None})}
    firmware = ["qemu-system-aarch64", "-M", "virt,gic-version=3,dtb-randomness=off", "-cpu", "max", "-m", "1G", "-bios", "fw"]
    truth = host_file(KNOWN | {"s2sz_max": 41}, {"stub": "measured", "rec_rule": "all", "firmware_ram": "whole",
                                                                 "firmware_order": "after", "dtb_file": "padded"})
    own = [*QEMU, "-dtb", "short"]
    with Folder(FILES | trees | {"truth.toml": truth, "known.toml": host_file(KNOWN), "line": " ".join(QEMU).encode()}) as folder:
        values = {}
        for name, words in (("one", ALONE), ("tree", QEMU), ("firm", firmware), ("own", own)):
            tree_words = [] if name == "own" else ["--dtb", name]
            report = folder.run("qemu", "--host", "truth.toml", *tree_words, "--measure", "--", *words)[1]
            values[name] = report.splitlines()[1].split(" ")[2]
        folder.put("guests", f'[[guest]]\nline = "line"\ndtb = "tree"\nrim = "{values["tree"]}"\n'.encode())
        for name, words, line, expected in (
                ("one guest", ["--dtb", "one", "--rim", values["one"]], ALONE, {"stub": "measured"}),
                ("two guests", ["--dtb", "one", "--rim", values["one"], "--guests", "guests"], ALONE, {"stub": "measured", "rec_rule": "all"}),
                ("firmware", ["--dtb", "firm", "--rim", values["firm"]], firmware, {"firmware_ram": "whole", "firmware_order": "after"}),
                ("-dtb", ["--rim", values["own"]], own, {"stub": "measured", "rec_rule": "all", "dtb_file": "padded"})):
            status, out, said = folder.run("settle", "qemu", "--host", "known.toml", "--out", f"{name}.toml", *words, "--", *line)
            wrong += differs(name, (status, unlikely(folder, f"{name}.toml")) if not status else out + said, (0, expected))
            wrong += differs(f"{name}: what is open", "not settled: rec_rule = runnable: all gives the same" in out,
                             name in ("one guest", "firmware"))
        folder.put("guests", f'[[guest]]\nline = "line"\ndtb = "tree"\nrim = "{"5a" * 64}"\n'.encode())
        status, out, _ = folder.run("settle", "qemu", "--host", "known.toml", "--out", "n", "--dtb", "one", "--rim", values["one"], "--guests", "guests", "--", *ALONE)
        count = re.search("none of ([0-9,]+) launches", out)
        wrong += differs("another value of a second guest", (status, int(count[1].replace(",", "")) < 2000 if count else out, "by no such combination" in out),
                         (1, True, True))
        for host, row, words, line, *expected in (
                ("one guest", [], ["--dtb", "tree"], QEMU, ("rec_rule", "1153M-smp2-Image-initrd-sha512", "all")),
                ("one guest", ["--row", "rec_rule=runnable"], ["--dtb", "tree"], QEMU),
                ("one guest", [], ["--dtb", "one"], ALONE), ("two guests", [], ["--dtb", "tree"], QEMU),
                ("two guests", [], ["--dtb", "firm"], firmware, ("firmware_ram", "1G-smp1-fw-sha512", "whole"), ("firmware_order", "1G-smp1-fw-sha512", "after")),
                ("two guests", [], [], own, ("dtb_file", "1153M-smp2-Image-initrd-sha512", "padded")),
                ("firmware", [], ["--dtb", "firm"], firmware)):
            status, _, said = folder.run("qemu", "--host", f"{host}.toml", *row, *words, "--measure", "--", *line)
            lines = [f"rim-manifest: warning: {host}.toml: row {row_} is not settled, and launch {launch} has another measurement with {others}: "
                     f"settle it with such a guest, or choose with --row {row_}=.." for row_, launch, others in expected]
            wrong += differs(f"{host}, {line}", (status, [each for each in said.splitlines() if "settle" in each]), (0, lines))
    return wrong


def terminal(program: str):
    """Standard error is a terminal: it shows how far the search is, and the line is gone at the end."""
    with Folder(FILES | {"tree": tree_of("qemu"), "known.toml": host_file(KNOWN)}) as folder:
        ours, theirs = os.openpty()
        ran = subprocess.run([START, *WITH_TREE, "--rim", "5a" * 32, "--limit", "3000", "--", *QEMU], cwd=folder.path, stdout=subprocess.PIPE,
                             stderr=theirs, check=False, timeout=SECONDS)
        os.close(theirs)
        shown = os.read(ours, 1 << 16).decode()
        os.close(ours)
        return differs("what is shown", (ran.returncode, re.search(r"\r\x1b\[Krim-manifest: [0-9,]+ launches tried", shown) is not None,
                                         shown.endswith("\r\x1b[K")), (1, True, True))


def stopped(program: str):
    """A signal stops the search, and what was tried is printed."""
    with Folder(FILES | {"tree": tree_of("qemu"), "known.toml": host_file(KNOWN)}) as folder:
        ran = subprocess.Popen([START, *WITH_TREE, "--rim", "5a" * 32, "--", *QEMU], cwd=folder.path, stdout=subprocess.PIPE, stderr=subprocess.PIPE,
                               text=True)
        first = ran.stderr.readline()
        time.sleep(PATIENCE)
        ran.send_signal(signal.SIGINT)
        out, said = ran.communicate(timeout=SECONDS)
        wrong = differs("status", (ran.returncode, "combinations of 9 rows" in first, said), (130, True, ""))
        return wrong + differs("what was tried", out.startswith("the search was stopped; none of ") and "  stub: none" in out, True)


def none_found(program: str):
    """A machine that does what no row says: what was tried, row by row, and no file."""
    machine = likeliest()
    machine.recs_first = True
    with folder_of(machine) as folder:
        folder.put("known.toml", host_file(KNOWN))
        status, out, said = settle(folder, machine, "--rim", value_of(program, folder), "--out", "settled.toml", "--limit", "2000")
        wrong = differs("status", (status, "settled.toml" in folder.names()), (1, False))
        trace = subprocess.run([program, "trace", "machine.toml", "a"], cwd=folder.path, capture_output=True, check=True).stdout
        folder.put("trace", trace)
        status, traced, _ = settle(folder, machine, "--trace", "trace", "--out", "settled.toml")
        wrong += differs("by its trace", (status, [line for line in ("  the first 1 of ", "  its next step, which is not the machine's: init_ripas ")
                                                   if line not in traced]), (1, []))
        folder.put("other.toml", manifest(likeliest()).encode())
        steps = subprocess.run([program, "trace", "other.toml", "a"], cwd=folder.path, capture_output=True, check=True, text=True).stdout.splitlines()
        blocks = [number for number, line in enumerate(steps) if " init_ripas " in line]
        coarse = [line for number, line in enumerate(steps) if number not in blocks[:-1]][:-1] + ["5a" * 64 + " rec_create"]
        folder.put("trace", "\n".join(coarse).encode())
        status, traced, _ = settle(folder, machine, "--trace", "trace", "--limit", "500", "--out", "settled.toml")
        wrong += differs("a trace by commands", (status, len(blocks) > 2, [line for line in (
            f"  the first {len(coarse) - 1} of {len(coarse)} steps of the trace are those of the launch by ", "not the machine's: rec_create ")
            if line not in traced]), (1, True, []))
        folder.put("known.toml", host_file(KNOWN | {"num_bps": 3}))
        folder.put("trace", b"0" * 128 + trace[128:])
        status, traced, _ = settle(folder, machine, "--trace", "trace", "--row", "num_bps=as_read", "--limit", "500", "--out", "settled.toml")
        wrong += differs("by its first step", (status, "realm_create, has another measurement by each of these\n" in traced), (1, True))
        return wrong + [line for line in ("none of 2,000 launches has the value, the likeliest of ", "  stub: none, measured\n",
                                          "  rec_rule: runnable, all\n",
                                          "  pmu: true and false", "what no row says may be: ") if line not in out]


GIVEN = ["settle", "qemu", "--host", "known.toml", "--out", "o"]
WITH_TREE = [*GIVEN, "--dtb", "tree"]
WRONG = [
    ("no hypervisor", ["settle", "xen"], 2, 'settle: "xen", expected qemu, kvmtool, cloud-hypervisor or --help'),
    ("no value", [*WITH_TREE, "--", *QEMU], 2, "--rim: it is not given"),
    ("a value of another length", [*WITH_TREE, "--rim", "00ff", "--", *QEMU], 2, "--rim: "),
    ("no line", [*GIVEN, "--rim", "ab" * 32], 2, "no command line of the guest is given"),
    ("no file", ["settle", "qemu", "--host", "known.toml", "--rim", "ab" * 32, "--", *QEMU], 2, "--out: it is not given"),
    ("a file in no folder", [*replaced(WITH_TREE, "--out", "none/o"), "--rim", "ab" * 32, "--", *QEMU], 3, "none/o: it cannot be made"),
    ("another word", ["settle", "qemu", "--measure", "--", *QEMU], 2, '"--measure": no word of this hypervisor\'s'),
    ("a limit", [*GIVEN, "--rim", "ab" * 32, "--limit", "0", "--", *QEMU], 2, '--limit: "0"'),
    ("another algorithm", [*replaced(WITH_TREE, "settle", "kvmtool"), "--rim", "ab" * 64, "--", "lkvm", "run", "--realm", "--measurement-algo", "sha256",
                           "-c", "1", "-m", "256", "-k", "Image"], 2, "the value has the length of sha512"),
    ("another devicetree", [*WITH_TREE, "--rim", "ab" * 32, "--", *QEMU, "-m", "2G"], 3, "RAM: "),
    ("no trace", [*WITH_TREE, "--trace", "Image", "--", *QEMU], 3, "Image: it is no UTF-8"),
    ("no guests", [*GIVEN, "--guests", "known.toml"], 3, "expected an array of tables `guest`"),
    ("another guest", [*GIVEN, "--guests", "g"], 3, "g: guest 1: expected a table of line"),
]


def wrong_words(_program: str):
    """Wrong words and faults are one line, and nothing is written."""
    wrong = []
    with Folder(FILES | {"tree": tree_of("qemu"), "known.toml": host_file(KNOWN), "g": b'[[guest]]\nlines = "a"\n'}) as folder:
        before = folder.names()
        for name, words, status, text in WRONG:
            ended, out, said = folder.run(*words)
            lines = [line for line in said.splitlines() if "warning: " not in line]
            wrong += differs(name, (ended, out, len(lines), folder.names()), (status, "", 1, before)) + ([] if text in said else [f"{name}: {said}"])
    return wrong


def rows(program: str):
    """Machines with several rows that are not the likeliest: pages of the host, RAM for each blob, pages of blobs."""
    wrong = []
    for vmm, ways in (("qemu", {"host_pages": "64k", "ram": "each", "dtb_pages": "used"}), ("kvmtool", {"host_pages": "16k", "ram": "each", "order": "dtb_first"}),
                      ("cloud-hypervisor", {"kernel_pages": "image_size", "host_pages": "64k", "order": "kind"})):
        machine = likeliest(vmm, **ways)
        with folder_of(machine) as folder:
            folder.put("known.toml", host_file(KNOWN | ({"s2sz_max": 48} if vmm == "cloud-hypervisor" else {})))
            status, out, said = settle(folder, machine, "--rim", value_of(program, folder), "--out", "settled.toml")
            wrong += differs(vmm, status, 0) + ([out + said] if status else is_told(machine, folder.toml("settled.toml"), out))
    return wrong


def few(program: str):
    """A few machines."""
    wrong = []
    for number, vmm in enumerate(LAYOUTS):
        wrong += simulated(program, vmm, number, Kind.LIKELY)[0]
    return wrong


def main():
    parser = argparse.ArgumentParser()
    parser.add_argument("--machines", type=int)
    parser.add_argument("--seed", type=int, default=1)
    parser.add_argument("--limit", default="100000")
    parser.add_argument("--kinds", default="likely,random,blind")
    parser.add_argument("program", nargs="*")
    said = parser.parse_args()
    program = program_of(said.program)
    os.environ["RIM"] = program
    if said.machines:
        return told(machines(program, said.machines, said.seed, said.limit, [Kind[each.upper()] for each in said.kinds.split(",")]))
    outcomes = [(each.__name__, tried(each, program)) for each in (
        best_first_is_right, the_file, values_of_files, forms, narrowed, terminal, stopped, none_found, wrong_words, rows, few)]
    return told(outcomes)


if __name__ == "__main__":
    sys.exit(main())
