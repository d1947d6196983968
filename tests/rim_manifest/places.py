"""Places: addresses that were worked out by hand from docs/VMM.md, of each hypervisor."""
import struct

from helpers import MIB
from helpers.files import image, tree
from helpers.folders import Folder
from helpers.guests import LOW
from helpers.tries import differs

from .written import read_by

# A name, words, the kernel, the length of the initrd (None: none), and by hand: RAM, `at` of each item, pc, x, s2sz.
Q = ["-M", "virt", "-cpu", "max"]
QEMU_PLACES = [
    ("128 MiB", [*Q], image(), 9001, [(LOW, 0x4800_0000)], {"stub": LOW, "kernel": 0x4020_0000, "initrd": 0x4400_0000, "dtb": 0x4420_0000},
     LOW, [], 41),
    ("256 MiB", [*Q, "-m", "256"], image(), 9001, [(LOW, 0x5000_0000)],
     {"stub": LOW, "kernel": 0x4020_0000, "initrd": 0x4800_0000, "dtb": 0x4820_0000}, LOW, [], 41),
    ("2 GiB", [*Q, "-m", "2G"], image(), 9001, [(LOW, 0xC000_0000)],
     {"stub": LOW, "kernel": 0x4020_0000, "initrd": 0x4800_0000, "dtb": 0x4820_0000}, LOW, [], 41),
    ("4 GiB", [*Q, "-m", "4096M"], image(), 9001, [(LOW, 0x1_4000_0000)],
     {"stub": LOW, "kernel": 0x4020_0000, "initrd": 0x4800_0000, "dtb": 0x4820_0000}, LOW, [], 41),
    ("600 GiB", [*Q, "-m", "600G"], image(), None, [(LOW, 0x96_4000_0000)], {"stub": LOW, "kernel": 0x4020_0000, "dtb": 0x4800_0000}, LOW,
     [], 42),
    ("128 MiB without initrd", [*Q], image(), None, [(LOW, 0x4800_0000)], {"stub": LOW, "kernel": 0x4020_0000, "dtb": 0x4400_0000}, LOW,
     [], 41),
    ("an initrd that ends at 2 MiB", [*Q, "-m", "1G"], image(), 2 * MIB, [(LOW, 0x8000_0000)],
     {"stub": LOW, "kernel": 0x4020_0000, "initrd": 0x4800_0000, "dtb": 0x4820_0000}, LOW, [], 41),
    ("a kernel past the initrd's place", [*Q, "-m", "1G"], image(128 * MIB), 9001, [(LOW, 0x8000_0000)],
     {"stub": LOW, "kernel": 0x4020_0000, "initrd": 0x4820_0000, "dtb": 0x4840_0000}, LOW, [], 41),
    ("a kernel past it, no whole page", [*Q, "-m", "1G"], image(128 * MIB + 1), None, [(LOW, 0x8000_0000)],
     {"stub": LOW, "kernel": 0x4020_0000, "dtb": 0x4840_0000}, LOW, [], 41),
    ("text_offset 0x80000", [*Q, "-m", "1G", "--stub", "none"], image(MIB, 0x80000), 9001, [(LOW, 0x8000_0000)],
     {"kernel": LOW, "initrd": 0x4800_0000, "dtb": 0x4820_0000}, 0x4008_0000, [0x4820_0000], 41),
    ("text_offset 4096", [*Q, "-m", "1G", "--stub", "none"], image(MIB, 4096), 9001, [(LOW, 0x8000_0000)],
     {"kernel": LOW, "initrd": 0x4800_0000, "dtb": 0x4820_0000}, 0x4000_1000, [0x4820_0000], 41),
    ("text_offset below 4096", [*Q, "-m", "1G", "--stub", "none"], image(MIB, 4088), 9001, [(LOW, 0x8000_0000)],
     {"kernel": 0x4020_0000, "initrd": 0x4800_0000, "dtb": 0x4820_0000}, 0x4020_0FF8, [0x4820_0000], 41),
    ("image_size 0", [*Q, "-m", "1G", "--stub=none"], image(0, 0), 9001, [(LOW, 0x8000_0000)],
     {"kernel": LOW, "initrd": 0x4800_0000, "dtb": 0x4820_0000}, 0x4008_0000, [0x4820_0000], 41),
    ("204.5 MiB", [*Q, "-m", "204.5M"], image(), 9001, [(LOW, 0x4CC8_0000)],
     {"stub": LOW, "kernel": 0x4020_0000, "initrd": 0x4664_0000, "dtb": 0x4680_0000}, LOW, [], 41),
    ("bytes that are rounded up", [*Q, "-m", "268435457B"], image(), None, [(LOW, 0x5000_2000)],
     {"stub": LOW, "kernel": 0x4020_0000, "dtb": 0x4800_0000}, LOW, [], 41),
    ("highmem=off", ["-M", "virt,highmem=off", "-cpu", "max", "-m", "1G"], image(), None, [(LOW, 0x8000_0000)],
     {"stub": LOW, "kernel": 0x4020_0000, "dtb": 0x4800_0000}, LOW, [], 32),
    ("highmem-mmio=off", ["-M", "virt,highmem-mmio=off", "-cpu", "max", "-m", "1G"], image(), None, [(LOW, 0x8000_0000)],
     {"stub": LOW, "kernel": 0x4020_0000, "dtb": 0x4800_0000}, LOW, [], 40),
    ("highmem-ecam=off", ["-M", "virt,highmem-ecam=off", "-cpu", "max", "-m", "1G"], image(), None, [(LOW, 0x8000_0000)],
     {"stub": LOW, "kernel": 0x4020_0000, "dtb": 0x4800_0000}, LOW, [], 41),
    ("windows that leave their room", ["-M", "virt,highmem-mmio=off,compact-highmem=off", "-cpu", "max", "-m", "1G"], image(), None,
     [(LOW, 0x8000_0000)], {"stub": LOW, "kernel": 0x4020_0000, "dtb": 0x4800_0000}, LOW, [], 41),
    ("windows that leave their room by the machine", ["-M", "virt-7.2,highmem-mmio=off", "-cpu", "max", "-m", "1G"], image(), None,
     [(LOW, 0x8000_0000)], {"stub": LOW, "kernel": 0x4020_0000, "dtb": 0x4800_0000}, LOW, [], 41),
    ("a larger window", ["-M", "virt,highmem-mmio-size=1T", "-cpu", "max", "-m", "1G"], image(), None, [(LOW, 0x8000_0000)],
     {"stub": LOW, "kernel": 0x4020_0000, "dtb": 0x4800_0000}, LOW, [], 42),
    ("memory slots", [*Q, "-m", "1G,slots=4,maxmem=8G"], image(), None, [(LOW, 0x8000_0000)],
     {"stub": LOW, "kernel": 0x4020_0000, "dtb": 0x4800_0000}, LOW, [], 41),
    ("memory slots up to 511 GiB", [*Q, "-m", "1G,slots=10,maxmem=500G"], image(), None, [(LOW, 0x8000_0000)],
     {"stub": LOW, "kernel": 0x4020_0000, "dtb": 0x4800_0000}, LOW, [], 41),
    ("memory slots past 512 GiB", [*Q, "-m", "1G,slots=12,maxmem=500G"], image(), None, [(LOW, 0x8000_0000)],
     {"stub": LOW, "kernel": 0x4020_0000, "dtb": 0x4800_0000}, LOW, [], 42),
    ("memory slots without windows", ["-M", "virt,highmem-mmio=off,highmem-ecam=off,highmem-redists=off", "-cpu", "max", "-m",
     "1G,slots=2,maxmem=6G"], image(), None, [(LOW, 0x8000_0000)], {"stub": LOW, "kernel": 0x4020_0000, "dtb": 0x4800_0000}, LOW, [], 35),
    ("no window above RAM", ["-M", "virt,highmem-mmio=off,highmem-ecam=off,highmem-redists=off", "-cpu", "max", "-m", "4G"], image(), None,
     [(LOW, 0x1_4000_0000)], {"stub": LOW, "kernel": 0x4020_0000, "dtb": 0x4800_0000}, LOW, [], 34),
    ("a window of CXL alone", ["-M", "virt,highmem-mmio=off,highmem-ecam=off,highmem-redists=off,cxl=on", "-cpu", "max", "-m", "1G"], image(), None,
     [(LOW, 0x8000_0000)], {"stub": LOW, "kernel": 0x4020_0000, "dtb": 0x4800_0000}, LOW, [], 40),
]
OTHER_PLACES = [
    ("256 MiB", ["kvmtool", "-c", "1", "-m", "256"], image(), 9001, [(0x8000_0000, 0x9000_0000)],
     {"kernel": 0x8000_0000, "initrd": 0x8FDF_DCD4, "dtb": 0x8FE0_0000}, 0x8000_0000, [0x8FE0_0000], 33),
    ("64 MiB", ["kvmtool", "--cpus", "1", "--mem", "64M"], image(), None, [(0x8000_0000, 0x8400_0000)],
     {"kernel": 0x8000_0000, "dtb": 0x83E0_0000}, 0x8000_0000, [0x83E0_0000], 33),
    ("64 MiB and 32 KiB", ["kvmtool", "-c", "1", "-m", "65568K"], image(), None, [(0x8000_0000, 0x8400_8000)],
     {"kernel": 0x8000_0000, "dtb": 0x83E0_0000}, 0x8000_0000, [0x83E0_0000], 33),
    ("4 GiB", ["kvmtool", "--cpus=1", "--mem=4G"], image(), 9000, [(0x8000_0000, 0x1_8000_0000)],
     {"kernel": 0x8000_0000, "initrd": 0x8FDF_DCD4, "dtb": 0x8FE0_0000}, 0x8000_0000, [0x8FE0_0000], 34),
    ("RAM elsewhere", ["kvmtool", "-c", "1", "-m", "1G@0x40000000"], image(MIB, 0x80000), None, [(LOW, 0x8000_0000)],
     {"kernel": LOW, "dtb": 0x4FE0_0000}, 0x4008_0000, [0x4FE0_0000], 33),
    ("512 MiB", ["cloud-hypervisor"], image(), 9001, [(LOW, 0x6000_0000)],
     {"kernel": 0x4040_0000, "initrd": 0x5FFF_D000, "dtb": LOW}, 0x4040_0000, [LOW], 48),
    ("two regions", ["cloud-hypervisor", "--memory", "size=4G", "--cpus", "boot=1"], image(), 9001,
     [(LOW, 0xFC00_0000), (0x1_0000_0000, 0x1_4400_0000)],
     {"kernel": 0x4040_0000, "initrd": 0x1_43FF_D000, "dtb": LOW}, 0x4040_0000, [LOW], 48),
]


def placed(program: str, words: list[str], kernel: bytes, initrd: int | None, ram, at: dict, pc: int, x: list, s2sz: int):
    """How the launch of some words differs from addresses that were worked out by hand."""
    is_qemu = words[0].startswith("-")
    span = (at["initrd"], at["initrd"] + initrd) if initrd else None
    made = tree(ram, initrd=span, length=MIB if is_qemu else None, cells=">I" if is_qemu and initrd == 9001 else ">Q",
                **{"pcie@10000000": {}} if s2sz < 41 else {})
    with Folder({"Image": kernel, "i": bytes(initrd or 0), "tree": made}) as folder:
        words = (["qemu"] if is_qemu else []) + words + ["--kernel", "Image"] + (["--initrd", "i"] if initrd else [])
        words += ["--stub", "measured"] if "stub" in at else []
        status, _, said = folder.run(*words, "--host", "host.toml", "--out", "out", "--dtb", "tree")
        if status or said:
            return [f"status {status}, {said!r}"]
        launch = folder.toml()["launch"][0]
        wrong = differs("ram", launch["ram"], [list(each) for each in ram]) + differs("s2sz", launch["s2sz"], s2sz)
        wrong += differs("items", {item["name"]: item["at"] for item in launch["item"]}, at)
        wrong += differs("rec", launch["rec"], [{"pc": hex(pc), "x": [hex(each) for each in x]}])
        text_offset, image_size = struct.unpack_from("<QQ", kernel, 8)
        entry = at["kernel"] + (text_offset if image_size else 0x80000)
        rising = sorted(at, key=lambda name: entry if name == "kernel" else at[name])
        regions = [f"ram {n}" for n in range(len(ram))]
        wrong += differs("steps", launch["steps"], [*regions, *(f"item {name}" for name in rising), "rec 0"])
        if "stub" in at:
            stub = "c0000058e1031faae2031faae3031faa8400005880001fd6" + struct.pack("<QQ", at["dtb"], entry).hex()
            wrong += differs("stub", folder.read("out/stub-1").hex(), stub)
        return wrong + read_by(program, folder, count=1)


def places(program: str):
    for name, *rest in QEMU_PLACES + OTHER_PLACES:
        yield f"places of {rest[0][0] if not rest[0][0].startswith('-') else 'qemu'}: {name}", lambda rest=rest: placed(program, *rest)
