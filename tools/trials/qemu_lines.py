#!/usr/bin/env python3
"""Draws command lines of QEMU at random, has rim-manifest make a manifest of each, and compares that with the memory of a QEMU that is
started by the line itself, with all of its words. Not part of the gate.

usage: tools/trials/qemu_lines.py [--qemu PROGRAM] [--count N] [--seed N]

A line has words of each row of QEMU's table that a start without a network takes: of the layout in several forms and more than once, those
that change the devicetree, and harmless ones; in any order. `-M dtb-randomness=off` is added, since no two starts are alike without it.
Each line has a line: `the same`, WRONG with what differs, or `refused` with why, where QEMU ends by itself too. A line that only
rim-manifest refuses is WRONG. First each word of the table is asked of QEMU, whether it takes a value: else the words after it would be
read otherwise than QEMU reads them. The last line is 'N passed, M failed, L refused'.
"""
import argparse
import gzip
import json
import os
import random
import shlex
import struct
import subprocess
import sys
import tempfile

import qemu_memory

TOP = os.path.dirname(os.path.dirname(os.path.dirname(os.path.abspath(__file__))))
sys.path.insert(0, os.path.join(TOP, "scripts"))

from vmm.qemu_words import WORDS  # noqa: E402, the path is set above
from vmm.sorting import Takes  # noqa: E402

MIB = 1 << 20
HOST = "num_bps = 5\nnum_wps = 3\nsve = false\npmu = true\npmu_num_ctrs = 6\nblock_level = 2\nrec_rule = \"runnable\"\ns2sz_max = 48\n"
# Groups of words that are beside a layout, of which each is there or not. {n} is another number in each.
OTHERS = [
    ["-name", "guest=a,debug-threads=on"], ["-uuid", "4dea22b3-1d52-d8f3-2516-782e98ab3fa0"], ["-rtc", "base=utc"], ["-no-user-config"],
    ["-chardev", "null,id=c{n}", "-mon", "chardev=c{n},mode=readline"], ["-qmp", "unix:live/qmp{n},server=on,wait=off"], ["-monitor", "none"],
    ["-serial", "null"], ["-serial", "file:live/log{n}"], ["-serial", "none"], ["-boot", "strict=on"], ["-k", "en-us"], ["-vga", "none"],
    ["-drive", "file=live/disk,format=raw,if=none,id=d{n},snapshot=on", "-device", "virtio-blk-pci,drive=d{n}"], ["-no-reboot"],
    ["-blockdev", '{"driver":"null-co","node-name":"b{n}"}', "-device", '{"driver":"virtio-blk-pci","drive":"b{n}","id":"v{n}"}'],
    ["-netdev", "user,id=n{n}", "-device", "virtio-net-pci,netdev=n{n},romfile="], ["-pidfile", "live/pid"], ["-D", "live/trace"], ["-usb"],
    ["-object", "rng-random,id=r{n},filename=/dev/urandom", "-device", "virtio-rng-pci,rng=r{n}"], ["-overcommit", "mem-lock=off"],
    ["-device", "pcie-root-port,id=p{n},chassis={n}"],
    ["-device", '{"driver":"qemu-xhci","id":"x{n}"}', "-device", '{"driver":"usb-kbd","bus":"x{n}.0"}'],
    ["-smbios", "type=1,serial=a"], ["-fw_cfg", "name=opt/a{n},string=b"], ["-audiodev", "none,id=a{n}"], ["-msg", "timestamp=on"],
    ["-no-shutdown"], ["-device", "virtio-serial-pci,id=s{n}", "-chardev", "null,id=h{n}", "-device", "virtconsole,chardev=h{n},bus=s{n}.0"],
    ["-fsdev", "local,id=f{n},path=live,security_model=none", "-device", "virtio-9p-pci,fsdev=f{n},mount_tag=t"], ["-action", "panic=none"],
    ["-object", "iothread,id=i{n}"], ["-object", '{"qom-type":"secret","id":"k{n}","data":"abc"}'], ["-device", "virtio-balloon-pci"],
    ["-accel", "tcg,thread=multi"], ["-accel", "tcg"], ["-device", "virtio-iommu-pci,addr=9"], ["-watchdog-action", "none"], ["-seed", "7"],
    ["-global", "virtio-rng-pci.max-bytes=64"], ["-compat", "deprecated-input=accept"], ["-icount", "shift=1"], ["-semihosting"],
    ["-device", "i6300esb"], ["-gdb", "none"], ["-singlestep"], ["-snapshot"], ["-L", "live"],
]
MACHINE = ["its=off", "its=on", "iommu=smmuv3", "acpi=off", "usb=off", "dump-guest-core=off", "highmem=off", "mem-merge=off", "ras=off",
           "default-bus-bypass-iommu=on", "graphics=off", "suppress-vmdesc=on", "x-oem-id=ABC", "virtualization=off", "secure=off", "mte=off"]


def image(text_offset: int, image_size: int, length: int, draw: random.Random) -> bytes:
    """An arm64 Image: its header, and bytes in the place of code."""
    header = struct.pack("<IIQQQQQQII", 0, 0x14000010, text_offset, image_size, 0xA, 0, 0, 0, 0x644D5241, 0)
    return header + draw.randbytes(length - len(header))


def several(option: str, value: str, draw: random.Random) -> list[list[str]]:
    """A word as it is, or its parts as several."""
    words = value.split(",")
    at = draw.randrange(1, len(words)) if len(words) > 1 and draw.random() < 0.4 else 0
    groups = [[option, ",".join(words[:at])], [option, ",".join(words[at:])]] if at else [[option, value]]
    return ([[option, words[0]]] if draw.random() < 0.2 and words[0].isdigit() else []) + groups


def processors(draw: random.Random) -> str:
    count = draw.choice((1, 1, 2, 2, 3, 4, 6, 8))
    return draw.choice((f"{count}", f"cpus={count}", f"{count},maxcpus={count + 2}", f"cores={count},sockets=1,threads=1",
                        f"{count},sockets={count},cores=1,threads=1", f"maxcpus={count}", f"sockets=1,clusters={count},cores=1"))


def ram(draw: random.Random) -> tuple[str, str]:
    """The words of -m, and its size as a backend has it."""
    size = draw.choice((96, 128, 200, 255, 256, 300, 512, 1024))
    text = draw.choice((f"{size}", f"{size}M", f"size={size}M", f"{size * 1024}k", f"size={size},slots=3,maxmem=4G", f"{size}M,slots=2,maxmem=700G"))
    return text, f"{size}M"


def line(draw: random.Random) -> list[str]:
    """The words of a line, in groups whose order is drawn. Groups of one word keep theirs, since it counts."""
    memory, size = ram(draw)
    kind = draw.choice(("virt", "virt", "virt-7.2", "virt-6.2", "virt-5.0"))
    beside = [f"gic-version={draw.choice(('3', '3', 'max'))}", *draw.sample(MACHINE, draw.randrange(0, 5))]
    if "iommu=smmuv3" in beside:
        beside = [word for word in beside if word != "its=off"]
    others = draw.sample(OTHERS, draw.randrange(0, 9))
    if draw.random() < 0.3:
        beside.append("memory-backend=ram0")
        others.append(["-object", draw.choice((f"memory-backend-ram,id=ram0,size={size}", f"memory-backend-memfd,id=ram0,size={size},share=on"))])
    if "its=off" in beside or kind == "virt-5.0":
        others = [group for group in others if "pcie-root-port" not in group[-1]]   # which needs an ITS
    if ["-icount", "shift=1"] in others:
        others = [group for group in others if "thread=multi" not in group[-1]]     # which are not possible together
    if "iommu=smmuv3" in beside:
        others = [group for group in others if "iommu" not in group[-1]]
    words = [several("-M", ",".join([kind, *beside]), draw), several("-smp", processors(draw), draw), several("-m", memory, draw),
             [["-cpu", draw.choice(("cortex-a57", "cortex-a72", "cortex-a53", "max", "neoverse-n1", "max,pmu=on", "cortex-a57,pmu=on"))]],
             [["-kernel", draw.choice(("Image", "Image.gz", "low", "zero", "bss"))]],
             [["-append", draw.choice(("console=ttyAMA0", "a='b c' \"d\" \\e", "quiet,x=1 é", ""))]] if draw.random() < 0.8 else [],
             [["-initrd", draw.choice(("small", "large", "page"))]] if draw.random() < 0.7 else [],
             *[[[word.replace("{n}", str(number)) for word in group]] for number, group in enumerate(others, 1)]]
    slots = [at for at, groups in enumerate(words) for _ in groups]
    draw.shuffle(slots)
    left = [list(groups) for groups in words]
    return [word for at in slots for word in left[at].pop(0)]


def make_files(folder: str, draw: random.Random):
    plain = image(0, 3 * MIB, 500_000, draw)
    found = {"Image": plain, "Image.gz": gzip.compress(plain), "low": image(0x80000, MIB, 99_999, draw), "zero": image(0, 0, 70_001, draw),
             "bss": image(4096, 40 * MIB, 1_000_000, draw), "small": draw.randbytes(9001), "large": draw.randbytes(5 * MIB + 17),
             "page": draw.randbytes(2 * MIB), "host.toml": HOST.encode(), "live/disk": bytes(MIB)}
    os.mkdir(os.path.join(folder, "live"))
    for name, data in found.items():
        with open(os.path.join(folder, name), "wb") as file:
            file.write(data)


def other_values(qemu: str) -> list[str]:
    """The words of the table that take a value where QEMU takes none, or the other way; of those that this QEMU has."""
    wrong = []
    for name, takes in ((name, entry.takes) for entry in WORDS for name in entry.names):
        said = subprocess.run([qemu, "-M", "none such", name], capture_output=True, text=True, check=False).stderr
        if "invalid option" not in said and ("requires an argument" in said) != (takes is Takes.VALUE):
            wrong.append(name)
    return wrong


def ends(qemu: str, words: list[str]) -> bool:
    """Whether QEMU ends by itself."""
    try:
        qemu_memory.Monitor([qemu, *words]).stop()
    except SystemExit:
        return True
    return False


def tried(qemu: str, words: list[str], folder: str, out: str) -> tuple[str, list[str]]:
    """What came of a line: `the same`, `refused` or WRONG; and lines about it."""
    start = [os.path.join(TOP, "rim-manifest"), "qemu", "--host", "host.toml", "--stub", "measured", "--row", "psci=dumped", "--out", out, "--qemu", qemu, "--", "qemu-system-aarch64", *words]
    made = subprocess.run(start, cwd=folder, capture_output=True, text=True, check=False)
    os.chdir(folder)
    if made.returncode:
        return ("refused" if ends(qemu, words) else "WRONG"), made.stderr.splitlines()[-1:]
    with open(os.path.join(folder, out, "record.json"), encoding="utf-8") as file:
        launches = json.load(file)["launches"]
    if len(launches) != 1:
        return "WRONG", [f"{len(launches)} launches"]
    listing = qemu_memory.listing_of(os.path.join(folder, out), launches[0]["manifest"], launches[0]["name"])
    wrong = qemu_memory.compare([qemu, *words, "-M", "dtb-randomness=off"], listing)
    return ("WRONG", wrong) if wrong else ("the same", [f"{len(listing.pages)} measured pages"])


def main():
    parser = argparse.ArgumentParser(description=__doc__, formatter_class=argparse.RawDescriptionHelpFormatter)
    parser.add_argument("--qemu", default="qemu-system-aarch64")
    parser.add_argument("--count", type=int, default=60)
    parser.add_argument("--seed", type=int, default=1)
    said = parser.parse_args()
    other = other_values(said.qemu)
    print(*(f"{name}: WRONG: whether it takes a value" for name in other), sep="\n", end="\n" * bool(other))
    draw, counts = random.Random(said.seed), {"the same": 0, "WRONG": len(other), "refused": 0}
    with tempfile.TemporaryDirectory() as folder:
        make_files(folder, draw)
        for number in range(said.count):
            words = line(draw)
            try:
                came, lines = tried(said.qemu, words, folder, f"out{number}")
            except SystemExit as why:
                came, lines = "WRONG", [str(why)]
            counts[came] += 1
            print(f"{number}: {came}: {'; '.join(lines[:4])}\n    {shlex.join(words)}", flush=True)
    print(f"{counts['the same']} passed, {counts['WRONG']} failed, {counts['refused']} refused")
    return int(counts["WRONG"] > 0)


if __name__ == "__main__":
    sys.exit(main())
