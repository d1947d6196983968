#!/usr/bin/env python3
"""Compares `rim fdt` with libfdt on devicetrees made by dtc, dumped by QEMU, and named on the command line.

Usage: tools/trials/devicetrees.py [FILE.dtb ..]

It needs dtc and libfdt's Python module (Debian: device-tree-compiler, python3-libfdt), and uses
qemu-system-aarch64 (Debian: qemu-system-arm) where it is there. Where one of the first two is missing,
it says so and ends with status 0. The gate does not run it.
"""
import os
import shutil
import struct
import subprocess
import sys
import tempfile

TOP = os.path.dirname(os.path.dirname(os.path.dirname(os.path.abspath(__file__))))
RIM = os.path.join(TOP, "rim")
sys.path.insert(0, os.path.join(TOP, "tests"))

from helpers.tries import told  # noqa: E402, the path is set above

SOURCES = {
    "root alone": "/ { };",
    "reservations": "/memreserve/ 0x80000000 0x10000; /memreserve/ 0x0 0x1; / { };",
    "names that share an end": "/ { xreg; reg; #address-cells = <2>; address-cells; };",
    "values": '/ { a; b = ""; c = "one", "two"; d = <1 2 3>; e = [00 ff 10]; f = /bits/ 64 <0x123456789abcdef0>; };',
    "children": "/ { p = <1>; a { q = <2>; b@1 { r; }; b@2 { r; }; }; c { a { }; }; };",
    "labels and phandles": "/ { x: cpu@0 { reg = <0>; }; chosen { boot = <&x>; path = &x; }; };",
    "level of 63": "/ { " + "n { " * 62 + "}; " * 62 + "};",
    "many nodes": "/ { " + "".join(f"node@{i:x} {{ reg = <{i}>; name{i} = [0{i % 10}]; }}; " for i in range(5000)) + "};",
}

DTC_WAYS = [[], ["-b", "3"], ["-S", "200000"], ["-p", "64"], ["-R", "9"], ["-V", "17"]]

MACHINES = ["virt", "virt,gic-version=3", "virt,virtualization=on", "virt,secure=on", "virt,highmem=off"]


def expected(libfdt, data):
    """The text that libfdt's answers give."""
    tree = libfdt.FdtRo(data)
    lines = [f"boot_cpu {tree.boot_cpuid_phys()}"]
    pairs = struct.iter_unpack(">QQ", data[tree.off_mem_rsvmap():][: 16 * tree.num_mem_rsv()])
    lines += [f"reserve {address:016x} {size:016x}" for address, size in pairs]

    def node(offset, path):
        lines.append(f"node {path or '/'}")
        at = tree.first_property_offset(offset, libfdt.QUIET_NOTFOUND)
        while at >= 0:
            prop = tree.get_property_by_offset(at)
            lines.append(f"prop {prop.name} {bytes(prop).hex()}".rstrip())
            at = tree.next_property_offset(at, libfdt.QUIET_NOTFOUND)
        child = tree.first_subnode(offset, libfdt.QUIET_NOTFOUND)
        while child >= 0:
            node(child, f"{path}/{tree.get_name(child)}")
            child = tree.next_subnode(child, libfdt.QUIET_NOTFOUND)

    node(0, "")
    return "".join(line + "\n" for line in lines)


def made(folder):
    """Devicetrees of dtc and QEMU: their names and files."""
    for name, source in SOURCES.items():
        for number, way in enumerate(DTC_WAYS):
            path = os.path.join(folder, f"{name}-{number}.dtb")
            text = "/dts-v1/; " + source
            subprocess.run(["dtc", "-q", "-I", "dts", "-O", "dtb", "-o", path, *way], input=text, text=True, check=True)
            yield f"{name} {' '.join(way)}".strip(), path
    if shutil.which("qemu-system-aarch64"):
        for machine in MACHINES:
            path = os.path.join(folder, machine + ".dtb")
            command = ["qemu-system-aarch64", "-cpu", "cortex-a57", "-machine", f"{machine},dumpdtb={path}"]
            subprocess.run(command, check=True, capture_output=True)
            yield f"qemu {machine}", path
    else:
        print("skipped: QEMU's devicetrees, since there is no qemu-system-aarch64")


def outcomes(libfdt):
    """Yields each devicetree with how `rim fdt` and libfdt differ."""
    with tempfile.TemporaryDirectory() as folder:
        for name, path in list(made(folder)) + [(path, path) for path in sys.argv[1:]]:
            with open(path, "rb") as file:
                data = file.read()
            ran = subprocess.run([RIM, "fdt", path], capture_output=True, text=True)
            is_same = ran.returncode == 0 and ran.stdout == expected(libfdt, data)
            yield name, [] if is_same else [f"differs: {ran.returncode} {ran.stderr.strip()}"]


def main():
    try:
        import libfdt
    except ImportError:
        print("skipped: there is no Python module libfdt")
        return 0
    if not shutil.which("dtc"):
        print("skipped: there is no dtc")
        return 0
    return told(outcomes(libfdt))


sys.exit(main())
