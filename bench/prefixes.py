#!/usr/bin/env python3
"""Counts and times the launches of a release that begin alike. Not part of the gate.

usage: bench/prefixes.py [RUNS]

The release has 300 launches of one kernel and one initrd: five sizes of RAM, one to five vCPUs, two algorithms and six
command lines. bench/prefixes/main.rt.in counts its extensions, and those that are done where shared prefixes are chained once.
bench/workers/main.rt.in is built twice, the second time from crates in which no launch has a prefix in common with another,
and both are run in turn on one thread, on that release and on one whose launches have nothing in common. The least
processor time of some runs is taken.
"""
import os
import random
import subprocess
import sys
import tempfile

import crates
from releases import MIB, file_of, launch
from workers import SMALL, measuring, run

# A change after which no launch has a prefix in common with another.
NO_PREFIX = ("rim_chain/src/siblings.rt", "if last.links > 0 && later < shared.len() {",
            "if last.links == usize::MAX && later < shared.len() {")


def image(folder, size):
    """A kernel's Image of that many bytes, which takes as many when it runs."""
    head = bytes(8) + (0).to_bytes(8, "little") + size.to_bytes(8, "little") + (0xA).to_bytes(8, "little") + bytes(24) + b"ARMd" + bytes(4)
    with open(os.path.join(folder, "kernel"), "wb") as file:
        file.write(head + random.Random("kernel").randbytes(size - len(head)))
    return f'[[file]]\nname = "kernel"\npath = "{os.path.join(folder, "kernel")}"\n'


def alike(folder):
    """300 launches of one kernel of 30 MiB and one initrd of 40 MiB, each with a devicetree of its own."""
    tree = os.path.join(crates.top, "examples", "vm", "virt.dtb")
    text = image(folder, 30 * MIB) + file_of(folder, "initrd", 40 * MIB) + f'[[file]]\nname = "tree"\npath = "{tree}"\n'
    for n in range(300):
        size, cpus, algo, line = n % 5, n // 5 % 5, n // 25 % 2, n // 50
        end = 0x40000000 + (size + 1) * 0x40000000
        text += f'[[launch]]\nname = "launch-{n}"\nalgo = "{["sha256", "sha512"][algo]}"\ns2sz = 40\nram = [[0x40000000, 0x{end:x}]]\n'
        text += "item = [\n" + "".join(f"    {item},\n" for item in [
            '{ name = "kernel", kind = "kernel", file = "kernel", at = 0x40200000 }',
            '{ name = "initrd", kind = "initrd", file = "initrd", at = 0x48000000 }',
            f'{{ name = "tree", kind = "dtb", file = "tree", at = 0x4fe00000, bootargs = "console=ttyAMA0 line={line}", initrd = true, memory = true }}',
        ]) + "]\n" + "rec = [" + ", ".join(["{}"] * (cpus + 1)) + "]\n"
    return text


def unlike(folder):
    """40 launches of one item of 8 MiB, each with an address width of its own or a size of RAM."""
    text = file_of(folder, "raw", 8 * MIB)
    for n in range(40):
        text += launch(f"launch-{n}", 0x41000000 + n * 0x200000, [("raw", 0x40200000)])
    return text


def prepare():
    counter = crates.built("prefixes", "rim_accepted rim_report rim_manifest rim_desc rim_chain", [SMALL])
    return counter, [measuring(), measuring([NO_PREFIX])]


def main():
    runs = int(sys.argv[1]) if len(sys.argv) > 1 else 5
    counter, programs = prepare()
    with tempfile.TemporaryDirectory() as folder:
        path = os.path.join(folder, "manifest.toml")
        for what, made in [("300 launches over one kernel", alike), ("launches with nothing in common", unlike)]:
            with open(path, "w") as file:
                file.write("rim_manifest = 1\n" + made(folder))
            listed, done = (int(word) for word in subprocess.run([counter, path], check=True, capture_output=True, text=True).stdout.split())
            found = [[run([each, "alone", path]) for each in programs] for _ in range(runs)]
            if len({each[3] for pair in found for each in pair}) != 1:
                raise SystemExit(f"{what}: the reports differ")
            quick, plain = (min(pair[at][1] for pair in found) for at in [0, 1])
            print(f"{what}: {done:,} of {listed:,} extensions, {done / listed:.3f}; processor time {quick:.3f} s of {plain:.3f} s, {quick / plain:.3f}")


if __name__ == "__main__":
    main()
