#!/usr/bin/env python3
"""Weighs and times `rim audit` on inputs that are made to cost, by one or more programs. Not part of the gate.

usage: bench/audits.py PROGRAM.. [--only WORD]

PROGRAM is a built `rim`: crates/rim/out/rim, or one that dist/ had at some commit. Each input is given to each program in turn.
Its row has the processor seconds of a run and the most memory in MB that the run had at a time. Some rows are of runs with a
limit of memory (RLIMIT_AS), and say where it did not suffice. The script fails where two programs print something else.
WORD picks the inputs whose name has it.

All inputs take 3 to 10 minutes a program, and up to 3 GB of memory.
"""
import os
import random
import resource
import struct
import subprocess
import sys
import tempfile
import time

sys.path.insert(0, os.path.join(os.path.dirname(os.path.dirname(os.path.abspath(__file__))), "tests"))

from helpers import manifests  # noqa: E402, the path is set above

KIB, MIB = 1 << 10, 1 << 20
PAGE = 4 * KIB
# The largest number of launches of a manifest.
MOST = 1024
# A devicetree has at most 2 MiB; this is left for what an edit adds.
EDITED = 512
RAM = 0x40000000
# RECs with auxiliary granules and tables of 512 entries of 4 KiB, all of them RAM. A list of these has near 32,768 commands
# before its item, and each is a span. A program that keeps 1,048,576 commands keeps those of 32 launches; the last keeps none.
RECS, AUX, TABLES, LISTS = 512, 16, 7838, 33
# The launches over one small kernel, and the sizes of kernels, of a devicetree and of an initrd.
SMALL, KERNEL, LARGER_KERNEL, TREE = 300, 4 * MIB, 16 * MIB, 64 * KIB
ORDINARY_KERNEL, ORDINARY_INITRD = 27_000_000, 40_000_000


def contents(name, size):
    """Bytes that are the same in each run."""
    return random.Random(name).randbytes(size)


def image(name, size):
    """An arm64 Image of this many bytes."""
    header = bytearray(64)
    header[16:24] = size.to_bytes(8, "little")
    header[56:60] = b"ARMd"
    return bytes(header) + contents(name, size - 64)


def devicetree(size):
    """A devicetree of this many bytes, most of them one property's of the root."""
    begin, end, name = struct.pack(">II", 1, 0), struct.pack(">II", 2, 9), b"data\0\0\0\0"
    value = contents("tree", size - 56 - len(begin) - 12 - len(end) - len(name))
    structure = begin + struct.pack(">III", 3, len(value), 0) + value + end
    strings = 56 + len(structure)
    header = struct.pack(">10I", 0xD00DFEED, size, 56, strings, 40, 17, 16, 0, len(name), len(structure))
    return header + bytes(16) + structure + name


def manifest(files, launches):
    return manifests.manifest(*launches, files=list(files))


def launch(number, items, ram=MIB << 10, algo="sha256", more=""):
    """A launch with this much RAM, and the texts of its items."""
    return manifests.launch(f"l{number}", more, *(f"[[launch.item]]\n{item}" for item in items), algo=algo, s2sz=40, ram=[[RAM, RAM + ram]])


def item(kind, file, at, more=""):
    return f'name = "{kind}"\nkind = "{kind}"\nfile = "{file}"\nat = {RAM + at}\n{more}'


def command_line(number):
    return f'bootargs = "console=ttyAMA0 root=/dev/vda{number}"\n'


def trees(count, more=""):
    """Launches over one devicetree, which each edits for itself."""
    launches = [launch(n, [item("dtb", "tree", 0, command_line(n) + more)]) for n in range(count)]
    return manifest(["tree"], launches), {"tree": devicetree(2 * MIB - EDITED)}


def leads():
    """Launches over one file that is filled up to 1,024 pages, each with another place in its first page."""
    launches = [launch(n, [item("raw", "small", n, f"size = {1024 * PAGE}\n")]) for n in range(1, MOST)]
    return manifest(["small"], launches), {"small": contents("small", 100)}


def recs(last, count=RECS):
    """RECs, the last with this in its first register."""
    return "rec = [" + "{}, " * (count - 1) + f"{{ x = [{last}] }}]\n"


def recs_first(*then):
    steps = [f"rec {n}" for n in range(RECS)] + list(then)
    return "steps = [" + ", ".join(f'"{step}"' for step in steps) + "]\n"


def spans():
    """Launches with a page right at the end of a long list, that differ in their first half."""
    more, steps = f"num_aux = {AUX}\nblock_level = 3\n", recs_first("ram 0", "item raw")
    launches = [launch(n, [item("raw", "small", 0)], TABLES * 2 * MIB, more=more + recs(n) + steps) for n in range(LISTS)]
    return manifest(["small"], launches), {"small": contents("small", 100)}


def last_recs():
    """Launches that differ in the last REC, right before the only item."""
    steps = recs_first("ram 0", "item raw")
    launches = [launch(n, [item("raw", "small", 0)], more=recs(n) + steps) for n in range(MOST)]
    return manifest(["small"], launches), {"small": contents("small", 100)}


def small(size):
    """Launches over one kernel, with other command lines and other RAM."""
    kernel = item("kernel", "kernel", 2 * MIB)
    launches = [launch(n, [kernel, item("dtb", "tree", 64 * MIB, command_line(n))], (128 + 2 * n) * MIB) for n in range(SMALL)]
    return manifest(["kernel", "tree"], launches), {"kernel": image("kernel", size), "tree": devicetree(TREE)}


def ordinary():
    """Launches over a kernel and an initrd, with other command lines, each second one by SHA-512."""
    items = [item("kernel", "kernel", 2 * MIB), item("initrd", "initrd", 128 * MIB)]
    launches = [launch(n, [*items, item("dtb", "tree", 64 * MIB, command_line(n))], algo=["sha256", "sha512"][n % 2])
                for n in range(32)]
    files = {"kernel": image("kernel", ORDINARY_KERNEL), "initrd": contents("initrd", ORDINARY_INITRD), "tree": devicetree(TREE)}
    return manifest(files, launches), files


def unknown():
    """Returns a launch with 2 GiB of content that the monitor does not know. It has no file."""
    size = 2 << 30
    content = f'name = "u"\nkind = "unknown"\nat = {RAM}\nsize = {size}\n'
    return manifest([], [launch(0, [content], size)]), {}


# What makes a manifest and its files, and how much memory runs may take, in MB; None for all.
INPUTS = {
    "1,024 devicetrees of 2 MiB, edited": (lambda: trees(MOST), [None]),
    "1,024 devicetrees of 2 MiB, edited, not measured": (lambda: trees(MOST, "measured = false\n"), [None]),
    "256 devicetrees of 2 MiB, edited": (lambda: trees(256), [None]),
    "1,023 items of 1,024 pages, each with another lead": (leads, [None]),
    "33 lists of 33,000 spans": (spans, [None]),
    "300 launches over a kernel of 4 MiB": (lambda: small(KERNEL), [None, 20, 32]),
    "1,024 launches that differ in the last REC": (last_recs, [None]),
    "300 launches over a kernel of 16 MiB": (lambda: small(LARGER_KERNEL), [None, 48, 64, 72]),
    "32 launches over 67 MB, half by SHA-512": (ordinary, [None]),
    "2 GiB of unknown content": (unknown, [None]),
}


def watched(child):
    """Waits for a process: its status, its use, and the most memory in MB that it was seen to have as the program."""
    seen = 0
    while True:
        with open(f"/proc/{child.pid}/status") as file:
            found = [int(line.split()[1]) for line in file if line.startswith("VmHWM")]
        seen = max([seen, *found])
        pid, status, used = os.wait4(child.pid, os.WNOHANG)
        if pid:
            return os.waitstatus_to_exitcode(status), used, seen / 1024
        time.sleep(0.001)


def run(program, folder, limit):
    """What a run printed, or None where memory was refused, its processor seconds, and the most memory in MB."""
    bounds = (lambda: resource.setrlimit(resource.RLIMIT_AS, (limit * MIB, limit * MIB))) if limit else None
    with tempfile.TemporaryFile() as out, tempfile.TemporaryFile() as err:
        child = subprocess.Popen([program, "audit", "manifest.toml"], cwd=folder, stdout=out, stderr=err, preexec_fn=bounds)
        child.returncode, used, seen = watched(child)
        out.seek(0)
        err.seek(0)
        printed, said = out.read(), err.read().decode().strip()
    # What this script had when it started the program counts in the process's own number, so what is not above it says nothing.
    own = resource.getrusage(resource.RUSAGE_SELF).ru_maxrss
    memory = used.ru_maxrss / 1024 if used.ru_maxrss > own else seen
    seconds = used.ru_utime + used.ru_stime
    if limit and child.returncode == 4:
        return None, seconds, memory
    if child.returncode != 0:
        sys.exit(f"audits.py: {program} ended with {child.returncode}: {said or printed.decode()[:200]}")
    return printed, seconds, memory


def row(name, programs, folder, limit):
    """Prints a row, and answers whether all programs that ended well printed the same."""
    printed, cells = [], [name + (f", with {limit} MB" if limit else "")]
    for program in programs:
        text, seconds, memory = run(program, folder, limit)
        cells += [f"{seconds:.2f}" + (", no memory" if text is None else ""), f"{memory:.1f}"]
        printed += [] if text is None else [text]
    print("| " + " | ".join(cells) + " |", flush=True)
    return len(set(printed)) < 2


def main():
    words = sys.argv[1:]
    only = words.pop() if words[-2:-1] == ["--only"] else ""
    programs = [os.path.abspath(word) for word in words if word != "--only"]
    if not programs or not all(os.access(program, os.X_OK) for program in programs):
        sys.exit(__doc__)
    heads = [f"`{os.path.basename(program)}`: {what}" for program in programs for what in ("s", "MB")]
    print("| Input | " + " | ".join(heads) + " |\n|---" + "|---" * len(heads) + "|", flush=True)
    differ = []
    for name, (make, limits) in INPUTS.items():
        if only not in name:
            continue
        text, files = make()
        with tempfile.TemporaryDirectory() as folder:
            for path, data in ({"manifest.toml": text.encode()} | files).items():
                with open(os.path.join(folder, path), "wb") as file:
                    file.write(data)
            del text, files
            differ += [name for limit in limits if not row(name, programs, folder, limit)]
    for name in differ:
        print(f"the programs print something else: {name}")
    return int(bool(differ))


if __name__ == "__main__":
    sys.exit(main())
