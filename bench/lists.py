#!/usr/bin/env python3
"""Times how launches are placed and listed, beside another program `rim`. Not part of the gate.

usage: lists.py OTHER [PROGRAM]

OTHER is a program of an earlier commit (its dist/, say); PROGRAM is crates/rim/out/rim where it is not given. `rim check` lays
out each launch of a manifest and lists its commands, and hashes nothing, so it shows what that takes. Both programs run
on the same inputs in turn; of some runs the least processor time and the most memory are given, and their ratios.
"""
import os
import subprocess
import sys
import tempfile
import time

top = os.path.join(os.path.dirname(os.path.abspath(__file__)), "..")
sys.path.insert(0, os.path.join(top, "tests"))

from helpers import manifests  # noqa: E402, the path is set above

RUNS = 5
MIB = 1 << 20


def image(size):
    """An arm64 Image of this many bytes: its header, and zeros."""
    header = bytearray(64)
    header[16:24] = size.to_bytes(8, "little")
    header[56:60] = b"ARMd"
    return bytes(header) + bytes(size - 64)


def launch(name, keys, s2sz=40):
    return manifests.launch(name, keys, s2sz=s2sz)


def manifest(files, *launches):
    return manifests.manifest(*launches, files=files)


KERNEL = "ram = [[0x40000000, 0x80000000]]\nitem = [{name = 'k', kind = 'kernel', file = 'k', at = 0x40200000}]\nrec = [{}]"
PAGES = "ram = [[0, 0x100000000]]\nitem = [{name = 'x', kind = 'raw', file = 'x', at = 0, size = %d, measured = false}]"
ENTRIES = "block_level = 3\nram = [[0, %d]]"
# The words of a run, its manifest, and its files.
CASES = {
    "1,048,576 pages of an item": (["check"], manifest("x", launch("a", PAGES % (1 << 32))), {"x": b"x"}),
    "4 entries of 4 KiB": (["check"], manifest("", launch("a", ENTRIES % (4 << 12), 48)), {}),
    "4,194,304 entries of 4 KiB": (["check"], manifest("", launch("a", ENTRIES % (1 << 34), 48)), {}),
    "1,024 launches over a kernel of 32 MiB": (["check"], manifest("k", *(launch(f"l{n}", KERNEL) for n in range(1024))), {"k": image(32 * MIB)}),
    "the listing of 65,536 pages": (["list", "a"], manifest("x", launch("a", PAGES % (65536 << 12))), {"x": b"x"}),
}


def timed(program, words, folder):
    """The processor seconds of a run, and the most memory in MB that it was seen to have."""
    run = subprocess.Popen([program, words[0], "manifest.toml", *words[1:]], cwd=folder, stdout=subprocess.DEVNULL)
    most = 0
    while True:
        with open(f"/proc/{run.pid}/status") as file:
            found = [int(line.split()[1]) for line in file if line.startswith("VmHWM")]
        most = max([most, *found])
        pid, status, used = os.wait4(run.pid, os.WNOHANG)
        if pid:
            assert status == 0, f"{words} ended with {status}"
            return used.ru_utime + used.ru_stime, most / 1024
        time.sleep(0.001)


def least_and_most(runs):
    return min(seconds for seconds, _ in runs), max(memory for _, memory in runs)


def main():
    if len(sys.argv) not in (2, 3):
        sys.exit(__doc__)
    here = sys.argv[2] if len(sys.argv) > 2 else os.path.join(top, "crates", "rim", "out", "rim")
    programs = [os.path.abspath(sys.argv[1]), os.path.abspath(here)]
    for name, (words, text, files) in CASES.items():
        with tempfile.TemporaryDirectory() as folder:
            for path, data in ({"manifest.toml": text.encode()} | files).items():
                with open(os.path.join(folder, path), "wb") as file:
                    file.write(data)
            runs = [[timed(program, words, folder) for program in programs] for _ in range(RUNS)]
        (old, old_memory), (new, new_memory) = (least_and_most([run[at] for run in runs]) for at in (0, 1))
        print(f"{name}: {old * 1000:.1f} ms, {old_memory:.1f} MB; here {new * 1000:.1f} ms, {new_memory:.1f} MB", end="; ")
        print(f"{new / old:.2f} of the time, {new_memory / old_memory:.2f} of the memory", flush=True)


if __name__ == "__main__":
    main()
