#!/usr/bin/env python3
"""Times `rim measure` by one worker on large releases beside a bare loop, and weighs it beside the files. Not part of the gate.

usage: bench/releases.py [RUNS [WORD]]

The bare loop is bench/bare/main.rt.in, which is built with the kit's rt: it reads the same files, hashes their pages with
the kit's `sha2`, and then as many descriptors as the release has. Each run of `rim` is followed by one of the bare loop and
one that only reads, and the least processor time of each is taken, so that a busy machine changes little. The first ratio
is that of the whole runs; the second leaves the reading out of the bare loop. WORD picks the releases whose name has it.

`rim` has to be built, by `./rim --build --help`.
"""
import os
import random
import subprocess
import sys
import tempfile

from crates import built, top

MIB = 1 << 20


def file_of(folder, name, size):
    with open(os.path.join(folder, name), "wb") as file:
        file.write(random.Random(name).randbytes(size))
    return f'[[file]]\nname = "{name}"\npath = "{os.path.join(folder, name)}"\n'


def launch(name, end, items, more=""):
    lines = [f'[[launch]]\nname = "{name}"\nalgo = "sha256"\ns2sz = 40\nram = [[0x40000000, 0x{end:x}]]\n{more}']
    return "".join(lines + [f'[[launch.item]]\nname = "{item}"\nkind = "raw"\nfile = "{item}"\nat = 0x{at:x}\n' for item, at in items])


def kernel(folder):
    """A launch with contents of 32 MiB: the manifest, the extensions, the files, and how many bytes they have."""
    text = file_of(folder, "kernel", 32 * MIB) + launch("a", 0x80000000, [("kernel", 0x40200000)])
    return text, 512 + 8192, ["kernel"], 32 * MIB


def shared(folder):
    """200 launches over 8 kernels of 30 MiB and 16 initrds of 20 MiB."""
    kernels = [f"kernel-{n}" for n in range(8)]
    initrds = [f"initrd-{n}" for n in range(16)]
    text = "".join(file_of(folder, name, 30 * MIB) for name in kernels)
    text += "".join(file_of(folder, name, 20 * MIB) for name in initrds)
    for n in range(200):
        items = [(kernels[n % 8], 0x40200000), (initrds[n % 16], 0x48000000)]
        text += launch(f"launch-{n}", 0x50000000 + n * 0x200000, items)
    extensions = sum(128 + n for n in range(200)) + 200 * 50 * 256
    return text, extensions, kernels + initrds, (8 * 30 + 16 * 20) * MIB


def entries(_folder):
    """A launch of 16 GiB of RAM that is set page by page."""
    return launch("a", 0x440000000, [], "block_level = 3\n"), 4_194_304, [], 0


RELEASES = [("a launch of 32 MiB", kernel), ("200 launches", shared), ("4,194,304 entries", entries)]


def run(words):
    """The processor time of a run in seconds, and its most memory in MB."""
    ran = subprocess.Popen(words, stdout=subprocess.DEVNULL)
    _, status, usage = os.wait4(ran.pid, 0)
    if status != 0:
        raise SystemExit(f"{' '.join(words)}: failed")
    return usage.ru_utime + usage.ru_stime, usage.ru_maxrss / 1024


def least(commands, runs):
    """The least time of each of some commands, run in turn, and the most memory of the first."""
    times, memory = [[] for _ in commands], 0
    for _ in range(runs):
        for at, words in enumerate(commands):
            time, size = run(words)
            times[at].append(time)
            memory = max(memory, size if at == 0 else 0)
    return [min(found) for found in times], memory


def prepare():
    return built("bare", "sha2", ["1"])


def main():
    runs = int(sys.argv[1]) if len(sys.argv) > 1 else 5
    word = sys.argv[2] if len(sys.argv) > 2 else ""
    program = os.path.join(top, "crates", "rim", "out", "rim")
    bare = prepare()
    with tempfile.TemporaryDirectory() as folder:
        for what, made in (release for release in RELEASES if word in release[0]):
            text, extensions, names, size = made(folder)
            path = os.path.join(folder, "manifest.toml")
            with open(path, "w") as file:
                file.write("rim_manifest = 1\n" + text)
            files = [os.path.join(folder, name) for name in names]
            commands = [[program, "measure", path, "--workers", "1"], [bare, str(extensions), *files], [bare, "read", *files]]
            (time, loop, read), memory = least(commands, runs)
            ratios = f"ratio {time / loop:.3f}, without the reading {time / (loop - read):.3f}"
            print(f"{what}: {time:.3f} s, a bare loop {loop:.3f} s, reading {read:.3f} s; {ratios}; {memory - size / MIB:.0f} MB beside the files", flush=True)


if __name__ == "__main__":
    main()
