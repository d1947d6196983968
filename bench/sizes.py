#!/usr/bin/env python3
"""What the largest inputs cost: manifests of nothing but small tables, and devicetrees whose paths are long.

usage: bench/sizes.py

It runs crates/rim/out/rim, which `./rim --build --help` builds. Each input is given to it twice: with 8 GB of memory, and with
256 MB. Not part of the gate.
"""
import os
import resource
import struct
import subprocess
import tempfile
import time

from crates import top

MB = 1 << 20


def ran(program, words, limit):
    """The status of a run with this much memory, its line on standard error, its time in seconds and its memory in bytes."""
    start = time.perf_counter()
    child = subprocess.Popen([program, *words], stdout=subprocess.DEVNULL, stderr=subprocess.PIPE,
                             preexec_fn=lambda: resource.setrlimit(resource.RLIMIT_AS, (limit, limit)))
    said = child.stderr.read().decode().strip()
    _, status, usage = os.wait4(child.pid, 0)
    return os.waitstatus_to_exitcode(status), said, time.perf_counter() - start, usage.ru_maxrss * 1024


def manifests():
    """Manifests of about 2 MB, by what they hold."""
    size = 2_000_000
    head = "rim_manifest = 1\n"
    yield "headers of empty tables", head + "[[x]]\n" * (size // 6)
    yield "headers of empty launches", head + "[[launch]]\n" * (size // 11)
    yield "empty tables in an array", head + "x = [" + "{}," * (size // 3) + "]\n"
    yield "tables of one key in an array", head + "x = [" + "{z=1}," * (size // 6) + "]\n"
    yield "headers of tables of one key", head + "[[x]]\nz=1\n" * (size // 10)
    yield "dotted keys in an array", head + "x = [" + "{a.b.c.d=1}," * (size // 12) + "]\n"
    yield "tables of tables of tables in an array", head + "x = [" + "{a={b={c=1}}}," * (size // 14) + "]\n"
    yield "empty arrays in an array", head + "x = [" + "[]," * (size // 3) + "]\n"
    yield "numbers in an array", head + "x = [" + "0," * (size // 2) + "]\n"
    yield "keys", head + "".join(f"k{n} = 0\n" for n in range(size // 12))
    yield "one text", head + 'x = "' + "a" * size + '"\n'


def devicetree(depth, length, leaves):
    """A devicetree with so many nodes one below another, whose names have this length, and in the last of them leaves."""
    def node(name):
        name = name.encode() + b"\0"
        return struct.pack(">I", 1) + name + b"\0" * (-len(name) % 4)
    end = struct.pack(">I", 2)
    structure = node("") + b"".join(node("a" * length) for _ in range(depth)) + b"".join(node("b") + end for _ in range(leaves))
    structure += end * (depth + 1) + struct.pack(">I", 9)
    total = 56 + len(structure)
    return struct.pack(">10I", 0xD00DFEED, total, 56, total, 40, 17, 16, 0, 0, len(structure)) + b"\0" * 16 + structure


def report(what, program, words, size):
    for limit in [8192 * MB, 256 * MB]:
        status, said, seconds, memory = ran(program, words, limit)
        print(f"{what}, {size} bytes, with {limit // MB} MB: status {status}, {said or 'done'}, {seconds:.1f} s, {memory / 1e6:.0f} MB, {memory / size:.0f} bytes a byte", flush=True)


def main():
    program = os.path.join(top, "crates", "rim", "out", "rim")
    with tempfile.TemporaryDirectory() as folder:
        for what, text in manifests():
            path = os.path.join(folder, "manifest.toml")
            with open(path, "w") as file:
                file.write(text)
            report(what, program, ["measure", path], len(text))
            report(what + ", checked", program, ["check", path], len(text))
        for what, depth, length, leaves in [("leaves below short names", 1, 1, 170_000), ("63 long names", 62, 30_000, 0),
                                            ("1,000 leaves below long names", 61, 30_000, 1_000), ("10,000 leaves below long names", 61, 30_000, 10_000)]:
            path = os.path.join(folder, "tree.dtb")
            tree = devicetree(depth, length, leaves)
            with open(path, "wb") as file:
                file.write(tree)
            report(what, program, ["fdt", path], len(tree))


if __name__ == "__main__":
    main()
