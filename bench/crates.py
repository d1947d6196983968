#!/usr/bin/env python3
"""Times the monitor, lists of commands and the hashing of pages. Not part of the gate.

usage: bench/crates.py [RUNS]

It builds bench/timed/main.rt.in in a copy of the crates, with the kit's rt, and prints the least times of some runs.
"""
import hashlib
import os
import shutil
import subprocess
import sys
import tempfile
import time

top = os.path.dirname(os.path.dirname(os.path.abspath(__file__)))

# The programs that were built, each with a sum of what it is built from in its name. Building them takes long.
kept = os.path.join(top, "bench", "out")


def built(name, uses, words, changes=(), flags=()):
    """The program of that name in bench/, built with these libraries and run once with these words; or the one that an earlier
    run built from the same.

    Each change is a file of a crate, a text that it has once, and the text in its place."""
    program = os.path.join(kept, f"{name}-{sum_of(name, uses, changes, flags)}")
    if not os.path.exists(program):
        os.makedirs(kept, exist_ok=True)
        with tempfile.TemporaryDirectory() as folder:
            shutil.copy(build(folder, name, uses, words, changes, flags), program + ".new")
        os.rename(program + ".new", program)
    return program


def sum_of(name, uses, changes, flags):
    """A sum of all that a program is built from: the kit, its libraries, the changes and flags, and the sources."""
    kit = subprocess.run(["rt", "version"], check=True, capture_output=True).stdout
    found = hashlib.sha256(repr((kit, uses, list(changes), list(flags))).encode())
    for folder in [os.path.join(top, "crates"), os.path.join(top, "bench", name)]:
        for place, folders, files in os.walk(folder):
            folders[:] = sorted(each for each in folders if each not in ("out", "must-fail", "edits"))
            for file in sorted(files):
                path = os.path.join(place, file)
                with open(path, "rb") as text:
                    found.update(repr((os.path.relpath(path, top), text.read())).encode())
    return found.hexdigest()[:16]


def build(folder, name, uses, words, changes, flags):
    """Builds a program of bench/ in a copy of the repository, which has it as a crate.

    The crates are copied with what is proved of them, since a program is built from proved crates alone."""
    shutil.copytree(os.path.join(top, "crates"), os.path.join(folder, "crates"))
    for path, old, new in changes:
        change(os.path.join(folder, "crates", path), old, new)
    crate = os.path.join(folder, "crates", name)
    os.makedirs(os.path.join(crate, "src"))
    shutil.copy(os.path.join(top, "bench", name, "main.rt.in"), os.path.join(crate, "src", "main.rt"))
    proofs = os.path.join(top, "bench", name, "proofs")
    if os.path.isdir(proofs):
        shutil.copytree(proofs, os.path.join(crate, "proofs"))
        for place, _, names in os.walk(os.path.join(crate, "proofs")):
            for file in names:
                os.rename(os.path.join(place, file), os.path.join(place, file.removesuffix(".in")))
    shutil.copy(os.path.join(top, "HANDLES"), folder)
    with open(os.path.join(top, "crates.txt")) as lines, open(os.path.join(folder, "crates.txt"), "w") as file:
        file.write(lines.read() + f"{name}: {uses}\n")
    subprocess.run(["rt", "run", *flags, "--", *words], cwd=crate, check=True, capture_output=True)
    return os.path.join(crate, "out", name)


def change(path, old, new):
    """Puts a text in the place of another, which the file has once."""
    with open(path) as file:
        text = file.read()
    if text.count(old) != 1:
        raise SystemExit(f"{path}: not once: {old}")
    with open(path, "w") as file:
        file.write(text.replace(old, new))


def has_avx2():
    """Whether programs for x86-64-v3 run here."""
    with open("/proc/cpuinfo") as file:
        return " avx2 " in file.read()


def least(program, words, runs):
    """The least time of some runs with these words in seconds, and the most memory of one in MB."""
    times, sizes = [], []
    for _ in range(runs):
        start = time.perf_counter()
        ran = subprocess.Popen([program, *words], stdout=subprocess.DEVNULL)
        _, status, usage = os.wait4(ran.pid, 0)
        times.append(time.perf_counter() - start)
        sizes.append(usage.ru_maxrss / 1024)
        if status != 0:
            raise SystemExit(f"{' '.join(words)}: failed")
    return min(times), max(sizes)


def prepare():
    return built("timed", "rim_desc rmm_model rmm_monitor page_jobs rim_launch ipa_layout rmi_list", ["bytes"])


def main():
    runs = int(sys.argv[1]) if len(sys.argv) > 1 else 5
    program = prepare()
    hashes = least(program, ["descriptors"], runs)[0]
    data, data_size = least(program, ["data"], runs)
    ripas, ripas_size = least(program, ["ripas"], runs)
    listed, listed_size = least(program, ["list_data"], runs)
    entries, entries_size = least(program, ["list_ripas"], runs)
    made = least(program, ["bytes"], runs)[0]
    slices, pages, lead = (least(program, [work], runs)[0] - made for work in ["slices", "pages", "lead"])
    print(f"1,048,576 pages delegated, made RAM and created: {data:.2f} s, {data_size:.0f} MB; their hashes {hashes / 2:.2f} s")
    print(f"4,194,304 entries made RAM: {ripas:.2f} s, {ripas_size:.0f} MB; their hashes {hashes:.2f} s")
    print(f"1,048,576 pages placed and listed: {listed:.2f} s, {listed_size:.0f} MB")
    print(f"4,194,304 entries placed and listed: {entries:.2f} s, {entries_size:.0f} MB")
    print(f"65,536 pages hashed: {pages:.3f} s, with a lead {lead:.3f} s; their slices alone {slices:.3f} s")


if __name__ == "__main__":
    main()
