#!/usr/bin/env python3
"""Times the digests of descriptors and pages, one after another and side by side. Not part of the gate.

usage: bench/hashes.py [RUNS]

It builds bench/hashes/main.rt.in in a copy of the crates, with the kit's rt, for every processor and, where this is one with
AVX2, for these. One run of that program takes slices of each kind of work in turn, and keeps the least time of each.
"""
import subprocess
import sys

from crates import built, has_avx2

SLICES = 500
DESCRIPTORS = 256
PAGES = 32
# The kinds of work in the order of the program: what is hashed, by which algorithm, and how many side by side.
KINDS = [
    ("descriptors", "sha256", "by sha2"),
    ("descriptors", "sha256", "alone"),
    ("descriptors", "sha256", "in fours"),
    ("descriptors", "sha256", "in eights"),
    ("descriptors", "sha512", "alone"),
    ("descriptors", "sha512", "in fours"),
    ("pages", "sha256", "alone"),
    ("pages", "sha256", "in fours"),
    ("pages", "sha256", "in eights"),
    ("pages", "sha512", "alone"),
    ("pages", "sha512", "in fours"),
]


def least_times(program, runs):
    """The least times of some runs, in nanoseconds for each descriptor or page, by the kind of work."""
    least = {}
    for _ in range(runs):
        ran = subprocess.run([program, str(SLICES)], check=True, capture_output=True, text=True)
        for kind, word in zip(KINDS, ran.stdout.splitlines()[-1].split(), strict=True):
            time = int(word) / (PAGES if kind[0] == "pages" else DESCRIPTORS)
            least[kind] = min(time, least.get(kind, time))
    return least


def prepare(flags=()):
    return built("hashes", "rim_sha rim_desc sha2", ["1"], flags=flags)


def prepare_all():
    """The programs by the processor that each is built for."""
    programs = {"v2": prepare()}
    if has_avx2():
        programs["v3"] = prepare(["--cpu=x86-64-v3"])
    else:
        print("x86-64-v3 is left out: this processor has no AVX2")
    return programs


def main():
    runs = int(sys.argv[1]) if len(sys.argv) > 1 else 4
    times = {cpu: least_times(program, runs) for cpu, program in prepare_all().items()}
    print(f"| ns | {' | '.join(times)} |\n|---|{'---|' * len(times)}")
    for kind in KINDS:
        print(f"| {' '.join(kind)} | {' | '.join(f'{each[kind]:,.0f}' for each in times.values())} |")


if __name__ == "__main__":
    main()
