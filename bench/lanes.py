#!/usr/bin/env python3
"""Times releases beside the same ones where all is hashed by the kit's `sha2`. Not part of the gate.

usage: bench/lanes.py [RUNS]

bench/workers/main.rt.in is built from the crates as they are, from crates in which no page or chain is hashed beside
others and no descriptor by its known tail, and as they are for processors with AVX2 where this is one. All are run in turn
on one thread, by one worker and by two, on the releases of bench/releases.py that have many pages or many launches. The
least times of some runs are taken: the processor time on one thread and by one worker, and the wall time by two.
"""
import os
import sys
import tempfile

from crates import has_avx2
from releases import kernel, shared
from workers import measuring, run

PLAIN = [
    ("rim_sha/src/lib.rt", "    if has_zero_tail(descriptor) {\n        sha256_headed", "    if descriptor.is_empty() && has_zero_tail(descriptor) {\n        sha256_headed"),
    ("page_jobs/src/side_by_side.rt", "if count < 2 {", "if count < usize::MAX {"),
    ("rim_chain/src/starting.rt", "if most < FEWEST || left < FEWEST {", "if most < usize::MAX || left < FEWEST {"),
]


def prepare():
    ways = [("sha2 alone", PLAIN, [], []), ("lanes", [], [], [])]
    if has_avx2():
        ways.append(("lanes, AVX2", [], ["--cpu=x86-64-v3"], ["8"]))
    return [(way, measuring(changes, flags), words) for way, changes, flags, words in ways]


def main():
    runs = int(sys.argv[1]) if len(sys.argv) > 1 else 5
    programs = prepare()
    with tempfile.TemporaryDirectory() as folder:
        path = os.path.join(folder, "manifest.toml")
        for what, made in [("a launch of 32 MiB", kernel), ("200 launches", shared)]:
            with open(path, "w") as file:
                file.write("rim_manifest = 1\n" + made(folder)[0])
            found = {(way, who): [run([program, who, path, *words]) for _ in range(runs)]
                     for who in ["alone", "1", "2"] for way, program, words in programs}
            if len({each[3] for times in found.values() for each in times}) != 1:
                raise SystemExit(f"{what}: the reports differ")
            for who, at, kind in [("alone", 1, "processor time on one thread"), ("1", 1, "processor time by one worker"), ("2", 0, "wall time by two workers")]:
                least = {way: min(each[at] for each in found[way, who]) for way, _, _ in programs}
                print(f"{what}: {kind} " + ", ".join(f"{way} {time:.3f} s ({time / least['sha2 alone']:.3f})" for way, time in least.items()))


if __name__ == "__main__":
    main()
