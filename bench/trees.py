#!/usr/bin/env python3
"""Times reading and writing devicetrees of many names, and of names that are meant to cost. Not part of the gate.

usage: bench/trees.py [RUNS]

It builds bench/trees/main.rt.in in a copy of the crates, with the kit's rt, and prints the least times of some runs.
"""
import sys

from crates import built, least

WORKS = {
    "names": "100,000 properties of as many names",
    "shared": "60,000 properties of one name of 1 MiB",
    "ends": "80,000 properties, whose names are the ends of one of 1 MiB",
    "copies": "80,000 properties, whose names are the ends of 201 equal names of 5,199 bytes",
}


def prepare():
    return built("trees", "fdt_tree", ["names", "make"])


def main():
    runs = int(sys.argv[1]) if len(sys.argv) > 1 else 5
    program = prepare()
    for work, what in WORKS.items():
        made, read, written = (least(program, [work, step], runs) for step in ["make", "read", "write"])
        print(f"{what}: read in {read[0] - made[0]:.3f} s, written in {written[0] - read[0]:.3f} s, {written[1]:.0f} MB")


if __name__ == "__main__":
    main()
