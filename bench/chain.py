#!/usr/bin/env python3
"""Times the chaining of a launch beside a bare loop of the kit's `sha2`, and weighs a plan of 30,000 pages. Not part of the gate.

usage: bench/chain.py [SLICES]

It builds bench/chain/main.rt.in in a copy of the crates, with the kit's rt. One run of that program takes slices of a chain
and of the bare loop in turn, and keeps the least time of each.
"""
import subprocess
import sys

from crates import built, least

EXTENSIONS = 8_192
PLANS = 20_000


def slice_times(program, algo, slices):
    """The least times of a chain and of as many hashes in a bare loop, in nanoseconds."""
    ran = subprocess.run([program, algo, str(slices)], check=True, capture_output=True, text=True)
    return [int(word) for word in ran.stdout.splitlines()[-1].split()]


def memory(program, plans):
    """The most memory of a run that keeps this many plans, in KiB."""
    return least(program, ["plans", str(plans)], 1)[1] * 1024


def prepare():
    return built("chain", "launch_plan rim_chain rmi_list ipa_layout rim_launch page_jobs rim_desc sha2", ["sha256", "1"])


def main():
    slices = int(sys.argv[1]) if len(sys.argv) > 1 else 200
    program = prepare()
    for algo in ["sha256", "sha512"]:
        chained, bare = slice_times(program, algo, slices)
        times = f"{chained / EXTENSIONS:.0f} ns each, hashes of descriptors alone {bare / EXTENSIONS:.0f} ns"
        print(f"{EXTENSIONS:,} extensions by {algo}: {times}, ratio {chained / bare:.3f}")
    plan = (memory(program, 2 * PLANS) - memory(program, PLANS)) / PLANS
    print(f"a plan of 30,000 pages: {plan:.1f} KiB")


if __name__ == "__main__":
    main()
