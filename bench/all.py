#!/usr/bin/env python3
"""Runs all scripts of bench/ in one go: builds every program first, then takes all times. Not part of the gate.

usage: bench/all.py [--wait]

The building proves what the scripts change, which takes tens of minutes and may share the machine with other work. What an
earlier run built from the same sources is taken from bench/out. From the line `times` on nothing should run beside it: with
--wait it takes times only after a line of standard input. Each script's lines come under its name, with the minutes that it
took. Four scripts are not run, since they compare programs that are named: `lists.py` by placing and listing, `audits.py` by
audits that are made to cost, `reports.py` by reports as lines and as JSON, and `crowds.py` by numbers of workers and processors.
"""
import datetime
import os
import subprocess
import sys
import time

import board
import chain
import crates
import prefixes
import hashes
import lanes
import launches
import peers
import releases
import rust
import sizes
import trees
import waits
import workers

# What proves most comes first, so that a program that cannot be built is reported early.
BUILDING = [prefixes, lanes, workers, waits, rust, board, hashes, peers, chain, crates, trees, releases]
TIMING = [hashes, peers, rust, chain, board, crates, trees, workers, waits, lanes, prefixes, releases, launches, sizes]


def processor():
    """The name of the processor, and how many there are."""
    with open("/proc/cpuinfo") as file:
        names = [line.partition(":")[2].strip() for line in file if line.startswith("model name")]
    return f"{len(names)} processors, {names[0]}" if names else f"{os.cpu_count()} processors"


def say(what):
    load = ", ".join(f"{each:.1f}" for each in os.getloadavg())
    print(f"== {what}, {datetime.datetime.now():%Y-%m-%d %H:%M}, load {load}", flush=True)


def timed(script, work):
    start = time.perf_counter()
    print(f"-- {script.__name__}", flush=True)
    work()
    print(f"   ({(time.perf_counter() - start) / 60:.1f} min)", flush=True)


def main():
    waits = sys.argv[1:] == ["--wait"]
    del sys.argv[1:]  # each script would read the words as its own
    say(f"building: {processor()}")
    subprocess.run([os.path.join(crates.top, "rim"), "--build", "--help"], check=True, stdout=subprocess.DEVNULL)
    for script in BUILDING:
        timed(script, script.prepare)
    if waits:
        say("waiting for a line")
        sys.stdin.readline()
    say("times")
    for script in TIMING:
        timed(script, script.main)
    say("done")


if __name__ == "__main__":
    main()
