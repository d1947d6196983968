#!/usr/bin/env python3
"""Times reports that workers make beside those of one thread. Not part of the gate.

usage: bench/workers.py [RUNS]

It builds bench/workers/main.rt.in with the kit's rt, and runs it in turn on one thread, by one worker and by two, on the
releases of bench/releases.py that have many pages or many launches. It prints the processor time of one worker beside one
thread's, the wall time of two workers beside one worker's, without the reading of files, and the most memory of each. The
wall time says something only where two cores are free: the least of some runs is taken.
"""
import os
import subprocess
import sys
import tempfile

from crates import built, top
from releases import kernel, shared

# A manifest for the run in which the program is built.
SMALL = os.path.join(top, "examples", "first", "manifest.toml")


def measuring(changes=(), flags=()):
    """The program that makes a report alone or by workers, from crates with these changes."""
    return built("workers", "rim_release rim_manifest rim_desc", ["alone", SMALL], changes, flags)


def run(words):
    """The wall time of the report and the processor time of a run in seconds, its most memory in MB, and what it prints."""
    ran = subprocess.Popen(words, stdout=subprocess.PIPE, stderr=subprocess.PIPE)
    text, wall = ran.stdout.read(), ran.stderr.read()
    _, status, usage = os.wait4(ran.pid, 0)
    if status != 0:
        raise SystemExit(f"{' '.join(words)}: failed")
    return int(wall) / 1e9, usage.ru_utime + usage.ru_stime, usage.ru_maxrss / 1024, text


def prepare():
    return measuring()


def main():
    runs = int(sys.argv[1]) if len(sys.argv) > 1 else 5
    program = prepare()
    with tempfile.TemporaryDirectory() as folder:
        path = os.path.join(folder, "manifest.toml")
        for what, made in [("a launch of 32 MiB", kernel), ("200 launches", shared)]:
            with open(path, "w") as file:
                file.write("rim_manifest = 1\n" + made(folder)[0])
            found = {who: [run([program, who, path]) for _ in range(runs)] for who in ["alone", "1", "2"]}
            if len({run[3] for each in found.values() for run in each}) != 1:
                raise SystemExit(f"{what}: the reports differ")
            wall, processor, memory = ({who: pick(run[at] for run in each) for who, each in found.items()}
                                       for at, pick in [(0, min), (1, min), (2, max)])
            print(f"{what}: processor time by 1 worker {processor['1']:.3f} s, {processor['1'] / processor['alone']:.3f} of one thread's; "
                  f"wall time by 2 workers {wall['2']:.3f} s, {wall['2'] / wall['1']:.3f} of 1 worker's; "
                  f"memory {memory['alone']:.0f}, {memory['1']:.0f} and {memory['2']:.0f} MB")


if __name__ == "__main__":
    main()
