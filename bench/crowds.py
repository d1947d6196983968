#!/usr/bin/env python3
"""Times `rim measure` by one worker, by four and by 64, on one processor, on two and on four. Not part of the gate.

usage: bench/crowds.py [RUNS] PROGRAM ..

Each PROGRAM is one of dist/, of this checkout or of another. The releases are launches that have nothing in common, few and many; some of
one kernel and one initrd, as a distribution has them; and those of bench/waits.py, which begin alike. All programs are run by turns. The
least of some runs is printed: the time that passed, and the processors' time, each with its ratio to that of one worker on as many
processors. They have to print the same.
"""
import os
import subprocess
import sys
import tempfile
import time

import prefixes
import waits
from releases import MIB, file_of, launch

PROCESSORS = [4, 2, 1]
WORKERS = [1, 4, 64]


def apart(count, entries):
    """Launches of this many entries of 4 KiB, each at a place of its own."""
    return "".join(waits.launch(f"launch-{n}", [(waits.BASE + (n << 30), entries * waits.ENTRY)]) for n in range(count))


def many_apart(_folder):
    """128 launches that share nothing, of 20,000 entries each"""
    return apart(128, 20_000)


def few_apart(_folder):
    """9 launches that share nothing, of 30,000 entries each"""
    return apart(9, 30_000)


def one_file(folder):
    """400 launches of one file of 8 MiB, each with an address of its own for it"""
    text = file_of(folder, "raw", 8 * MIB)
    return text + "".join(launch(f"launch-{n}", 0x80000000, [("raw", 0x40200000 + n * 0x1000)]) for n in range(400))


def real(folder, launches):
    """The first launches of bench/prefixes.py, each with a kernel, an initrd and a devicetree."""
    head, *each = prefixes.alike(folder).split("[[launch]]\n")
    return head + "".join("[[launch]]\n" + text for text in each[:launches])


def real_24(folder):
    """24 launches of one kernel and one initrd: five sizes of RAM, one to five vCPUs"""
    return real(folder, 24)


def real_300(folder):
    """300 launches of one kernel and one initrd: five sizes of RAM, one to five vCPUs, two algorithms, six command lines"""
    return real(folder, 300)


def alike(release):
    def made(_folder):
        return release()

    made.__doc__ = release.__doc__
    return made


RELEASES = [many_apart, few_apart, one_file, real_24, real_300, *map(alike, waits.RELEASES)]


def run(program, workers, processors, path):
    """The wall time and the processors' time of a run in seconds, and what it prints."""
    words = ["taskset", "-c", f"0-{processors - 1}", program, "measure", "--workers", str(workers), path]
    before = time.monotonic()
    ran = subprocess.Popen(words, stdout=subprocess.PIPE)
    printed = ran.stdout.read()
    _, status, used = os.wait4(ran.pid, 0)
    wall = time.monotonic() - before
    ran.returncode = os.waitstatus_to_exitcode(status)
    if ran.returncode:
        raise SystemExit(f"{' '.join(words)}: {ran.returncode}")
    return wall, used.ru_utime + used.ru_stime, printed


def least(programs, path, processors, runs):
    """The least times of each number of workers and each program, in seconds: wall, and processors."""
    found = {(workers, program): [] for workers in WORKERS for program in programs}
    for _ in range(runs):
        for workers, program in found:
            found[workers, program].append(run(program, workers, processors, path))
    if len({printed for ran in found.values() for *_, printed in ran}) != 1:
        raise SystemExit("the reports differ")
    return {key: tuple(min(each[at] for each in ran) for at in (0, 1)) for key, ran in found.items()}


def main():
    runs = int(sys.argv[1]) if sys.argv[1:2] and sys.argv[1].isdigit() else 0
    programs = sys.argv[2 if runs else 1 :]
    if not programs:
        raise SystemExit(__doc__.split("\n\n")[1])
    with tempfile.TemporaryDirectory() as folder:
        path = os.path.join(folder, "manifest.toml")
        for release in RELEASES:
            with open(path, "w", encoding="utf-8") as file:
                file.write("rim_manifest = 1\n" + release(folder))
            print(f"\n{release.__doc__}")
            for processors in PROCESSORS:
                times = least(programs, path, processors, runs or 3)
                for at, program in enumerate(programs):
                    one = times[1, program]
                    each = [f"{processors} processors" if at == 0 else "", os.path.relpath(program)[-40:]]
                    for workers in WORKERS:
                        wall, used = times[workers, program]
                        each.append(f"{wall:.2f} ({wall / one[0]:.2f}) {used:.2f} ({used / one[1]:.2f})")
                    print("  " + " | ".join(each), flush=True)


if __name__ == "__main__":
    main()
