#!/usr/bin/env python3
"""Times the library beside the program by one worker, by the processors' seconds. Not part of the gate.

usage: bench/library.py [RUNS] PROGRAM LIBRARY

The releases are those of bench/crowds.py. Both are run by turns, and the least of some runs is printed, and how often the program's the library's is.
Files are read before the library is timed, which copies each once; the program reads them. The reports have to be the same.
"""
import os
import resource
import subprocess
import sys
import tempfile
import time

import crowds

TOP = os.path.dirname(os.path.dirname(os.path.abspath(__file__)))


def by_program(program, path):
    """The seconds that a run of the program takes, and its report."""
    before = resource.getrusage(resource.RUSAGE_CHILDREN)
    ran = subprocess.run([program, "measure", "--workers", "1", path], stdout=subprocess.PIPE, text=True, check=True)
    after = resource.getrusage(resource.RUSAGE_CHILDREN)
    return after.ru_utime + after.ru_stime - before.ru_utime - before.ru_stime, ran.stdout


def by_library(rim, path):
    """The seconds that a call takes, and its report."""
    with open(path, "rb") as file:
        manifest = file.read()
    files = {}
    for name in rim.manifest_paths(manifest):
        with open(name, "rb") as file:
            files[name] = file.read()
    before = time.process_time()
    report = rim.measure(manifest, files).text
    return time.process_time() - before, report


def main():
    runs = int(sys.argv[1]) if sys.argv[1:2] and sys.argv[1].isdigit() else 0
    if len(sys.argv) != 3 + bool(runs):
        raise SystemExit(__doc__.split("\n\n")[1])
    program, os.environ["RIM_LIBRARY"] = sys.argv[-2], sys.argv[-1]
    sys.path.insert(0, os.path.join(TOP, "library", "python"))
    import rim

    with tempfile.TemporaryDirectory() as folder:
        path = os.path.join(folder, "manifest.toml")
        for release in crowds.RELEASES:
            with open(path, "w", encoding="utf-8") as file:
                file.write("rim_manifest = 1\n" + release(folder))
            ran = [(by_program(program, path), by_library(rim, path)) for _ in range(runs or 3)]
            if len({report for both in ran for _, report in both}) != 1:
                raise SystemExit("the reports differ")
            one, own = (min(both[at][0] for both in ran) for at in (0, 1))
            print(f"{own:.2f} {one:.2f} ({own / one:.2f})  {release.__doc__.splitlines()[0]}", flush=True)


if __name__ == "__main__":
    main()
