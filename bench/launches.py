#!/usr/bin/env python3
"""Times `./rim measure` on a manifest of 1,024 launches. Not part of the gate.

usage: bench/launches.py [LAUNCHES [RUNS]]
"""
import os
import subprocess
import sys
import tempfile
import time

top = os.path.dirname(os.path.dirname(os.path.abspath(__file__)))
program = os.path.join(top, "crates", "rim", "out", "rim")
sys.path.insert(0, os.path.join(top, "tests"))

from helpers.manifests import launch, manifest  # noqa: E402, the path is set above


def launches(count):
    return [launch(f"launch-{i}", algo="sha512" if i % 2 else "sha256", s2sz=32 + i % 17, num_bps=i % 16, rpv=f"{i:0128x}") for i in range(count)]


def least_time(words, runs):
    times = []
    for _ in range(runs):
        start = time.perf_counter()
        subprocess.run(words, check=True, stdout=subprocess.DEVNULL)
        times.append(time.perf_counter() - start)
    return min(times)


def main():
    count = int(sys.argv[1]) if len(sys.argv) > 1 else 1024
    runs = int(sys.argv[2]) if len(sys.argv) > 2 else 20
    subprocess.run([os.path.join(top, "rim"), "--build", "--help"], check=True, stdout=subprocess.DEVNULL)
    with tempfile.NamedTemporaryFile("w", suffix=".toml") as file:
        file.write(manifest(*launches(count)))
        file.flush()
        whole = least_time([program, "measure", file.name], runs)
        script = least_time([os.path.join(top, "rim"), "measure", file.name], runs)
    print(f"{count} launches: {whole * 1000:.1f} ms; by ./rim {script * 1000:.1f} ms (least of {runs})")


if __name__ == "__main__":
    main()
