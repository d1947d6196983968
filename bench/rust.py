#!/usr/bin/env python3
"""Times a launch of 32 MiB on one thread beside Rust's sha2, which hashes as much. Not part of the gate.

usage: bench/rust.py [RUNS [PROGRAM]]

Ours is bench/workers/main.rt.in, built for x86-64-v3 and run by eight lanes, or PROGRAM. Rust's is bench/peers/sha2, built by cargo
with Debian's librust-sha2-dev, for any processor and for x86-64-v3. All are run in turn, and the least time of some runs is printed,
without the reading of files. Where those sources are not here, nothing is timed.
"""
import os
import subprocess
import sys
import tempfile

from crates import kept, top
from releases import MIB, file_of
from workers import measuring

# Where Debian's packages put the sources of crates.
SOURCES = "/usr/share/cargo/registry"
CONFIG = f'[source.crates-io]\nreplace-with = "debian"\n[source.debian]\ndirectory = "{SOURCES}"\n'
CPUS = ["x86-64", "x86-64-v3"]
BLOCKS = 512


def rust(cpu):
    """Rust's program, built for a processor."""
    target = os.path.join(kept, f"sha2-{cpu}")
    config = os.path.join(kept, "sha2.toml")
    os.makedirs(kept, exist_ok=True)
    with open(config, "w") as file:
        file.write(CONFIG)
    words = ["cargo", "build", "--release", "--offline", "--quiet", "--config", config, "--target-dir", target]
    environment = {**os.environ, "RUSTFLAGS": f"-C target-cpu={cpu}"}
    with tempfile.TemporaryDirectory() as folder:
        subprocess.run(["cp", "-r", os.path.join(top, "bench", "peers", "sha2"), folder], check=True)
        subprocess.run(words, cwd=os.path.join(folder, "sha2"), env=environment, check=True)
    return os.path.join(target, "release", "launch")


def time_of(words):
    ran = subprocess.run(words, check=True, capture_output=True)
    return int(ran.stderr) / 1e6


def prepare():
    return measuring(flags=["--cpu=x86-64-v3"])


def main():
    if not os.path.isdir(SOURCES):
        print("left out: librust-sha2-dev is not installed")
        return
    runs = int(sys.argv[1]) if len(sys.argv) > 1 else 7
    ours = sys.argv[2] if len(sys.argv) > 2 else prepare()
    programs = {f"Rust, {cpu}": rust(cpu) for cpu in CPUS}
    with tempfile.TemporaryDirectory() as folder:
        head = "rim_manifest = 1\n" + file_of(folder, "kernel", 32 * MIB)
        for algo in ["sha256", "sha512"]:
            path = os.path.join(folder, f"{algo}.toml")
            with open(path, "w") as file:
                file.write(f'{head}[[launch]]\nname = "a"\nalgo = "{algo}"\ns2sz = 40\nram = [[0x40000000, 0x{0x40000000 + BLOCKS * 2 * MIB:x}]]\n'
                           '[[launch.item]]\nname = "kernel"\nkind = "raw"\nfile = "kernel"\nat = 0x40200000\n')
            words = {"ours": [ours, "alone", path, "8"]}
            words |= {name: [program, algo, os.path.join(folder, "kernel"), str(BLOCKS)] for name, program in programs.items()}
            times = {name: [] for name in words}
            for _ in range(runs):
                for name in words:
                    times[name].append(time_of(words[name]))
            own = min(times["ours"])
            print(f"a launch of 32 MiB by {algo}: {own:.1f} ms; " + "; ".join(
                f"{name} {min(times[name]):.1f} ms, ours {own / min(times[name]):.2f} of it" for name in programs), flush=True)


if __name__ == "__main__":
    main()
