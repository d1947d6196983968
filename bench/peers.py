#!/usr/bin/env python3
"""Times pages and descriptors beside libraries in C: OpenSSL, and Intel's multi-buffer library by AVX2. Not part of the gate.

usage: bench/peers.py [RUNS]

Ours is the program of bench/hashes.py, built for any processor and for x86-64-v3. It hashes alone, which is one after another, or in
fours or eights. OpenSSL hashes alone, and the multi-buffer library 64 side by side: bench/peers/ has the programs in C. All are run in
turn, and the least time of some runs is printed, in nanoseconds: of a page, and of a descriptor with the digest of the one before it in
its chain. It stops where a digest of a library is not that of hashlib. A library that is not here is left out, and so is what needs AVX2
where the processor has none.
"""
import hashlib
import os
import subprocess
import sys

import hashes
from crates import kept, top

SOURCES = os.path.join(top, "bench", "peers")
SLICES = 100
PAGES = 64
PAGE = 4096
DESCRIPTOR = 256
DESCRIPTORS = 256
# Where a descriptor has the measurement before it.
MEASUREMENT = 16
ALGOS = ["sha256", "sha512"]

# Each library: its name, its chains side by side, what links it, and the package of Debian that has it.
LIBRARIES = {
    "openssl": ("OpenSSL, alone", 1, "-lcrypto", "libssl-dev"),
    "multibuffer": ("multi-buffer, 64", PAGES, "-lIPSec_MB", "libipsec-mb-dev"),
}


def first_line(text):
    return text.partition("\n")[0]


def program_of(library):
    return os.path.join(kept, f"peers-{library}")


def lack(library):
    """Compiles the program of a library and tries it. What it lacks here, or none."""
    program = program_of(library)
    _, _, links, package = LIBRARIES[library]
    words = [os.environ.get("CC", "cc"), "-O2", "-o", program, "slices.c", f"{library}.c", links]
    try:
        subprocess.run(words, cwd=SOURCES, check=True, capture_output=True, text=True)
    except FileNotFoundError as error:
        return f"no {error.filename}"
    except subprocess.CalledProcessError as error:
        return f"its program needs {package}: {first_line(error.stderr)}"
    ran = subprocess.run([program, "1"], input=bytes(PAGES * PAGE), capture_output=True)
    if ran.returncode == 0:
        return None
    return ran.stderr.decode().strip() or f"status {ran.returncode}"


def last_of_chain(algo, descriptor, length):
    """The digest of the last descriptor of a chain."""
    for _ in range(length):
        digest = hashlib.new(algo, descriptor).digest()
        descriptor = descriptor[:MEASUREMENT] + digest + descriptor[MEASUREMENT + len(digest):]
    return digest.hex()


def digests(pages, chains):
    """What a library has to make of these pages, by hashlib: the digests of each kind of work."""
    found = {}
    for algo in ALGOS:
        found["pages", algo] = [hashlib.new(algo, page).hexdigest() for page in pages]
        found["chains", algo] = [last_of_chain(algo, page[:DESCRIPTOR], DESCRIPTORS // chains) for page in pages[:chains]]
    return found


def times_of_library(program, pages, wanted):
    """The library's version, and the least time of a page and of a descriptor by each algorithm in one run."""
    ran = subprocess.run([program, str(SLICES)], input=b"".join(pages), check=True, capture_output=True)
    version, *lines = ran.stdout.decode().splitlines()
    found = {}
    for line in lines:
        what, algo, least, *made = line.split()
        if made != wanted[what, algo]:
            raise SystemExit(f"{program}: {what} by {algo}: other digests than those of hashlib")
        found[what, algo] = int(least) / (PAGES if what == "pages" else DESCRIPTORS)
    return version, found


def times_of_ours(program):
    """The least times of a page and of a descriptor in one run, by how many go side by side."""
    columns = {}
    for (what, algo, how), time in hashes.least_times(program, 1).items():
        columns.setdefault(how, {})["chains" if what == "descriptors" else what, algo] = time
    return columns


def prepare():
    """Our programs by the processor that each is built for, and those of the libraries."""
    ours = hashes.prepare_all()
    os.makedirs(kept, exist_ok=True)
    lacks = {library: lack(library) for library in LIBRARIES}
    for library, what in lacks.items():
        if what:
            print(f"{library} is left out: {what}")
    return ours, {library: program_of(library) for library, what in lacks.items() if not what}


def keep_least(least, column, times):
    for kind, time in times.items():
        least[column, kind] = min(time, least.get((column, kind), time))


def main():
    runs = int(sys.argv[1]) if len(sys.argv) > 1 else 20
    ours, libraries = prepare()
    pages = [os.urandom(PAGE) for _ in range(PAGES)]
    wanted = {library: digests(pages, LIBRARIES[library][1]) for library in libraries}
    least, versions = {}, {}
    for _ in range(runs):
        for cpu, program in ours.items():
            for how, times in times_of_ours(program).items():
                keep_least(least, f"ours {how}, {cpu}", times)
        for library, program in libraries.items():
            versions[library], times = times_of_library(program, pages, wanted[library])
            keep_least(least, LIBRARIES[library][0], times)
    for library, version in versions.items():
        print(f"{library}: {version}")
    show(least)


def show(least):
    """Prints the table: a row for each kind of work."""
    columns = list(dict.fromkeys(column for column, _ in least))
    print(f"| nanoseconds | {' | '.join(columns)} |\n|{'---|' * (1 + len(columns))}")
    for what, name in [("pages", "a page"), ("chains", "a descriptor")]:
        for algo in ALGOS:
            times = [least.get((column, (what, algo))) for column in columns]
            print(f"| {name} by {algo} | {' | '.join(f'{time:,.0f}' if time else '' for time in times)} |")


if __name__ == "__main__":
    main()
