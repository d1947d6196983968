#!/usr/bin/env python3
"""Gives rim-manifest words, files and a stand-in for the hypervisor, and looks at what it says and at the manifests that it writes.

    tests/hypervisors.py [PROGRAM]          by default the program that `rt ci` has built

- Wrong words and faults: the status, the one line and that nothing is written. For speed these are runs of its `main` in a process of
  many; all others start rim-manifest itself. Command lines that no launch can be made of are among them.
- Command lines as people have them: those of tests/lines, each with the launch that was worked out by hand beside it; and those of libvirt's own tests.
- Random command lines: `check` has no warning about their manifests.
- Places: addresses that were worked out by hand from docs/VMM.md, of each hypervisor.
- Devicetrees that are derived from dumps: of random lines the bytes that QEMU writes, if qemu-system-aarch64 is here; and each reason why none is.
- Options, names, matrices, more than 64 files, a folder that is moved, an installed rim-manifest.
- --force: what it replaces, what it keeps, where it refuses, and what a stop at each step leaves.
- A guest that runs beside a dump; programs that misbehave; signals; full disks; FIFOs.
- Documents: docs/rim-manifest.1 has each option, and docs/VMM.md each row of the tables.

PROGRAM reads each manifest that is written, by `check` without a line, and measures it. The devicetrees are made here. The last line is
'N passed, M failed'.
"""
import concurrent.futures
import itertools
import os
import sys
from collections.abc import Callable, Iterator

from helpers.tries import PROCESSORS, Outcome, at_a_time, program_of, told, tried
from rim_manifest import derived, forced, hostile, lines, options, places, stops, tables, whole

# The tries that are a function each, which is given the program.
LOOKS = (lines.as_a_shell, lines.variables, lines.known, whole.pasted, whole.machine_recorded, whole.one_step, whole.of_realm, whole.explained, whole.long_names, whole.matrix, whole.measured, forced.forced,
         forced.not_forced, forced.stopped_midway, hostile.bad_programs, hostile.signals, hostile.full, whole.read_once, whole.odd_names,
         hostile.fifos, hostile.unharmed, whole.started, whole.texts, tables.types, tables.documents)


def all_stops() -> list[Outcome]:
    with concurrent.futures.ProcessPoolExecutor(PROCESSORS) as pool:
        found = [(each[0], wrong) for each, wrong in zip(stops.STOPS, pool.map(stops.stops, range(len(stops.STOPS)), chunksize=8))]
        return found + [(f"random lines, {seed}", wrong) for seed, wrong in zip(lines.RANDOM, pool.map(tried, itertools.repeat(lines.usual), lines.RANDOM))]


def all_tries(program: str) -> Iterator[tuple[str, Callable[[], list[str]]]]:
    for name, words, look, *rest in options.OPTIONS:
        yield f"option: {name}", lambda each=(words, look, *rest): options.option(program, *each)
    yield from derived.tries(program)
    yield from places.places(program)
    yield from lines.lines(program)
    for look in LOOKS:
        yield look.__name__, lambda look=look: look(program)


def main() -> int:
    program = program_of(sys.argv[1:])
    os.environ["RIM"] = program
    return told([*all_stops(), *at_a_time(all_tries(program))])


if __name__ == "__main__":
    sys.exit(main())
