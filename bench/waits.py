#!/usr/bin/env python3
"""Times reports of launches that begin alike, by one worker, by four and by 64. Not part of the gate.

usage: bench/waits.py [RUNS [PROGRAM ..]]

Each launch has nothing but RAM in entries of 4 KiB. It builds bench/workers/main.rt.in with the kit's rt, for eight lanes, and runs it on
each release; or PROGRAMs in turn, which are such programs too. The medians of some runs are printed: the time that passed, and the
processor time, with its ratio to that of one worker.
"""
import os
import statistics
import sys
import tempfile

from workers import measuring, run

ENTRY, RUN, BASE = 1 << 12, 1 << 21, 0x40000000
WORKERS = ["1", "4", "64"]


def launch(name, regions):
    """A launch with these regions of RAM: where each begins, and how many bytes it has."""
    ram = ", ".join(f"[0x{base:x}, 0x{base + size:x}]" for base, size in regions)
    return f'[[launch]]\nname = "{name}"\nalgo = "sha256"\ns2sz = 40\nblock_level = 3\nram = [{ram}]\n'


def one_prefix():
    """One launch of 1,050,000 entries, and 200 that begin with near 500,000 of these and have 1,024 of their own."""
    text = launch("long", [(BASE, 2050 * RUN)])
    return text + "".join(launch(f"launch-{n}", [(BASE, 976 * RUN), ((128 + n) << 30, 2 * RUN)]) for n in range(200))


def long_tails():
    """The same, but each of the 200 has 15,360 entries of its own."""
    text = launch("long", [(BASE, 2050 * RUN)])
    return text + "".join(launch(f"launch-{n}", [(BASE, 976 * RUN), ((128 + n) << 30, 30 * RUN)]) for n in range(200))


def many_stops():
    """One launch of 4 GiB, and 1,000 that part from it at places of their own and have 40 entries of their own."""
    text = launch("long", [(BASE, 4 << 30)])
    return text + "".join(launch(f"launch-{n}", [(BASE, (n + 1) * 2 * RUN), ((128 << 30) + n * RUN, 40 * ENTRY)]) for n in range(1000))


def one_large():
    """28 launches, the first with 3 GiB of RAM, the others with 258 to 310 MiB."""
    return launch("large", [(BASE, 3 << 30)]) + "".join(launch(f"launch-{n}", [(BASE, (258 + 2 * n) << 20)]) for n in range(27))


def stairs():
    """12 launches, with 256 MiB to 3 GiB of RAM."""
    return "".join(launch(f"launch-{n}", [(BASE, (256 + 250 * n) << 20)]) for n in range(12))


RELEASES = [one_prefix, long_tails, many_stops, one_large, stairs]


def prepare():
    return measuring(flags=["--cpu=x86-64-v3"])


def main():
    runs = int(sys.argv[1]) if len(sys.argv) > 1 else 5
    programs = sys.argv[2:] or [prepare()]
    with tempfile.TemporaryDirectory() as folder:
        path = os.path.join(folder, "manifest.toml")
        for release in RELEASES:
            with open(path, "w") as file:
                file.write("rim_manifest = 1\n" + release())
            print(release.__doc__)
            found = {(who, program): [] for who in WORKERS for program in programs}
            for _ in range(runs):
                for who, program in found:
                    found[who, program].append(run([program, who, path, "8"]))
            if len({each[3] for ran in found.values() for each in ran}) != 1:
                raise SystemExit("the reports differ")
            for (who, program), ran in found.items():
                wall, processor = (statistics.median(each[at] for each in ran) for at in (0, 1))
                one = statistics.median(each[1] for each in found["1", program])
                print(f"  {who} workers: {wall:.2f} s, processors {processor:.2f} s, {processor / one:.2f} of one worker's", flush=True)


if __name__ == "__main__":
    main()
