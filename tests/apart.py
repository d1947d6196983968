#!/usr/bin/env python3
"""Compares the audit of a release with audits, listings and traces of its launches, each by itself, and replays these listings.

    tests/apart.py [PROGRAM]        by default the program that `rt ci` has built

An audit of many launches hashes what they share once, and gives it to a monitor once. Here each launch is measured again in a run
of its own, which hashes each page for its command:

- of each release of tests/cases and tests/rows, by `rim list`, whose last line has the measurement. `rim replay` says yes to it, and
  `rim trace` prints what tools/oracles/replay.py makes of it;
- of releases that are made at random from the numbers of SEEDS, by `rim audit` of a manifest that has the one launch alone. Two of
  three are of version 2, in which launches that begin alike have other rules for RECs that are not runnable.

The last line is 'N passed, M failed' over the releases.
"""
import concurrent.futures
import itertools
import os
import random
import shutil
import subprocess
import sys
import tempfile

from helpers import SECONDS, TOP
from helpers.manifests import manifest
from helpers.rows import all_runs, contents, write
from helpers.tries import PROCESSORS, program_of, told

import replay

SEEDS = range(1, 25)
PAGE = 4096
RAM = 0x4000_0000
# A file with enough pages for a copy of a monitor after it, from which later launches go on.
LARGE = 600 * PAGE


def output(program, folder, *words):
    """What a run prints, as lines."""
    ran = subprocess.run([program, *words], cwd=folder, stdin=subprocess.DEVNULL, capture_output=True, timeout=SECONDS, check=False)
    return ran.stdout.decode(errors="replace").splitlines()


# ---- releases of the tests


def releases(program):
    """The files of each release of the tests that is measured or audited: those that make up one release come once."""
    found = {}
    for each in all_runs(program):
        is_measured = each["words"][:1] in (["measure"], ["audit"]) and each.get("status", 0) in (0, 1)
        # what comes through a pipe can be read once
        if is_measured and "manifest.toml" in each["files"] and "stdin" not in each:
            found.setdefault(repr(sorted(each["files"].items())), each)
    return list(found.values())


def replayed(program, folder, listing):
    """What a replay of a listing says, as lines."""
    with open(os.path.join(folder, "listing"), "w", encoding="ascii") as file:
        file.writelines(line + "\n" for line in listing)
    return output(program, folder, "replay", "listing")


def by_listings(program, each):
    """How the audit of a release of the tests differs from the listings of its launches, as lines."""
    files = {path: contents(said) for path, said in each["files"].items()}
    wrong = []
    with tempfile.TemporaryDirectory() as folder:
        write(folder, files)
        for line in output(program, folder, "audit", "manifest.toml")[1:]:
            name, *said = line.split(" ")
            listed = output(program, folder, "list", "manifest.toml", name)
            is_refused = said[0] == "refused"
            if listed[-1:] != [line if is_refused else " ".join(["rim", *said])]:
                wrong.append(f"the audit has {line!r}, and the listing ends with {listed[-1:]}")
            traced = output(program, folder, "trace", "manifest.toml", name)
            if is_refused:
                wrong += [f"the trace has {traced}, and not {line!r}"] if traced != [line] else []
                continue
            if (answer := replayed(program, folder, listed)) != ["yes"]:
                wrong.append(f"the replay of the listing of {name} says {answer}")
            if (made := replay.trace(listed)) != traced:
                first = next((pair for pair in itertools.zip_longest(made, traced) if pair[0] != pair[1]), None)
                wrong.append(f"the trace of {name} parts from that of tools/oracles/replay.py: {first}")
    return each["name"], wrong


# ---- releases at random


def item(dice, name, file, size, at):
    """A raw item, whose bytes may begin inside a page and be followed by zeros."""
    lead = dice.choice([0, 0, 0, 8, dice.randrange(PAGE)])
    keys = [f'name = "{name}"', 'kind = "raw"', f'file = "{file}"', f"at = {at + lead}"]
    if dice.random() < 0.3:
        keys.append(f"size = {size + dice.randrange(5 * PAGE)}")
    if dice.random() < 0.15:
        keys.append("measured = false")
    return "{ " + ", ".join(keys) + " }"


def launch(dice, number, sizes, version):
    """The table of a launch. Few things differ from launch to launch, so that many begin alike."""
    items = {"large": item(dice, "large", "large", sizes["large"], RAM)}
    if dice.random() < 0.7:
        items["small"] = item(dice, "small", dice.choice(["small", "other"]), sizes["small"], RAM + 0x40_0000)
    if dice.random() < 0.5:
        tree = f'name = "tree", kind = "dtb", file = "tree", at = {RAM + 0x50_0000}, bootargs = "{dice.choice(["a", "b"])}"'
        items["tree"] = "{ " + tree + " }"
    names = list(items)
    if dice.random() < 0.5:
        items["log"] = f'{{ name = "log", kind = "unknown", at = {RAM + 0x30_0000}, size = {dice.choice([2, 2, 3]) * PAGE} }}'
        # by default it is the last item, and here sometimes the first one
        names = ["log", *names] if dice.random() < 0.7 else [*names, "log"]
    rule = dice.choice([None, "all", "runnable"]) if version == 2 else None
    recs = ["{ pc = 0x40000000 }"] * dice.randrange(3)
    # without a rule, which version 1 has not, a launch is refused where a REC is not runnable
    if dice.random() < (0.7 if rule else 0.05 if version == 1 else 0):
        recs.insert(dice.randrange(len(recs) + 1), "{ runnable = false }")
    keys = [f'rec_rule = "{rule}"'] if rule else []
    if dice.random() < 0.7:
        # by default RECs come last, and here sometimes all of them or one come first
        order = [f"rec {each}" for each in range(len(recs))]
        first = dice.choice([0, 0, 0, 1, len(order)])
        keys.append(f"steps = {[*order[:first], 'ram 0', *(f'item {name}' for name in names), *order[first:]]}")
    return f"""
[[launch]]
name = "launch-{number}"
algo = "{dice.choice(["sha256", "sha256", "sha512"])}"
s2sz = 40
num_aux = {dice.choice([0, 0, 0, 2])}
block_level = {dice.choice([2, 2, 2, 3])}
ram = [[{RAM}, {RAM + dice.choice([0x60_0000, 0x80_0000, 0x50_0000])}]]
item = [
  {f",{chr(10)}  ".join(items.values())},
]
rec = [{", ".join(recs)}]
{chr(10).join(keys)}
"""


def by_itself(program, seed):
    """How the audit of a release that follows from a number differs from those of its launches, as lines."""
    dice = random.Random(seed)
    files = {"large": dice.randbytes(LARGE), "small": dice.randbytes(9_000), "other": dice.randbytes(9_000)}
    version = dice.choice([1, 2, 2])
    head = manifest(files=["tree", *files], version=version)
    sizes = {name: len(data) for name, data in files.items()}
    launches = [launch(dice, number, sizes, version) for number in range(24)]
    with tempfile.TemporaryDirectory() as folder:
        write(folder, files | {"all.toml": (head + "".join(launches)).encode()})
        shutil.copy(os.path.join(TOP, "bench", "virt.dtb"), os.path.join(folder, "tree"))
        together = output(program, folder, "audit", "all.toml")[1:]
        alone = []
        for text in launches:
            run_alone = os.path.join(folder, "alone.toml")
            with open(run_alone, "w", encoding="ascii") as file:
                file.write(head + text)
            alone += output(program, folder, "audit", "alone.toml")[1:]
    wrong = [f"together {a!r}, and alone {b!r}" for a, b in zip(together, alone) if a != b]
    if len(together) != len(launches) or len(alone) != len(launches):
        wrong.append(f"{len(launches)} launches have {len(together)} lines together, and {len(alone)} alone")
    if not any(" refused " not in line for line in together):
        wrong.append("no launch is accepted")
    return f"the release of {seed}", wrong


def main():
    program = program_of(sys.argv[1:])
    with concurrent.futures.ProcessPoolExecutor(PROCESSORS) as pool:
        waiting = [pool.submit(by_listings, program, each) for each in releases(program)]
        waiting += [pool.submit(by_itself, program, seed) for seed in SEEDS]
        return told([each.result() for each in waiting])


if __name__ == "__main__":
    sys.exit(main())
