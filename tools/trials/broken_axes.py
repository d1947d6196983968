#!/usr/bin/env python3
"""Takes the changes of each axis of rim-match away in turn, in a copy, and looks whether a test sees it.

    tools/trials/broken_axes.py [--only AXIS] PROGRAM

A fault in an axis hides an answer and says nothing, so a test has to find each axis by what it alone finds. The tries of tests/matching.py,
tests/causes.py and tests/bases.py are run in their order until one is wrong; PROGRAM measures. A line says of each axis which try saw it. The
last line is 'N seen, M not seen'; the status is 1 where M is not 0.
"""
import concurrent.futures
import os
import pathlib
import shutil
import subprocess
import sys
import tempfile

TOP = pathlib.Path(__file__).resolve().parents[2]
# What is copied, and what a link is enough for.
COPIED, LINKED = ("scripts", "tests", "rim-match", "rim-manifest", "rim-compare"), ("examples", "docs", "tools", "README.md", "rim", "dist")
BROKEN = """

import dataclasses  # noqa: E402, a trial's
AXES = tuple(dataclasses.replace(axis, changes=lambda _launch, _files: iter(())) if axis.name == {name!r} else axis for axis in AXES)
"""
# Runs the tries until one is wrong, and says which.
DRIVER = """
import itertools, signal, sys
sys.path[:0] = ["tests", "scripts"]
# a shell's background ignores INT, and nohup HUP: what is started from here would too
signal.signal(signal.SIGINT, signal.default_int_handler)
signal.signal(signal.SIGHUP, signal.SIG_DFL)
import bases, causes, matching
from helpers.tries import tried
for name, look in itertools.chain(*(each.all_tries(sys.argv[1]) for each in (matching, causes, bases))):
    if tried(look):
        print(name)
        break
"""


def names_of_axes() -> list[str]:
    """The axes, in the order in which they are tried."""
    sys.path.insert(0, str(TOP / "scripts"))
    from matcher.axes import AXES

    return [axis.name for axis in AXES]


def seen_by(name: str, program: str) -> str:
    """The try that sees that an axis has no changes; nothing where none does."""
    with tempfile.TemporaryDirectory() as folder:
        here = pathlib.Path(folder)
        for each in COPIED:
            (shutil.copytree if (TOP / each).is_dir() else shutil.copy2)(TOP / each, here / each)
        for each in LINKED:
            os.symlink(TOP / each, here / each)
        with open(here / "scripts/matcher/axes.py", "a", encoding="utf-8") as file:
            file.write(BROKEN.format(name=name))
        ran = subprocess.run([sys.executable, "-c", DRIVER, program], cwd=here, stdout=subprocess.PIPE, stderr=subprocess.STDOUT, text=True)
        return ran.stdout.strip().splitlines()[-1] if ran.stdout.strip() else ""


def main(words: list[str]) -> int:
    only = words[1] if words[:1] == ["--only"] and len(words) == 3 else ""
    if len(words) != (3 if only else 1):
        print(__doc__.split("\n\n")[1], file=sys.stderr)
        return 2
    program = os.path.abspath(words[-1])
    names = [name for name in names_of_axes() if not only or name == only]
    with concurrent.futures.ThreadPoolExecutor(len(os.sched_getaffinity(0))) as pool:
        found = dict(zip(names, pool.map(lambda name: seen_by(name, program), names)))
    for name, by in found.items():
        print(f"{name}: {by or 'no try sees it'}")
    missed = sum(not by for by in found.values())
    print(f"{len(found) - missed} seen, {missed} not seen")
    return int(missed > 0 or not found)


if __name__ == "__main__":
    sys.exit(main(sys.argv[1:]))
