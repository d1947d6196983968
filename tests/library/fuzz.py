#!/usr/bin/env python3
"""Gives the library manifests that are no longer what they were, many times. It is not in the gate.

    tests/library/fuzz.py FOLDER [--by WAY] [--count N] [--seed S] [--jobs J] [--calls ARCHIVE]

FOLDER has librim-x86_64-v2.a. N calls are made, 100,000 where nothing is said, by J programs of tests/library/fuzz.c at a time, each with a seed of its
own from S on. The manifests are those of examples/ and small ones with all kinds of items. WAY is how reads and writes outside of what was asked for
are seen:

sanitizers   the programs are compiled with AddressSanitizer and UBSan, and so is library/rim.c where ARCHIVE has the proved calls alone. These are not
             compiled so: of what they do, only what they pass to the C library is seen
guarded      each block of memory ends at a page that nobody can read, and with every other seed begins after one: guarded.c
valgrind     the programs run under valgrind, about 50 times as long

The last line is 'N calls, M wrong: A answered, R refused'.
"""
import argparse
import os
import pathlib
import re
import subprocess
import sys
import tempfile

sys.path.insert(0, str(pathlib.Path(__file__).resolve().parents[1]))

from helpers.in_c import GUARDED, VALGRIND, Asked, Build, compiler, fuzzed_files, sanitized, sanitizing  # noqa: E402, the path is set above

WAYS = ("sanitizers", "guarded", "valgrind")
LAST = re.compile(r"(\d+) calls, (\d+) wrong: (\d+) answered, (\d+) refused")


def read_words() -> argparse.Namespace:
    parser = argparse.ArgumentParser(usage="tests/library/fuzz.py FOLDER [--by WAY] [--count N] [--seed S] [--jobs J] [--calls ARCHIVE]")
    parser.add_argument("folder", type=pathlib.Path)
    parser.add_argument("--by", choices=WAYS, default=WAYS[0])
    parser.add_argument("--count", type=int, default=100_000)
    parser.add_argument("--seed", type=int, default=1)
    parser.add_argument("--jobs", type=int, default=2)
    parser.add_argument("--calls", type=pathlib.Path)
    return parser.parse_args()


def built(asked: Asked, way: str) -> list[str]:
    """A program of fuzz.c, and what starts it."""
    if way == "sanitizers":
        return [sanitized(asked).build(asked, "fuzz")]
    build = Build(way, (compiler(),), (str(asked.archive("x86_64-v2")),))
    return [*(VALGRIND if way == "valgrind" else []), build.build(asked, "fuzz", *(GUARDED if way == "guarded" else []))]


def run(program: list[str], words: argparse.Namespace, folder: pathlib.Path) -> list[tuple[int, str]]:
    """The status and the last line of each of the programs, which run at a time."""
    manifests, running = fuzzed_files(folder), []
    for number in range(words.jobs):
        count = words.count // words.jobs + (number < words.count % words.jobs)
        environment = os.environ | ({"GUARDED_BELOW": "1"} if (words.seed + number) % 2 == 0 else {})
        running.append(subprocess.Popen([*program, str(words.seed + number), str(count), *manifests], cwd=folder, stdout=subprocess.PIPE, text=True,
                                        env=environment))
    return [((done.communicate()[0].strip().splitlines() or [""])[-1], done.returncode)[::-1] for done in running]


def main() -> int:
    words = read_words()
    if not (sanitizing() if words.by == "sanitizers" else compiler()):
        print(f"fuzz.py: no compiler here {'has the sanitizers' if compiler() else 'is found'}", file=sys.stderr)
        return 2
    with tempfile.TemporaryDirectory() as made:
        asked = Asked(words.folder.resolve(), "", pathlib.Path(made), False, words.calls.resolve() if words.calls else None)
        came = run(built(asked, words.by), words, pathlib.Path(made))
    found = [LAST.fullmatch(line) for _, line in came]
    if not all(found):
        print(*(f"fuzz.py: a program ends with {status}: {line}" for status, line in came), sep="\n", file=sys.stderr)
        return 1
    calls, wrong, answered, refused = (sum(int(each[n]) for each in found if each) for n in range(1, 5))
    print(f"{calls} calls, {wrong} wrong: {answered} answered, {refused} refused")
    return int(wrong > 0)


if __name__ == "__main__":
    sys.exit(main())
