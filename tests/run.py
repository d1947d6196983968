#!/usr/bin/env python3
"""Gives the built program words and files, and compares its status and what it writes with what is expected, byte for byte.

usage: tests/run.py [--only NAME] [PROGRAM]

PROGRAM is crates/rim/out/rim where it is not given; `./rim --build --help` builds that. --only picks the runs whose name has NAME.
Each run has a fresh folder with its files, in which the program is started. The folder has a link `examples` to that of the
repository. The last line is `N passed, M failed`.

tools/oracles/reference.py computes anew what is expected of the launches that are accepted: each line of a report or an audit, and
`pages N`; a listing; a devicetree. Of a report as JSON Python's hashlib computes what is expected of the files too.

tests/helpers/rows.py says what the files of cases/ and rows/ have.
"""
import argparse
import concurrent.futures
import hashlib
import json
import os
import subprocess
import sys
import tempfile

from helpers import SECONDS
from helpers.rows import EXPECTED, all_runs, contents, difference, write
from helpers.tries import PROCESSORS, program_of, told

import reference


# ---- what tools/oracles/reference.py makes of a manifest


def described(path, data):
    """A file as a report has it."""
    return {"bytes": len(data), "path": path, "sha256": hashlib.sha256(data).hexdigest()}


class Reference:
    """A manifest and its files, of which each launch is measured once."""

    def __init__(self, folder, path):
        self.manifest, self.files = reference.read_manifest(path, folder)
        with open(os.path.join(folder, path), "rb") as file:
            self.own = described(path, file.read())
        self.measured = {}

    def launch(self, name):
        return next(launch for launch in self.manifest["launch"] if launch["name"] == name)

    def measure(self, name):
        """The measurement of a launch, its listing and its pages."""
        if name not in self.measured:
            pages = set()
            self.measured[name] = *reference.measure(self.launch(name), self.files, pages), pages
        return self.measured[name]

    def devicetree(self, name):
        item = next(item for item in self.launch(name)["item"] if item["kind"] == "dtb")
        return reference.edited(item, self.launch(name), self.files)

    def listing(self, name):
        return "".join(line + "\n" for line in self.measure(name)[1]).encode()

    def described(self):
        """The files as a report has them."""
        contents = [(entry["path"], self.files[entry["name"]]) for entry in self.manifest.get("file", [])]
        return [described(path, data) for path, data in contents]

    def described_launch(self, name):
        """What a launch is, as a report has it."""
        digests = {entry["name"]: each for entry, each in zip(self.manifest.get("file", []), self.described())}
        return reference.described(self.launch(name), self.files, digests)

    def launches(self, names):
        """The lines of these launches in a report, and how many pages they have."""
        lines = [[name, self.launch(name)["algo"], self.measure(name)[0]] for name in names]
        return lines, len(set().union(*(self.measure(name)[2] for name in names)))


def accepted(words, text):
    """The lines of the launches that are accepted in a report or an audit, and how many pages it has, if it says so."""
    if text.startswith(b"{"):
        report = json.loads(text)
        return [[line["name"], line["algorithm"], line["rim"]] for line in report["launches"] if "rim" in line], report["pages"]
    lines = [line.split(" ") for line in text.decode().splitlines()[1:]]
    pages = int(lines.pop()[1]) if words[0] == "measure" else None
    return [line for line in lines if line[1] != "refused"], pages


def second_opinion(known, words, text):
    """How what is expected differs from what tools/oracles/reference.py makes, as lines."""
    if words[0] in ("list", "dtb"):
        made = known.listing(words[2]) if words[0] == "list" else known.devicetree(words[2])
        return difference("the output of tools/oracles/reference.py", text, made)
    lines, pages = accepted(words, text)
    found, count = known.launches([line[0] for line in lines])
    pairs = [*zip(lines, found), *([(["pages", pages], ["pages", count])] if pages is not None else [])]
    if text.startswith(b"{"):
        report = json.loads(text)
        pairs += [(report["files"], known.described()), (report["manifests"], [known.own])]
        whole = [launch for launch in report["launches"] if "rim" in launch]
        pairs += [({key: launch[key] for key in launch if not key.startswith("rim")}, known.described_launch(launch["name"])) for launch in whole]
    return [f"expected {a}, but tools/oracles/reference.py makes {b}" for a, b in pairs if a != b]


def has_accepted(run, text):
    """Whether what is expected is of a launch that is accepted."""
    if "stdout_begins" in run or "reference" in run or not text:
        return False
    command = run["words"][0]
    if command in ("measure", "audit"):
        return bool(accepted(run["words"], text)[0])
    return command == "dtb" or text.startswith(b"rim-list ")


# ---- runs


def outcome(program, run, folder, expected):
    """How a run in its folder differs from what is expected, as lines."""
    try:
        words, given = [program, *run["words"]], contents(run.get("stdin", ""))
        ran = subprocess.run(words, cwd=folder, input=given, capture_output=True, timeout=SECONDS, check=False)
    except subprocess.TimeoutExpired:
        return [f"it took more than {SECONDS} seconds"]
    status = run.get("status", 0)
    lines = [] if ran.returncode == status else [f"status: expected {status}, found {ran.returncode}"]
    for key, found in zip(EXPECTED, (ran.stdout, ran.stderr)):
        lines += difference(key, expected[key], found, key + "_begins" in run)
    if run.get("stderr_has", "") not in ran.stderr.decode(errors="replace"):
        lines.append(f"stderr has no {run['stderr_has']!r}: {ran.stderr!r}")
    return lines


def opinion(known, run, folder, text):
    """How what is expected of a run differs from what tools/oracles/reference.py makes, as lines; it may not make anything of it."""
    manifest = next(word for word in run["words"][1:] if os.path.isfile(os.path.join(folder, word)))
    try:
        if manifest not in known:
            known[manifest] = Reference(folder, manifest)
        return second_opinion(known[manifest], run["words"], text)
    except Exception as error:  # of any kind, since it is of a run that has a name
        return [f"tools/oracles/reference.py ends with {error!r}"]


def run_all(program, runs):
    """The outcomes of runs that have the same files: the name, the differences, and whether tools/oracles/reference.py was asked."""
    files = {path: contents(said) for path, said in runs[0]["files"].items()}
    known, outcomes = {}, []
    for run in runs:
        expected = {key: contents(run.get(key, run.get(key + "_begins", ""))) for key in EXPECTED}
        is_asked = has_accepted(run, expected["stdout"])
        with tempfile.TemporaryDirectory() as folder:
            write(folder, files)
            lines = outcome(program, run, folder, expected)
            if is_asked:
                lines += opinion(known, run, folder, expected["stdout"])
        outcomes.append((run["name"], lines, is_asked))
    return outcomes


def outcomes(program, groups):
    """Yields the outcomes of groups of runs as they come. Then prints how many were compared with tools/oracles/reference.py."""
    asked = []
    with concurrent.futures.ProcessPoolExecutor(PROCESSORS) as pool:
        for done in pool.map(run_all, [program] * len(groups), groups.values()):
            for name, lines, is_asked in done:
                asked.append(is_asked)
                yield name, lines
    print(f"{sum(asked)} of {len(asked)} runs compared with tools/oracles/reference.py")


def main():
    parser = argparse.ArgumentParser(usage="tests/run.py [--only NAME] [PROGRAM]")
    parser.add_argument("--only", default="")
    parser.add_argument("program", nargs="?")
    given = parser.parse_args()
    program = program_of([given.program] if given.program else [])
    groups = {}
    for run in all_runs(program):
        if given.only in run["name"]:
            groups.setdefault(repr(sorted(run["files"].items())), []).append(run)
    return told(outcomes(program, groups))


if __name__ == "__main__":
    sys.exit(main())
