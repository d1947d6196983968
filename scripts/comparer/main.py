"""The order of the work: words, the kept report, the other one, what is printed."""
from __future__ import annotations

import functools
import json
import os
import sys

from outside import ending, files
from outside.faults import Fault, WrongWords
from outside.programs import Limits
from outside.rim import Rim, started
from outside.texts import pasted
from outside.words import END, VERSION, Known, no_option, walk

from . import differ, folders, report
from .report import Report

# The longest report, and the longest manifest, that is read.
MOST = 64 << 20

ABOUT = """rim-compare: what differs between a kept report and what a manifest gives now

usage: rim-compare [--json] [--kept REPORT].. REPORT OTHER..
       rim-compare --help | --version

REPORT is what `rim measure --json` has written. OTHER is another one, a manifest, of which `rim` makes the report now, or a folder that
rim-manifest has made; several are taken as one. A line is printed for each launch that has another value, is refused or accepted now, has
another name or personalization value, is new or gone; lines with two spaces before them say what of all that it is made of differs. What differs in
the same way in several launches is said once, below all of them. Then comes one for each file that has other contents, has another name, is new or gone. Reports of versions 1 and 2 have no files, so that values
alone are compared, and those below version 4 do not say what launches are made of. Another version of `rim` is said and is no difference.
The program is the one that the variable RIM names, or `rim` beside this one, or of the PATH.

      --kept REPORT another kept report: all of them are taken as one
      --json        print one JSON object in place of lines
  -h, --help        print help
  -V, --version     print the version

Status: 0 nothing differs; 1 something differs; 2 wrong words; 3 a fault.
"""
HELP_HINT = "expected REPORT and what it is compared with; see rim-compare --help"
ALONE = {"-h": ABOUT, "--help": ABOUT, "-V": f"rim-compare {VERSION}\n", "--version": f"rim-compare {VERSION}\n"}
KNOWN = Known(dict.fromkeys((*ALONE, "--json"), "") | {"--kept": "a report"}, no_option("rim-compare"))
# The version of what --json prints: 1 had no inputs and no personalization values.
JSON_VERSION = 2


@functools.cache
def program() -> Rim:
    """The program that measures; it may be started in another folder."""
    return started()


def measured(path: str, folder: str | None = None) -> Report:
    """The report of the manifest at a path, which the program makes now; in a folder where the paths of the manifest are as from there."""
    ran = program().run("measure", "--json", "--explain", "--", path, limits=Limits(out=MOST), folder=folder)
    if ran.status not in (0, 1):
        there = f" (in {pasted(folder)})" if folder else ""
        raise Fault(f"{ran.said.strip()}{there}")
    return report.read(ran.out, program().path)


def of_folder(path: str) -> list[Report]:
    """The reports of the manifests of a folder that rim-manifest has made, in their order."""
    return [measured(name, path) for name in folders.manifests_in(path)]


def others(path: str) -> list[Report]:
    """The reports of a path: of a folder's manifests; the one there, where an object of JSON is there; or that of the manifest there, since
    no TOML begins so."""
    if os.path.isdir(path):
        return of_folder(path)
    data = files.read(path, MOST, "a report, a manifest or a folder of rim-manifest")
    return [report.read(data, path) if data.lstrip().startswith(b"{") else measured(path)]


def run(words: list[str]) -> int:
    if not words:
        print(ABOUT, end="", file=sys.stderr)
        return 2
    said = list(walk(KNOWN, words))
    options = [option for option, _ in said if option in ALONE]
    operands = [word for option, word in said if option in ("", END)]
    if options:
        print(ALONE[options[0]], end="")
        return 0
    if len(operands) < 2:
        raise WrongWords(f"{len(operands)} operand{'s' * (len(operands) != 1)}, {HELP_HINT}")
    kept = [operands[0], *(value for option, value in said if option == "--kept")]
    was = report.joined([report.read(files.read(path, MOST, report.WHAT), path) for path in kept])
    now = report.joined([each for path in operands[1:] for each in others(path)])
    noted, found = differ.notes(was, now), list(differ.differences(was, now))
    for note in noted:
        print(f"rim-compare: {note}", file=sys.stderr)
    if any(option == "--json" for option, _ in said):
        print(json.dumps({"version": JSON_VERSION, "notes": noted, "differences": [each.table for each in found]}))
    else:
        print("\n".join(line for each in differ.groups(found) for line in each.lines), end="\n" * bool(found))
    return int(bool(found))


def main(words: list[str]) -> int:
    """The status of a run; what stops it is a line on standard error."""
    return ending.status_of("rim-compare", lambda: run(words))
