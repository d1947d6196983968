#!/usr/bin/env python3
"""Compares the words of a manifest in scripts, completions and schemas with those that the program expects.

    tests/words.py [PROGRAM]          by default the program that `rt ci` has built

Each list of words is that of a fault which PROGRAM prints of a wrong word. The last line is 'N passed, M failed'.
"""
import json
import os
import re
import subprocess
import sys
from functools import partial

from helpers import SECONDS, TOP
from helpers.manifests import whole
from helpers.tries import differs, program_of, told, tried

from matcher import launch
from vmm import realm, ways, words

sys.path.insert(0, os.path.join(TOP, "tools", "package"))
import command_table

ITEM = {"name": "1", "kind": "raw", "file": "f", "at": 0}
LAUNCH = {"name": "a", "algo": "sha256", "s2sz": 33, "ram": [[0, 1 << 30]], "rec": [{"runnable": False}], "rec_rule": "all"}


def fault_of(program: str, item: list[dict], **changes) -> str:
    """Returns the faults of a manifest whose launch has these items and changed keys."""
    table = {"rim_manifest": 2, "file": [{"name": "f", "path": "f"}], "launch": [LAUNCH | {"item": item} | changes]}
    ran = subprocess.run([program, "check", "/dev/stdin"], input=whole(table), capture_output=True, text=True, timeout=SECONDS, check=False)
    return ran.stdout + ran.stderr


def expected(fault: str) -> list[str]:
    """Returns the words that a fault lists as expected."""
    return re.findall(r'"(\w+)"', fault.partition("expected ")[2])


def enums_of(schema: str) -> list[list[str]]:
    """The lists of words that a schema allows, without null."""
    found = []

    def look(node) -> None:
        if isinstance(node, dict):
            found.extend([[each for each in node["enum"] if each is not None]] if "enum" in node else [])
            node = list(node.values())
        for each in node if isinstance(node, list) else ():
            look(each)

    with open(os.path.join(TOP, "docs", schema), encoding="utf-8") as file:
        look(json.load(file))
    return found


def of_kinds(program: str, kinds: list[str]) -> list[str]:
    """Checks that the scripts have all kinds, and the kinds of which a launch has at most one item."""
    single = [kind for kind in kinds if "two-names" in fault_of(program, [ITEM | {"kind": kind}, ITEM | {"name": "2", "kind": kind}])]
    return (differs("matcher.launch.KINDS", list(launch.KINDS), kinds) + differs("vmm.realm.KINDS", list(realm.KINDS), single)
            + differs("kinds among vmm.ways.BLOBS", [each for each in ways.BLOBS if each in kinds], single))


def of_steps(program: str) -> list[str]:
    """The words of an order of vmm are those with which steps begin."""
    missing = [re.search(r'there is no step "(.*?)"', fault_of(program, [], steps=steps))[1] for steps in ([], ["ram 0"])]
    return differs("vmm.ways.RAM and RECS", [f"{ways.RAM} 0", f"{ways.RECS} 0"], missing)


def of_algorithms(algorithms: list[str]) -> list[str]:
    """Scripts and completions have each algorithm."""
    option = next(each for each in command_table.RIM_MANIFEST.common if each.names == ("--algo",))
    return (differs("vmm.words.ALGORITHMS", list(words.ALGORITHMS), algorithms)
            + differs("--algo of the completions", list(option.value), [*algorithms, ",".join(algorithms)]))


def of_schema(name: str, *lists: list[str]) -> list[str]:
    """A schema allows just these words of a manifest."""
    known = set().union(*lists)
    return differs(name, [each for each in enums_of(name) if known & set(each)], list(lists))


def main() -> int:
    program = program_of(sys.argv[1:])
    kinds = expected(fault_of(program, [ITEM | {"kind": "?"}]))
    algorithms, rules = (expected(fault_of(program, [], **{key: "?"})) for key in ("algo", "rec_rule"))
    looks = [("words of the program", partial(differs, "empty", [bool(each) for each in (kinds, algorithms, rules)], [True] * 3)),
             ("kinds", partial(of_kinds, program, kinds)), ("steps", partial(of_steps, program)), ("algorithms", partial(of_algorithms, algorithms)),
             ("the schema of a map", partial(of_schema, "map.schema.json", kinds, algorithms, rules)),
             ("the schema of a report", partial(of_schema, "report.schema.json", algorithms, rules, kinds))]
    return told([(name, tried(look)) for name, look in looks])


if __name__ == "__main__":
    sys.exit(main())
