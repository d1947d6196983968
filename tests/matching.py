#!/usr/bin/env python3
"""Gives rim-match measurements of changed launches, and looks at which change it finds.

    tests/matching.py [PROGRAM]          by default the program that `rt ci` has built

- Changes: a launch is changed here by one axis, PROGRAM measures it, and rim-match is given the manifest without the change and the
  measurement. It has to find one change, and the lines that it prints, put into the manifest here, have to give that measurement. The
  same for pairs, and one of three.
- Lines: each single change of each axis, of several launches, measured as rim-match writes it and as its lines change the manifest.
- REC 0's values and the steps that axes write out are the default ones. Launches that begin alike are in one run.
- What no launch has, forms of the value, wrong words and faults, traces, what a terminal shows, an installed rim-match, its man page.

The files are made here, and PROGRAM measures. The last line is 'N passed, M failed'.
"""
import base64
import contextlib
import copy
import io
import itertools
import os
import re
import shutil
import signal
import subprocess
import sys
import threading
import time
import tomllib
from dataclasses import replace

from helpers import MIB, SCRIPTS, SECONDS, TOP
from helpers.files import image, tree
from helpers.folders import Folder
from helpers.guests import LOW
from helpers.manifests import launch_of, measured, of_name, whole
from helpers.tries import at_a_time, differs, program_of, told

from finder import search
from finder.progress import Progress
from finder.runs import Candidate, NamedFile, Outcome
from matcher import files, lines, manifests, program
from matcher.axes import AXES
from matcher.begins import first_rec
from matcher.launch import KINDS, Launch, Rec, is_whole, manifest_head, table_text
from matcher.launch import text as launch_text
from matcher.search import ROUNDS, Near
from matcher.words import LIMIT, TAKES
from outside.measurement import Value
from outside.rim import Rim
from outside.stopping import Stopped

START = os.path.join(TOP, "rim-match")
FILES = {"Image": image(text_offset=0x1000, length=9_000), "initrd": bytes(n * 91 % 253 for n in range(5001)), "stub": bytes(range(1, 41)),
         "tree": tree([(LOW, LOW + 64 * MIB)], "quiet", (LOW, LOW + MIB), length=6000)}
MANIFEST = """\
rim_manifest = 2
file = [{ name = "k", path = "Image" }, { name = "i", path = "initrd" }, { name = "t", path = "tree" }, { name = "s", path = "stub" }]

[[launch]]
name = "plain"
algo = "sha256"
s2sz = 40
num_bps = 5
num_wps = 3
pmu = true
pmu_num_ctrs = 6
ram = [[0x40000000, 0x44000000]]
item = [
    { name = "kernel", kind = "kernel", file = "k", at = 0x40200000 },
    { name = "dtb", kind = "dtb", file = "t", at = 0x42000000, bootargs = "console=ttyAMA0", initrd = true, memory = true },
    { name = "initrd", kind = "initrd", file = "i", at = 0x43000000 },
]
rec = [{}, { runnable = false }]
rec_rule = "runnable"

[[launch]]
name = "stub"
algo = "sha512"
s2sz = 36
sve = true
sve_vl = 3
ram = [[0x40000000, 0x40800000], [0x40800000, 0x42000000], [0x48000000, 0x48400000]]
item = [
    { name = "stub", kind = "raw", file = "s", at = 0x40000000 },
    { name = "kernel", kind = "kernel", file = "k", at = 0x40a00000, size = 0x8000 },
    { name = "log", kind = "unknown", at = 0x48000000, size = 0x1000 },
    { name = "dtb", kind = "dtb", file = "t", at = 0x48200000, measured = false },
]
rec = [{ pc = "0x40000000", x = [] }, { pc = 0x40a01000, x = ["0x1", 2] }]
steps = ["ram 0", "ram 1", "ram 2", "item stub", "item kernel", "item dtb", "item log", "rec 0", "rec 1"]
"""
OLD = """\
rim_manifest = 1
file = [{ name = "k", path = "Image" }]
launch = [{ name = "old", algo = "sha256", s2sz = 36, ram = [[0x40000000, 0x40800000]], rec = [{}, {}], item = [
{ name = "kernel", kind = "kernel", file = "k", at = 0x40000000 }] }]
"""
NEVER = "5a" * 32


def folder() -> Folder:
    return Folder(FILES | {"m.toml": MANIFEST.encode(), "old.toml": OLD.encode()})


# ---- a manifest that is changed here


def applied(table: dict, name: str, changes: list[str], blobs: files.Files | None = None):
    """Puts lines that rim-match prints into a manifest; a file that it has made is that of the same words."""
    launch = launch_of(table, name)
    for line in changes:
        place, target = re.match(r'(?:item "([^"]+)": )?', line), launch
        if place[1]:
            target = of_name(launch, place[1])
        rest = line[place.end():]
        made = [each for each, blob in (blobs or {}).items() if blob.is_made and rest.startswith(f"{blob.about} ")]
        if made:
            target["file"] = made[-1]
            continue
        if gone := re.match(r'leave out item "([^"]+)"', rest):
            launch["item"].remove(of_name(launch, gone[1]))
        elif gone := re.match(r"leave out (\w+) ", rest):
            del target[gone[1]]
        else:
            (key, value), = tomllib.loads(rest).items()
            (table if key == "rim_manifest" else target)[key] = value


# ---- changes, by the axis that they are of


def put(key: str, value):
    return lambda launch: launch.update({key: value})


def gone(key: str):
    return lambda launch: launch.pop(key)


def item(name: str, **keys):
    return lambda launch: of_name(launch, name).update(keys)


def not_in(name: str, *keys: str):
    return lambda launch: [of_name(launch, name).pop(key) for key in keys]


def left_out(name: str):
    def change(launch: dict):
        launch["item"].remove(of_name(launch, name))
        if "steps" in launch:
            launch["steps"].remove(f"item {name}")
    return change


def both(*changes):
    return lambda launch: [change(launch) for change in changes]


OFF = {"runnable": False}
SINGLES = [
    ("block_level", "plain", put("block_level", 3)),
    ("rec", "plain", put("rec_rule", "all")),
    ("rec", "plain", both(put("rec", [{}, OFF, OFF, OFF]), put("rec_rule", "all"))),
    ("rec", "plain", put("rec", [{}, {}])),
    ("rec", "plain", put("rec", [{}] * 16)),
    ("rec", "stub", both(put("rec", [{"pc": "0x40000000", "x": []}]), lambda launch: launch["steps"].remove("rec 1"))),
    ("rec", "stub", both(put("rec", [{"pc": "0x40000000", "x": []}, {"runnable": False}]), put("rec_rule", "runnable"))),
    ("rec", "old", put("rec", [{}])),
    ("rec", "old", put("rec", [])),
    ("entry", "plain", put("rec", [{"x": []}, OFF])),
    ("entry", "plain", put("rec", [{"pc": "0x0"}, OFF])),
    ("entry", "plain", put("rec", [{"pc": 0x40200000}, OFF])),
    ("entry", "stub", lambda launch: launch["rec"].__setitem__(0, {})),
    ("entry", "old", put("rec", [{}, {"pc": 0x40001000}])),
    ("steps", "plain", put("steps", ["ram 0", "item kernel", "item dtb", "item initrd", "rec 0", "rec 1"])),
    ("steps", "plain", put("steps", ["ram 0", "rec 0", "rec 1", "item kernel", "item initrd", "item dtb"])),
    ("steps", "plain", put("steps", ["rec 0", "ram 0", "item dtb", "item initrd", "item kernel", "rec 1"])),
    ("steps", "stub", put("steps", ["ram 0", "item stub", "ram 1", "item kernel", "ram 2", "item dtb", "item log", "rec 0", "rec 1"])),
    ("steps", "stub", gone("steps")),
    ("steps", "old", put("steps", ["rec 0", "rec 1", "ram 0", "item kernel"])),
    ("measured", "plain", item("dtb", measured=False)),
    ("measured", "stub", not_in("dtb", "measured")),
    ("measured", "plain", lambda launch: [each.update(measured=False) for each in launch["item"]]),
    ("item", "plain", both(left_out("initrd"), not_in("dtb", "initrd"))),
    ("item", "plain", left_out("dtb")),
    ("item", "plain", both(left_out("dtb"), put("rec", [{"x": [0x42000000]}, OFF]))),
    ("item", "stub", left_out("stub")),
    ("size", "plain", item("kernel", size=2 * MIB)),
    ("size", "plain", item("initrd", size=0x10000)),
    ("size", "plain", item("initrd", size=0x3000)),
    ("size", "stub", not_in("kernel", "size")),
    ("devicetree", "plain", not_in("dtb", "bootargs", "initrd", "memory")),
    ("devicetree", "plain", not_in("dtb", "initrd")),
    ("devicetree", "plain", item("dtb", bootargs="")),
    ("kernel", "plain", item("kernel", at=0x40400000)),
    ("kernel", "plain", item("kernel", at=0x40800000)),
    ("kernel", "stub", item("kernel", at=0x40800000)),
    ("s2sz", "plain", put("s2sz", 48)),
    ("s2sz", "stub", put("s2sz", 32)),
    ("sve", "plain", both(put("sve", True), put("sve_vl", 15))),
    ("sve", "stub", both(gone("sve"), gone("sve_vl"))),
    ("sve", "stub", put("sve_vl", 4)),
    ("pmu", "plain", both(put("pmu", False), put("pmu_num_ctrs", 0))),
    ("pmu", "plain", put("pmu_num_ctrs", 31)),
    ("pmu", "stub", both(put("pmu", True), put("pmu_num_ctrs", 6))),
    ("num_bps", "plain", put("num_bps", 6)),
    ("num_bps", "stub", put("num_bps", 15)),
    ("num_wps", "plain", put("num_wps", 0)),
    ("counts", "plain", both(put("num_bps", 6), put("num_wps", 4))),
    ("counts", "plain", both(put("num_bps", 4), put("num_wps", 2), put("pmu_num_ctrs", 5))),
    ("ram", "plain", put("ram", [[0x40000000, 0x48000000]])),
    ("ram", "plain", put("ram", [[0x40000000, 0xc0000000]])),
    ("ram", "old", put("ram", [[0x40000000, 0x80800000]])),
    ("ram", "stub", both(put("ram", [[0x40000000, 0x40800000], [0x40800000, 0x42000000], [0x48000000, 0x48800000]]))),
    ("ram", "old", put("ram", [[0x40000000, 0x40001000], [0x40001000, 0x40800000]])),
    ("ram", "plain", both(put("ram", [[0x40000000, 0x40201000], [0x40201000, 0x42000000], [0x42000000, 0x43000000],
                                      [0x43000000, 0x44000000]]),
                          put("steps", ["ram 0", "ram 1", "item kernel", "ram 2", "item dtb", "ram 3", "item initrd", "rec 0", "rec 1"]))),
]
# More than one: the axes, the launch, the change, how many are found, and whether that is far off.
SEVERAL = [
    ("two of the realm", "plain", both(put("num_bps", 4), put("s2sz", 36)), 2, False),
    ("two of RECs and order", "plain", both(put("rec", [{}, {}]), put("steps", ["rec 0", "rec 1", "ram 0", "item kernel", "item initrd",
                                                                               "item dtb"])), 2, False),
    ("RAM and a kernel", "plain", both(put("ram", [[0x40000000, 0x50000000]]), item("kernel", at=0x40600000)), 2, True),
    ("an algorithm and a size", "stub", both(put("algo", "sha256"), not_in("kernel", "size")), 2, False),
    ("a devicetree that is measured, and edited", "stub", both(item("dtb", memory=True), not_in("dtb", "measured")), 2, False),
    ("an algorithm", "old", put("algo", "sha512"), 1, False),
    ("a version and an order", "old", both(put("rec", [{}, OFF, OFF]), put("rec_rule", "all"), put("block_level", 3)), 2, False),
    ("three", "old", both(put("block_level", 3), put("num_bps", 1), put("rec", [{}])), 3, True),
]


def blobs_of(program: str, here: Folder, table: dict) -> files.Files:
    found = files.Files(Rim(program), here.path)
    found |= {each["name"]: measures(program, here, each["path"]) for each in table["file"]}
    return found


def manifest_text(launches: list[Launch], blobs: files.Files) -> str:
    """A manifest of launches by their numbers, as rim-match writes it."""
    named = {each.file for launch in launches for each in launch.item if each.file is not None}
    tables = (f'[[launch]]\nname = "{number}"\n{table_text(launch)}' for number, launch in enumerate(launches))
    return "".join([manifest_head(named, blobs), *tables])


def file_of(name: str) -> str:
    return "old.toml" if name == "old" else "m.toml"


def base_table(name: str) -> dict:
    return tomllib.loads(OLD if name == "old" else MANIFEST)


def without_progress(said: str) -> str:
    """Standard error without the lines that say how far a search is."""
    return re.sub(r"rim-match: [\d,]+ launches tried.*\n", "", said)


def change(program: str, name: str, changed, count: int, is_far: bool = False) -> list[str]:
    """The measurement of a changed launch, given to rim-match with the manifest without the change."""
    here, table = folder(), base_table(name)
    changed(launch_of(table, name))
    value = measured(program, here, table | {"rim_manifest": 2})[name]
    if len(value) < 64:
        return [f"the changed launch is refused: {value}"]
    status, out, said = here.run(*["--far"] * is_far, file_of(name), name, value, start=START, RIM=program)
    said = without_progress(said)
    wrong = differs("status, standard error", (status, said), (0, ""))
    if status:
        return wrong + [out]
    first, *rest, last = out.splitlines()
    found = re.fullmatch(rf'launch "{name}" has the value by (\d+) changes?: .+', first)
    wrong += differs("changes", found and int(found[1]), count)
    wrong += differs("the last line", re.fullmatch(r"  [\d,]+ launches were tried", last) is not None, True)
    again = base_table(name)
    applied(again, name, [line[2:] for line in rest])
    return wrong + differs("with the lines: " + "; ".join(rest), measured(program, here, again)[name], value)


def lines_of(program: str, axis, name: str) -> list[str]:
    """Each change of an axis, as it is measured and as its lines change the manifest."""
    here, table = folder(), base_table(name)
    blobs = blobs_of(program, here, table)
    launch = launch_in(table, name)
    some = [(text, new) for text, new in axis.changes(launch, blobs) if is_whole(new)]
    if not some:
        return [] if axis.name in ("append", "memory", "smp", "place", "contents", "devicetree") else ["no change"]
    theirs: list[str] = []
    for first in range(0, len(some), 32):
        here.put("theirs.toml", manifest_text([new for _, new in some[first:first + 32]], blobs).encode())
        ran = subprocess.run([program, "measure", "theirs.toml"], cwd=here.path, capture_output=True, text=True, check=False)
        if ran.returncode > 1:
            return [ran.stderr.strip()]
        theirs += [line.split(" ")[2] for line in ran.stdout.splitlines()[1:-1]]
    ours: list[dict] = []
    found: dict[str, str] = {}
    for number, (_, new) in enumerate(some):
        again = copy.deepcopy(table)
        applied(again, name, lines.between(launch, new, table["rim_manifest"], blobs), blobs)
        ours.append(launch_of(again, name) | {"name": str(number)})
    listed = [{"name": each, "path": blob.path} for each, blob in blobs.items()]
    for first in range(0, len(ours), 32):
        part = ours[first:first + 32]
        named = {each.get("file") for one in part for each in one["item"]}
        found |= measured(program, here, {"rim_manifest": 2, "file": [each for each in listed if each["name"] in named], "launch": part})
    rows = zip(some, found.values(), theirs, strict=True)
    return [f"{text}: {mine}, expected {their}" for (text, _), mine, their in rows if mine != their]


def launch_in(table: dict, name: str):
    return next(each for each in manifests.launches_of("m.toml", table) if each.name == name)


def measures(program: str, here: Folder, path: str) -> files.Blob:
    return files.read(Rim(program), os.path.join(here.path, path))


def begins(program: str, name: str) -> list[str]:
    """With REC 0's values and the steps written out, as the axes have them, the same is measured as without."""
    here, table = folder(), base_table(name)
    blobs = blobs_of(program, here, table)
    launch = launch_in(table, name)
    by_kind = [f"item {each.name}" for each in sorted(launch.item, key=lambda each: KINDS.index(each.kind))]
    steps = (*(f"ram {number}" for number in range(len(launch.ram))), *by_kind, *(f"rec {number}" for number in range(len(launch.rec))))
    bare = replace(launch, steps=None, rec=(Rec(runnable=launch.rec[0].runnable), *launch.rec[1:]) if launch.rec else ())
    full = replace(bare, steps=steps, rec=(first_rec(bare, blobs), *bare.rec[1:]) if bare.rec else ())
    here.put("both.toml", manifest_text([bare, full], blobs).encode())
    ran = subprocess.run([program, "measure", "both.toml"], cwd=here.path, capture_output=True, text=True, check=False)
    values = {line.split(" ", 1)[1] for line in ran.stdout.splitlines()[1:-1]}
    return differs("values", (len(values), all(is_whole(each) for each in (bare, full))), (1, True))


def near(path: str, here: Folder, **others) -> Near:
    """What is near a base launch of a folder."""
    table = base_table("plain")
    return Near(program.begun(Rim(path), here.path, blobs_of(path, here, table)), launch_in(table, "plain"), **others)


def in_runs(path: str) -> list[str]:
    """Launches that begin alike are in one run, in their order; a run has no more launches and files than a manifest may."""
    here = folder()
    some = near(path, here)
    every = itertools.chain.from_iterable(some.launches(count, others) for count, others, _ in ROUNDS)
    given = list({each.key: each for each in itertools.islice(every, 4000) if each}.values())
    place = {each.key: number for number, each in enumerate(given)}
    several = list(search.in_runs(given))
    wrong = differs("all, once", sorted(place[each.key] for run in several for each in run), list(range(len(given))))
    for run in several:
        names = {item.file for each in run for item in each.origin.launch.item}
        wrong += differs("a run", (len(run) <= 1024, len(names) <= 64, sorted(run, key=lambda each: place[each.key]) == run), (True, True, True))
    alike = [sum(each.origin.launch.s2sz == 48 for each in run) for run in several]
    return wrong + differs(f"those of one width are together: {alike}", sum(count > 0 for count in alike) <= 3, True)


def large_files(_path: str) -> list[str]:
    """A run reads at most 256 MiB of large files, or those of one launch; launches with the same large files are in one run, whatever their tables are."""
    small = [NamedFile(f"small-{number}", 1 << 20) for number in range(4)]
    large = [NamedFile(f"large-{number}", (30 << 20) * (1 + 9 * (number == 3))) for number in range(4)]
    given = [Candidate(number, f"{number:06}", ((number, 1),), frozenset((small[number % 3], large[number % 4]))) for number in range(400)]
    several = list(search.in_runs(given))
    files = [sorted({file.name for each in run for file in each.files}) for run in several]
    return differs("runs", [(len(run), names) for run, names in zip(several, files)],
                   [(300, ["large-0", "large-1", "large-2", *(f"small-{number}" for number in range(3))]),
                    (100, ["large-3", *(f"small-{number}" for number in range(3))])])


def begin_alike(path: str) -> list[str]:
    """The first parts that two launches share are the first steps of both traces, and the next part is where these differ: so many steps as parts
    have, but for one that each region and item may be short of. A trace has a line for all blocks of a region, and by level 1 a part counts one."""
    here, wrong = folder(), []
    some = near(path, here)
    launch_1 = replace(some.base, block_level=1)
    base = some.runs.candidate(program.Change((), launch_1))
    ours = some.runs.trace(base)
    for axis in AXES:
        for text, launch in itertools.islice(axis.changes(launch_1, some.runs.files), 3):
            other = some.runs.candidate(program.Change((text,), launch))
            lines = some.runs.trace(other) if other else []
            if not lines:
                continue
            alike = sum(1 for _ in itertools.takewhile(lambda pair: pair[0] == pair[1], zip(ours, lines)))
            shared = sum(1 for _ in itertools.takewhile(lambda pair: pair[0] == pair[1], zip(base.parts, other.parts)))
            least = sum(count for _, count in base.parts[:shared]) - shared
            most = sum(max(count for _, count in pair) for pair in zip(base.parts[:shared + 1], other.parts[:shared + 1]))
            wrong += [] if least <= alike <= most or len(lines) == len(ours) == alike else [f"{text}: {alike}, expected {least} to {most}"]
    return wrong


class Growing(dict):
    """Files of which another thread makes more: to go over all of them may fail."""

    def items(self):
        raise RuntimeError("dictionary changed size during iteration")

    __iter__ = keys = values = items


def heads(_path: str) -> list[str]:
    """The files of a manifest are written while others are made."""
    growing = Growing({name: files.Blob(f"{name}.bin", 1, None) for name in ("one", "two", "three")})
    return differs("the files", manifest_head({"two", "one"}, growing),
                   'rim_manifest = 2\n[[file]]\nname = "one"\npath = "one.bin"\n[[file]]\nname = "two"\npath = "two.bin"\n')


class NeverRuns:
    """Runs of `rim` by which no launch has the value: they keep what they are given."""

    def __init__(self, hit: object = None):
        self.given: list[list[Candidate]] = []
        self.hit = hit

    def outcome(self, launches: list[Candidate], _value: Value) -> Outcome:
        self.given.append(list(launches))
        return Outcome(next((place for place, each in enumerate(launches) if each.key == self.hit), None), 0)


def engine(limit: int = 10_000, hit: object = None, **others) -> tuple[NeverRuns, search.Search]:
    runs = NeverRuns(hit)
    return runs, search.Search(runs, Value("sha256", NEVER), limit, Progress("rim-match"), waits=True, **{"at_once": 1} | others)


def launches_of(counts) -> list[Candidate]:
    return [Candidate(number, f"{number:06}", ((number, count),)) for number, count in enumerate(counts)]


def many_steps(path: str) -> list[str]:
    """Launches of many steps come at the end of a round, or in the last one: their places among all, and what is left."""
    here = folder()
    some = near(path, here, axes=tuple(axis for axis in AXES if axis.name in ("block_level", "num_bps", "num_wps")))
    wrong = []
    for count, others, is_left in ((1, 1, False), (2, 0, False), (2, 2, True), (3, 3, True)):
        runs, looked = engine()
        looked.found("the launch itself", [some.runs.candidate(program.Change((), some.base))])
        looked.found("a round", some.launches(count, others), vast=some.vast(count, others))
        tried = [each.origin.launch.block_level == 3 for batch in runs.given for each in batch]
        left = [each.origin.launch.block_level == 3 for each in looked.left]
        late = left if is_left else tried[len(tried) - sum(tried):]
        wrong += differs(f"{count}: late ones", (len(late) > 0, all(late), is_left and any(tried)), (True, True, False))
        before = len(runs.given)
        looked.found_in([looked.last("what was left")])
        wrong += differs(f"{count}: what was left", (sum(map(len, runs.given[before:])), looked.left), (len(left), []))
    return wrong


def rounds(_path: str) -> list[str]:
    """What a round says of itself: how many launches were tried, whether these are all, and what has the value."""
    wrong = []
    runs, looked = engine()
    hit = looked.found("ten", [*launches_of([1] * 10), None, *launches_of([1] * 5)])
    wrong += differs("none has it", (hit, looked.tried, looked.rounds[0].is_whole, len(runs.given[0])), (None, 10, True, 10))
    looked.found("the same", launches_of([1] * 10))
    wrong += differs("none is tried twice", (looked.tried, looked.rounds[1].tried, looked.rounds[1].is_whole), (10, 0, True))
    _, looked = engine(limit=7)
    looked.found("ten", launches_of([1] * 10))
    wrong += differs("a limit", (looked.tried, looked.rounds[0].is_whole, looked.is_ended), (7, False, True))
    _, looked = engine()
    looked.found("ten", launches_of([1] * 10), most=4)
    wrong += differs("a round's own limit", (looked.tried, looked.rounds[0].is_whole, looked.is_ended), (4, False, False))
    _, looked = engine(until=0.0)
    looked.found("ten", launches_of([1] * 10))
    wrong += differs("no time", (looked.tried, looked.rounds[0].is_whole, looked.is_over), (0, False, True))
    _, looked = engine(limit=1)
    looked.found("none", iter([None] * 100))
    wrong += differs("nothing but what can't be", (looked.tried, looked.rounds[0].is_whole), (0, False))
    runs, looked = engine(hit=150)
    hit = looked.found("many", launches_of([1] * 3000))
    return wrong + differs("the first that has it", (hit and hit.key, looked.tried, [len(each) for each in runs.given]), (150, 151, [64, 128]))


def too_few(_path: str) -> list[str]:
    """Launches that are too few for a run are in one with those of the next round, and else in the last one; each counts in its own round. None waits
    for more than a window or two."""
    filed = [Candidate(number, f"{number:06}", ((number, 1),), frozenset([NamedFile(f"f{number}", 1)])) for number in range(70)]
    wrong = []
    for more, sizes in ((launches_of([1] * 100)[70:], [64, 36]), ([], [64, 6])):
        runs, looked = engine()
        looked.found_in([search.Planned("one", filed), search.Planned("two", more)])
        wrong += differs("runs", [len(each) for each in runs.given], sizes)
        wrong += differs("rounds", [(each.tried, each.is_whole) for each in looked.rounds], [(70, True), (len(more), True)])
    made = itertools.count(1)
    runs, looked = engine(30_000, hit=9_000)
    looked.found("many", (each for each in launches_of([1] * 30_000) if next(made)))
    wrong += differs("none waits for long", next(made) < 9_000 + 4 * 4096, True)
    runs, looked = engine(hit=66)
    hit = looked.found_in([search.Planned("one", filed), search.Planned("two", launches_of([1] * 100)[70:])])
    return wrong + differs("the one that waited", (hit and hit.key, [each.tried for each in looked.rounds]), (66, [67, 0]))


class LateRuns(NeverRuns):
    """The first run ends after the second one."""

    def __init__(self, hit: object):
        super().__init__(hit)
        self.second = threading.Event()

    def outcome(self, launches: list[Candidate], value: Value) -> Outcome:
        is_first = launches[0].key == 0
        if is_first and not self.second.wait(60):
            return Outcome(None, len(launches))
        found = super().outcome(launches, value)
        if not is_first:
            self.second.set()
        return found


def at_once(_path: str) -> list[str]:
    """Of two runs at a time the first one's launches come first, whichever ends first."""
    wrong = []
    for hit, tried in ((10, 11), (70, 71), (5000, 3000)):
        runs = LateRuns(hit)
        looked = search.Search(runs, Value("sha256", NEVER), 10_000, Progress("rim-match"), waits=True)
        found = looked.found("many", launches_of([1] * 3000))
        wrong += differs(f"{hit}", (found and found.key, looked.tried, looked.refused), (hit if hit < 3000 else None, tried, 0))
    return wrong


def round_after_round(_path: str) -> list[str]:
    """The next round's runs begin while those of the one before go on; what came of these is taken first."""
    wrong = []
    for hit, tried in ((5, [6, 0]), (15, [10, 6]), (99, [10, 10])):
        looked = search.Search(LateRuns(hit), Value("sha256", NEVER), 10_000, Progress("rim-match"), waits=True)
        every = launches_of([1] * 20)
        found = looked.found_in([search.Planned("one", every[:10]), search.Planned("two", every[10:])])
        wrong += differs(f"{hit}", (found and found.key, [each.tried for each in looked.rounds], looked.refused), (hit if hit < 20 else None, tried, 0))
    return wrong


class SlowRuns(NeverRuns):
    """A run ends when the time of its round is over."""

    def __init__(self, until: float):
        super().__init__()
        self.until = until

    def outcome(self, launches: list[Candidate], value: Value) -> Outcome:
        time.sleep(max(0, self.until - time.monotonic()))
        return super().outcome(launches, value)


def no_time(_path: str) -> list[str]:
    """No run begins when its round's time is over: its launches were not tried, and a later round may have them."""
    runs = SlowRuns(time.monotonic() + 3)
    looked = search.Search(runs, Value("sha256", NEVER), 10_000, Progress("rim-match"), waits=True, at_once=1)
    looked.found("many", launches_of([1] * 3000), until=runs.until)
    wrong = differs("one run", ([len(each) for each in runs.given], looked.tried, looked.made, looked.rounds[0].is_whole), ([64], 64, 64, False))
    looked.found("the others", launches_of([1] * 3000))
    return wrong + differs("all", (looked.tried, looked.made, looked.rounds[1].is_whole), (3000, 3000, True))


class StoppedRuns(NeverRuns):
    """The first run is stopped by a signal, once so many launches of others were measured."""

    def __init__(self, count: int):
        super().__init__()
        self.count, self.rest = count, threading.Event()

    def outcome(self, launches: list[Candidate], value: Value) -> Outcome:
        if launches[0].key == 0 and self.rest.wait(60):
            raise Stopped(signal.SIGINT)
        came = super().outcome(launches, value)
        if sum(map(len, self.given)) == self.count:
            self.rest.set()
        return came


def stopped_first(_path: str) -> list[str]:
    """What was measured when a signal comes was tried, also where the run before it goes on."""
    looked = search.Search(StoppedRuns(3000 - 64), Value("sha256", NEVER), 10_000, Progress("rim-match"), waits=True)
    try:
        looked.found("many", launches_of([1] * 3000))
        return ["it was not stopped"]
    except Stopped:
        return differs("tried, all of the round", (looked.tried, looked.rounds[0].is_whole), (3000 - 64, False))


# ---- the value, words and faults


def forms(program: str) -> list[str]:
    """The forms of a value, each of the launch as it is."""
    here = folder()
    plain, stub = (bytes.fromhex(measured(program, here, base_table("plain"))[name]) for name in ("plain", "stub"))
    wrong = []
    bare = [base64.urlsafe_b64encode(each).decode().rstrip("=") for each in (plain, stub)]
    for name, texts in (("plain", (plain.hex(), plain.hex().upper(), "0x" + plain.hex(), (plain + bytes(32)).hex(), bare[0],
                                   base64.b64encode(plain).decode(), base64.b64encode(plain + bytes(32)).decode())),
                        ("stub", (stub.hex(), base64.b64encode(stub).decode(), bare[1]))):
        for text in texts:
            wrong += differs(text, here.run("--", "m.toml", name, text, start=START, RIM=program),
                             (0, f'launch "{name}" has the value as it is\n', ""))
    return wrong


def others(program: str) -> list[str]:
    """Another launch of the manifest has the value: it is named before anything is tried."""
    here, table = folder(), base_table("plain")
    table["launch"] += [copy.deepcopy(launch_of(table, "plain")) | {"name": name} for name in ("twin", "bad", *(f"twin-{n}" for n in range(9)))]
    of_name(launch_of(table, "bad"), "initrd")["at"] = 0x50000000
    values = measured(program, here, table)
    here.put("m.toml", whole(table).encode())
    fake = f'#!/bin/sh\n[ "$1 $4" = "measure m.toml" ] && {{ echo "rim: too-many-pages" >&2; exit 3; }}\nexec {program} "$@"\n'
    here.put("fake", fake.encode(), is_program=True)
    six, seven = (", ".join(f'"twin-{n}"' for n in range(count)) for count in (6, 7))
    wrong = []
    for name, value, rim, line in (
            ("plain", values["stub"], program, 'launch "stub" of the same manifest has the value'),
            ("bad", values["stub"], program, 'launch "stub" of the same manifest has the value'),
            ("stub", values["plain"], program, f'launches "plain", "twin", {six} and 3 more of the same manifest have the value'),
            ("twin", values["twin"], program,
             f'launch "twin" has the value as it is; launches "plain", {seven} and 2 more of the same manifest have the value too'),
            ("plain", values["stub"], "./fake", 'launch "stub" of the same manifest has the value'),
            ("plain", values["plain"], "./fake", 'launch "plain" has the value as it is')):
        wrong += differs(f"{name}, {rim}", here.run("m.toml", name, value, start=START, RIM=rim), (0, line + "\n", ""))
    return wrong


def alike(path: str) -> list[str]:
    """Launches that differ in a number whose hash in Python is that of the other are tried both; what is tried already is not."""
    here = folder()
    some = near(path, here)
    runs, looked = engine()
    launches = [replace(some.base, rec=(Rec(0, (number,)),)) for number in (0, (1 << 61) - 1, 0, 1)]
    looked.found("", [some.runs.candidate(program.Change((), each)) for each in launches])
    return differs("launches that are new", [each.origin.launch.rec[0].x for batch in runs.given for each in batch], [(0,), ((1 << 61) - 1,), (1,)])


def stopped(program: str) -> list[str]:
    """A signal ends the search: what was tried is printed, nothing is left."""
    wrong = []
    for number in (signal.SIGINT, signal.SIGTERM, signal.SIGHUP):
        here = folder()
        made = os.path.join(here.path, "temporary")
        os.makedirs(made)
        ran = subprocess.Popen([START, "--far", "m.toml", "plain", NEVER], cwd=here.path, stdout=subprocess.PIPE, stderr=subprocess.PIPE,
                               text=True, env=os.environ | {"RIM": program, "TMPDIR": made})
        until = time.monotonic() + SECONDS
        while not any("search-3.toml" in names for _, _, names in os.walk(made)) and time.monotonic() < until:
            time.sleep(0.001)
        ran.send_signal(number)
        out, said = ran.communicate(timeout=SECONDS)
        has = re.match(r'launch "plain" does not have the value, and none of [\d,]+ launches near it has\n'
                       r'  no launch of the manifest has it as it is\n  parts of other launches: \d+', out) is not None
        came = ran.returncode, without_progress(said), has, out.endswith("\n  the search was stopped\n"), os.listdir(made)
        wrong += differs(number.name, came, (128 + number, "", True, True, []))
    return wrong


def hidden(program: str) -> list[str]:
    """What nobody sees is printed by its number, in lines that a manifest takes."""
    here, table = folder(), base_table("plain")
    of_name(launch_of(table, "plain"), "dtb")["bootargs"] = "a\u202eb\u200b\x7f \u00e9"
    here.put("m.toml", whole(table).encode())
    value = measured(program, here, table | {"launch": [launch_of(table, "plain") | {"item": [
        each if each["name"] != "dtb" else {key: each[key] for key in each if key != "bootargs"} for each in launch_of(table, "plain")["item"]]}]})
    status, out, said = here.run("m.toml", "plain", value["plain"], start=START, RIM=program)
    line = '  item "dtb": leave out bootargs           # the manifest has "a\\u202eb\\u200b\\u007f \u00e9"\n'
    wrong = differs("a long number", launch_text("\U000e0041"), '"\\U000e0041"')
    return wrong + differs(f"the line in {out!r}", (status, line in out, said), (0, True, ""))


def lines_said(_program: str) -> list[str]:
    """Where standard error is no terminal, a line every ten seconds."""
    some, said = Progress("rim-match"), io.StringIO()
    with contextlib.redirect_stderr(said):
        for since in (9, 11, 0):
            some.started -= since
            some.show("1,234 launches tried, one change")
        some.end()
    return differs("what is said", said.getvalue(), "rim-match: 1,234 launches tried, one change\n")


def not_found(program: str) -> list[str]:
    here = folder()
    status, out, said = here.run("m.toml", "stub", NEVER, start=START, RIM=program)
    rounds = r"\n  parts of other launches: [\d,]+; one change: [\d,]+; two likely changes: [\d,]+(; what people change together: [\d,]+(, not all)?)?\n"
    wrong = differs("the likely ones", (status, without_progress(said), "\n  --far tries more: two and three changes of all kinds, for minutes\n" in out,
                                       re.search(rounds, out) is not None,
                                       out.endswith("--also for another manifest, --kept for a report\n")), (1, "", True, True, True))
    status, out, said = here.run("--seconds", "1", "--far", "m.toml", "plain", NEVER, start=START, RIM=program)
    wrong += differs("a second", (status, without_progress(said), "\n  it has ended after 1 second: --seconds 10 looks for longer\n" in out), (1, "", True))
    status, out, said = here.run("--limit", "700", "m.toml", "plain", NEVER, start=START, RIM=program)
    wrong += differs("status, standard error", (status, said, "--far" in out), (1, "", False))
    for part in ('launch "plain" does not have the value, and none of 700 launches near it has\n', "one change: ",
                 "two likely changes: ", ", not all", "of them are refused", ", ".join(axis.name for axis in AXES)):
        wrong += differs(f"{part!r} in {out!r}", part in out, True)
    status, out, said = here.run("--limit=1", "m.toml", "plain", "5a" * 64, start=START, RIM=program)
    wrong += differs("another algorithm", (status, "nor with algo sha512, which the value's length is of" in out, said), (1, True, ""))
    return wrong


KEY = MANIFEST.replace("s2sz = 40", "s2sz = 40\nss2z = 40")
MORE = {"key.toml": KEY, "a $(b).toml": KEY, "range.toml": MANIFEST.replace("s2sz = 40", "s2sz = 99"),
        "toml.toml": "rim_manifest = ", "new.toml": OLD.replace("name = \"old\", ", "name = \"old\",\n"),
        "file.toml": MANIFEST.replace('path = "stub"', 'path = "none"'), "none.toml": "rim_manifest = 2\n",
        "deep.toml": "rim_manifest = " + "[" * 100_000}
WORDS = [
    ([], 2, "usage: rim-match"),
    (["--seconds", "x", "m.toml", "plain", NEVER], 2, '--seconds: "x", expected a whole number from 1'),
    (["--file", "k", "m.toml", "plain", NEVER], 2, '--file: "k", expected NAME=OTHER'),
    (["--file", "none=Image", "m.toml", "plain", NEVER], 2, '--file: "none" is no file of m.toml, expected one of "k", "i", "t", "s"'),
    (["--file", "k=gone", "m.toml", "plain", NEVER], 3, "gone: No such file or directory"),
    (["--append-file", "fifo", "m.toml", "plain", NEVER], 3, "fifo: it is a FIFO, expected command lines, one a line"),
    (["--also", "key.toml", "m.toml", "plain", NEVER], 3, 'key.toml:8:1: launch "plain": unknown-key: "ss2z" (nearest: s2sz)'),
    (["--kept", "trace", "--limit", "9", "m.toml", "plain", NEVER], 3, "trace: it is no JSON that is read here"),
    (["--contents", "Image", "m.toml", "plain", NEVER], 2, "--contents: it is of --nearest, expected both"),
    (["--nearest", "trace", "--also", "m.toml", "m.toml"], 2, "--also: it is of a search, expected no --nearest beside it"),
    (["m.toml", "plain"], 2, "2 operands, expected MANIFEST LAUNCH VALUE"),
    (["m.toml", "plain", NEVER, "x"], 2, "4 operands, expected"),
    (["m.toml", "plain", NEVER[:-2]], 2, "VALUE: \"5a5a5a"),
    (["m.toml", "plain", "zz"], 2, 'VALUE: "zz" has 1 byte, expected 32 or 64 bytes'),
    (["m.toml", "plain", "?" * 300], 2, 'VALUE: "????'),
    (["m.toml", "plain", ""], 2, "VALUE: \"\" has 0 bytes"),
    (["m.toml", "plain", "5a" * 48], 2, "VALUE: it has 48 bytes, as SHA-384 has"),
    (["--limit", "0", "m.toml", "plain", NEVER], 2, '--limit: "0", expected a whole number from 1'),
    (["--limit"], 2, "--limit: nothing comes after it, expected a number"),
    (["--nearest"], 2, "--nearest: nothing comes after it, expected a file"),
    (["--nearest", "trace"], 2, "--nearest: 0 operands, expected MANIFEST"),
    (["--farther", "m.toml", "plain", NEVER], 2, '"--farther" is no option'),
    (["gone.toml", "plain", NEVER], 3, "gone.toml: No such file or directory, expected a manifest"),
    (["m.toml", "plane", NEVER], 3, 'rim: no-such-launch: "plane", expected one of m.toml: "plain", "stub"'),
    (["none.toml", "plain", NEVER], 3, 'rim: no-such-launch: "plain", expected one of none.toml: it has none'),
    (["key.toml", "plain", NEVER], 3, 'key.toml:8:1: launch "plain": unknown-key: "ss2z" (nearest: s2sz)'),
    (["range.toml", "plain", NEVER], 3, 'range.toml:7:1: launch "plain": s2sz: range: 99 (0x63), expected a whole number from 32 to 48'),
    (["a $(b).toml", "plain", NEVER], 3, 'a $(b).toml:8:1: launch "plain": unknown-key: "ss2z" (nearest: s2sz)'),
    (["toml.toml", "plain", NEVER], 3, "toml.toml:1:16: syntax: invalid value, expected a string"),
    (["new.toml", "old", NEVER], 3, "new.toml: it is no TOML that is read here (Invalid"),
    (["file.toml", "plain", NEVER], 3, "none: file-unreadable: there is no such file in the folder where rim runs"),
    (["fifo", "plain", NEVER], 3, "fifo: it is a FIFO, expected a manifest"),
    (["/dev/zero", "plain", NEVER], 3, "/dev/zero: it is a device, expected a manifest"),
    (["deep.toml", "plain", NEVER], 3, "deep.toml:1:96: syntax: cannot recurse further"),
    (["--nearest", "/dev/zero", "m.toml"], 3, "/dev/zero: it is a device, expected lines as `rim trace` prints them"),
    (["--nearest", "fifo", "m.toml"], 3, "fifo: it is a FIFO, expected lines as `rim trace` prints them"),
    (["--nearest", "trace", "fifo"], 3, "fifo: it is a FIFO, expected a manifest"),
    (["--nearest", "gone", "m.toml"], 3, "gone: No such file or directory, expected lines as `rim trace` prints them"),
    (["--nearest", "m.toml", "m.toml"], 3, 'm.toml: its first line is "rim_manifest = 2", expected lines as `rim trace` prints them'),
    (["--nearest", "trace", "m.toml", "plane"], 3, 'rim: no-such-launch: "plane"'),
    (["--nearest", "trace", "key.toml"], 3, 'key.toml:8:1: launch "plain": unknown-key: "ss2z" (nearest: s2sz)'),
    (["--nearest", "trace", "none.toml"], 3, "none.toml: it has no launch"),
]


def words(program: str) -> list[str]:
    here = Folder(FILES | {"m.toml": MANIFEST.encode(), "trace": f"{NEVER} realm_create 1\n".encode()}
                  | {name: data.encode() for name, data in MORE.items()})
    os.mkfifo(os.path.join(here.path, "fifo"))
    wrong = []
    for given, expected, text in WORDS:
        status, out, said = here.run(*given, start=START, RIM=program)
        if (status, out, text in said) != (expected, "", True):
            wrong.append(f"{given[:2]}: {status} {out!r} {said!r}, expected {expected} {text!r}")
        if given and (not said.startswith("rim-match: ") or said.count("\n") != 1):
            wrong.append(f"{given[:2]}: {said!r} is not one line")
    for given, text in ((["--help"], "usage: rim-match [OPTIONS..] MANIFEST LAUNCH VALUE"), (["-V"], "rim-match 0."),
                        (["--axes"], "block_level  ")):
        status, out, said = here.run(*given, start=START, RIM=program)
        wrong += differs(given[0], (status, text in out, said), (0, True, ""))
    for rim, text in (("/none/rim", 'no program "/none/rim" is found, expected it in the PATH or its path in the variable RIM'),
                      ("/bin/false", '/bin/false --version: status 1, expected the program rim')):
        status, _, said = here.run("m.toml", "plain", NEVER, start=START, RIM=rim)
        wrong += differs(rim, (status, said), (3, f"rim-match: {text}\n"))
    return wrong


def refused(program: str) -> list[str]:
    """A launch that is refused is no fault: one near it may have the value."""
    here, table = folder(), base_table("plain")
    value = measured(program, here, table)["plain"]
    here.put("m.toml", MANIFEST.replace("at = 0x43000000", "at = 0x40202000", 1).encode())
    status, out, said = here.run("--limit", "50", "m.toml", "plain", value, start=START, RIM=program)
    wrong = differs("overlap", (status, said), (1, 'rim-match: launch "plain" is refused: overlap; launches near it are tried\n'))
    here.put("m.toml", MANIFEST.replace("at = 0x40200000", "at = 0x43e00000", 1).replace("at = 0x43000000", "at = 0x43f00000").encode())
    launch_of(table, "plain")["item"][2]["at"] = 0x43F00000
    launch_of(table, "plain")["item"][0]["at"] = 0x43C00000
    value = measured(program, here, table)["plain"]
    status, out, said = here.run("m.toml", "plain", value, start=START, RIM=program)
    has = 'item "kernel": at = 0x43c00000' in out, " is refused: " in said
    wrong += differs("a base that is moved back", (status, *has), (0, True, True))
    here.put("old.toml", OLD.replace("rec = [{}, {}]", "rec = [{}, { runnable = false }]").encode())
    table = base_table("old") | {"rim_manifest": 2}
    launch_of(table, "old").update(rec=[{}, OFF], rec_rule="all")
    value = measured(program, here, table)["old"]
    status, out, _ = here.run("old.toml", "old", value, start=START, RIM=program)
    return wrong + differs("a rule that version 1 has not", (status, 'rec_rule = "all"' in out, "rim_manifest = 2" in out), (0, True, True))


# ---- traces


def trace_of(program: str, here: Folder, path: str, name: str) -> str:
    return subprocess.run([program, "trace", path, name], cwd=here.path, capture_output=True, text=True, check=True).stdout


def traces(program: str) -> list[str]:
    here = folder()
    plain, stub = (trace_of(program, here, "m.toml", name) for name in ("plain", "stub"))
    table = base_table("plain")
    launch_of(table, "plain")["rec"] = [{"pc": 0}, OFF]
    here.put("changed.toml", whole(table).encode())
    changed = trace_of(program, here, "changed.toml", "plain")
    table = base_table("plain")
    launch_of(table, "stub")["num_bps"] = 7
    here.put("changed.toml", whole(table).encode())
    parameters = trace_of(program, here, "changed.toml", "stub")
    table = base_table("plain")
    launch_of(table, "plain")["rpv"] = "ab" * 64
    here.put("changed.toml", whole(table).encode())
    own_rpv = trace_of(program, here, "changed.toml", "plain")
    count = len(plain.splitlines())
    not_measured = "line 1 differs in rpv\nrpv is not measured: the RIM after this line is the same"
    wrong = []
    for name, data, given, status, parts in (
            ("a personalization value", own_rpv, ["m.toml"], 1, [f"{not_measured}, and so is the last RIM\nplain: "]),
            ("a personalization value and no RIMs", re.sub("(?m)^[0-9a-f]* ", "", own_rpv), ["m.toml"], 1, [f"{not_measured}\nplain: "]),
            ("a personalization value and a REC", own_rpv.splitlines(True)[0] + "".join(changed.splitlines(True)[1:]), ["m.toml", "plain"], 1,
             [f"{not_measured}\nplain: "]),
            ("a personalization value and another RIM", "0" * 64 + own_rpv[64:], ["m.toml", "plain"], 1, ["line 1 differs in rpv\nplain: "]),
            ("the same", stub, ["m.toml"], 0, [f'launch "stub": all {len(stub.splitlines())} lines are those of there\n']),
            ("a REC", changed, ["m.toml"], 1, [
                f'launch "plain": the first {count - 1} of its {count} lines are those of there, which has {count}\n',
                f"line {count} differs in pc\n", f"plain: {plain.splitlines()[-1]}\n", f"there: {changed.splitlines()[-1]}\n"]),
            ("a parameter", parameters, ["m.toml"], 1, [
                'launch "stub": the first 0 of its ', "line 1 differs in num_bps\n",
                "\n1 other launch shares that beginning too, and fewer of the other steps\n"]),
            ("one launch", stub, ["m.toml", "plain"], 1, ['launch "plain": the first 0 of its ',
                                                          "line 1 differs in rtt_num_start, s2sz, algo, flags, "]),
            ("a beginning", "".join(plain.splitlines(True)[:3]), ["m.toml"], 1, ["the first 3 of its ", "line 4: there has none\n",
                                                                                "plain: " + plain.splitlines()[3]]),
            ("more", plain + plain, ["m.toml"], 1, [f"line {count + 1}: the launch has none\n"]),
            ("another command", plain.splitlines()[0] + "\n" + plain.splitlines()[-1], ["m.toml"], 1, ["line 2 differs in the command\n"])):
        here.put("there", data.encode())
        ran, out, said = here.run("--nearest", "there", *given, start=START, RIM=program)
        wrong += differs(name, (ran, said), (status, ""))
        wrong += [f"{name}: {part!r} is not in {out!r}" for part in parts if part not in out]
    two = copy.deepcopy(base_table("plain"))
    two["launch"].append(copy.deepcopy(launch_of(two, "plain")) | {"name": "twin"})
    two["launch"].append(copy.deepcopy(launch_of(two, "plain")) | {"name": "bad"})
    of_name(two["launch"][-1], "initrd")["at"] = 0x50000000
    here.put("two.toml", whole(two).encode())
    here.put("there", plain.encode())
    ran = here.run("--nearest", "there", "two.toml", start=START, RIM=program)
    wrong += differs("two of them", ran[:2], (0, f'launch "plain": all {count} lines are those of there\n'
                                                 "1 other launch shares that beginning too\n"))
    ran = here.run("--nearest", "there", "two.toml", "bad", start=START, RIM=program)
    return wrong + differs("one that is refused", ran, (1, "bad refused outside-ram\n", ""))


# ---- how it is started


def terminal(program: str) -> list[str]:
    """Standard error is a terminal: it shows how far the search is, and the line is gone at the end."""
    here = folder()
    ours, theirs = os.openpty()
    ran = subprocess.run([START, "--limit", "400", "m.toml", "plain", NEVER], cwd=here.path, stdout=subprocess.PIPE, stderr=theirs,
                         check=False, env=os.environ | {"RIM": program})
    os.close(theirs)
    shown = os.read(ours, 1 << 16).decode()
    os.close(ours)
    has = re.search(r"\d launches tried, ", shown) is not None
    is_first = shown.startswith("\r\x1b[Krim-match: the launches of m.toml are measured\r\x1b[K")
    return differs("what is shown", (ran.returncode, has, is_first, shown.endswith("\r\x1b[K")), (1, True, True, True))


def installed(program: str) -> list[str]:
    """It finds its modules beside itself, or in ../share/rim, and `rim` of the PATH or beside itself."""
    here = folder()
    value = measured(program, here, base_table("plain"))["plain"]
    os.makedirs(os.path.join(here.path, "usr/bin"))
    shutil.copy(START, os.path.join(here.path, "usr/bin/rim-match"))
    for name in ("outside", "matcher", "finder", "comparer"):
        shutil.copytree(os.path.join(SCRIPTS, name), os.path.join(here.path, "usr/share/rim", name),
                        ignore=shutil.ignore_patterns("__pycache__"))
    os.symlink(program, os.path.join(here.path, "usr/bin/rim"))
    os.symlink(START, os.path.join(here.path, "link"))
    start, as_it_is = os.path.join(here.path, "usr/bin/rim-match"), (0, 'launch "plain" has the value as it is\n', "")
    wrong = differs("beside it", here.run("m.toml", "plain", value, start=start, RIM="", RIM_LIBRARY="/none"), as_it_is)
    wrong += differs("a link", here.run("m.toml", "plain", value, start="./link", RIM=program), as_it_is)
    kept = [path for path, _, _ in os.walk(os.path.join(here.path, "usr")) if path.endswith("__pycache__")]
    wrong += differs("what is compiled", kept, [])
    os.makedirs(os.path.join(here.path, "temporary"))
    here.run("--limit", "30", "m.toml", "plain", NEVER, start=START, RIM=program, TMPDIR=os.path.join(here.path, "temporary"))
    wrong += differs("the temporary folder", os.listdir(os.path.join(here.path, "temporary")), [])
    os.remove(os.path.join(here.path, "usr/share/rim/matcher/main.py"))
    status, _, said = here.run("--help", start=start)
    return wrong + differs("no modules", (status, "no folders matcher, finder, comparer and outside" in said), (3, True))


def documents(_program: str) -> list[str]:
    """The man page has each option, and the axes in their order."""
    with open(os.path.join(TOP, "docs", "rim-match.1"), encoding="utf-8") as file:
        page = file.read().replace("\\-", "-")
    options = (*TAKES, "--far", "--axes", "--help", "--version")
    wrong = [f"docs/rim-match.1: {name} is not named" for name in options if name not in page]
    named = [name for name in re.findall(r"^\.B ([a-z0-9_]+)$", page, re.M) if name in {axis.name for axis in AXES}]
    wrong += differs("the axes of docs/rim-match.1", named, [axis.name for axis in AXES])
    return wrong + differs("the limit", f"{LIMIT:,} by default" in page, True)


def example(program: str) -> list[str]:
    """docs/VERIFIER.md has what is printed of a change of an example."""
    here = Folder({})
    os.symlink(os.path.join(TOP, "examples"), os.path.join(here.path, "examples"))
    with open(os.path.join(TOP, "examples", "vm", "manifest.toml"), "rb") as file:
        table = tomllib.load(file)
    launch_of(table, "one-vcpu").update(num_bps=5, rec=[{}, OFF], rec_rule="all")
    value = measured(program, here, table)["one-vcpu"]
    status, out, said = here.run("examples/vm/manifest.toml", "one-vcpu", value, start=START, RIM=program)
    with open(os.path.join(TOP, "docs", "VERIFIER.md"), encoding="utf-8") as file:
        page = file.read()
    return differs("status, standard error, in the page", (status, said, out in page), (0, "", True)) + [out] * (out not in page)


def all_tries(program: str):
    for number, (axis, name, changed) in enumerate(SINGLES):
        yield f"{axis} of {name}, row {number}", lambda name=name, changed=changed: change(program, name, changed, 1)
    for text, name, changed, count, is_far in SEVERAL:
        yield text, lambda name=name, changed=changed, count=count, is_far=is_far: change(program, name, changed, count, is_far)
    for axis in AXES:
        for name in ("plain", "stub", "old"):
            yield f"lines of {axis.name} of {name}", lambda axis=axis, name=name: lines_of(program, axis, name)
    for name in ("plain", "stub", "old"):
        yield f"with what {name} begins", lambda name=name: begins(program, name)
    for look in (in_runs, begin_alike, large_files, heads, many_steps, rounds, too_few, at_once, round_after_round, no_time, stopped_first, forms, others, alike, stopped, hidden, lines_said, not_found, words, refused, traces, terminal, installed, documents, example):
        yield look.__name__, lambda look=look: look(program)


def run_all() -> int:
    return told(at_a_time(all_tries(program_of(sys.argv[1:]))))


if __name__ == "__main__":
    sys.exit(run_all())
