"""What is asked of `rim` for a page: what is wrong with each manifest, the report, the map of each launch, and its command line.

A page shows values, so all of it has to be of one content: each file that `rim` has measured, and the manifest, must have the same digest once
everything was asked, and each map must be of the items that the report has.
"""
from __future__ import annotations

import hashlib
import os
from collections.abc import Callable, Sequence
from concurrent.futures import ThreadPoolExecutor
from dataclasses import dataclass
from typing import TypeVar

from comparer import folders, report
from comparer.report import Malformed, Report, member
from finder.progress import Progress
from outside import files, stopping
from outside.faults import Fault
from outside.programs import Ran
from outside.rim import Rim, tree_of
from outside.texts import visible

from . import machine, maps, pieces
from .machine import Machine
from .maps import Map

# The longest manifest that is read, and how many bytes of files all programs that run at a time may hold.
MOST, MOST_HELD = 64 << 20, 1 << 30
CHANGED = "expected that nothing changes what is shown while the page is made"
Given = TypeVar("Given")
Made = TypeVar("Made")


@dataclass(frozen=True)
class Source:
    """A manifest that is shown: its path as `rim` is given it, and the folder in which `rim` is started, which is None for that of the script."""

    path: str
    folder: str | None = None

    @property
    def at(self) -> str:
        """Its path for the script."""
        return self.of(self.path)

    def of(self, path: str) -> str:
        """A path of the manifest's, for the script."""
        return os.path.join(self.folder or "", path)


@dataclass(frozen=True)
class Checked:
    """A manifest: its bytes, as how many there are and their digest, and what `rim check` says of it: a status, faults and warnings."""

    source: Source
    length: int
    digest: str
    status: int
    faults: tuple[str, ...]
    warnings: tuple[str, ...]


@dataclass(frozen=True)
class Launch:
    """A launch: what came of it, what it is made of, its map, and the command line of its devicetree; that is None where it has no devicetree, or
    one that says none or is not read."""

    name: str
    value: report.Value
    inputs: report.Inputs
    map: Map
    command_line: str | None


@dataclass(frozen=True)
class Release:
    """All that a page shows. Where a manifest is at fault, there is no launch, and `report` is None: nothing of it has a value then. `digests` are
    those of the reports of its manifests."""

    program: str
    checked: tuple[Checked, ...]
    launches: tuple[Launch, ...] = ()
    report: Report | None = None
    digests: tuple[str, ...] = ()
    machines: tuple[Machine, ...] = ()

    @property
    def is_whole(self) -> bool:
        return self.report is not None

    @property
    def status(self) -> int:
        """The status of `rim check`, of several manifests the greatest one."""
        return max(each.status for each in self.checked)


def sources_of(paths: Sequence[str]) -> list[Source]:
    """The manifests of the command line: those of a folder that rim-manifest has made are as from there."""
    found: list[Source] = []
    for path in paths:
        found += [Source(name, path) for name in folders.manifests_in(path)] if os.path.isdir(path) else [Source(path)]
    return found


# ---- what rim says


def fault_of(ran: Ran, source: Source) -> Fault:
    there = f" (in {visible(source.folder)})" if source.folder else ""
    return Fault(f"{ran.said.strip()}{there}")


def output_of(rim: Rim, source: Source, *words: str, statuses: Sequence[int] = (0, 1)) -> bytes:
    """What `rim` prints by some words; another status than these is a fault."""
    ran = rim.run(*words, folder=source.folder)
    if ran.status not in statuses:
        raise fault_of(ran, source)
    return ran.out


def table_of(rim: Rim, source: Source, what: str, *words: str, statuses: Sequence[int] = (0, 1)) -> object:
    """The JSON that `rim` prints by some words."""
    return files.json_of(rim.path, output_of(rim, source, *words, statuses=statuses), what)


def version_of(rim: Rim) -> str:
    """What the program is, in its own words: its name and version."""
    ran = rim.run("--version")
    if ran.status:
        raise Fault(ran.said)
    return ran.out.decode(errors="replace").strip()


def texts_of(table: object, name: str) -> tuple[str, ...]:
    return tuple(str(each) for each in member(table, name, list))


def checked(rim: Rim, source: Source) -> Checked:
    """What is wrong with a manifest."""
    data = files.read(source.at, MOST, "a manifest")
    what = "what rim check --json prints"
    table = table_of(rim, source, what, "check", "--json", "--", source.path, statuses=(0, 1, 3))
    try:
        status, faults, warnings = member(table, "status", int), texts_of(table, "faults"), texts_of(table, "warnings")
    except Malformed as why:
        raise Fault(f"{visible(rim.path)}: {why}, expected {what}") from None
    if status not in (0, 1, 3) or bool(status) != bool(faults):
        raise Fault(f"{visible(rim.path)}: status {status} with {len(faults)} faults, expected {what}")
    return Checked(source, len(data), hashlib.sha256(data).hexdigest(), status, faults, warnings)


def map_text(rim: Rim, source: Source, name: str) -> object:
    return table_of(rim, source, "what rim map --json prints", "map", "--json", "--explain", "--", source.path, name)


def map_of(rim: Rim, source: Source, name: str) -> Map:
    """The map of a launch by its name."""
    try:
        return maps.map_of(map_text(rim, source, name))
    except Malformed as why:
        raise Fault(f"{visible(rim.path)}: {why}, expected what rim map --json prints") from None


@dataclass(frozen=True)
class Measured:
    """What `rim measure --json` says of a manifest: its JSON, the digest of its bytes, and that as a report."""

    checked: Checked
    table: dict
    digest: str
    report: Report

    @property
    def source(self) -> Source:
        return self.checked.source

    @property
    def bytes_held(self) -> int:
        """How many bytes of files the program holds."""
        return sum(each.length for each in (self.report.files or {}).values())


def measured(rim: Rim, of: Checked) -> Measured:
    """The report of a manifest; one that is of another content than was read is a fault."""
    source = of.source
    out = output_of(rim, source, "measure", "--json", "--explain", "--", source.path)
    table = files.json_of(rim.path, out, report.WHAT)
    found = report.of_table(table, rim.path)
    if not isinstance(table, dict) or found.inputs is None:
        raise Fault(f"{visible(rim.path)}: its reports have version {found.version}, expected one that says what launches are made of")
    if [each.get("sha256") for each in table.get("manifests", []) if isinstance(each, dict)] != [of.digest]:
        raise Fault(f"{visible(source.at)}: it was changed while it was measured, {CHANGED}")
    return Measured(of, table, hashlib.sha256(out).hexdigest(), found)


def check_unchanged(of: Measured):
    """Refuses a manifest, or a file of it, that is another one than was measured."""
    digests = {of.source.path: of.checked.digest} | {path: content.digest for path, content in (of.report.files or {}).items()}
    for path, digest in digests.items():
        if files.digest(of.source.of(path)) != digest:
            raise Fault(f"{visible(of.source.of(path))}: it was changed while it was measured, {CHANGED}")


# ---- launches


def check_same(rim: Rim, of: dict, here: Map, table: object):
    """Refuses a map that is of other items than the report has of the launch."""
    bare = [{key: value for key, value in each.items() if key != "sha256"} for each in of["items"]]
    regions = sorted((each["base"], each["end"]) for each in of["ram"])
    same = (isinstance(table, dict) and table.get("items") == bare and list(here.regions) == regions and here.refused == of.get("refused", "")
            and (here.name, here.algorithm, here.s2sz) == (of["name"], of["algorithm"], of["s2sz"]))
    if not same:
        raise Fault(f"{visible(rim.path)}: the map and the report of launch {visible(here.name)} are of other items, {CHANGED}")


def map_in(rim: Rim, launch: dict, source: Source) -> Map:
    """The map of a launch of a report, by the manifest that it is of or by one of its own."""
    table = map_text(rim, source, launch["name"])
    try:
        here = maps.map_of(table)
    except Malformed as why:
        raise Fault(f"{visible(rim.path)}: {why}, expected what rim map --json prints") from None
    check_same(rim, launch, here, table)
    return here


def tree_key(launch: dict) -> str | None:
    """The digest of the devicetree that a launch has: of the one that it edits as it is placed, and else of its file. None without one, and where
    it is edited in a launch that is refused, since nothing is placed then."""
    tree = next((each for each in launch["items"] if each["kind"] == "dtb"), None)
    if tree is None or tree["edited"] and "refused" in launch:
        return None
    return launch["edited_sha256"] if tree["edited"] else tree["sha256"]


def command_line(rim: Rim, source: Source, launch: dict, folder: str, digest: str) -> str | None:
    """The command line in the devicetree of a launch; None where that says none, or is none that `rim fdt` shows."""
    tree = next(each for each in launch["items"] if each["kind"] == "dtb")
    path = source.of(tree["file"])
    if tree["edited"]:
        ran = rim.run("dtb", "--explain", "--", source.path, launch["name"], folder=source.folder)
        if ran.status:
            raise fault_of(ran, source)
        if hashlib.sha256(ran.out).hexdigest() != digest:
            raise Fault(f"{visible(path)}: it was changed while it was measured, {CHANGED}")
        path = os.path.join(folder, digest)
        files.write(path, ran.out)
    try:
        chosen = tree_of(rim, path).root.child("chosen")
    except Fault:
        return None
    finally:
        if tree["edited"]:
            os.remove(path)
    return None if chosen is None else chosen.text("bootargs")


def in_order(some: Sequence[Given], make: Callable[[Given], Made], at_once: int, progress: Progress, about: str) -> list[Made]:
    """What is made of each, in their order, so many at a time. A signal ends those that are under way, and begins no other."""
    found: list[Made] = []
    pool = ThreadPoolExecutor(at_once)
    try:
        for waiting in [pool.submit(begun, make, each) for each in some]:
            found.append(waiting.result())
            progress.show(f"{len(found)} of {len(some)} {about}")
    finally:
        pool.shutdown(cancel_futures=True)
        progress.end()
    return found


def begun(make: Callable[[Given], Made], given: Given) -> Made:
    stopping.check()
    return make(given)


def launches_of(rim: Rim, of: Measured, progress: Progress, name: str | None = None) -> list[Launch]:
    """The launches of a manifest, in its order, or that of a name alone. A devicetree that several have is asked for once."""
    tables = [each for each in of.table["launches"] if name in (None, each["name"])]
    at_once = max(1, min(len(os.sched_getaffinity(0)), MOST_HELD // max(1, of.bytes_held)))
    with files.folder("rim-page-") as scratch:
        own = pieces.read(rim, of.source.at, of.source.folder, of.report, scratch)
        sources = {each["name"]: Source(own.paths.get(each["name"], of.source.path), of.source.folder) for each in tables}
        here = in_order(tables, lambda each: map_in(rim, each, sources[each["name"]]), at_once, progress, "maps")
        lines = {each["name"]: own.command_line(each["name"]) for each in tables}
        firsts: dict[str, dict] = {}
        for each in tables:
            if lines[each["name"]] is None and (key := tree_key(each)) is not None:
                firsts.setdefault(key, each)
        asked = in_order(list(firsts.items()), lambda each: command_line(rim, sources[each[1]["name"]], each[1], scratch, each[0]), at_once, progress,
                         "devicetrees")
    known, inputs, line_of = of.report, of.report.inputs or {}, dict(zip(firsts, asked))
    return [Launch(name, known.launches[name], inputs[name], map_, line_of.get(tree_key(each) or "") if lines[name] is None else lines[name])
            for each, map_ in zip(tables, here) for name in [each["name"]]]


def released(rim: Rim, sources: Sequence[Source]) -> Release:
    """All that is known of some manifests, as one release; nothing but what is wrong where one of them is at fault."""
    progress = Progress("rim-page")
    program = version_of(rim)
    found = tuple(checked(rim, each) for each in sources)
    if any(each.status == 3 for each in found):
        return Release(program, found)
    all_of = [measured(rim, each) for each in found]
    joined = report.joined([each.report for each in all_of])
    launches = [launch for each in all_of for launch in launches_of(rim, each, progress)]
    for each in all_of:
        check_unchanged(each)
    if joined.program != program:
        raise Fault(f"{visible(rim.path)}: it says that it is {visible(program)}, and its reports that it is {visible(str(joined.program))}")
    return Release(program, found, tuple(launches), joined, tuple(each.digest for each in all_of), machines_of(found))


def machines_of(some: Sequence[Checked]) -> tuple[Machine, ...]:
    """What the folders of rim-manifest say of the machine, each once."""
    digests: dict[str, dict[str, str]] = {}
    for each in some:
        if each.source.folder is not None:
            digests.setdefault(each.source.folder, {})[each.source.path] = each.digest
    return tuple(found for folder, of in digests.items() if (found := machine.read(folder, of)) is not None)
