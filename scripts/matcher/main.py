"""The order of the work: the launch as it is, the search, what is printed."""
from __future__ import annotations

import itertools
import math
import shutil
import sys
import time
from collections.abc import Callable, Iterator
from dataclasses import replace

from comparer import report as kept_report
from finder.progress import Progress
from finder.search import Planned, Search
from outside import ending, measurement
from outside import files as outside_files
from outside.faults import Fault, WrongWords
from outside.measurement import Value
from outside.rim import Rim, started
from outside.stopping import Stopped
from outside.texts import pasted, shown, visible
from outside.words import VERSION

from . import dumps, explain, lines, logs, nearest, parts, program
from .axes import AXES
from .files import Files, Hints
from .launch import Launch
from .manifests import MOST, Manifest, held, hold, list_of, manifest, names_of, no_such_launch, table_of
from .program import Change, Runs
from .search import Near
from .words import ABOUT, SECONDS, Words, check_operands, parse

# The longest file of command lines.
MOST_LINES = 1 << 20


def axes_text() -> str:
    return "".join(f"{axis.name:<12}  {axis.about}\n" for axis in AXES)


# ---- the answer


def about_axes(search: Search) -> list[str]:
    """What was tried, round by round, and which axes."""
    said = [f"{each.about}: {each.tried:,}{'' if each.is_whole else ', not all'}" for each in search.rounds if each.tried and each.about]
    names = ", ".join(axis.name for axis in AXES)
    return [f"  {'; '.join(said)}"] * bool(said) + [f"  {search.refused:,} of them are refused",
                                                    f"  axes: {names}; `rim-match --axes` explains them"]


def hit_lines(found: Change, launch: Launch, version: int, files: Files, tried: int) -> list[str]:
    changes = lines.between(launch, found.launch, version, files)
    texts = list(found.texts)
    if found.launch.algo != launch.algo:
        texts.insert(0, f"algo {found.launch.algo}, by the value's length")
    first = f'launch "{launch.name}" has the value by {len(texts)} change{"s" * (len(texts) > 1)}: {"; ".join(texts)}'
    return [first, *(f"  {line}" for line in changes), f"  {tried:,} launches were tried"]


def measure_again(runs: Runs, found: Launch, wanted: Value):
    """Measures the launch that was found by itself: what is printed holds of a run with nothing else in it."""
    if not runs.has(found, wanted):
        raise Fault(f"{visible(runs.rim.path)}: it gives a launch the value among others, and not alone")


def as_they_are(runs: Runs, of: Manifest, launches: list[Launch], wanted: Value) -> list[str]:
    """The launches of a manifest that have the value. Where all of them have too many pages for one report, they are measured in parts,
    and the first is enough."""
    if of.values or not of.launches:
        return of.with_value(f"{wanted.algo} {wanted.digits}")
    some = [launch for launch in launches if launch.algo == wanted.algo]
    hit = runs.hit(some, wanted)
    return [] if hit is None else [some[hit].name]


def said_of_others(name: str, others: list[str]) -> str:
    """What is said where launches of the manifest have the value as they are."""
    rest = [each for each in others if each != name]
    several = len(rest) > 1
    of_rest = f"launch{'es' * several} {list_of(rest)} of the same manifest {'have' if several else 'has'} the value"
    if name not in others:
        return of_rest
    return f'launch "{name}" has the value as it is' + f"; {of_rest} too" * bool(rest)


def said_of_also(of: Manifest, names: list[str]) -> str:
    several = len(names) > 1
    return f"launch{'es' * several} {list_of(names)} of {visible(of.path)} {'have' if several else 'has'} the value, and none of the manifest"


def kept_reports(paths: tuple[str, ...]) -> dict[str, kept_report.Report]:
    return {path: kept_report.read(outside_files.read(path, MOST, kept_report.WHAT), path) for path in paths}


def said_of_kept(reports: dict[str, kept_report.Report], wanted: Value) -> list[str]:
    """The launches of kept reports that had the value."""
    found = []
    for path, report in reports.items():
        names = [name for name, value in report.launches.items() if (value.algorithm, value.digits) == (wanted.algo, wanted.digits)]
        if names:
            several = len(names) > 1
            found.append(f"launch{'es' * several} {list_of(names)} of the kept report {visible(path)} had the value: "
                         f"`rim-compare {pasted(path)} MANIFEST` says what is another one since")
    return found


# ---- the search


def hints_of(said: Words, given: Manifest, held_files: Files) -> Hints:
    """What the words name beside the manifests: contents of files, and command lines."""
    hints = Hints()
    for name, path in said.files:
        if name not in given.paths:
            raise WrongWords(f"--file: {shown(name)} is no file of {visible(given.path)}, expected one of {list_of(list(given.paths)) or 'none'}")
        hints.contents.setdefault(name, []).append(held_files.add(name, path, f"the file {shown(path)}"))
    if said.appends is not None:
        what = "command lines, one a line"
        text = outside_files.text_of(said.appends, outside_files.read(said.appends, MOST_LINES, what), what)
        hints.appends = [each for each in text.split("\n") if each]
    return hints


def dumper_of(qemu: str, folder: str, path: str, launch: Launch, held_files: Files) -> dumps.Dumper:
    dtb = launch.of_kind("dtb")
    if dtb is None or dtb.file is None:
        raise Fault(f"--qemu: launch {shown(launch.name)} has no devicetree, expected one that QEMU has made")
    return dumps.begun(shutil.which(qemu) or qemu, folder, path, launch.name, dtb.file, held_files)


def not_found_lines(launch: Launch, search: Search, files: Files, said: Words, end: str) -> list[str]:
    """What is said where no launch that was tried has the value; `end` is how it ended, or nothing."""
    also = f", nor with algo {search.value.algo}, which the value's length is of" if launch.algo != search.value.algo else ""
    first = f'launch "{launch.name}" does not have the value{also}, and none of {search.tried:,} launches near it has'
    of_also = " or of those of --also" * bool(said.also)
    return [first, f"  no launch of the manifest{of_also} has it as it is", *about_axes(search), *FULL * files.is_full, *[f"  {end}"] * bool(end)]


# What is said where not all files were made that would have been tried.
FULL = ["  files that are cut, padded or written anew were more than 1 GiB: not all were made, so not all of these were tried"]
# What a search cannot find by itself: it does not make up contents.
NOT_NAMED = ("contents that differ are found where they are named: --file NAME=OTHER for a kernel, an initrd or a devicetree of another "
             "build, --append-file for command lines, --also for another manifest, --kept for a report")


def ends(said: Words, search: Search) -> str:
    """How a search that has found nothing has ended, and how to look further."""
    if search.is_over:
        seconds = said.seconds or SECONDS
        return f"it has ended after {seconds} second{'s' * (seconds != 1)}: --seconds {seconds * 10} looks for longer"
    return "--far tries more: two and three changes of all kinds, for minutes" * (not said.is_far and search.tried < said.limit)


def look(runs: Runs, search: Search, launch: Launch, others: list[parts.Other], said: Words,
         kept: dict[str, kept_report.Report]) -> Change | list[str] | None:
    """The launch that has the value: of the parts of others, and else by changes. Between the two come the kept reports: what they say."""
    base = replace(launch, algo=search.value.algo)
    if others:
        # what hosts get wrong has its time too
        until = time.monotonic() + max(1, (said.seconds or SECONDS) / 3)
        near = search.found("parts of other launches", parts.parts_of(runs, base, others).launches(), parts.MOST_TRIED, until)
        if near is not None:
            return near.origin
    if said_kept := said_of_kept(kept, search.value):
        return said_kept
    rounds = [together(runs, search, base), Near(runs, base).planned(search, said.is_far)]
    hit = search.found_in(itertools.chain.from_iterable(rounds if said.is_far else reversed(rounds)))
    return None if hit is None else hit.origin


def together(runs: Runs, search: Search, base: Launch) -> Iterator[Planned]:
    """A round, as long as the search goes on, of launches of which more of what people change is another one at once."""
    if not search.is_ended:
        yield Planned("what people change together", parts.together(runs, base).launches(), parts.MOST_TOGETHER)


def match(rim: Rim, folder: str, said: Words) -> int:
    """Looks for the value: among the launches of the manifests, and then near one of them."""
    path, name, text = said.operands
    wanted, kept = measurement.read(text), kept_reports(said.kept)
    shown_line = Progress("rim-match", shown_at=-math.inf)
    shown_line.show(f"the launches of {visible(path)} are measured")
    try:
        given, *also = (manifest(rim, each) for each in (path, *said.also))
    finally:
        shown_line.end()
    launch = given.named(name)
    held_files = Files(rim, folder)
    hold(held_files, given)
    launches_also = [held(held_files, each) for each in also]
    held_files.hints = hints_of(said, given, held_files)
    if said.qemu is not None:
        held_files.dumper = dumper_of(said.qemu, folder, path, launch, held_files)
    runs = program.begun(rim, folder, held_files)
    if names := as_they_are(runs, given, given.launches, wanted):
        print(said_of_others(name, names))
        return 0
    for each, launches in zip(also, launches_also):
        if names := as_they_are(runs, each, launches, wanted):
            print(said_of_also(each, names))
            return 0
    if given.values.get(name, "").startswith("refused "):
        print(f'rim-match: launch "{name}" is {given.values[name].replace(" ", ": ")}; launches near it are tried', file=sys.stderr)
    others = parts.others_of(given.launches, launch, "")
    for each, launches in zip(also, launches_also):
        others += parts.others_of(launches, launch, visible(each.path))
    seconds = math.inf if said.is_far and said.seconds is None else said.seconds or SECONDS
    search = Search(runs, wanted, said.limit, Progress("rim-match"), time.monotonic() + seconds, waits=True)
    return answered(said, given, launch, search, runs, lambda: look(runs, search, launch, others, said, kept))


def answered(said: Words, given: Manifest, launch: Launch, search: Search, runs: Runs, looked: Callable[[], Change | list[str] | None]) -> int:
    """What the search has found, or what was tried."""
    try:
        found = looked()
    except Stopped:
        print("\n".join(not_found_lines(launch, search, runs.files, said, "the search was stopped")), flush=True)
        raise
    if isinstance(found, list):
        print("\n".join(found))
        return 0
    if found is None:
        print("\n".join([*not_found_lines(launch, search, runs.files, said, ends(said, search)), f"  {NOT_NAMED}"]))
        return 1
    measure_again(runs, found.launch, search.value)
    print("\n".join(hit_lines(found, launch, given.version, runs.files, search.tried)))
    return 0


def near(rim: Rim, folder: str, said: Words) -> int:
    """Looks for the launch whose trace is the nearest."""
    path, *name = said.operands
    trace = said.trace or ""
    there = logs.read(trace)
    contents = explain.contents(said.contents)
    data = outside_files.read(path, MOST, "a manifest")
    # no launch has this name: what is wrong with the manifest comes first
    ran = rim.run("trace", "--explain", "--", path, "")
    if ran.status > 1 and b"no-such-launch" not in ran.err:
        raise Fault(ran.said.strip())
    names = names_of(table_of(path, data))
    if name and name[0] not in names:
        raise no_such_launch(name[0], names, path)
    if not names:
        raise Fault(f"{visible(path)}: it has no launch; `rim check {pasted(path)}` says what is wrong with it, if anything is")
    found = nearest.of_launches(rim, path, name or names, there)
    if found.best is None:
        print("\n".join(found.refused))
        return 1
    said_lines = [*nearest.said_of(found, found.best, trace, there), *nearest.explained(rim, folder, path, found, there, contents)]
    print("\n".join([*said_lines, *nearest.about_others(found.best, found.all)]))
    return int(not nearest.is_all(found, there))


def run(all_words: list[str]) -> int:
    if not all_words:
        print(ABOUT, end="", file=sys.stderr)
        return 2
    said = parse(all_words)
    texts: dict[str, Callable[[], str]] = {"-h": lambda: ABOUT, "--help": lambda: ABOUT, "-V": lambda: f"rim-match {VERSION}\n",
                                           "--version": lambda: f"rim-match {VERSION}\n", "--axes": axes_text}
    if said.alone:
        print(texts[said.alone](), end="")
        return 0
    check_operands(said)
    if said.trace is None:
        measurement.read(said.operands[2])
    rim = started()
    with outside_files.folder("rim-match-") as made:
        return match(rim, made, said) if said.trace is None else near(rim, made, said)


def main(all_words: list[str]) -> int:
    """The status of a run; what stops it is a line on standard error."""
    return ending.status_of("rim-match", lambda: run(all_words))
