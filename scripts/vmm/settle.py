"""`rim-manifest settle`: which alternatives and which numbers give the measurement that a machine gave for a guest. They become a file about
the host.

The rows of which a blob, RAM or a step depends are one axis: all of their combinations, those that are measured alike as one. The width of
an IPA and each number is an axis of its own. Of a trace the first line is of these alone, so they are found by it, and then the rest.
"""
from __future__ import annotations

import functools
import hashlib
import itertools
import math
from collections.abc import Mapping, Sequence
from dataclasses import dataclass, field, replace

from finder.axes import At, Axis, best_first, count_of
from finder.progress import Progress
from finder.runs import Candidate, Runs
from finder.search import COSTLY, Search
from typing import Union
from outside.faults import Fault
from outside.measurement import Value, last_shared
from outside.parameters import RMM_1_0, Parameter
from outside.stopping import Stopped

from . import layout, numbers
from .guest import Blob
from .host import Host
from .hypervisor import Hypervisor
from .launches import Launch
from .layout import Row
from .manifest import item_text, ram_text, recs_text, text, value_text
from .measured import Content, body_of, parts_of
from .numbers import Number
from .realm import WIDTHS, Parts, Realm, level_at, level_of, of_parts
from .rows import NUMBERS
from .ways import Chosen

# How many launches are tried where nothing else is said.
LIMIT = 1_000_000
# How likely it is that what the file about the host names of a row holds; that a width is none of the rule's; that a flag is another one.
NAMED, OTHER_WIDTH, OTHER_FLAG = 0.9, 0.03, 0.03
# A launch of more steps than this times COSTLY, and than twice those of the likeliest, is less likely to be tried, as its steps are more: of
# those that are tried, about as many share their first steps.
SHARED = 8
# Of how many combinations of rows a trace is looked at, where none has the value.
MOST_TRACED = 64
WIDTHS_TRIED = (40, 48, 41, 36, 39, 42, 33, 34, *range(32, 49))
# The rows that are no part of the one axis, and those that are no choice where the words leave none.
APART = {"hash", "s2sz", *NUMBERS}
Structure = tuple[str, ...]


def blocks_at(block_level: str, s2sz: int) -> int:
    """The level of the largest blocks at a width, by an alternative of its row."""
    return level_at(level_of(block_level, s2sz), s2sz)


@dataclass(frozen=True)
class Width:
    """A width of an IPA: an alternative of the row `s2sz`, or a number."""

    name: str
    likely: float


@dataclass(frozen=True)
class Feature:
    """A number of the realm's, and whether its flag is set; one without a flag always has its number."""

    has: bool
    number: Number | None
    likely: float

    @property
    def count(self) -> int:
        return self.number.value if self.number else 0


@dataclass
class Choices:
    """What is tried: the rows of the one axis with their combinations, widths and numbers, each the likeliest first."""

    rows: list[Row]
    structures: list[tuple[Structure, float]]
    widths: list[Width]
    features: list[list[Feature]]       # of each number of RMM_1_0
    count: int = 0          # of all combinations, also those that are measured alike

    @functools.cached_property
    def level_at(self) -> int:
        """At which place of a combination the level of blocks is."""
        return [row.name for row in self.rows].index("block_level")

    def axes(self) -> list[Axis]:
        return [Axis("rows", tuple(likely for _, likely in self.structures)), Axis("s2sz", tuple(each.likely for each in self.widths)),
                *(Axis(about.flag or about.key, tuple(each.likely for each in some)) for about, some in zip(RMM_1_0, self.features))]

    def taken(self, structure: Structure) -> dict[str, str]:
        return {row.name: name for row, name in zip(self.rows, structure)}

    def at_numbers(self, at: At) -> "Choices":
        """The same with the width and the numbers of a combination alone."""
        return replace(self, widths=[self.widths[at[1]]], features=[[feature] for feature in self.features_at(at)])

    def features_at(self, at: At) -> list[Feature]:
        """The numbers of a combination."""
        return [some[place] for some, place in zip(self.features, at[2:])]


# ---- a guest with its value


@dataclass(frozen=True)
class Body:
    """What is measured of a combination of rows after the parameters: its number, its lines in a manifest, and its parts with their steps."""

    number: int
    lines: str
    parts: tuple[tuple[tuple, int], ...]

    @property
    def steps(self) -> int:
        return sum(count for _, count in self.parts)


@dataclass
class Alternatives:
    """A launch with the files that the alternatives of its rows need: devicetrees by the alternatives of `dtb_file`, `psci` and `dtb_pages`,
    stubs by their bytes, and contents by the names of files."""

    vmm: Hypervisor
    table: list[Row]
    launch: Launch
    trees: dict[tuple[str, str, str], Blob]
    stubs: dict[bytes, Blob]
    contents: dict[str, Content]
    widths: dict[str, int] = field(default_factory=dict, init=False)

    def places(self, taken: Mapping[str, str]) -> layout.Places:
        return layout.places(self.table, replace(self.launch.guest, ways=taken))

    def row(self, name: str) -> Row:
        return next(each for each in self.table if each.name == name)

    def width(self, name: str) -> int:
        if name not in self.widths:
            self.widths[name] = int(name) if name.isdigit() else self.places({"s2sz": name}).s2sz
        return self.widths[name]

    def realm(self, taken: Mapping[str, str]) -> Realm:
        places = self.places(taken)
        tree = self.trees.get((taken.get("dtb_file", "given"), taken.get("psci", "smc"), taken["dtb_pages"]))
        if tree is None:
            raise Fault("there is no such devicetree")
        stub = self.stubs[places.stub_bytes] if places.stub is not None else None
        return of_parts(self.vmm, Parts(self.launch.guest, places, tree, stub), {}, taken)


@dataclass
class Case(Alternatives):
    """A guest, and the measurement that a machine gave for it."""

    runs: Runs
    value: Value
    trace: list[str]                            # the measurement after each step, where that is given
    choices: Choices | None = None
    bodies: dict[tuple[Structure, int], Body] = field(default_factory=dict)
    numbers_of_bodies: dict[tuple, int] = field(default_factory=dict)

    def body(self, taken: dict[str, str], structure: Structure, level: int) -> Body:
        """What is measured of a combination of rows after the parameters."""
        key = structure, level
        if key not in self.bodies:
            realm = self.realm(taken)
            body = body_of(realm, self.contents, level)
            items = ", ".join(map(item_text, realm.items))
            lines = (f"block_level = {level}\nrec_rule = {text(str(realm.numbers['rec_rule']))}\nram = {ram_text(realm.regions)}\n"
                     f"item = [{items}]\nrec = {recs_text(realm.recs, realm.pc, realm.x)}\nsteps = [{', '.join(map(text, realm.steps))}]\n")
            self.bodies[key] = Body(self.numbers_of_bodies.setdefault(body, len(self.numbers_of_bodies)), lines, parts_of(body))
        return self.bodies[key]

    def whole_key(self, taken: dict[str, str], structure: Structure) -> tuple[int, ...]:
        """What is measured of a combination of rows, at each width."""
        levels = [blocks_at(taken["block_level"], width) for width in (*WIDTHS[:2], 32)]
        return tuple(self.body(taken, structure, level).number for level in levels)

    def parameters(self, at: At) -> tuple[tuple, str]:
        """The parameters of the realm, and their lines in a manifest."""
        width, features = self.width_of(at[1]), self.chosen.features_at(at)
        lines = [f'algo = "{self.value.algo}"', f"s2sz = {width}"]
        for about, feature in zip(RMM_1_0, features):
            lines += [f"{about.flag} = {value_text(feature.has)}"] if about.flag else []
            lines.append(f"{about.key} = {feature.count}")
        return (width, *((feature.has, feature.count) for feature in features)), "".join(f"{line}\n" for line in lines)

    def width_of(self, place: int) -> int:
        return self.width(self.chosen.widths[place].name)

    @property
    def chosen(self) -> Choices:
        assert self.choices is not None
        return self.choices

    def candidate(self, at: At) -> Candidate | None:
        structure = self.chosen.structures[at[0]][0]
        values, lines = self.parameters(at)
        level = blocks_at(structure[self.chosen.level_at], int(values[0]))
        body = self.bodies.get((structure, level)) or self.body(self.chosen.taken(structure), structure, level)
        return Candidate((body.number, *values), lines + body.lines, (((values, level), 1), *body.parts), origin=at)


@dataclass
class Beginning:
    """The beginning of a guest's trace: a launch of the realm's parameters alone, with the measurement after its first step."""

    case: Case

    @property
    def runs(self) -> Runs:
        return self.case.runs

    @property
    def value(self) -> Value:
        return replace(self.case.value, digits=self.case.trace[0])

    def candidate(self, at: At) -> Candidate | None:
        values, lines = self.case.parameters(at)
        return Candidate(values, lines, ((values, 1),), origin=at)


# ---- what is tried


def likely_ways(row: Row, chosen: Chosen) -> dict[str, float]:
    """How likely each alternative of a row is: one that an option says is sure, and one that the file about the host names is likely."""
    ways = {way.name: way.likely / 100 for way in row.ways}
    if chosen.is_of_option:
        return {chosen.name: 1.0}
    if chosen.is_of_file:
        rest = sum(likely for name, likely in ways.items() if name != chosen.name)
        ways = {name: NAMED if name == chosen.name else (1 - NAMED) * likely / rest for name, likely in ways.items()} | {chosen.name: NAMED}
    return dict(sorted(ways.items(), key=lambda each: -each[1]))


def structures_of(cases: Sequence[Case], rows: list[Row], ways: list[dict[str, float]], likeliest: dict[str, str]) -> list[tuple[Structure, float]]:
    """The combinations of rows, those that are measured alike in each guest as one, the likeliest first. One of many steps comes later."""
    found: dict[tuple, tuple[Structure, float, float]] = {}
    steps: dict[tuple, int] = {}
    for names in itertools.product(*ways):
        taken = dict(zip((row.name for row in rows), names))
        likely = math.prod(way[name] for way, name in zip(ways, names))
        try:
            key = tuple(case.whole_key(likeliest | taken, names) for case in cases)
        except Fault:
            continue
        had = found.get(key, (names, 0.0, 0.0))
        best = (names, likely) if likely > had[1] else had[:2]
        found[key] = (*best, had[2] + likely)
        level = blocks_at(taken.get("block_level", likeliest["block_level"]), 40)
        steps.setdefault(key, sum(case.body(likeliest | taken, names, level).steps for case in cases))
    usual = SHARED * max(COSTLY, 2 * next(iter(steps.values()), 1))
    weighed = [(names, total * min(1.0, usual / steps[key])) for key, (names, _, total) in found.items()]
    return sorted(weighed, key=lambda each: -each[1])


def widths_of(cases: Sequence[Case], ways: dict[str, float], chosen: Chosen, most: int | None) -> list[Width]:
    """The widths: by the alternatives, and then all others. Where the host's is the rule and is not known, those that are usual first."""
    if chosen.is_of_option:
        return [Width(chosen.name, 1.0)]
    is_of_host = "host" in ways
    ruled = {} if is_of_host and most is None else ways
    found = [Width(name, likely * (1 - OTHER_WIDTH)) for name, likely in ruled.items()]
    taken = {tuple(case.width(name) for case in cases) for name in ruled}
    others = [width for width in dict.fromkeys(WIDTHS_TRIED) if (width,) * len(cases) not in taken]
    share = OTHER_WIDTH if found else 1.0
    weights = [1 / (place + 1) for place in range(len(others))]
    found += [Width(str(width), share * weight / sum(weights)) for width, weight in zip(others, weights)]
    return sorted(found, key=lambda each: -each.likely)


def features_of(host: Host, about: Parameter, ways: dict[str, float], is_seen: bool | None) -> list[Feature]:
    """A number, with its flag where it has one. `is_seen`: whether the devicetree shows the flag, where that is asked."""
    read = host[about.key]
    some = numbers.options(about, ways, None if read is None else int(read))
    if about.flag is None:
        return [Feature(True, each, each.likely) for each in some]
    given = host[about.flag] if is_seen is None else is_seen
    share = 0.5 if given is None else 1 - OTHER_FLAG if given else OTHER_FLAG
    found = [Feature(False, None, 1 - share)]
    total = sum(each.likely for each in some)
    found += [Feature(True, each, share * each.likely / total) for each in some]
    return sorted(found, key=lambda each: -each.likely)


def choices_of(cases: Sequence[Case], host: Host, chosen: Mapping[str, Chosen], names: set[str], has_pmu: bool) -> Choices:
    """What is tried of some guests: the rows of these names, and all numbers."""
    rows = [each.row for name, each in chosen.items() if name in names and name not in APART]
    ways = [likely_ways(row, chosen[row.name]) for row in rows]
    likeliest = {name: each.name for name, each in chosen.items()}
    most = host["s2sz_max"]

    widths = widths_of(cases, likely_ways(chosen["s2sz"].row, chosen["s2sz"]), chosen["s2sz"], None if most is None else int(most))
    seen = {"pmu": has_pmu}     # the flags that a devicetree shows
    features = [features_of(host, about, likely_ways(chosen[about.key].row, chosen[about.key]), seen.get(about.flag or "")) for about in RMM_1_0]
    made = Choices(rows, structures_of(cases, rows, ways, likeliest), widths, features)
    if not made.structures:
        raise Fault("no combination of the rows has a place for each blob, expected --row to leave some")
    made.count = math.prod(len(each) for each in ways) * count_of(made.axes()[1:])
    for case in cases:
        case.choices = made
    return made


# ---- what came of it


@dataclass(frozen=True)
class Settled:
    """What gives the values: the alternatives by the names of their rows, and the numbers by their keys. `open_rows`: rows whose value does
    not pin them, each with the alternatives that give the same."""

    ways: dict[str, str]
    values: dict[str, int | bool]
    open_rows: dict[str, list[str]]


def settled_of(cases: Sequence[Case], choices: Choices, at: At, algo: str | None) -> Settled:
    """What a combination says."""
    structure, width = at[:2]
    taken = choices.taken(choices.structures[structure][0])
    ways, values = dict(taken) | {"s2sz": choices.widths[width].name}, dict[str, Union[int, bool]]()
    if algo:
        ways["hash"] = algo
    for about, feature in zip(RMM_1_0, choices.features_at(at)):
        if feature.number:
            ways[about.key], values[about.key] = feature.number.way, feature.number.read
        if about.flag:
            values[about.flag] = feature.has
    structure_ways = taken | {"s2sz": ways["s2sz"]}
    return Settled(ways, values, open_of(cases, [*choices.rows, cases[0].row("s2sz")], structure_ways))


def open_of(cases: Sequence[Alternatives], rows: Sequence[Row], taken: Mapping[str, str]) -> dict[str, list[str]]:
    """The rows whose other alternatives give the same, each by itself; and the alternatives."""
    def key(ways: Mapping[str, str]) -> tuple | None:
        try:
            widths = [case.width(ways["s2sz"]) for case in cases]
            return tuple((width, body_of(case.realm(ways), case.contents, blocks_at(ways["block_level"], width))) for case, width in zip(cases, widths))
        except Fault:
            return None

    has = key(taken)
    found = {row.name: [name for name in row.names if name != taken[row.name] and key({**taken, row.name: name}) == has] for row in rows}
    return {name: some for name, some in found.items() if some}


def differing(guest: Alternatives, row: Row, names: Sequence[str], taken: Mapping[str, str]) -> list[str]:
    """Returns those of some alternatives of a row that may change the measurement of a launch."""
    same = [] if row.name in APART - {"s2sz"} else [taken[row.name], *open_of([guest], [row], taken).get(row.name, [])]
    return [name for name in names if name not in same]


def tried_lines(search_at: Choices, reached: list[set[int]]) -> list[str]:
    """What was tried, row by row."""
    tried = [search_at.structures[place][0] for place in sorted(reached[0])]
    lines = [f"{row.name}: {', '.join(dict.fromkeys(structure[number] for structure in tried))}" for number, row in enumerate(search_at.rows)]
    if len(tried) < len(search_at.structures):
        lines.append(f"{len(tried)} of {len(search_at.structures)} combinations of these rows")
    lines.append("s2sz: " + ", ".join(search_at.widths[place].name for place in sorted(reached[1])))
    for about, features, places in zip(RMM_1_0, search_at.features, reached[2:]):
        some = [features[place] for place in places]
        values = ranges(each.number.value for each in some if each.number)
        numbers_tried = f"{about.key}: {values}" if values else ""
        flags_tried = f"{about.flag}: {' and '.join(dict.fromkeys(value_text(each.has) for each in some))}" if about.flag else ""
        lines.append("; ".join(filter(None, (flags_tried, numbers_tried))))
    return lines


def ranges(values) -> str:
    """Whole numbers in words, those side by side as one range."""
    found: list[list[int]] = []
    for value in sorted(set(values)):
        if found and value == found[-1][1] + 1:
            found[-1][1] = value
        else:
            found.append([value, value])
    return ", ".join(str(first) if first == last else f"{first} to {last}" for first, last in found)


# ---- the search


@dataclass
class Outcome:
    """What came of the search: what gives the values, or nothing; how many launches were tried, and what of each row."""

    settled: Settled | None
    tried: int
    refused: int
    count: int
    lines: list[str]
    is_whole: bool


@dataclass
class Reached:
    """Which ways of each axis were tried."""

    ways: list[set[int]]

    def hear(self, tried: Sequence[Candidate]):
        for each in tried:
            for ways, place in zip(self.ways, each.origin):
                ways.add(place)


def search_of(case: Case | Beginning, axes: Sequence[Axis], limit: int) -> tuple[Search, Reached]:
    """The search for the combination by which a guest has its value; and what it tries."""
    reached = Reached([set() for _ in axes])
    return Search(case.runs, case.value, limit, Progress("rim-manifest"), heard=reached.hear), reached


def alike(case: Case, at: At, some: Sequence[At] | None) -> list[At]:
    """Returns the combinations of which a guest has the same measurement as by one: those of some, or of all, the likeliest first. Numbers that
    are measured alike are so for each guest, so they stay."""
    choices, found = case.chosen, case.candidate(at)
    if some is None:
        axes = choices.axes()
        widths = [place for place in range(len(choices.widths)) if case.width_of(place) == case.width_of(at[1])]
        every = ((structure, width, *at[2:]) for structure in range(len(choices.structures)) for width in widths)
        some = sorted(every, key=lambda each: -axes[0].likely[each[0]] * axes[1].likely[each[1]])
    candidates = ((each, case.candidate(each)) for each in some)
    return [each for each, candidate in candidates if candidate and found and candidate.key == found.key]


def others_found(cases: Sequence[Case], at: At, limit: int) -> tuple[list[At], Search | None]:
    """Returns the combinations that give the values of all guests, of those that give the first one's; and the search of the last guest that was
    looked at, if there are others."""
    left, looked = alike(cases[0], at, None) if cases[1:] else [at], None
    for case in cases[1:]:
        looked, _ = search_of(case, case.chosen.axes(), limit)
        hit = looked.found("", map(case.candidate, left))
        left = alike(case, hit.origin, left) if hit else []
    return left, looked


def search(cases: list[Case], choices: Choices, limit: int, algo: str | None) -> Outcome:
    """Looks for what gives the value of each guest. A trace says the parameters first."""
    before = 0
    traced = next((case for case in cases if case.trace), None)
    if traced:
        beginning, axes = Beginning(traced), [Axis("rows", (1.0,)), *choices.axes()[1:]]
        first, reached = search_of(beginning, axes, limit)
        hit = first.found("", map(beginning.candidate, best_first(axes)))
        before = first.tried
        if hit is None:
            lines = ["the first step, realm_create, has another measurement by each of these",
                     *tried_lines(choices, [set(), *reached.ways[1:]])[-5:]]
            return Outcome(None, first.tried, first.refused, choices.count, lines, first.rounds[-1].is_whole)
        choices = choices.at_numbers(hit.origin)
        for case in cases:
            case.choices = choices
    axes = choices.axes()
    main, reached = search_of(cases[0], axes, max(limit - before, 1))
    try:
        hit = main.found("", map(cases[0].candidate, best_first(axes)))
    except Stopped:
        print("\n".join([f"the search was stopped; none of {before + main.tried:,} launches has the value. Tried were",
                         *(f"  {line}" for line in tried_lines(choices, reached.ways))]), flush=True)
        raise
    left, last = others_found(cases, hit.origin, limit) if hit else ([], None)
    settled = settled_of(cases, choices, left[0], algo) if left else None
    lines = nearest_lines(traced, choices) if traced and not settled else []
    if hit and not left:
        lines.append(f"the value of {cases[0].launch.name} is given, and by no such combination those of all other guests")
    lines += [] if settled else tried_lines(choices, reached.ways)
    return Outcome(settled, before + main.tried + (last.tried if last else 0), main.refused, choices.count, lines, main.rounds[-1].is_whole)


def nearest_lines(case: Case, choices: Choices) -> list[str]:
    """How far the trace of a machine goes with a launch of the rows' likeliest combinations, the parameters being found."""
    best, last, by = 0, "none", choices.structures[0][0]
    for place, (structure, _) in enumerate(choices.structures[:MOST_TRACED]):
        candidate = case.candidate((place, 0, 0, 0, 0, 0))
        lines = case.runs.trace(candidate) if candidate else []
        after, same = last_shared([line.split(" ", 1)[0] for line in lines], case.trace)
        if same > best:
            best, last, by = same, lines[after].split(" ", 1)[1] if after < len(lines) else "none", structure
    taken = ", ".join(f"{name} = {way}" for name, way in choices.taken(by).items())
    return [f"the first {best} of {len(case.trace)} steps of the trace are those of the launch by {taken}",
            f"its next step, which is not the machine's: {last}"]


def content_of(data: bytes) -> Content:
    packed = data.rstrip(b"\0")
    return Content(hashlib.sha256(packed).hexdigest(), len(packed))


def head_of(files: Sequence[Blob]) -> str:
    """The beginning of a manifest with some files, which are in the folder in which `rim` is started."""
    return "rim_manifest = 2\n" + "".join(f"[[file]]\nname = {text(each.file)}\npath = {text(each.file)}\n" for each in files)
