"""A report as `rim measure --json` writes it, of each version that it has had."""
from __future__ import annotations

import re
from collections.abc import Sequence
from dataclasses import dataclass
from typing import TypeVar

from outside import files
from outside.faults import Fault
from outside.texts import shown, visible

# How many digits a measurement of each algorithm has.
DIGITS = {"sha256": 64, "sha512": 128}
VERSIONS = (1, 2, 3, 4)
WHAT = "a report of rim measure --json"
# What is said of something that is not there.
NONE = "none"
# What is said of an item's size where it could not be placed, beside the size itself if one is stated.
STATED_SIZE = "stated size"
# The first version that has files and the program, and the first that has what each launch is.
WITH_FILES, WITH_INPUTS = 3, 4


@dataclass(frozen=True)
class Value:
    """What came of a launch: an algorithm with the digits of the measurement, or why it is refused; and the digits of its personalization
    value, where the report has that."""

    algorithm: str
    digits: str = ""
    refused: str = ""
    rpv: str = ""

    def __str__(self) -> str:
        return f"refused {self.refused}" if self.refused else f"{self.algorithm} {self.digits}"

    @property
    def table(self) -> dict[str, object]:
        """As a report has it."""
        found = {"algorithm": self.algorithm} | ({"refused": self.refused} if self.refused else {"rim": self.digits})
        return found | ({"rpv": self.rpv} if self.rpv else {})


@dataclass(frozen=True)
class Content:
    """The bytes of a file: how many, and their SHA-256 digest."""

    length: int
    digest: str

    def __str__(self) -> str:
        return f"{self.length} byte{'s' * (self.length != 1)}, sha256 {self.digest}"

    @property
    def table(self) -> dict[str, object]:
        """As a report has it."""
        return {"bytes": self.length, "sha256": self.digest}


@dataclass(frozen=True)
class Inputs:
    """What a launch is made of, as texts by what they say: of itself, and of each item by its name."""

    own: dict[str, str]
    items: dict[str, dict[str, str]]


@dataclass(frozen=True)
class Report:
    """A report: what came of each launch by its name, each file by its path, both in the manifest's order, the program that made it, and what
    each launch is made of. `files`, `program` and `inputs` are None in a version that has none."""

    version: int
    launches: dict[str, Value]
    files: dict[str, Content] | None = None
    program: str | None = None
    inputs: dict[str, Inputs] | None = None


class Malformed(Exception):
    """A report does not have the form of its version."""


Kind = TypeVar("Kind", str, int, list, dict, bool)
KINDS = {str: "text", int: "whole number", list: "array", dict: "object", bool: "truth value"}


def member(table: object, name: str, kind: type[Kind]) -> Kind:
    """A member of an object, of this kind. JSON's `true` is no number."""
    value = table.get(name) if isinstance(table, dict) else None
    if type(value) is not kind:
        raise Malformed(f"{name} is missing, or is no {KINDS[kind]}")
    return value


def text(table: object, name: str, pattern: str) -> str:
    said = member(table, name, str)
    if not re.fullmatch(pattern, said):
        raise Malformed(f"{name} is {shown(said)}")
    return said


def value_of(launch: object, version: int) -> Value:
    algorithm = text(launch, "algorithm", "|".join(DIGITS))
    rpv = text(launch, "rpv", "[0-9a-f]{128}") if version >= WITH_INPUTS else ""
    has = set(launch) & {"rim", "refused"} if isinstance(launch, dict) else set()
    if len(has) == 2:
        raise Malformed("a launch has both rim and refused")
    if "refused" in has:
        return Value(algorithm, refused=text(launch, "refused", "[a-z0-9-]+"), rpv=rpv)
    return Value(algorithm, digits=text(launch, "rim", f"[0-9a-f]{{{DIGITS[algorithm]}}}"), rpv=rpv)


def or_none(table: object, name: str, kind: type[Kind]) -> Kind | None:
    """The same, or None where the member is null."""
    return None if isinstance(table, dict) and name in table and table[name] is None else member(table, name, kind)


def truth(is_so: bool) -> str:
    return "yes" if is_so else "no"


def extent(base: int, end: int) -> str:
    return f"{base:#x} to {end:#x}"


def place_of(item: object) -> dict[str, str]:
    """Where an item is: its place, or what the manifest states of one that could not be placed. It is placed at the address that is stated,
    and has the size that is stated."""
    if isinstance(item, dict) and "stated" in item:
        stated = member(item, "stated", dict)
        size, address = or_none(stated, "size", int), hex(member(stated, "at", int))
        return {"address": address} | ({STATED_SIZE: NONE} if size is None else {STATED_SIZE: str(size), "size": str(size)})
    place = member(item, "place", dict)
    return {"address": hex(member(place, "address", int)), "size": str(member(place, "bytes", int)), "pages": str(member(place, "pages", int))}


def item_of(item: object) -> dict[str, str]:
    """What an item is, as texts by what they say. The path of its file is none of them: the digest says what the file is."""
    digest = NONE if or_none(item, "sha256", str) is None else text(item, "sha256", "[0-9a-f]{64}")
    return {"kind": member(item, "kind", str), "sha256": digest, "edited": truth(member(item, "edited", bool)),
            "measured": truth(member(item, "measured", bool))} | place_of(item)


def inputs_of(launch: object) -> Inputs:
    """What a launch is made of."""
    recs, parameters = member(launch, "recs", dict), member(launch, "parameters", dict)
    found = {"algorithm": member(launch, "algorithm", str), "s2sz": str(member(launch, "s2sz", int)),
             "block level": str(member(launch, "block_level", int))}
    edited = or_none(launch, "edited_sha256", str)
    found["edited devicetree"] = NONE if edited is None else "sha256 " + text(launch, "edited_sha256", "[0-9a-f]{64}")
    found["RAM"] = ", ".join(extent(member(region, "base", int), member(region, "end", int)) for region in member(launch, "ram", list)) or NONE
    found["RECs"] = f"{member(recs, 'count', int)}, of which {member(recs, 'runnable', int)} may be run"
    found["rule for RECs"] = or_none(recs, "rule", str) or NONE
    found |= {f"parameter {name}": truth(value) if isinstance(value, bool) else str(value) for name, value in parameters.items()}
    return Inputs(found, {member(item, "name", str): item_of(item) for item in member(launch, "items", list)})


def launches_of(table: object, version: int) -> dict[str, Value]:
    found: dict[str, Value] = {}
    for launch in member(table, "launches", list):
        name = member(launch, "name", str)
        if name in found:
            raise Malformed(f"two launches have the name {shown(name)}")
        found[name] = value_of(launch, version)
    return found


def files_of(table: object) -> dict[str, Content]:
    """The files. A manifest may name one path twice; its contents are one, unless the file was changed while it was read."""
    found: dict[str, Content] = {}
    for file in member(table, "files", list):
        path, length = member(file, "path", str), member(file, "bytes", int)
        if length < 0:
            raise Malformed(f"bytes is {length}")
        content = Content(length, text(file, "sha256", "[0-9a-f]{64}"))
        if found.setdefault(path, content) != content:
            raise Malformed(f"the file {shown(path)} is there twice, with other contents")
    return found


def report_of(table: object) -> Report:
    version = member(table, "version", int)
    if version not in VERSIONS:
        raise Malformed(f"version is {version}, expected one of {', '.join(map(str, VERSIONS))}")
    launches = launches_of(table, version)
    if version < WITH_FILES:
        return Report(version, launches)
    inputs = {member(launch, "name", str): inputs_of(launch) for launch in member(table, "launches", list)} if version >= WITH_INPUTS else None
    return Report(version, launches, files_of(table), member(table, "program", str), inputs)


def joined(reports: Sequence[Report]) -> Report:
    """Several reports as one: the launches of all, and the files where all have them. Made by several programs, it has the names of all."""
    launches: dict[str, Value] = {}
    contents: dict[str, Content] = {}
    inputs: dict[str, Inputs] = {}
    for each in reports:
        inputs |= each.inputs or {}
        for name, value in each.launches.items():
            if name in launches:
                raise Fault(f"two launches have the name {shown(name)}, expected each name once in all that is compared")
            launches[name] = value
        for path, content in (each.files or {}).items():
            if contents.setdefault(path, content) != content:
                raise Fault(f"two files have the path {shown(path)} and other contents, expected one of each path in all that is compared")
    programs = [each.program for each in reports]
    program = None if None in programs else ", ".join(dict.fromkeys(filter(None, programs)))
    version = min(each.version for each in reports)
    return Report(version, launches, None if program is None else contents, program, None if version < WITH_INPUTS else inputs)


def read(data: bytes, path: str) -> Report:
    """The report in some bytes, which came from a file or a program at a path."""
    return of_table(files.json_of(path, data, WHAT), path)


def of_table(table: object, path: str) -> Report:
    """The report that some JSON is, which came from a path."""
    try:
        return report_of(table)
    except Malformed as why:
        raise Fault(f"{visible(path)}: {why}, expected {WHAT}") from None
