"""The page of two launches, side by side: their values, what they are made of, the first step that parts them, and their maps."""
from __future__ import annotations

import os
from collections.abc import Sequence
from dataclasses import dataclass

from comparer import differ
from finder.progress import Progress
from matcher import explain, logs, nearest
from matcher.explain import Content
from outside import files
from outside.faults import Fault
from outside.rim import Rim
from outside.texts import shown, visible

from . import launch_part, reading, whole
from .bar import bar
from .launches import value_of
from .markup import code, element, escaped, listed, named, scrolled, table
from .names import rest
from .reading import Checked, Launch, Measured, Release, Source
from .release_page import manifests, place_of, without_values


@dataclass(frozen=True)
class Side:
    """A launch, the manifest that it is of, and how it is called beside the other one."""

    of: Measured
    launch: Launch
    label: str


def side(rim: Rim, of: Checked, name: str, label: str) -> Side:
    """A launch of a manifest that has no fault."""
    measured = reading.measured(rim, of)
    found = reading.launches_of(rim, measured, Progress("rim-page"), name)
    if not found:
        raise Fault(f"rim: no-such-launch: {shown(name)}, expected one of {visible(of.source.path)}")
    return Side(measured, found[0], label)


def contents_of(rim: Rim, here: Side) -> list[Content]:
    """What the pages of a launch are of: its files, and its devicetree as it is placed."""
    some = [each for each in here.launch.map.items if each.file is not None]
    found = explain.contents(list(dict.fromkeys(each.file for each in some if not each.is_edited and each.file is not None)))
    for each in some:
        if each.is_edited:
            data = rim.run("dtb", "--", here.of.source.path, here.launch.name).out
            found.append(Content(f"the devicetree of {visible(here.label)}", data))
    return found


def first_step(rim: Rim, one: Side, other: Side, folder: str) -> list[str]:
    """The first step that parts two launches, as `rim-match --nearest` says it of the trace of the other one."""
    refused = [each for each in (one, other) if each.launch.value.refused]
    if refused:
        return [f'launch "{each.launch.name}" is refused, so there are no steps of it' for each in refused]
    ran = rim.run("trace", "--explain", "--", other.of.source.path, other.launch.name)
    if ran.status:
        raise reading.fault_of(ran, other.of.source)
    path = os.path.join(folder, "trace")
    files.write(path, ran.out)
    there = logs.read(path)
    found = nearest.of_launches(rim, one.of.source.path, [one.launch.name], there)
    if found.best is None:
        raise Fault("; ".join(found.refused))
    said = nearest.said_of(found, found.best, other.label, there)
    if one.launch.value.algorithm != other.launch.value.algorithm:
        # no page has the same digest by another algorithm, so nothing can be said of pages
        return said
    return [*said, *nearest.explained(rim, folder, one.of.source.path, found, there, contents_of(rim, other))]


# ---- the page


def values(sides: Sequence[Side]) -> str:
    """What came of both."""
    rows = [[escaped(each.launch.name), place_of(each.of.source), escaped(each.launch.value.algorithm), value_of(each.launch.value)] for each in sides]
    one, other = (each.launch.value for each in sides)
    if one.refused or other.refused:
        said = "Not both have a value."
    else:
        said = "Both have one value." if (one.algorithm, one.digits) == (other.algorithm, other.digits) else "They have different values."
    return f"<p><strong>{said}</strong></p>" + scrolled("The two launches", table("Both values", ["Launch", "Manifest", "Algorithm", "Value"], rows)) + "\n"


def inputs(sides: Sequence[Side]) -> str:
    """What differs of all that they are made of."""
    one, other = (each.launch for each in sides)
    rows = [[named(each.what), named(each.was) or "none", named(each.now) or "none"] for each in differ.of_inputs(one.inputs, other.inputs)]
    if one.command_line != other.command_line:
        rows.append(["command line", *("none" if each.command_line is None else code(each.command_line) for each in (one, other))])
    heads = ["What", *(escaped(each.label) for each in sides)]
    nothing = "<p>Nothing differs of what a report has of them.</p>"
    return f"<h2>What they are made of</h2>{scrolled('What differs', table('What differs', heads, rows)) if rows else nothing}\n"


def picture_of(each: Side, pictures: launch_part.Pictures) -> str:
    """A launch with its map, what is wrong or odd of it, and what its measurement is made of."""
    here = each.launch.map
    refused = f'<div class="bad"><strong>Refused:</strong> {escaped(rest(here.refusal, here.name))}</div>' if here.refusal else ""
    odd = listed([escaped(rest(line, here.name)) for line in here.warnings], class_="odd")
    made = bar(here) if here.extensions else ""
    return element("section", f"<h3>{escaped(each.label)}</h3>{refused}{odd}{launch_part.figure(each.launch, pictures)}{made}")


def content(sides: Sequence[Side], steps: list[str]) -> str:
    pictures = launch_part.Pictures()
    both = "".join(picture_of(each, pictures) for each in sides)
    said = "\n".join(map(escaped, steps))
    one, other = (escaped(each.label) for each in sides)
    checked = tuple(dict.fromkeys(each.of.checked for each in sides))
    return (f"<h1>{one} beside {other}</h1>\n<p>Computed by {escaped(str(sides[0].of.report.program))}.</p>\n{values(sides)}{manifests(checked)}\n"
            f"{inputs(sides)}<h2>The first step that parts them</h2><pre>{said}</pre>\n"
            f'<h2>Their maps</h2><div class="sides">{both}</div>\n{whole.how_to_read()}')


def labels(places: Sequence[tuple[Source, str]]) -> list[str]:
    """How each of two launches is called: by its name, and by its manifest where that is another one."""
    one_manifest = places[0][0] == places[1][0]
    return [name if one_manifest else f"{name} of {source.path}" for source, name in places]


def page(rim: Rim, places: Sequence[tuple[Source, str]], folder: str) -> tuple[str, int]:
    """The page of two launches, and the status: as that of `rim map` of both."""
    checked = {source: reading.checked(rim, source) for source in dict.fromkeys(source for source, _ in places)}
    if any(each.status == 3 for each in checked.values()):
        wrong = Release(reading.version_of(rim), tuple(checked.values()))
        return without_values(wrong), wrong.status
    sides = [side(rim, checked[source], name, label) for (source, name), label in zip(places, labels(places))]
    steps = first_step(rim, sides[0], sides[1], folder)
    for each in sides:
        reading.check_unchanged(each.of)
    one, other = (escaped(each.label) for each in sides)
    return whole.page(f"{one} beside {other}", content(sides, steps)), int(any(each.launch.value.refused for each in sides))
