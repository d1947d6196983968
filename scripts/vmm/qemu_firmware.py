"""Firmware of QEMU: which words of a line say it, and which file it is. A realm has no flash, so a flash of firmware is its file."""
from __future__ import annotations

from outside.texts import shown

from .sorting import Given, Sorted

# The words of -machine that are of firmware, and how many nodes of a disk may be one on another.
KEYS, VARIABLES, MOST_NODES = ("firmware", "pflash0"), "pflash1", 8
NO_VARIABLES = ("a flash for variables: whether a realm has one is not known, expected firmware that keeps none (of libvirt's: "
                "<loader stateless='yes'>)")


def take_drive(found: Sorted, given: Given, said: dict[str, str]):
    """A flash by -drive."""
    found.drop(given)
    if said.get("format", "raw") != "raw" or "file" not in said:
        found.refuse(given, "expected format=raw and file= of a flash")
        return
    unit = said.get("unit", said.get("index", str(len(found.flash))))
    found.flash[unit] = said["file"]


def take_flash(found: Sorted, given: Given):
    """A flash by -pflash: the next one."""
    found.drop(given)
    found.flash[str(len(found.flash))] = given.value


def file_of(found: Sorted, node: str) -> str | None:
    """The file of a node that -blockdev has, which may be on another one; None where it is none that is read as it is."""
    for _ in range(MOST_NODES):
        said = found.nodes.get(node)
        if said is None:
            return None
        if said.get("driver") == "file":
            return said.get("filename")
        if said.get("driver") != "raw" or said.get("offset", "0") != "0":
            return None
        if "file.filename" in said:
            return said["file.filename"] if said.get("file.driver", "file") == "file" else None
        node = said.get("file", "")
    return None


def of_line(found: Sorted, machine: list[str]) -> list[str]:
    """Puts the firmware of a line into what it says, and gives the words of its machine that are not of firmware."""
    given = [("-bios", path) for path in found.said.get("firmware", [])]
    rest = []
    for word in machine:
        key, _, value = word.partition("=")
        if key == "firmware":
            given.append(("firmware of -machine", value))
        elif key == "pflash0":
            path = file_of(found, value)
            if path is None:
                found.faults.append(f"-machine: {shown(word)}: no -blockdev of this name that is a file, raw, is in the line, expected one")
            else:
                given.append(("pflash0 of -machine", path))
        elif key == VARIABLES:
            found.faults.append(f"-machine: {shown(word)}: {NO_VARIABLES}")
        else:
            rest.append(word)
    for unit, path in found.flash.items():
        if unit == "0":
            given.append(("a flash", path))
        else:
            found.faults.append(f"flash {shown(unit)}, {shown(path)}: {NO_VARIABLES}")
    if len(given) > 1:
        found.faults.append(f"{' and '.join(name for name, _ in given)}: firmware is given twice, expected once")
    if given:
        found.said["firmware"] = [given[0][1]]
    return rest
