"""The launches of a manifest as Python reads them, and a manifest of each by itself where there are many.

`rim map` reads its manifest whole for one launch, so the maps of all take as long as their number squared; a manifest of one launch is read at once.
What Python reads may be another launch than what `rim` does. So all of them are written and measured once more, together: only if each has the
very value that the report has of it, anything is taken from here; else `rim` is asked for all by the manifest that is shown.
"""
from __future__ import annotations

import os
from dataclasses import dataclass, field

from comparer.report import Report
from matcher import manifests
from matcher.files import Blob
from matcher.launch import Launch, manifest_head, table_text
from outside import files
from outside.faults import Fault
from outside.rim import Rim

# Of this many launches or fewer, maps are asked for by their own manifest: that is as quick.
FEW = 32


@dataclass(frozen=True)
class Pieces:
    """The launches by their names, and the path of a manifest of each one alone. Both are empty where they are not to be used."""

    launches: dict[str, Launch] = field(default_factory=dict)
    paths: dict[str, str] = field(default_factory=dict)

    def command_line(self, name: str) -> str | None:
        """The command line that a launch puts into its devicetree. It is that of the manifest only if it is measured."""
        launch = self.launches.get(name)
        tree = launch.of_kind("dtb") if launch is not None else None
        return None if tree is None or tree.measured is False else tree.bootargs


def text_of(launches: list[Launch], paths: dict[str, str]) -> str:
    """The text of a manifest of some launches, with the files that they name."""
    blobs = {name: Blob(path, 0, None) for name, path in paths.items()}
    head = manifest_head({item.file for launch in launches for item in launch.item if item.file is not None}, blobs)
    return "".join([head, *(f'[[launch]]\nname = "{each.name}"\n{table_text(each)}' for each in launches)])


def are_same(rim: Rim, path: str, folder: str | None, known: Report) -> bool:
    """Whether the launches of a manifest have the values of a report."""
    ran = rim.run("measure", "--", path, folder=folder)
    return ran.status in (0, 1) and manifests.values_of(ran) == {name: str(value) for name, value in known.launches.items()}


def read(rim: Rim, path: str, folder: str | None, known: Report, scratch: str) -> Pieces:
    """The launches of the manifest at a path, for which `rim` starts in a folder. What is written is in the folder `scratch`."""
    what = "a manifest"
    try:
        table = files.toml_of(path, files.read(path, manifests.MOST, what), what)
        launches = manifests.launches_of(path, table)
    except Fault:
        return Pieces()
    paths = {str(each.get("name")): str(each.get("path")) for each in manifests.tables_of(table, "file")}
    both = os.path.join(scratch, "all.toml")
    files.write(both, text_of(launches, paths).encode())
    if not are_same(rim, both, folder, known):
        return Pieces()
    found = {each.name: os.path.join(scratch, f"{at}.toml") for at, each in enumerate(launches)} if len(launches) > FEW else {}
    for each in launches if found else ():
        files.write(found[each.name], text_of([each], paths).encode())
    return Pieces({each.name: each for each in launches}, found)
