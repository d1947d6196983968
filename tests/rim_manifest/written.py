"""What rim-manifest has written: whether the program takes it, and what is read of it."""
import json
import os
import subprocess

from helpers import SECONDS
from helpers.folders import Folder


def read_by(program: str, folder: Folder, out="out", count: int | None = None):
    """What is wrong with manifests by the program: a line of `check`, or a launch that is not measured."""
    wrong = []
    path = os.path.join(folder.path, out)
    for name in sorted(each for each in os.listdir(path) if each.endswith(".toml")):
        ran = subprocess.run([program, "check", "--quiet", name], cwd=path, capture_output=True, timeout=SECONDS, check=False)
        if ran.returncode or ran.stdout or ran.stderr:
            wrong.append(f"check {name}: status {ran.returncode}, {ran.stdout + ran.stderr!r}")
    status, report, said = folder.run(start=os.path.join(path, "measure"), RIM=program)
    lines = report.splitlines()
    if status or lines[:1] != ["rim-report 1"] or not lines[-1].startswith("pages ") or count not in (None, len(lines) - 2):
        wrong.append(f"measure: status {status}, {report[:300]!r}, {said!r}")
    return wrong


def names_of(folder: Folder) -> list[str]:
    return [launch["name"] for launch in folder.toml()["launch"]]


def first(folder: Folder) -> dict:
    return folder.toml()["launch"][0]


def recorded(folder: Folder) -> dict:
    """The first launch of the record."""
    return json.loads(folder.read("out/record.json"))["launches"][0]


def files_of(folder: Folder, out="out") -> dict[str, bytes]:
    return {name: folder.read(f"{out}/{name}") for name in os.listdir(os.path.join(folder.path, out))
            if os.path.isfile(os.path.join(folder.path, out, name))}
