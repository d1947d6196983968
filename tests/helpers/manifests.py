"""Writes manifests from tables or from launches as texts, and has them measured."""
import json
import os
import subprocess
import tomllib
from collections.abc import Iterable

from . import TOP
from .folders import Folder


def written(value) -> str:
    """A value in TOML."""
    if isinstance(value, dict):
        return "{ " + ", ".join(f"{key} = {written(each)}" for key, each in value.items()) + " }" if value else "{}"
    if isinstance(value, (list, tuple)):
        return "[" + ", ".join(map(written, value)) + "]"
    return json.dumps(value)


def whole(table: dict) -> str:
    return "".join(f"{key} = {written(value)}\n" for key, value in table.items())


def launch(name: str, *lines: str, algo="sha256", s2sz=33, **keys) -> str:
    """Returns a launch as text: its keys, then lines as they are, such as those of its items."""
    return "[[launch]]\n" + whole({"name": name, "algo": algo, "s2sz": s2sz} | keys) + "".join(f"{line}\n" for line in lines)


def manifest(*launches: str, files: dict[str, str] | Iterable[str] = (), version=1) -> str:
    """Returns a manifest of launches given as texts. `files` has the path of each name, or names that are also the paths."""
    paths = files if isinstance(files, dict) else {name: name for name in files}
    head = {"rim_manifest": version} | ({"file": [{"name": name, "path": path} for name, path in paths.items()]} if paths else {})
    return whole(head) + "\n".join(launches)


def launch_of(table: dict, name: str) -> dict:
    return next(each for each in table["launch"] if each["name"] == name)


def of_name(launch: dict, name: str) -> dict:
    return next(each for each in launch["item"] if each["name"] == name)


def measured(program: str, here: Folder, table: dict) -> dict[str, str]:
    """The measurement of each launch, or why it is refused."""
    here.put("measured.toml", whole(table).encode())
    ran = subprocess.run([program, "measure", "measured.toml"], cwd=here.path, capture_output=True, text=True, check=False)
    if ran.returncode > 1:
        raise ValueError(ran.stderr.strip())
    return {line.split(" ")[0]: line.split(" ")[2] for line in ran.stdout.splitlines()[1:-1]}


def of_example(name: str) -> tuple[Folder, dict]:
    here = Folder({})
    os.symlink(os.path.join(TOP, "examples"), os.path.join(here.path, "examples"))
    return here, tomllib.loads(here.read(f"examples/{name}/manifest.toml").decode())
