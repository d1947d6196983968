"""The calls. Each answers what the program `rim` prints for the same words.

What they share:

- `manifest` is a manifest's text, or its bytes. `path` is the path by which its faults and a report as JSON call it: no file is opened. A file
  that the manifest names by this path is the manifest itself, whatever `files` has.
- `files` has the bytes of each file that the manifest names, by its path as the manifest writes it. More may be there; what is no file of the
  manifest is not read. A file has at most 256 MiB.
- `launch` is the name of a launch.
- Bytes are bytes, or anything with a buffer: bytearray, memoryview, mmap. Nothing may change them during the call.
- Any number of threads may be in calls at a time, and run at a time: ctypes lets go of the interpreter's lock.
- A call that has no answer raises a RimError: a ManifestError for a fault of the manifest, NoFile for a file that is not there, NoMemory and so
  on. NoLibrary is raised where there is no librim.
"""
from __future__ import annotations

import ctypes
import json
import os
from collections.abc import Mapping
from typing import Union

from . import native
from .answers import Audit, Check, Image, Map, Replay, Report, Rim, audit_of, image_of, launch_of, refused, report_of
from .errors import ManifestError, NoFile
from .native import ALGORITHMS, JSON, LINES, OK, REFUSED, Bytes, Lent, encoded

Text = Union[str, Bytes]
Files = Mapping[str, Bytes]
NO_FILES: Files = {}
PATH = "manifest.toml"
# The most bytes of a file.
MOST = 256 << 20


# ---- how calls are made


def as_bytes(text: Text) -> Bytes:
    """The bytes of what may be a text."""
    return encoded(text) if isinstance(text, str) else text


def of_file(call: str, data: Bytes) -> tuple[int, bytes]:
    """What a call answers of one file. Its path is in no answer."""
    return native.answer(call, Lent({"file": data}))


def of_manifest(call: str, manifest: Text, files: Files, path: str, *words: object) -> tuple[int, bytes]:
    """What a call answers of a manifest and its files. What `rim check` has of a manifest's fault is in the error."""
    subject, others = Lent({path: as_bytes(manifest)}), Lent(files)
    try:
        return native.answer(call, subject, others, len(files), *words)
    except ManifestError as why:
        raise type(why)(*check(manifest, files, path=path, quiet=True).faults) from None
    except NoFile:
        lacking = (each for each in manifest_paths(manifest) if each not in files)
        raise NoFile(*(f"no-file: {ascii(each)} is not given, and the manifest names it" for each in lacking)) from None


def of_launch(call: str, manifest: Text, files: Files, launch: str, path: str, *words: object) -> tuple[int, bytes]:
    """What a call answers of the launch of a name."""
    name = encoded(launch)
    return of_manifest(call, manifest, files, path, name, len(name), *words)


def of_accepted(call: str, manifest: Text, files: Files, launch: str, path: str) -> str:
    """The same, for a launch that is accepted; else its refusal is raised."""
    code, out = of_launch(call, manifest, files, launch, path)
    if code == REFUSED:
        raise refused(launch_of(out.decode().rstrip("\n")).refusal or "")
    return out.decode()


# ---- of a whole manifest


def measure(manifest: Text, files: Files = NO_FILES, *, path: str = PATH) -> Report:
    """The report of all launches. One that is refused is in it, with its word; TooManyPages where it has too many different pages."""
    return report_of(of_manifest("rim_measure", manifest, files, path, LINES)[1].decode())


def measure_json(manifest: Text, files: Files = NO_FILES, *, path: str = PATH) -> str:
    """The report as JSON, as `rim measure --json` prints it: with the digests of the files and all that a launch is."""
    return of_manifest("rim_measure", manifest, files, path, JSON)[1].decode()


def audit(manifest: Text, files: Files = NO_FILES, *, path: str = PATH) -> Audit:
    """The report that the monitor's own commands lead to, launch by launch, as `rim audit` prints it."""
    return audit_of(of_manifest("rim_audit", manifest, files, path)[1].decode())


def check_json(manifest: Text, files: Files = NO_FILES, *, path: str = PATH, quiet: bool = False) -> str:
    """What `rim check --json` prints: `faults`, `warnings`, `status`, `version`. Warnings are left out where `quiet`."""
    subject, others = Lent({path: as_bytes(manifest)}), Lent(files)
    return native.answer("rim_check", subject, others, len(files), int(quiet), JSON)[1].decode()


def check(manifest: Text, files: Files = NO_FILES, *, path: str = PATH, quiet: bool = False) -> Check:
    """What is wrong with the manifest, its files and its launches, as `rim check` prints it. What is wrong is in the answer, and is not raised."""
    found = json.loads(check_json(manifest, files, path=path, quiet=quiet))
    return Check(found["status"], tuple(found["faults"]), tuple(found["warnings"]))


def manifest_paths(manifest: Text) -> list[str]:
    """The paths of the files that the manifest names, in its order: those that `files` has to have."""
    try:
        return [each.decode() for each in of_file("rim_manifest_paths", as_bytes(manifest))[1].split(b"\0")[:-1]]
    except ManifestError as why:
        raise type(why)(*check(manifest, quiet=True).faults) from None


# ---- of one launch


def launch_rim(manifest: Text, files: Files, launch: str, *, path: str = PATH) -> Rim:
    """The launch's measurement. The LaunchRefused of its word where it is refused, NoSuchLaunch where no launch has the name. All launches of the
    manifest are measured for it: of more than one, take them from `measure`."""
    number = ctypes.c_int()
    value = of_launch("rim_launch_rim", manifest, files, launch, path, ctypes.byref(number))[1]
    return Rim(ALGORITHMS[number.value], value)


def list_commands(manifest: Text, files: Files, launch: str, *, path: str = PATH) -> str:
    """The monitor's commands, as `rim list` prints them. The LaunchRefused of its word where the launch is refused."""
    return of_accepted("rim_list", manifest, files, launch, path)


def trace(manifest: Text, files: Files, launch: str, *, path: str = PATH) -> str:
    """The measurement after each command that extends it, as `rim trace` prints it. The LaunchRefused of its word where the launch is refused."""
    return of_accepted("rim_trace", manifest, files, launch, path)


def map(manifest: Text, files: Files, launch: str, *, path: str = PATH) -> Map:
    """Where everything lies and what is measured, as `rim map` prints it; as far as it goes where the launch is refused."""
    code, out = of_launch("rim_map", manifest, files, launch, path, LINES)
    return Map(out.decode(), code == REFUSED)


def map_json(manifest: Text, files: Files, launch: str, *, path: str = PATH) -> str:
    """The same as JSON, as `rim map --json` prints it: `refused` is a member where the launch is refused."""
    return of_launch("rim_map", manifest, files, launch, path, JSON)[1].decode()


def dtb(manifest: Text, files: Files, launch: str, *, path: str = PATH) -> bytes:
    """The launch's devicetree as it is placed. NoDevicetree where it has none, the LaunchRefused of its word where the launch is refused."""
    return of_launch("rim_dtb", manifest, files, launch, path)[1]


# ---- of one file


def replay(listing: Text) -> Replay:
    """Whether a listing is what it says, as `rim replay` prints it. What is no listing is an answer too, and is not raised."""
    code, out = of_file("rim_replay", as_bytes(listing))
    return Replay(out.decode().rstrip("\n"), code == OK)


def image(data: Bytes) -> Image:
    """The header of an arm64 Image. An ImageError where it is none."""
    return image_of(of_file("rim_image", data)[1].decode())


def fdt(data: Bytes) -> str:
    """A flattened devicetree, as `rim fdt` prints it. A DevicetreeError where it is none."""
    return of_file("rim_fdt", data)[1].decode()


# ---- of the library, and of files


def version() -> str:
    """The library's version: a number, and the day of its sources' last commit in parentheses."""
    return native.answer("rim_version")[1].decode()


def read_file(path: Union[str, os.PathLike[str]]) -> bytes:
    """The bytes of a file, and at most one more than a call takes. OSError where it cannot be read."""
    with open(path, "rb") as file:
        return file.read(min(os.fstat(file.fileno()).st_size or MOST, MOST) + 1)


def read_files(manifest: Text) -> dict[str, bytes]:
    """The files that a manifest names, for `files`. A path begins in the working folder, as the program opens it. OSError where one cannot be read."""
    return {path: read_file(path) for path in manifest_paths(manifest)}


def measure_path(path: Union[str, os.PathLike[str]]) -> Report:
    """The report of the manifest at a path and of the files that it names, read as the program reads them: paths begin in the working folder."""
    manifest = read_file(path)
    return measure(manifest, read_files(manifest), path=os.fspath(path))
