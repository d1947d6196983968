"""Files: read with limits, and written with their path in each fault. What a file says is read as TOML or JSON without traps."""
from __future__ import annotations

import hashlib
import importlib
import json
import os
import secrets
import shutil
import stat
import sys
import tempfile
from collections.abc import Iterator
from contextlib import contextmanager
from types import ModuleType

from .faults import Fault
from .stopping import held
from .texts import plain, shown, visible

KINDS = ((stat.S_ISDIR, "it is a folder"), (stat.S_ISFIFO, "it is a FIFO"), (stat.S_ISSOCK, "it is a socket"),
         (stat.S_ISCHR, "it is a device"), (stat.S_ISBLK, "it is a device"))


def why_of(why: OSError | ValueError) -> str:
    """Why something of the system fails. A path with a zero byte, and one that no bytes are of, is a ValueError."""
    return (why.strerror or str(why)) if isinstance(why, OSError) else "it is no path"


@contextmanager
def faults_of(path: str, what: str) -> Iterator[None]:
    """A fault of the system in these steps is one of this path: where a disk is full, the system does not say which file it is about."""
    try:
        yield
    except (OSError, ValueError) as why:
        raise Fault(f"{visible(path)}: {why_of(why)}, expected {what}") from None


def opened(path: str, what: str) -> int:
    """A descriptor of a file that is no FIFO and no device: such a one may never end, or may never begin."""
    with faults_of(path, what):
        file = os.open(path, os.O_RDONLY | os.O_NONBLOCK | os.O_CLOEXEC | os.O_NOCTTY)
        mode = os.fstat(file).st_mode
    if not stat.S_ISREG(mode):
        os.close(file)
        kind = next((text for is_kind, text in KINDS if is_kind(mode)), "it is no file")
        raise Fault(f"{visible(path)}: {kind}, expected {what}")
    return file


def read(path: str, most: int, what: str = "a file") -> bytes:
    """The bytes of a file, of which there are at most so many; `what` is said to be expected where they cannot be read."""
    with faults_of(path, what), open(opened(path, what), "rb") as file:
        length = os.fstat(file.fileno()).st_size
        data = file.read(most + 1) if length <= most else b""
    if length > most or len(data) > most:
        raise Fault(f"{visible(path)}: it has more than {most} bytes, expected {what} of at most that")
    return data


def head(path: str, count: int, what: str = "a file") -> bytes:
    """The first bytes of a file, or all of one that has fewer."""
    with faults_of(path, what), open(opened(path, what), "rb") as file:
        return file.read(count)


def digest(path: str, what: str = "a file", step: int = 1 << 20) -> str:
    """The SHA-256 digest of a file, in hexadecimal digits. Not all of it is held at once."""
    found = hashlib.sha256()
    with faults_of(path, what), open(opened(path, what), "rb") as file:
        while part := file.read(step):
            found.update(part)
    return found.hexdigest()


def size_of(path: str, what: str = "a file") -> int:
    """How many bytes a file has."""
    with faults_of(path, what), open(opened(path, what), "rb") as file:
        return os.fstat(file.fileno()).st_size


def write(path: str, data: bytes, name: str = "", length: int | None = None):
    """Writes a new file, or one anew, with zeros after its bytes up to a length; `name` is what a fault calls it."""
    with faults_of(name or path, "that it can be written"), open(path, "wb") as file:
        file.write(data)
        if length is not None:
            file.truncate(length)


def may_be_made(path: str, is_forced: bool) -> str:
    """Where a file is that `put` is to make. One that is there already is a fault, unless it may be replaced; a folder, a FIFO and a device never are."""
    if os.path.lexists(path) and not is_forced:
        raise Fault(f"{visible(path)}: it exists, expected a new file, or --force")
    folder = os.path.dirname(os.path.abspath(path))
    if not os.access(folder, os.W_OK) or os.path.exists(path) and not os.path.isfile(path):
        raise Fault(f"{visible(path)}: it cannot be made, expected a file in a folder that can be written")
    return os.path.realpath(path)


def put(path: str, data: bytes, mode: int | None = None, name: str = ""):
    """Writes the file whole, or not at all; with a mode where one is given. `name` is what a fault calls it. The bytes go to a new file with
    a random name first, so no link that is there is followed, and no other file is lost."""
    meanwhile = os.path.join(os.path.dirname(path), f".new-{secrets.token_hex(8)}")
    with held(), faults_of(name or path, "that it can be written"):
        file = open(meanwhile, "xb")
        try:
            with file:
                file.write(data)
                if mode is not None:
                    os.fchmod(file.fileno(), mode)
            os.replace(meanwhile, path)
        except BaseException:
            os.remove(meanwhile)
            raise


def copy(path: str, new: str, length: int, step: int = 1 << 18):
    """Makes a new file of the first bytes of another one, with zeros after them where it has fewer than this. Not all are held at once."""
    with faults_of(path, "a file"), open(opened(path, "a file"), "rb") as given, faults_of(new, "that it can be written"), open(new, "wb") as file:
        left = length
        while left and (part := given.read(min(step, left))):
            left -= file.write(part)
        file.truncate(length)


def filled(data: bytes, step: int = 1 << 16) -> bytes:
    """Some bytes without zeros at their end; these are looked at by so many, so that few may be left."""
    zeros, end = bytes(step), len(data)
    while end >= step and data[end - step:end] == zeros:
        end -= step
    return data[:end]


@contextmanager
def folder(prefix: str, place: str | None = None) -> Iterator[str]:
    """A folder for the steps in it, which is gone after them, also where a signal stops the script. It is in that for temporary files, or in a place."""
    made = ""
    try:
        with held(), faults_of(place or os.environ.get("TMPDIR") or "/tmp", "a folder in which files can be made"):
            made = tempfile.mkdtemp(prefix=prefix, dir=place)
        yield made
    finally:
        if made:
            with held():
                shutil.rmtree(made, ignore_errors=True)


def put_all(place: str, made: dict[str, tuple[bytes, int]]):
    """Puts files into a folder, each with its mode: all of them whole, in this order, or none where not all can be written."""
    with faults_of(place, "a folder in which files can be made"):
        os.makedirs(place, exist_ok=True)
    with folder(".new-", place) as meanwhile:
        for name, (data, mode) in made.items():
            write(os.path.join(meanwhile, name), data, os.path.join(place, name))
            os.chmod(os.path.join(meanwhile, name), mode)
        with held():
            for name in made:
                with faults_of(os.path.join(place, name), "a file that can be replaced"):
                    os.replace(os.path.join(meanwhile, name), os.path.join(place, name))


def text_of(path: str, data: bytes, what: str) -> str:
    try:
        return data.decode()
    except UnicodeDecodeError as why:
        raise Fault(f"{visible(path)}: it is no UTF-8 at byte {why.start}, expected {what}") from None


def toml_reader(path: str) -> ModuleType:
    """The module that reads TOML: Python's own since 3.11, which is tomli, that older ones need beside them."""
    name = "tomllib" if sys.version_info >= (3, 11) else "tomli"
    try:
        return importlib.import_module(name)
    except ModuleNotFoundError:
        version = ".".join(map(str, sys.version_info[:2]))
        raise Fault(f"{visible(path)}: Python {version} reads no TOML, expected the module {name} beside it, or Python 3.11 or later") from None


def toml_of(path: str, data: bytes, what: str = "TOML 1.0") -> dict[str, object]:
    """The table of a file of TOML. What Python cannot read is a fault: numbers of thousands of digits, thousands of arrays in one another."""
    text, reader = text_of(path, data, what), toml_reader(path)
    try:
        return reader.loads(text)
    except (ValueError, RecursionError) as why:
        raise Fault(f"{visible(path)}: it is no TOML that is read here ({reason(why)}), expected {what}") from None


def once_each(pairs: list[tuple[str, object]]) -> dict[str, object]:
    """The members of an object. Of two with one name, readers of JSON take one or the other: neither is taken here."""
    table: dict[str, object] = {}
    for name, value in pairs:
        if name in table:
            raise ValueError(f"the member {shown(name)} is given twice")
        table[name] = value
    return table


def no_number(word: str) -> float:
    raise ValueError(f"{word} is no number of JSON")


def json_of(path: str, data: bytes, what: str = "JSON") -> object:
    """The value of a file of JSON. What has two meanings, or what Python cannot read of it, is a fault."""
    text = text_of(path, data, what)
    try:
        return json.loads(text, object_pairs_hook=once_each, parse_constant=no_number)
    except (ValueError, RecursionError) as why:
        raise Fault(f"{visible(path)}: it is no JSON that is read here ({reason(why)}), expected {what}") from None


def reason(why: Exception) -> str:
    """What a reader says in its own words, or that the values in one another were too many for it."""
    return "values too deep in one another" if isinstance(why, RecursionError) else plain(str(why))
