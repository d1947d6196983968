"""The library librim, called through ctypes. ctypes lets other threads run during a call."""
from __future__ import annotations

import ctypes
import functools
import mmap
import os
import platform
from collections.abc import Iterator, Mapping
from typing import Any, Union

from .errors import NoMemory, error_of

# Bytes in memory. Those of bytes and of what can be written to are not copied.
Bytes = Union[bytes, bytearray, memoryview, mmap.mmap]

SONAME = "librim.so.0"
OK, REFUSED, FAULTY, ROOM = 0, 1, 3, 5
LINES, JSON = 0, 1
ALGORITHMS = ("sha256", "sha512")
# The first room of an answer, in bytes. The system gives no memory for what is not written to, so it costs little.
FIRST_ROOM = 16 << 20
# What a processor has of x86-64-v3 beyond x86-64-v2, as /proc/cpuinfo names it.
V3 = frozenset(("avx", "avx2", "bmi1", "bmi2", "f16c", "fma", "abm", "movbe"))


class NoLibrary(OSError):
    """The library librim is not found, or cannot be loaded."""


# ---- which library


def flags() -> frozenset[str]:
    """What the processor has, as /proc/cpuinfo says; nothing where it does not."""
    try:
        with open("/proc/cpuinfo", encoding="ascii", errors="replace") as file:
            line = next((line for line in file if line.startswith("flags")), "")
    except OSError:
        line = ""
    return frozenset(line.partition(":")[2].split())


def built(folder: str, end: str) -> Iterator[str]:
    """The paths of the libraries of a folder that are named for processors: the best that this one can run comes first."""
    machine = platform.machine()
    levels = [f"{machine}-v3"] * (V3 <= flags()) + [f"{machine}-v2"] if machine == "x86_64" else [machine]
    return filter(os.path.exists, (os.path.join(folder, f"librim-{level}.{end}") for level in levels))


def where() -> str:
    """The library's path: what RIM_LIBRARY names, a file, or a folder that has librim.so.0 or is as dist/; else that of the wheel, beside this file;
    else a name for the system's loader."""
    given = os.environ.get("RIM_LIBRARY")
    if not given:
        return next(built(os.path.dirname(os.path.abspath(__file__)), "so"), SONAME)
    if not os.path.isdir(given):
        return os.path.abspath(given)
    here = os.path.join(given, SONAME)
    return here if os.path.exists(here) else next(built(given, SONAME[len("librim."):]), here)


# ---- its calls


class File(ctypes.Structure):
    """A rim_file."""

    _fields_ = [("path", ctypes.c_void_p), ("path_length", ctypes.c_size_t), ("bytes", ctypes.c_void_p), ("length", ctypes.c_size_t)]


SUBJECT: list[Any] = [ctypes.POINTER(File)]
FILES: list[Any] = [ctypes.POINTER(File), ctypes.c_size_t]
NAME: list[Any] = [ctypes.c_char_p, ctypes.c_size_t]
NUMBER: list[Any] = [ctypes.c_int]
CALLS: dict[str, list[Any]] = {
    "rim_measure": SUBJECT + FILES + NUMBER,
    "rim_audit": SUBJECT + FILES,
    "rim_check": SUBJECT + FILES + NUMBER + NUMBER,
    "rim_manifest_paths": SUBJECT,
    "rim_launch_rim": SUBJECT + FILES + NAME + [ctypes.POINTER(ctypes.c_int)],
    "rim_list": SUBJECT + FILES + NAME,
    "rim_trace": SUBJECT + FILES + NAME,
    "rim_map": SUBJECT + FILES + NAME + NUMBER,
    "rim_dtb": SUBJECT + FILES + NAME,
    "rim_replay": SUBJECT,
    "rim_image": SUBJECT,
    "rim_fdt": SUBJECT,
    "rim_version": [],
}
OUT: list[Any] = [ctypes.c_void_p, ctypes.c_size_t, ctypes.POINTER(ctypes.c_size_t)]


@functools.lru_cache(maxsize=None)
def library() -> ctypes.CDLL:
    """The library, loaded once."""
    path = where()
    try:
        loaded = ctypes.CDLL(path)
        for name, words in CALLS.items():
            call = getattr(loaded, name)
            call.argtypes, call.restype = words + OUT, ctypes.c_int
    except (OSError, AttributeError) as why:
        raise NoLibrary(f"{path} cannot be loaded ({why}), expected librim: its path in RIM_LIBRARY, or {SONAME} where the system looks") from None
    return loaded


# ---- what is lent to a call


def encoded(text: str) -> bytes:
    """A text as UTF-8. What is none, as of a path that the system gave, becomes bytes that are none: the library says so."""
    try:
        return text.encode("utf-8", "surrogateescape")
    except UnicodeEncodeError:
        return text.encode("utf-8", "surrogatepass")


class Lent:
    """Files in memory, as a word of `answer`. What it lends is kept as long as it is."""

    def __init__(self, files: Mapping[str, Bytes]) -> None:
        self.kept: list[object] = []
        array = (File * len(files))(*(File(*self.lend(encoded(path)), *self.lend(data)) for path, data in files.items()))
        self.kept.append(array)
        self._as_parameter_ = ctypes.cast(array, ctypes.POINTER(File))

    def lend(self, data: Bytes) -> tuple[int, int]:
        """Where bytes are, and how many. Where there are none it is no null pointer."""
        if not isinstance(data, bytes):
            view = memoryview(data)
            if view.nbytes and view.c_contiguous and not view.readonly:
                first = ctypes.c_char.from_buffer(view)
                self.kept.append(first)
                return ctypes.addressof(first), view.nbytes
            data = view.tobytes()
        self.kept.append(data)
        return ctypes.cast(ctypes.c_char_p(data), ctypes.c_void_p).value or 0, len(data)


def answer(name: str, *words: object) -> tuple[int, bytes]:
    """The code of a call that answers, and its answer. Other codes are raised. Where the answer has no room, the call is made again with as
    much as it then says."""
    call, length, room, code = getattr(library(), name), ctypes.c_size_t(), FIRST_ROOM, ROOM
    while code == ROOM:
        try:
            out = mmap.mmap(-1, room)
        except (OSError, OverflowError):
            raise NoMemory() from None
        code = call(*words, ctypes.addressof(ctypes.c_char.from_buffer(out)), room, ctypes.byref(length))
        room = length.value
    if code not in (OK, REFUSED, FAULTY):
        raise error_of(code)
    return code, out[:length.value]
