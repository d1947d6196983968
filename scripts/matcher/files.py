"""The files of launches: where each is, how long it is, and the header of a kernel. Some are of a manifest, some are named beside it, and
some are made here: a devicetree for another launch, a file that is cut short."""
from __future__ import annotations

import hashlib
import os
from collections.abc import Callable, Hashable
from dataclasses import dataclass, field
from typing import Any, Protocol

from outside import files
from outside.faults import Fault
from outside.rim import Image, Rim, image_of, tree_of
from outside.trees import Draft, Flat

# The most bytes of a file that `rim` reads, and how many bytes of files that were made are kept on the disk.
MOST, MOST_MADE = 256 << 20, 1 << 30


@dataclass(frozen=True)
class Blob:
    path: str
    length: int
    image: Image | None     # None where it is no arm64 Image
    about: str = ""         # of a file that is none of the manifest: what it is
    is_made: bool = False   # whether it is one that was made here


@dataclass
class Hints:
    """What is known beside the manifest: contents that files may have had, and command lines."""

    contents: dict[str, list[str]] = field(default_factory=dict)
    appends: list[str] = field(default_factory=list)


class Maker(Protocol):
    """What makes a devicetree by changed words: see dumps."""

    def another(self, held: "Files", name: str, about: str, **changes: str) -> str | None: ...


class Files(dict[str, Blob]):
    """Files by the names by which launches have them."""

    def __init__(self, rim: Rim, folder: str = "", hints: Hints | None = None):
        super().__init__()
        self.rim, self.folder, self.hints = rim, folder, hints or Hints()
        self.of_keys: dict[Hashable, str] = {}     # files that were made, by how one is known from another
        self.of_changes: dict[object, str | None] = {}
        self.of_begins: dict[object, Any] = {}     # with what REC 0 begins: see begins
        self.flats: dict[str, Flat | None] = {}
        self.drafts: dict[str, Draft | None] = {}  # trees to change: see trees
        self.made_bytes, self.is_full = 0, False
        self.dumper: Maker | None = None

    def add(self, name: str, path: str, about: str = "", is_made: bool = False) -> str:
        """Takes a file, once; the name by which it is kept."""
        known = next((each for each, blob in self.items() if blob.path == path), None)
        if known is not None:
            return known
        free = name if name not in self else next(f"{name[:50]}-{number}" for number in range(2, 1 << 16) if f"{name[:50]}-{number}" not in self)
        self[free] = read(self.rim, path, about, is_made)
        return free

    def changed(self, name: str, about: str) -> str:
        """How a file is called that is made of another one."""
        blob = self[name]
        return f"{blob.about}{',' * blob.is_made} {about}" if blob.about else f'"{name}" {about}'

    def data(self, name: str) -> bytes:
        return files.read(self[name].path, MOST)

    def made(self, about: str, data: bytes) -> str | None:
        """A file of some bytes that are made here, each once; None where too many were made. A devicetree is mostly zeros, which need not be
        hashed and written."""
        some = files.filled(data)
        digest = hashlib.blake2b(some + len(data).to_bytes(8, "big")).digest()
        return self.once(digest, about, len(data), lambda path: files.write(path, some, length=len(data)))

    def resized(self, name: str, about: str, length: int) -> str | None:
        """A file that is cut, or has zeros after it, each once; None where too many were made. These are large: they are known by their lengths, and
        nothing is hashed."""
        return self.once((name, length), about, length, lambda path: files.copy(self[name].path, path, length))

    def once(self, key: Hashable, about: str, length: int, write: Callable[[str], None]) -> str | None:
        """A file that is made here, unless there is one of this key."""
        if key not in self.of_keys:
            if self.made_bytes + length > MOST_MADE or not self.folder:
                self.is_full = True
                return None
            self.made_bytes += length
            path = os.path.abspath(os.path.join(self.folder, f"made-{len(self.of_keys) + 1}"))
            write(path)
            self.of_keys[key] = self.add(os.path.basename(path), path, about, True)
        return self.of_keys[key]

    def flat(self, name: str) -> Flat | None:
        """A devicetree as `rim fdt` reads it; None where it does not."""
        if name not in self.flats:
            try:
                self.flats[name] = Flat(self.data(name), tree_of(self.rim, self[name].path))
            except Fault:
                self.flats[name] = None
        return self.flats[name]


def read(rim: Rim, path: str, about: str = "", is_made: bool = False) -> Blob:
    # a run of `rim` for each file that is no Image takes longer than a look at its magic
    is_image = files.head(path, 64)[56:60] == b"ARMd"
    return Blob(path, files.size_of(path), image_of(rim, path) if is_image else None, about, is_made)
