"""What a launch is made of, as the words say it."""
from __future__ import annotations

from collections.abc import Mapping
from dataclasses import dataclass, field

from outside.rim import Image

KIB, MIB, GIB, TIB = 1 << 10, 1 << 20, 1 << 30, 1 << 40
PAGE = 4096


def up(number: int, multiple: int) -> int:
    """A number rounded up to a multiple."""
    return -(-number // multiple) * multiple


@dataclass(frozen=True)
class Blob:
    """A file of the folder that is written: its name there, the path that it was copied from if there is one, its origin in words, what a
    launch's name calls it, and the digests of the file and of what was read at the path."""

    file: str
    path: str
    origin: str
    length: int
    label: str
    digest: str
    source: str


@dataclass(frozen=True)
class Kernel(Blob):
    image: Image
    how: str    # how its bytes were made of those of the path, or nothing


@dataclass(frozen=True)
class Word:
    """A machine, a processor model or a command line of the kernel: its text, and what a launch's name calls it."""

    text: str
    label: str


@dataclass(frozen=True)
class Memory:
    """A size of RAM in bytes, as the hypervisor takes it, and where RAM begins if the words say so."""

    size: int
    words: str
    label: str
    base: int | None = None


@dataclass(frozen=True)
class Processors:
    count: int
    words: str
    label: str


@dataclass(frozen=True)
class Guest:
    """A launch, before anything has a place. It has a kernel, or firmware, which loads one. `ways`: by the names of rows, the alternative of
    each that a realm may change; `most_bits`: the greatest width of an IPA that the host allows a realm."""

    machine: Word
    cpu: Word
    memory: Memory
    smp: Processors
    loaded: Blob
    initrd: Blob | None
    append: Word
    algo: str
    ways: Mapping[str, str] = field(default_factory=dict)
    most_bits: int = 48
    handed: str = ""        # the path of a kernel that firmware is given
    firmware_address: str = ""      # where it is loaded, if the words say so

    @property
    def firmware(self) -> Blob | None:
        return None if isinstance(self.loaded, Kernel) else self.loaded

    @property
    def kernel(self) -> Kernel:
        """The kernel of a launch that has one, and no firmware."""
        assert isinstance(self.loaded, Kernel)
        return self.loaded

    @property
    def initrd_length(self) -> int:
        return self.initrd.length if self.initrd else 0
