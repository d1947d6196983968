"""What calls answer: texts as the program `rim` prints them, and what they say as values."""
from __future__ import annotations

from collections.abc import Iterator, Mapping
from dataclasses import dataclass
from typing import Optional

from .errors import BY_WORD, NoSuchLaunch, RimError


@dataclass(frozen=True)
class Rim:
    """A Realm Initial Measurement: `algorithm` is sha256 or sha512, `value` has its 32 or 64 bytes."""

    algorithm: str
    value: bytes

    def __str__(self) -> str:
        return f"{self.algorithm} {self.value.hex()}"


@dataclass(frozen=True)
class Launch:
    """A launch of a report: `algorithm` and `value` where it is accepted, else `refusal`, the word of why; the others are None."""

    name: str
    algorithm: Optional[str] = None
    value: Optional[bytes] = None
    refusal: Optional[str] = None

    def rim(self) -> Rim:
        """The launch's measurement. A launch that is refused raises the LaunchRefused of its word."""
        if self.algorithm is None or self.value is None:
            raise refused(self.refusal or "")
        return Rim(self.algorithm, self.value)


@dataclass(frozen=True)
class Launches(Mapping[str, Launch]):
    """Launches by their names, in the manifest's order: `launches` has them all, and `text` is what was parsed."""

    text: str
    launches: tuple[Launch, ...]

    @property
    def is_refused(self) -> bool:
        """Whether some launch is refused."""
        return any(each.refusal is not None for each in self.launches)

    def __getitem__(self, name: str) -> Launch:
        found = next((each for each in self.launches if each.name == name), None)
        if found is None:
            raise NoSuchLaunch(f"no-such-launch: the report has no launch {ascii(name)}")
        return found

    def __iter__(self) -> Iterator[str]:
        return (each.name for each in self.launches)

    def __len__(self) -> int:
        return len(self.launches)


@dataclass(frozen=True)
class Report(Launches):
    """The report of all launches of a manifest. `pages` counts the different pages of 4096 bytes that are hashed."""

    pages: int


@dataclass(frozen=True)
class Audit(Launches):
    """What the monitor holds after each launch's own commands."""


@dataclass(frozen=True)
class Check:
    """What is wrong with a manifest, its files and its launches, a line each, and what is rarely meant. `status` is that of `rim check`: 0 where
    nothing is wrong, 1 where a launch is refused, 3 where a report cannot be made."""

    status: int
    faults: tuple[str, ...]
    warnings: tuple[str, ...]

    @property
    def text(self) -> str:
        """All lines, as `rim check` prints them."""
        return "".join(line + "\n" for line in self.faults + self.warnings)

    def __bool__(self) -> bool:
        return self.status == 0


@dataclass(frozen=True)
class Map:
    """Where everything of a launch lies and what is measured. `text` ends with the refusal's line where the launch `is_refused`."""

    text: str
    is_refused: bool


@dataclass(frozen=True)
class Replay:
    """Whether a listing is what it says: true or false as a value, and `text`, which is `yes`, or `no` and why."""

    text: str
    is_right: bool

    def __bool__(self) -> bool:
        return self.is_right


@dataclass(frozen=True)
class Image:
    """The header of an arm64 Image. All but `flags` are numbers of bytes; `extent` is how many the kernel takes from its base on."""

    text_offset: int
    image_size: int
    flags: int
    load_offset: int
    extent: int


def refused(word: str) -> RimError:
    """The error of a launch that is refused with this word."""
    return BY_WORD[word]() if word in BY_WORD else RimError(f"the launch is refused as {ascii(word)}, which this package does not know")


def launch_of(line: str) -> Launch:
    """The launch of a line of a report."""
    name, word, rest = line.split(" ")
    return Launch(name, refusal=rest) if word == "refused" else Launch(name, word, bytes.fromhex(rest))


def report_of(text: str) -> Report:
    """A report, from the lines of `rim measure`."""
    _, *lines, last = text.splitlines()
    return Report(text, tuple(launch_of(line) for line in lines), int(last.split(" ")[1]))


def audit_of(text: str) -> Audit:
    """An audit, from the lines of `rim audit`."""
    return Audit(text, tuple(launch_of(line) for line in text.splitlines()[1:]))


def image_of(text: str) -> Image:
    """A header, from the lines of `rim image`."""
    return Image(**{name: int(digits, 16) for name, digits in (line.split(" ") for line in text.splitlines())})
