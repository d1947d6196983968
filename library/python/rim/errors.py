"""Why a call has no answer: a class for each code of rim.h.

The classes are the table. `code` is the number of rim.h, and `word` is made from the class's name as rim.h names the code: `UnknownKey` is
RIM_UNKNOWN_KEY, and its word is `unknown-key`, as the program `rim` prints it. Only `no-file` is another word there, `file-unreadable`, since the
program opens files and the library does not.

Groups, so that one `except` takes many:

    RimError
        CallError           of the call itself
        InputError          of what was given beside the manifest's own text
        ManifestError       why a manifest is refused
        LaunchRefused       why a launch is refused
            ImageError          also why a file is no arm64 Image
            DevicetreeError     also why a file is no devicetree
            LayoutError         where its items are
            PlanError           what its pages become
            MonitorError        its granules and RECs
"""
from __future__ import annotations

import re as _re

# The classes by their codes and by their words.
BY_CODE: dict[int, type[RimError]] = {}
BY_WORD: dict[str, type[RimError]] = {}


class RimError(Exception):
    """A call has no answer. `lines` is what is known of why, one line each; it may be empty."""

    code: int = 0
    word: str = ""

    def __init__(self, *lines: str) -> None:
        super().__init__(*lines)
        self.lines = lines

    def __init_subclass__(cls) -> None:
        if "code" in vars(cls):
            cls.word = _re.sub(r"(?<=[a-z])(?=[A-Z])", "-", cls.__name__).lower()
            BY_CODE[cls.code] = BY_WORD[cls.word] = cls

    def __str__(self) -> str:
        return self.lines[0] if self.lines else f"{self.word}: {(self.__doc__ or '').splitlines()[0]}"


class CallError(RimError):
    """A fault of the call itself, whatever was measured."""


class InputError(RimError):
    """A fault of what was given beside the manifest's own text."""


class ManifestError(RimError):
    """The manifest is refused. `lines` is what `rim check` prints of it."""


class LaunchRefused(RimError):
    """The launch is refused."""


class ImageError(LaunchRefused):
    """A file is no arm64 Image: the kernel of a launch, or what rim.image was given."""


class DevicetreeError(LaunchRefused):
    """A file is no devicetree that can be used: that of a launch, or what rim.fdt was given."""


class LayoutError(LaunchRefused):
    """The items of the launch cannot be where they are to be."""


class PlanError(LaunchRefused):
    """The pages of the launch cannot become what they are to be."""


class MonitorError(LaunchRefused):
    """The granules of the pool do not suffice, or the monitor does not take the RECs."""


# ---- of the call


class Null(CallError):
    """A pointer is null where there must be one. No call of this package ends with it."""

    code = 2


class NoMemory(CallError):
    """The allocator refused a growth."""

    code = 4


class Room(CallError):
    """The answer has more bytes than its room. The calls of this package then make more room."""

    code = 5


class Never(CallError):
    """No call ends with this."""

    code = 12


# ---- of what was given


class NoText(InputError):
    """The path of the manifest, or a launch's name, is no UTF-8."""

    code = 6


class NoFile(InputError):
    """The manifest names a file that is not among those that were given."""

    code = 7


class FileTooLarge(InputError):
    """A file has more than 256 MiB."""

    code = 8


class NoSuchLaunch(InputError, KeyError):
    """No launch of the manifest has the name."""

    code = 9


class NoDevicetree(InputError):
    """The launch has no devicetree."""

    code = 10


class TooManyPages(InputError):
    """The launches have more than 1,048,576 different measured pages."""

    code = 11


# ---- of the manifest


class Syntax(ManifestError):
    """The manifest is no UTF-8, or no TOML document."""

    code = 20


class Version(ManifestError):
    """`rim_manifest` is absent, or is not the whole number 1 or 2."""

    code = 21


class WrongKind(ManifestError):
    """A known key holds another kind of value."""

    code = 22


class UnknownKey(ManifestError):
    """A table has a key that is not listed for it."""

    code = 23


class MissingKey(ManifestError):
    """A required key is absent."""

    code = 24


class Limit(ManifestError):
    """An array has more members than it may have."""

    code = 25


class Range(ManifestError):
    """A value is outside its range or form."""

    code = 26


class TwoNames(ManifestError):
    """Two files, two launches or two items share a name, or two items a kind that is there once."""

    code = 27


class NoSuchFile(ManifestError):
    """The `file` of an item is no file's name."""

    code = 28


class BadStep(ManifestError):
    """`steps` has a text that is no step, or leaves something out, or names it twice."""

    code = 29


# ---- of a kernel


class KernelShort(ImageError):
    """The Image has fewer than 64 bytes."""

    code = 40


class KernelBadMagic(ImageError):
    """The Image has no magic."""

    code = 41


# ---- of a devicetree


class DtbShort(DevicetreeError):
    """The devicetree has fewer than 40 bytes."""

    code = 50


class DtbBadMagic(DevicetreeError):
    """The first word of the devicetree is not 0xd00dfeed."""

    code = 51


class DtbBadVersion(DevicetreeError):
    """The version of the devicetree is not 17, or the last compatible one is above 17."""

    code = 52


class DtbBadBlock(DevicetreeError):
    """A block of the devicetree is not inside it, or is not aligned."""

    code = 53


class DtbBadReserve(DevicetreeError):
    """No pair of zeros ends the reservations of the devicetree."""

    code = 54


class DtbBadToken(DevicetreeError):
    """A token of the devicetree is not whole, has another number, or is not at its place."""

    code = 55


class DtbBadName(DevicetreeError):
    """A node or a property of the devicetree has a name that is none."""

    code = 56


class DtbBadString(DevicetreeError):
    """The name of a property is not inside the strings of the devicetree."""

    code = 57


class DtbLateProperty(DevicetreeError):
    """A property comes after a child of its node."""

    code = 58


class DtbTooDeep(DevicetreeError):
    """A node of the devicetree is deeper than 64."""

    code = 59


class DtbBadCells(DevicetreeError):
    """The devicetree is to be edited, and its numbers of cells do not allow it."""

    code = 60


class DtbTooLarge(DevicetreeError):
    """The devicetree, or what it is edited to, has more than 2,097,152 bytes."""

    code = 61


# ---- of the layout


class LayoutUnaligned(LayoutError):
    """A devicetree is not at a multiple of 8."""

    code = 70


class KernelBase(LayoutError):
    """A kernel's base is not a multiple of 2 MiB."""

    code = 71


class OutsideRam(LayoutError):
    """A page of an item is not wholly in one region of RAM."""

    code = 72


class Overlap(LayoutError):
    """Two items share a page."""

    code = 73


class InitrdWindow(LayoutError):
    """Kernel and initrd need more than 32 GiB of whole GiB."""

    code = 74


class Size(LayoutError):
    """A stated size is below the number of bytes, or the launch has more than 1,048,576 pages."""

    code = 75


# ---- of what pages become


class PlanOutsideProtected(PlanError):
    """A region or an item ends above the protected half of the IPA space."""

    code = 80


class PlanUnaligned(PlanError):
    """A region is not of whole pages."""

    code = 81


class PlanRipasTwice(PlanError):
    """A page becomes RAM twice."""

    code = 82


class PlanNotRam(PlanError):
    """A page of an item is not RAM yet."""

    code = 83


class PlanDataTwice(PlanError):
    """A page of an item has contents already."""

    code = 84


class PlanTooManyEntries(PlanError):
    """The launch has more than 4,194,304 blocks of RAM."""

    code = 85


# ---- of granules and RECs


class PoolEnd(MonitorError):
    """The pool has too few granules."""

    code = 90


class TooManyRecs(MonitorError):
    """The launch has more than 512 RECs."""

    code = 91


class RecOrder(MonitorError):
    """A step's REC is not the next one."""

    code = 92


class RecNotRunnable(MonitorError):
    """A step's REC is not runnable, in a launch without a rule for such RECs."""

    code = 93


def error_of(code: int, *lines: str) -> RimError:
    """The error of a code of rim.h, with what is known of it. A code that this package does not know is a RimError by itself."""
    if code in BY_CODE:
        return BY_CODE[code](*lines)
    return RimError(f"the library ends with the code {code}, which this package does not know")
