"""The numbers of a realm that are measured: a row each, for the monitor of one version. What reads, searches or writes them goes by the rows.
How likely an alternative is, and what is usual, is from memory: nothing that can be installed settles it."""
from __future__ import annotations

from collections.abc import Iterable
from dataclasses import dataclass

# The greatest of a number, which has one byte in the measured page.
MOST = 255


@dataclass(frozen=True)
class Parameter:
    """A number of a realm, and what is read off a machine for it."""

    key: str                                # its name in manifests, traces and the file about a host
    offset: int                             # of its byte in the measured page: DEN0137, RmiRealmParams
    flag: str | None                        # the key of the flag without which it is 0
    what: str                               # what it counts, in words
    read_from: str                          # the field of a register that the file about a host has
    ways: tuple[tuple[str, str, int], ...]  # what a realm may measure of what was read: name, meaning, how likely in percent
    below: int                              # a search tries all that are below this
    usual: tuple[int, ...]                  # what is likely to be read, the likeliest first
    by_hand: int                            # what a manifest that was written by hand is likely to have


FIELD_OR_COUNT = (("as_read", "the field, which is one less than there are", 88), ("one_more", "as many as there are", 12))
# Arm DEN0137 1.0, RmiRealmParams, in the order in which manifests have them.
RMM_1_0 = (
    Parameter("num_bps", 0x18, None, "breakpoints", "the field of ID_AA64DFR0_EL1", FIELD_OR_COUNT, 16, (5, 15, 6, 3, 7, 1), 5),
    Parameter("num_wps", 0x20, None, "watchpoints", "the field of ID_AA64DFR0_EL1", FIELD_OR_COUNT, 16, (3, 15, 1, 7, 5), 3),
    Parameter("sve_vl", 0x10, "sve", "the vector length", "units of 128 bits, less one",
              (("as_read", "the same", 85), ("one_more", "units of 128 bits", 15)), 16, (0, 1, 3, 7, 15), 3),
    Parameter("pmu_num_ctrs", 0x28, "pmu", "event counters", "N of PMCR_EL0",
              (("as_read", "as many as N says", 80), ("one_more", "the cycle counter too", 10), ("one_less", "one less", 10)), 32,
              (6, 8, 4, 5, 20, 31), 6),
)
KEYS = tuple(each.key for each in RMM_1_0)
FLAGS = tuple(each.flag for each in RMM_1_0 if each.flag)
# A number of a flag only where the flag is true.
FLAGGED = tuple((each.flag, each.key) for each in RMM_1_0 if each.flag)
# Flags and numbers in the order in which manifests have them.
ALL = tuple(key for each in RMM_1_0 for key in (each.flag, each.key) if key)
# What each launch has to say: of a number with a flag, whether the flag is set.
ASKED = tuple(each.flag or each.key for each in RMM_1_0)
# The numbers in the order in which traces and listings have them: that of the measured page.
TRACED = tuple(each.key for each in sorted(RMM_1_0, key=lambda each: each.offset))


def in_words(keys: Iterable[str]) -> str:
    """Some keys in a sentence."""
    *some, last = keys
    return f"{', '.join(some)} and {last}" if some else last
