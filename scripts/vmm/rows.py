"""Rows that a realm may change, which hypervisors share. How likely an alternative is, is from memory of the changes that were proposed to
Linux, QEMU and kvmtool: nothing that can be installed settles it, and one measurement of a machine does."""
from dataclasses import replace

from outside.parameters import RMM_1_0, Parameter

from .layout import MEMORY, SOURCE, Row, Way

KVM = "changes that were proposed to Linux"

HOST_PAGES = Row(
    "host_pages", "each blob is measured in whole pages of the host", None, KVM, MEMORY,
    (Way("4k", "pages of 4 KiB", 80), Way("64k", "pages of 64 KiB: zeros before and after a blob are measured up to whole ones", 15),
     Way("16k", "the same with pages of 16 KiB", 5)), "one whose kernel and initrd have no whole number of 64 KiB")
BLOCK_LEVEL = Row(
    "block_level", "the level of the largest blocks by which RAM is made", None, KVM, MEMORY,
    (Way("0", "as large as fits, down to the level at which the tables begin: Linux's find_map_level", 60),
     Way("below", "one level below that at which the tables begin: 1 GiB from a width of 44 on, 2 MiB from 35 on, else 4 KiB", 20),
     Way("2", "2 MiB at most", 12), Way("3", "pages of 4 KiB", 5),
     Way("1", "1 GiB at most: as 0, but for a width of 44 or more and RAM of 512 GiB", 3)),
    "one with more than 1 GiB of RAM, and no whole number of GiB; of 0 and 1 one with 512 GiB; of below and a number one of another width")
REC_RULE = Row(
    "rec_rule", "whether the RECs of processors that begin off are measured", None, "the standard (DEN0137), RMI_REC_CREATE", MEMORY,
    (Way("runnable", "they are not, as the standard says", 90), Way("all", "they are measured like any other", 10)), "one with two processors")
PSCI = Row(
    "psci", "the method by which the devicetree has PSCI called", None, "arch/arm64/kernel/rsi.c of Linux 7.3, which looks for a monitor by smc alone",
    "source: that Linux needs smc; that a hypervisor writes it: memory",
    (Way("smc", "smc: where a dump has hvc, these bytes are replaced in place, and a dump that has smc is left alone", 98, SOURCE),
     Way("dumped", "as a dump has it", 2)), "one whose devicetree is the dump of a plain guest")
COUNTED = "one of two, where the file about the host gives the number"


def counted(number: Parameter) -> Row:
    """The row of a number that is read off the machine."""
    return Row(number.key, f"{number.what}, of {number.key} in the file about the host: {number.read_from}", None, KVM, MEMORY,
               tuple(Way(*way) for way in number.ways), COUNTED)


# The rows of the numbers of the host's file that are measured, and what each alternative adds to them.
NUMBERS = {number.key: counted(number) for number in RMM_1_0}
ADDS = {"as_read": 0, "one_more": 1, "one_less": -1}
SHARED = [HOST_PAGES, BLOCK_LEVEL, REC_RULE, PSCI, *NUMBERS.values()]


def hash_row(source: str, *ways: tuple[str, int]) -> Row:
    return Row("hash", "the hash algorithm, where no word says it", None, source, MEMORY,
               tuple(Way(name, f"SHA-{name[3:]}", likely) for name, likely in ways), "each: the value's length says it")


def ram_ways(first: int, bss: str, *others: Way) -> tuple[Way, ...]:
    """Whether all of RAM is made first; `others` are further alternatives, more likely than that it is made for each blob."""
    each = f"each blob's range is made RAM right before its pages, {bss}; the host makes no other RAM"
    return (Way("first", "all of it is made RAM, and then pages are measured", first), *others,
            Way("each", each, 100 - first - sum(way.likely for way in others)))


KIND = Way("kind", "kernel, initrd, devicetree, and what else there is", 0)
DTB_FIRST = Way("dtb_first", "the devicetree, and then by rising address", 0)


def order_row(address: str, likely: int, source: str, other: Way = KIND) -> Row:
    """In which order blobs are measured."""
    ways = (Way("address", "by rising address", likely), replace(other, likely=100 - likely))
    return Row("order", f"RAM, then what is placed by rising address{address}, then the RECs", None, source, MEMORY, ways,
               "one with a stub, with firmware, or whose devicetree comes first", "ram, rec and the blobs, parted by commas")


def width_ways(likely: int) -> tuple[Way, ...]:
    """Whether a realm has one bit more than a plain guest."""
    ways = (Way("one_more", "one bit more than a plain guest has, since the upper half is shared", likely), Way("guest", "as a plain guest's", 100 - likely))
    return tuple(way for way in ways if way.likely)


WIDTH_APART = "each: the width is measured"
WIDTH_MORE = "a number from 32 to 48, the width itself"


def kernel_pages_row(likely: int, source: str) -> Row:
    return Row("kernel_pages", "which pages of the kernel are measured", None, source, MEMORY,
               (Way("file", "those of its file", likely), Way("image_size", "those that image_size says: the BSS as zeros", 100 - likely)),
               "one whose kernel has a BSS of more than a page")


def dtb_pages_row(likely: int, whole: str, source: str) -> Row:
    return Row("dtb_pages", "which pages of the devicetree are measured", None, source, MEMORY,
               (Way("whole", whole, likely), Way("used", "those that its blocks use", 100 - likely)),
               "one whose devicetree ends with a page of zeros")
