"""kvmtool (`lkvm run`) for arm64: the table of its layout, and the values of its words. All is remembered, and nothing was tried."""
from __future__ import annotations

import re
from collections.abc import Callable

from outside.faults import WrongWords
from outside.texts import shown

from .guest import KIB, MIB, PAGE, Blob, Guest, Memory, Processors, Word, up
from .hypervisor import Approximate, Facts
from .kvmtool_words import GRAMMAR, refuse_before, sort, sort_rest  # noqa: F401, what a hypervisor has
from .layout import MEMORY, Places, Row, Way
from .rows import DTB_FIRST, SHARED, WIDTH_APART, WIDTH_MORE, dtb_pages_row, hash_row, kernel_pages_row, order_row, ram_ways, width_ways
from .sorting import Sorted
from .words import Option, memories, processors, required, size

NAME = "kvmtool"
TITLE = "kvmtool (lkvm run)"
USAGE = "-- lkvm run WORDS.."
PROGRAM = r"lkvm(-static)?|kvmtool|vm run"
BASE = 0x8000_0000
DTB_ALIGN = 2 * MIB
SOURCE = "kvmtool's sources"
FACTS = Facts(DTB_ALIGN, adds_boot_words=True, bss_apart=True)

OPTIONS = [
    Option(("-c", "--cpus", "--smp", "--each-smp"), "smp", "LIST", "numbers of processors. Required: without it lkvm takes the host's", True),
    Option(("-m", "--mem", "--memory", "--each-memory"), "memory", "LIST", "sizes of RAM, a bare number is MiB; or SIZE@ADDRESS, with the "
           "address where RAM begins. Required: lkvm's default depends on the host", True),
    Option(("-k", "--kernel", "--each-kernel"), "kernel", "[NAME=]FILE", "an arm64 Image. Required, but with --firmware", True),
    Option(("-f", "--firmware"), "firmware", "FILE", "firmware, in the place of a kernel and an initrd"),
    Option(("--firmware-address",), "firmware_address", "ADDRESS", "where the firmware is loaded, in hexadecimal digits after 0x; else the start "
           "of RAM"),
    Option(("-i", "--initrd", "--each-initrd"), "initrd", "[NAME=]FILE", "an initrd", True),
    Option(("-p", "--params", "--append", "--each-append"), "append", "TEXT", "a command line of the kernel", True),
    Option(("--lkvm",), "program", "PROGRAM", "lkvm itself, which makes the devicetrees: each by the final words with --dump-dtb, twice. "
           "What may open a file of a guest's is not given to it, and then the devicetree has to be handed in"),
]


def base(guest: Guest) -> int:
    return BASE if guest.memory.base is None else guest.memory.base


def ram(guest: Guest, places: Places) -> list[tuple[int, int]]:
    return [(base(guest), base(guest) + guest.memory.size)]


def dtb(guest: Guest, places: Places) -> int:
    limit = base(guest) + min(guest.memory.size, 256 * MIB)
    return up(limit - 2 * MIB - 64 * KIB, 2 * MIB)


def s2sz(guest: Guest, places: Places) -> int:
    return min(max(32, (places.ram[-1][1] - 1).bit_length()) + 1, guest.most_bits)


TABLE = [
    Row("ram", "from 0x80000000 on, or from the address after `@`, as much as --mem says; one region", ram, SOURCE, MEMORY,
        ram_ways(55, "and the kernel's BSS after its pages", Way("with_bss", "as each, but the kernel's BSS is made RAM with its range", 30)),
        "each: what is made RAM is measured"),
    Row("kernel", "the base is the start of RAM", lambda guest, places: base(guest), SOURCE, MEMORY),
    Row("entry", "the base and text_offset; the base and 0x80000 where image_size is 0",
        lambda guest, places: places.kernel + guest.kernel.image.load_offset, SOURCE, MEMORY),
    Row("kernel_end", "where the file ends: image_size is not kept clear",
        lambda guest, places: places.entry + guest.kernel.length, SOURCE, MEMORY),
    Row("dtb", "64 KiB and 2 MiB below the end of RAM, or of its first 256 MiB, rounded up to 2 MiB", dtb, SOURCE, MEMORY),
    Row("initrd", "just below the devicetree: its address less the length rounded down to 4, less 4",
        lambda guest, places: places.dtb - guest.initrd_length // 4 * 4 - 4, SOURCE, MEMORY),
    Row("dtb length", "a buffer of 64 KiB, in which the tree is packed", None, SOURCE, MEMORY),
    Row("pc", "the kernel's address; there is no stub", lambda guest, places: places.entry, SOURCE, MEMORY),
    Row("x", "x0 is the devicetree's address", lambda guest, places: [places.dtb], SOURCE, MEMORY),
    Row("recs", "the first processor is runnable; the others begin off and are turned on by PSCI", None, SOURCE, MEMORY),
    order_row("", 95, SOURCE, DTB_FIRST),
    Row("s2sz", "the bits of RAM's last address, at least 32, and one more for the shared half of a realm",
        s2sz, "Linux, arm-cca.rst has the example of 33 bits", MEMORY, width_ways(100), WIDTH_APART, WIDTH_MORE),
    kernel_pages_row(80, SOURCE),
    dtb_pages_row(85, "all of its 64 KiB, also where it is zero", SOURCE),
    hash_row(SOURCE, ("sha256", 80), ("sha512", 20)),
    *SHARED,
]
def row_of(name: str) -> Row:
    return next(row for row in TABLE if row.name == name)


def firmware(guest: Guest, places: Places) -> int:
    return int(guest.firmware_address, 16) if guest.firmware_address else base(guest)


FIRMWARE = [
    row_of("ram"),
    Row("firmware", "the start of RAM, or the address of --firmware-address", firmware, SOURCE, MEMORY),
    Row("dtb", "the firmware's end, rounded up to 2 MiB", lambda guest, places: up(places.firmware + guest.loaded.length, DTB_ALIGN), SOURCE, MEMORY),
    row_of("dtb length"),
    Row("pc", "the firmware's address", lambda guest, places: places.firmware, SOURCE, MEMORY),
    *(row_of(name) for name in ("x", "recs", "order", "s2sz", "dtb_pages", "hash")),
    *SHARED,
]


def read_machine(said: dict) -> list[Word]:
    return [Word("", "")]


read_cpu = read_machine


def read_smp(said: dict) -> list[Processors]:
    texts = required(said, "smp", "--cpus", "numbers of processors: without it lkvm takes the host's")
    return processors("--cpus", texts, "cpus", lambda key: False)


def check_address(said: dict):
    """The address of firmware has to be one, and of firmware."""
    text = said.get("firmware_address")
    if text is not None and not re.fullmatch(r"0x[0-9a-fA-F]{1,12}", text):
        raise WrongWords(f"--firmware-address: {shown(text)}, expected 0xADDRESS")
    if text is not None and "firmware" not in said:
        raise WrongWords(f"--firmware-address: {shown(text)}, and no firmware is given, expected --firmware too")


def read_memory(said: dict) -> list[Memory]:
    def read(text):
        length, at, start = text.partition("@")
        count = size("--mem", length, MIB)
        if count % PAGE:
            raise WrongWords(f"--mem: {shown(text)}, expected whole pages of 4096 bytes")
        if at and not re.fullmatch(r"0x[0-9a-fA-F]{1,12}", start):
            raise WrongWords(f"--mem: {shown(text)}, expected SIZE@0xADDRESS")
        return count, int(start, 16) if at else None

    check_address(said)
    return memories("--mem", required(said, "memory", "--mem", "sizes of RAM: lkvm's default depends on the host"), read, lambda key: False)


def check_realm(machine: str, others: Sorted):
    """No word of the machine names the realm."""


def features(cpu: str) -> dict[str, tuple[int | None, ...]]:
    return {}


def processor(guest: Guest) -> str | None:
    return None


def has_gic_3(guest: Guest) -> bool:
    return False


def dump_words(guest: Guest, path: str) -> list[str]:
    return ["run", *final_words(guest)[1:], "--dump-dtb", path]


def needs(guest: Guest, kept: list[str]) -> list[str]:
    return ["KVM"]


def approximated(machine: str, cpu: str, kept: list[str], model: str) -> Approximate:
    raise NotImplementedError("it has no option for that")


def final_words(guest: Guest) -> list[str]:
    return ["run", "--cpus", guest.smp.words, "--mem", guest.memory.words]


def load_words(guest: Guest, path: Callable[[Blob], str]) -> list[str]:
    words = ["--firmware" if guest.firmware else "--kernel", path(guest.loaded)]
    words += ["--firmware-address", guest.firmware_address] if guest.firmware_address else []
    if guest.initrd:
        words += ["--initrd", path(guest.initrd)]
    return words + (["--params", guest.append.text] if guest.append.text else [])
