"""cloud-hypervisor for arm64: the table of its layout, and the values of its words. Nothing of it was tried."""
from __future__ import annotations

from collections.abc import Callable

from outside.faults import WrongWords
from outside.texts import shown

from .cloud_hypervisor_words import GRAMMAR, refuse_before, sort, sort_rest  # noqa: F401, what a hypervisor has
from .guest import MIB, PAGE, Blob, Guest, Memory, Processors, Word, up
from .hypervisor import Approximate, Facts
from .layout import MEMORY, Places, Row, Way
from .rows import SHARED, WIDTH_APART, WIDTH_MORE, dtb_pages_row, hash_row, kernel_pages_row, order_row, ram_ways
from .sorting import Sorted
from .words import Option, memories, number, parted, processors, size

NAME = "cloud-hypervisor"
TITLE = "cloud-hypervisor"
USAGE = "--dtb FILE.. -- cloud-hypervisor WORDS.."
PROGRAM = r"cloud-hypervisor(-static)?(-aarch64)?(-v?[0-9.]+)?"
BASE = 0x4000_0000
LOW_END, HIGH = 0xFC00_0000, 0x1_0000_0000
SOURCE = "cloud-hypervisor's sources"
NOTHING = "nothing that was proposed is known; as QEMU and kvmtool do"
EDK = "cloud-hypervisor's sources; EDK II 2025.02, ArmVirtPkg, agrees"
FACTS = Facts(2 * MIB, dtb_is_past_initrd=False, host_needs={"s2sz_max": "since cloud-hypervisor takes the host's width"})

OPTIONS = [
    Option(("--cpus", "--smp", "--each-smp"), "smp", "LIST", "numbers of processors, as boot=N or alone; 1 where it is not given", True),
    Option(("--memory", "--each-memory"), "memory", "LIST", "sizes of RAM, as size=S or alone, a bare number is bytes; 512M where it is not "
           "given", True),
    Option(("--kernel", "--each-kernel"), "kernel", "[NAME=]FILE", "an arm64 Image. Required", True),
    Option(("--initramfs", "--initrd", "--each-initrd"), "initrd", "[NAME=]FILE", "an initrd", True),
    Option(("--cmdline", "--append", "--each-append"), "append", "TEXT", "a command line of the kernel", True),
]


def base(guest: Guest) -> int:
    return BASE


def ram(guest: Guest, places: Places) -> list[tuple[int, int]]:
    low = min(guest.memory.size, LOW_END - BASE)
    rest = guest.memory.size - low
    return [(BASE, BASE + low)] + ([(HIGH, HIGH + rest)] if rest else [])


TABLE = [
    Row("ram", "from 0x40000000 to 0xfc000000, and what is more from 0x100000000 on: two regions above 3,008 MiB", ram, EDK, MEMORY,
        ram_ways(75, "the kernel's with its BSS"), "each: what is made RAM is measured"),
    Row("dtb", "the start of RAM", lambda guest, places: BASE, EDK, MEMORY),
    Row("dtb length", "packed; 2 MiB are kept for it", None, SOURCE, MEMORY),
    Row("kernel", "the base is 4 MiB into RAM", lambda guest, places: BASE + 4 * MIB, SOURCE, MEMORY),
    Row("entry", "the base and text_offset; the base and 0x80000 where image_size is 0",
        lambda guest, places: places.kernel + guest.kernel.image.load_offset, SOURCE, MEMORY),
    Row("kernel_end", "the kernel's address and image_size, or the file's length where that is 0",
        lambda guest, places: places.entry + guest.kernel.image.taken, SOURCE, MEMORY),
    Row("initrd", "the end of the last region of RAM, less its length rounded up to 4096",
        lambda guest, places: places.ram[-1][1] - up(guest.initrd_length, PAGE), SOURCE, MEMORY),
    Row("pc", "the kernel's address; there is no stub", lambda guest, places: places.entry, SOURCE, MEMORY),
    Row("x", "x0 is the devicetree's address", lambda guest, places: [places.dtb], SOURCE, MEMORY),
    Row("recs", "the first processor is runnable; the others begin off and are turned on by PSCI", None, SOURCE, MEMORY),
    order_row(" (the devicetree first)", 80, NOTHING),
    Row("s2sz", "the host's: s2sz_max of the file about it", lambda guest, places: guest.most_bits, SOURCE, MEMORY,
        (Way("host", "as wide as the host allows", 100),), WIDTH_APART, WIDTH_MORE),
    kernel_pages_row(75, NOTHING),
    dtb_pages_row(75, "all of the file", NOTHING),
    hash_row(NOTHING, ("sha256", 60), ("sha512", 40)),
    *SHARED,
]
FIRMWARE: list[Row] = []


def read_machine(said: dict) -> list[Word]:
    return [Word("", "")]


read_cpu = read_machine


def read_smp(said: dict) -> list[Processors]:
    """The processors that a realm is made with. Those of max= may come later to other guests, and a realm gets none later."""
    found = processors("--cpus", said.get("smp", ["1"]), "boot", lambda key: key in ("max", "topology", "affinity", "max_phys_bits", "nested"))
    for each in found:
        for word in parted(each.words)[1:]:
            if word.startswith("max="):
                number("--cpus: max", word.removeprefix("max="), each.count, 512)
    return found


def read_memory(said: dict) -> list[Memory]:
    def read(text):
        count = size("--memory", text, 1)
        if count % PAGE:
            raise WrongWords(f"--memory: {shown(text)}, expected whole pages of 4096 bytes")
        return count, None

    harmless = ("shared", "hugepages", "hugepage_size", "mergeable", "prefault", "thp", "reserve", "hotplug_method", "hotplug_size")
    return memories("--memory", said.get("memory", ["512M"]), read, lambda key: key in harmless)


def check_realm(machine: str, others: Sorted):
    """No word of it names the realm."""


def features(cpu: str) -> dict[str, tuple[int | None, ...]]:
    return {}


def processor(guest: Guest) -> str | None:
    return None


def has_gic_3(guest: Guest) -> bool:
    return False


def dump_words(guest: Guest, path: str) -> list[str]:
    raise NotImplementedError("it has no word that writes a devicetree, and no option for its program")


def needs(guest: Guest, kept: list[str]) -> list[str]:
    return []


def approximated(machine: str, cpu: str, kept: list[str], model: str) -> Approximate:
    raise NotImplementedError("it has no option for that")


def final_words(guest: Guest) -> list[str]:
    return ["--cpus", f"boot={guest.smp.words}", "--memory", f"size={guest.memory.words}"]


def load_words(guest: Guest, path: Callable[[Blob], str]) -> list[str]:
    words = ["--kernel", path(guest.loaded)]
    if guest.initrd:
        words += ["--initramfs", path(guest.initrd)]
    return words + (["--cmdline", guest.append.text] if guest.append.text else [])
