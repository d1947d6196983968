"""QEMU's machine `virt`, started with -kernel: the table of its layout, and the values of its words."""
from __future__ import annotations

import math
import re
from collections.abc import Callable

from outside.faults import Fault, WrongWords
from outside.texts import shown

from .guest import GIB, MIB, PAGE, Blob, Guest, Memory, Processors, Word, up
from .hypervisor import Approximate, Facts
from .layout import MEMORY, SEEN, SOURCE, Places, Row, Way
from .names import labelled
from .qemu_words import GRAMMAR, OFF, ON, joined, parts, properties, refuse_before, refuse_machine_words, sort, sort_rest  # noqa: F401, what a hypervisor has
from .realm import granule_of
from .rows import SHARED, WIDTH_APART, WIDTH_MORE, dtb_pages_row, hash_row, kernel_pages_row, order_row, ram_ways, width_ways
from .sorting import Given, Sorted
from .words import Option, memories, number, processors, required, size

NAME = "qemu"
TITLE = "QEMU, machine virt"
USAGE = "-- qemu-system-aarch64 WORDS.."
PROGRAM = r"qemu-system-(aarch64|arm64)(-?[0-9.]+|-static)?|qemu-kvm"
BASE = 0x4000_0000
DTB_ALIGN = 2 * MIB
BOOT = "hw/arm/boot.c of QEMU 7.2, 10.0 and 10.2"
VIRT = "hw/arm/virt.c of QEMU 7.2, 10.0 and 10.2"
# Where the windows after RAM begin, unless RAM ends later.
WINDOWS_AT = 256 * GIB


def why_not_derived(old: Guest, new: Guest, kept: list[str]) -> str:
    """Returns why the devicetree of a guest is not derived from that of another one, or nothing; `kept` are the other words of a dump."""
    words, is_numa = machine_words(new.machine.text), any(given.name == "-numa" for given, _ in GRAMMAR.each(kept))
    if (old.machine.text, old.cpu.text) != (new.machine.text, new.cpu.text):
        return "it is of another -machine or -cpu"
    if is_numa and (old.memory.words, old.smp.words) != (new.memory.words, new.smp.words):
        return "-numa parts RAM and processors among nodes"
    if old.memory.size != new.memory.size and "memory-backend" in words:
        return "memory-backend= of -machine has one size"
    if old.memory.words != new.memory.words and max(top(old), top(new)) > WINDOWS_AT:
        return "RAM with the room for slots ends past 256 GiB, and moves windows of devices"
    if old.smp.words == new.smp.words:
        return ""
    if not (old.smp.words.isdigit() and new.smp.words.isdigit()):
        return "-smp has words beside the number of processors"
    return "" if "gic-version" in words else "the interrupt controller may depend on the number of processors without gic-version="


FACTS = Facts(DTB_ALIGN, ends_after_dump=True, dtb_length=MIB, no_seeds="dtb-randomness=off", gic_3="gic-version=3", hands_over=True,
              unpacks_gzip=True, zboot={"gzip": (10, 0), "zstd": (11, 1)}, dumped_by="qemu-system-aarch64", why_not_derived=why_not_derived)
# ldr x0, dtb; mov x1, xzr; mov x2, xzr; mov x3, xzr; ldr x4, kernel; br x4; then the two addresses
STUB = (0x580000C0, 0xAA1F03E1, 0xAA1F03E2, 0xAA1F03E3, 0x58000084, 0xD61F0080)
# The windows after RAM, in their order: the word that has one off, and its size. That of CXL is there only where its word has it on (memory).
WINDOWS = (("highmem-redists", 64 * MIB), ("cxl", MIB), ("highmem-ecam", 256 * MIB), ("highmem-mmio", 512 * GIB))
# The words of -cpu that count what is measured: the key of the host's file, and the least that there is.
COUNTS = {"num-breakpoints": ("num_bps", 1), "num-watchpoints": ("num_wps", 1), "num-pmu-counters": ("pmu_num_ctrs", 0)}
# The longest vector of SVE, in units of 128 bits.
MOST_VQ = 16
# The most memory slots, and the words beside a number of processors.
MOST_SLOTS = 256
TOPOLOGY = ("sockets", "dies", "clusters", "modules", "cores", "threads", "books", "drawers")

OPTIONS = [
    Option(("-machine", "--machine", "-M", "--each-machine"), "machine", "WORDS", "the machine: virt or one of its versions, and its words. "
           "Required. Words without a machine go to the one machine that is given", True),
    Option(("-cpu", "--cpu", "--each-cpu"), "cpu", "WORDS", "the processor model and its words. Required", True),
    Option(("-smp", "--smp", "--each-smp"), "smp", "LIST", "numbers of processors; 1 where it is not given. Words such as maxcpus= go "
           "beside them", True),
    Option(("-m", "--memory", "--each-memory"), "memory", "LIST", "sizes of RAM; 128M where it is not given, and a bare number is MiB", True),
    Option(("-kernel", "--kernel", "--each-kernel"), "kernel", "[NAME=]FILE", "an arm64 Image, or one packed by gzip. Required, but with -bios",
           True),
    Option(("-bios",), "firmware", "FILE", "firmware, which a realm has in RAM: then a kernel and an initrd are not measured, and none is required"),
    Option(("-initrd", "--initrd", "--each-initrd"), "initrd", "[NAME=]FILE", "an initrd", True),
    Option(("-append", "--append", "--each-append"), "append", "TEXT", "a command line of the kernel", True),
    Option(("-dtb",), "own_dtb", "FILE", "QEMU's own word: the devicetree that it is given, which it loads for a realm as the row dtb_file says. "
           "It takes the place of --qemu and of --dtb"),
    Option(("--qemu",), "program", "PROGRAM", "QEMU itself, which makes the devicetrees: each by the final words with "
           "dumpdtb= and dtb-randomness=off, twice. Of other words it is given what changes a devicetree, and nothing that opens "
           "a file or a socket. Not needed where a whole line is after `--`: then it is the program of that line"),
    Option(("--approximate-cpu",), "approximate_cpu", "MODEL", "where --qemu cannot make the devicetree of a realm: have it make one without "
           "rme-guest and KVM, with this processor model. It is not that of the realm, and each manifest says so"),
    Option(("--stub",), "stub", "WHICH", "the row stub: whether QEMU's boot stub is part of the realm: `none`, where the first processor "
           "begins at the kernel; or `measured`, where it begins at the stub"),
]


QUIET = ("-nodefaults", "-display", "none", "-S")


def base(guest: Guest) -> int:
    return BASE


def ram(guest: Guest, places: Places) -> list[tuple[int, int]]:
    return [(BASE, BASE + guest.memory.size)]


def kernel(guest: Guest, places: Places) -> int:
    image = guest.kernel.image
    return BASE + 2 * MIB if image.image_size and image.text_offset < PAGE else BASE


def initrd(guest: Guest, places: Places) -> int:
    return up(max(BASE + min(guest.memory.size // 2, 128 * MIB), places.kernel_end), PAGE)


def stub_bytes(guest: Guest, places: Places) -> bytes:
    words = b"".join(word.to_bytes(4, "little") for word in STUB)
    return words + places.dtb.to_bytes(8, "little") + places.entry.to_bytes(8, "little")


def machine_words(text: str) -> dict[str, str]:
    """The words of a machine after its type, by their keys."""
    return dict(part.partition("=")[::2] for part in parts(text)[1:])


def is_off(words: dict[str, str], key: str) -> bool:
    return words.get(key) in OFF


def words_beside(text: str) -> dict[str, str]:
    """The words beside a value, by their keys."""
    return dict(part.partition("=")[::2] for part in parts(text) if "=" in part)


def top(guest: Guest) -> int:
    """Where RAM ends, and the room for RAM that may be plugged in."""
    beside, end = words_beside(guest.memory.words), up(BASE + guest.memory.size, GIB)
    if "maxmem" not in beside:
        return end
    return end + up(size("-m", beside["maxmem"], 1, True) - guest.memory.size + int(beside.get("slots", "0")) * GIB, GIB)


def is_compact(machine: str, words: dict[str, str]) -> bool:
    """Whether a window that is off leaves no room. By default that is so from virt-8.0 on."""
    if "compact-highmem" in words:
        return words["compact-highmem"] not in OFF
    version = re.fullmatch(r"virt-([0-9]+)\..*", parts(machine)[0])
    return not version or int(version[1]) >= 8


def highest(guest: Guest, bits: int) -> int:
    """The end of the highest window after RAM, where a host takes addresses of so many bits: one that ends past them is left out."""
    words = machine_words(guest.machine.text)
    sizes = {key: length for key, length in WINDOWS if key != "cxl" or words.get(key) in ON}
    if "highmem-mmio-size" in words:
        sizes["highmem-mmio"] = size("-machine: highmem-mmio-size", words["highmem-mmio-size"], 1)
    end = top(guest)
    if end > 1 << bits:
        raise Fault(f"-m: {shown(guest.memory.words)}: RAM, and room for slots, is up to {end:#x}, and QEMU stops where that is past "
                    f"{bits} bits, which is what highmem and the host's s2sz_max leave; expected less RAM")
    place, compact = max(end, WINDOWS_AT), is_compact(guest.machine.text, words)
    for key, length in sizes.items():
        start = up(place, length)
        fits = start + length <= 1 << bits
        if compact and (not fits or is_off(words, key)):
            continue
        place = start + length
        end = place if fits else end
    return end


def s2sz(guest: Guest, places: Places) -> int:
    """The width. What the host allows a realm is, where it has one bit more than a plain guest, that more than is left for addresses."""
    more = int(guest.ways.get("s2sz") != "guest")
    left = guest.most_bits - more
    if is_off(machine_words(guest.machine.text), "highmem"):
        left = min(left, 32)
    return max(32, (highest(guest, left) - 1).bit_length() + more)


REALM = "changes that were proposed to QEMU"
DTB_FILE = Row(
    "dtb_file", "the devicetree of -dtb, where one is given: QEMU does not edit it for a realm", None, REALM, MEMORY,
    (Way("given", "the file as it is, to its last byte", 50),
     Way("padded", "2 x (file + 10,000) bytes: the file, whose header says that length, and zeros", 50)), "each with -dtb: its length is measured")
TABLE = [
    Row("ram", "from 0x40000000 on, as much as -m says, rounded up to 8 KiB; one region, never split at 4 GiB", ram, VIRT, SEEN,
        ram_ways(85, "the kernel's with its BSS"), "each: what is made RAM is measured"),
    Row("kernel", "the base is 0x40200000 where text_offset is below 4096, else 0x40000000; also 0x40000000 where image_size is 0",
        kernel, BOOT, SEEN),
    Row("entry", "the base and text_offset; the base and 0x80000 where image_size is 0",
        lambda guest, places: places.kernel + guest.kernel.image.load_offset, BOOT, SEEN),
    Row("kernel_end", "the kernel's address and image_size, or the file's length where that is 0",
        lambda guest, places: places.entry + guest.kernel.image.taken, BOOT, SEEN),
    Row("initrd", "the higher of 0x40000000 + min(RAM / 2, 128 MiB) and the kernel's end, rounded up to 4096", initrd, BOOT, SEEN),
    Row("dtb", "the initrd's end, or its place where there is none, rounded up to 2 MiB",
        lambda guest, places: up(places.initrd + guest.initrd_length, DTB_ALIGN), BOOT, SEEN),
    Row("dtb length", "1,048,576 bytes of one that QEMU makes, also where few of them are used", None,
        "system/device_tree.c of QEMU 10.0 and 10.2", SEEN),
    Row("stub", "40 bytes at 0x40000000", lambda guest, places: BASE if guest.ways.get("stub") == "measured" else None, BOOT,
        SEEN + "; whether a realm has it: " + MEMORY,
        (Way("none", "it is no part of the realm: the first processor begins at the kernel, with the devicetree's address in x0", 93),
         Way("measured", "it is loaded like all else, and the first processor begins at it", 7)), "each: it is measured"),
    Row("stub_bytes", "ldr x0, dtb; mov x1, xzr; mov x2, xzr; mov x3, xzr; ldr x4, kernel; br x4; then the addresses of dtb and kernel, "
        "8 bytes each, little endian: " + " ".join(f"{word:#x}" for word in STUB), stub_bytes, BOOT, SEEN),
    Row("pc", "the kernel's address; that of the stub where the realm has it",
        lambda guest, places: places.entry if places.stub is None else places.stub, BOOT, SEEN + "; without a stub: " + MEMORY),
    Row("x", "x0 is the devicetree's address; all zero with a stub",
        lambda guest, places: [places.dtb] if places.stub is None else [], BOOT, SEEN + "; without a stub: " + MEMORY),
    Row("recs", "the first processor is runnable; the others begin off and are turned on by PSCI", None, BOOT,
        SEEN + "; that their RECs are not runnable: " + MEMORY),
    order_row(" (a stub first)", 95, REALM),
    Row("s2sz", "the bits of the last address of the windows after RAM, of those that the host's s2sz_max and highmem leave (40 up to 510 "
        "GiB of RAM), and one more for the shared half of a realm, at least 32", s2sz, VIRT, SOURCE + "; the one more: " + MEMORY,
        width_ways(85), WIDTH_APART, WIDTH_MORE),
    DTB_FILE,
    kernel_pages_row(75, REALM),
    dtb_pages_row(75, "all of its 1 MiB, also where it is zero", REALM),
    hash_row(REALM, ("sha512", 70), ("sha256", 30)),
    *SHARED,
]
# Two flashes of 64 MiB are where a plain guest's firmware is.
FLASH = 128 * MIB


def firmware_ram(guest: Guest, places: Places) -> list[tuple[int, int]]:
    length = guest.firmware.length if guest.firmware else 0
    return [(0, FLASH if guest.ways.get("firmware_ram") == "whole" else up(length, granule_of(guest.ways)))]


def row_of(name: str) -> Row:
    return next(row for row in TABLE if row.name == name)


FIRMWARE_BOOT = "hw/arm/virt.c and hw/arm/boot.c of QEMU 7.2, 10.0 and 10.2"
FIRMWARE = [
    row_of("ram"),
    Row("firmware", "the address 0, where a plain guest has it in flash: it is copied into RAM there, and flash is gone", lambda guest, places: 0,
        REALM, MEMORY),
    Row("firmware_ram", "RAM at 0, beside that of -m", firmware_ram, REALM, MEMORY,
        (Way("file", "as much as the firmware's file has, in whole pages of the host", 60),
         Way("whole", "all of the 128 MiB in which flash was", 40)),
        "each with firmware: what is made RAM is measured"),
    Row("firmware_order", "in which order RAM at 0 and that of -m are made, if all is made first", None, REALM, MEMORY,
        (Way("address", "by rising address: RAM at 0, then that of -m", 70), Way("after", "RAM of -m, then that at 0", 30)),
        "each with firmware: the order is measured"),
    Row("dtb", "the start of RAM, 0x40000000", lambda guest, places: BASE, FIRMWARE_BOOT, SEEN),
    Row("dtb length", "1,048,576 bytes of one that QEMU makes, which is what is loaded", None, FIRMWARE_BOOT, SEEN),
    Row("pc", "0, where the firmware begins", lambda guest, places: 0, FIRMWARE_BOOT, SEEN),
    Row("x", "all zero", lambda guest, places: [], FIRMWARE_BOOT, SEEN),
    *(row_of(name) for name in ("recs", "order", "s2sz", "dtb_file", "dtb_pages", "hash")),
    *SHARED,
]


def is_machine(text: str) -> bool:
    """Whether some words begin with a machine, and not with a word of one."""
    front = parts(text)[0]
    return "=" not in front or front.startswith("type=")


def machines(texts: list[str]) -> list[str]:
    """The machines. Words without one go to the one machine that is given, as QEMU reads them."""
    whole = [text.removeprefix("type=") for text in texts if is_machine(text)]
    more = [text for text in texts if not is_machine(text)]
    if more and len(whole) != 1:
        has = f"{len(whole)} machines are" if whole else "no machine is"
        raise WrongWords(f"-machine: {shown(more[0])}: words of one machine, and {has} given, expected virt and its words together")
    return [",".join([whole[0], *more])] if more else whole


def read_machine(said: dict) -> list[Word]:
    texts = machines(required(said, "machine", "-machine", "virt and its words"))
    for text in texts:
        kind, *words = parts(text)
        if not re.fullmatch(r"virt(-[0-9.]+)?", kind):
            raise WrongWords(f"-machine: {shown(kind)}, expected virt or one of its versions first")
        refuse_machine_words(words)
        check_window(machine_words(text).get("highmem-mmio-size"))
    return labelled(texts)


def check_window(text: str | None):
    """The window of PCIe has a power of two, and no less than by default: QEMU stops at others."""
    if text is not None:
        length = size("-machine: highmem-mmio-size", text, 1)
        if length & (length - 1) or length < 512 * GIB:
            raise WrongWords(f"-machine: highmem-mmio-size={shown(text)}, expected a power of two, at least 512G")


# What models are in a devicetree, as it was seen in QEMU 7.2.22. What `max` and `host` are depends on the version and the machine.
MODELS = {model: f"arm,{model}" for model in ("cortex-a35", "cortex-a53", "cortex-a57", "cortex-a72", "cortex-a76", "neoverse-n1", "a64fx")}


def processor(guest: Guest) -> str | None:
    """What the devicetree has to say of the processors; None where it is not known."""
    return MODELS.get(guest.cpu.text.split(",")[0])


def has_gic_3(guest: Guest) -> bool:
    """Whether the words ask for GIC 3, or for 4, which is the same in a devicetree."""
    return machine_words(guest.machine.text).get("gic-version") in ("3", "4", "max")


def vector_lengths(given: dict[str, str]) -> tuple[int | None, ...]:
    """Returns the values of sve_vl that fit the words of -cpu, with None if a host without SVE fits too; nothing without such words."""
    if "sve-max-vq" in given:
        return (number("-cpu: sve-max-vq", given["sve-max-vq"], 1, MOST_VQ) - 1,)
    is_on = {vl: given[f"sve{(vl + 1) * 128}"] not in OFF for vl in range(MOST_VQ) if given.get(f"sve{(vl + 1) * 128}") in (*OFF, *ON)}
    if any(is_on.values()):
        return (max(vl for vl in is_on if is_on[vl]),)
    # a power of two that is off takes all longer ones away
    end = min((vl for vl in is_on if vl & (vl + 1) == 0), default=MOST_VQ)
    return (None, *(vl for vl in range(end) if vl not in is_on)) if is_on else ()


def features(cpu: str) -> dict[str, tuple[int | None, ...]]:
    """What the words of -cpu say that the host's file says too. Of breakpoints it is not known whether the realm has one less."""
    given = dict(part.partition("=")[::2] for part in parts(cpu)[1:])
    found: dict[str, tuple[int | None, ...]] = {key: (given[key] not in OFF,) for key in ("sve", "pmu") if given.get(key) in (*OFF, *ON)}
    if given.get("sve") not in OFF and (lengths := vector_lengths(given)):
        found["sve_vl"] = lengths
        if lengths[0] is not None:
            found["sve"] = (True,)
    for word, (key, least) in COUNTS.items():
        if word in given:
            count = number(f"-cpu: {word}", given[word], least, 256)
            found[key] = (count - least, count) if least else (count,)
    return found


def read_cpu(said: dict) -> list[Word]:
    texts = required(said, "cpu", "-cpu", "a 64-bit processor model: without it QEMU's is a 32-bit one")
    for text in texts:
        model, *words = parts(text)
        if model in ("cortex-a7", "cortex-a15") or any(word in [f"aarch64={off}" for off in OFF] for word in words):
            raise WrongWords(f"-cpu: {shown(text)} is a 32-bit processor, expected a 64-bit one")
    return labelled(texts)


def counted(text: str) -> str:
    """A number of processors and the words beside it. Without a number it is that of maxcpus=, or what the topology comes to."""
    found = words_beside(text)
    if "cpus" in found or not found or any("=" not in part for part in parts(text)):
        return text
    numbers = {key: number(f"-smp: {key}", value, 1, 512) for key, value in found.items() if key in ("maxcpus", *TOPOLOGY)}
    return f"{numbers.get('maxcpus') or math.prod(numbers.values())},{text}"


def read_smp(said: dict) -> list[Processors]:
    texts = [counted(text) for text in said.get("smp", ["1"])]
    return processors("-smp", texts, "cpus", lambda key: key in ("maxcpus", *TOPOLOGY))


def check_room(memory: Memory):
    """Refuses what QEMU stops at: slots without maxmem, or too many, and less than there is."""
    beside = words_beside(memory.words)
    if "slots" in beside:
        number("-m: slots", beside["slots"], 0, MOST_SLOTS)
    if "maxmem" not in beside and "slots" in beside:
        raise WrongWords(f"-m: {shown(memory.words)}: slots and no maxmem, expected both")
    if "maxmem" in beside and size("-m: maxmem", beside["maxmem"], 1, True) < memory.size:
        raise WrongWords(f"-m: {shown(memory.words)}: maxmem is less than RAM, expected at least {memory.size}")


def read_memory(said: dict) -> list[Memory]:
    def read(text):
        return up(size("-m", text, MIB, has_fractions=True), 8192), None

    found = memories("-m", said.get("memory", ["128M"]), read, lambda key: key in ("slots", "maxmem"))
    for memory in found:
        check_room(memory)
    return found


def check_realm(machine: str, others: Sorted):
    """The realm's object has to be the one that the machine names."""
    named = machine_words(machine).get("confidential-guest-support")
    if named != (others.realm.name if others.realm is not None else None):
        raise WrongWords(f"-machine: {shown(machine)}, and the words beside it: expected confidential-guest-support=ID where they have "
                         "-object rme-guest,id=ID, and only there")


def dump_words(guest: Guest, path: str) -> list[str]:
    """The words by which QEMU writes a devicetree to a path and ends; without kernel, initrd and command line. The quiet ones change
    nothing in the devicetree, and spare what QEMU adds by itself: a network card whose file may be missing, a window, its monitor."""
    doubled = path.replace(",", ",,")
    return [*with_machine(guest, f",dumpdtb={doubled}"), *QUIET]


# The words of -machine that a dump without KVM and rme-guest is not given, and the value of gic-version that needs KVM.
OF_REALM = ("confidential-guest-support", "accel", "kernel-irqchip")
OF_HOST = "gic-version=host"


def is_realm(given: Given) -> bool:
    return given.name == "-object" and properties(given.name, given.value, "qom-type").get("qom-type") == "rme-guest"


def needs(guest: Guest, kept: list[str]) -> list[str]:
    machine, given = machine_words(guest.machine.text), [each for each, _ in GRAMMAR.each(kept)]
    accels = [each.value.split(",")[0] for each in given if each.name == "-accel"] or [machine.get("accel", "")]
    is_kvm = parts(guest.cpu.text)[0] == "host" or machine.get("gic-version") == "host" or set(accels) == {"kvm"}
    is_kvm = is_kvm or any(each.name == "-enable-kvm" for each in given)
    return ["KVM"] * is_kvm + ["rme-guest"] * any(map(is_realm, given))


def approximated(machine: str, cpu: str, kept: list[str], model: str) -> Approximate:
    """A devicetree shows no word of -cpu but the model and pmu=."""
    kind, *words = parts(machine)
    left_out = [word for word in words if word.partition("=")[0] in OF_REALM or word == OF_HOST]
    others = [word for word in words if word not in left_out] + ["gic-version=3"] * (OF_HOST in left_out)
    old, *of_cpu = parts(cpu)
    shows = [word for word in of_cpu if word.startswith("pmu=")]
    rest: list[str] = []
    for given, _ in GRAMMAR.each(kept):
        (left_out if given.name in ("-accel", "-enable-kvm") or is_realm(given) else rest).extend(given.words)
    return Approximate(joined([kind, *others]), joined([*parts(model), *shows]), rest, [*left_out, f"-cpu {old}", *(word for word in of_cpu if word not in shows)])


def final_words(guest: Guest) -> list[str]:
    return with_machine(guest, "")


def with_machine(guest: Guest, more: str) -> list[str]:
    seeds = "" if "dtb-randomness" in machine_words(guest.machine.text) else f",{FACTS.no_seeds}"
    return ["-machine", guest.machine.text + more + seeds, "-cpu", guest.cpu.text, "-smp", guest.smp.words, "-m", guest.memory.words]


def load_words(guest: Guest, path: Callable[[Blob], str]) -> list[str]:
    if guest.firmware:
        # QEMU takes a command line only beside a kernel, which it hands to the firmware
        handed = ["-kernel", guest.handed] if guest.handed else []
        return ["-bios", path(guest.firmware), *handed, *(["-append", guest.append.text] if guest.append.text else [])]
    words = ["-kernel", path(guest.loaded)]
    if guest.initrd:
        words += ["-initrd", path(guest.initrd)]
    return words + (["-append", guest.append.text] if guest.append.text else [])
