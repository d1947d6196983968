"""What each word of QEMU does: the table of its words, that of the words of -machine, and those of objects and devices.

A dump is a start of QEMU, perhaps beside the guest itself. So it is given no word that opens, empties or replaces a file, a socket or a
device: only those that change the devicetree, and these without their paths. A word that is in no table is refused.
"""
from __future__ import annotations

import json
import re
from collections import Counter
from dataclasses import dataclass

from outside.faults import WrongWords
from outside.files import once_each
from outside.texts import MOST_SHOWN, shown, visible

from . import qemu_firmware
from .sorting import Effect, Entry, Explained, Given, Grammar, Realm, Sorted, Takes, one_dash, spelled
from .words import ALGORITHMS, personalization, size

OFF = ("off", "no", "false", "n")
ON = ("on", "yes", "true", "y")
FIRMWARE = "the firmware, which is copied into RAM"
ELSEWHERE = "all of RAM comes from elsewhere then"
NO_REALM = "no realm has it"


# ---- the words of -machine


@dataclass(frozen=True)
class MachineWord:
    """Words of -machine: what they do, and what is to be done instead where they are refused, or where all but `passes` of their values
    are."""

    keys: tuple[str, ...]
    effect: Effect
    does: str
    instead: str = ""
    passes: tuple[str, ...] = ()
    is_of_line: bool = False        # whether it is taken in a line, and said otherwise by an option


MACHINE = [
    MachineWord(("gic-version",), Effect.TREE, "the interrupt controller", "gic-version=3", ("3", "4", "max", "host")),
    MachineWord(("its", "msi", "iommu", "default-bus-bypass-iommu"), Effect.TREE, "nodes of the interrupt controller and of PCIe"),
    MachineWord(("virtio-mmio-transports",), Effect.TREE, "how many nodes virtio_mmio there are"),
    MachineWord(("highmem", "highmem-ecam", "highmem-mmio", "highmem-mmio-size", "highmem-redists", "compact-highmem", "cxl"), Effect.LAYOUT,
                "windows of devices, and with them the width of an IPA"),
    MachineWord(tuple(f"smp-cache.{number}.{key}" for number in range(4) for key in ("cache", "topology")), Effect.TREE,
                "caches of the processors, and which of them share one"),
    MachineWord(("phandle-start", "dt-compatible"), Effect.TREE, "numbers and names in the devicetree"),
    MachineWord(("accel", "kernel-irqchip"), Effect.TREE, "what runs the processors, and so what -cpu host and gic-version=host are"),
    MachineWord(("memory-backend",), Effect.HARMLESS, "which -object is RAM: nothing in the devicetree"),
    MachineWord(("confidential-guest-support",), Effect.LAYOUT, "which -object makes the guest a realm"),
    MachineWord(("acpi",), Effect.TREE, "with firmware: whether the devicetree has the power button"),
    MachineWord(("ras", "usb", "graphics", "mem-merge", "dump-guest-core", "suppress-vmdesc", "x-oem-id", "x-oem-table-id",
                 "boot", "boot.order", "boot.once", "boot.menu", "boot.strict", "boot.splash", "boot.splash-time", "boot.reboot-timeout",
                 "hmat", "aux-ram-share", "spcr", "acpi-pcihp"), Effect.HARMLESS, "nothing in the devicetree"),
    MachineWord(("dtb-randomness", "dtb-kaslr-seed"), Effect.TREE, "the devicetree differs at each start", "{}=off", OFF),
    MachineWord(("virtualization",), Effect.TREE, "a processor with EL2: " + NO_REALM, "{}=off", OFF),
    MachineWord(("secure",), Effect.TREE, "a processor with TrustZone: " + NO_REALM, "{}=off", OFF),
    MachineWord(("mte",), Effect.TREE, "memory tagging: " + NO_REALM, "{}=off", OFF),
    MachineWord(("firmware", "pflash0"), Effect.LAYOUT, FIRMWARE, "-bios FILE", is_of_line=True),
    MachineWord(("pflash1",), Effect.REFUSED, "a flash for variables", "none"),
    MachineWord(("dtb",), Effect.REFUSED, "rim-manifest reads no file of it", "-dtb FILE"),
    MachineWord(("dumpdtb",), Effect.REFUSED, "QEMU writes a devicetree and starts no guest", "no such word; --dtb takes the file, and --qemu makes one"),
    MachineWord(("kernel",), Effect.REFUSED, "rim-manifest reads no file of it", "-kernel FILE"),
    MachineWord(("initrd",), Effect.REFUSED, "rim-manifest reads no file of it", "-initrd FILE"),
    MachineWord(("append",), Effect.REFUSED, "rim-manifest reads no text of it", "-append TEXT"),
    MachineWord(("shim",), Effect.REFUSED, "it loads what no table places", "none"),
    MachineWord(("smp", "smp.cpus", "smp.maxcpus", "smp.sockets", "smp.dies", "smp.clusters", "smp.modules", "smp.cores", "smp.threads",
                 "smp.books", "smp.drawers"), Effect.REFUSED, "other processors than those of -smp", "-smp"),
    MachineWord(("memory", "memory.size", "memory.max-size", "memory.slots"), Effect.REFUSED, "other RAM than that of -m", "-m"),
    MachineWord(("memory-encryption",), Effect.REFUSED, "an older word for confidential-guest-support", "that one"),
    MachineWord(("type",), Effect.REFUSED, "the kind of the machine", "it as the first word"),
]
BY_KEY = {key: row for row in MACHINE for key in row.keys}


def parts(text: str) -> list[str]:
    """The words of a text that commas part. Two commas are one of a value."""
    return [part.replace("\0", ",") for part in text.replace(",,", "\0").split(",")]


def joined(words: list[str]) -> str:
    """The text of words that commas part."""
    return ",".join(word.replace(",", ",,") for word in words)


def machine_fault(word: str) -> str | None:
    """Why no launch can be made of a word of -machine."""
    key, equals, value = word.partition("=")
    row = BY_KEY[key]
    if not equals:
        return f"-machine: {shown(word)} has no value, expected {key}=VALUE"
    if row.instead and value not in row.passes:
        does = "GIC 2, which no realm has" if word == "gic-version=2" else row.does
        return f"-machine: {shown(word)}: {does}, expected {row.instead.format(key)}"
    return None


def refuse_machine_words(words: list[str]):
    """Refuses words of -machine that a launch cannot be made of; all that are in no table are named at once."""
    keys = [word.partition("=")[0] for word in words]
    faults = [fault for word, key in zip(words, keys) if key in BY_KEY and (fault := machine_fault(word))]
    if unknown := [shown(word) for word, key in zip(words, keys) if key not in BY_KEY]:
        known = ", ".join(key for row in MACHINE if row.effect is not Effect.REFUSED for key in row.keys)
        what = "what it changes is" if len(unknown) == 1 else "what they change is"
        faults.append(f"-machine: {', '.join(unknown)}: {what} not known, expected one of {known}")
    seen: set[str] = set()
    for key in keys:
        if key in seen:
            faults.append(f"-machine: {key} is given twice, expected once")
        seen.add(key)
    if faults:
        raise WrongWords(*faults)


def explain_machine(text: str) -> list[Explained]:
    """What the words of a -machine do."""
    found = []
    for word in machine_texts("-machine", text):
        row = BY_KEY.get(word.partition("=")[0])
        if row and row.keys != ("type",):
            effect = Effect.REFUSED if machine_fault(word) and not row.is_of_line else row.effect
            found.append((f"  {visible(word[:MOST_SHOWN])}", effect, row.does))
    return found


def flat(table: dict, front: str = "") -> list[str]:
    """The members of an object of JSON as words."""
    found = []
    for key, value in table.items():
        if isinstance(value, dict):
            found += flat(value, f"{front}{key}.")
        else:
            text = ("off", "on")[value] if isinstance(value, bool) else value if isinstance(value, str) else json.dumps(value)
            found.append(f"{front}{key}={text}")
    return found


def object_of(option: str, text: str) -> dict:
    """The object of JSON that a word is."""
    try:
        table = json.loads(text, object_pairs_hook=once_each)
    except (ValueError, RecursionError):
        raise WrongWords(f"{option}: {shown(text)}: it begins as JSON and is none, expected an object of JSON") from None
    return table


def machine_texts(option: str, text: str) -> list[str]:
    """The words of a -machine, its kind first where it has one. A `_` in a key is a `-` to QEMU."""
    if text.startswith("{"):
        raise WrongWords(f"{option}: {shown(text)}: QEMU takes no JSON here, expected virt and its words")
    words = parts(text)
    if words and "=" not in words[0]:
        words[0] = "type=" + words[0]
    return [key.replace("_", "-") + equals + value for key, equals, value in (word.partition("=") for word in words)]


def one_machine(option: str, texts: list[str]) -> str:
    """The one machine of several -machine, as QEMU merges them: of two values of a key the last counts."""
    found: dict[str, str] = {}
    for text in texts:
        for word in machine_texts(option, text):
            key, equals, value = word.partition("=")
            found[key] = equals + value
    kind = found.pop("type", "")
    if not kind:
        raise WrongWords(f"{option}: {shown(texts[0])}: no machine is given, expected virt and its words")
    return joined([kind[1:], *(key + value for key, value in found.items())])


def merged(implied: str):
    """How QEMU merges several of a word: of two values of a key the last counts. `implied` is the key of a value without one."""
    def join(option: str, texts: list[str]) -> str:
        found: dict[str, str] = {}
        for text in texts:
            for place, word in enumerate(parts(text)):
                key, equals, value = word.partition("=")
                if not equals:
                    if place:
                        raise WrongWords(f"{option}: {shown(text)}: {shown(word)} has no value, expected {implied} and words with values")
                    key, value = implied, word
                found[key] = value
        front = [found.pop(implied)] if implied in found else []
        return joined([*front, *(f"{key}={value}" for key, value in found.items())])
    return join


# ---- objects, devices and others of which the value decides

# Objects that change nothing in the devicetree.
HARMLESS_OBJECT = re.compile(
    r"secret|secret_keyring|rng-(random|egd|builtin)|iothread|thread-context|main-loop|tls-(creds|cipher)-[a-z0-9-]+|authz-[a-z]+|"
    r"throttle-group|filter-[a-z]+|colo-compare|cryptodev-[a-z-]+|can-bus|can-host-socketcan|input-[a-z]+|iommufd|dbus-vmstate|"
    r"pr-manager-helper")
# Devices that change nothing in the devicetree: those on PCIe, USB and other buses that are in it anyway.
HARMLESS_DEVICE = re.compile(
    r"(virtio|vhost)-(?!iommu|mem|pmem)[a-z0-9-]+|(virtserialport|virtconsole|usb|scsi|ide|nvme|pcie|pci|ioh3420|x3130|xio3130|sdhci|hda|"
    r"intel-hda|ich9-intel-hda|e1000|e1000e|igb|rtl8139|vmxnet3|ne2k_pci|i82[0-9]+[a-z]*|tulip|pcnet|megasas|mptsas|lsi|am53c974|ahci|"
    r"ich9-ahci|sd-card|VGA|secondary-vga|bochs-display|ramfb|qxl|vfio-pci|qemu-xhci|nec-usb-xhci|ich9-usb|piix[34]-usb|pvpanic-pci|"
    r"ivshmem|edu|i6300esb|AC97|ES1370|pvscsi|rocker|ccid-card)([a-z0-9-]*)")
# Drivers whose defaults change nothing in the devicetree; kvm-pit is of other processors.
HARMLESS_GLOBAL = re.compile(r"(virtio-(?!iommu|mem|pmem)|vhost-|usb-|scsi-|nvme|vfio-pci|pcie-root-port)[a-z0-9-]*|kvm-pit")
# What -object rme-guest may say; two names are one thing in versions of the proposed changes.
REALM_KEYS = {"qom-type", "id", "measurement-algorithm", "measurement-algo", "personalization-value", "measurement-log"}
# The longest text of a personalization value: 64 bytes as hexadecimal digits.
MOST_RPV = 128


def properties(option: str, text: str, first: str) -> dict[str, str]:
    """What an object or a device is given, of words or of JSON; `first` is the key of a word without one."""
    if text.startswith("{"):
        return dict(word.partition("=")[::2] for word in flat(object_of(option, text)))
    words = parts(text)
    if words and "=" not in words[0]:
        words[0] = f"{first}={words[0]}"
    return {key: value if equals else "on" for key, equals, value in (word.partition("=") for word in words)}


def read_backend(found: Sorted, given: Given, said: dict[str, str]):
    """RAM of the same name and size, of no file and of no page yet: the devicetree is the same."""
    missing = next((key for key in ("id", "size") if key not in said), None)
    if missing:
        found.refuse(given, f"it has no {missing}, expected one")
        return
    found.backends[said["id"]] = said["size"]
    doubled = (said[key].replace(",", ",,") for key in ("id", "size"))
    found.keep(given, ["-object", "memory-backend-ram,id={},size={},reserve=off".format(*doubled)])


def read_realm(found: Sorted, given: Given, said: dict[str, str]):
    """What -object rme-guest says of the realm."""
    source = "-object rme-guest"
    keys = Counter(word.partition("=")[0] for word in ([] if given.value.startswith("{") else parts(given.value)))
    algorithms = [said[key] for key in ("measurement-algorithm", "measurement-algo") if key in said]
    doubled = next((key for key, count in keys.items() if count > 1), "measurement-algorithm" if algorithms[1:] else None)
    value = said.get("personalization-value")
    read = None if value is None else personalization(value)
    if found.realm is not None:
        found.refuse(given, "it is the second rme-guest, expected one")
    elif not said.get("id"):
        found.refuse(given, "it has no id, expected one")
    elif doubled:
        found.refuse(given, f"{doubled} is given twice, expected once")
    elif set(said) - REALM_KEYS:
        found.refuse(given, f"what {', '.join(sorted(set(said) - REALM_KEYS))} changes is not known, expected measurement-algorithm, "
                     "personalization-value and measurement-log")
    elif algorithms and algorithms[0] not in ALGORITHMS:
        found.refuse(given, f"measurement-algorithm={shown(algorithms[0])}, expected {' or '.join(ALGORITHMS)}")
    elif value is not None and read is None and len(value) > MOST_RPV:
        found.refuse(given, f"personalization-value={shown(value)}, expected 64 bytes as 128 hexadecimal digits or as base64")
    elif said.get("measurement-log", "off") not in (*OFF, *ON):
        found.refuse(given, f"measurement-log={shown(said['measurement-log'])}, expected on or off")
    else:
        if value is not None and read is None:
            found.warnings.append(f"personalization-value={shown(value)} is not 64 bytes as hexadecimal digits or base64; it is not part of the "
                                  "measurement, and manifests have none")
        if said.get("measurement-log") in ON:
            found.warnings.append("measurement-log=on: whether a page of the log is measured is not known, and no page is measured here")
            found.opens.append(given)
        found.keep(given)
        found.realm = Realm(source, said.get("id"), algorithms[0] if algorithms else None, read)


def read_object(found: Sorted, given: Given):
    said = properties(given.words[0], given.value, "qom-type")
    kind = said.get("qom-type", "")
    if kind.startswith("memory-backend-"):
        read_backend(found, given, said)
    elif kind == "rme-guest":
        read_realm(found, given, said)
    elif HARMLESS_OBJECT.fullmatch(kind):
        found.drop(given)
    else:
        found.refuse(given, "whether it changes what is measured is not known, expected another object or none")


def read_device(found: Sorted, given: Given):
    said = properties(given.words[0], given.value, "driver")
    driver = said.get("driver", "")
    if driver in ("loader", "guest-loader"):
        found.refuse(given, "it loads what no table places, expected no such word")
    elif driver.startswith(("virtio-mem", "virtio-pmem", "nvdimm", "pc-dimm")):
        found.refuse(given, "it adds RAM that no table has, expected all RAM by -m")
    elif driver.startswith("virtio-iommu") and "addr" not in said:
        found.refuse(given, "its place is in the devicetree, and without addr= other devices decide it, expected addr=")
    elif driver.startswith("virtio-iommu"):
        found.keep(given)
    elif HARMLESS_DEVICE.fullmatch(driver):
        found.drop(given)
    else:
        found.refuse(given, "whether it changes the devicetree is not known, expected another device or none")


def read_serial(found: Sorted, given: Given):
    """From QEMU 10.0 on the devicetree has as many as there are, and `none` is a gap among them."""
    found.keep(given, ["-serial", "none" if given.value == "none" else "null"])


def read_drive(found: Sorted, given: Given):
    said = properties(given.words[0], given.value, "file")
    if said.get("if") == "pflash":
        qemu_firmware.take_drive(found, given, said)
    else:
        found.drop(given)


def read_blockdev(found: Sorted, given: Given):
    said = properties(given.words[0], given.value, "driver")
    found.drop(given)
    if "node-name" in said:
        found.nodes[said["node-name"]] = said


def read_global(found: Sorted, given: Given):
    driver = properties(given.words[0], given.value, "first").get("driver", given.value.partition(".")[0])
    if HARMLESS_GLOBAL.fullmatch(driver):
        found.drop(given)
    else:
        found.refuse(given, "whether it changes the devicetree is not known, expected no such word")


# ---- all words


def harmless(why: str, names: str, alone: str = "") -> list[Entry]:
    """Words that change nothing: those with a value, and those without."""
    found = [Entry(spelled(names, "-"), Effect.HARMLESS, why)]
    return found + ([Entry(spelled(alone, "-"), Effect.HARMLESS, why, takes=Takes.NOTHING)] if alone else [])


def refused(why: str, names: str, instead: str) -> Entry:
    return Entry(spelled(names, "-"), Effect.REFUSED, why, instead)


WORDS = [
    Entry(spelled("machine M", "-"), Effect.LAYOUT, "the machine; the words of several are those of one", key="machine", joined=one_machine,
          parts=explain_machine),
    Entry(spelled("cpu", "-"), Effect.LAYOUT, "the model of the processors; of several the last counts", key="cpu"),
    Entry(spelled("smp", "-"), Effect.LAYOUT, "the processors; several are merged", key="smp", joined=merged("cpus")),
    Entry(spelled("m", "-"), Effect.LAYOUT, "the size of RAM, and with slots and maxmem the width of an IPA; several are merged", key="memory",
          joined=merged("size")),
    Entry(spelled("kernel", "-"), Effect.LAYOUT, "the kernel; of several the last counts", key="kernel"),
    Entry(spelled("initrd", "-"), Effect.LAYOUT, "the initrd; of several the last counts", key="initrd"),
    Entry(spelled("append", "-"), Effect.LAYOUT, "the kernel's command line; of several the last counts", key="append"),
    Entry(spelled("dtb", "-"), Effect.LAYOUT, "the devicetree, which a realm is given as the row dtb_file says; of several the last counts",
          key="own_dtb"),
    Entry(spelled("accel", "-"), Effect.TREE, "what runs the processors, and so what -cpu host and gic-version=host are"),
    Entry(spelled("enable-kvm", "-"), Effect.TREE, "that KVM runs the processors", takes=Takes.NOTHING),
    Entry(spelled("no-acpi", "-"), Effect.TREE, "with firmware: the devicetree has the power button", takes=Takes.NOTHING),
    Entry(spelled("numa", "-"), Effect.TREE, "nodes of memory and of processors"),
    Entry(spelled("object", "-"), Effect.TREE, "RAM and the realm are such; others change nothing", read=read_object),
    Entry(spelled("device", "-"), Effect.TREE, "virtio-iommu-pci is in the devicetree; those on PCIe and other buses are not", read=read_device),
    Entry(spelled("serial", "-"), Effect.TREE, "from QEMU 10.0 on the devicetree has as many as there are", read=read_serial),
    Entry(spelled("drive", "-"), Effect.HARMLESS, "a disk of the host's; one of flash is the firmware", read=read_drive),
    Entry(spelled("blockdev", "-"), Effect.HARMLESS, "a disk of the host's; one that is pflash0 is the firmware", read=read_blockdev),
    Entry(spelled("pflash", "-"), Effect.HARMLESS, FIRMWARE, read=qemu_firmware.take_flash),
    Entry(spelled("bios", "-"), Effect.LAYOUT, FIRMWARE + "; of several the last counts", key="firmware"),
    Entry(spelled("global", "-"), Effect.HARMLESS, "defaults of devices that are not in the devicetree", read=read_global),
    *harmless("disks, files and folders of the host's", "cdrom fda fdb hda hdb hdc hdd sd mtdblock fsdev virtfs iscsi add-fd"),
    *harmless("networks of the host's", "net netdev nic"),
    *harmless("consoles, monitors and screens, and where they are", "chardev mon monitor qmp qmp-pretty parallel debugcon echr display vnc "
              "spice k usbdevice vga audio audiodev", "nographic curses portrait full-screen"),
    *harmless("names, clocks and random numbers, which are in no memory", "name uuid rtc icount seed"),
    *harmless("tables and files that are asked of QEMU by the guest, and are not in memory", "fw_cfg smbios acpitable option-rom boot",
              "no-hpet no-fd-bootchk"),
    *harmless("a bus or a device that has no node", "tpmdev watchdog watchdog-action", "usb"),
    *harmless("where the host has RAM, and whether its pages are there", "mem-path overcommit", "mem-prealloc"),
    *harmless("how QEMU itself runs", "action chroot compat d D dfilter dump-vmstate gdb L msg pidfile plugin runas run-with sandbox "
              "semihosting-config tb-size trace rotate", "async-teardown S s snapshot nodefaults no-user-config daemonize no-reboot "
              "no-shutdown singlestep one-insn-per-tb only-migratable enable-sync-profile semihosting"),
    refused("it loads what no table places", "shim", "expected no such word"),
    refused(ELSEWHERE, "incoming loadvm", "expected a guest that begins by itself"),
    refused("rim-manifest does not read that file", "readconfig", "expected its words one by one"),
    Entry(spelled("preconfig", "-"), Effect.REFUSED, "the monitor may change the guest before it is made", "expected no such word", Takes.NOTHING),
    refused("it writes a file", "writeconfig", "expected no such word"),
    refused("what it changes is not known", "set", "expected no such word"),
]
GRAMMAR = Grammar("QEMU", WORDS, one_dash)


def take_backend(found: Sorted, machine: list[str]):
    """Without -m RAM is as large as the object that -machine names, and with it QEMU stops at another size."""
    name = next((word.removeprefix("memory-backend=") for word in machine if word.startswith("memory-backend=")), None)
    if name in found.backends and "memory" not in found.said:
        found.said["memory"] = [f"{size('-object: size', found.backends[name], 1)}B"]


def sort(words: list[str]) -> Sorted:
    found = GRAMMAR.sort(words, True)
    machine = parts(found.said["machine"][0]) if "machine" in found.said else []
    acpi = [word for word in machine if word.startswith("acpi=") and word.removeprefix("acpi=") not in OFF]
    if acpi and {"-no-acpi", "--no-acpi"} & set(found.kept):
        found.faults.append(f"-no-acpi and {shown(acpi[0])} of -machine: their order decides, expected one of them")
    take_backend(found, machine)
    rest = qemu_firmware.of_line(found, machine)
    if machine:
        found.said["machine"] = [joined(rest)]
    return found


def sort_rest(words: list[str]) -> Sorted:
    return GRAMMAR.sort(words, False)


def refuse_before(words: list[str]):
    GRAMMAR.refuse_before(words)
