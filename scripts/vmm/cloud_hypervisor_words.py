"""What each word of cloud-hypervisor does. All of it is remembered, and nothing was tried. It writes no devicetree, so that is handed in,
and what changes it alone is in it."""
from outside.faults import WrongWords
from outside.texts import shown

from .sorting import Effect, Entry, Given, Grammar, Sorted, Takes, spelled, two_dashes

ALONE, MANY = Takes.NOTHING, Takes.VALUES
# The words of --platform that change the devicetree or nothing.
PLATFORM = ("num_pci_segments", "iommu_segments", "iommu_address_width", "serial_number", "uuid", "oem_strings")


def once(name: str, texts: list[str]) -> str:
    if len(texts) > 1:
        raise WrongWords(f"{name}: it is given {len(texts)} times, expected once, as cloud-hypervisor takes it")
    return texts[0]


def read_platform(found: Sorted, given: Given):
    keys = [part.partition("=")[0] for part in given.value.split(",")]
    if unknown := [key for key in keys if key not in PLATFORM]:
        found.refuse(given, f"what {', '.join(map(shown, unknown))} changes is not known, expected {', '.join(PLATFORM)}")
    else:
        found.drop(given)


WORDS = [
    Entry(spelled("--cpus"), Effect.LAYOUT, "the processors: those of boot=, and no more, since a realm gets none later", key="smp", joined=once),
    Entry(spelled("--memory"), Effect.LAYOUT, "the size of RAM: that of size=, and no more, since a realm gets none later", key="memory", joined=once),
    Entry(spelled("--kernel"), Effect.LAYOUT, "the kernel", key="kernel", joined=once),
    Entry(spelled("--initramfs"), Effect.LAYOUT, "the initrd", key="initrd", joined=once),
    Entry(spelled("--cmdline"), Effect.LAYOUT, "the kernel's command line", key="append", joined=once),
    Entry(spelled("--platform"), Effect.TREE, "how many PCI segments there are, and names", read=read_platform),
    Entry(spelled("--serial --console --debug-console --tpm"), Effect.TREE, "a UART and a TPM have a node", takes=Takes.VALUE),
    Entry(spelled("--disk --net --fs --device --user-device --vdpa"), Effect.HARMLESS, "devices on PCI, which has a node anyway", takes=MANY),
    Entry(spelled("--vsock --rng --balloon"), Effect.HARMLESS, "a device on PCI, which has a node anyway"),
    Entry(spelled("--watchdog --pvpanic"), Effect.HARMLESS, "a device on PCI, which has a node anyway", takes=ALONE),
    Entry(spelled("--api-socket --event-monitor --log-file --seccomp --gdb"), Effect.HARMLESS, "how it runs itself"),
    Entry(spelled("--landlock-rules"), Effect.HARMLESS, "how it runs itself", takes=MANY),
    Entry(spelled("-v -vv -vvv --landlock --no-shutdown"), Effect.HARMLESS, "how it runs itself", takes=ALONE),
    Entry(spelled("--firmware"), Effect.REFUSED, "firmware is another layout, which no table has", "expected a line without it, with --kernel"),
    Entry(spelled("--restore"), Effect.REFUSED, "all of RAM comes from elsewhere then", "expected a guest that begins by itself"),
    Entry(spelled("--memory-zone"), Effect.REFUSED, "other RAM than that of --memory", "expected all RAM by --memory", MANY),
    Entry(spelled("--pmem"), Effect.REFUSED, "it adds memory that no table has", "expected --disk", MANY),
]
GRAMMAR = Grammar("cloud-hypervisor", WORDS, two_dashes)


def sort(words: list[str]) -> Sorted:
    return GRAMMAR.sort(words, True)


def sort_rest(words: list[str]) -> Sorted:
    return GRAMMAR.sort(words, False)


def refuse_before(words: list[str]):
    GRAMMAR.refuse_before(words)
