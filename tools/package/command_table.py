"""The words of the command lines of `rim` and of its scripts: what tools/package/completions.py writes and tools/checks/man.py checks.

A value or an operand has a kind:

    manifest   a path, first of all of a TOML file
    launch     a name that a launch of the manifest on the line has
    file       a path
    folder     a path of a folder
    program    a program, by its name or its path
    text       what nobody can complete
    a tuple    one of these words
"""
import dataclasses
import re

MANIFEST, LAUNCH, FILE, FOLDER, PROGRAM, TEXT = "manifest", "launch", "file", "folder", "program", "text"
# What the shells show beside a word. Each has its own quotes, so a text has no character that any of them quotes.
ABOUT = re.compile(r"[A-Za-z0-9][A-Za-z0-9 ,./-]*")
WORD = re.compile(r"[A-Za-z0-9][A-Za-z0-9,._-]*")


@dataclasses.dataclass(frozen=True)
class Option:
    """An option by its names, each with its dashes. One without a value is a flag."""

    names: tuple[str, ...]
    about: str
    value: str | tuple[str, ...] | None = None


@dataclasses.dataclass(frozen=True)
class Command:
    """A subcommand with the kinds of its operands, in their order, and its options."""

    name: str
    about: str
    operands: tuple[str | tuple[str, ...], ...] = ()
    options: tuple[Option, ...] = ()
    without: tuple[str, ...] = ()   # names of options of all subcommands that it has not, or has itself
    repeats: bool = False           # its last operand may come again


# The name in the place of a subcommand's, of a program that has none.
ALONE = "alone"


@dataclasses.dataclass(frozen=True)
class Program:
    """A program with its subcommands, the options of all of them, and those that it takes instead of a subcommand. One that has no
    subcommands is one of the name `alone`, which is on no line."""

    name: str
    commands: tuple[Command, ...]
    common: tuple[Option, ...]
    alone: tuple[Option, ...] = ()

    @property
    def is_alone(self):
        return [command.name for command in self.commands] == [ALONE]

    def options_of(self, command):
        """The options that may come after a subcommand."""
        return (*command.options, *(option for option in self.common if not set(option.names) & set(command.without)))

    def options_before(self):
        """The options that may come where no subcommand is given yet."""
        return (*self.common, *self.alone)


HELP = Option(("-h", "--help"), "Print help")
VERSION = Option(("-V", "--version"), "Print version")

OUTPUT = Option(("-o", "--output"), "The file that gets the output", FILE)
EXPLAIN = Option(("--explain",), "After a fault or a refusal, say why")

RIM = Program(
    "rim",
    (
        Command("measure", "Print the measurement of each launch of a manifest", (MANIFEST,), (
            Option(("--workers",), "How many threads hash pages, 1 to 64", TEXT),
            Option(("--json",), "The report as one JSON object"),
            OUTPUT, EXPLAIN,
        )),
        Command("list", "Print the commands that build the realm of a launch", (MANIFEST, LAUNCH), (OUTPUT, EXPLAIN)),
        Command("trace", "Print the measurement of a launch step by step", (MANIFEST, LAUNCH), (OUTPUT, EXPLAIN)),
        Command("map", "Print where the items of a launch are", (MANIFEST, LAUNCH), (
            Option(("--json",), "The map as one JSON object"),
            OUTPUT, EXPLAIN,
        )),
        Command("audit", "Print each measurement as a monitor holds it", (MANIFEST,), (OUTPUT, EXPLAIN)),
        Command("check", "Print what is wrong with a manifest", (MANIFEST,), (
            Option(("--quiet",), "Print no warnings"),
            Option(("--json",), "What is found as one JSON object"),
            OUTPUT,
        )),
        Command("dtb", "Write the devicetree of a launch", (MANIFEST, LAUNCH), (OUTPUT, EXPLAIN)),
        Command("replay", "Say whether a listing is what it says", (FILE,), (EXPLAIN,)),
        Command("image", "Print the header of an arm64 kernel Image", (FILE,), (EXPLAIN,)),
        Command("fdt", "Print a flattened devicetree", (FILE,), (EXPLAIN,)),
    ),
    (HELP,),
    (VERSION,),
)

# ---- rim-manifest, whose own `--help` tools/checks/man.py compares with this

RIM_MANIFEST = Program(
    "rim-manifest",
    (
        Command("qemu", "A manifest from the words of QEMU", (), (
            Option(("-machine", "--machine", "-M", "--each-machine"), "The machine, virt and its words", TEXT),
            Option(("-cpu", "--cpu", "--each-cpu"), "The processor model and its words", TEXT),
            Option(("-smp", "--smp", "--each-smp"), "Numbers of processors", TEXT),
            Option(("-m", "--memory", "--each-memory"), "Sizes of RAM", TEXT),
            Option(("-kernel", "--kernel", "--each-kernel"), "A kernel", FILE),
            Option(("-bios",), "Firmware", FILE),
            Option(("-initrd", "--initrd", "--each-initrd"), "An initrd", FILE),
            Option(("-append", "--append", "--each-append"), "A command line of the kernel", TEXT),
            Option(("-dtb",), "The devicetree that QEMU itself is given", FILE),
            Option(("--qemu",), "QEMU itself, which makes the devicetrees", PROGRAM),
            Option(("--approximate-cpu",), "The processor of devicetrees that are not those of the realm", TEXT),
            Option(("--stub",), "Whether the boot stub is part of the realm", ("none", "measured")),
        )),
        Command("kvmtool", "A manifest from the words of kvmtool", (), (
            Option(("-c", "--cpus", "--smp", "--each-smp"), "Numbers of processors", TEXT),
            Option(("-m", "--mem", "--memory", "--each-memory"), "Sizes of RAM", TEXT),
            Option(("-k", "--kernel", "--each-kernel"), "A kernel", FILE),
            Option(("-f", "--firmware"), "Firmware", FILE),
            Option(("--firmware-address",), "Where the firmware is loaded", TEXT),
            Option(("-i", "--initrd", "--each-initrd"), "An initrd", FILE),
            Option(("-p", "--params", "--append", "--each-append"), "A command line of the kernel", TEXT),
            Option(("--lkvm",), "lkvm itself, which makes the devicetrees", PROGRAM),
        )),
        Command("cloud-hypervisor", "A manifest from the words of cloud-hypervisor", (), (
            Option(("--cpus", "--smp", "--each-smp"), "Numbers of processors", TEXT),
            Option(("--memory", "--each-memory"), "Sizes of RAM", TEXT),
            Option(("--kernel", "--each-kernel"), "A kernel", FILE),
            Option(("--initramfs", "--initrd", "--each-initrd"), "An initrd", FILE),
            Option(("--cmdline", "--append", "--each-append"), "A command line of the kernel", TEXT),
        )),
        Command("settle", "Which alternatives give the measurement of a machine", (("qemu", "kvmtool", "cloud-hypervisor"),), (
            Option(("--rim",), "The measurement that the machine gave", TEXT),
            Option(("--rim-file",), "A file with that measurement", FILE),
            Option(("--trace",), "The measurement after each step", FILE),
            Option(("--guests",), "More guests of the machine with their measurements", FILE),
            Option(("--limit",), "Stop after this many launches", TEXT),
            Option(("--out",), "The file about the host that is written", FILE),
            Option(("--qemu",), "QEMU itself, which makes the devicetrees", PROGRAM),
            Option(("--lkvm",), "lkvm itself, which makes the devicetrees", PROGRAM),
        ), ("--append-file", "--no-initrd", "--algo", "--s2sz", "--kernel-pages", "--dtb-pages", "--order", "--out", "--short-names", "--measure",
            "--json", "--explain", "--rules")),
    ),
    (
        Option(("--line",), "A file with the command line of the hypervisor", FILE),
        Option(("--append-file",), "A file with one command line a line", FILE),
        Option(("--no-initrd",), "A launch without initrd too"),
        Option(("--algo",), "Hash algorithms", ("sha256", "sha512", "sha256,sha512")),
        Option(("--host",), "What only the machine knows, a TOML file", FILE),
        Option(("--dtb",), "A devicetree as the hypervisor loads it", FILE),
        Option(("--s2sz",), "The width of an IPA in bits", TEXT),
        Option(("--kernel-pages",), "Which pages of the kernel are measured", ("file", "image_size")),
        Option(("--dtb-pages",), "Which pages of the devicetree are measured", ("whole", "used")),
        Option(("--order",), "The order in which the realm is built", ("address", "kind", "ram,kernel,initrd,dtb,rec")),
        Option(("--row",), "The alternative of a row that a realm may change", TEXT),
        Option(("--out",), "The folder that is written", FOLDER),
        Option(("--force",), "Replace what was made before"),
        Option(("--short-names",), "Names of launches without what there is one of"),
        Option(("--measure",), "Measure the launches at once"),
        Option(("--json",), "With --measure, the report as JSON"),
        Option(("--explain",), "Print what each word does"),
        Option(("-C",), "Do all as if started in this folder", FOLDER),
        Option(("--rules",), "Print the tables of the hypervisor"),
        HELP,
    ),
    (Option(("--version",), "Print version"),),
)

# ---- the scripts without subcommands, whose own `--help` is compared with this too


def script(name, operands, *options, repeats=False):
    return Program(name, (Command(ALONE, "", operands, (*options, HELP, VERSION), repeats=repeats),), ())


RIM_MATCH = script(
    "rim-match", (MANIFEST, LAUNCH, TEXT),
    Option(("--also",), "Another manifest, whose launches are tried too", FILE),
    Option(("--kept",), "A report that was kept", FILE),
    Option(("--file",), "Other contents of a file of the manifest", TEXT),
    Option(("--append-file",), "A file with one command line a line", FILE),
    Option(("--qemu",), "QEMU, which makes devicetrees anew", PROGRAM),
    Option(("--far",), "Go on with two and three changes of all kinds"),
    Option(("--limit",), "Stop after this many launches", TEXT),
    Option(("--seconds",), "Stop after this many seconds", TEXT),
    Option(("--nearest",), "Which launch shares the longest beginning with a trace", FILE),
    Option(("--contents",), "A file to look in for what differs", FILE),
    Option(("--axes",), "Print what may be changed"),
)
RIM_COMPARE = script(
    "rim-compare", (FILE,),
    Option(("--kept",), "Another kept report", FILE),
    Option(("--json",), "Print one JSON object in place of lines"),
    repeats=True,
)
RIM_PAGE = script(
    "rim-page", (MANIFEST,),
    Option(("--before",), "Say what changed since a report that was kept", FILE),
    Option(("--signed",), "A file that is to be signed", FILE),
    Option(("--diff",), "The page of two launches, side by side"),
    Option(("--svg",), "The map of a launch alone, as a picture"),
    Option(("--out",), "The file that gets the page", FILE),
    Option(("--force",), "Replace that file"),
    Option(("-o", "--output"), "The file that gets the picture", FILE),
    repeats=True,
)
RIM_VERIFY = script(
    "rim-verify", (FILE,),
    Option(("--cpak",), "A file of attestation keys of the platform", FILE),
    Option(("--nonce",), "The challenge that you sent, in hexadecimal digits", TEXT),
    Option(("--no-nonce",), "Accept any challenge"),
    Option(("--platform",), "Expected values of the platform", FILE),
    repeats=True,
)
RIM_ENDORSE = script(
    "rim-endorse", (FILE,),
    Option(("--vendor",), "The vendor of the class", TEXT),
    Option(("--class-id",), "The identifier of the class", TEXT),
    Option(("--no-mkey",), "Leave the names of launches out"),
    Option(("--corim",), "Write an unsigned CoRIM in CBOR too", FILE),
    Option(("--profile",), "The profile of the CoRIM", TEXT),
    Option(("--in-toto",), "Print the report as an in-toto statement"),
    repeats=True,
)
SCRIPTS = (RIM_MATCH, RIM_COMPARE, RIM_PAGE, RIM_VERIFY, RIM_ENDORSE)
PROGRAMS = (RIM, RIM_MANIFEST, *SCRIPTS)


def check_texts():
    """Refuses a table with a text that a shell would have to quote."""
    for program in PROGRAMS:
        options = [option for command in program.commands for option in command.options] + [*program.common, *program.alone]
        abouts = [each.about for each in (*program.commands, *options) if each.about]
        words = [word for option in options if isinstance(option.value, tuple) for word in option.value]
        words += [command.name for command in program.commands] + [name.lstrip("-") for option in options for name in option.names]
        bad = [text for text in abouts if not ABOUT.fullmatch(text)] + [word for word in words if not WORD.fullmatch(word)]
        if bad:
            raise ValueError(f"{program.name}: a shell would have to quote {bad[0]!r}")


check_texts()
