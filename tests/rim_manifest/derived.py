"""Devicetrees that are derived from dumps of other launches, against those that QEMU makes; and dumps from which none is derived."""
import hashlib
import itertools
import json
import os
import random
import shutil
import subprocess
from collections.abc import Callable, Iterator

from causes import qemu_tree
from helpers import MIB, SECONDS
from helpers.files import image, tree
from helpers.folders import Folder
from helpers.guests import INITRD, LOW, host
from helpers.tries import differs

from .written import read_by

QEMU = shutil.which("qemu-system-aarch64")


# ---- random lines


MACHINES = ("virt,gic-version=3", "virt,gic-version=max", "virt-7.1,gic-version=3", "virt-6.2,gic-version=3,its=off", "virt,gic-version=3,iommu=smmuv3",
            "virt,gic-version=3,acpi=off,usb=off", "virt,gic-version=3,highmem=off")
MODELS = ("cortex-a57", "cortex-a72", "neoverse-n1,pmu=on", "max")
OTHERS = ((), (), ("-serial", "null"), ("-device", "virtio-iommu-pci,addr=9"))
# How many times lines of one machine are drawn: each is 9 to 27 lines, of which 2 are dumps that are handed in.
FAMILIES = 6
LETTERS = "abc=,/ \"\\é"


class Family:
    """Lines of one machine: the values of each option, of which each combination is a launch."""

    def __init__(self, draw: random.Random):
        self.machine = draw.choice(MACHINES)
        others = () if "smmu" in self.machine else draw.choice(OTHERS)
        self.more = ["-machine", f"{self.machine},dtb-randomness=off", "-cpu", draw.choice(MODELS), "-kernel", "Image", *others]
        self.sizes = draw.sample((128, 200, 256, 301, 512, 1024, 2048) + (4096,) * ("highmem=off" not in self.machine), 2)
        self.counts = draw.sample(range(1, 17), 3)
        self.texts = [first + "".join(draw.choices(LETTERS, k=draw.randrange(most))) for first, most in zip("ab", draw.sample((1, 9, 60, 300), 2))]
        self.initrds = draw.choice(([""], ["small"], ["large"], ["large", ""]))

    def words(self, size: int, count: int, append: str, initrd: str) -> list[str]:
        return ["-m", f"{size}M", "-smp", str(count), *(["-initrd", initrd] if initrd else []), *(["-append", append] if append else [])]

    def dump(self, folder: Folder, path: str, *of_line) -> bytes:
        dumping = ["-machine", f"dumpdtb={path}", "-nodefaults", "-display", "none", "-S"]
        subprocess.run([str(QEMU), *self.more, *self.words(*of_line), *dumping], cwd=folder.path, capture_output=True, timeout=SECONDS, check=True)
        return folder.read(path)

    def asked(self, counts: list[int]) -> list[str]:
        """Returns the words that ask for all combinations, with processors of some numbers."""
        each = [*(f"--each-append={text}" for text in self.texts), *["--no-initrd"] * ("" in self.initrds and len(self.initrds) > 1)]
        lists = ["--each-memory", ",".join(f"{size}M" for size in self.sizes), "--each-smp", ",".join(map(str, counts)), *each]
        return [*lists, "--", "qemu-system-aarch64", *self.more, *self.words(self.sizes[0], counts[0], self.texts[0], self.initrds[0])]


def is_clear(status: int, out: str, said: str) -> bool:
    """Whether a refusal says why no devicetree is derived, and what to run on the target."""
    why = "no --dtb fits it, and its devicetree cannot be derived: "
    return (status, out) == (3, "") and why in said and "dumpdtb=" in said and "\n# --dtb " in said


def taken(family: Family, folder: Folder, counts: list[int], dumps: list[str]) -> list[str]:
    """Returns what is wrong with the devicetrees of all combinations: each is that of QEMU, byte for byte, or all are refused."""
    status, out, said = folder.run("qemu", "--host", "host.toml", "--out", "out", "--force", "--row", "psci=dumped", *given(dumps), *family.asked(counts))
    if status:
        return [] if is_clear(status, out, said) else [f"status {status}, {out!r}, {said!r}"]
    record, files = json.loads(folder.read("out/record.json")), {}
    for name in {launch["manifest"] for launch in record["launches"]}:
        files |= {each["name"]: item["file"] for each in folder.toml(f"out/{name}")["launch"] for item in each["item"] if item["kind"] == "dtb"}
    wrong, asked = [], list(itertools.product(family.sizes, counts, family.texts, family.initrds))
    for launch, of_line in zip(record["launches"], asked):
        made, expected = folder.read(f"out/{files[launch['name']]}"), family.dump(folder, "expected", *of_line)
        wrong += differs("words", [launch["words"][7], launch["words"][5], launch["append"]], [f"{of_line[0]}M", str(of_line[1]), of_line[2]])
        if made != expected:
            wrong.append(f"{family.more}, {launch['name']}: another one from byte {len(os.path.commonprefix([made, expected]))} on")
    return wrong + differs("launches", len(record["launches"]), len(asked)) + differs("derived", len(record["derived"]) >= len(asked) - len(dumps), True)


def by_qemu(seed: int):
    """Random lines of a machine: with one dump for one number of processors, and with two for three."""
    family = Family(random.Random(seed))
    with Folder({"Image": image(3 * MIB), "small": b"x" * 9001, "large": b"x" * (5 * MIB + 17)}) as folder:
        for number in (0, 1):
            family.dump(folder, f"dump-{number}", family.sizes[number], family.counts[number], family.texts[number], family.initrds[0])
        return taken(family, folder, family.counts, ["dump-0", "dump-1"]) + taken(family, folder, family.counts[:1], ["dump-0"])


# ---- dumps that are made here


BOOTARGS = "console=ttyAMA0"
PLACE = (0x4800_0000, 0x4800_0000 + len(INITRD))
WORDS = ["-M", "virt,gic-version=3", "-cpu", "cortex-a57", "-kernel", "Image", "-append", BOOTARGS]
LINE = ["--", "qemu-system-aarch64", *WORDS, "-M", "dtb-randomness=off", "-m", "512M"]
RAM_OBJECT = ["-object", "memory-backend-ram,id=r,size=512M"]
DUMPS = {"one": qemu_tree(initrd=None), "two": qemu_tree(count=2, initrd=None), "other": tree([(LOW, LOW + 512 * MIB)], BOOTARGS),
         "odd": qemu_tree(memory=256, model="arm,odd", initrd=None), "of-one": qemu_tree(initrd=PLACE), "of-two": qemu_tree(count=2, initrd=PLACE)}
# Dumps that fit a launch, and from which that of another one is not derived: the dumps, the words, and why.
REFUSED = [
    ("RAM by nodes", ["one"], ["--each-memory", "512M,1G", *LINE, "-numa", "node,memdev=r", *RAM_OBJECT], "one: -numa parts RAM and processors among nodes"),
    ("RAM of an object", ["one"], ["--each-memory", "512M,1G", *LINE, "-M", "memory-backend=r", *RAM_OBJECT], "one: memory-backend= of -machine has one size"),
    ("RAM at the windows", ["one"], ["--each-memory", "512M,255G,256G", *LINE], "launch 256G-", "one: RAM with the room for slots ends past 256 GiB"),
    ("room for slots", ["one"], ["--each-memory", "512M", "--each-memory", "1G,slots=2,maxmem=254G", *LINE], "one: RAM with the room for slots ends past"),
    ("processors by one dump", ["one"], ["--each-smp", "1,2", *LINE], "one: no other dump shows the step from 1 to 2 processors"),
    ("processors by sockets", ["one", "two"], ["--each-smp", "1,2", "--each-smp", "4,sockets=2", *LINE], "one: -smp has words beside the number of processors"),
    ("too many processors", ["one", "two"], ["--each-smp", "1,2,17", *LINE], "one: only up to 16 processors of one cluster are derived"),
    ("processors without a GIC", ["one", "two"], ["--each-smp", "1,2,3", *LINE[:2], "-M", "virt", *LINE[4:]], "one: the interrupt controller may depend on"),
    ("another model", ["one"], ["-m", "512M", *WORDS, "-cpu", "cortex-a72"], "one: it is of another -machine or -cpu"),
    ("two machines", ["one"], ["-m", "512M,1G", *WORDS, "-M", "virt-7.1,gic-version=3"], "one: it fits launches of several machines, and only one"),
    ("a long command line", ["one"], [f"--each-append={BOOTARGS}", f"--each-append={'a' * 900}", *LINE], "one: the command line is so long that the bytes"),
    ("an initrd that no dump has", ["one"], ["--no-initrd", "--each-initrd", "initrd", *LINE], "one: it has no initrd, so it does not show how long"),
    ("another writer", ["other"], ["--each-memory", "512M,1G", *LINE], "other: it is not written as QEMU writes a devicetree"),
    ("dumps of two machines", ["one", "odd"], ["-m", "256M,512M,1G", *WORDS[:3], "max", *WORDS[4:]], "one: it and odd differ in more than RAM"),
]


def given(dumps: list[str]) -> list[str]:
    return [word for path in dumps for word in ("--dtb", path)]


def refused(dumps: list[str], words: list[str], *says: str) -> list[str]:
    with Folder(DUMPS) as folder:
        outcome = folder.run("qemu", "--host", "host.toml", "--out", "out", *given(dumps), *words)
        return [] if is_clear(*outcome) and all(each in outcome[2] for each in says) and "out" not in folder.names() else [repr(outcome)]


def derived(program: str):
    """Two dumps become the devicetrees of all combinations. The record and the manifest have the dump of each that is derived, and what is changed."""
    sizes, counts, texts, initrds = (512, 1024, 8192), (1, 2, 3, 16), (BOOTARGS, "", "quiet a=b"), (PLACE, None)
    words = ["--each-memory", "512M,1G,8G", "--each-smp", "1,2,3,16", *(f"--each-append={text}" for text in texts), "--each-initrd", "initrd", "--no-initrd"]
    with Folder(DUMPS) as folder:
        status, out, said = folder.run("qemu", "--host", "host.toml", "--out", "out", *given(["of-one", "of-two"]), *words, *LINE)
        if status:
            return [f"status {status}, {out!r}, {said!r}"]
        explained = folder.run("qemu", "--explain", *given(["of-one", "of-two"]), *LINE)[1].splitlines()
        wrong = differs("explained", [line[10:] for line in explained if line.startswith("dump ")], ["--dtb of-one", "--dtb of-two"])
        wrong += differs("said", said, "rim-manifest: 70 of 72 devicetrees are derived from of-one, of-two\n")
        combinations = list(itertools.product(sizes, counts, texts, initrds))
        names = [launch["name"] for launch in json.loads(folder.read("out/record.json"))["launches"]]
        manifests = [folder.toml(f"out/manifest-{number}.toml") for number in (1, 2)]
        files = {each["name"]: each["item"][-1]["file"] for one in manifests for each in one["launch"]}
        wrong += [name for name, (memory, count, text, initrd) in zip(names, combinations)
                  if folder.read(f"out/{files[name]}") != qemu_tree(memory, count, text, initrd)] + differs("launches", len(names), len(combinations))
        record = json.loads(folder.read("out/record.json"))
        name = files["8G-smp3-Image-no-initrd-quiet_a_b-sha512"]
        wrong += differs("record", record["derived"][name], {
            "path": "of-one", "sha256": hashlib.sha256(DUMPS["of-one"]).hexdigest(), "launch": "512M-smp1-Image-initrd-console_ttyAMA0-sha512",
            "changed": ["number of processors", "RAM", "initrd", "command line"]})
        text = " ".join(folder.read("out/manifest-1.toml").decode().replace("\n#", "").split())
        wrong += differs("comment", 'derived from "of-one", the devicetree of launch 512M-smp1-Image-initrd-console_ttyAMA0-sha512; changed: RAM' in text, True)
        return wrong + read_by(program, folder, count=72)


# Launches of which a dump is missing: the words, and the dumps that are asked for, after which all others are derived.
NEEDED = [
    (["--each-memory", "512M,1G,2G", "--each-smp", "1,2,4,8"], {"512M-smp2-Image-no-initrd-console_ttyAMA0-sha512.dtb": qemu_tree(count=2, initrd=None)}),
    (["--each-memory", "512M,1G", "--each-initrd", "initrd", "--no-initrd"], {"512M-smp1-Image-initrd-console_ttyAMA0-sha512.dtb": DUMPS["of-one"]}),
    (["--each-smp", "1,2,3", "--each-initrd", "initrd", "--no-initrd"], {
        "512M-smp1-Image-initrd-console_ttyAMA0-sha512.dtb": DUMPS["of-one"], "512M-smp2-Image-initrd-console_ttyAMA0-sha512.dtb": DUMPS["of-two"]}),
    (["--each-memory", "512M,1G", "-cpu", "cortex-a57", "-cpu", "cortex-a72"], {
        "cortex-a72-512M-smp1-Image-no-initrd-console_ttyAMA0-sha512.dtb": qemu_tree(model="arm,cortex-a72", initrd=None)}),
]


def asked_for(words: list[str], dumps: dict[str, bytes]) -> list[str]:
    """The fault asks for as few dumps as it takes, and with them nothing is refused."""
    with Folder(DUMPS | dumps) as folder:
        line = ["qemu", "--host", "host.toml", "--out", "out", *given(["one"]), *words]
        outcome = folder.run(*line, *LINE)
        last = outcome[2].splitlines()[-1]
        wrong = differs("asked", (is_clear(*outcome), last), (True, "# " + " ".join(given(list(dumps)))))
        return wrong + differs("with them", folder.run(*line, *given(list(dumps)), *LINE)[0], 0)


def tries(program: str) -> Iterator[tuple[str, Callable[[], list[str]]]]:
    yield "derived devicetrees", lambda: derived(program)
    for name, *each in REFUSED:
        yield f"no devicetree is derived: {name}", lambda each=each: refused(*each)
    for number, each in enumerate(NEEDED):
        yield f"dumps that are asked for, {number}", lambda each=each: asked_for(*each)
    if QEMU is None:
        print("derived devicetrees are not compared with those of QEMU: there is no qemu-system-aarch64")
    for seed in range(FAMILIES if QEMU else 0):
        yield f"derived devicetrees of QEMU's, {seed}", lambda seed=seed: by_qemu(seed)
