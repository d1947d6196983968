"""A guest of each hypervisor: its files and its words for rim-manifest, and programs that stand in for the hypervisors."""
import os

from outside.parameters import RMM_1_0

from . import MIB, TOP
from .files import image, tree

START = os.path.join(TOP, "rim-manifest")
LINES = os.path.join(TOP, "tests", "lines")

# A machine with what is usual of each number, a PMU and no SVE.
HOST = {each.key: str(each.usual[0]) for each in RMM_1_0 if each.flag != "sve"} | {"sve": "false", "pmu": "true", "block_level": "2",
        "rec_rule": '"runnable"', "s2sz_max": "48"}


def host(**changes) -> bytes:
    """The file of --host; None leaves a key out."""
    return "".join(f"{key} = {value}\n" for key, value in (HOST | changes).items() if value is not None).encode()


LOW = 0x4000_0000
INITRD = bytes(n * 91 % 253 for n in range(9001))
WITH_INITRD = (0x4800_0000, 0x4800_0000 + len(INITRD))
FILES = {
    "Image": image(), "initrd": INITRD, "host.toml": host(), "tree": tree([(LOW, LOW + 256 * MIB)]),
}
OTHER_IMAGE = image(length=30_000)
QEMU = ["qemu", "-M", "virt,gic-version=3", "-cpu", "max", "-m", "256M", "-kernel", "Image", "--host", "host.toml", "--out", "out"]
WITH_TREE = [*QEMU, "--dtb", "tree"]
KVMTOOL = ["kvmtool", "-c", "1", "-m", "256", "-k", "Image", "--host", "host.toml", "--out", "out", "--dtb", "tree"]
CLOUD = ["cloud-hypervisor", "--kernel", "Image", "--host", "host.toml", "--out", "out", "--dtb", "tree"]

# It takes QEMU's place: it copies a devicetree of the folder `trees` to the path of dumpdtb=, one for each -m, -smp and -append, and for
# the kernel's name where there is such a one.
STAND_IN = r"""#!/bin/sh
here=$(dirname "$0")
[ "$1" = --version ] && echo "QEMU emulator version 10.0.2 (a stand-in)" && exit
args=none
printf '%s\n' "$@" >>"$here/said"
while [ $# -gt 0 ]; do
    case $1 in
    -machine) path=${2#*dumpdtb=} path=${path%,dtb-randomness=off} ;;
    -m) memory=$2 ;;
    -smp) processors=$2 ;;
    -append) args=$2 ;;
    -kernel) [ -f "$2" ] && kernel=$(basename "$2") ;;
    esac
    shift
done
[ -f "$here/fail" ] && { echo "first" >&2; echo "a stand-in: no such word" >&2; exit 1; }
[ -d "$here/1" ] && { printf x >>"$here/count"; here=$here/$(wc -c <"$here/count" | tr -d ' '); }
tree=$here/trees/$memory-$processors-$args
[ -f "$tree-$kernel" ] && tree=$tree-$kernel
cp "$tree" "$path"
"""
# It takes lkvm's place, which goes on with the guest once it has written the devicetree.
LKVM = r"""#!/bin/sh
[ "$1" = --version ] && echo "kvm tool 3.18" && exit
while [ $# -gt 0 ]; do
    [ "$1" = --dump-dtb ] && path=$2
    shift
done
cp "$(dirname "$0")/tree" "$path"
exec sleep 30
"""


def without(words: list[str], name: str) -> list[str]:
    at = words.index(name)
    return words[:at] + words[at + 2:]


def replaced(words: list[str], name: str, value: str) -> list[str]:
    at = words.index(name)
    return words[:at + 1] + [value] + words[at + 2:]


def changed_host(**changes):
    return {"host.toml": host(**changes)}


def changed_tree(**changes):
    return {"tree": tree(changes.pop("ram", [(LOW, LOW + 256 * MIB)]), **changes)}


GIC_2 = {"intc@8000000": {"compatible": b"other\0arm,cortex-a15-gic\0", "interrupt-controller": b""}}

# Command lines that no launch can be made of: a name, the hypervisor, the text, the status and what a line on standard error has.
HAND = "qemu-system-aarch64 -M virt,gic-version=3 -cpu max -m 256M -kernel Image"
LKVM_HAND = "lkvm run -c 1 -m 256 -k Image"


LINE_OF = ["--host", "host.toml", "--out", "out", "--dtb", "tree"]

NO_PCIE = {"pcie@10000000": None}

TREES = {"trees/256M-1-none": FILES["tree"], "trees/256M-2-none": tree([(LOW, LOW + 256 * MIB)], count=2)}
