"""Command lines as people have them: those of tests/lines, each with the launch that was worked out by hand beside it; and texts as a shell
reads them."""
import os
import random
import re
import shutil
import subprocess
import tomllib
from collections.abc import Callable, Iterator

from helpers import MIB, SECONDS
from helpers.files import image, tree
from helpers.folders import Folder
from helpers.guests import HAND, INITRD, LINES, LOW, NO_PCIE, host
from helpers.tries import differs
from outside.faults import Fault
from vmm.lines import Text, of_file, read

from .written import first, read_by, recorded

# Prints the words of each command `f`, and how its end is known.
SHELL = "f() { for w; do printf '%s\\001' \"$w\"; done; printf '\\002'; }\n"
PIECES = ["a", "b", " ", "'", '"', "\\", "\n", "#", "\t", "\\\n", "-x", "é", "=", "%", "!", "^", "]", "}", ",", "f ", ";"]


def read_by_shell(text: str, folder: str, shell: str = "sh") -> list[list[str]] | None:
    """The words of each command `f` of a text as a shell of this machine reads them; None where it takes no such text."""
    ran = subprocess.run([shell, "-c", SHELL + text], capture_output=True, check=False, cwd=folder, timeout=SECONDS)
    found = [words.split("\1")[:-1] for words in ran.stdout.decode(errors="replace").split("\2")[:-1]]
    return None if b"yntax error" in ran.stderr or b"nterminated" in ran.stderr else found


def as_a_shell(_program: str):
    """Texts are read as the shell of this machine reads them, in which other commands are unknown."""
    wrong, draw, count = [], random.Random(1), 0
    with Folder() as folder:
        for _ in range(300):
            text = "f " + "".join(draw.choice(PIECES) for _ in range(draw.randrange(1, 14)))
            try:
                has = [each.words[1:] for each in read(Text("text", text)) if each.words[0] == "f"]
            except Fault:
                continue
            expected = read_by_shell(text, folder.path)
            if expected is not None:
                wrong += differs(ascii(text), has, expected)
                count += 1
    return wrong + differs("many are read", count > 50, True)


# What a random script sets variables and arrays to, and where it uses them.
SETS = ["A=x", "A='x  y'", 'A=" x "', "B=", "B=$A", 'B="$A z"', "B=${A}z", "A='*'", "export B='p q'", "A=x; B=y", "A=x |\n echo >a", "echo >a && A=y", "A=x &", "A='a\"b'"]
ARRAYS = ["L=(a 'b c')", "L+=($A d)", "L=(\n# none\n$B \"$B\"\n)", "L=()"]
USES = ["$A", "${B}", '"$A"', "'$A'", '"-$B-"', "a", " ", '"', "\\$A", '""', "e=$A", "\n", "'q r'"]


def variables(_program: str):
    """Variables that lines set are read as the shell of this machine reads them, and arrays as bash does, if it is installed."""
    wrong, draw, counts = [], random.Random(2), {}
    with Folder() as folder:
        for number in range(400):
            shell, sets, uses = ("sh", SETS, USES) if number % 2 else ("bash", SETS + ARRAYS, [*USES, ' "${L[@]}" '])
            text = "\n".join([*(draw.choice(sets) for _ in range(draw.randrange(1, 5))), "f " + "".join(draw.choice(uses) for _ in range(draw.randrange(1, 7)))])
            try:
                has = [each.words[1:] for each in read(Text("text", text)) if each.words[0] == "f" and each.expands is None]
            except Fault:
                continue
            expected = read_by_shell(text, folder.path, shell) if has and shutil.which(shell) else None
            if expected is not None:
                wrong += differs(f"{shell}: {text!a}", has, expected)
                counts[shell] = counts.get(shell, 0) + 1
    return wrong + differs("many are read", min(counts.values()) > 50, True)


# What may come before a command line.
BEFORE = ["#!/bin/sh\n# a ( comment \\\n", "set -eu -o pipefail; export A B=c\necho \"$A\" ${B} * &&\n", "A=b C='d e'\n", "sudo -E -u root A=b ", "A=b env -i -u C D=e ",
          "exec nohup setsid -w nice -n 5 ionice -c2 -n 7 ", "time -p timeout -k 5 --signal=INT 1h ", "taskset -c 0-3 chrt -f 1 ", "doas -u root ",
          "numactl -C 0-3 --membind=0 -l stdbuf -oL -e 0 ", "/usr/bin/env nice -10 /usr/bin/sudo ",
          "2026-11-02 09:14:07.512+0000: starting up; can't (\n", "\t>log 2>&1 \\\n ", "command -v qemu-system-aarch64 >/dev/null || exit 1\n",
          "which qemu-system-aarch64 || { echo none; exit 1; }\nqemu-system-aarch64 --version\n", "echo qemu-system-aarch64 -M virt\n",
          "if ! command -v qemu-system-aarch64 >/dev/null 2>&1; then\n  echo none\n  exit 1\nfi\n", "[ -e Image ] && [ -r * ]\n", "$ ", "gdb -q --args ", "$ strace -f -o log -e trace=openat prlimit --memlock=unlimited --nofile=1024 "]
# A unit of systemd, and the words after the program.
UNIT = """[Unit]
Description=a realm (of %i; "odd)
After=network.target

[Service]
# ExecStart=other
Type=simple
ExecStart=-/usr/bin/qemu-system-aarch64 -M virt \\
    -append "console=ttyAMA0 a" -name 'a;b' -fw_cfg name=opt/~,string={a}*
Restart=always
WorkingDirectory=/srv

[Install]
WantedBy=multi-user.target
"""
OF_UNIT = ["-M", "virt", "-append", "console=ttyAMA0 a", "-name", "a;b", "-fw_cfg", "name=opt/~,string={a}*"]
# Scripts that set what they use, each with the words after the program.
SCRIPTS = [
    ("K=Image\nD=/a\nQ=qemu-system-aarch64\nexport M\n$Q -kernel $D/$K -initrd \"${D}/b c\" -append 'a $K'", ["-kernel", "/a/Image", "-initrd", "/a/b c", "-append", "a $K"]),
    ('O="-m 1G  -smp 2"\nQ=/usr/bin/qemu-system-aarch64; E=\nexec "$Q" $O -append "$O" $E', ["-m", "1G", "-smp", "2", "-append", "-m 1G  -smp 2"]),
    ('M=2G  # RAM\nargs=(\n  -m $M   # RAM\n  -append "a b"\n)\nargs+=(-smp 2)\nqemu-system-aarch64 "${args[@]}" -S',
     ["-m", "2G", "-append", "a b", "-smp", "2", "-S"]),
    ('cmd=(sudo -E qemu-system-aarch64 -m 1G)\n"${cmd[@]}" -S', ["-m", "1G", "-S"]), ("M=1G &&\nqemu-system-aarch64 -m $M", ["-m", "1G"]),
]


def known(_program: str):
    """Known prefixes and harmless commands before the program are skipped."""
    wrong = []
    for before in BEFORE:
        with Folder({"l": (before + HAND).encode()}) as folder:
            wrong += differs(before, of_file(os.path.join(folder.path, "l"), "qemu-system-aarch64", "QEMU", False), HAND.split()[1:])
    for script, expected in SCRIPTS:
        with Folder({"l": script.encode()}) as folder:
            wrong += differs(script, of_file(os.path.join(folder.path, "l"), "qemu-system-aarch64", "QEMU", False), expected)
    with Folder({"l": UNIT.encode()}) as folder:
        wrong += differs("a unit", of_file(os.path.join(folder.path, "l"), "qemu-system-aarch64", "QEMU", True), OF_UNIT)
    with Folder({"l": f"cd other\n{HAND}".encode()}) as folder:
        wrong += differs("cd with -C", of_file(os.path.join(folder.path, "l"), "qemu-system-aarch64", "QEMU", True), HAND.split()[1:])
    return wrong


# What random lines are drawn of: sizes of RAM by their words, kernels, lengths of initrds, firmware, and rows of which up to two are drawn.
SIZES = {"96": 96 * MIB, "128M": 128 * MIB, "255": 255 * MIB, "1000M": 1000 * MIB, "1G": 1024 * MIB, "1536": 1536 * MIB, "3071": 3071 * MIB,
         "2G": 2048 * MIB, "3G": 3072 * MIB, "4G": 4096 * MIB, "5120": 5120 * MIB, "7G": 7168 * MIB, "15G": 15360 * MIB, "31G": 31744 * MIB}
KERNELS = {"Image": (2 * MIB, 0), "big": (40 * MIB, 4096), "old": (MIB, 0x80000)}
INITRDS = {"i": 9001, "j": 2 * MIB, "k": 5 * MIB + 17}
FIRMWARE = {"f": 9001, "g": 2 * MIB}
ROWS = [["--row", "host_pages=64k"], ["--row", "ram=each"], ["--order", "kind"], ["--kernel-pages", "image_size"], ["--dtb-pages", "used"],
        ["--row", "rec_rule=all"], ["--stub", "measured"]]


def drawn(draw: random.Random) -> tuple[list[str], list[str], bytes]:
    """Returns rows, the words of a line of QEMU, and its devicetree."""
    memory, count, kernel, initrd = draw.choice([*SIZES]), draw.choice((1, 2, 3, 8)), draw.choice([*KERNELS]), draw.choice([None, *INITRDS])
    image_size, text_offset = KERNELS[kernel]
    base = LOW + (2 * MIB if text_offset < 4096 else 0)
    at = -(-max(LOW + min(SIZES[memory] // 2, 128 * MIB), base + text_offset + image_size) // 4096) * 4096
    words = ["-M", "virt,gic-version=3,dtb-randomness=off", "-cpu", "max", "-m", memory, "-smp", str(count)]
    rows = [word for row in draw.sample(ROWS, draw.randrange(3)) for word in row]
    if draw.random() < 0.25:
        rows += draw.choice(([], ["--row", "firmware_ram=whole"]))
        return rows, [*words, "-bios", draw.choice([*FIRMWARE])], tree([(LOW, LOW + SIZES[memory])], count=count)
    place = (at, at + INITRDS[initrd]) if initrd else None
    return rows, [*words, "-kernel", kernel] + ["-initrd", initrd] * bool(initrd), tree([(LOW, LOW + SIZES[memory])], initrd=place, count=count)


RANDOM = range(8)


def usual(seed: int) -> list[str]:
    """`rim check` gives no warning about the manifests of 25 right lines, of which few are refused. This is for a process of its own."""
    files = {name: image(*rest) for name, rest in KERNELS.items()} | {name: (b"070701" * length)[:length] for name, length in INITRDS.items()}
    files |= {name: bytes(n * 7 % 251 for n in range(length)) for name, length in FIRMWARE.items()}
    wrong, draw, count = [], random.Random(seed), 0
    with Folder(files) as folder:
        for _ in range(25):
            rows, words, made = drawn(draw)
            folder.put("tree", made)
            status, _, _ = folder.run_here("qemu", "--host", "host.toml", "--out", "out", "--force", "--dtb", "tree", *rows, "--",
                                           "qemu-system-aarch64", *words)
            if status == 0:
                count += 1
                ran = subprocess.run([os.environ["RIM"], "check", "manifest.toml"], cwd=os.path.join(folder.path, "out"), capture_output=True, timeout=SECONDS,
                                     check=False)
                wrong += differs(" ".join([*rows, "--", *words]), (ran.returncode, ran.stdout + ran.stderr), (0, b""))
    return wrong + differs("many are made", count > 20, True)


def line(program: str, name: str):
    """How the launch of a command line of tests/lines differs from what is beside it, which was worked out by hand."""
    with open(os.path.join(LINES, name + ".toml"), "rb") as file:
        expected = tomllib.load(file)
    at, length = expected["at"], len(INITRD)
    is_qemu = expected["hypervisor"] == "qemu"
    made = tree(expected["ram"], expected["bootargs"], (at["initrd"], at["initrd"] + length) if "initrd" in at else None, expected["recs"],
                MIB if is_qemu else None, **NO_PCIE if expected["s2sz"] < 41 else {},
                **{} if expected.get("host", {}).get("pmu", True) else {"pmu": None})
    about = host(**{} if expected.get("host", {}).get("pmu", True) else {"pmu": "false", "pmu_num_ctrs": None})
    with Folder({"tree": made, "host.toml": about}) as folder:
        for path in os.listdir(LINES):
            shutil.copy(os.path.join(LINES, path), folder.path)
        status, _, said = folder.run(expected["hypervisor"], *expected["options"], "--host", "host.toml", "--out", "out", "--dtb", "tree")
        if status or ("has no dtb-randomness=off, which is added" in said) != expected.get("warns", False) or said.count("\n") > 1:
            return [f"status {status}, {said!r}"]
        launch, record = first(folder), recorded(folder)
        wrong = differs("launches", len(folder.toml()["launch"]), 1)
        for key in ("name", "algo", "rpv", "s2sz", "ram"):
            wrong += differs(key, launch.get(key), expected.get(key))
        wrong += differs("items", {item["name"]: item["at"] for item in launch["item"]}, at)
        recs = [{"pc": hex(expected["pc"]), "x": [hex(each) for each in expected.get("x", [])]}]
        wrong += differs("rec", launch["rec"], recs + [{"runnable": False}] * (expected["recs"] - 1))
        wrong += differs("words", record["words"], expected["words"]) + differs("rest", record["rest"], expected["rest"])
        wrong += differs("append", record["append"], expected["bootargs"])
        return wrong + read_by(program, folder, count=1)


# Of the lines of libvirt's tests, those of other RAM in MiB or of more processors, with the devicetree's address.
OF_LIBVIRT = {"aarch64-default-cpu-kvm-virt-4.2.aarch64-latest": (4096, 1, 0x4800_0000), "aarch64-default-cpu-tcg-virt-4.2.aarch64-latest": (
    4096, 1, 0x4800_0000), "aarch64-usb-controller-nec-xhci": (214, 1, 0x46C0_0000), "aarch64-usb-controller-qemu-xhci": (214, 1, 0x46C0_0000),
    "clock-timer-armvtimer.aarch64-latest": (4096, 4, 0x4800_0000)}


def of_libvirt(program: str) -> Iterator[tuple[str, Callable[[], list[str]]]]:
    """The lines of libvirt's tests, with GIC 3 and a 64-bit processor, and files of these tests in the place of theirs."""
    with open(os.path.join(LINES, "libvirt.txt"), encoding="utf-8") as file:
        found = [each.split("\n", 1) for each in re.split(r"(?:\A|\n)# (?=[a-z0-9.-]+\n)", file.read())[1:]]
    for name, text in found:
        has = {key: f"-{key} " in text for key in ("kernel", "initrd", "dtb")}
        ram, count, at = OF_LIBVIRT.get(name, (1024, 1, 0x4820_0000 if has["initrd"] else 0x4800_0000))
        text = text.replace("/aarch64.kernel", "Image").replace("/aarch64.initrd", "initrd").replace("/aarch64.dtb", "tree").rstrip("\n")
        text += " -M gic-version=3" + " -cpu cortex-a57" * (not re.search("-cpu (host|cortex-a5)", text)) + " -kernel Image" * (not has["kernel"])
        append = re.search("-append (?:'(.*?)'|(\\S+))", text)
        made = tree([(LOW, LOW + ram * MIB)], (append[1] or append[2]) if append else "", (0x4800_0000, 0x4800_0000 + len(INITRD)) if has["initrd"] else None,
                    count, **{} if "cortex" not in text else {"cpus": processors(re.findall("-cpu (cortex-a[0-9]+)", text)[-1])})
        yield f"line of libvirt's {name}", lambda each=(text, made, [] if has["dtb"] else ["--dtb", "tree"], ram, count, at): taken(program, *each)


def processors(model: str) -> dict:
    """The one processor of a devicetree."""
    return {"#address-cells": b"\0\0\0\1", "cpu@0": {"compatible": f"arm,{model}\0".encode(), "reg": bytes(4)}}


def taken(program: str, text: str, made: bytes, words: list[str], ram: int, count: int, at: int) -> list[str]:
    about = host(sve="true", sve_vl="3") if "sve512=on" in text else host()
    with Folder({"tree": made, "l": text.encode(), "host.toml": about}) as folder:
        status, _, said = folder.run("qemu", "--line", "l", "--host", "host.toml", "--out", "out", *words)
        if status:
            return [said]
        launch = first(folder)
        wrong = differs("ram", launch["ram"][-1:], [[LOW, LOW + ram * MIB]]) + differs("RECs", len(launch["rec"]), count)
        wrong += differs("items", {item["name"]: item["at"] for item in launch["item"] if item["name"] in ("kernel", "dtb")},
                         {"kernel": 0x4020_0000, "dtb": at})
        return wrong + read_by(program, folder, count=1)


def lines(program: str):
    yield from of_libvirt(program)
    for name in sorted(os.listdir(LINES)):
        if name.endswith(".toml"):
            yield f"line of {name.removesuffix('.toml')}", lambda name=name: line(program, name.removesuffix(".toml"))
