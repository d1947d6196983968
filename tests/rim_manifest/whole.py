"""Whole runs: names, matrices, more than 64 files, a folder that is moved, a line that is pasted, an installed rim-manifest, its texts."""
import gzip
import hashlib
import json
import os
import re
import shutil
import subprocess
import sys

from helpers import MIB, SCRIPTS, SECONDS
from helpers.files import image, tree
from helpers.folders import Folder
from helpers.guests import FILES, LOW, OTHER_IMAGE, QEMU, STAND_IN, START, TREES, WITH_TREE, host, replaced, without
from helpers.tries import differs

from outside import parameters

from .written import names_of, read_by, recorded


def matrix(program: str):
    """75 devicetrees of two models and 150 launches: two manifests, a script that measures both, and a folder that is moved."""
    sizes, counts, texts = (128, 256, 512), (1, 2, 3, 4, 5), [f"a{n}" for n in range(5)]
    trees = {f"trees/{size}M-{count}-{args}": tree([(LOW, LOW + size * MIB)], bootargs=args,
                                                   count=count) for size in sizes for count in counts
             for args in texts}
    with Folder(trees | {"lines": "\n\n".join(texts[1:]).encode()}) as folder:
        folder.put("stand-in", STAND_IN.encode(), is_program=True)
        words = [*replaced(QEMU, "-m", "128M,256M,512M"), "-smp", "1,2,3", "-smp", "4,5", "-append", "a0", "--append-file", "lines"]
        status, out, said = folder.run(*words, "-cpu", "cortex-a57", "--qemu", "./stand-in")
        if status or said:
            return [f"status {status}, {said!r}"]
        names = [[launch["name"] for launch in folder.toml(f"out/manifest-{n}.toml")["launch"]] for n in (1, 2)]
        wrong = differs("lines", len(out.splitlines()), 2)
        wrong += differs("files", [len(folder.toml(f"out/manifest-{n}.toml")["file"]) for n in (1, 2)], [64, 13])
        # launches of one devicetree are side by side, also where they are of two models
        expected = [f"{cpu}-{m}M-smp{n}-Image-no-initrd-a{a}-sha512" for m in sizes for n in counts for a in range(5)
                    for cpu in ("max", "cortex-a57")]
        wrong += differs("names", names[0] + names[1], expected)
        os.rename(os.path.join(folder.path, "out"), os.path.join(folder.path, "moved"))
        for name in ("Image", "trees"):
            os.rename(os.path.join(folder.path, name), os.path.join(folder.path, name + "-moved"))
        wrong += read_by(program, folder, "moved", 150)
        measure = os.path.join(folder.path, "moved", "measure")
        lines = folder.run(start=measure, RIM=program)[1].splitlines()
        joined = json.loads(folder.run("--json", "--workers", "2", start=measure, RIM=program)[1])
        wrong += differs("JSON", [f"{each['name']} {each['algorithm']} {each['rim']}" for each in joined["launches"]], lines[1:-1])
        return wrong + differs("pages", [joined["pages"], joined["version"]], [int(lines[-1].split()[1]), 4])


def measured(program: str):
    """The script that measures: a launch that is refused, a fault, and no program."""
    with Folder() as folder:
        folder.run(*WITH_TREE)
        measure = os.path.join(folder.path, "out", "measure")
        os.mkdir(os.path.join(folder.path, "bin"))
        os.symlink(sys.executable, os.path.join(folder.path, "bin", "python3"))
        todo = "; start this script with RIM=path/to/rim, or add the folder of rim to PATH\n"
        wrong = differs("no program", folder.run(start=measure, RIM="", PATH=os.path.join(folder.path, "bin")), (3, "", "measure: rim is not in PATH" + todo))
        wrong += differs("no such program", folder.run(start=measure, RIM="./none"),
                         (3, "", "measure: RIM is './none', which is no program that can be started" + todo))
        text = folder.read("out/manifest.toml").decode()
        folder.put("out/manifest.toml", text.replace("at = 0x48000000", "at = 0x40200000").encode())
        status, out, _ = folder.run(start=measure, RIM=program)
        wrong += differs("refused", (status, out.splitlines()[1]), (1, "256M-smp1-Image-no-initrd-sha512 refused overlap"))
        folder.put("out/manifest.toml", text.replace("s2sz = 41", "s2sz = 49").encode())
        status, out, said = folder.run(start=measure, RIM=program)
        why = "s2sz: range: 49 (0x31), expected a whole number from 32 to 48\nmeasure: manifest.toml: status 3\n"
        return wrong + differs("a fault", (status, out, said.startswith("rim: range\n  manifest.toml:"), said.endswith(why)), (3, "", True, True))


PASTED = ["-M", "virt", "-cpu", "max", "-M", "gic-version=3,dtb-randomness=off", "-m", "256M", "-smp", "4", "-kernel", "Image", "-nographic",
          "-drive", "file=live/disk,if=none,id=a", "-serial", "mon:stdio"]
QEMU_NAME = "./qemu-system-aarch64"


def pasted(program: str):
    """A whole line after `--`: its program makes the devicetrees, and options ask for several values in the place of its own."""
    asked = ["qemu", "--host", "host.toml", "--out", "out", "--each-smp", "1,2", "--each-kernel", "b", "--kernel", "new=Image"]
    with Folder(TREES | {"b": OTHER_IMAGE}) as folder:
        folder.put(QEMU_NAME, STAND_IN.encode(), is_program=True)
        status, out, said = folder.run(*asked, "--", "A=b", "sudo", "-E", QEMU_NAME, *PASTED)
        wrong = differs("status", (status, out, said), (0, "out/manifest.toml: 4 launches, 4 files\n", ""))
        wrong += differs("names", names_of(folder), [f"256M-smp{n}-{kernel}-no-initrd-sha512" for n in (1, 2) for kernel in ("b", "new")])
        record = json.loads(folder.read("out/record.json"))
        wrong += differs("line", record["line"], PASTED) + differs("rest", recorded(folder)["rest"], ["-serial", "null"])
        digests = {name: hashlib.sha256(data).hexdigest() for name, data in (("b", OTHER_IMAGE), ("Image", FILES["Image"]))}
        wrong += differs("sources", record["sources"], {"kernel-b": {"path": "b", "sha256": digests["b"]},
                                                        "kernel-new": {"path": "Image", "sha256": digests["Image"]}})
        return wrong + read_by(program, folder, count=4)


def machine_recorded(_program: str):
    """The record says each number of the machine, and each row with what is taken, who says so and what is not settled."""
    with Folder({"host.toml": host(hypervisor_version='"10.0.2"', settled_by='"guest g"', not_settled='["stub=measured"]', realm='{ order = "kind" }',
                                   block_level=None, rec_rule=None)}) as folder:
        status, _, said = folder.run(*WITH_TREE, "--row", "ram=each")
        of = json.loads(folder.read("out/record.json"))["host"]
    wrong = differs("status", status, 0) + [said] * (status != 0)
    rows = {each["name"]: (each["taken"], each["from"], each["not_settled"]) for each in of["rows"]}
    wrong += differs("rows", [rows[name] for name in ("ram", "order", "stub", "block_level")], [
        ("each", "--row", []), ("kind", "host.toml", []), ("none", "the likeliest", ["measured"]), ("0", "the likeliest", [])])
    numbers = {each["name"]: (each["value"], each["from"]) for each in of["numbers"]}
    wrong += differs("numbers", [numbers.get(name) for name in ("pmu", "s2sz_max", "hypervisor_version")], [
        (True, "host.toml"), (48, "host.toml"), ("10.0.2", "host.toml")])
    return wrong + differs("the file, and who settled it", (of["path"], of["settled_by"]), ("host.toml", "guest g"))


def one_step(program: str):
    """--measure prints what the script measure prints. Without --out nothing is left; -C has all paths be of a folder."""
    words = ["qemu", "--host", "host.toml", "--dtb", "tree"]
    line = ["--", QEMU_NAME, *replaced(PASTED, "-smp", "1")]
    with Folder({"Image": gzip.compress(image())}) as folder:
        before = folder.names()
        status, report, said = folder.run(*words, "--measure", *line)
        wrong = differs("status", (status, said, folder.names()), (0, "", before))
        wrong += differs("report", (report.splitlines()[0], report.count("\n")), ("rim-report 1", 3))
        status, joined, said = folder.run(*words, "--measure", "--json", "--out", "out", *line)
        launch = json.loads(joined)["launches"][0] if not status else {}
        wrong += differs("JSON", f"{launch.get('name')} {launch.get('algorithm')} {launch.get('rim')}", report.splitlines()[1])
        wrong += differs("the script", folder.run(start=os.path.join(folder.path, "out", "measure"), RIM=program)[1], report)
        digest = hashlib.sha256(folder.read("Image")).hexdigest()
        wrong += differs("the comment", f"what was copied has sha256 {digest}" in folder.read("out/manifest.toml").decode(), True)
        ran = subprocess.run([START, *words, "-C", os.path.basename(folder.path), "--measure", *line], cwd=os.path.dirname(folder.path),
                             capture_output=True, timeout=SECONDS, check=False, text=True)
        wrong += differs("-C", (ran.returncode, ran.stdout, ran.stderr), (0, report, ""))
        folder.put("broken", f'#!/bin/sh\n[ "$1" != measure ] || exit 3\nexec "{program}" "$@"\n'.encode(), is_program=True)
        status, out, said = folder.run(*words, "--measure", "--out", "new", *line, RIM=os.path.join(folder.path, "broken"))
        wrong += differs("a program that does not measure", (status, out, said.count("\n"), "new" in folder.names()), (3, "", 1, False))
        os.remove(os.path.join(folder.path, "broken"))
        folder.put("tree", tree([(LOW, LOW + 256 * MIB)], bootargs="other"))
        status, out, said = folder.run(*words, "--measure", *line)
        return wrong + differs("a fault", (status, out, folder.names() - before), (3, "", {"out"}))


OF_REALM = ["-M", "virt,gic-version=host,confidential-guest-support=r", "-object", "rme-guest,id=r,measurement-algorithm=sha256", "-enable-kvm", "-cpu",
            "host,pmu=on,sve=off", "-m", "256M", "-accel", "kvm", "-smp", "2", "-kernel", "Image", "-serial", "null"]
COMMAND = ("./qemu-system-aarch64 -machine virt,gic-version=host,confidential-guest-support=r,dumpdtb=256M-smp{0}-Image-no-initrd-sha256.dtb,"
           "dtb-randomness=off -cpu host,pmu=on,sve=off -smp {0} -m 256M -nodefaults -display none -S -kernel Image "
           "-object rme-guest,id=r,measurement-algorithm=sha256 -enable-kvm -accel kvm -serial null")
LIKE_IT = """\
-machine
virt,gic-version=3,dumpdtb=,dtb-randomness=off
-cpu
cortex-a76,pmu=on
-smp
2
-m
256M
-nodefaults
-display
none
-S
-kernel

-serial
null
"""


def of_realm(program: str):
    """The line of a realm, of which the program makes no devicetree: the commands that do on another machine, whose files are then taken; and
    devicetrees of a plain guest in their place."""
    asked = ["qemu", "--host", "host.toml", "--out", "out"]
    line = ["--each-smp", "1,2", "--", QEMU_NAME, *OF_REALM]
    with Folder(TREES | {"fail": b""}) as folder:
        folder.put(QEMU_NAME, STAND_IN.encode(), is_program=True)
        status, out, said = folder.run(*asked, *line)
        first, *commands, last = said.splitlines()[1:]
        wrong = differs("status", (status, out, commands), (3, "", [COMMAND.format(1), COMMAND.format(2)]))
        wrong += differs("the fault", [text in first for text in ("a stand-in: no such word", "it has no object rme-guest", "--approximate-cpu MODEL")], [True] * 3)
        os.remove(os.path.join(folder.path, "fail"))
        subprocess.run(["sh", "-c", "\n".join(commands)], cwd=folder.path, check=True, timeout=SECONDS)
        status, out, said = folder.run(*asked, *last.removeprefix("# ").split(" "), *line)
        wrong += differs("the files", (status, out, said.count("\n")), (0, "out/manifest.toml: 2 launches, 3 files\n", 1)) + read_by(program, folder, count=2)
        os.remove(os.path.join(folder.path, "said"))
        status, out, said = folder.run(*asked, "--force", "--approximate-cpu", "cortex-a76", "--", QEMU_NAME, *OF_REALM)
        given = re.sub("dumpdtb=[^,]*|/.*", lambda found: found[0][:8] * (found[0][0] == "d"), folder.read("said").decode())
        wrong += differs("approximate", (status, given.split("--version\n")[-1]), (0, LIKE_IT * 2))
        head = folder.read("out/manifest.toml").decode()
        wrong += differs("what is said", [each in head for each in ("# Warning: --approximate-cpu: these are devicetrees of a plain guest",
                                          "#   approximate_cpu = cortex-a76 (given; by --approximate-cpu): devicetrees of a plain guest")]
                         + ["warning: --approximate-cpu: these are devicetrees of a plain guest" in said], [True] * 3)
        status, out, _ = folder.run("qemu", "--explain", "--approximate-cpu", "cortex-a76", "--", QEMU_NAME, *OF_REALM)
        dump = [each for each in out.splitlines() if each.startswith("dump")]
        return wrong + differs("--explain", (status, dump), (0, [
            "dump      gic-version=host confidential-guest-support=r -object rme-guest,id=r,measurement-algorithm=sha256 -enable-kvm -accel kvm "
            "-cpu host sve=off", "dump      -machine virt,gic-version=3 -cpu cortex-a76,pmu=on"]))


EXPLAINED = """\
layout    -M virt,secure=on
refused     secure=on
refused   -preconfig
layout    -bios F
layout    -pflash G
harmless  -nographic
tree      -serial null
harmless  -device virtio-rng-pci
unknown   -new 1
"""


def explained(_program: str):
    """--explain says what each word does, and refuses what a launch has none of, each on a line."""
    words = ["-M", "virt,secure=on", "-preconfig", "-bios", "F", "-pflash", "G", "-nographic", "-serial", "null", "-device", "virtio-rng-pci", "-new", "1"]
    with Folder() as folder:
        status, out, said = folder.run("qemu", "--explain", "--", QEMU_NAME, *words)
        lines = "".join(line + "\n" for line in out.splitlines()[::2])
        wrong = differs("words", lines, EXPLAINED)
        return wrong + differs("faults", (status, [line.split(":")[1] for line in said.splitlines()]), (2, [" -preconfig", " -bios and a flash", ' "-new 1"', " -machine"]))


def long_names(_program: str):
    """Long names are cut from the middle, and mean what they did whatever is beside them; characters that a name may not have are replaced."""
    debian, long = "vmlinuz-6.12.117+deb13-arm64", "k" * 40 + "1"
    files = {debian: image(), long: OTHER_IMAGE, long[:-1] + "2": image(length=4096)}
    wrong, names = [], {}
    with Folder(files) as folder:
        for out, words in (("a", [debian]), ("b", [debian, long]), ("c", [debian, long, long[:-1] + "2"])):
            kernels = [word for path in words for word in ("-kernel", path)]
            status, _, said = folder.run(*replaced(without(WITH_TREE, "-kernel"), "--out", out), *kernels)
            wrong += differs(f"status of {out}", (status, said), (0, ""))
            names[out] = [launch["name"] for launch in folder.toml(f"{out}/manifest.toml")["launch"]]
    wrong += differs("Debian's", names["a"], ["256M-smp1-vmlinuz-6.12.117_deb13-arm64-no-initrd-sha512"])
    wrong += differs("the same parts", (names["b"][:1], names["c"][:2]), (names["a"], names["b"]))
    return wrong + differs("lengths", [len(name) for name in names["c"][1:]], [64, 64]) + differs("each another", len(set(names["c"])), 3)


def read_once(program: str):
    """Devicetrees of the same bytes are read once, whatever the number of launches, dumps and files that have them."""
    with Folder(TREES) as folder:
        folder.put("stand-in", STAND_IN.encode(), is_program=True)
        folder.put("rim", f'#!/bin/sh\necho "$1" >>"$(dirname "$0")/runs"\nexec {program} "$@"\n'.encode(), is_program=True)
        words = [*QEMU, "-cpu", "max,pmu=on", "-cpu", "cortex-a57", "-smp", "1,2", "--algo", "sha256,sha512", "--qemu", "./stand-in"]
        status, _, said = folder.run(*words, RIM="./rim")
        return differs("status", (status, said), (0, "")) + differs("runs", sorted(folder.read("runs").decode().split()),
                                                                    ["--version", "fdt", "fdt", "image"])


def odd_names(program: str):
    """Names with a line's end, an escape and a byte that is no UTF-8: all is as with others, and none is printed as it is."""
    odd = "n\n\x1b[2J\udcff"
    with Folder() as folder:
        for name in ("Image", "initrd", "tree", "host.toml"):
            os.rename(os.path.join(folder.path, name), os.path.join(folder.path, name + odd))
        words = ["qemu", "-M", "virt", "-cpu", "max", "-m", "256M", "-kernel", "Image" + odd, "--host", "host.toml" + odd, "--out", odd]
        status, out, said = folder.run(*words, "--dtb", "tree" + odd)
        wrong = differs("status", (status, out, said), (0, "n\\x0a\\x1b[2J\\xff/manifest.toml: 1 launch, 2 files\n", ""))
        return wrong + read_by(program, folder, out=odd, count=1)


def started(program: str):
    """Through a symbolic link, and as it is installed."""
    wrong = []
    with Folder() as folder:
        os.symlink(START, os.path.join(folder.path, "link"))
        os.makedirs(os.path.join(folder.path, "usr", "bin"))
        shutil.copy(START, os.path.join(folder.path, "usr", "bin", "rim-manifest"))
        for package in ("vmm", "finder", "outside"):
            shutil.copytree(os.path.join(SCRIPTS, package), os.path.join(folder.path, "usr", "share", "rim", package))
        for start in ("./link", "usr/bin/rim-manifest"):
            shutil.rmtree(os.path.join(folder.path, "out"), ignore_errors=True)
            status, _, said = folder.run(*WITH_TREE, start=os.path.join(folder.path, start))
            wrong += differs(start, (status, said), (0, "")) + read_by(program, folder, count=1)
        status, _, said = folder.run(*without(WITH_TREE, "--host"), start=os.path.join(folder.path, "usr/bin/rim-manifest"))
        example = said.rpartition(": ")[2].strip()
        wrong += differs("the example", (status, os.path.exists(os.path.join(folder.path, example))), (2, True))
        os.remove(os.path.join(folder.path, "usr", "share", "rim", "vmm", "main.py"))
        status, _, said = folder.run("--help", start=os.path.join(folder.path, "usr/bin/rim-manifest"))
        return wrong + differs("no modules", (status, "no folders vmm, finder and outside" in said), (3, True))


def texts(program: str):
    """Help, version, tables and the example of a host."""
    wrong = []
    with Folder() as folder:
        for words, text in ((["--help"], "usage: rim-manifest qemu"), (["--version"], "rim-manifest 0."),
                            (["qemu", "--help"], "--append-file FILE"),
                            (["kvmtool", "-h"], "--lkvm PROGRAM"), (["cloud-hypervisor", "--rules"], "memory (cloud-hypervisor's sources")):
            status, out, said = folder.run(*words)
            wrong += differs(" ".join(words), (status, text in out, said), (0, True, ""))
        example = os.path.join(SCRIPTS, "vmm", "host-example.toml")
        status, _, said = folder.run(*replaced(WITH_TREE, "--host", example))
        wrong += differs("the example of a host", (status, said.removeprefix(f"rim-manifest: {example}: ")), (3, 'num_bps, num_wps, sve, pmu, '
                         's2sz_max: "?" as in the example, expected what holds for the machine, or no such line where it need '
                         'not be given\n'))
        with open(example, encoding="utf-8") as file:
            keys = set(re.findall(r"^#?([a-z0-9_]+) = ", file.read(), re.M))
        wrong += differs("keys of the example", "one of " + ", ".join(sorted(keys)), "one of " + ", ".join(sorted(
            [*parameters.ALL, "s2sz_max", "hypervisor_version", "num_aux", "rpv", "pool_base",
             "pool_count", "settled_by", "not_settled"])))
    return wrong
