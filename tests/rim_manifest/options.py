"""Options, one at a time: a run that writes a folder, and what is looked at in it."""
import base64
import gzip
import hashlib
import json
import os
import struct

from helpers import MIB
from helpers.files import ZSTD, image, tree, zboot
from helpers.folders import Folder
from helpers.guests import (
    FILES, HAND, INITRD, KVMTOOL, LINE_OF, LKVM, LOW, NO_PCIE, OTHER_IMAGE, QEMU, STAND_IN, TREES, WITH_INITRD, WITH_TREE, changed_host,
    changed_tree, host, replaced, without,
)
from helpers.tries import differs

from .written import first, names_of, read_by, recorded


def option(program: str, words: list[str], look, files: dict | None = None, warns=""):
    """A run that writes `out`, and what is wrong with it by `look`."""
    with Folder(files) as folder:
        folder.put("stand-in", STAND_IN.encode(), is_program=True)
        folder.put("lkvm", LKVM.encode(), is_program=True)
        status, out, said = folder.run(*words)
        if status or (warns not in said if warns else said):
            return [f"status {status}, {said!r}"]
        return differs("lines", [line.split(":")[0][-9:] == "ifest.toml"[-9:] for line in out.splitlines()],
                       [True]) + look(folder) + read_by(program, folder)


# Words after `--`, of a guest that runs; and what a dump is given in their place.
OTHERS = ["-object", "memory-backend-file,id=r,size=256M,mem-path=live/ram,share=on", "-object", "rng-random,id=g,filename=live/log",
          "--serial", "file:live/log", "-serial", "none", "-accel", "tcg,thread=multi", "-qmp", "unix:live/qmp,server=on,wait=off",
          "-drive", "file=live/disk,format=raw,if=none,id=d", "-device", "virtio-blk-pci,drive=d", "-D", "live/log", "-nographic",
          "-pidfile", "live/log", "-object", '{"qom-type":"memory-backend-memfd","id":"s","size":4096,"share":true}', "-monitor",
          "unix:live/qmp,server=on,wait=off", "-netdev", "user,id=n,hostfwd=tcp::22-:22", "-numa", "node,memdev=r"]
KEPT = ["-object", "memory-backend-ram,id=r,size=256M,reserve=off", "-serial", "null", "-serial", "none", "-accel", "tcg,thread=multi",
        "-object", "memory-backend-ram,id=s,size=4096,reserve=off", "-numa", "node,memdev=r"]


def given_to_a_dump(folder: Folder) -> list[str]:
    """A dump is given what changes the devicetree, and the record says the rest."""
    given = folder.read("said").decode().splitlines()
    record = recorded(folder)
    wrong = differs("the words of a dump", given[given.index("-kernel") + 2:][:len(KEPT)], KEPT)
    wrong += differs("paths in them", [word for word in given if "live" in word], []) + differs("rest", record["rest"], KEPT)
    return wrong + differs("dropped", [word for word in record["dropped"] if word not in OTHERS], []) + differs(
        "dropped", {"-qmp", "-D", "-drive", "--serial", "-pidfile", "-monitor"} - set(record["dropped"]), set())


FIRMWARE = bytes(n * 7 % 251 for n in range(9001))


def firmware_is(folder: Folder, top: int) -> list[str]:
    """Firmware at 0 in RAM of its own, the devicetree at the start of the other, and no kernel."""
    launch = first(folder)
    wrong = differs("ram", launch["ram"], [[0, top], [LOW, LOW + 256 * MIB]]) + differs("rec", launch["rec"], [{"pc": "0x0", "x": []}])
    wrong += differs("items", [[item["name"], item["kind"], item["at"]] for item in launch["item"]], [["firmware", "raw", 0], ["dtb", "dtb", LOW]])
    wrong += differs("steps", launch["steps"], ["ram 0", "ram 1", "item firmware", "item dtb", "rec 0"])
    return wrong + differs("file", folder.read("out/firmware"), FIRMWARE) + differs("record", recorded(folder)["firmware"], "firmware")


SHORT_TREE = tree([(LOW, LOW + 256 * MIB)], length=None)
OF_LKVM = {"tree": tree([(2 * LOW, 2 * LOW + 256 * MIB)], initrd=(0x8FDF_DCD4, 0x8FDF_FFFD), length=65536, **NO_PCIE)}
NAMED = changed_tree(psci=None, a={"method": b""})["tree"]
# The bytes of a property `method = "hvc"`, for the value of another one.
LIKE_HVC = struct.pack(">3I", 3, 4, NAMED.index(b"method\0") - struct.unpack(">I", NAMED[12:16])[0]) + b"hvc\0"
REALM_TABLE = b"""[realm]
s2sz = "guest"
block_level = 1
rec_rule = "all"
num_bps = "one_more"
kernel_pages = "image_size"
"""
OF_ROWS = {"algo": "sha512", "s2sz": 40, "block_level": 1, "rec_rule": "all", "num_bps": 6, "num_wps": 3, "pmu_num_ctrs": 6}
OF_HEAD = ["# What a realm changes. The alternatives that host.toml names were settled by: a machine\n",
           "#   stub = none (93%, memory; the likeliest): it is no part of the realm",
           "#   block_level = 1 (3%, memory; by host.toml): 1 GiB at most", "num_bps = 6                      # host, row num_bps\n"]
FULL_HOST = host(sve="true", sve_vl="1", num_aux="2", rpv='"' + "0f" * 64 + '"', rec_rule='"all"', hypervisor_version='"10.0.2"')
HOST_KEYS = {"num_bps": 5, "num_wps": 3, "sve": True, "sve_vl": 1, "pmu": True, "pmu_num_ctrs": 6, "block_level": 2, "num_aux": 2,
             "rec_rule": "all", "rpv": "0f" * 64}
NEWER = ("virt,gic-version=3,msi=its,virtio-mmio-transports=4,spcr=off,cxl=off,smp-cache.0.cache=l1i,smp-cache.0.topology=core,smp-cache.1.cache=l2,"
         "smp-cache.1.topology=cluster")
OPTIONS = [
    ("the host's keys", WITH_TREE, lambda folder: differs("keys", {key: first(folder).get(key) for key in HOST_KEYS}, HOST_KEYS),
     {"host.toml": FULL_HOST}),
    ("processors that begin off", [*WITH_TREE, "-smp", "18,sockets=1"], lambda folder: differs("rec", first(folder)["rec"][1:],
     [{"runnable": False}] * 17) + differs("name", names_of(folder), ["256M-smp18-Image-no-initrd-sha512"]), changed_tree(count=18)),
    ("an order", [*WITH_TREE, "--stub", "measured", "--order", "rec,ram,kernel,initrd,dtb,stub"], lambda folder: differs(
     "steps", first(folder)["steps"], ["rec 0", "ram 0", "item kernel", "item dtb", "item stub"])),
    ("an order by kind", [*WITH_TREE, "--stub", "measured", "--order", "kind"], lambda folder: differs(
     "steps", first(folder)["steps"], ["ram 0", "item kernel", "item dtb", "item stub", "rec 0"])),
    ("the devicetree first", [*KVMTOOL, "-i", "initrd", "--order", "dtb_first"], lambda folder: differs("steps", first(folder)["steps"],
     ["ram 0", "item dtb", "item kernel", "item initrd", "rec 0"]), OF_LKVM),
    ("rows by the host's file", [*WITH_TREE, "-smp", "2"], lambda folder: differs("keys", {key: first(folder).get(key) for key in OF_ROWS}, OF_ROWS)
     + differs("the head", [line in folder.read("out/manifest.toml").decode() for line in OF_HEAD], [True] * len(OF_HEAD)),
     {"host.toml": host(block_level=None, rec_rule=None, settled_by='"a machine"') + REALM_TABLE} | changed_tree(count=2, **NO_PCIE)),
    ("rows by options", [*WITH_TREE, "--row", "block_level=3", "--row", "pmu_num_ctrs=one_less", "--row", "s2sz=42", "--row=hash=sha256"],
     lambda folder: differs("keys", [first(folder).get(key) for key in ("algo", "s2sz", "block_level", "pmu_num_ctrs")], ["sha256", 42, 3, 5]),
     changed_host(block_level=None)),
    ("RAM for each blob", [*WITH_TREE, "-initrd", "initrd", "--row", "ram=each"], lambda folder: differs("steps", first(folder)["steps"],
     ["ram 0", "item kernel", "ram 1", "item initrd", "ram 2", "item dtb", "rec 0"]) + differs("ram", first(folder)["ram"], [
         [0x4020_0000, 0x4040_0000], [0x4800_0000, 0x4800_3000], [0x4820_0000, 0x4830_0000]]), changed_tree(initrd=WITH_INITRD)),
    ("RAM for each blob and the BSS", [*KVMTOOL, "-i", "initrd", "--row", "ram=each"], lambda folder: differs("steps", first(folder)["steps"],
     ["ram 0", "item kernel", "ram 1", "ram 2", "item initrd", "ram 3", "item dtb", "rec 0"]) + differs("ram", first(folder)["ram"], [
         [0x8000_0000, 0x8000_5000], [0x8000_5000, 0x8020_0000], [0x8FDF_D000, 0x8FE0_0000], [0x8FE0_0000, 0x8FE1_0000]]), OF_LKVM),
    ("RAM for each blob with the BSS", [*KVMTOOL, "-i", "initrd", "--row", "ram=with_bss"], lambda folder: differs("steps", first(folder)["steps"],
     ["ram 0", "item kernel", "ram 1", "item initrd", "ram 2", "item dtb", "rec 0"]) + differs("ram", first(folder)["ram"], [
         [0x8000_0000, 0x8020_0000], [0x8FDF_D000, 0x8FE0_0000], [0x8FE0_0000, 0x8FE1_0000]]), OF_LKVM),
    *[(f"blocks below the first tables: {words[-1]}", [*words, "--row", "block_level=below"], lambda folder, level=level: differs("block_level",
       first(folder)["block_level"], level), changed_host(block_level=None) | (OF_LKVM if words[0] == "kvmtool" else {}))
      for words, level in ((WITH_TREE, 2), ([*WITH_TREE, "--s2sz", "44"], 1), ([*KVMTOOL, "-i", "initrd"], 3))],
    *[(f"a width without windows: {memory}", [*replaced(replaced(WITH_TREE, "-m", memory), "-M", "virt,gic-version=3,highmem=off")], lambda folder, s2sz=s2sz:
       differs("s2sz", first(folder)["s2sz"], s2sz), changed_tree(ram=[(LOW, LOW + size * MIB)], **NO_PCIE)) for memory, size, s2sz in (
        ("1G", 1024, 32), ("1025M", 1025, 33))],
    ("RAM of firmware after the other", [*without(WITH_TREE, "-kernel"), "-bios", "fw", "--row", "firmware_order=after"], lambda folder: differs("steps",
     first(folder)["steps"], ["ram 1", "ram 0", "item firmware", "item dtb", "rec 0"]) + differs("ram", first(folder)["ram"], [[0, 0x3000], [LOW, LOW + 256 * MIB]]),
     {"fw": FIRMWARE}, "firmware is started: the"),
    ("large pages of the host", [*KVMTOOL, "-i", "initrd", "--row", "host_pages=64k"], lambda folder: differs("items",
     [[item["name"], item["at"], item.get("size")] for item in first(folder)["item"]],
     [["kernel", 0x8000_0000, 0x1_0000], ["initrd_lead", 0x8FDF_0000, 0xD000], ["initrd", 0x8FDF_DCD4, None], ["dtb", 0x8FE0_0000, None]])
     + differs("zeros", folder.read("out/zeros"), b"\0"), OF_LKVM),
    ("pages of the BSS", [*WITH_TREE, "--kernel-pages", "image_size"], lambda folder: differs("size",
     [item.get("size") for item in first(folder)["item"]], [2 * MIB, None])),
    ("a devicetree of -dtb", [*QEMU, "-dtb", "tree"], lambda folder: differs("bytes", folder.read("out/dtb-1"), SHORT_TREE),
     {"tree": SHORT_TREE}),
    ("a devicetree of -dtb in a line", ["qemu", "--host", "host.toml", "--out", "out", "--row", "dtb_file=padded", "--", "qemu-system-aarch64",
     "-M", "virt,gic-version=3,dtb-randomness=off", "-cpu", "max", "-m", "256M", "-kernel", "Image", "-dtb", "tree"], lambda folder: differs(
     "bytes", folder.read("out/dtb-1"), (SHORT_TREE[:4] + struct.pack(">I", 2 * len(SHORT_TREE) + 20_000) + SHORT_TREE[8:]).ljust(
         2 * len(SHORT_TREE) + 20_000, b"\0")), {"tree": SHORT_TREE}),
    *[(f"firmware: {name}", words, lambda folder, top=top: firmware_is(folder, top), {"fw": FIRMWARE, "l": line.encode()}, "firmware is started: the")
      for name, words, line, top in (
        ("-bios", [*without(WITH_TREE, "-kernel"), "-bios", "fw"], "", 0x3000),
        ("all of where flash was", [*without(WITH_TREE, "-kernel"), "-bios", "fw", "--row", "firmware_ram=whole"], "", 128 * MIB),
        ("beside a kernel", [*WITH_TREE, "-bios", "fw", "-initrd", "initrd"], "", 0x3000),
        ("-bios of a line", ["qemu", "--line", "l", *LINE_OF], "qemu-system-aarch64 -M virt -cpu max -m 256M -bios fw", 0x3000),
        ("firmware= of a line", ["qemu", "--line", "l", *LINE_OF], HAND + " -M firmware=fw", 0x3000),
        ("-pflash of a line", ["qemu", "--line", "l", *LINE_OF], HAND + " -pflash fw", 0x3000),
        ("-drive of a line", ["qemu", "--line", "l", *LINE_OF], HAND + " -drive file=fw,if=pflash,format=raw,unit=0,readonly=on", 0x3000),
        ("pflash0 of a line", ["qemu", "--line", "l", *LINE_OF], HAND + ",pflash0=b".replace(",", " -M ") + """ -blockdev '{"driver":"file",
         "filename":"fw","node-name":"a","read-only":true}' -blockdev driver=raw,node-name=b,file=a""", 0x3000),
        ("pflash0 of a line, nested", ["qemu", "--line", "l", *LINE_OF], HAND + """ -M pflash0=b -blockdev '{"driver":"raw","node-name":"b","file":{"driver":
         "file","filename":"fw"}}'""", 0x3000))],
    ("firmware without ACPI", [*without(QEMU, "-kernel"), "-bios", "fw", "--qemu", "./stand-in", "--", "-no-acpi"], lambda folder: differs(
        "words of two dumps", folder.read("said").decode().split("\n").count("-no-acpi"), 2), {"fw": FIRMWARE} | TREES, "firmware is started"),
    ("firmware of kvmtool", [*without(KVMTOOL, "-k"), "-f", "fw"], lambda folder: differs("launch", [first(folder)[key] for key in ("ram", "rec")],
     [[[0x8000_0000, 0x9000_0000]], [{"pc": "0x80000000", "x": ["0x80200000"]}]]) + differs("items", {
         item["name"]: item["at"] for item in first(folder)["item"]}, {"firmware": 0x8000_0000, "dtb": 0x8020_0000}),
     {"fw": FIRMWARE, "tree": tree([(2 * LOW, 2 * LOW + 256 * MIB)], length=None, **NO_PCIE)}, "firmware is started"),
    ("an address of firmware", [*without(KVMTOOL, "-k"), "-f", "fw", "--firmware-address", "0x80400000"], lambda folder: differs("rec", first(folder)["rec"],
     [{"pc": "0x80400000", "x": ["0x80600000"]}]) + differs("items", {item["name"]: item["at"] for item in first(folder)["item"]},
     {"firmware": 0x8040_0000, "dtb": 0x8060_0000}) + differs("words", recorded(folder)["words"], ["run", "--cpus", "1", "--mem", "256"]),
     {"fw": FIRMWARE, "tree": tree([(2 * LOW, 2 * LOW + 256 * MIB)], length=None, **NO_PCIE)}, "firmware is started"),
    *[(f"lkvm: {text}", ["kvmtool", "--line", "l", *LINE_OF], lambda folder, name=name: differs("name", names_of(folder), [name]), {"l": text.encode(),
       "host.toml": host(**about), "tree": tree([(2 * LOW, 2 * LOW + 256 * MIB)], length=None, count=2, **NO_PCIE)}) for text, name, about in (
        ("lkvm run -c2 -m256 Image", "256M-smp2-Image-no-initrd-sha256", {}), ("vm run Image --cpus=2 -m 256", "256M-smp2-Image-no-initrd-sha256", {}),
        ("vm run --disable-sve --disable-mte --pmu --pmu-counters 6 -c 2 -kImage -m 256", "256M-smp2-Image-no-initrd-sha256", {}))],
    ("a size of an object of RAM", ["qemu", "--line", "l", *LINE_OF], lambda folder: differs("ram", first(folder)["ram"], [[LOW, LOW + 256 * MIB]])
     + differs("words", recorded(folder)["words"][-1], f"{256 * MIB}B"), {"l": HAND.replace("-m 256M", "-M memory-backend=r,dtb-randomness=off -object "
     "memory-backend-memfd,id=r,size=256M,share=on").encode()}),
    ("a program of another name", ["qemu", "--line", "l", *LINE_OF], lambda folder: [], {"l": HAND.replace("aarch64", "arm64").encode()}, "no dtb-randomness"),
    ("words of newer versions", [*replaced(QEMU, "-M", NEWER), "--qemu", "./stand-in", "--", "-global",
     "kvm-pit.lost_tick_policy=discard"], lambda folder: differs("words", f"{NEWER}," in
     folder.read("said").decode(), True) + differs("rest", recorded(folder)["rest"], []), TREES),
    *[(f"a realm's object: {text}", [*replaced(WITH_TREE, "-M", "virt,confidential-guest-support=a"), "--", "-object", f"rme-guest,id=a,{text}"],
       lambda folder: differs("rpv", first(folder).get("rpv"), None), {}, warns) for text, warns in (
        ("measurement-log=off", ""), ("measurement-log=on", "warning: measurement-log=on: whether a page of the log is measured is not known"),
        ("personalization-value=abcd", 'warning: personalization-value="abcd" is not 64 bytes as hexadecimal digits or base64; it is not part'))],
    ("words of cloud-hypervisor", ["cloud-hypervisor", "--line", "l", *LINE_OF], lambda folder: differs("rec", len(first(folder)["rec"]), 2),
     {"l": b"cloud-hypervisor --cpus boot=2,affinity=[0@[0,2],1@[1,3]],max_phys_bits=40,nested=off --memory size=256M,hotplug_method=acpi,"
      b"hotplug_size=1G,reserve=on --kernel Image --debug-console off --tpm socket=/a --no-shutdown".replace(b"[0@[0,2],1@[1,3]]", b"'[0@[0,2],1@[1,3]]'"),
      "tree": tree([(LOW, LOW + 256 * MIB)], length=None, count=2)}),
    ("pages of a kernel with little BSS", [*WITH_TREE, "--kernel-pages", "image_size"], lambda folder: differs("size",
     [item.get("size") for item in first(folder)["item"]], [20_000, None]), {"Image": image(4096)}),
    ("pages that are used", [*WITH_TREE, "--dtb-pages", "used"],
     lambda folder: differs("bytes", folder.read("out/dtb-1"), FILES["tree"][:4096])),
    ("a width", [*WITH_TREE, "--s2sz", "48"], lambda folder: differs("s2sz", first(folder)["s2sz"], 48)),
    ("a width of the host", WITH_TREE, lambda folder: differs("s2sz", first(folder)["s2sz"], 32),
     changed_tree(**NO_PCIE) | changed_host(s2sz_max="39")),
    *[(f"psci: {name}", [*WITH_TREE, *row], lambda folder, data=made["tree"], old=old, new=new: differs("devicetree", folder.read("out/dtb-1"),
       data[:data.rindex(old)] + new + data[data.rindex(old) + 4:]) + differs("source", json.loads(folder.read("out/record.json"))["sources"]["dtb-1"],
       {"path": "tree", "sha256": hashlib.sha256(data).hexdigest()}) + differs("its origin", b'with the psci method "smc" in the place of "hvc"' in
       folder.read("out/manifest.toml"), old != new), made, warns)
      for name, row, made, old, new, warns in (
        ("a plain guest", [], changed_tree(method=b"hvc\0"), b"hvc\0", b"smc\0", ""),
        ("a realm", [], changed_tree(), b"smc\0", b"smc\0", ""),
        ("of another place, after what looks like it", [], changed_tree(psci=None, a={"method": b"", "b": LIKE_HVC}, firmware={"p": {
            "compatible": b"arm,psci-1.0\0arm,psci-0.2\0", "method": b"hvc\0"}}), b"hvc\0", b"smc\0", ""),
        ("as dumped", ["--row", "psci=dumped"], changed_tree(method=b"hvc\0"), b"hvc\0", b"hvc\0",
         'have the psci method "hvc", expected "smc": no realm has such a devicetree'))],
    ("psci of -dtb", [*QEMU, "-dtb", "tree"], lambda folder: differs("bytes", folder.read("out/dtb-1"), FILES["tree"].replace(b"smc\0", b"hvc\0"))
     + differs("the row", b"psci = " in folder.read("out/manifest.toml"), False), changed_tree(method=b"hvc\0"), 'have the psci method "hvc"'),
    *[(f"an early console: {text}", [*WITH_TREE, "-append", text], lambda folder, says=says: differs("warning", f"# Warning: {says}" in
       folder.read("out/manifest.toml").decode() if says else b"Warning" in folder.read("out/manifest.toml"), bool(says)), changed_tree(bootargs=text), says)
      for text, says in (("earlycon=pl011,0x9000000 quiet", "earlycon at 0x9000000, in the protected half"),
                         ("a earlycon=uart8250,mmio32,0x1000000", "earlycon at 0x1000000, in the protected half"),
                         ("earlycon=pl011,0x10009000000", ""), ("earlycon", ""), ("noearlycon=pl011,0x9000000", ""))],
    ("PSCI of another place", WITH_TREE, lambda folder: [], changed_tree(psci=None, firmware={"p": {
        "compatible": b"arm,psci-1.0\0arm,psci-0.2\0", "method": b"smc\0"}})),
    ("a guest without PSCI", WITH_TREE, lambda folder: [], changed_tree(psci=None), 'warning: 1 of 1 devicetrees have no psci method, expected'),
    ("words of one machine", ["qemu", "-M", "its=on", "-M", "virt", "-M", "gic-version=3", *QEMU[3:], "--qemu", "./stand-in"],
     lambda folder: differs("words", recorded(folder)["words"][1], "virt,its=on,gic-version=3,dtb-randomness=off"), TREES),
    ("a realm's object", [*replaced(WITH_TREE, "-M", "virt,confidential-guest-support=a"), "--", "-object",
     "rme-guest,id=a,measurement-algorithm=sha512,personalization-value=" + base64.b64encode(b"\x0f" * 64).decode()],
     lambda folder: differs("keys", [first(folder).get(key) for key in ("algo", "rpv")], ["sha512", "0f" * 64])),
    ("a realm of no algorithm", [*replaced(WITH_TREE, "-M", "virt,confidential-guest-support=a"), "--", "-object", "rme-guest,id=a"],
     lambda folder: differs("algo", first(folder)["algo"], "sha512")),
    ("a realm of no algorithm of kvmtool", [*KVMTOOL, "--", "--realm"], lambda folder: differs("algo", first(folder)["algo"], "sha256"),
     {"tree": tree([(2 * LOW, 2 * LOW + 256 * MIB)], length=None, **NO_PCIE)}),
    ("a realm's object as JSON", [*replaced(WITH_TREE, "-M", "virt,confidential-guest-support=a"), "--", "-object",
     '{"qom-type":"rme-guest","id":"a","measurement-algorithm":"sha256","personalization-value":"%s"}' % ("0F" * 64)],
     lambda folder: differs("keys", [first(folder).get(key) for key in ("algo", "rpv")], ["sha256", "0f" * 64])),
    ("a processor by its words", replaced(WITH_TREE, "-cpu", "max,pmu=on,sve=off,num-breakpoints=6,num-watchpoints=3,num-pmu-counters=6"),
     lambda folder: []),
    *[(f"vector lengths: {words} and {vl}", replaced(WITH_TREE, "-cpu", f"max,{words}"), lambda folder, vl=vl: differs("sve_vl", first(folder).get("sve_vl"), vl),
       changed_host(sve="false" if vl is None else "true", sve_vl=vl and str(vl))) for words, vl in (
        ("sve256=on,sve128=on,sve512=off", 1), ("sve-max-vq=4", 3), ("sve384=off", 3), ("sve1024=off", 3), ("sve256=off", None), ("sve=off,sve128=on", None))],
    ("a vector length of lkvm", [*KVMTOOL, "--", "--sve-vl", "512"], lambda folder: differs("sve_vl", first(folder)["sve_vl"], 3),
     changed_host(sve="true", sve_vl="3") | {"tree": tree([(2 * LOW, 2 * LOW + 256 * MIB)], length=None, **NO_PCIE)}),
    ("words of a dump", [*QEMU, "--qemu", "./stand-in", "--", *OTHERS], given_to_a_dump, TREES),
    ("words of no dump", [*WITH_TREE, "--", *OTHERS], lambda folder: differs("dropped", "-qmp" in recorded(folder)["dropped"], True)),
    ("kernels and initrds", [*WITH_TREE, "--dtb", "with-initrd", "-kernel", "b", "-initrd", "initrd", "--no-initrd"],
     lambda folder: differs(
     "names", names_of(folder), [f"256M-smp1-{kernel}-{initrd}-sha512" for initrd in ("initrd", "no-initrd") for kernel in ("Image", "b")])
     + differs("files", sorted(each["name"] for each in folder.toml()["file"]),
               ["dtb-1", "dtb-2", "initrd", "kernel-Image", "kernel-b"]),
     {"b": OTHER_IMAGE, "with-initrd": tree([(LOW, LOW + 256 * MIB)], initrd=WITH_INITRD)}),
    ("kernels by their names", [*WITH_TREE, "--each-kernel", "old=other/Image"], lambda folder: differs("names", names_of(folder),
     ["256M-smp1-Image-no-initrd-sha512", "256M-smp1-old-no-initrd-sha512"]) + differs("kernel", folder.read("out/kernel-old"), OTHER_IMAGE),
     {"other/Image": OTHER_IMAGE}),
    ("machines and models", [*QEMU, "-M", "virt-10.0", "-cpu", "cortex-a57,pmu=on", "--qemu", "./stand-in"], lambda folder: differs("names",
     names_of(folder), [f"{names}-256M-smp1-Image-no-initrd-sha512" for names in ("virt_gic-version_3-max", "virt_070287_n_3-cort_241c6d__on",
     "virt-10.0-max", "virt-10.0-cortex-a57_pmu_on")]), TREES, "-machine has 2 machines"),
    ("a kernel that moves the initrd", [*replaced(QEMU, "-m", "1G"), "-kernel", "big", "-initrd", "initrd", "--qemu", "./stand-in"],
     lambda folder: differs("initrds", [item["at"] for launch in folder.toml()["launch"] for item in launch["item"][1:2]],
     [0x4800_0000, 0x4820_0000]), {"big": image(128 * MIB)} | {f"trees/1G-1-none-kernel-{name}": tree(
         [(LOW, LOW + 1024 * MIB)], initrd=(at, at + len(INITRD))) for name, at in (("Image", 0x4800_0000), ("big", 0x4820_0000))}),
    ("models", [*QEMU, "-cpu", "cortex-a57", "--qemu", "./stand-in"], lambda folder: differs("names", names_of(folder),
     ["max-256M-smp1-Image-no-initrd-sha512", "cortex-a57-256M-smp1-Image-no-initrd-sha512"]) + differs("devicetrees",
                                                                        os.path.exists(os.path.join(folder.path, "out/dtb-2")), False),
     TREES),
    ("gzip", WITH_TREE, lambda folder: differs("kernel", folder.read("out/kernel"), image()), {"Image": gzip.compress(image()) + b"after"}),
    ("zboot", [*QEMU, "--qemu", "./stand-in"], lambda folder: differs("kernel", folder.read("out/kernel"), image()),
     {"Image": zboot(image())} | TREES),
    ("zboot by zstd", WITH_TREE, lambda folder: differs("kernel", folder.read("out/kernel"), image()),
     {"Image": zboot(ZSTD, b"zstd22", packs=bytes)} | changed_host(hypervisor_version='"11.1.3"')),
    ("text of a command line", [*WITH_TREE, "-append", "a=\"b\" \\ é # 'c'"], lambda folder: differs("record",
     json.loads(folder.read("out/record.json"))["launches"][0]["append"], "a=\"b\" \\ é # 'c'"),
     changed_tree(bootargs="a=\"b\" \\ é # 'c'")),
    ("two memory nodes", WITH_TREE, lambda folder: [], changed_tree(ram=[(LOW, LOW + 128 * MIB)], **{
        "memory@48000000": {"reg": struct.pack(">QQ", LOW + 128 * MIB, 128 * MIB)}})),
    ("words beside those of kvmtool", [*KVMTOOL, "-p", "quiet"], lambda folder: [], {"tree": tree([(2 * LOW, 2 * LOW + 256 * MIB)],
     bootargs="console=ttyS0 quiet", length=None, **NO_PCIE)}),
    ("a program that goes on", [*without(KVMTOOL, "--dtb"), "--lkvm", "./lkvm"],
     lambda folder: differs("length", len(folder.read("out/dtb-1")), 65536),
     {"tree": tree([(2 * LOW, 2 * LOW + 256 * MIB)], length=65536, **NO_PCIE)}),
    ("command lines in the place of a line's", ["qemu", "--host", "host.toml", "--out", "out", "--append-file", "lines", "--line", "l", "--dtb",
     "tree"], lambda folder: differs("names", names_of(folder), ["256M-smp1-Image-no-initrd-a_b-sha512"]),
     {"l": (HAND + " -append other -M dtb-randomness=off").encode(), "lines": b"a=b\n"} | changed_tree(bootargs="a=b")),
    ("processors beside a list", [*QEMU, "-smp", "1,2", "--algo", "sha512,sha256", "--qemu", "./stand-in"], lambda folder: differs("names",
     names_of(folder), [f"256M-smp{n}-Image-no-initrd-sha{size}" for n in (1, 2) for size in (512, 256)]), TREES),
]
