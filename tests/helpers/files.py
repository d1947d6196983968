"""Files that tests hand in: devicetrees as hypervisors make them, and kernels."""
import gzip
import struct

from . import MIB


class Writer:
    """Writes a flattened devicetree: a root as nodes, each with properties and nodes."""

    def __init__(self):
        self.structure, self.strings = bytearray(), bytearray()

    def put(self, *words: int, data: bytes = b""):
        self.structure += struct.pack(f">{len(words)}I", *words) + data
        self.structure += bytes(-len(self.structure) % 4)

    def name(self, name: str) -> int:
        found = self.strings.find(name.encode(errors="surrogateescape") + b"\0")
        if found < 0:
            found = len(self.strings)
            self.strings += name.encode(errors="surrogateescape") + b"\0"
        return found

    def node(self, name: str, node: dict):
        self.put(1, data=name.encode(errors="surrogateescape") + b"\0")
        for key, value in node.items():
            if not isinstance(value, dict):
                self.put(3, len(value), self.name(key), data=value)
        for key, value in node.items():
            if isinstance(value, dict):
                self.node(key, value)
        self.put(2)

    def whole(self, root: dict, length: int | None) -> bytes:
        self.node("", root)
        self.put(9)
        start = 56
        ends = start + len(self.structure), start + len(self.structure) + len(self.strings)
        total = length or ends[1]
        header = struct.pack(">10I", 0xD00DFEED, total, start, ends[0], 40, 17, 16, 0, len(self.strings), len(self.structure))
        return (header + bytes(16) + self.structure + self.strings).ljust(total, b"\0")


def tree(ram, bootargs="", initrd=None, count=1, length: int | None = MIB, method=b"smc\0", cells=">Q", **more) -> bytes:
    """A devicetree as a hypervisor makes it; `more` are further nodes of the root, or None for one that is left out."""
    chosen = {"bootargs": bootargs.encode() + b"\0"} if bootargs else {}
    if initrd:
        chosen |= {"linux,initrd-start": struct.pack(cells, initrd[0]), "linux,initrd-end": struct.pack(cells, initrd[1])}
    cpus = {f"cpu@{n:x}": {"compatible": b"arm,cortex-a57\0", "reg": struct.pack(">I", n % 16 + n // 16 * 256)} for n in range(count)}
    memory = b"".join(struct.pack(">QQ", base, end - base) for base, end in ram)
    root = {"#address-cells": struct.pack(">I", 2), "#size-cells": struct.pack(">I", 2), "chosen": chosen,
            f"memory@{ram[0][0]:x}": {"reg": memory}, "cpus": {"#address-cells": struct.pack(">I", 1)} | cpus,
            "psci": {"method": method}, "pmu": {}, "intc@8000000": {"compatible": b"arm,gic-v3\0", "interrupt-controller": b""},
            "pcie@10000000": {
                "#address-cells": struct.pack(">I", 3), "#size-cells": struct.pack(">I", 2),
                "ranges": struct.pack(">IQQQ", 0x3000000, 1 << 39, 1 << 39, 1 << 39)}} | more
    return Writer().whole({key: value for key, value in root.items() if value is not None}, length)


def strings_first(data: bytes) -> bytes:
    """A devicetree that `tree` has made, with its block of strings before that of its structure."""
    head = list(struct.unpack(">10I", data[:40]))
    structure, strings = data[head[2]:head[3]], data[head[3]:head[3] + head[8]] + bytes(-head[8] % 4)
    head[1:4] = 56 + len(strings) + len(structure), 56 + len(strings), 56
    return struct.pack(">10I", *head) + data[40:56] + strings + structure


def wide() -> dict:
    """A node of a long path whose children are many: megabytes of which `rim fdt` makes gigabytes."""
    name = "a" * 31
    node: dict = {f"n{n:x}": {} for n in range(60_000)}
    for _ in range(40):
        node = {name: node}
    return node


def deep(count: int) -> dict:
    """Nodes in nodes, as many as count says with the root."""
    return {"a": deep(count - 1)} if count > 1 else {}


def image(image_size=2 * MIB, text_offset=0, length=20_000) -> bytes:
    """An arm64 Image: its header, and bytes in the place of code."""
    header = struct.pack("<IIQQQQQQII", 0, 0x14000010, text_offset, image_size, 0xA, 0, 0, 0, 0x644D5241, 0)
    return header + bytes(n * 37 % 251 for n in range(length - 64))


def zboot(plain: bytes, how=b"gzip", magic=b"\xcd\x23\x82\x81", packs=lambda plain: gzip.compress(plain, mtime=0)) -> bytes:
    """An EFI zboot: a header, and a packed Image."""
    packed = packs(plain)
    return struct.pack("<2sH4sII8s32s4sI", b"MZ", 0, b"zimg", 64, len(packed), b"", how, magic, 64) + packed


# The Image of `image`, packed by `zstd -19`.
ZSTD = bytes.fromhex(
    "28b52ffd0468e508008410001000001400200a0041524d6400254a6f94b9de082d52779cc1e610355a7fa4c9ee183d6287acd1f620456a8fb4d90328"
    "4d7297bce10b30557a9fc4e913385d82a7ccf11b40658aafd4f923486d92b7dc062b50759abfe40e33587da2c7ec163b6085aacff41e43688db2d701"
    "264b7095badf092e53789dc2e711365b80a5caef193e6388add2f721466b90b5da04294e7398bde20c31567ba0c5ea14395e83a8cdf21c41668bb0d5"
    "fa24496e93b8dd072c51769bc0e50f34597ea3c8ed173c6186abd0f51f44698eb3d802274c7196bbe00a2f54799ec3e812375c81a6cbf01a3f6489ae"
    "d3f822476c91b6db052a4f7499bee30d32577ca1c6eb153a5f84a9cef31d42678cb1d606007a71c66f560256bb025fc140f100200462513e41")
