#!/usr/bin/env python3
"""A second opinion: the report of a manifest, or the listing or the devicetree of a launch, by the plainest program that can
be written from docs/FORMATS.md and docs/DEFINITIONS.md.

It shares no code with rim, is slow, and finds hardly any faults: it is for manifests whose launches are accepted, or
refused by `size`, `overlap`, `outside-ram` or `rec-not-runnable`. Tests take their expected values from it.

usage: reference.py MANIFEST [LAUNCH [dtb]]

tests/run.py imports it.
"""
import hashlib
import os
import struct
import sys
import tomllib

PAGE = 4096
# The kinds of items, in the order of the steps that a launch has by default.
KINDS = ("kernel", "initrd", "dtb", "raw", "unknown")


def page_size(level):
    return PAGE << (9 * (3 - level))


class Refused(Exception):
    pass


class Measurement:
    def __init__(self, algo, page):
        self.algo = algo
        self.value = self.hash(page)

    def hash(self, data):
        return hashlib.new(self.algo, data).digest().ljust(64, b"\0")

    def extend(self, kind, fields):
        descriptor = bytearray(256)
        descriptor[0] = kind
        descriptor[8:16] = struct.pack("<Q", 256)
        descriptor[16:80] = self.value
        for offset, data in fields:
            descriptor[offset : offset + len(data)] = data
        self.value = self.hash(bytes(descriptor))

    def ripas(self, base, top):
        self.extend(2, [(0x50, struct.pack("<QQ", base, top))])

    def data(self, ipa, content):
        flags = 0 if content is None else 1
        self.extend(0, [(0x50, struct.pack("<QQ", ipa, flags)), (0x60, content or bytes(64))])

    def rec(self, content):
        self.extend(1, [(0x50, content)])


# The numbers of a realm's parameters, in the order of a listing's words, each with its offset in the measured page
# (DEN0137 1.0, RmiRealmParams).
NUMBERS = {"sve_vl": 0x10, "num_bps": 0x18, "num_wps": 0x20, "pmu_num_ctrs": 0x28}


def realm_page(launch):
    page = bytearray(PAGE)
    page[0] = (2 if launch.get("sve") else 0) | (4 if launch.get("pmu") else 0)
    for key, offset in {"s2sz": 8, **NUMBERS}.items():
        page[offset] = launch.get(key, 0)
    page[0x30] = 1 if launch["algo"] == "sha512" else 0
    return bytes(page)


def word(value):
    return int(value, 16) if isinstance(value, str) else value


def rec_page(rec, number, kernel, dtb):
    page = bytearray(PAGE)
    page[0] = 1 if rec.get("runnable", True) else 0
    default_pc, default_x0 = (kernel, dtb) if number == 0 else (0, 0)
    registers = [word(x) for x in rec["x"]] if "x" in rec else [default_x0]
    page[0x200:0x208] = struct.pack("<Q", word(rec.get("pc", default_pc)))
    page[0x300:0x340] = struct.pack("<8Q", *(registers + [0] * 8)[:8])
    return bytes(page)


def blocks(base, end, least_level):
    """The largest blocks of a region, from its first address on."""
    at = base
    while at < end:
        level = next(l for l in range(least_level, 4) if at % page_size(l) == 0 and at + page_size(l) <= end)
        yield at, at + page_size(level)
        at += page_size(level)


def address(number):
    return f"{number:016x}"


class Listing:
    """The commands that build a realm, as lines. Granules are taken from the pool in rising order."""

    def __init__(self, launch, start):
        self.next, self.start, self.tables = launch.get("pool_base", 0x800000000), start, set()
        self.aux = launch.get("num_aux", 0)
        rule = launch.get("rec_rule")
        self.lines = [f"rim-list 2 aux {self.aux} rec {rule}" if rule else f"rim-list 1 aux {self.aux}"]
        count = 1 << max(0, launch["s2sz"] - (12 + 9 * (4 - start)))
        base = [self.granule() for _ in range(count)][0]
        rd, flags = self.granule(), realm_page(launch)[0]
        numbers = [str(launch.get(key, 0)) for key in NUMBERS]
        self.line("realm_create", rd, base, str(start), str(count), str(launch["s2sz"]), launch["algo"], flags, *numbers)
        self.lines[-1] += " " + launch.get("rpv", "0" * 128).lower()

    def line(self, name, *words):
        self.lines.append(" ".join([name] + [word if isinstance(word, str) else address(word) for word in words]))

    def granule(self):
        self.line("delegate", self.next)
        self.next += PAGE
        return self.next - PAGE

    def walk(self, ipa, level):
        """The tables that an entry of this level needs, from the level below the start on."""
        for below in range(self.start + 1, level + 1):
            base = ipa // page_size(below - 1) * page_size(below - 1)
            if (below, base) not in self.tables:
                self.tables.add((below, base))
                self.line("rtt_create", self.granule(), base, str(below))

    def run(self, base, top, level):
        self.walk(base, level)
        self.line("init_ripas", base, top)

    def page(self, ipa, content):
        self.walk(ipa, 3)
        words = ["unmeasured"] if content is None else ["measured", content.hex()]
        self.line("data_create", self.granule(), ipa, *words)

    def unknown_page(self, ipa):
        self.walk(ipa, 3)
        self.line("data_unknown", self.granule(), ipa)

    def rec(self, number, page):
        rec, *aux = [self.granule() for _ in range(1 + self.aux)]
        numbers = struct.unpack_from("<9Q", page, 0x2F8)[1:]
        (pc,) = struct.unpack_from("<Q", page, 0x200)
        self.line("rec_create", rec, page[0], number % 16 + 256 * (number // 16), pc, *numbers, str(self.aux), *aux)


def runs(base, end, least_level):
    """The longest groups of neighbouring blocks of one level in one table."""
    found = []
    for low, high in blocks(base, end, least_level):
        level = next(l for l in range(4) if page_size(l) == high - low)
        table = low // (512 * page_size(level))
        if found and found[-1][2:] == [level, table]:
            found[-1][1] = high
        else:
            found.append([low, high, level, table])
    return [(low, high, level) for low, high, level, _ in found]


class Node:
    def __init__(self, name):
        self.name, self.properties, self.children = name, [], []

    def set(self, name, value):
        for entry in self.properties:
            if entry[0] == name:
                entry[1] = value
                return
        self.properties.append([name, value])

    def child(self, name):
        for node in self.children:
            if node.name == name:
                return node
        self.children.append(Node(name))
        return self.children[-1]


def read_devicetree(data):
    """The root of a flattened devicetree, its boot processor and its reservations."""
    _, _, at, strings, reserve, _, _, boot, _, _ = struct.unpack_from(">10I", data)
    reservations = []
    while any(pair := struct.unpack_from(">QQ", data, reserve)):
        reservations.append(pair)
        reserve += 16
    text = lambda start: data[start : data.index(b"\0", start)]
    stack = [Node(None)]
    while True:
        (token,) = struct.unpack_from(">I", data, at)
        at += 4
        if token == 1:
            name = text(at)
            at += (len(name) + 4) // 4 * 4
            stack[-1].children.append(Node(name))
            stack.append(stack[-1].children[-1])
        elif token == 2:
            stack.pop()
        elif token == 3:
            length, name = struct.unpack_from(">II", data, at)
            stack[-1].properties.append([text(strings + name), data[at + 8 : at + 8 + length]])
            at += 8 + (length + 3) // 4 * 4
        elif token == 9:
            return stack[0].children[0], boot, reservations


def write_devicetree(root, boot, reservations):
    names, offsets, structure = bytearray(), {}, bytearray()

    def pad():
        structure.extend(bytes(-len(structure) % 4))

    def write(node):
        structure.extend(struct.pack(">I", 1) + node.name + b"\0")
        pad()
        for name, value in node.properties:
            if name not in offsets:
                offsets[name] = len(names)
                names.extend(name + b"\0")
            structure.extend(struct.pack(">III", 3, len(value), offsets[name]) + value)
            pad()
        for child in node.children:
            write(child)
        structure.extend(struct.pack(">I", 2))

    write(root)
    structure.extend(struct.pack(">I", 9))
    reserve = b"".join(struct.pack(">QQ", *pair) for pair in reservations) + bytes(16)
    start = 40 + len(reserve)
    total = start + len(structure) + len(names)
    header = struct.pack(">10I", 0xD00DFEED, total, start, start + len(structure), 40, 17, 16, boot, len(names), len(structure))
    return header + reserve + bytes(structure) + bytes(names)


def edited(item, launch, files):
    """The contents of an item, with the edits that a devicetree asks for. What is unknown has no file, and no bytes."""
    if item["kind"] == "unknown":
        return b""
    data = files[item["file"]]
    if not ("bootargs" in item or item.get("initrd") or item.get("memory")):
        return data
    root, boot, reservations = read_devicetree(data)
    if "bootargs" in item:
        root.child(b"chosen").set(b"bootargs", item["bootargs"].encode() + b"\0")
    if item.get("initrd"):
        initrd = next(other for other in launch["item"] if other["kind"] == "initrd")
        for name, place in ((b"linux,initrd-start", initrd["at"]), (b"linux,initrd-end", initrd["at"] + len(files[initrd["file"]]))):
            root.child(b"chosen").set(name, struct.pack(">Q", place))
    if item.get("memory"):
        base, end = launch["ram"][0]
        cells = dict((name, struct.unpack(">I", value)[0]) for name, value in root.properties if name.endswith(b"-cells"))
        value = base.to_bytes(4 * cells.get(b"#address-cells", 2), "big") + (end - base).to_bytes(4 * cells.get(b"#size-cells", 1), "big")
        node = next((n for n in root.children if n.name == b"memory" or n.name.startswith(b"memory@")), None)
        if node is None:
            node = root.child(b"memory@%x" % base)
            node.set(b"device_type", b"memory\0")
        node.set(b"reg", value)
    return write_devicetree(root, boot, reservations)


def in_one_region(launch, page):
    return any(base <= page and page + PAGE <= top for base, top in launch.get("ram", []))


def place(launch, files):
    placed, extents = [], []
    for item in launch.get("item", []):
        data = edited(item, launch, files)
        at, length = item["at"], len(data)
        if item["kind"] == "kernel":
            offset, image = struct.unpack_from("<QQ", data, 8)
            at += offset if image else 0x80000
            length = max(length, image)
        size = item.get("size", len(data))
        if size < len(data):
            raise Refused("size")
        end = at + max(size, length if item["kind"] == "kernel" else 0)
        low, high = at // PAGE * PAGE, -(-end // PAGE) * PAGE
        if end > at:
            if not all(in_one_region(launch, page) for page in range(low, high, PAGE)):
                raise Refused("outside-ram")
            extents.append((low, high))
        pages = (-(-(at + size) // PAGE) - at // PAGE) if size else 0
        placed.append((item, at, pages, data))
    extents.sort()
    if any(first[1] > second[0] for first, second in zip(extents, extents[1:])):
        raise Refused("overlap")
    return placed


def measure(launch, files, seen):
    placed = place(launch, files)
    start = 2 if launch["s2sz"] <= 34 else 1 if launch["s2sz"] <= 43 else 0
    least_level = max(start, launch.get("block_level", 2))
    rim = Measurement(launch["algo"], realm_page(launch))
    listing = Listing(launch, start)
    kernel = next((at for item, at, _, _ in placed if item["kind"] == "kernel"), 0)
    dtb = next((at for item, at, _, _ in placed if item["kind"] == "dtb"), 0)

    def ram(number):
        for base, top in blocks(*launch["ram"][number], least_level):
            rim.ripas(base, top)
        for run in runs(*launch["ram"][number], least_level):
            listing.run(*run)

    def item(number):
        asked, at, pages, data = placed[number]
        lead = at % PAGE
        for page in range(pages):
            if asked["kind"] == "unknown":
                listing.unknown_page(at - lead + PAGE * page)
                continue
            content = None
            if asked.get("measured", True):
                first = PAGE * page - lead
                part = data[max(first, 0) : max(first + PAGE, 0)]
                part = (bytes(-first) if first < 0 else b"") + part
                content = rim.hash(part.ljust(PAGE, b"\0"))
                source = asked["file"] if data is files[asked["file"]] else (launch["name"], "edited")
                seen.add((launch["algo"], source, lead, page))
            rim.data(at - lead + PAGE * page, content)
            listing.page(at - lead + PAGE * page, content)

    def rec(number):
        is_runnable, rule = launch["rec"][number].get("runnable", True), launch.get("rec_rule")
        if not is_runnable and rule is None:
            raise Refused("rec-not-runnable")
        page = rec_page(launch["rec"][number], number, kernel, dtb)
        if is_runnable or rule == "all":
            rim.rec(rim.hash(page))
        listing.rec(number, page)

    names = [asked["name"] for asked, _, _, _ in placed]
    kinds = [asked["kind"] for asked, _, _, _ in placed]
    steps = launch.get("steps")
    if steps is None:
        steps = [f"ram {n}" for n in range(len(launch.get("ram", [])))]
        steps += [f"item {name}" for kind in KINDS for name, k in zip(names, kinds) if k == kind]
        steps += [f"rec {n}" for n in range(len(launch.get("rec", [])))]
    for step in steps:
        verb, what = step.split(" ")
        {"ram": lambda: ram(int(what)), "item": lambda: item(names.index(what)), "rec": lambda: rec(int(what))}[verb]()
    listing.line("activate")
    digits = rim.value[: 64 if launch["algo"] == "sha512" else 32].hex()
    listing.line("rim", launch["algo"], digits)
    return digits, listing.lines


def described(launch, files, digests):
    """What a launch is, as a report of JSON has it."""
    items, devicetree = [], None
    for item, at, pages, data in place(launch, files):
        size = item.get("size", len(data))
        edits = any(item.get(key) not in (None, False) for key in ("bootargs", "memory", "initrd"))
        devicetree = hashlib.sha256(data).hexdigest() if edits else devicetree
        items.append({
            "edited": edits, "file": digests[item["file"]]["path"] if "file" in item else None, "kind": item["kind"],
            "measured": item["kind"] != "unknown" and item.get("measured", True), "name": item["name"],
            "place": {"address": at, "bytes": size, "end": at + size, "lead": at % PAGE, "pages": pages},
            "sha256": digests[item["file"]]["sha256"] if "file" in item else None})
    recs = launch.get("rec", [])
    return {
        "algorithm": launch["algo"], "block_level": launch.get("block_level", 2), "edited_sha256": devicetree, "items": items,
        "name": launch["name"],
        "parameters": {"pmu": launch.get("pmu", False), "sve": launch.get("sve", False)} | {key: launch.get(key, 0) for key in NUMBERS},
        "ram": [{"base": base, "end": top} for base, top in launch.get("ram", [])],
        "recs": {"count": len(recs), "rule": launch.get("rec_rule"), "runnable": sum(rec.get("runnable", True) for rec in recs)},
        "rpv": launch.get("rpv", "00" * 64).lower(), "s2sz": launch["s2sz"]}


def read_manifest(path, folder="."):
    """A manifest, and its files by their names. All paths are those of a program that is started in the folder."""
    with open(os.path.join(folder, path), "rb") as file:
        manifest = tomllib.load(file)
    files = {}
    for entry in manifest.get("file", []):
        with open(os.path.join(folder, entry["path"]), "rb") as file:
            files[entry["name"]] = file.read()
    return manifest, files


def main():
    manifest, files = read_manifest(sys.argv[1])
    if len(sys.argv) > 2:
        launch = next(launch for launch in manifest["launch"] if launch["name"] == sys.argv[2])
        if len(sys.argv) > 3:
            item = next(item for item in launch["item"] if item["kind"] == "dtb")
            sys.stdout.buffer.write(edited(item, launch, files))
            return
        try:
            print("\n".join(measure(launch, files, set())[1]))
        except Refused as refused:
            print(launch["name"], "refused", refused)
        return
    pages = set()
    print("rim-report 1")
    for launch in manifest.get("launch", []):
        seen = set()
        try:
            print(launch["name"], launch["algo"], measure(launch, files, seen)[0])
            pages |= seen
        except Refused as refused:
            print(launch["name"], "refused", refused)
    print("pages", len(pages))


if __name__ == "__main__":
    main()
