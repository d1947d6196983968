#!/usr/bin/env python3
"""Makes the files that the manifest beside it names: a small arm64 Image, an initrd and a devicetree.

They have the form of real ones and say nothing: no kernel starts from them. Run it in this directory to make them anew;
they are checked in as it made them.
"""
import struct


def image():
    """An Image: its header (booting.rst), and 20,000 bytes in the place of code. It takes 2 MiB of memory when it runs."""
    header = struct.pack("<IIQQQQQQII", 0, 0x14000010, 0, 0x200000, 0xA, 0, 0, 0, 0x644D5241, 0)
    return header + bytes(n * 37 % 251 for n in range(20000))


def initrd():
    """Something compressed that is no whole number of pages."""
    return b"\x1f\x8b\x08\x00" + bytes(n * 91 % 253 for n in range(9001))


def devicetree():
    """The devicetree of a machine with one processor, as a hypervisor hands it to a guest (Devicetree Specification 0.4)."""
    names, structure = bytearray(), bytearray()

    def begin(name):
        structure.extend(struct.pack(">I", 1) + name.encode() + b"\0")
        structure.extend(bytes(-len(structure) % 4))

    def end():
        structure.extend(struct.pack(">I", 2))

    def put(name, value):
        at = names.find(name.encode() + b"\0")
        if at < 0:
            at = len(names)
            names.extend(name.encode() + b"\0")
        structure.extend(struct.pack(">III", 3, len(value), at) + value)
        structure.extend(bytes(-len(structure) % 4))

    begin("")
    put("#address-cells", struct.pack(">I", 2))
    put("#size-cells", struct.pack(">I", 2))
    put("compatible", b"linux,dummy-virt\0")
    begin("chosen")
    put("stdout-path", b"/uart@9000000\0")
    end()
    begin("cpus")
    put("#address-cells", struct.pack(">I", 1))
    put("#size-cells", struct.pack(">I", 0))
    begin("cpu@0")
    put("device_type", b"cpu\0")
    put("compatible", b"arm,armv8\0")
    put("reg", struct.pack(">I", 0))
    end()
    end()
    begin("memory@40000000")
    put("device_type", b"memory\0")
    put("reg", struct.pack(">QQ", 0x40000000, 0x1000000))
    end()
    end()
    structure.extend(struct.pack(">I", 9))
    start = 40 + 16
    total = start + len(structure) + len(names)
    header = struct.pack(">10I", 0xD00DFEED, total, start, start + len(structure), 40, 17, 16, 0, len(names), len(structure))
    return header + bytes(16) + structure + names


for name, data in (("Image", image()), ("initrd.img", initrd()), ("virt.dtb", devicetree())):
    with open(name, "wb") as file:
        file.write(data)
