"""Files as hypervisors load them: what of a kernel they unpack, and what they do with an initrd."""
from __future__ import annotations

import hashlib
import os
import re
import shutil
import struct
import zlib

from outside import files, programs
from outside.faults import Fault
from outside.programs import Limits, SaysTooMuch
from outside.rim import Image, Rim, image_of
from outside.texts import shown, visible

from .folder import Folder
from .guest import Blob, Kernel
from .hypervisor import Hypervisor

GZIP = b"\x1f\x8b"
ZBOOT = b"\xcd\x23\x82\x81"
UBOOT = b"\x27\x05\x19\x56"
ZSTD = b"\x28\xb5\x2f\xfd"
# How packed files and other kernels begin.
OTHERS = ((b"\x7fELF", "an ELF file"), (UBOOT, "a U-Boot image"), (GZIP, "a gzip file"), (b"BZh", "a bzip2 file"),
          (b"\xfd7zXZ", "an xz file"), (ZSTD, "a zstd file"))
# No file of a manifest is longer, and QEMU unpacks no more.
MOST = 256 << 20
# How long zstd may take, and how much memory it may have: more than the longest window that Linux is packed with.
SECONDS, MEMORY = 60, 1 << 30


def copied(path: str) -> str:
    return f"copied from {shown(path, 4096)}"


def kernel(made: Folder, rim: Rim, path: str, label: str, name: str, vmm: Hypervisor, version: str) -> Kernel:
    """The kernel as the hypervisor loads it: unpacked, where it unpacks it itself."""
    data, how = files.read(path, MOST, "an arm64 Image"), ""
    source = hashlib.sha256(data).hexdigest()
    if vmm.FACTS.unpacks_gzip and data.startswith(GZIP):
        data, how = gunzip(path, data), "unpacked from gzip, as QEMU does"
    elif is_zboot(data):
        data, how = from_zboot(path, data, vmm, version), f"unpacked from EFI zboot, as QEMU {version} does"
    blob = made.put(name, data, label, copied(path), path, source)
    image = header(rim, os.path.join(made.path, name), path)
    if image is None:
        raise Fault(f"{visible(path)}: {kind_of(data)}, expected an arm64 Image")
    return Kernel(blob.file, blob.path, blob.origin, blob.length, blob.label, blob.digest, blob.source, image, how)


def header(rim: Rim, copy: str, path: str) -> Image | None:
    """The header of the copy of an Image. `rim` takes no path that is not UTF-8, so it is given one of its own."""
    with files.folder("rim-manifest.") as scratch:
        link = os.path.join(scratch, "kernel")
        os.symlink(os.path.abspath(copy), link)
        try:
            return image_of(rim, link)
        except Fault as why:
            raise Fault(*(line.replace(visible(link), visible(path)) for line in why.lines)) from None


def kind_of(data: bytes) -> str:
    """What a file is that is no Image."""
    return next((what for start, what in OTHERS if data.startswith(start)), "no magic `ARM\\x64` at byte 56")


def initrd(made: Folder, path: str, label: str, name: str) -> Blob:
    data = files.read(path, MOST, "an initrd")
    if not data:
        raise Fault(f"{visible(path)}: it is empty, expected an initrd, or none")
    if data.startswith(UBOOT):
        raise Fault(f"{visible(path)}: an initrd with a U-Boot header, which is not loaded; expected the file without its 64 bytes")
    return made.put(name, data, label, copied(path), path, hashlib.sha256(data).hexdigest())


def is_zboot(data: bytes) -> bool:
    """Whether a file is an EFI zboot to QEMU, which looks for all three of these."""
    return data[:2] == b"MZ" and data[4:8] == b"zimg" and data[56:60] == ZBOOT


def gunzip(path: str, data: bytes) -> bytes:
    """The first member of a gzip file; what comes after it is passed over, as QEMU does."""
    unpack = zlib.decompressobj(wbits=31)
    try:
        plain = unpack.decompress(data, MOST + 1)
    except zlib.error as why:
        raise Fault(f"{visible(path)}: gzip that cannot be unpacked: {why}") from None
    if len(plain) > MOST:
        raise too_long(path)
    if not unpack.eof:
        raise Fault(f"{visible(path)}: gzip that is cut short")
    return plain


def unzstd(path: str, data: bytes) -> bytes:
    """What zstd has packed, by the program zstd: Python has no such reader before 3.14. That program unpacks other files too."""
    if not data.startswith(ZSTD):
        raise Fault(f"{visible(path)}: an EFI zboot of zstd that is none, expected a file that is packed so")
    zstd = shutil.which("zstd")
    if not zstd:
        raise Fault(f"{visible(path)}: an EFI zboot packed by zstd, and no program zstd is there, expected one (Debian: zstd), or the unpacked "
                    "Image")
    with files.folder("rim-manifest.") as scratch:
        packed = os.path.join(scratch, "packed")
        files.write(packed, data)
        try:
            ran = programs.run([zstd, "-d", "-c", "-q", packed], Limits(SECONDS, MOST, MEMORY))
        except SaysTooMuch:
            raise too_long(path) from None
    if ran.status:
        raise Fault(f"{visible(path)}: zstd that cannot be unpacked: {ran.said.replace(visible(packed), visible(path))}")
    return ran.out


def too_long(path: str) -> Fault:
    return Fault(f"{visible(path)}: more than {MOST} bytes when it is unpacked, expected at most that")


def unzboot(path: str, data: bytes) -> tuple[str, bytes]:
    """How the kernel in an EFI zboot file is packed, and its packed bytes (Linux, drivers/firmware/efi/libstub/zboot-header.S)."""
    start, size = struct.unpack_from("<II", data, 8)
    if start + size > len(data):
        raise Fault(f"{visible(path)}: an EFI zboot whose kernel ends at byte {start + size}, and the file has {len(data)}")
    return data[24:56].split(b"\0")[0].decode(errors="surrogateescape"), data[start:start + size]


def from_zboot(path: str, data: bytes, vmm: Hypervisor, version: str) -> bytes:
    """The kernel of an EFI zboot, where the hypervisor is of a version that is known to unpack it."""
    since = vmm.FACTS.zboot
    if not since:
        raise Fault(f"{visible(path)}: an EFI zboot file, expected an arm64 Image that is not packed")
    how, packed = unzboot(path, data)
    # Linux calls zstd by the level that it packs with
    known = "zstd" if re.fullmatch("zstd[0-9]*", how) else how
    if known not in since:
        raise Fault(f"{visible(path)}: an EFI zboot packed by {shown(how)}, expected {' or '.join(since)}, which QEMU unpacks, or an Image")
    first = ".".join(map(str, since[known]))
    if not version:
        raise Fault(f"{visible(path)}: an EFI zboot file packed by {known}, which QEMU unpacks from {first} on; "
                    "expected --qemu, or hypervisor_version in the file of --host")
    if tuple(int(each) for each in re.findall("[0-9]+", version)[:2]) < since[known]:
        raise Fault(f"{visible(path)}: an EFI zboot file packed by {known}, which QEMU {version} may load packed, or stop at; "
                    f"expected QEMU {first} or later, or the unpacked Image")
    return gunzip(path, packed) if known == "gzip" else unzstd(path, packed)


def firmware(made: Folder, path: str, label: str, name: str) -> Blob:
    """Firmware, as it is copied into RAM."""
    data = files.read(path, MOST, "firmware")
    if not data:
        raise Fault(f"{visible(path)}: it is empty, expected firmware")
    return made.put(name, data, label, copied(path), path, hashlib.sha256(data).hexdigest())
