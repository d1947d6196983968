#!/usr/bin/env python3
"""Makes a wheel of the package rim with the library in it, which pip installs without a compiler and without an index.

usage: wheel.py [--v3 LIBRARY] --out FOLDER LIBRARY

LIBRARY is librim.so.0, on x86-64 for processors with all of x86-64-v2; that of --v3 is for processors with AVX2. The wheel is in FOLDER, and its
path is printed. It is for the processor that the libraries are of, and for the oldest GNU C library that has what they name. The same files
make the same bytes again, where zlib is of the same version.
"""
import argparse
import base64
import hashlib
import os
import re
import signal
import stat
import struct
import sys
import tempfile
import zipfile

HERE = os.path.dirname(os.path.abspath(__file__))
# The numbers of an ELF file's processor.
MACHINES = {62: "x86_64", 183: "aarch64"}
# The oldest C library of which a wheel may say that it needs no newer one.
OLDEST = 17
# A library has some megabytes.
LIMIT = 64 << 20


def read(path: str) -> bytes:
    """The bytes of a file. What is no file, as a FIFO, is not waited for."""
    if not stat.S_ISREG(os.stat(path).st_mode):
        raise SystemExit(f"wheel.py: {path!r}: it is no file")
    with open(path, "rb") as file:
        data = file.read(LIMIT + 1)
    if len(data) > LIMIT:
        raise SystemExit(f"wheel.py: {path!r}: it has more than {LIMIT} bytes")
    return data


def machine_of(path: str, data: bytes) -> str:
    """The processor that a library is for."""
    number = struct.unpack_from("<H", data, 18)[0] if data[:6] == b"\x7fELF\x02\x01" and len(data) >= 20 else None
    if number not in MACHINES:
        raise SystemExit(f"wheel.py: {path!r}: it is no library for x86-64 or arm64, expected librim.so.0")
    return MACHINES[number]


def tag_of(libraries: dict[str, bytes]) -> str:
    """The wheel's tag: of the libraries' processor, and of the newest version of the C library that they name."""
    machines = {machine_of(path, data) for path, data in libraries.items()}
    if len(machines) > 1:
        raise SystemExit("wheel.py: the libraries are for two processors, expected one")
    minor = max([OLDEST, *(int(each) for data in libraries.values() for each in re.findall(rb"\0GLIBC_2\.(\d+)", data))])
    return f"py3-none-manylinux_2_{minor}_{machines.pop()}"


def setting(name: str) -> str:
    """A text of the table `project` of pyproject.toml."""
    found = re.search(rf'^{name} = "(.*)"$', read(os.path.join(HERE, "pyproject.toml")).decode(), re.M)
    if not found:
        raise SystemExit(f"wheel.py: pyproject.toml has no {name}")
    return found[1]


def package() -> dict[str, bytes]:
    """The files of the package, by their paths in a wheel."""
    names = [name for name in os.listdir(os.path.join(HERE, "rim")) if name.endswith(".py") or name == "py.typed"]
    return {f"rim/{name}": read(os.path.join(HERE, "rim", name)) for name in names}


def described(version: str, tag: str) -> dict[str, bytes]:
    """What a wheel says of itself, by its path."""
    info = f"rim-{version}.dist-info"
    metadata = ["Metadata-Version: 2.1", "Name: rim", f"Version: {version}", f"Summary: {setting('description')}",
                "License: Apache-2.0 OR MIT", f"Requires-Python: {setting('requires-python')}"]
    wheel = ["Wheel-Version: 1.0", "Generator: rim", "Root-Is-Purelib: false", f"Tag: {tag}"]
    return {f"{info}/METADATA": "".join(f"{line}\n" for line in metadata).encode(), f"{info}/WHEEL": "".join(f"{line}\n" for line in wheel).encode()}


def record(files: dict[str, bytes], path: str) -> bytes:
    """The list of a wheel's files, of which this path is its own."""
    digests = {each: base64.urlsafe_b64encode(hashlib.sha256(data).digest()).decode().rstrip("=") for each, data in files.items()}
    return "".join([f"{each},sha256={digests[each]},{len(data)}\n" for each, data in files.items()] + [f"{path},,\n"]).encode()


def write(path: str, files: dict[str, bytes]) -> None:
    """Writes a wheel, whole or not at all."""
    with tempfile.TemporaryDirectory(dir=os.path.dirname(path) or ".", prefix=".wheel-") as folder:
        part = os.path.join(folder, "wheel")
        with zipfile.ZipFile(part, "w", zipfile.ZIP_DEFLATED) as wheel:
            for name, data in files.items():
                entry = zipfile.ZipInfo(name, (1980, 1, 1, 0, 0, 0))
                entry.create_system, entry.external_attr, entry.compress_type = 3, 0o100644 << 16, zipfile.ZIP_DEFLATED
                wheel.writestr(entry, data, compresslevel=9)
        os.replace(part, path)


def main() -> int:
    parser = argparse.ArgumentParser(usage="wheel.py [--v3 LIBRARY] --out FOLDER LIBRARY")
    parser.add_argument("--v3")
    parser.add_argument("--out", required=True)
    parser.add_argument("library")
    given = parser.parse_args()
    libraries = {path: read(path) for path in (given.library, given.v3) if path}
    tag, version = tag_of(libraries), setting("version")
    machine = tag.partition("manylinux_")[2].split("_", 2)[2]
    files = package()
    files[f"rim/librim-{machine}-v2.so" if machine == "x86_64" else f"rim/librim-{machine}.so"] = libraries[given.library]
    if given.v3:
        files[f"rim/librim-{machine}-v3.so"] = libraries[given.v3]
    files = dict(sorted(files.items())) | described(version, tag)
    files[f"rim-{version}.dist-info/RECORD"] = record(files, f"rim-{version}.dist-info/RECORD")
    path = os.path.join(given.out, f"rim-{version}-{tag}.whl")
    write(path, files)
    print(path)
    return 0


def stop(number: int, _frame: object) -> None:
    """Ends by a signal's status, so that nothing is left of a wheel that is not whole."""
    raise SystemExit(128 + number)


if __name__ == "__main__":
    for each in (signal.SIGINT, signal.SIGTERM, signal.SIGHUP):
        signal.signal(each, stop)
    try:
        sys.exit(main())
    except OSError as why:
        sys.exit(f"wheel.py: {why.filename or 'the wheel'!r}: {why.strerror}")
