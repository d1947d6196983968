#!/usr/bin/env python3
"""Compares launches that rim-manifest has written with the memory of a QEMU that is started by the same words. Not part of the gate.

usage: tools/trials/qemu_memory.py [--qemu PROGRAM] [--only TEXT] DIR

DIR is a folder that `rim-manifest qemu --stub measured --row psci=dumped` has written: a plain guest has the stub, and PSCI by hvc. Its other
rows are the likeliest alternatives. Its record.json has the words of each launch. --only takes the launches whose name has
TEXT. QEMU is qemu-system-aarch64 where it is not given. It is started stopped (-S), and its monitor is asked for all of its RAM. The listing
is that of `rim`: the program that the variable RIM names, or else the one at the top. Then

- its RAM has the addresses that the listing makes RAM;
- each page that the listing has a digest of has that digest;
- each other page is zero;
- the first processor has the registers of the first REC.

Each launch has a line, and one more for each thing that differs. The last line is 'N passed, M failed'.
"""
import argparse
import contextlib
import hashlib
import json
import os
import re
import subprocess
import sys
import tempfile

TOP = os.path.dirname(os.path.dirname(os.path.dirname(os.path.abspath(__file__))))
sys.path.insert(0, os.path.join(TOP, "tests"))

from helpers.tries import told  # noqa: E402, the path is set above

PAGE = 4096
# How much memory is saved and read at a time.
STRETCH = 64 << 20
RAM = re.compile(r"^\s*([0-9a-f]{16})-([0-9a-f]{16}) \(prio \d+, ram\): ", re.M)
REGISTER = re.compile(r"\b(PC|X\d\d)=([0-9a-f]{16})")
# RAM of the machine `virt` begins here; what is below is of its devices.
LOWEST = 0x4000_0000


class Monitor:
    """QEMU's monitor (QMP) on its standard input and output."""

    def __init__(self, words: list[str]):
        self.process = subprocess.Popen([*words, "-S", "-nodefaults", "-display", "none", "-qmp", "stdio"], stdin=subprocess.PIPE,
                                        stdout=subprocess.PIPE, stderr=subprocess.PIPE, text=True)
        self.read()
        self.ask("qmp_capabilities")

    def read(self) -> dict:
        line = self.process.stdout.readline()
        if not line:
            raise SystemExit(f"QEMU has ended: {self.process.stderr.read().strip()}")
        return json.loads(line)

    def ask(self, command: str, **arguments):
        self.process.stdin.write(json.dumps({"execute": command, "arguments": arguments}) + "\n")
        self.process.stdin.flush()
        while True:
            answer = self.read()
            if "error" in answer:
                raise SystemExit(f"QEMU: {command}: {answer['error']}")
            if "return" in answer:
                return answer["return"]

    def text(self, line: str) -> str:
        """What the monitor for people answers."""
        return self.ask("human-monitor-command", **{"command-line": line})

    def ram(self) -> list[tuple[int, int]]:
        found = {(int(low, 16), int(high, 16) + 1) for low, high in RAM.findall(self.text("info mtree -f"))}
        return joined(sorted(each for each in found if each[0] >= LOWEST))

    def memory(self, base: int, size: int, path: str) -> bytes:
        self.ask("pmemsave", val=base, size=size, filename=path)
        with open(path, "rb") as file:
            return file.read()

    def registers(self) -> dict[str, int]:
        return {name: int(value, 16) for name, value in REGISTER.findall(self.text("info registers"))}

    def stop(self):
        self.process.kill()
        self.process.communicate()


def joined(ranges: list[tuple[int, int]]) -> list[tuple[int, int]]:
    """Rising ranges, of which those that touch are one."""
    found: list[tuple[int, int]] = []
    for base, end in ranges:
        if found and found[-1][1] == base:
            found[-1] = found[-1][0], end
        else:
            found.append((base, end))
    return found


class Listing:
    """What a listing says of memory and of the first processor."""

    def __init__(self, lines: list[str]):
        rows = [line.split(" ") for line in lines]
        if rows[-1][0] != "rim":
            raise SystemExit(f"no listing: {lines[-1]}")
        self.algorithm = rows[-1][1]
        self.ram = joined(sorted((int(row[1], 16), int(row[2], 16)) for row in rows if row[0] == "init_ripas"))
        self.pages = {int(row[2], 16): row[4] for row in rows if row[0] == "data_create" and row[3] == "measured"}
        self.rec = next([int(word, 16) for word in row[4:13]] for row in rows if row[0] == "rec_create")

    def digest(self, page: bytes) -> str:
        return hashlib.new(self.algorithm, page).hexdigest().ljust(128, "0")


def pages_that_differ(monitor: Monitor, listing: Listing, path: str) -> list[str]:
    """The pages of RAM that are not as the listing says, as lines."""
    wrong, seen, zeros = [], 0, bytes(PAGE)
    for base, end in listing.ram:
        for start in range(base, end, STRETCH):
            memory = monitor.memory(start, min(STRETCH, end - start), path)
            for at in range(0, len(memory), PAGE):
                page, expected = memory[at:at + PAGE], listing.pages.get(start + at)
                seen += expected is not None
                if expected is None and page != zeros:
                    wrong.append(f"page {start + at:#x} is not zero, and is not measured")
                elif expected is not None and listing.digest(page) != expected:
                    wrong.append(f"page {start + at:#x} has another digest")
    if seen != len(listing.pages):
        wrong.append(f"{len(listing.pages) - seen} measured pages are not in RAM")
    return wrong


def compare(words: list[str], listing: Listing) -> list[str]:
    """How a stopped QEMU differs from a listing, as lines."""
    with tempfile.TemporaryDirectory() as folder, contextlib.ExitStack() as stack:
        monitor = Monitor(words)
        stack.callback(monitor.stop)
        wrong = []
        if (ram := monitor.ram()) != listing.ram:
            wrong.append(f"RAM of QEMU is {ram}, and of the listing {listing.ram}")
        registers = monitor.registers()
        has = [registers["PC"]] + [registers[f"X{number:02}"] for number in range(8)]
        if has != listing.rec:
            here, there = ([hex(each) for each in registers_] for registers_ in (has, listing.rec))
            wrong.append(f"pc and x0 to x7 of QEMU are {here}, and of the listing {there}")
        return wrong + pages_that_differ(monitor, listing, os.path.join(folder, "memory"))


def words_of(launch: dict, program: str, folder: str) -> list[str]:
    if launch["firmware"]:
        raise SystemExit(f"{launch['name']}: it has firmware, which a plain guest has in flash and no realm has there, expected a kernel")
    words = [program, *launch["words"], "-kernel", os.path.join(folder, launch["kernel"])]
    if launch["initrd"]:
        words += ["-initrd", os.path.join(folder, launch["initrd"])]
    if launch["append"]:
        words += ["-append", launch["append"]]
    return words + launch["rest"]


def listing_of(folder: str, manifest: str, name: str) -> Listing:
    rim = os.path.abspath(os.environ.get("RIM") or os.path.join(TOP, "rim"))
    listed = subprocess.run([rim, "list", manifest, name], cwd=folder, capture_output=True, text=True, check=False)
    return Listing(listed.stdout.splitlines() or [listed.stderr])


def outcomes(record, said):
    """Yields each launch with its differences."""
    for launch in record["launches"]:
        if said.only in launch["name"]:
            listing = listing_of(said.folder, launch["manifest"], launch["name"])
            wrong = compare(words_of(launch, said.qemu, said.folder), listing)
            size = sum(end - base for base, end in listing.ram) >> 20
            print(f"{launch['name']}: {len(listing.pages)} measured pages, {size} MiB of RAM: {'WRONG' if wrong else 'the same'}", flush=True)
            yield launch["name"], wrong


def main():
    parser = argparse.ArgumentParser(description=__doc__, formatter_class=argparse.RawDescriptionHelpFormatter)
    parser.add_argument("--qemu", default="qemu-system-aarch64")
    parser.add_argument("--only", default="")
    parser.add_argument("folder", metavar="DIR")
    said = parser.parse_args()
    with open(os.path.join(said.folder, "record.json"), encoding="utf-8") as file:
        record = json.load(file)
    if record["hypervisor"] != "qemu":
        raise SystemExit(f"{said.folder} is of {record['hypervisor']}, expected one of qemu")
    return told(outcomes(record, said), 10)


if __name__ == "__main__":
    sys.exit(main())
