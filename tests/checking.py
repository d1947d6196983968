#!/usr/bin/env python3
"""Gives `rim check` manifests with more faults than anybody reads, and looks at what a terminal shows.

    tests/checking.py [PROGRAM]          by default the program that `rt ci` has built

- Lists of faults: at most 200 lines and how many more there are, none of what is past a limit, one line for one cause.
- Large manifests: a check takes at most twice the time and the memory of `rim measure`, which looks for the lowest fault alone.
- One devicetree of many launches: what it says is found once, also where each launch edits it, and not at all where no warning is asked for.
- Terminals: JSON has no character that nobody sees, and means the same. After a fault, the line that a check has of it, the file that it is
  about or the nearest name of a launch; after those that a check prints, the line with the first. Nothing where standard error is no terminal. The line of progress, of measurements and of audits, leaves
  the cursor on a line of its own, and is removed.

The files are made here. The last line is 'N passed, M failed'.
"""
import json
import os
import pty
import re
import resource
import struct
import subprocess
import sys

from helpers import PATIENCE, manifests
from helpers.files import Writer
from helpers.folders import Folder
from helpers.tries import at_a_time, differs, program_of, told

SMALL = "[[launch]]\nname = '%s'\nalgo = 'sha256'\ns2sz = 33\n"
NONE = "m.toml:2:1: launch 0: name: missing-key: not given, expected a name of 1 to 64 letters, digits, '.', '_' and '-'"
FAULTS = ("name", "algo", "s2sz")


def manifest(*lines: str) -> bytes:
    return manifests.manifest(*lines).encode()


def checked(program: str, text: bytes, *words: str) -> list[str]:
    """The lines that a check of a manifest prints."""
    here = Folder({"m.toml": text})
    ran = subprocess.run([program, "check", *words, "m.toml"], cwd=here.path, capture_output=True, text=True, check=False)
    if ran.returncode != 3 or ran.stderr:
        raise ValueError(f"status {ran.returncode}: {ran.stderr}")
    return ran.stdout.splitlines()


def many(program: str) -> list[str]:
    """Each launch has three faults: 200 lines, and then the number of the others."""
    lines = checked(program, manifest("[[launch]]\n" * 70))
    kinds = [line.split(": ")[2] for line in lines[:-1]]
    places = [line.split(": ")[0] for line in lines[:-1]]
    wrong = differs("number of lines", len(lines), 201) + differs("the first", lines[0], NONE)
    wrong += differs("their keys", kinds, [FAULTS[i % 3] for i in range(200)])
    wrong += differs("their places", places, [f"m.toml:{2 + i // 3}:1" for i in range(200)])
    return wrong + differs("the last", lines[-1], "10 more faults")


def all_of_them(program: str) -> list[str]:
    """200 faults have a line each, and none is left out."""
    lines = checked(program, manifest("[[launch]]\n" * 66, "[[launch]]\nname = 'x'"))
    return differs("number of lines", len(lines), 200) + differs("the last", lines[-1].split(": ")[:3], ["m.toml:69:1", 'launch "x"', "s2sz"])


def lower(program: str) -> list[str]:
    """A fault past the 200th has a line where it is lower than all before it: an unknown key is lower than a missing one."""
    lines = checked(program, manifest("[[launch]]\n" * 80, "[[launch]]\nnmae = 'x'"))
    wrong = differs("number of lines", len(lines), 202)
    wrong += differs("the one before the last", lines[-2], 'm.toml:84:1: launch 80: unknown-key: "nmae" (nearest: name)')
    return wrong + differs("the last", lines[-1], "43 more faults")


def past_limit(program: str) -> list[str]:
    """Files past the 64th have no line."""
    lines = checked(program, manifest("[[file]]\n" * 66))
    wrong = differs("number of lines", len(lines), 130) + differs("the first", lines[0].split(": ")[:4], ["m.toml:2:1", "manifest", "file", "limit"])
    wrong += differs("the last fault", lines[-2].split(": ")[:3], ["m.toml:65:1", "file 63", "path"])
    return wrong + differs("the last", lines[-1], "4 more faults")


def one_more(program: str) -> list[str]:
    return differs("the last", checked(program, manifest("[[launch]]\n" * 67))[-1], "1 more fault")


def taken(program: str, words: tuple[str, ...], folder: Folder) -> tuple[float, int]:
    """Processor time in seconds and the most memory in KiB that a run takes."""
    script = "import resource, subprocess, sys\nsubprocess.run(sys.argv[1:], stdout=subprocess.DEVNULL, stderr=subprocess.DEVNULL)\n" \
             "used = resource.getrusage(resource.RUSAGE_CHILDREN)\nprint(used.ru_utime + used.ru_stime, used.ru_maxrss)"
    line = [sys.executable, "-c", script, program, *words, "m.toml"]
    time, memory = subprocess.run(line, cwd=folder.path, capture_output=True, text=True, check=True).stdout.split()
    return float(time), int(memory)


def compared(program: str, folder: Folder, words: tuple[str, ...]) -> list[str]:
    """What a check takes more than it may, beside `rim measure`."""
    time, memory = taken(program, ("measure",), folder)
    own_time, own_memory = taken(program, words, folder)
    wrong = [] if own_time <= 2 * time + 0.05 * PATIENCE else [f"check takes {own_time:.2f} s, and measure {time:.2f}"]
    return wrong + ([] if own_memory <= 2 * memory else [f"check takes {own_memory} KiB, and measure {memory}"])


def large(program: str, files: dict[str, bytes], *words: str) -> list[str]:
    """The same of the best of three tries, since a busy machine may hold up one of the two programs."""
    folder = Folder(files)
    for _ in range(3):
        wrong = compared(program, folder, ("check", *words))
        if not wrong:
            break
    return wrong


def many_ranges(count: int, edit: str = "") -> dict[str, bytes]:
    """Returns a devicetree of 1.9 MB whose memory node has 120,000 ranges, and a manifest of `count` launches that share it. Each launch
    edits it as `edit` says, where `%d` is the launch's number."""
    reg = b"".join(struct.pack(">QQ", i * 37 % 120_000 << 13, 1 << 12) for i in range(120_000))
    two = struct.pack(">I", 2)
    tree = Writer().whole({"#address-cells": two, "#size-cells": two, "memory@0": {"reg": reg}}, None)
    item = "ram = [[0x40000000, 0x50000000]]\nitem = [{name = 'd', kind = 'dtb', file = 'd', at = 0x40000000%s}]\n"
    edits = [edit.replace("%d", str(i)) for i in range(count)]
    launches = [f"[[launch]]\nname = 'a{i}'\nalgo = 'sha256'\ns2sz = 40\nrec = [{{}}]\n{item % edits[i]}" for i in range(count)]
    return {"d": tree, "m.toml": manifest("[[file]]\nname = 'd'\npath = 'd'\n", *launches)}


def edited(program: str) -> list[str]:
    """Launches that edit one devicetree share what is found in it: the warnings at most double the time of the check."""
    folder = Folder(many_ranges(128, ", bootargs = 'root=%d'"))
    for _ in range(3):
        time, _ = taken(program, ("check", "--quiet"), folder)
        own_time, _ = taken(program, ("check",), folder)
        if own_time <= 2 * time + 0.05 * PATIENCE:
            return []
    return [f"check takes {own_time:.2f} s, and without warnings {time:.2f}"]


LARGE = [
    ("3,000,000 empty items", lambda: manifest(SMALL % "a" + "item = [" + "{}," * 3_000_000 + "]")),
    ("1,100,000 unknown keys", lambda: manifest("\n".join(f"k{i} = 1" for i in range(1_100_000)))),
    ("300,000 launches", lambda: manifest("[[launch]]\n" * 300_000)),
]


def at_terminal(program: str, folder: Folder, *words: str, stop=False, of="stderr") -> tuple[int, str]:
    """The status of a run of which one stream is a terminal, and what it shows there."""
    own, other = pty.openpty()
    streams = {"stdout": subprocess.DEVNULL, "stderr": subprocess.DEVNULL} | {of: other}
    ran = subprocess.Popen([program, *words], cwd=folder.path, **streams)
    os.close(other)
    shown = b""
    while True:
        try:
            more = os.read(own, 65536)
        except OSError:
            break
        if not more:
            break
        shown += more
        if stop and b"pages" in shown:
            ran.terminate()
            stop = False
    os.close(own)
    return ran.wait(), shown.decode().replace("\r\n", "\n")


HIDDEN = "a\x7f\x9b\u202e\U000e0041\u2800b"


def hidden(program: str) -> list[str]:
    """JSON on a terminal has the number of each character that nobody sees, and means what it has by a pipe."""
    path = "".join(f"\\U{ord(letter):08x}" for letter in HIDDEN)
    folder = Folder({HIDDEN: b"x", "m.toml": manifest(f'file = [{{name = "f", path = "{path}"}}]\n', SMALL % "a")})
    status, shown = at_terminal(program, folder, "measure", "--json", "m.toml", of="stdout")
    ran = subprocess.run([program, "measure", "--json", "m.toml"], cwd=folder.path, capture_output=True, text=True, check=True)
    wrong = differs("the status", status, 0) + differs("what it means", json.loads(shown), json.loads(ran.stdout))
    wrong += differs("the path", json.loads(shown)["files"][0]["path"], HIDDEN)
    wrong += [] if shown.isascii() and shown.replace("\n", "").isprintable() else [f"shown: {shown!r}"]
    return wrong + ([] if HIDDEN in ran.stdout else ["by a pipe the path is not as it is"])


FILE = "[[file]]\nname = 'f'\npath = '%s'\n"
ADVICE = [
    ("a manifest that is not there", ["measure", "gone.toml"], b"",
     "rim: file-unreadable\n  gone.toml: there is no such file in the folder where rim runs\n"),
    ("a folder in its place", ["audit", "/"], b"", "rim: file-unreadable\n  /: it is a directory\n"),
    ("a fault of a manifest", ["measure", "m.toml"], b"rim_manifest = 3\n", "rim: version\n  m.toml:1:1: manifest: rim_manifest: version: 3, expected 1 or 2\n"),
    ("no TOML document", ["list", "m.toml", "a"], b"x", "rim: syntax\n  m.toml:1:2: syntax: key with no value, expected `=`\n"),
    ("a file that is not there", ["trace", "m.toml", "a"], manifest(FILE % "gone", SMALL % "a"),
     "rim: file-unreadable\n  gone: file-unreadable: there is no such file in the folder where rim runs\n"),
    ("no launch of the name", ["list", "m.toml", "smal"], manifest(SMALL % "small"),
     'rim: no-such-launch\n  m.toml has no launch "smal" (nearest: small)\n'),
    ("no launch, and no name near it", ["map", "m.toml", "x"], manifest(SMALL % "small"),
     'rim: no-such-launch\n  m.toml has no launch "x"\n'),
    ("a launch that is refused has no devicetree", ["dtb", "m.toml", "a"], manifest(SMALL % "a" + "ram = [[1, 2]]\n"),
     'rim: plan-unaligned\n  launch "a": plan-unaligned: step "ram 0": 0x1 to 0x2 is not of whole pages; a region is from a multiple of 0x1000 to another\n'),
    ("a launch without a devicetree", ["dtb", "m.toml", "a"], manifest(SMALL % "a"),
     'rim: no-devicetree\n  launch "a" has no item of the kind "dtb"\n'),
    ("a listing that is not there", ["replay", "gone"], b"",
     "rim: file-unreadable\n  gone: there is no such file in the folder where rim runs\n"),
    ("a path with an escape", ["image", "a\x1b[1m"], b"",
     "rim: file-unreadable\n  a\\x1b[1m: there is no such file in the folder where rim runs\n"),
    ("a devicetree that is none", ["fdt", "m.toml"], b"x", "rim: dtb-short\n  m.toml: it has fewer than the 40 bytes of a header\n"),
    ("a check of a manifest with a fault", ["check", "m.toml"], manifest(SMALL % "a" + "  s3sz = 3 # \x1b[1m\n").replace(b"\x1b", b"\t"),
     "  6 |   s3sz = 3 # \\x09[1m\n        ^\n"),
    ("a check of a long line", ["check", "m.toml"], b"x = '" + b"a" * 100 + b"'\nrim_manifest = 1\ny = ['" + b"b" * 100 + b"', a]\n",
     f"  3 | {'b' * 57}', a]\n{' ' * 66}^\n"),
    ("a check of no TOML document", ["check", "m.toml"], "\ufeffé = é\n".encode(), "  1 | é = é\n      ^\n"),
    ("a check of a manifest that is not there", ["check", "gone.toml"], b"",
     "rim: file-unreadable\n  gone.toml: there is no such file in the folder where rim runs\n"),
]


def advice(program: str, words: list[str], text: bytes, shown: str) -> list[str]:
    return differs("what is shown", at_terminal(program, Folder({"m.toml": text}), *words), (3, shown))


def no_terminal(program: str) -> list[str]:
    ran = subprocess.run([program, "measure", "gone.toml"], capture_output=True, text=True, check=False)
    return differs("what is written", (ran.returncode, ran.stderr), (3, "rim: file-unreadable\n"))


def long_run() -> Folder:
    """A release that is measured for some seconds."""
    item = "item = [{name = 'f', kind = 'raw', file = 'f', at = 0x40000000, size = 0x10000000}]\n"
    launches = [SMALL % "a" + "ram = [[0x40000000, 0x50000000]]\n" + item]
    return Folder({"f": b"1234567" * 38_000_000, "m.toml": manifest(FILE % "f", *launches)})


def progress(program: str) -> list[str]:
    """Each line ends, so that the cursor is under it; the last one is removed."""
    status, shown = at_terminal(program, long_run(), "measure", "m.toml", "--workers", "1")
    lines = shown.split("\n")
    wrong = differs("the status", status, 0)
    wrong += [] if len(lines) > 1 and all(line.endswith("launches\x1b[K") for line in lines[:-1]) else [f"lines: {lines!r}"]
    return wrong + differs("the end", lines[-1], "\x1b[A\x1b[K")


def long_audit(launches: int) -> Folder:
    """A release whose audit takes a second or more. A launch shares no page with another: each has the file at another byte of a page."""
    item = "ram = [[0x40000000, 0x50000000]]\nitem = [{name = 'f', kind = 'raw', file = 'f', at = %d}]\n"
    tables = [SMALL % f"a{i}" + item % (0x40000000 + i) for i in range(launches)]
    return Folder({"f": b"1234567" * 4_700_000, "m.toml": manifest(FILE % "f", *tables)})


def progress_of_audit(program: str) -> list[str]:
    """The launches of an audit are counted at a terminal, and no pages; the line is removed. By a pipe nothing is shown."""
    folder = long_audit(24)
    status, shown = at_terminal(program, folder, "audit", "m.toml")
    lines = shown.split("\n")
    found = [re.fullmatch(r"(\x1b\[A)?rim: (\d+) of 24 launches\x1b\[K", line) for line in lines[:-1]]
    wrong = differs("the status", status, 0) + differs("the end", lines[-1], "\x1b[A\x1b[K")
    if not found or not all(found):
        return wrong + [f"lines: {lines!r}"]
    done = [int(line[2]) for line in found]
    wrong += [] if done == sorted(set(done)) and done[-1] < 24 else [f"launches: {done}"]
    wrong += differs("lines that replace one", [line[1] for line in found], [None] + ["\x1b[A"] * (len(found) - 1))
    ran = subprocess.run([program, "audit", "m.toml"], cwd=folder.path, capture_output=True, text=True, check=False)
    return wrong + differs("what is written by a pipe", (ran.returncode, ran.stderr), (0, ""))


def broken_off(program: str) -> list[str]:
    """A run that is ended by a signal leaves the cursor at the beginning of a line."""
    status, shown = at_terminal(program, long_run(), "measure", "m.toml", "--workers", "1", stop=True)
    return differs("the status", status, -15) + differs("the end", shown[-1:], "\n")


def all_tries(program: str):
    for look in (many, all_of_them, lower, past_limit, one_more, no_terminal, hidden, progress, progress_of_audit, broken_off):
        yield look.__name__, lambda look=look: look(program)
    for name, text in LARGE:
        yield name, lambda text=text: large(program, {"m.toml": text()})
    yield "one devicetree of 1,024 launches", lambda: large(program, many_ranges(1024))
    yield "the same without warnings", lambda: large(program, many_ranges(1024), "--quiet")
    yield "one devicetree that 128 launches edit", lambda: edited(program)
    for name, words, text, shown in ADVICE:
        yield name, lambda words=words, text=text, shown=shown: advice(program, words, text, shown)


def run_all() -> int:
    program = program_of(sys.argv[1:])
    resource.setrlimit(resource.RLIMIT_CORE, (0, 0))
    return told(at_a_time(all_tries(program), 2))


if __name__ == "__main__":
    sys.exit(run_all())
