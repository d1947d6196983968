#!/usr/bin/env python3
"""Runs the program with a call of the C library refused, for each such call in turn, and looks at how it ends. Not part of the gate.

usage: tools/oracles/failing.py [WORD]

`rim` has to be built, by `./rim --build --help`, and `cc` has to be there: see tools/oracles/refusing.py. WORD picks the kinds of calls
whose name has it. Each command below is run once with no call refused, and then with its first call of a
kind refused, its second, and so on until no call is left. A run has to end

- as the one with no call refused, or
- where memory was refused, with status 4, `rim: no-memory` and no output, or
- where a file could not be opened or read, with status 3 and that word, or
- where the output could not be written, with status 3 and `rim: output-failed`.

A call that is interrupted, or moves one byte alone, and a thread that is not started change nothing. Nor do 1,023 reads in a row
that are interrupted; 1,024 are a file that cannot be read.
"""
import collections
import os
import sys
import tempfile

from refusing import Refused, Refuser

TOP = os.path.dirname(os.path.dirname(os.path.dirname(os.path.abspath(__file__))))
PROGRAM = os.path.join(TOP, "crates", "rim", "out", "rim")

KINDS = ["memory", "open", "read", "interrupted-read", "short-read", "write", "write-fault", "interrupted-write", "short-write", "thread"]
# So many interrupted reads in a row are a file that cannot be read.
MOST_INTERRUPTIONS = 1024
# How many calls in a row are refused, where it is not one alone.
IN_A_ROW = {"interrupted-read": [1, MOST_INTERRUPTIONS - 1, MOST_INTERRUPTIONS]}

RELEASE = """rim_manifest = 2
file = [{name = "kernel", path = "Image"}, {name = "initrd", path = "initrd.img"}, {name = "tree", path = "virt.dtb"}]
[[launch]]
name = "a"
algo = "sha256"
s2sz = 40
ram = [[0x40000000, 0x40800000]]
item = [
    {name = "kernel", kind = "kernel", file = "kernel", at = 0x40200000},
    {name = "initrd", kind = "initrd", file = "initrd", at = 0x40600000},
    {name = "dtb", kind = "dtb", file = "tree", at = 0x40700000, bootargs = "console=ttyAMA0", initrd = true, memory = true},
    {name = "log", kind = "unknown", at = 0x40500000, size = 0x2000},
]
rec = [{}, {runnable = false}]
rec_rule = "runnable"
[[launch]]
name = "b"
algo = "sha512"
s2sz = 40
ram = [[0x40000000, 0x40800000]]
item = [
    {name = "kernel", kind = "kernel", file = "kernel", at = 0x40200000},
    {name = "initrd", kind = "initrd", file = "initrd", at = 0x40300000},
]
"""
FAULTY = """rim_manifest = 1
file = [{name = "kernel", path = ""}]
[[launch]]
name = "small"
algo = "sha384"
s2sz = 49
rams = 1
"""
NAMES = """rim_manifest = 1
launch = [{name = "a", algo = "sha256", s2sz = 40, steps = ["ram 0"]}, {name = "a", algo = "sha256", s2sz = 40, item = [
    {name = "k", kind = "kernel", file = "krenel", at = 0}, {name = "k", kind = "raw", file = "x", at = 0}]}]
"""

COMMANDS = [
    "measure m.toml", "measure --workers 2 m.toml", "measure --json m.toml", "list m.toml a", "list m.toml b", "trace m.toml a", "audit m.toml",
    "check m.toml", "check faulty.toml", "check names.toml", "dtb m.toml a", "replay listing", "image Image", "fdt virt.dtb", "--help", "measure",
]


def put_files(folder):
    """The files that the commands name."""
    for name, text in ("m.toml", RELEASE), ("faulty.toml", FAULTY), ("names.toml", NAMES):
        with open(os.path.join(folder, name), "w", encoding="utf-8") as it:
            it.write(text)
    for name in "Image", "initrd.img", "virt.dtb":
        os.symlink(os.path.join(TOP, "examples", "vm", name), os.path.join(folder, name))
    os.symlink(os.path.join(TOP, "tests", "cases", "virtual-machine-log-listing", "stdout"), os.path.join(folder, "listing"))


def answer(refused, plain, end):
    """What a run came to, if it may: `plain` is how it ends with no call refused."""
    kind, status, output, said = refused.kind, end.status, end.output, end.said
    is_patient = kind != "interrupted-read" or refused.count < MOST_INTERRUPTIONS
    if is_patient and (status, output) == (plain.status, plain.output) and (said == plain.said or kind == "write-fault"):
        return "as without"
    if kind == "memory" and (status, output, said) == (4, b"", "rim: no-memory\n"):
        return "no-memory"
    if (kind in ("open", "read") or not is_patient) and status == 3 and (said == "rim: file-unreadable\n" and not output or b": file-unreadable" in output and not said):
        return "file-unreadable"
    if kind == "write" and (status, said) == (3, "rim: output-failed\n"):
        return "output-failed"
    return None


def kinds():
    """The kinds of calls that are refused, and how many calls in a row."""
    return [(kind, count) for kind in KINDS for count in IN_A_ROW.get(kind, [1])]


def each_refused(refuser, program, words, kind, count, folder):
    """What came of a command with calls of a kind refused, from each call on in turn; and a line for each run that is wrong."""
    command = [program, *words.split()]
    plain = refuser.run(command, cwd=folder)
    answers, wrong, first = collections.Counter(), [], 1
    while True:
        refused = Refused(kind, first, count)
        end = refuser.run(command, refused, cwd=folder)
        if not end.was_refused:
            return answers, wrong
        came_to = answer(refused, plain, end)
        if came_to is None:
            wrong.append(f"rim {words}: {kind}, {count} from {first} on: status {end.status}, {len(end.output)} bytes, {end.said!r}")
        answers[came_to or "wrong"] += 1
        first += 1


def main():
    picked = [(kind, count) for kind, count in kinds() if not sys.argv[1:] or sys.argv[1] in kind]
    faults = 0
    with tempfile.TemporaryDirectory() as folder:
        put_files(folder)
        refuser = Refuser(folder)
        for words in COMMANDS:
            for kind, count in picked:
                answers, wrong = each_refused(refuser, PROGRAM, words, kind, count, folder)
                print(*wrong, sep="\n", end="\n" * bool(wrong))
                name = kind if count == 1 else f"{kind}, {count} in a row"
                refused = "".join(f", {many} {end}" for end, many in answers.items())
                print(f"rim {words}: {name}: {answers.total()} refused{refused}", flush=True)
                faults += len(wrong)
    print(f"{faults} wrong")
    return faults > 0


if __name__ == "__main__":
    sys.exit(main())
