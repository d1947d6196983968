#!/usr/bin/env python3
"""Builds a program of dist/, or a library of it, over the crates that `rt ci` has proved here, and gives it cases of tests/.

    tests/processors.py TARGET            x86_64-v2, x86_64-v3 or aarch64; for the gate: the cases of tests/rows
    tests/processors.py TARGET --whole    also what else asks a program: launches by themselves, listings, and the tests of the scripts
    tests/processors.py TARGET --kept ..  the same of the program that dist/ has, where that is of these sources: nothing is built, and no kit asked
    tests/processors.py librim-TARGET     the library

- The kit's verdict is that it is proved for its processor. Where dist/ is of these sources, it has this program, byte for byte.
- It needs no other file: in a folder that has nothing else for its root, where this may make such a one, it measures.
- Of aarch64 also what it is made of: the C functions of c/rattle.c have the answers of those that the kit has for x86-64, where a char has a sign
  and where it has none, with the C library linked in and without. It is run under qemu-aarch64.

Where what is linked in, or qemu-aarch64, is not installed, that is said, and nothing is asked. The last line is 'N passed, M failed'.
"""
import os
import pathlib
import re
import shutil
import sys

from helpers import TOP
from helpers.tries import differs, tried

from outside import ending, files

sys.path.insert(0, os.path.join(TOP, "tools", "package"))

import dist  # noqa: E402, the path is set above
import library  # noqa: E402
import native  # noqa: E402

TARGETS = {target.name: target for target in native.TARGETS}
LIBRARIES = {f"librim-{each.name}": each for each in library.LIBRARIES}
QEMU = "qemu-aarch64"
# How many times as long the tests may take under it.
PATIENCE = "20"
CASES = ("run.py",)
OTHERS = ("apart.py", "listings.py", "sharing.py", "hypervisors.py", "settling.py", "matching.py", "causes.py", "bases.py", "comparing.py",
          "verifying.py", "endorsing.py", "checking.py", "saving.py", "workers.py")
# What is measured where there is nothing else.
EXAMPLE = "examples/vm"
FUNCTIONS = ("arg_count", "arg", "errno", "set_errno", "set_thread_name", "alloc", "realloc", "dealloc")
WORDS = ["", "a", "two words", "\u00e9\u4e00", "x" * 299, "x" * 300, "x" * 301, "-"]


# ---- the C functions


def beside(signs: str, how: list[str]) -> list[str]:
    """The functions of c/rattle.c and the kit's have the same answers."""
    with files.folder("rim-functions-") as here:
        own, program = os.path.join(here, "own.o"), os.path.join(here, "beside")
        renamed = [f"-Drattle_{name}=own_rattle_{name}" for name in FUNCTIONS]
        native.done(["gcc", "-std=c11", "-Wall", "-Wextra", "-Werror", "-O2", "-fPIC", signs, *renamed, "-c", str(native.C_SOURCE), "-o", own], "c/rattle.c")
        native.done(["gcc", "-std=c11", "-D_GNU_SOURCE", "-Wall", "-Wextra", "-Werror", "-O1", signs, *how, os.path.join(TOP, "tests/c/beside.c"), own,
                     *native.functions_of(native.X86_64, here), "-o", program], "tests/c/beside.c")
        ran = native.run([program, *WORDS])
    *others, last = (ran.out + ran.err).decode(errors="replace").strip().splitlines() or [""]
    return others + differs("the answers", (ran.status, last.endswith(" the same, 0 differ")), (0, True))


def functions() -> list[str]:
    if not shutil.which("gcc"):
        print("processors.py: gcc is not installed: the C functions are not compared")
        return []
    return [f"{signs} {how}: {line}" for signs in ("-fsigned-char", "-funsigned-char") for how in ([], ["-static"]) for line in beside(signs, how)]


# ---- the program


def out_of(target: native.Target) -> pathlib.Path:
    return pathlib.Path(TOP, "crates", target.crate, "out", f"rim-{target.name}")


def take(target: native.Target) -> list[str]:
    """Takes it as dist/ has it."""
    wrong = dist.of_others(dist.PROGRAMS) + [line for line in dist.faults_of_files(dist.PROGRAMS) if target.path in line.split()]
    if not wrong:
        out_of(target).parent.mkdir(exist_ok=True)
        shutil.copy(os.path.join(TOP, target.path), out_of(target))
    return wrong


def build(target: native.Target) -> list[str]:
    """Builds it; what is wrong with it, or with that of dist/."""
    out = out_of(target)
    made = out.with_suffix(".o")
    print(native.object_of(target, pathlib.Path(TOP), made), flush=True)
    native.link(target, made, out)
    if why := dist.why_not_compared(dist.PROGRAMS, target):
        print(f"processors.py: dist/ is not compared: {why}")
        return []
    return dist.not_same({target.path: native.stripped(out)})


def started(target: native.Target, qemu: str) -> str:
    """What starts it: itself, or a script."""
    out = out_of(target)
    if target.system == native.X86_64:
        return str(out)
    path = out.with_suffix(".sh")
    path.write_text(f'#!/bin/sh\nexec {qemu} "{out}" "$@"\n')
    path.chmod(0o755)
    return str(path)


def alone(target: native.Target, program: str) -> list[str]:
    """It starts where there is no C library, and writes what it writes elsewhere."""
    said = native.done(["readelf", "-ldW", str(out_of(target))], "the program")
    wrong = [f"it has {word}" for word in ("INTERP", "NEEDED") if word in said]
    if target.system != native.X86_64 or os.getuid() != 0:
        return wrong
    with files.folder("rim-alone-") as here:
        shutil.copytree(os.path.join(TOP, EXAMPLE), os.path.join(here, EXAMPLE))
        shutil.copy(out_of(target), os.path.join(here, "rim"))
        manifest = f"{EXAMPLE}/manifest.toml"
        for words in (["measure", manifest], ["measure", "--json", "--workers", "3", manifest], ["check", manifest], ["--version"]):
            wrong += differs(" ".join(words), *(native.run([*start, *words], pathlib.Path(here)) for start in (["chroot", here, "/rim"], [program])))
    return wrong


# ---- the library


def build_library(target: library.Library, folder: str) -> list[str]:
    """Builds it in a folder; what is wrong with that of dist/."""
    made = library.build(target)
    files.put_all(folder, {name: (data, target.mode) for name, data in made.items()})
    return dist.not_same({f"dist/{name}": data for name, data in made.items()}) if not why_not_compared(target) else []


def why_not_compared(target: library.Library) -> str:
    return dist.why_not_compared(dist.LIBRARY, target) if dist.is_begun(dist.LIBRARY) else dist.NO_LIBRARY


def of_library(target: library.Library) -> list[tuple[int, int]]:
    """What came of a library: what the program is asked too, where dist/ has not this one."""
    folder, program = (os.path.join(TOP, "crates", name, "out") for name in (target.crate, dist.PROGRAMS.targets[0].crate))
    wrong = tried(build_library, target, folder)
    print(*(f"WRONG: the library: {line}" for line in wrong), sep="\n", end="\n" * bool(wrong), flush=True)
    came = [(int(not wrong), int(bool(wrong)))]
    if wrong or not (why := why_not_compared(target)):
        return came
    print(f"processors.py: dist/ is not compared: {why}", flush=True)
    shared = os.path.join(folder, target.names[1])
    asked = (["library.py", folder, os.path.join(program, "rim")], ["python_library.py", shared], ["rust_library.py", shared])
    return came + [passed_by(*words) for words in asked if target.system == native.X86_64]


# ---- the tests


def passed_by(name: str, *words: str, is_emulated: bool = False) -> tuple[int, int]:
    """How much a test passes with a program, or a library, and how much fails. What it leaves in its folder for temporary files is taken away. It heeds
    signals, whatever this ignores: what sends them would wait else."""
    print(f"--- {name}", flush=True)
    with files.folder("rim-test-") as here:
        # Another user, as whom a test may start a program, gets to what is in it.
        os.chmod(here, 0o711)
        changed = [f"TMPDIR={here}", *([f"RIM_TEST_PATIENCE={PATIENCE}"] if is_emulated else [])]
        ran = native.run(["env", "--default-signal=INT,HUP", *changed, sys.executable, os.path.join(TOP, "tests", name), *words])
    said = ran.out.decode(errors="replace")
    print(said, ran.err.decode(errors="replace"), sep="", end="", flush=True)
    found = re.match(r"(\d+) passed, (\d+) failed", (said.strip().splitlines() or [""])[-1])
    return (int(found[1]), int(found[2])) if found else (0, 1)


def missing_of(target: native.Target, is_kept: bool) -> str:
    """What is not installed; nothing where all is."""
    is_there = target.system == native.X86_64 or shutil.which(QEMU)
    return ("" if is_kept else native.wanting(target)) or ("" if is_there else f"{QEMU} is not installed: apt-get install qemu-user")


def all_of_it(target: native.Target, is_whole: bool, is_kept: bool) -> list[tuple[int, int]]:
    """What came of it: how much passed and failed, part by part."""
    looks = [("the C functions", functions)] * (target.system == native.ARM64) + [("the program", lambda: build(target))]
    if is_kept:
        looks = [("the program of dist/", lambda: take(target))]
    came = []
    for name, look in looks:
        wrong = tried(look)
        print(*(f"WRONG: {name}: {line}" for line in wrong), sep="\n", end="\n" * bool(wrong), flush=True)
        came.append((int(not wrong), int(bool(wrong))))
    if came[-1][1]:
        return came
    program = started(target, shutil.which(QEMU) or QEMU)
    wrong = tried(alone, target, program)
    print(*(f"WRONG: alone: {line}" for line in wrong), sep="\n", end="\n" * bool(wrong), flush=True)
    names = (*CASES, *(OTHERS if is_whole else ()))
    return [*came, (int(not wrong), int(bool(wrong))), *(passed_by(name, program, is_emulated=target.system == native.ARM64) for name in names)]


def asked_for(words: list[str]) -> list[tuple[int, int]] | str | None:
    """What came of what is asked for; why it is not asked; None where it is nothing."""
    name, *options = words or [""]
    is_whole, is_kept = "--whole" in options, "--kept" in options
    if len(options) != is_whole + is_kept or options and name not in TARGETS:
        return None
    if target := TARGETS.get(name):
        return missing_of(target, is_kept) or all_of_it(target, is_whole, is_kept)
    if target := LIBRARIES.get(name):
        return native.wanting(target) or of_library(target)
    return None


def main() -> int:
    came = asked_for(sys.argv[1:])
    if came is None:
        print(__doc__.split("\n\n")[1], file=sys.stderr)
        return 2
    if isinstance(came, str):
        print(f"processors.py: not asked: {came}\n0 passed, 0 failed")
        return 0
    passed, failed = (sum(each) for each in zip(*came))
    print(f"{passed} passed, {failed} failed")
    return int(failed > 0)


if __name__ == "__main__":
    sys.exit(ending.status_of("processors.py", main))
