#!/usr/bin/env python3
"""Tries the crates rim-sys and rim over a library, and the example in Go.

    tests/rust_library.py LIBRARY          librim.so.0, or a folder that has it

- Their own tests: examples and cases, each code of rim.h, faults, an answer of more than the first room, threads. The compiler warns of nothing.
- The example, which finds the library by RIM_LIBRARY_DIR, by pkg-config and where the linker looks.
- The programs of the documents print what they are said to print.
- What is unsafe is in one module, each with a comment that says why it is sound.

What a machine has not is said, and what needs it is not asked. The last line is 'N passed, M failed'.
"""
import functools
import os
import re
import shutil
import subprocess
import sys
import tempfile
from collections.abc import Callable

from helpers import TOP
from helpers.tries import differs, told, tried

CRATES = os.path.join(TOP, "library", "rust")
GO = os.path.join(TOP, "library", "go")
DOCUMENTS = [os.path.join(TOP, "docs", "LIBRARY.md")]

# What says where a library is.
PLACES = ("RIM_LIBRARY_DIR", "PKG_CONFIG_PATH", "LIBRARY_PATH", "CGO_LDFLAGS")


def text_of(*path: str) -> str:
    with open(os.path.join(TOP, *path), encoding="utf-8") as file:
        return file.read()


class Place:
    """A folder in which all is built, with the library as linkers and loaders name it, and a file for pkg-config."""

    def __init__(self, folder: str, library: str):
        self.folder = folder
        self.library = os.path.join(folder, "library")
        os.mkdir(self.library)
        for name in ("librim.so", "librim.so.0"):
            os.symlink(library, os.path.join(self.library, name))
        with open(os.path.join(self.library, "rim.pc"), "w", encoding="utf-8") as file:
            file.write(f"Name: rim\nDescription: rim\nVersion: 0\nLibs: -L{self.library} -lrim\n")

    def run(self, words: list[str], where: str = TOP, **changed: str) -> str:
        """What a program prints that is started in a folder; with its errors where it fails."""
        environment = {key: value for key, value in os.environ.items() if key not in PLACES}
        kept = {"CARGO_TARGET_DIR": "target", "GOCACHE": "go"}
        kept = {key: os.path.join(self.folder, name) for key, name in kept.items()} | {"GOPROXY": "off", "RUSTFLAGS": "-D warnings"}
        loader = [changed.pop("LD_LIBRARY_PATH", ""), os.environ.get("LD_LIBRARY_PATH", "")]
        kept["LD_LIBRARY_PATH"] = ":".join(filter(None, loader))
        ran = subprocess.run(words, cwd=where, env=environment | kept | changed, capture_output=True, text=True, timeout=600, check=False)
        return ran.stdout if ran.returncode == 0 else f"status {ran.returncode}: {ran.stdout}{ran.stderr}"


def own_tests(place: Place) -> list[str]:
    """The crates' own tests pass."""
    said = place.run(["cargo", "test", "--offline", "-q"], CRATES, RIM_LIBRARY_DIR=place.library)
    results = re.findall(r"^test result: (\w+)\. (\d+) passed; (\d+) failed", said, re.M)
    passed = sum(int(each[1]) for each in results)
    return [] if passed >= 8 and all(each[0] == "ok" and each[2] == "0" for each in results) else said.splitlines()


FOUND = [("by RIM_LIBRARY_DIR", lambda place: {"RIM_LIBRARY_DIR": place.library}),
         ("by pkg-config", lambda place: {"PKG_CONFIG_PATH": place.library, "LD_LIBRARY_PATH": place.library}),
         ("by the linker", lambda place: {"PKG_CONFIG_PATH": "/none", "LIBRARY_PATH": place.library, "LD_LIBRARY_PATH": place.library})]


def example(place: Place) -> list[str]:
    """The example prints the report of the program, but for its first line, wherever the library is found."""
    words = ["cargo", "run", "--offline", "-q", "--manifest-path", os.path.join(CRATES, "Cargo.toml"), "--example", "measure", "--"]
    words.append("examples/vm/manifest.toml")
    expected = text_of("tests", "cases", "virtual-machine", "stdout").partition("\n")[2]
    wrong = [line for how, changed in FOUND for line in differs(how, place.run(words, **changed(place)), expected)]
    said = place.run(words, RIM_LIBRARY_DIR="/none")
    return wrong + differs("no library", "RIM_LIBRARY_DIR: /none/librim.so.0: No such file or directory" in said, True)


def of_document(path: str, place: Place) -> list[str]:
    """Each program of a document prints what the document says."""
    found = re.findall(r"```rust\n(.*?)```.*?```\n(.*?)```", text_of(path), re.S)
    wrong = []
    for number, (code, expected) in enumerate(found):
        crate = os.path.join(place.folder, f"program{number}")
        os.makedirs(os.path.join(crate, "src"), exist_ok=True)
        with open(os.path.join(crate, "Cargo.toml"), "w", encoding="utf-8") as file:
            file.write(f'[package]\nname = "program{number}"\nversion = "0.1.0"\nedition = "2021"\n[dependencies]\nrim = {{ path = "{CRATES}/rim" }}\n')
        with open(os.path.join(crate, "src", "main.rs"), "w", encoding="utf-8") as file:
            file.write(code)
        words = ["cargo", "run", "--offline", "-q", "--manifest-path", os.path.join(crate, "Cargo.toml")]
        wrong += differs(f"program {number}", place.run(words, RIM_LIBRARY_DIR=place.library), expected)
    return wrong + [f"{path} has no program"] * (not found)


def unsafe(_place: Place) -> list[str]:
    """What is unsafe is in one module, and each has a comment that says why it is sound."""
    wrong = []
    for name in sorted(os.listdir(os.path.join(CRATES, "rim", "src"))):
        lines = text_of("library", "rust", "rim", "src", name).splitlines()
        places = [number for number, line in enumerate(lines) if re.search(r"\bunsafe\b(?! is)", line.partition("//")[0])]
        wrong += [f"{name}:{number + 1}: it is unsafe" for number in places if name != "native.rs"]
        wrong += [f"{name}:{number + 1}: no SAFETY comment" for number in places if not any("// SAFETY: " in line for line in lines[max(number - 3, 0):number])]
    return wrong


def in_go(place: Place) -> list[str]:
    """The example in Go passes its own tests."""
    said = place.run(["go", "test", "./..."], GO, CGO_LDFLAGS=f"-L{place.library}", LD_LIBRARY_PATH=place.library)
    return [] if said.startswith("ok ") else said.splitlines()


def looks() -> list[tuple[str, Callable[[Place], list[str]]]]:
    """What is asked here. What is not is said."""
    every = [("what is unsafe", None, unsafe), ("the crates' own tests", "cargo", own_tests), ("the example", "cargo", example),
             *((path, "cargo", functools.partial(of_document, path)) for path in DOCUMENTS), ("the example in Go", "go", in_go)]
    for name, needed, _ in every:
        if needed and not shutil.which(needed):
            print(f"not asked: {name}: {needed} is absent")
    return [(name, look) for name, needed, look in every if not needed or shutil.which(needed)]


def main(words: list[str]) -> int:
    if len(words) != 1:
        print("usage: tests/rust_library.py LIBRARY", file=sys.stderr)
        return 2
    library = os.path.abspath(words[0])
    library = os.path.join(library, "librim.so.0") if os.path.isdir(library) else library
    if not os.path.isfile(library):
        raise SystemExit(f"{library} is not built")
    with tempfile.TemporaryDirectory() as folder:
        place = Place(folder, library)
        return told([(name, tried(look, place)) for name, look in looks()])


if __name__ == "__main__":
    sys.exit(main(sys.argv[1:]))
