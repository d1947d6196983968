"""Programs in C that are linked with the library, for the tests: how they are built and run, and what is small enough for many calls."""
import functools
import os
import pathlib
import re
import shutil
import subprocess
import sys
import tempfile
import threading
from dataclasses import dataclass, field

from . import SECONDS, TOP
from .files import image, tree

sys.path.insert(0, os.path.join(TOP, "tools", "package"))

import library  # noqa: E402, the path is set above
import native  # noqa: E402

HERE = pathlib.Path(TOP, "tests", "library")
INCLUDE = pathlib.Path(TOP, "library")
C_FLAGS = ["-std=c11", "-D_GNU_SOURCE", "-Wall", "-Wextra", "-Werror", "-O1", "-g", "-pthread", f"-I{INCLUDE}"]
SANITIZERS = ["-fsanitize=address,undefined", "-fno-sanitize-recover=undefined", "-fno-omit-frame-pointer"]
VALGRIND = ["valgrind", "-q", "--error-exitcode=99", "--leak-check=full", "--errors-for-leak-kinds=definite,indirect,possible"]
# By these words the library and a test take their memory of functions that the test has, and by these of guarded.c.
WRAPPED = ["-Wl,--wrap=malloc,--wrap=realloc,--wrap=free"]
GUARDED = [str(HERE / "guarded.c"), "-DGUARDED", *WRAPPED]
# What fuzz.c changes, beside what is small.
FUZZED = ("examples/first/manifest.toml", "examples/kernel/manifest.toml", "examples/vm/manifest.toml")


@dataclass
class Asked:
    """What is asked here: the libraries, the program, what is built in which folder, and whether all is."""

    folder: pathlib.Path
    program: str
    made: pathlib.Path
    is_whole: bool
    calls: pathlib.Path | None
    only: str = ""
    said: list[str] = field(default_factory=list)
    built: set[str] = field(default_factory=set)
    building: threading.Lock = field(default_factory=threading.Lock)

    def not_asked(self, why: str):
        line = f"library.py: not asked: {why}"
        if line not in self.said:
            self.said.append(line)
            print(line, flush=True)

    def archive(self, name: str) -> pathlib.Path:
        return self.folder / f"librim-{name}.a"

    def shared(self, name: str) -> pathlib.Path:
        return self.folder / f"librim-{name}.so.0"


def here(words: list[str], folder: str | pathlib.Path = TOP, **more) -> subprocess.CompletedProcess:
    """A command that was run in a folder."""
    return subprocess.run([str(word) for word in words], cwd=folder, capture_output=True, timeout=10 * SECONDS, check=False, **more)


def said_by(ran: subprocess.CompletedProcess) -> str:
    return (ran.stdout + ran.stderr).decode(errors="replace").strip()


def done(words: list[str], **more) -> bytes:
    ran = here(words, **more)
    if ran.returncode:
        raise ValueError(f"{words[0]} ends with {ran.returncode}: {said_by(ran)[-1500:]}")
    return ran.stdout


# ---- building


def compiler() -> str:
    return next((name for name in ("cc", "gcc", "clang") if shutil.which(name)), "")


@functools.cache
def sanitizing() -> str:
    """A compiler that has what sanitizers need; nothing where none has."""
    with tempfile.TemporaryDirectory() as folder:
        source = pathlib.Path(folder, "empty.c")
        source.write_text("int main(void) { return 0; }\n")
        for name in ("clang", "gcc", "cc"):
            words = [name, *SANITIZERS, str(source), "-o", f"{folder}/empty"]
            if shutil.which(name) and not here(words).returncode and not here([f"{folder}/empty"]).returncode:
                return name
    return ""


@functools.cache
def is_wide() -> bool:
    """Whether this processor is of x86-64-v3."""
    try:
        flags = re.search(r"^flags\s*:(.*)$", pathlib.Path("/proc/cpuinfo").read_text(encoding="utf-8"), re.M)
    except OSError:
        return False
    return bool(flags) and {"avx2", "bmi1", "bmi2", "fma", "movbe", "f16c"} <= set(flags[1].split())


@dataclass(frozen=True)
class Build:
    """A way to build the tests: its name, the compiler with its words, what is linked, and what starts a program."""

    name: str
    words: tuple[str, ...]
    linked: tuple[str, ...]
    start: tuple[str, ...] = ()
    environment: tuple[tuple[str, str], ...] = ()

    def build(self, asked: Asked, name: str, *more: str) -> str:
        """A program of tests/library, which is built once."""
        out = str(asked.made / f"{name}-{self.name}")
        with asked.building:
            if out not in asked.built:
                self.make(name, out, *more)
                asked.built.add(out)
        return out

    def make(self, name: str, out: str, *more: str):
        done([*self.words, *C_FLAGS, str(HERE / f"{name}.c"), str(HERE / "given.c"), *self.linked, *more, "-o", out])

    def run(self, program: str, *words: str, folder: str | pathlib.Path = TOP, **more) -> subprocess.CompletedProcess:
        return here([*self.start, program, *words], folder, env=os.environ | dict(self.environment), **more)


@dataclass(frozen=True)
class ForArm(Build):
    """The same for arm64, by the kit's compiler and linker, with the C library and the archive linked in."""

    def make(self, name: str, out: str, *more: str):
        headers = [word for path in native.ARM64_HEADERS for word in ("-isystem", path)]
        objects = [f"{out}.{source}.o" for source in (name, "given")]
        for source, to in zip((name, "given"), objects):
            done([*self.words, "-nostdinc", *headers, *C_FLAGS, "-fPIC", "-c", str(HERE / f"{source}.c"), "-o", to])
        self.link([str(native.kit() / "toolchain/bin/ld.lld"), "-m", native.ARM64.emulation], objects, out)

    def link(self, linker: list[str], objects: list[str], out: str):
        done([*linker, "-r", "-o", f"{out}.o", *objects, "--whole-archive", *self.linked])
        native.link(native.TARGETS[2], pathlib.Path(f"{out}.o"), pathlib.Path(out))


@dataclass(frozen=True)
class SharedForArm(ForArm):
    """The same with the shared library, which the loader of arm64 finds, as it does the C library."""

    def link(self, linker: list[str], objects: list[str], out: str):
        libc, gcc = native.ARM64.packages
        done([*linker, "-pie", "--dynamic-linker", "/lib/ld-linux-aarch64.so.1", "-z", "now", "-o", out, libc.path("Scrt1.o"), libc.path("crti.o"),
              gcc.path("crtbeginS.o"), *objects, *self.linked, gcc.path("libgcc.a"), libc.path("libc.so.6"), libc.path("libc_nonshared.a"),
              libc.path("ld-linux-aarch64.so.1"), gcc.path("crtendS.o"), libc.path("crtn.o")])


def found_in(asked: Asked, name: str) -> tuple[tuple[str, ...], tuple[tuple[str, str], ...]]:
    """The linker's words for the shared library, and the variables by which programs find it: by its name in a folder of its own."""
    folder = asked.made / name
    folder.mkdir()
    (folder / library.SONAME).symlink_to(asked.shared(name).resolve())
    (folder / "librim.so").symlink_to(library.SONAME)
    return (f"-L{folder}", "-lrim"), (("LD_LIBRARY_PATH", str(folder)),)


def shared_build(asked: Asked, name: str, cc: str) -> Build:
    linked, environment = found_in(asked, name)
    return Build(f"shared-{name}", (cc,), linked, (), environment)


def arm_builds(asked: Asked) -> list[Build]:
    """The ways to build for arm64, where these programs can be run."""
    name, qemu = "aarch64", shutil.which("qemu-aarch64")
    missing = [path.name for path in (asked.archive(name), asked.shared(name)) if not path.is_file()]
    want = native.wanting(native.TARGETS[2]) or native.wanting(library.LIBRARIES[2])
    want = want or ("" if qemu else "qemu-aarch64 is not installed: apt-get install qemu-user") or ("" if shutil.which("rt") else "the kit is not here")
    if want or missing:
        asked.not_asked(f"the library for arm64: {f'there is no {missing[0]}' if missing else want}")
        return []
    words = (str(native.kit() / "toolchain/bin/clang"), f"--target={native.ARM64.triple}")
    linked, environment = found_in(asked, name)
    start = (qemu, "-L", str(pathlib.Path(native.ARM64.libc.folder).parent))
    return [ForArm(f"static-{name}", words, (str(asked.archive(name)),), start), SharedForArm(f"shared-{name}", words, linked, start, environment)]


def builds(asked: Asked) -> list[Build]:
    """The ways to build here. The first is that which all is asked of."""
    found: list[Build] = []
    cc = compiler()
    for name in ("x86_64-v2", "x86_64-v3"):
        if not asked.archive(name).is_file() or not asked.shared(name).is_file():
            asked.not_asked(f"there are no libraries for {name} in {asked.folder}")
        elif name == "x86_64-v3" and not is_wide():
            asked.not_asked("the libraries for x86_64-v3: this processor is of an earlier level")
        else:
            found += [Build(f"static-{name}", (cc,), (str(asked.archive(name)),)), shared_build(asked, name, cc)]
    return found + arm_builds(asked)


def sanitized(asked: Asked) -> Build:
    """With sanitizers; library/rim.c has them too where the proved calls are there without it."""
    if asked.calls and asked.calls.is_file():
        linked = (str(INCLUDE / "rim.c"), str(asked.calls), str(library.memory_of(library.LIBRARIES[0], asked.made)))
    else:
        asked.not_asked("library/rim.c with sanitizers before the proved calls: there is no archive of these alone")
        linked = (str(asked.archive("x86_64-v2")),)
    return Build("sanitized", (sanitizing(), *SANITIZERS), linked)


# ---- what is small


# A release of a kernel and a devicetree that is edited, and one of raw contents without.
SMALL = {
    "of-all-kinds.toml": """rim_manifest = 2
file = [{ name = "k", path = "kernel" }, { name = "d", path = "tree" }, { name = "i", path = "initrd" }]
[[launch]]
name = "a"
algo = "sha256"
s2sz = 33
ram = [[0x40000000, 0x40800000]]
rec = [{}, { runnable = false }]
rec_rule = "runnable"
item = [{ name = "k", kind = "kernel", file = "k", at = 0x40200000 }, { name = "i", kind = "initrd", file = "i", at = 0x40500000 },
  { name = "d", kind = "dtb", file = "d", at = 0x40600000, bootargs = "quiet", memory = true, initrd = true }]
""",
    "of-two.toml": """rim_manifest = 1
file = [{ name = "i", path = "initrd" }]
[[launch]]
name = "a"
algo = "sha512"
s2sz = 33
ram = [[0x40000000, 0x40200000]]
item = [{ name = "i", kind = "raw", file = "i", at = 0x40000000 }]
[[launch]]
name = "b"
algo = "sha256"
s2sz = 33
ram = [[0x40000000, 0x40001000]]
item = [{ name = "i", kind = "raw", file = "i", at = 0x40000001 }]
""",
}


def small_files(folder: pathlib.Path):
    """Writes what is measured with little memory, and a listing of it."""
    files = {name: text.encode() for name, text in SMALL.items()}
    files |= {"kernel": image(1 << 20, length=3 * 4096), "tree": tree([(0x40000000, 0x40800000)], length=None), "initrd": b"initrd" * 999}
    for name, data in files.items():
        (folder / name).write_bytes(data)


def fuzzed_files(folder: pathlib.Path) -> list[str]:
    """Writes what fuzz.c changes into a folder; the manifests."""
    (folder / "examples").symlink_to(pathlib.Path(TOP, "examples"))
    small_files(folder)
    return [*FUZZED, *SMALL]
