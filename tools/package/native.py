"""The programs of dist/ for each processor. The kit's compiler makes an object of the proved crates, and the kit's linker puts into it all of the C
library that it calls: so the program starts on any Linux, whatever C library that has, or none.

For x86-64 the C functions that a program of Rattle's calls beside the C library are the kit's; for arm64, for which the kit has none, they are those of
c/rattle.c, compiled by the kit. What else is linked in is of two of Debian's packages for each processor: other versions of them give other bytes.
"""
import hashlib
import os
import pathlib
import shutil
import sys
from dataclasses import dataclass

TOP = pathlib.Path(__file__).resolve().parents[2]
sys.path.insert(0, str(TOP / "scripts"))

from outside import files, programs  # noqa: E402, the path is set above
from outside.programs import Limits, Ran  # noqa: E402

C_SOURCE = TOP / "c/rattle.c"
# How much a program that is started here may say; how much of it is shown where it fails.
SAID, SHOWN = 64 << 20, 2000


class CannotBuild(Exception):
    """Why something cannot be built here, with what to install."""


@dataclass(frozen=True)
class Package:
    """One of Debian's packages, where it puts its files, and which of them are linked in."""

    name: str
    folder: str
    files: tuple[str, ...]

    def path(self, name: str) -> str:
        return f"{self.folder}/{name}"

    @property
    def is_here(self) -> bool:
        return all(pathlib.Path(self.path(name)).is_file() for name in self.files)

    @property
    def version(self) -> str:
        return run(["dpkg-query", "-W", "-f=${Version}", self.name]).out.decode().strip() or "none"

    @property
    def line(self) -> str:
        """A line of dist/SOURCE: its name, its version, and the checksum of the files that are linked in, one after another."""
        digest = hashlib.blake2b(digest_size=32)
        for name in self.files:
            digest.update(pathlib.Path(self.path(name)).read_bytes())
        return f"package {self.name} {self.version} {digest.hexdigest()}"


OF_LIBC, OF_GCC = ("rcrt1.o", "crti.o", "libc.a", "crtn.o"), ("crtbeginS.o", "libgcc.a", "libgcc_eh.a", "crtendS.o")


@dataclass(frozen=True)
class System:
    """What a processor's programs are linked of beside their own objects: the compiler's and the linker's names for the processor, and the packages of the
    C library and of the compiler's own functions."""

    triple: str
    emulation: str
    libc: Package
    gcc: Package

    @property
    def packages(self) -> tuple[Package, Package]:
        return self.libc, self.gcc


X86_64 = System("x86_64-unknown-linux-gnu", "elf_x86_64", Package("libc6-dev", "/usr/lib/x86_64-linux-gnu", OF_LIBC),
                Package("libgcc-12-dev", "/usr/lib/gcc/x86_64-linux-gnu/12", OF_GCC))
ARM64 = System("aarch64-unknown-linux-gnu", "aarch64linux", Package("libc6-dev-arm64-cross", "/usr/aarch64-linux-gnu/lib", OF_LIBC),
               Package("libgcc-12-dev-arm64-cross", "/usr/lib/gcc-cross/aarch64-linux-gnu/12", OF_GCC))
# The headers by which c/rattle.c is compiled.
ARM64_HEADERS = ("/usr/lib/gcc-cross/aarch64-linux-gnu/12/include", "/usr/aarch64-linux-gnu/include")


@dataclass(frozen=True)
class Target:
    """A program of dist/: its name, the crate that it is of, the system, and the kit's words for the processor."""

    name: str
    crate: str
    system: System
    words: tuple[str, ...] = ()

    @property
    def path(self) -> str:
        """What it is called where something is said of it."""
        return f"dist/rim-{self.name}"

    @property
    def paths(self) -> tuple[str, ...]:
        """The files of dist/ that it is."""
        return (self.path,)

    @property
    def packages(self) -> tuple[Package, ...]:
        """What is linked in, or linked against."""
        return self.system.packages

    @property
    def mode(self) -> int:
        """The mode of its files."""
        return 0o755


# By AVX2 eight pages are hashed side by side, and four without.
TARGETS = (Target("x86_64-v2", "rim", X86_64), Target("x86_64-v3", "rim_wide", X86_64, ("--cpu=x86-64-v3",)), Target("aarch64", "rim", ARM64))


def sum_of_bytes(data: bytes) -> str:
    """A checksum, as `b2sum -l 256` has it."""
    return hashlib.blake2b(data, digest_size=32).hexdigest()


def sum_of(path: pathlib.Path) -> str:
    return sum_of_bytes(path.read_bytes())


def run(words: list[str], folder: pathlib.Path | None = None) -> Ran:
    """Runs a program, which a signal that stops this script ends too, with all that it has started."""
    return programs.run(words, Limits(out=SAID), str(folder) if folder else None)


def end_of(ran: Ran) -> str:
    """The end of what a program has said, or its status where that is nothing."""
    return (ran.err.strip() or ran.out)[-SHOWN:].decode(errors="replace").strip() or f"status {ran.status}"


def done(words: list[str], what: str, folder: pathlib.Path | None = None) -> str:
    """What a program has printed."""
    ran = run(words, folder)
    if ran.status:
        raise CannotBuild(f"{what}: {os.path.basename(words[0])} failed: {end_of(ran)}")
    return ran.out.decode(errors="replace")


def kit() -> pathlib.Path:
    """The kit's folder."""
    if not shutil.which("rt"):
        raise CannotBuild("the kit's command rt is not in the PATH")
    return pathlib.Path(done(["rt", "doc"], "the kit").strip()).parent


def wanting(target: Target) -> str:
    """What to install for a target; nothing where all is here."""
    missing = [package.name for package in target.packages if not package.is_here]
    return f"{target.path}: {' and '.join(missing)} {'are' if missing[1:] else 'is'} not installed: apt-get install {' '.join(missing)}" if missing else ""


# ---- what the kit makes


def crate_of(target: Target, top: pathlib.Path):
    """The crate of a target, as the kit knows it."""
    folder = str(kit() / "bin")
    if folder not in sys.path:
        sys.path.insert(0, folder)
    import rtlib

    return rtlib.Crate(str(top / "crates" / target.crate), str(top), {}, name=target.crate)


def object_of(target: Target, top: pathlib.Path, out: pathlib.Path) -> str:
    """Has the kit prove a program for its processor and compile it, over the libraries that `rt ci` has built in a checkout; the line of its verdict."""
    words = [str(kit() / "bin/rattle"), "build", *crate_of(target, top).words(["--jobs", "1", *target.words]), "--target", target.system.triple,
             "--toolchain", str(kit() / "toolchain"), "--backend", "llvm", "-o", str(out)]
    ran = run(words, top / "crates" / target.crate)
    said = ran.out + ran.err
    verdict = next((line for line in reversed(said.decode(errors="replace").splitlines()) if line.startswith("logic=")), "")
    if ran.status or not verdict.startswith("logic=proved"):
        raise CannotBuild(f"{target.path}: the kit has not built it: {said[-SHOWN:].decode(errors='replace').strip()}")
    return verdict


def by_tool(name: str, *words: str):
    """Runs one of LLVM's tools. The kit has them in one program, which goes by the name that it is called by."""
    with files.folder("rim-tool-") as folder:
        os.symlink(kit() / "toolchain/bin/clang", f"{folder}/{name}")
        done([f"{folder}/{name}", *words], "the kit")


def functions_of(system: System, folder: str) -> list[str]:
    """The C functions that programs of Rattle's call beside those of the C library."""
    if system == X86_64:
        return [str(kit() / "c/libos_c.a"), str(kit() / "c/liblibc_c.a")]
    headers = [word for path in ARM64_HEADERS for word in ("-isystem", path)]
    words = [str(kit() / "toolchain/bin/clang"), f"--target={system.triple}", "-nostdinc", *headers, "-std=c11", "-O2", "-fPIC", "-c", "rattle.c", "-o", f"{folder}/rattle.o"]
    done(words, "c/rattle.c", C_SOURCE.parent)
    return [f"{folder}/rattle.o"]


def link(target: Target, made: pathlib.Path, out: pathlib.Path):
    """Links an object of the kit's compiler: a program that needs no C library, and may be put at any address."""
    if want := wanting(target):
        raise CannotBuild(want)
    libc, gcc = target.system.packages
    with files.folder("rim-link-") as folder:
        done([str(kit() / "toolchain/bin/ld.lld"), "-m", target.system.emulation, "-static", "-pie", "--no-dynamic-linker", "-z", "text", "-z", "relro", "-z", "now",
              "--build-id=none", "--eh-frame-hdr", "--gc-sections", "-o", str(out), libc.path("rcrt1.o"), libc.path("crti.o"), gcc.path("crtbeginS.o"), str(made),
              *functions_of(target.system, folder), "--start-group", gcc.path("libgcc.a"), gcc.path("libgcc_eh.a"), libc.path("libc.a"), "--end-group",
              gcc.path("crtendS.o"), libc.path("crtn.o")], target.path)


def stripped(program: pathlib.Path) -> bytes:
    """The bytes of a program without its names of functions, which nothing needs that runs it."""
    with files.folder("rim-strip-") as folder:
        copy = shutil.copy(program, folder)
        by_tool("llvm-strip", copy)
        return pathlib.Path(copy).read_bytes()
