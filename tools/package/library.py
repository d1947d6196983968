#!/usr/bin/env python3
"""The library of dist/ for C, for each processor: librim-NAME.a and librim-NAME.so.0.

    tools/package/library.py FOLDER                  has the kit prove and compile the calls of crates/rim_c, over the libraries that `rt ci` has
                                                     built here, and writes the libraries into FOLDER
    tools/package/library.py FOLDER --over MADE      the same of calls that it has compiled before: MADE/librim_c-NAME.a
    tools/package/library.py --pkg-config PREFIX LIBDIR
                                                     prints rim.pc for a library that is installed there

NAME is x86_64-v2, x86_64-v3 or aarch64. Both are of the proved calls, of library/rim.c, which is the C in front of them, and of the three functions
by which the calls take and give back memory. They have no names for a program but those of library/rim.h: in the archive, which has one object,
all others are made local, and the shared library exports none. That needs the C library alone.

All is compiled and linked by the kit's tools, so whoever has the kit and Debian's packages that each library names gets the same bytes. No time, no
path and no user's name is in them. tools/package/dist.py writes dist/ by this. What cannot be built here is said, with what to install, and the
status is 1.
"""
import pathlib
import re
import sys
from dataclasses import dataclass

import native
from native import ARM64, TOP, X86_64, CannotBuild, Package, Target, by_tool, done, kit

from outside import ending, files  # noqa: E402, native sets its path

CRATE = "rim_c"
HEADER, FRONT, TEMPLATE = TOP / "library/rim.h", TOP / "library/rim.c", TOP / "library/rim.pc.in"
DEFINITION = TOP / "crates/rim_words/src/definition.rt"
# The name by which programs find the shared library, and that of its names' version. Both stay until a call is taken away or changes.
SONAME, VERSION = "librim.so.0", "RIM_0"
# What is read here is short.
LIMIT = 1 << 20
# What the shared library for arm64 is linked against. For x86-64 the kit has it.
ARM64_LIBC = Package("libc6-arm64-cross", "/usr/aarch64-linux-gnu/lib", ("libc.so.6",))


@dataclass(frozen=True)
class Library(Target):
    """The library for a processor."""

    march: str = ""

    @property
    def path(self) -> str:
        return f"dist/librim-{self.name}"

    @property
    def names(self) -> tuple[str, str]:
        """The names of its files: the archive and the shared library."""
        return f"librim-{self.name}.a", f"librim-{self.name}.so.0"

    @property
    def paths(self) -> tuple[str, ...]:
        return tuple(f"dist/{name}" for name in self.names)

    @property
    def packages(self) -> tuple[Package, ...]:
        """The compiler's own functions and headers; for arm64 the C library's headers too, and the shared C library. For x86-64 the kit has these."""
        return (self.system.gcc,) if self.system == X86_64 else (*self.system.packages, ARM64_LIBC)

    @property
    def mode(self) -> int:
        return 0o644

    @property
    def libc(self) -> str:
        return str(kit() / "toolchain/lib/libc.so.6") if self.system == X86_64 else ARM64_LIBC.path("libc.so.6")


# By AVX2 eight pages are hashed side by side, and four without.
LIBRARIES = (Library("x86_64-v2", CRATE, X86_64, march="x86-64-v2"), Library("x86_64-v3", CRATE, X86_64, ("--cpu=x86-64-v3",), "x86-64-v3"),
             Library("aarch64", CRATE, ARM64))


def text_of(path: pathlib.Path) -> str:
    """A text of the repository."""
    with path.open(encoding="utf-8") as file:
        text = file.read(LIMIT + 1)
    if len(text) > LIMIT:
        raise CannotBuild(f"{path.name} has more than {LIMIT} characters")
    return text


def declared(header: str) -> list[str]:
    """The names of the calls that a header declares, in its order."""
    return re.findall(r"^rim_code (rim_\w+)\(", header, re.M)


def version() -> str:
    """The program's version without its day, which is also the library's."""
    found = re.search(r'VERSION: &str = "([0-9.]+)', text_of(DEFINITION))
    if not found:
        raise CannotBuild(f"{DEFINITION.name} has no version")
    return found[1]


def pkg_config(prefix: str, libdir: str) -> str:
    """What pkg-config reads of a library that is installed."""
    text = text_of(TEMPLATE)
    for name, value in (("prefix", prefix), ("libdir", libdir), ("version", version())):
        text = text.replace(f"@{name}@", value)
    return text


# ---- the parts


def calls_of(library: Library, made: pathlib.Path | None, folder: pathlib.Path) -> pathlib.Path:
    """An archive of the proved calls, which the kit makes, or has made before."""
    if made is None:
        out = folder / "calls.a"
        print(f"{library.path}: {native.object_of(library, TOP, out)}", flush=True)
        return out
    out = made / f"lib{CRATE}-{library.name}.a"
    if not out.is_file():
        raise CannotBuild(f"{library.path}: there is no {out}")
    return out


def compile_c(library: Library, source: pathlib.Path, words: tuple[str, ...], out: pathlib.Path) -> pathlib.Path:
    """Compiles a file of C for a processor. No path gets into the object."""
    march = [f"-march={library.march}"] if library.march else []
    done([str(kit() / "toolchain/bin/clang"), f"--target={library.system.triple}", *march, "-nostdinc", *words, "-std=c11", "-O2", "-fPIC",
          "-ffunction-sections", "-c", source.name, "-o", str(out)], source.name, source.parent)
    return out


def front_of(library: Library, folder: pathlib.Path) -> pathlib.Path:
    """The C in front of the calls. Its headers are the compiler's own, which need no C library."""
    return compile_c(library, FRONT, ("-ffreestanding", "-isystem", library.system.gcc.path("include")), folder / "rim.o")


def memory_of(library: Library, folder: pathlib.Path) -> pathlib.Path:
    """The functions by which the calls take and give back memory. For x86-64 they are the kit's."""
    if library.system == X86_64:
        return kit() / "c/liblibc_c.a"
    headers = tuple(word for path in native.ARM64_HEADERS for word in ("-isystem", path))
    return compile_c(library, native.C_SOURCE, ("-DMEMORY_ALONE", *headers), folder / "memory.o")


# ---- the libraries


def join(library: Library, parts: list[pathlib.Path], out: pathlib.Path):
    """Makes one object of the parts, whose only names for others are those of rim.h."""
    done([str(kit() / "toolchain/bin/ld.lld"), "-m", library.system.emulation, "-r", "-o", str(out), "--whole-archive", *map(str, parts)], library.path)
    kept = out.with_suffix(".names")
    kept.write_text("\n".join(declared(text_of(HEADER))) + "\n")
    by_tool("llvm-objcopy", f"--keep-global-symbols={kept}", "--strip-unneeded", str(out))


def write_archive(joined: pathlib.Path, out: pathlib.Path):
    """An archive of one object. D: without times, users and modes."""
    out.unlink(missing_ok=True)
    by_tool("llvm-ar", "rcsD", str(out), str(joined))


def write_shared(library: Library, joined: pathlib.Path, out: pathlib.Path):
    """The shared library. Of the compiler's own functions it gets those that it calls; a name that nothing has is a fault."""
    names = joined.with_suffix(".map")
    names.write_text(f"{VERSION} {{\n  global:\n" + "".join(f"    {name};\n" for name in declared(text_of(HEADER))) + "  local:\n    *;\n};\n")
    made = joined.with_suffix(".so")
    done([str(kit() / "toolchain/bin/ld.lld"), "-m", library.system.emulation, "-shared", "-soname", SONAME, "--version-script", str(names),
          "-z", "relro", "-z", "now", "-z", "text", "-z", "noexecstack", "--hash-style=gnu", "--build-id=none", "--eh-frame-hdr", "--gc-sections",
          "--no-undefined", "-o", str(made), str(joined), library.system.gcc.path("libgcc.a"), library.libc], library.path)
    out.write_bytes(native.stripped(made))


def build(library: Library, made: pathlib.Path | None = None) -> dict[str, bytes]:
    """The files of a library by their names. Its calls are those that the kit has made before, or makes now."""
    if want := native.wanting(library):
        raise CannotBuild(want)
    with files.folder("rim-library-") as name:
        folder = pathlib.Path(name)
        parts = [calls_of(library, made, folder), front_of(library, folder), memory_of(library, folder)]
        joined = folder / "librim.o"
        join(library, parts, joined)
        archive, shared = (folder / each for each in library.names)
        write_archive(joined, archive)
        write_shared(library, joined, shared)
        return {path.name: path.read_bytes() for path in (archive, shared)}


def build_all(made: pathlib.Path | None, to: pathlib.Path) -> list[str]:
    """Builds what can be built here, and writes it into a folder; why the rest cannot."""
    faults = []
    for library in LIBRARIES:
        try:
            files.put_all(str(to), {name: (data, library.mode) for name, data in build(library, made).items()})
        except CannotBuild as why:
            faults.append(str(why))
    return faults


def main() -> int:
    match sys.argv[1:]:
        case ["--pkg-config", prefix, libdir]:
            print(pkg_config(prefix, libdir), end="")
            return 0
        case [to] if not to.startswith("-"):
            faults = build_all(None, pathlib.Path(to))
        case [to, "--over", made] if not to.startswith("-"):
            faults = build_all(pathlib.Path(made), pathlib.Path(to))
        case _:
            print(__doc__.split("\n\n")[1], file=sys.stderr)
            return 2
    ending.say("library.py", *faults)
    return int(bool(faults))


if __name__ == "__main__":
    sys.exit(ending.status_of("library.py", main))
