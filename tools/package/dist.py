#!/usr/bin/env python3
"""What dist/ has, built of the sources beside it, byte for byte: the programs, and the library for C.

    tools/package/dist.py                  proves and builds all of it here, and writes dist/
    tools/package/dist.py --check          builds it here again, and compares it with dist/
    tools/package/dist.py --kept           says where dist/ is of other sources, and compares its files with their checksums, as the gate does
    tools/package/dist.py --named [KIND]   status 1 where dist/ has not all of the programs, or of KIND, of these sources: KIND is programs or library

There is a program for x86-64-v2, one for x86-64-v3 and one for arm64, which tools/package/native.py builds, and for each of these a library, an archive
and a shared one, which tools/package/library.py builds. They are stripped, by the kit's own tool, so that whoever has the kit, and those versions of
Debian's packages, gets the same bytes. dist/SOURCE names what the programs were built of: the kit, the folders of the sources, the packages with the
checksum of what is linked in of each, and the checksum of each source, of crates.txt and of each program, as `b2sum -l 256` writes them, which is quick
enough for each start of `./rim`. dist/LIBRARY-SOURCE names the same of the library. It is a file of its own, so that no start of `./rim` sums the
library; of library/ it has rim.c and rim.h, since the bytes come from no other file there.

That the sources are others is no fault for the gate: dist/ is brought up to date by the change that closes an issue. A file whose checksum is not the
named one is always a fault. What cannot be built here, or would have other bytes since other packages are installed, is not compared, and it is said what
to install. Without words this refuses sources that are not committed, and a `rim --version` that has another day than the last commit of the programs'
sources. It writes all files or none: where a signal stops it, or the disk is full, dist/ is as it was.
"""
import os
import pathlib
import re
import sys
from collections.abc import Callable, Iterable
from concurrent.futures import ThreadPoolExecutor
from dataclasses import dataclass, field

import library
import native
from native import TOP, CannotBuild, Target, sum_of

from outside import ending, files  # noqa: E402, native sets its path

PARTS = ("src", "specs", "proofs")
SUM_LINE = re.compile(r"([0-9a-f]{64})  (.+)")
# The files of dist/ by their paths, as they are built.
Built = dict[str, bytes]


@dataclass(frozen=True)
class Kind:
    """What dist/ has of a kind: what it is called, the file that names what it was built of, what is built and how, and what of the sources is no crate."""

    name: str
    source: str
    targets: tuple[Target, ...]
    build: Callable[[Target], Built]
    folders: tuple[str, ...] = ("c",)
    files: tuple[str, ...] = ("crates.txt",)

    @property
    def paths(self) -> list[str]:
        """Its files in dist/."""
        return [path for target in self.targets for path in target.paths]


def built_program(target: Target) -> Built:
    """A program, of its crate."""
    if want := native.wanting(target):
        raise CannotBuild(want)
    with files.folder("rim-program-") as folder:
        made, out = pathlib.Path(folder) / "program.o", pathlib.Path(folder) / "program"
        native.object_of(target, TOP, made)
        native.link(target, made, out)
        return {target.path: native.stripped(out)}


def built_library(target: library.Library) -> Built:
    """The archive and the shared library."""
    return {f"dist/{name}": data for name, data in library.build(target).items()}


PROGRAMS = Kind("programs", "dist/SOURCE", native.TARGETS, built_program)
LIBRARY = Kind("library", "dist/LIBRARY-SOURCE", library.LIBRARIES, built_library, files=("crates.txt", "library/rim.c", "library/rim.h"))
KINDS = {kind.name: kind for kind in (PROGRAMS, LIBRARY)}


# ---- the sources


def crates_of(kind: Kind) -> set[str]:
    """The crates of a kind and those that they need, as crates.txt has them."""
    lines = (line.split("#")[0] for line in (TOP / "crates.txt").read_text().splitlines())
    needs = {left.split()[0]: right.split() for left, colon, right in (line.partition(":") for line in lines) if colon}
    found, left = set[str](), [target.crate for target in kind.targets]
    while left:
        name = left.pop()
        if name in needs and name not in found:
            found.add(name)
            left += needs[name]
    return found


def folders(kind: Kind) -> list[str]:
    """The folders of the sources."""
    paths = (f"crates/{name}/{part}" for name in crates_of(kind) for part in PARTS)
    return [*kind.folders, *sorted(path for path in paths if (TOP / path).is_dir())]


def sources(kind: Kind) -> list[str]:
    """The files that a kind is made of, by their paths."""
    found = (path for folder in folders(kind) for path in (TOP / folder).rglob("*") if path.is_file())
    return [*kind.files, *sorted(str(path.relative_to(TOP)) for path in found)]


def version_of_kit() -> str:
    return native.done(["rt", "version"], "the kit").strip()


@dataclass
class Named:
    """What dist/SOURCE says, or its like: each path and its checksum, the kit, and the lines of packages."""

    sums: dict[str, str] = field(default_factory=dict)
    kit: str = "none"
    packages: list[str] = field(default_factory=list)


def named(kind: Kind) -> Named:
    """What is said of a kind; nothing where that file does not exist."""
    found, path = Named(), TOP / kind.source
    for line in path.read_text().splitlines() if path.exists() else ():
        word, _, rest = line.partition(" ")
        if each := SUM_LINE.fullmatch(line):
            found.sums[each[2]] = each[1]
        elif word == "kit":
            found.kit = rest
        elif word == "package":
            found.packages.append(line)
    return found


# ---- what is wrong


def faults_of_files(kind: Kind) -> list[str]:
    """A line for each file of dist/ that is not the one that is named."""
    sums = named(kind).sums
    bad = [path for path in kind.paths if not (TOP / path).is_file() or sum_of(TOP / path) != sums.get(path)]
    return [f"{path} is not the one that {kind.source} names" for path in bad]


def of_others(kind: Kind) -> list[str]:
    """A line where dist/ is of other sources: changed, added or removed."""
    here = {path: sum_of(TOP / path) for path in sources(kind) if (TOP / path).is_file()}
    then = {path: value for path, value in named(kind).sums.items() if path not in kind.paths}
    others = sorted(path for path in here.keys() | then.keys() if here.get(path) != then.get(path))
    return [f"the {kind.name} of dist/: of other sources: {len(others)} differ, {others[0]} first"] if others else []


def is_begun(kind: Kind) -> bool:
    """Whether dist/ has something of a kind."""
    return any((TOP / path).exists() for path in [kind.source, *kind.paths])


NO_LIBRARY = "dist/ has no library"


def kinds_here() -> list[Kind]:
    """What dist/ has to have. That it has no library is said, and is no fault."""
    if is_begun(LIBRARY):
        return [PROGRAMS, LIBRARY]
    print(f"dist.py: {NO_LIBRARY}")
    return [PROGRAMS]


def not_named(kind: Kind) -> list[str]:
    """Why dist/ has not all of a kind of these sources."""
    return [NO_LIBRARY] if kind is LIBRARY and not is_begun(kind) else of_others(kind) + faults_of_files(kind)


def other_day() -> list[str]:
    """What is wrong with the day that `rim --version` has: a line, or none."""
    said = re.search(r'VERSION: &str = "[^"]*\((.*)\)"', (TOP / "crates/rim_words/src/definition.rt").read_text())
    last = native.done(["git", "-C", str(TOP), "log", "-1", "--format=%cs", "--", *PROGRAMS.files, *folders(PROGRAMS)], "git").strip()
    return [] if said and said[1] == last else [f"`rim --version` has {said[1] if said else 'no day'}, and the sources are of {last}"]


# ---- building


def prove():
    """Proves all crates and builds their libraries, but for those that an earlier run on this machine has proved of the same files."""
    native.done(["rt", "ci"], "rt ci", TOP)


def all_built(kinds: Iterable[Kind]) -> Built:
    """All files of these kinds. As many are built at a time as there are processors."""
    made: Built = {}
    with ThreadPoolExecutor(len(os.sched_getaffinity(0))) as pool:
        for each in [pool.submit(kind.build, target) for kind in kinds for target in kind.targets]:
            made |= each.result()
    return made


def package_lines(kind: Kind) -> list[str]:
    return sorted({package.line for target in kind.targets for package in target.packages})


def source_of(kind: Kind, made: Built) -> bytes:
    """What dist/SOURCE says, or its like, of files that were built here."""
    about = "programs of dist/ are" if kind is PROGRAMS else f"{kind.name} of dist/ is"
    head = [f"# What the {about} built of: see tools/package/dist.py, which writes this.", f"kit {version_of_kit()}", f"folders {' '.join(folders(kind))}"]
    sums = [f"{sum_of(TOP / path)}  {path}" for path in sources(kind)] + [f"{native.sum_of_bytes(made[path])}  {path}" for path in kind.paths]
    return "".join(f"{line}\n" for line in [*head, *package_lines(kind), *sums]).encode()


def write() -> list[str]:
    kinds = list(KINDS.values())
    given = dict.fromkeys(path for kind in kinds for path in [*kind.files, *folders(kind)])
    if status := native.done(["git", "-C", str(TOP), "status", "--porcelain", "--", *given], "git"):
        return [f"sources are not committed:\n{status}"]
    if faults := other_day() or [line for kind in kinds for line in map(native.wanting, kind.targets) if line]:
        return faults
    prove()
    made = all_built(kinds)
    modes = {path: target.mode for kind in kinds for target in kind.targets for path in target.paths}
    # what names the files comes last, so that dist/ is never taken for one that it is not
    whole = made | {kind.source: source_of(kind, made) for kind in kinds}
    files.put_all(str(TOP / "dist"), {path.removeprefix("dist/"): (data, modes.get(path, 0o644)) for path, data in whole.items()})
    return []


# ---- comparing


def other_packages(kind: Kind, target: Target) -> list[str]:
    """The packages of a target that are not those which were named: what is here, and what to install."""
    found, lines = [], named(kind).packages
    for package in target.packages:
        if package.line not in lines:
            was = next((line.split(" ")[2] for line in lines if line.split(" ")[1] == package.name), "none")
            found.append(f"{target.path} was linked with {package.name} {was}, and here is {package.version}: apt-get install {package.name}={was}")
    return found


def why_not_compared(kind: Kind, target: Target) -> str:
    """Why what is built of these sources may have other bytes here than in dist/; nothing where it may not."""
    if others := of_others(kind):
        return others[0]
    then = named(kind)
    if then.kit != version_of_kit():
        return f"dist/ was built by {then.kit}, and this is {version_of_kit()}"
    return native.wanting(target) or next(iter(other_packages(kind, target)), "")


def not_same(made: Built) -> list[str]:
    """What is wrong where files of dist/ are not those that were built here."""
    return [f"{path} differs from what is built here" for path, data in made.items() if data != (TOP / path).read_bytes()]


def check() -> list[str]:
    """Builds all again: what differs from dist/, or why it cannot be compared."""
    kinds = kinds_here()
    if faults := [line for kind in kinds for line in faults_of_files(kind)]:
        return faults
    if faults := [line for kind in kinds for line in dict.fromkeys(why_not_compared(kind, target) for target in kind.targets) if line]:
        return faults
    prove()
    return not_same(all_built(kinds))


def kept() -> list[str]:
    """A line where dist/ is of other sources is printed, and is no fault."""
    kinds = kinds_here()
    for line in (line for kind in kinds for line in of_others(kind)):
        print(f"dist.py: {line}")
    return [line for kind in kinds for line in faults_of_files(kind)]


def faults_of(words: list[str]) -> list[str] | None:
    """What is wrong by these words; None where they are none."""
    match words:
        case []:
            return write()
        case ["--check"]:
            return check()
        case ["--kept"]:
            return kept()
        case ["--named"] | ["--named", "programs" | "library"]:
            return not_named(KINDS[words[1] if words[1:] else PROGRAMS.name])
    return None


def main() -> int:
    try:
        faults = faults_of(sys.argv[1:])
    except CannotBuild as why:
        faults = [str(why)]
    if faults is None:
        print(__doc__.split("\n\n")[1], file=sys.stderr)
        return 2
    for fault in faults:
        print(f"dist.py: {fault}")
    return int(bool(faults))


if __name__ == "__main__":
    sys.exit(ending.status_of("dist.py", main))
