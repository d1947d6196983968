#!/usr/bin/env python3
"""Asks the library for C what the program is asked, and looks at what it writes, keeps and exports.

    tests/library.py FOLDER [PROGRAM] [--whole] [--only NAME] [--calls ARCHIVE]

FOLDER has the libraries that tools/package/library.py makes, as dist/ has; PROGRAM is FOLDER/rim-x86_64-v2 where it is not given.

- The names that library/rim.h declares are just those that each library has for a program. Its codes are just those of crates/rim_c and of
  the program's words.
- The C in front of the proved calls passes on what it is given, and refuses null pointers: tests/library/passing.c.
- Each case of tests/ that asks what the library answers has the program's bytes and its status as the code, or its fault: with too little room,
  with just enough and with more, between guards. Each other library gets some of them, and all with --whole. --only picks the cases whose name
  has NAME.
- What callers may do with files, texts and null pointers: tests/library/tries.c. Eight threads at a time: threads.c. Each request for memory
  refused in turn: refused.c. The same under valgrind, and compiled with AddressSanitizer and UBSan; library/rim.c too, where ARCHIVE has the
  proved calls alone (by default crates/rim_c/out/librim_c.a, where that exists).
- Calls about manifests that were changed, with each block of memory between pages that nobody can read: fuzz.c with guarded.c. fuzz.py makes more.
- The archive and the shared library for arm64 are run under qemu-aarch64.
- C++ takes the header. The C program of the document compiles and prints the program's report.

What a machine has not is said, and what needs it is not asked. The last line is 'N passed, M failed'.
"""
import argparse
import concurrent.futures
import functools
import itertools
import os
import pathlib
import re
import shutil
import subprocess
import sys
import tempfile
import time
import tomllib
from collections.abc import Callable, Iterator
from dataclasses import dataclass

from helpers import PATIENCE, TOP
from helpers.in_c import (C_FLAGS, GUARDED, HERE, INCLUDE, SANITIZERS, SMALL, VALGRIND, WRAPPED, Asked, Build, ForArm, builds, compiler, done, fuzzed_files,
                          here, library, said_by, sanitized, sanitizing, small_files)
from helpers.rows import all_runs, contents, difference, write
from helpers.tries import Outcome, at_a_time, differs, told

CODES = pathlib.Path(TOP, "crates", "rim_c", "src", "codes.rt")
PAGES = (pathlib.Path(TOP, "docs", "LIBRARY.md"),)
# How many calls are made with guarded memory, each way.
GUARDED_CALLS = 1000
OF_LAUNCH, OF_MANIFEST, OF_FILE = ("list", "trace", "map", "dtb"), ("measure", "audit", "check"), ("replay", "image", "fdt")
EXAMPLE, LAUNCH = "examples/vm/manifest.toml", "one-vcpu"
EXAMPLES = ["examples/vm/manifest.toml", "examples/kernel/manifest.toml", "examples/first/manifest.toml"]
# Statuses of call.c that are no codes.
IS_WRONG, NOT_READ = 200, 201
# A run that takes the program longer is asked of the library for its length and its answer alone.
LONG = 0.3


# ---- names and codes


def header() -> str:
    return library.text_of(library.HEADER)


def names_of(path: pathlib.Path, *how: str) -> set[str]:
    """The names that a library has for a program."""
    return {line.split()[-1] for line in done(["nm", *how, "--extern-only", "--defined-only", str(path)]).decode().splitlines() if " " in line}


def names_shared(asked: Asked, name: str) -> list[str]:
    wanted = {f"{each}@@{library.VERSION}" for each in library.declared(header())}
    found = names_of(asked.shared(name), "-D") - {f"{library.VERSION}@@{library.VERSION}", library.VERSION}
    said = done(["readelf", "-dW", str(asked.shared(name))]).decode()
    needed = re.findall(r"\((NEEDED|SONAME|RPATH|RUNPATH|TEXTREL|INIT|INIT_ARRAY)\).*?(?:\[(.*)\]|$)", said)
    wrong = differs("its names", sorted(found), sorted(wanted)) + differs("bound at the start", "BIND_NOW" in said, True)
    return wrong + differs("what it needs", sorted(needed), [("NEEDED", "libc.so.6"), ("SONAME", library.SONAME)])


def names_archived(asked: Asked, name: str) -> list[str]:
    return differs("its names", sorted(names_of(asked.archive(name))), sorted(library.declared(header())))


def codes_of_header() -> dict[str, int]:
    found = re.findall(r"\b(RIM_\w+) = (\d+)", re.search(r"typedef enum rim_code \{(.*?)\} rim_code;", header(), re.S)[1])
    return {name: int(number) for name, number in found}


def words_of_faults() -> dict[tuple[str, str], str]:
    """The program's word of each fault, by its type and its name."""
    found = {}
    for path in sorted(pathlib.Path(TOP, "crates").glob("*/src/*.rt")):
        for kind, name, word in re.findall(r"\b(\w*Fault)::(\w+)(?:\(_\))? => \"([a-z0-9-]+)\"", path.read_text(encoding="utf-8")):
            found.setdefault((kind, name), word)
    return found


def name_of(word: str) -> str:
    """The header's name for a word of the program. What cannot be read was not given: that one is named otherwise."""
    return "RIM_NO_FILE" if word == "file-unreadable" else "RIM_" + word.upper().replace("-", "_")


def codes_of_crate() -> dict[str, int]:
    """The codes of crates/rim_c by the header's names, and those of answers, which are the program's statuses or of the C in front."""
    text, words = library.text_of(CODES), words_of_faults()
    constants = {name: int(number) for name, number in re.findall(r"pub const (\w+): u32 = (\d+);", text)}
    found = {"RIM_OK": 0, "RIM_REFUSED": 1, "RIM_NULL": 2, "RIM_FAULTY": 3} | {f"RIM_{name}": number for name, number in constants.items()}
    for kind, name, code in re.findall(r"(\w+)::(\w+) => (\w+),", text):
        number = constants[code] if code in constants else int(code)
        if number == constants["NEVER"]:
            continue
        found[name_of(words.get((kind, name), f"{kind}::{name} has no word"))] = number
    return found


def codes(_: Asked) -> list[str]:
    in_header, in_crate = codes_of_header(), codes_of_crate()
    names = sorted(in_header.keys() | in_crate.keys())
    return [line for name in names for line in differs(name, in_header.get(name), in_crate.get(name))] + differs("their number", len(in_header) > 50, True)


# ---- programs of tests/library


def ends_well(ran: subprocess.CompletedProcess, last: str) -> list[str]:
    """What is wrong with a program's end: its status, its last line and what else it says."""
    lines = said_by(ran).splitlines() or [""]
    found = ran.stdout.decode(errors="replace").strip().splitlines() or [""]
    is_well = ran.returncode == 0 and re.fullmatch(last, found[-1])
    return [] if is_well else [f"status {ran.returncode}", *lines[-12:]]


def passing(asked: Asked) -> list[str]:
    """Eight lanes are those of a compiler that is asked for AVX2: here the word alone, since it is no matter of what the C does."""
    cc, flags = sanitizing() or compiler(), SANITIZERS if sanitizing() else []
    wrong = []
    for lanes in ([], ["-D__AVX2__=1"]):
        program = str(asked.made / f"passing{len(lanes)}")
        done([cc, *C_FLAGS, *flags, *lanes, str(INCLUDE / "rim.c"), str(HERE / "passing.c"), "-o", program])
        wrong += ends_well(here([program]), r"[1-9]\d* as they should be, 0 not")
    return wrong


def version(asked: Asked) -> str:
    return done([asked.program, "--version"]).decode().strip().removeprefix("rim ")


def tries(asked: Asked, build: Build) -> list[str]:
    return ends_well(build.run(build.build(asked, "tries"), version(asked), EXAMPLE, LAUNCH), r"[1-9]\d* tried, 0 wrong")


def threads(asked: Asked, build: Build) -> list[str]:
    return ends_well(build.run(build.build(asked, "threads"), *EXAMPLES), r"256 calls, 0 wrong")


def header_in_cpp(asked: Asked, build: Build) -> list[str]:
    program, words = str(asked.made / "header"), ["-std=c++11", "-pedantic", "-Wall", "-Wextra", "-Werror", f"-I{INCLUDE}"]
    done(["c++" if shutil.which("c++") else "g++", *words, str(HERE / "header.cc"), *build.linked, "-o", program])
    return differs("the version", build.run(program).stdout.decode().strip(), version(asked))


# ---- memory that is refused

# With too few of them nothing would be shown.
LEAST_REQUESTS = 10


def calls_refused() -> Iterator[list[str]]:
    """The words of each call for which memory is refused."""
    for manifest in SMALL:
        yield from ([command, *flag, manifest] for command in ("measure", "check") for flag in ([], ["--json"]))
        yield from ([command, manifest] for command in ("audit", "paths"))
        yield from ([command, *flag, manifest, "a"] for command, flag in (("rim", []), ("list", []), ("trace", []), ("map", []), ("map", ["--json"])))
    yield from (["dtb", "of-all-kinds.toml", "a"], ["image", "kernel"], ["fdt", "tree"], ["replay", "listing"])


def refused_of(build: Build, program: str, words: list[str], folder: pathlib.Path) -> list[str]:
    ran = build.run(program, *words, folder=folder)
    if wrong := ends_well(ran, r"\d+ refused, 0 wrong"):
        return [f"{' '.join(words)}: {line}" for line in wrong]
    return []


def refused(asked: Asked, build: Build) -> list[str]:
    """With each request for memory refused in turn."""
    program, folder = build.build(asked, "refused", *WRAPPED), asked.made / "small"
    folder.mkdir(exist_ok=True)
    small_files(folder)
    (folder / "listing").write_bytes(done([asked.program, "list", "of-all-kinds.toml", "a"], folder=folder))
    count = re.search(r"(\d+) refused", build.run(program, "measure", "of-all-kinds.toml", folder=folder).stdout.decode())
    wrong = differs("requests of a report", bool(count) and int(count[1]) >= LEAST_REQUESTS, True)
    return wrong + [line for words in calls_refused() for line in refused_of(build, program, words, folder)]


# ---- cases


@dataclass(frozen=True)
class Words:
    """What a case asks of the library."""

    command: str
    flags: tuple[str, ...]
    path: str
    launch: tuple[str, ...]


def words_of(run: dict) -> Words | None:
    """What a case of the program asks, in the library's words; None where it asks what the library has not."""
    command, *rest = run["words"] or [""]
    if command not in OF_LAUNCH + OF_MANIFEST + OF_FILE or any(word.startswith(("-o", "--output", "-h", "--help")) for word in rest):
        return None
    flags, others, left = [], [], iter(rest)
    for word in left:
        if word == "--workers":
            next(left, None)
        elif word in ("--json", "--quiet"):
            flags.append(word)
        elif not word.startswith("--"):
            others.append(word)
    if len(others) != (2 if command in OF_LAUNCH else 1):
        return None
    return Words(command, tuple(flags), others[0], tuple(others[1:]))


# What the system says of a file that cannot be read: the library does not know it.
OF_SYSTEM = re.compile(rb"(: file-(?:unreadable|too-large))(?:: [^\n\"]*)")


def expected(ran: subprocess.CompletedProcess, command: str) -> tuple[int, bytes]:
    """The code and the answer that the library has to have where the program ended so."""
    if ran.returncode in (0, 1) or (ran.returncode == 3 and command == "check" and ran.stdout):
        return ran.returncode, ran.stdout
    word = ran.stderr.decode(errors="replace").splitlines()[0].removeprefix("rim: ")
    return codes_of_header()[name_of(word)], b""


def is_like(found: bytes, wanted: bytes, command: str) -> list[str]:
    if command == "check":
        found, wanted = OF_SYSTEM.sub(rb"\1", found), OF_SYSTEM.sub(rb"\1", wanted)
    return difference("the answer", wanted, found)


@dataclass(frozen=True)
class Caller:
    """A program of call.c, the program rim, and how it is started."""

    build: Build
    call: str
    rim: str

    def ends(self, *words: str, folder: str, given: bytes = b"") -> subprocess.CompletedProcess:
        return self.build.run(self.call, *words, folder=folder, input=given)


def compare(caller: Caller, run: dict, folder: str) -> list[str] | None:
    """What is wrong with the library's answer to a case; None where it is not asked."""
    words, given = words_of(run), contents(run.get("stdin", ""))
    if words is None:
        return None
    begun = time.monotonic()
    ran = here([caller.rim, *run["words"]], folder, input=given)
    once = ("--once",) if time.monotonic() - begun > LONG * PATIENCE else ()
    if ran.returncode == 2:
        return None
    found = caller.ends(words.command, *words.flags, *once, words.path, *words.launch, folder=folder, given=given)
    if found.returncode == NOT_READ:
        return None if b"file-unreadable" in ran.stderr + ran.stdout else ["the file cannot be read"]
    code, answer = expected(ran, words.command)
    wrong = differs("the code", found.returncode, code) + is_like(found.stdout, answer, words.command)
    wrong += [found.stderr.decode(errors="replace").strip()] if found.stderr else []
    return wrong + (of_report(caller, words.path, answer, folder, given) if words.command == "measure" and code < 2 and not words.flags and not once else [])


def of_report(caller: Caller, path: str, report: bytes, folder: str, given: bytes) -> list[str]:
    """The measurement of the first and of the last launch of a report, as rim_launch_rim has it, and the paths of the manifest's files."""
    lines = [line.split(" ") for line in report.decode().splitlines()[1:-1]]
    if path.startswith("/dev/"):
        return []
    wrong = []
    for name, algorithm, *value in [*lines[:1], *lines[1:][-1:]]:
        found = caller.ends("rim", "--once", path, name, folder=folder, given=given)
        wanted = (codes_of_header()[name_of(value[0])], "") if algorithm == "refused" else (0, f"{'sha256 sha512'.split().index(algorithm)} {value[0]}\n")
        wrong += differs(f"the measurement of {name}", (found.returncode, found.stdout.decode()), wanted)
    with open(os.path.join(folder, path), "rb") as file:
        paths = "".join(each["path"] + "\0" for each in tomllib.load(file).get("file", []))
    found = caller.ends("paths", "--once", path, folder=folder, given=given)
    return wrong + differs("the paths", (found.returncode, found.stdout.decode()), (0, paths))


def compare_all(caller: Caller, runs: list[dict]) -> list[tuple[str, list[str] | None]]:
    """What is wrong with the answers to cases that have the same files."""
    files, outcomes = {path: contents(said) for path, said in runs[0]["files"].items()}, []
    for run in runs:
        with tempfile.TemporaryDirectory() as folder:
            write(folder, files)
            try:
                outcomes.append((run["name"], compare(caller, run, folder)))
            except Exception as why:  # whatever a wrong answer leads to
                outcomes.append((run["name"], [f"{type(why).__name__}: {why}"]))
    return outcomes


def groups(program: str, only: str) -> list[list[dict]]:
    """The cases that ask what the library answers, those of the same files together."""
    found: dict[str, list[dict]] = {}
    for run in all_runs(program):
        if only in run["name"] and words_of(run):
            found.setdefault(repr(sorted(run["files"].items())), []).append(run)
    return list(found.values())


def share(builds_here: list[Build], build: Build, is_whole: bool) -> int:
    """Of how many groups of cases a build gets one: the first gets all."""
    if is_whole or build == builds_here[0]:
        return 1
    return 40 if isinstance(build, ForArm) else 8


def cases(asked: Asked, builds_here: list[Build]) -> Iterator[Outcome]:
    """What comes of the cases by each build."""
    all_groups = groups(asked.program, asked.only)
    for build in builds_here:
        caller, some = Caller(build, build.build(asked, "call"), asked.program), all_groups[:: share(builds_here, build, asked.is_whole)]
        with concurrent.futures.ProcessPoolExecutor(len(os.sched_getaffinity(0))) as pool:
            came = list(itertools.chain.from_iterable(pool.map(compare_all, [caller] * len(some), some)))
        count = sum(wrong is not None for _, wrong in came)
        print(f"{count} cases by {build.name}; {len(came) - count} are of what no call is", flush=True)
        yield from ((f"{name}, by {build.name}", wrong) for name, wrong in came if wrong is not None)


# ---- guarded memory

BELOW = {"GUARDED_BELOW": "1"}


def guards(asked: Asked) -> list[str]:
    """guarded.c sees each way to misuse a block."""
    program = str(asked.made / "guards")
    done([compiler(), *C_FLAGS, str(HERE / "guarded.c"), str(HERE / "guarded_tries.c"), *WRAPPED, "-o", program])
    return [line for below in ({}, BELOW) for line in ends_well(here([program], env=os.environ | below), r"[1-9]\d* as they should be, 0 not")]


def guarded(asked: Asked, build: Build) -> list[str]:
    """Calls about changed manifests, with blocks that end where a page does, and with such that begin there."""
    program, folder = build.build(asked, "fuzz", *GUARDED), asked.made / "fuzzed"
    folder.mkdir()
    manifests, wrong = fuzzed_files(folder), []
    for seed, below in enumerate(({}, BELOW)):
        ran = here([program, seed, GUARDED_CALLS, *manifests], folder, env=os.environ | below)
        wrong += ends_well(ran, rf"{GUARDED_CALLS} calls, 0 wrong: [1-9]\d* answered, [1-9]\d* refused")
    return wrong


# ---- valgrind and sanitizers


def in_valgrind(asked: Asked, build: Build) -> list[str]:
    """The tries and a call of each kind."""
    checked = Build(build.name, build.words, build.linked, tuple(VALGRIND), build.environment)
    wrong = tries(asked, checked)
    program = build.build(asked, "call")
    for words in (["measure", "--json", EXAMPLE], ["check", EXAMPLE], ["audit", EXAMPLE], ["map", EXAMPLE, LAUNCH], ["dtb", EXAMPLE, LAUNCH]):
        ran = checked.run(program, *words)
        wrong += [f"{' '.join(words)}: status {ran.returncode}: {ran.stderr.decode(errors='replace')[-800:]}"] * (ran.returncode > 1 or bool(ran.stderr))
    return wrong


def by_sanitizers(asked: Asked, look: Callable[[Asked, Build], list[str]]) -> list[str]:
    return look(asked, sanitized(asked))


def calls_sanitized(asked: Asked, build: Build) -> list[str]:
    """A call of each kind."""
    program, wrong = build.build(asked, "call"), []
    of_all = [[command, EXAMPLE] for command in (*OF_MANIFEST, "paths")] + [[command, EXAMPLE, LAUNCH] for command in (*OF_LAUNCH, "rim")]
    for words in [*of_all, ["image", "examples/vm/Image"], ["fdt", "examples/vm/virt.dtb"], ["replay", EXAMPLE]]:
        ran = build.run(program, *words)
        wrong += [f"{' '.join(words)}: status {ran.returncode}: {ran.stderr.decode(errors='replace')[-800:]}"] * (ran.returncode > 1 or bool(ran.stderr))
    return wrong


# ---- the document


def program_of_page() -> str:
    """The C program of the document."""
    for page in PAGES:
        if page.is_file() and (found := re.search(r"^```c\n(.*?)^```", library.text_of(page), re.M | re.S)):
            return found[1]
    raise ValueError(f"no page has a C program: {', '.join(page.name for page in PAGES)}")


def page(asked: Asked, build: Build) -> list[str]:
    """The document's program prints the report."""
    source, program = asked.made / "page.c", str(asked.made / "page")
    source.write_text(program_of_page(), encoding="utf-8")
    done([*build.words, "-std=c11", "-Wall", "-Wextra", "-Werror", f"-I{INCLUDE}", str(source), *build.linked, "-o", program])
    wrong = []
    for manifest in EXAMPLES:
        ran, wanted = build.run(program, manifest), here([asked.program, "measure", manifest])
        wrong += differs(manifest, (ran.returncode, ran.stdout), (wanted.returncode, wanted.stdout))
    return wrong + differs("a manifest that is not there", build.run(program, "gone.toml").returncode > 1, True)


def pkg_config(asked: Asked) -> list[str]:
    """What pkg-config says of a library that is installed."""
    (asked.made / "rim.pc").write_text(library.pkg_config("/opt/rim", "/opt/rim/lib"), encoding="utf-8")
    said = done(["pkg-config", "--cflags", "--libs", "rim"], env=os.environ | {"PKG_CONFIG_PATH": str(asked.made)}).decode().split()
    number = done(["pkg-config", "--modversion", "rim"], env=os.environ | {"PKG_CONFIG_PATH": str(asked.made)}).decode().strip()
    return differs("the words", said, ["-I/opt/rim/include", "-L/opt/rim/lib", "-lrim"]) + differs("the version", number, version(asked).split(" ")[0])


# ---- all of it


Part = tuple[str, Callable[[], list[str]]]


def plain_parts(asked: Asked) -> Iterator[Part]:
    """What needs no library."""
    yield "the codes", lambda: codes(asked)
    if compiler():
        yield "what is passed on", lambda: passing(asked)
        yield "guards", lambda: guards(asked)
    else:
        asked.not_asked("there is no C compiler")


def named_parts(asked: Asked, builds_here: list[Build]) -> Iterator[Part]:
    """What is asked beside the cases."""
    for name in ("x86_64-v2", "x86_64-v3", "aarch64"):
        if asked.archive(name).is_file() and asked.shared(name).is_file() and shutil.which("nm"):
            yield f"the names of {name}.so.0", functools.partial(names_shared, asked, name)
            yield f"the names of {name}.a", functools.partial(names_archived, asked, name)
    for build in builds_here:
        yield f"tries, {build.name}", functools.partial(tries, asked, build)
        yield f"threads, {build.name}", functools.partial(threads, asked, build)
    first = builds_here[0]
    yield "requests refused", lambda: refused(asked, first)
    yield "guarded memory", lambda: guarded(asked, first)
    yield "the document's program", lambda: page(asked, builds_here[1])
    if shutil.which("c++") or shutil.which("g++"):
        yield "C++", lambda: header_in_cpp(asked, first)
    else:
        asked.not_asked("the header in C++: there is no compiler")
    if shutil.which("pkg-config"):
        yield "pkg-config", lambda: pkg_config(asked)
    else:
        asked.not_asked("pkg-config is not installed")


def checked_parts(asked: Asked, first: Build) -> Iterator[Part]:
    """What valgrind and the sanitizers are asked."""
    if shutil.which("valgrind"):
        yield "valgrind", lambda: in_valgrind(asked, first)
    else:
        asked.not_asked("valgrind is not installed")
    if sanitizing():
        for name, look in (("tries", tries), ("threads", threads), ("calls", calls_sanitized)):
            yield f"sanitizers: {name}", functools.partial(by_sanitizers, asked, look)
    else:
        asked.not_asked("no compiler here has the sanitizers")


def all_of_it(asked: Asked) -> list[Outcome]:
    builds_here = builds(asked) if compiler() else []
    parts, outcomes = list(plain_parts(asked)), list[Outcome]()
    if builds_here and not isinstance(builds_here[0], ForArm):
        outcomes = list(cases(asked, builds_here))
        parts += [*named_parts(asked, builds_here), *checked_parts(asked, builds_here[0])]
    came = at_a_time(parts)
    print(*(f"{name}: {'WRONG' if wrong else 'as it should be'}" for name, wrong in came), sep="\n", flush=True)
    return outcomes + came


def read_words() -> argparse.Namespace:
    parser = argparse.ArgumentParser(usage="tests/library.py FOLDER [PROGRAM] [--whole] [--only NAME] [--calls ARCHIVE]")
    parser.add_argument("folder", type=pathlib.Path)
    parser.add_argument("program", nargs="?")
    parser.add_argument("--whole", action="store_true")
    parser.add_argument("--only", default="")
    parser.add_argument("--calls", type=pathlib.Path, default=pathlib.Path(TOP, "crates", "rim_c", "out", "librim_c.a"))
    return parser.parse_args()


def main() -> int:
    words = read_words()
    program = os.path.abspath(words.program or words.folder / "rim-x86_64-v2")
    if not os.path.exists(program):
        raise SystemExit(f"{program} is not built")
    with tempfile.TemporaryDirectory() as made:
        return told(all_of_it(Asked(words.folder.resolve(), program, pathlib.Path(made), words.whole, words.calls.resolve(), words.only)))


if __name__ == "__main__":
    sys.exit(main())
