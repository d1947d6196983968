#!/usr/bin/env python3
"""Tries tools/package/dist.py, and what starts it: tests/processors.py and tools/package/library.py, over a tree and a kit that are made here.

    tests/building.py

- What is written, with which modes, and what its checksums are of. `./rim` starts a program of it. A second build has the same bytes.
- Which sources are those of the programs, and which those of the library. Files of dist/ that are changed, or gone; other packages, another kit.
- `./rim`: links, files that cannot be read or are gone, an empty PATH.
- Signals while it proves, compiles, links and strips, full disks: dist/ is as it was, no folder for temporary files is left, and nothing that was
  started goes on.

The kit writes texts in the place of programs and libraries: their bytes say by which tool they were made, and of what. The last line is
'N passed, M failed'.
"""
import contextlib
import functools
import os
import pathlib
import resource
import shutil
import signal
import stat
import subprocess
import sys
import tempfile
import time
from collections.abc import Iterator
from dataclasses import dataclass

from helpers import SECONDS
from helpers.processes import still_running
from helpers.tries import Outcome, at_a_time, differs, told

TOP = pathlib.Path(__file__).resolve().parent.parent
# What the tree has of this repository.
COPIED = ("rim", "library/rim.c", "library/rim.h", "library/rim.pc.in", "c/rattle.c", "tests/processors.py", "tests/helpers/__init__.py",
          "tests/helpers/tries.py", *(f"tools/package/{name}.py" for name in ("dist", "library", "native")))
DAY = "2026-01-02"
# `rim` needs a crate that no library needs, and the other way round.
CRATES = "# NAME: libraries\nrim_words:\nrim_main: rim_words\nrim: rim_main\nrim_wide: rim_main\nrim_calls: rim_words\nrim_c staticlib: rim_calls\nother:\n"
# What all tools of the kit do: they write a program that says by which tool it was made, with which words and of which files; or they sleep. No path gets
# into it.
TOOL = r"""#!/bin/sh
name=${0##*/}
[ "$name" != "$(cat "$KIT/sleeps" 2>/dev/null)" ] || { sleep 1000 & echo $$ $! >"$KIT/asleep"; wait; }
out= words=
while [ $# -gt 0 ]; do
    case $1 in
    -o) out=$2; shift ;;
    -L | --extern) shift ;;
    *) words="$words ${1##*/}" ;;
    esac
    last=$1
    shift
done
case $name in
llvm-ar) out=${words#* rcsD }; out=${last%/*}/$(echo "$out" | cut -d ' ' -f 1) ;;
llvm-strip | llvm-objcopy) exit 0 ;;
esac
{ echo '#!/bin/sh'; echo 'echo "a program of $*"'; echo "# $name ${words# }" | sed 's/rim-[a-z]*-[^ ]*//g'; cat "$KIT/salt"; } >"$out"
chmod 755 "$out"
[ "$name" != rattle ] || echo "logic=proved functions=1"
"""
RT = r"""#!/bin/sh
case $1 in
doc) echo "$KIT/START.md" ;;
version) cat "$KIT/version" ;;
ci)
    [ "$(cat "$KIT/sleeps" 2>/dev/null)" != ci ] || { sleep 1000 & echo $$ $! >"$KIT/asleep"; wait; }
    echo proved >>"$KIT/proved"
    ;;
esac
"""
RTLIB = '''class Crate:
    def __init__(self, folder, top, said, name):
        self.name = name

    def words(self, flags):
        return [self.name, *flags]
'''
# A test that tests/processors.py starts: it makes a file in the folder for temporary ones, and sleeps.
TEST = r"""import os, subprocess, tempfile
with tempfile.NamedTemporaryFile(delete=False):
    pass
with subprocess.Popen(["sleep", "1000"]) as child:
    with open(os.environ["KIT"] + "/asleep", "w") as file:
        file.write(f"{os.getpid()} {child.pid}")
"""
NAMES = ("x86_64-v2", "x86_64-v3", "aarch64")
PROGRAMS, LIBRARIES = [f"rim-{name}" for name in NAMES], [f"librim-{name}.{end}" for name in NAMES for end in ("a", "so.0")]
SOURCES = ["LIBRARY-SOURCE", "SOURCE"]


@dataclass
class Tree:
    """A checkout, with a kit and Debian's packages beside it."""

    top: pathlib.Path

    @property
    def root(self) -> pathlib.Path:
        return self.top / "tree"

    @property
    def kit(self) -> pathlib.Path:
        return self.top / "kit"

    @property
    def environment(self) -> dict[str, str]:
        of_git = {f"GIT_{who}_{what}": value for who in ("AUTHOR", "COMMITTER") for what, value in
                  (("NAME", "a"), ("EMAIL", "a@b"), ("DATE", f"{DAY}T12:00:00Z"))}
        of_git |= {"GIT_CONFIG_NOSYSTEM": "1", "GIT_OPTIONAL_LOCKS": "0"}
        return os.environ | of_git | {"PATH": f"{self.kit}/bin:{os.environ['PATH']}", "KIT": str(self.kit), "TMPDIR": str(self.top / "tmp"),
                                      "HOME": str(self.top), "PYTHONDONTWRITEBYTECODE": "1"}

    def write(self, path: str, text: str, mode: int = 0o644):
        (self.top / path).parent.mkdir(parents=True, exist_ok=True)
        (self.top / path).write_text(text)
        (self.top / path).chmod(mode)

    def commit(self):
        for words in (["init", "-q"], ["add", "-A"], ["commit", "-q", "--allow-empty", "-m", "a"]):
            subprocess.run(["git", *words], cwd=self.root, env=self.environment, check=True)

    def start(self, *words: str, script: str = "tools/package/dist.py", **more) -> subprocess.Popen[str]:
        return subprocess.Popen([sys.executable, script, *words], cwd=self.root, env=self.environment, stdout=subprocess.PIPE, stderr=subprocess.PIPE,
                                text=True, **more)

    def run(self, *words: str, **more) -> tuple[int, str, str]:
        ran = self.start(*words, **more)
        out, said = ran.communicate(timeout=5 * SECONDS)
        return ran.returncode, out, said

    def ends(self, *words: str) -> int:
        return self.run(*words)[0]

    def has(self) -> dict[str, tuple[int, bytes]]:
        """What dist/ has: each file's mode and bytes."""
        return {path.name: (stat.S_IMODE(path.stat().st_mode), path.read_bytes() if path.is_file() else b"") for path in sorted((self.root / "dist").iterdir())}

    def left(self) -> list[str]:
        return os.listdir(self.top / "tmp")


@contextlib.contextmanager
def tree(is_written: bool = True) -> Iterator[Tree]:
    """A tree whose dist/ is written, or was of something else."""
    with tempfile.TemporaryDirectory() as folder:
        made = Tree(pathlib.Path(folder).resolve())
        shutil.copytree(TOP / "scripts/outside", made.root / "scripts/outside", ignore=shutil.ignore_patterns("__pycache__"))
        for path in COPIED:
            (made.root / path).parent.mkdir(parents=True, exist_ok=True)
            shutil.copy(TOP / path, made.root / path)
        put_packages(made)
        put_kit(made)
        made.write("tree/crates.txt", CRATES)
        for name in ("rim", "rim_main", "rim_wide", "rim_words", "rim_calls", "rim_c", "other"):
            made.write(f"tree/crates/{name}/src/lib.rt", name)
        made.write("tree/crates/rim_words/src/definition.rt", f'VERSION: &str = "0.1.0 ({DAY})"')
        made.write("tree/tests/run.py", TEST)
        made.write("tree/dist/rim-x86_64-v2", "another")
        (made.top / "tmp").mkdir()
        made.commit()
        if is_written:
            ran = made.run()
            assert in_order(ran) == (0, LINES, ""), ran
        yield made


LINES = "".join(sorted(f"dist/librim-{name}: logic=proved functions=1\n" for name in NAMES))


def in_order(ran: tuple[int, str, str]) -> tuple[int, str, str]:
    """A run with what it has said in order: as much is built at a time as there are processors."""
    return ran[0], "".join(sorted(ran[1].splitlines(keepends=True))), ran[2]


def put_packages(made: Tree):
    """Debian's packages are beside the tree."""
    native = made.root / "tools/package/native.py"
    for script in (native, native.with_name("library.py")):
        script.write_text(script.read_text().replace('"/usr/', f'"{made.top}/usr/'))
    of_libc, of_gcc = ("rcrt1.o", "crti.o", "libc.a", "crtn.o"), ("crtbeginS.o", "libgcc.a", "libgcc_eh.a", "crtendS.o")
    folders = {"lib/x86_64-linux-gnu": of_libc, "lib/gcc/x86_64-linux-gnu/12": of_gcc, "aarch64-linux-gnu/lib": (*of_libc, "libc.so.6"),
               "lib/gcc-cross/aarch64-linux-gnu/12": of_gcc}
    for folder, names in folders.items():
        for name in names:
            made.write(f"usr/{folder}/{name}", name)


def put_kit(made: Tree):
    made.write("kit/version", "a kit\n")
    made.write("kit/salt", "")
    made.write("kit/bin/rtlib.py", RTLIB)
    made.write("kit/bin/dpkg-query", "#!/bin/sh\ncat \"$KIT/debian\"\n", 0o755)
    made.write("kit/debian", "1.0")
    made.write("kit/bin/rt", RT, 0o755)
    for path in ("bin/rattle", "toolchain/bin/clang", "toolchain/bin/ld.lld"):
        made.write(f"kit/{path}", TOOL, 0o755)
    for path in ("c/libos_c.a", "c/liblibc_c.a", "toolchain/lib/libc.so.6"):
        made.write(f"kit/{path}", path)


# ---- what is written


def written() -> list[str]:
    with tree() as made:
        has = made.has()
        modes = {name: mode for name, (mode, _) in has.items()}
        wrong = differs("modes", modes, dict.fromkeys(PROGRAMS, 0o755) | dict.fromkeys([*LIBRARIES, *SOURCES], 0o644)) + differs("left", made.left(), [])
        for name in SOURCES:
            text = has[name][1].decode()
            (made.top / "sums").write_text("".join(line for line in text.splitlines(keepends=True) if line[64:66] == "  "))
            ran = subprocess.run(["b2sum", "-l", "256", "--check", "--quiet", made.top / "sums"], cwd=made.root, capture_output=True, text=True, check=False)
            wrong += differs(f"checksums of {name}", (ran.returncode, ran.stdout + ran.stderr), (0, ""))
        for words in (["--named"], ["--named", "programs"], ["--named", "library"], ["--kept"], ["--check"]):
            wrong += differs(" ".join(words), in_order(made.run(*words)), (0, LINES if words == ["--check"] else "", ""))
        wrong += differs("again", (made.ends(), made.has() == has), (0, True))
        wrong += differs("how often it was proved", (made.kit / "proved").read_text().count("proved"), 3)
        started = subprocess.run([made.root / "rim", "a", "b"], env=made.environment, capture_output=True, text=True, check=False)
        return wrong + differs("./rim", (started.stdout, started.stderr), ("a program of a b\n", ""))


def packages() -> list[str]:
    """The lines of packages: what is linked in, or linked against, of each."""
    with tree() as made:
        found = {name: [line.split()[1] for line in made.has()[name][1].decode().splitlines() if line.startswith("package ")] for name in SOURCES}
    both = ["libc6-dev-arm64-cross", "libgcc-12-dev", "libgcc-12-dev-arm64-cross"]
    return differs("packages", found, {"SOURCE": ["libc6-dev", *both], "LIBRARY-SOURCE": ["libc6-arm64-cross", *both]})


def without_proving() -> list[str]:
    """Who has proved the crates builds over them."""
    code = "import sys; sys.path.insert(0, 'tools/package'); import dist; dist.prove = lambda: None; sys.exit(bool(dist.write()))"
    with tree(is_written=False) as made:
        ran = subprocess.run([sys.executable, "-c", code], cwd=made.root, env=made.environment, capture_output=True, text=True, check=False)
        seen = ran.returncode, ran.stderr, sorted(made.has()), (made.kit / "proved").exists()
        return differs("end", seen, (0, "", sorted([*PROGRAMS, *LIBRARIES, *SOURCES]), False))


# What is changed, and whether the programs and the library are of other sources then.
CHANGES = {
    "tree/crates.txt": (1, 1), "tree/c/rattle.c": (1, 1), "tree/c/new.c": (1, 1), "tree/crates/rim_words/specs/New.antt": (1, 1),
    "tree/crates/rim_main/src/lib.rt": (1, 0), "tree/crates/rim_calls/src/lib.rt": (0, 1), "tree/crates/rim_c/proofs/New.antt": (0, 1),
    "tree/library/rim.c": (0, 1), "tree/library/rim.h": (0, 1),
    "tree/library/rim.pc.in": (0, 0), "tree/library/python/new.py": (0, 0), "tree/crates/other/src/lib.rt": (0, 0), "tree/crates/rim/tests/new": (0, 0),
}


def of_which_sources() -> list[str]:
    wrong = []
    with tree() as made:
        for path, statuses in CHANGES.items():
            before = (made.top / path).read_text() if (made.top / path).exists() else None
            made.write(path, (before or "") + "\n# more\n")
            wrong += differs(path, (made.ends("--named"), made.ends("--named", "library")), statuses)
            status, out, _ = made.run("--kept")
            others = [kind for kind, is_other in zip(("programs", "library"), statuses) if is_other]
            said = [f"dist.py: the {kind} of dist/: of other sources: 1 differ, {path[5:]} first" for kind in others]
            wrong += differs(f"{path}, as it is kept", (status, out.splitlines()), (0, said))
            if before is None:
                (made.top / path).unlink()
            else:
                made.write(path, before)
        wrong += differs("after all", (made.ends("--named"), made.ends("--named", "library")), (0, 0))
    return wrong


def other_files() -> list[str]:
    """A file of dist/ that is changed or gone is a fault; a dist/ without a library is none."""
    wrong = []
    with tree() as made:
        for name, source in (("rim-aarch64", "SOURCE"), ("librim-x86_64-v3.a", "LIBRARY-SOURCE"), ("librim-aarch64.so.0", "LIBRARY-SOURCE")):
            path = made.root / "dist" / name
            before, line = path.read_bytes(), f"dist.py: dist/{name} is not the one that dist/{source} names\n"
            for change in (lambda path=path: path.write_bytes(b"another"), lambda path=path: path.unlink()):
                change()
                wrong += differs(name, (made.run("--kept"), made.run("--check")), ((1, line, ""), (1, line, "")))
                wrong += differs(f"{name}, named", (made.ends("--named"), made.ends("--named", "library")), (int(source == "SOURCE"), int(source != "SOURCE")))
            path.write_bytes(before)
            path.chmod(0o755 if name in PROGRAMS else 0o644)
        for name in ["LIBRARY-SOURCE", *LIBRARIES]:
            (made.root / "dist" / name).unlink()
        none = "dist.py: dist/ has no library\n"
        for words, status in ((["--kept"], 0), (["--check"], 0), (["--named", "library"], 1)):
            wrong += differs(f"no library, {words}", made.run(*words), (status, none, ""))
        return wrong + differs("no library, programs", made.run("--named"), (0, "", ""))


def compared() -> list[str]:
    """What is built otherwise differs; what another kit or other packages make is not compared."""
    with tree() as made:
        made.write("kit/salt", "more\n")
        status, out, _ = made.run("--check")
        said = [line for line in out.splitlines() if line.startswith("dist.py: ")]
        wrong = differs("other bytes", (status, said), (1, [f"dist.py: dist/{name} differs from what is built here" for name in [*PROGRAMS, *LIBRARIES]]))
        made.write("kit/debian", "2.0")
        status, out, _ = made.run("--check")
        line = "dist.py: dist/librim-aarch64 was linked with libc6-dev-arm64-cross 1.0, and here is 2.0: apt-get install libc6-dev-arm64-cross=1.0"
        wrong += differs("other packages", (status, len(out.splitlines()), out.splitlines()[-1]), (1, 6, line))
        made.write("kit/version", "another kit\n")
        line = "dist.py: dist/ was built by a kit, and this is another kit\n"
        wrong += differs("another kit", made.run("--check"), (1, line * 2, ""))
        (made.top / "usr/aarch64-linux-gnu/lib/libc.so.6").unlink()
        line = "dist.py: dist/librim-aarch64: libc6-arm64-cross is not installed: apt-get install libc6-arm64-cross\n"
        return wrong + differs("no package", made.run(), (1, line, ""))


def refused() -> list[str]:
    """What keeps dist/ from being written: sources that are not committed, another day, wrong words, a kit that fails."""
    wrong = []
    with tree(is_written=False) as made:
        before = made.has()
        made.write("tree/library/rim.h", "more")
        wrong += differs("not committed", made.run()[:2], (1, "dist.py: sources are not committed:\n M library/rim.h\n\n"))
        made.commit()
        made.write("tree/crates/rim_words/src/definition.rt", 'VERSION: &str = "0.1.0 (2026-01-01)"')
        made.commit()
        wrong += differs("another day", made.run()[:2], (1, f"dist.py: `rim --version` has 2026-01-01, and the sources are of {DAY}\n"))
        made.write("tree/crates/rim_words/src/definition.rt", f'VERSION: &str = "0.1.0 ({DAY})"')
        made.commit()
        for words in (["--named", "x"], ["--checks"], ["--kept", "library"]):
            wrong += differs(f"{words}", made.run(*words)[0], 2)
        for path in ("toolchain/bin/ld.lld", "bin/rattle", "toolchain/bin/clang", "bin/rt"):
            text = (made.kit / path).read_text()
            made.write(f"kit/{path}", "#!/bin/sh\necho failing >&2\nexit 7\n", 0o755)
            status, out, said = made.run()
            wrong += differs(path, (status, out.count("failing"), said, made.left()), (1, 1, "", []))
            made.write(f"kit/{path}", text, 0o755)
        return wrong + differs("dist/", made.has(), before)


# ---- ./rim


def started(made: Tree, **environment: str) -> tuple[int, str]:
    """Starts ./rim. Returns its status and the first line of standard error."""
    ran = subprocess.run([made.root / "rim"], env=made.environment | environment, capture_output=True, text=True, check=False)
    return ran.returncode, "".join(ran.stderr.splitlines()[:1])


def not_started() -> list[str]:
    """./rim says why it does not start a program of dist/: a source that is a link counts, and one that cannot be read was not removed."""
    with tree() as made:
        made.write("kit/bin/rt", "#!/bin/sh\nexit 1\n", 0o755)
        building = ": proving and building the program"
        source = made.root / "crates/rim_main/src/lib.rt"
        link = source.with_name("new.rt")
        link.symlink_to("lib.rt")
        wrong, was = [], "rim: since dist/SOURCE was written, crates/rim_main/src/"
        changes = [("a link", lambda: None, f"{was}new.rt was added"), ("no link", link.unlink, ""),
                   ("an unreadable file", lambda: (source.unlink(), source.symlink_to("/proc/self/mem")),
                    "rim: crates/rim_main/src/lib.rt: Input/output error"),
                   ("an unreadable link", lambda: link.symlink_to("/proc/self/mem"), "rim: crates/rim_main/src/lib.rt: Input/output error"),
                   ("no file", source.unlink, "rim: crates/rim_main/src/new.rt: Input/output error"),
                   ("no file and no link", link.unlink, f"{was}lib.rt was removed")]
        for name, change, why in changes:
            change()
            status, line = started(made)
            wrong += differs(name, (status, line[:line.find(building)]), (70, why) if why else (0, ""))
        no_path = "rim: uname is not found; set PATH to the folders of the system's programs, such as /usr/bin:/bin"
        return wrong + differs("an empty PATH", started(made, PATH=""), (70, no_path))


# ---- stops


def stopped(made: Tree, tool: str, number: signal.Signals, *words: str, script: str) -> list[str]:
    """What is wrong where a signal comes while a tool of the kit runs."""
    before, asleep = made.has(), made.kit / "asleep"
    asleep.unlink(missing_ok=True)
    made.write("kit/sleeps", tool)
    ran = made.start(*words, script=script)
    until = time.monotonic() + 5 * SECONDS
    while not (asleep.exists() and asleep.read_text().split()[1:]) and ran.poll() is None and time.monotonic() < until:
        time.sleep(0.01)
    begun = time.monotonic()
    for _ in range(3):
        ran.send_signal(number)
    _, said = ran.communicate(timeout=5 * SECONDS)
    (made.kit / "sleeps").unlink()
    seconds, left = time.monotonic() - begun, still_running([int(each) for each in asleep.read_text().split()])
    seen = ran.returncode, said, made.has() == before, made.left(), left, seconds < 10
    return differs(f"{script} {' '.join(words)}, {tool}, {number.name}", seen, (128 + number, "", True, [], [], True))


STOPS = [("tools/package/dist.py", [], tool) for tool in ("ci", "rattle", "clang", "ld.lld", "llvm-strip", "llvm-ar", "llvm-objcopy")]
STOPS += [("tools/package/dist.py", ["--check"], "rattle"), ("tools/package/library.py", ["new"], "rattle"), ("tests/processors.py", ["x86_64-v2"], "rattle"),
          ("tests/processors.py", ["librim-x86_64-v2"], "clang"), ("tests/processors.py", ["x86_64-v2", "--kept"], "test")]


def stops(number: signal.Signals) -> list[str]:
    with tree() as made:
        made.write("tree/crates/rim_c/src/lib.rt", "changed")
        made.commit()
        # so that --check comes as far as to build
        assert made.run()[0] == 0
        return [line for script, words, tool in STOPS for line in stopped(made, tool, number, *words, script=script)]


def full() -> list[str]:
    """Where not all files can be written, none is."""
    with tree() as made:
        made.write("tree/crates/rim_c/src/lib.rt", "changed")
        made.commit()
        before = made.has()
        most = max(len(data) for name, (_, data) in before.items() if name not in SOURCES)
        limit = lambda: resource.setrlimit(resource.RLIMIT_FSIZE, (most, most))
        status, _, said = made.run(preexec_fn=limit)
        wrong = differs("end", (status, said.count("\n"), "File too large" in said, made.has() == before, made.left()), (3, 1, True, True, []))
        shutil.rmtree(made.root / "dist")
        made.write("tree/dist", "a file")
        status, _, said = made.run()
        return wrong + differs("dist/ is a file", (status, said.count("\n"), made.left()), (3, 1, []))


def run_all() -> list[Outcome]:
    looks = [(look.__name__, look) for look in (written, packages, without_proving, of_which_sources, other_files, compared, refused, not_started, full)]
    return at_a_time(looks + [(f"stops, {number.name}", functools.partial(stops, number)) for number in (signal.SIGINT, signal.SIGTERM, signal.SIGHUP)])


if __name__ == "__main__":
    sys.exit(told(run_all()))
