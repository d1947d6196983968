#!/usr/bin/env python3
"""Tries the Python package rim over a library.

    tests/python_library.py LIBRARY          librim.so.0, or a folder that has it

- The cases and rows of tests/ whose words ask something that the package has a call for: their texts, statuses and words.
- That each code of rim.h has its exception, and there is no other.
- Bytes of many kinds, empty files, names with odd characters, manifests and paths that are no UTF-8, files that are missing.
- That an answer is made once where it has room, and twice where it has more bytes than that; eight threads at a time; that no memory is kept.
- Which library is taken; the wheel, made twice, and installed where there is nothing else; the oldest Python that it is for; types, by mypy.
- The programs of the documents print what they are said to print.

What a machine has not is said, and what needs it is not asked. The last line is 'N passed, M failed'.
"""
import ast
import concurrent.futures
import glob
import importlib.util
import itertools
import json
import mmap
import os
import re
import subprocess
import sys
import tempfile
import threading
import time
from collections.abc import Callable, Iterator
from functools import partial

from helpers import TOP
from helpers.rows import EXPECTED, TESTS, contents, difference, run_of_case, runs_of_rows, write
from helpers.tries import at_a_time, differs, told, tried

import reference
from sharing import oldest_python

PACKAGE = os.path.join(TOP, "library", "python")
HEADER = os.path.join(TOP, "library", "rim.h")
# Where the programs are that people read.
DOCUMENTS = [os.path.join(TOP, "docs", "LIBRARY.md")]
sys.path.insert(0, PACKAGE)
sys.dont_write_bytecode = True

import rim
from rim import answers, errors, native


def data_of(*path: str) -> bytes:
    with open(os.path.join(TOP, *path), "rb") as file:
        return file.read()


def kept(case: str) -> str:
    """What the program prints in a case."""
    return data_of("tests", "cases", case, "stdout").decode()


VM, KERNEL = (data_of("examples", name, "manifest.toml") for name in ("vm", "kernel"))
FILES = {f"examples/vm/{name}": data_of("examples", "vm", name) for name in ("Image", "initrd.img", "virt.dtb")}
IMAGE = FILES["examples/vm/Image"]
# The example of a kernel, whose file may be anything.
RAW = KERNEL.replace(b'kind = "kernel"', b'kind = "raw"').replace(b"rec = [{}]", b"rec = [{pc = 0}]")


def error_of(call: Callable[[], object]) -> str:
    """The word of the error that a call raises."""
    try:
        return f"no error, but {call()!r}"
    except rim.RimError as why:
        lines = str(why)
        return why.word if lines and "\n" not in lines else f"{why.word}, which is said as {lines!r}"


# ---- cases and rows

# What the program prints of each command and option, by the package: the status and the text.
Ended = tuple[int, str]


def of_image(data: bytes) -> Ended:
    return 0, "".join(f"{name} {value:016x}\n" for name, value in vars(rim.image(data)).items())


def of_map(text: str) -> Ended:
    return int("refused" in json.loads(text)), text


def of_replay(found: rim.Replay) -> Ended:
    return int(not found), found.text + "\n"


def of_launches(found: answers.Launches) -> Ended:
    return int(found.is_refused), found.text


def of_report(text: str) -> Ended:
    return int(any("refused" in launch for launch in json.loads(text)["launches"])), text


def of_check(text: str) -> Ended:
    return json.loads(text)["status"], text


def of_accepted(call: Callable[..., str], *words: object, **with_: object) -> Ended:
    try:
        return 0, call(*words, **with_)
    except rim.LaunchRefused as why:
        return 1, f"{words[2]} refused {why.word}\n"


MANIFESTS = {
    ("measure",): lambda *words, **with_: of_launches(rim.measure(*words, **with_)),
    ("measure", "--json"): lambda *words, **with_: of_report(rim.measure_json(*words, **with_)),
    ("audit",): lambda *words, **with_: of_launches(rim.audit(*words, **with_)),
    ("check",): lambda *words, **with_: (rim.check(*words, **with_).status, rim.check(*words, **with_).text),
    ("check", "--json"): lambda *words, **with_: of_check(rim.check_json(*words, **with_)),
    ("check", "--quiet"): lambda *words, **with_: (rim.check(*words, quiet=True, **with_).status, rim.check(*words, quiet=True, **with_).text),
    ("check", "--json", "--quiet"): lambda *words, **with_: of_check(rim.check_json(*words, quiet=True, **with_)),
    ("list",): partial(of_accepted, rim.list_commands),
    ("trace",): partial(of_accepted, rim.trace),
    ("map",): lambda *words, **with_: (int(rim.map(*words, **with_).is_refused), rim.map(*words, **with_).text),
    ("map", "--json"): lambda *words, **with_: of_map(rim.map_json(*words, **with_)),
    ("dtb",): lambda *words, **with_: (0, rim.dtb(*words, **with_)),
}
SINGLE = {("replay",): lambda data: of_replay(rim.replay(data)), ("image",): of_image, ("fdt",): lambda data: (0, rim.fdt(data))}
COUNTS = {"list": 2, "trace": 2, "map": 2, "dtb": 2}
# What follows the word of a file that cannot be read: the library has no system to ask.
OF_SYSTEM = re.compile(rb"(: file-(?:unreadable|too-large))(?:: [^\n\"]*)")


def question(run: dict) -> tuple[tuple[str, ...], list[str]] | None:
    """What a run asks, as a key of the tables above, and its words; None where no call is for it."""
    command, *words = run["words"] or [""]
    options = tuple(sorted(word for word in words if word.startswith("-")))
    words = [word for word in words if not word.startswith("-")]
    asked = (command, *options)
    if asked not in MANIFESTS and asked not in SINGLE or len(words) != COUNTS.get(command, 1) or "stdin" in run:
        return None
    if not (words[0] in run["files"] or words[0].startswith("examples/")) or names_device(run, words[0]):
        return None
    return asked, words


def names_device(run: dict, path: str) -> bool:
    """Whether the file at a path names a device: its bytes cannot be lent."""
    return re.search(rb"[\"']/dev/", file_of(run, path) or b"") is not None


def file_of(run: dict, path: str) -> bytes | None:
    """A file of a run, as the program finds it by a path."""
    path = os.path.normpath(path)
    if path in run["files"]:
        return contents(run["files"][path])
    place = os.path.join(TOP, path)
    return data_of(path) if path.startswith("examples/") and os.path.isfile(place) else None


def ended(run: dict) -> tuple[int, bytes, bytes]:
    """The status, and what the program would write, by the package."""
    asked, words = question(run)
    subject = file_of(run, words[0])
    try:
        if asked in SINGLE:
            status, text = SINGLE[asked](subject)
        else:
            status, text = MANIFESTS[asked](subject, files_of(run, subject), *words[1:], path=words[0])
    except rim.RimError as why:
        word = "file-unreadable" if why.word == "no-file" else why.word
        return 4 if why.code == 4 else 3, b"", f"rim: {word}\n".encode()
    return status, text if isinstance(text, bytes) else text.encode(), b""


def files_of(run: dict, manifest: bytes) -> dict[str, bytes]:
    """The files that a run's manifest names, by the paths by which it does; those that are not there are left out."""
    try:
        paths = rim.manifest_paths(manifest)
    except rim.ManifestError:
        return {}
    found = {path: file_of(run, path) for path in paths if path}
    return {path: data for path, data in found.items() if data is not None}


def of_run(run: dict) -> list[str]:
    """How a run by the package differs from what is expected of the program, but for what a system says of a file that cannot be read."""
    status, *written = ended(run)
    wrong = differs("status", status, run.get("status", 0))
    for key, found in zip(EXPECTED, written):
        expected = OF_SYSTEM.sub(rb"\1", contents(run.get(key, run.get(key + "_begins", ""))))
        wrong += difference(key, expected, found, key + "_begins" in run)
    return wrong


def runs() -> Iterator[dict]:
    """The runs of cases/ and rows/ that ask something that the package has a call for."""
    said = f"rim {rim.version()}"
    rows = sorted(os.listdir(os.path.join(TESTS, "rows")))
    every = itertools.chain(map(run_of_case, sorted(os.listdir(os.path.join(TESTS, "cases")))), *(runs_of_rows(name, said) for name in rows))
    return (run for run in every if question(run))


# ---- codes


def codes() -> list[str]:
    """Each code of rim.h that is no answer has the class of its name, and there is no other."""
    header = data_of("library", "rim.h").decode()
    table = {int(number): name for name, number in re.findall(r"^    RIM_(\w+) = (\d+),?$", header[:header.index("} rim_code;")], re.M)}
    expected = {number: name.title().replace("_", "") for number, name in table.items() if number not in (native.OK, native.REFUSED, native.FAULTY)}
    wrong = differs("the codes", {number: each.__name__ for number, each in errors.BY_CODE.items()}, expected)
    wrong += differs("the words", {each.word: each.code for each in errors.BY_CODE.values()},
                     {table[number].lower().replace("_", "-"): number for number in expected})
    for each in errors.BY_CODE.values():
        wrong += differs(each.__name__, (getattr(rim, each.__name__, None), issubclass(each, rim.RimError)), (each, True))
        wrong += differs(f"the text of {each.__name__}", str(each()).startswith(each.word + ": "), True)
    return wrong + differs("the code 94", type(errors.error_of(94)), rim.RimError)


GROUPS = [(rim.ManifestError, range(20, 30)), (rim.LaunchRefused, range(40, 100)), (rim.ImageError, range(40, 50)), (rim.DevicetreeError, range(50, 70)),
          (rim.LayoutError, range(70, 80)), (rim.PlanError, range(80, 90)), (rim.MonitorError, range(90, 100)), (rim.CallError, (2, 4, 5, 12)),
          (rim.InputError, range(6, 12))]


def groups() -> list[str]:
    """Each group of errors has the codes that rim.h has beside one another."""
    return [line for group, numbers in GROUPS for line in differs(
        group.__name__, sorted(code for code, each in errors.BY_CODE.items() if issubclass(each, group)), sorted(set(numbers) & set(errors.BY_CODE)))]


# ---- what is given


def mapped(data: bytes) -> mmap.mmap:
    made = mmap.mmap(-1, len(data))
    made[:] = data
    return made


def bytes_like() -> list[str]:
    """Bytes of any kind are read."""
    spread = memoryview(bytes(each for byte in IMAGE for each in (byte, 0)))[::2]
    kinds = {"bytearray": bytearray(IMAGE), "memoryview": memoryview(IMAGE), "a part": memoryview(b"x" + IMAGE + b"y")[1:-1], "mmap": mapped(IMAGE),
             "one that is spread": spread, "a part that can be written to": memoryview(bytearray(b"x" + IMAGE))[1:],
             "numbers of two bytes": memoryview(bytearray(IMAGE)).cast("H")}
    expected = kept("kernel-example")
    wrong = [line for kind, data in kinds.items() for line in differs(kind, rim.measure(KERNEL, {"examples/vm/Image": data}).text, expected)]
    manifests = [KERNEL.decode(), bytearray(KERNEL), memoryview(KERNEL), mapped(KERNEL)]
    wrong += [line for each in manifests for line in differs(f"a manifest: {type(each).__name__}", rim.measure(each, FILES).text, expected)]
    for data in ("text", 1, None):
        for ask in (partial(rim.image, data), partial(rim.measure, KERNEL, {"examples/vm/Image": data})):
            try:
                wrong.append(f"{data!r} is taken as bytes: {ask()!r}")
            except TypeError:
                pass
    return wrong


def empty() -> list[str]:
    """What is empty is no null pointer."""
    wrong = [line for data in (b"", bytearray(), memoryview(b""), memoryview(bytearray()))
             for line in differs("an empty file", rim.measure(RAW, {"examples/vm/Image": data}).is_refused, False)]
    wrong += differs("an empty kernel", error_of(lambda: rim.launch_rim(KERNEL, {"examples/vm/Image": b""}, "vm")), "kernel-short")
    wrong += differs("an empty manifest", error_of(lambda: rim.measure("")), "version")
    wrong += differs("an empty Image", error_of(lambda: rim.image(b"")), "kernel-short")
    wrong += differs("an empty devicetree", error_of(lambda: rim.fdt(bytearray())), "dtb-short")
    wrong += differs("an empty listing", rim.replay(b""), rim.Replay("no line 1", False))
    none = rim.measure("rim_manifest = 1")
    return wrong + differs("no launch", (none.text, dict(none), none.pages, none.launches), ("rim-report 1\npages 0\n", {}, 0, ()))


PATHS = ["a b", "\u00e4/\u4e2d/\U0001f600", "a\nb", "\"'", "\\", "\x7f\x1b[2J", "-", "--json", "/", "../x", "a" * 5000, "e\u0301"]
NAMES = [("", "no-such-launch"), ("vm\n", "no-such-launch"), ("vm\0", "no-such-launch"), ("v", "no-such-launch"), ("\u4e2d", "no-such-launch"),
         ("\udcff", "no-text"), ("\ud800", "no-text"), ("a" * 100_000, "no-such-launch")]


def odd_names() -> list[str]:
    """Paths and names with odd characters are names like others."""
    wrong = []
    for path in PATHS:
        written = "".join(f"\\U{ord(each):08x}" for each in path)
        made = KERNEL.decode().replace("examples/vm/Image", written)
        wrong += differs(f"paths of {path[:20]!r}", rim.manifest_paths(made), [path])
        wrong += differs(f"{path[:20]!r}", rim.measure(made, {path: IMAGE, "\udcff": b"", "\ud800": b""}).text, kept("kernel-example"))
        wrong += differs(f"{path[:20]!r}, not given", error_of(lambda made=made: rim.measure(made)), "no-file")
    for call in (rim.launch_rim, rim.list_commands, rim.trace, rim.map, rim.map_json, rim.dtb):
        wrong += [line for name, word in NAMES for line in differs(f"{call.__name__} {name[:9]!r}", error_of(partial(call, KERNEL, FILES, name)), word)]
    return wrong


def itself() -> list[str]:
    """A file at the manifest's own path is the manifest, and of another path it is what is given."""
    wrong = []
    for path, other in (("manifest.toml", KERNEL), ("m", b"other")):
        made = RAW.replace(b'"examples/vm/Image"', f'"{path}"'.encode())
        with tempfile.TemporaryDirectory() as folder:
            write(folder, {"m": other, "manifest.toml": made})
            manifest, files = reference.read_manifest("manifest.toml", folder)
        expected = f"sha256 {reference.measure(manifest['launch'][0], files, set())[0]}"
        wrong += differs(f"a file at {path}", str(rim.launch_rim(made, {path: b"other"}, "vm")), expected)
    return wrong


def no_text() -> list[str]:
    """What is no UTF-8 is said."""
    calls = (rim.measure, rim.measure_json, rim.audit)
    wrong = [line for call in calls for line in differs(call.__name__, error_of(lambda call=call: call(KERNEL + b"# \xff", FILES)), "syntax")]
    wrong += [line for call in (*calls, rim.check, rim.check_json) for path in ("\udcff", "\ud800")
              for line in differs(f"{call.__name__} {path!r}", error_of(lambda call=call, path=path: call(KERNEL, FILES, path=path)), "no-text")]
    wrong += differs("paths", error_of(lambda: rim.manifest_paths(b"\xff")), "syntax")
    found = rim.check(KERNEL + b"# \xff", FILES, path="m")
    return wrong + differs("check", (found.status, bool(found), len(found.faults), found.faults[0].startswith("m:13:3: syntax: ")), (3, False, 1, True))


def missing() -> list[str]:
    """A file that is missing is called by its path; a manifest's fault has the lines of the check."""
    fewer = {path: data for path, data in FILES.items() if path != "examples/vm/initrd.img"}
    wrong = []
    asks = ((rim.measure,), (rim.measure_json,), (rim.audit,), *((each, "one-vcpu") for each in (rim.launch_rim, rim.list_commands, rim.dtb)))
    for call, *words in asks:
        try:
            wrong.append(f"{call.__name__}: {call(VM, fewer, *words)!r}")
        except rim.NoFile as why:
            wrong += differs(call.__name__, str(why), "no-file: 'examples/vm/initrd.img' is not given, and the manifest names it")
    try:
        wrong.append(f"{rim.measure(VM.replace(b'rec_rule', b'rec_role', 1), FILES)!r}")
    except rim.UnknownKey as why:
        wrong += differs("a manifest's fault", why.lines, ('manifest.toml:42:1: launch "two-vcpus": unknown-key: "rec_role" (nearest: rec_rule)',))
    with tempfile.TemporaryDirectory() as folder:
        code = "import rim\ntry: rim.measure_path('m')\nexcept FileNotFoundError as why: print(why.filename)"
        with open(os.path.join(folder, "m"), "wb") as file:
            file.write(KERNEL)
        wrong += differs("a file that is not there", python(code, folder), "examples/vm/Image\n")
        os.makedirs(os.path.join(folder, "examples/vm/Image"))
        wrong += differs("a folder", python(code.replace("FileNotFound", "IsADirectory"), folder), "examples/vm/Image\n")
    return wrong


def values() -> list[str]:
    """The values of a report are those of its text, and of each launch by itself."""
    report, wrong = rim.measure(VM, FILES), []
    lines = [line.split(" ") for line in kept("virtual-machine").splitlines()[1:-1]]
    wrong += differs("the names", list(report), [line[0] for line in lines])
    for name, word, rest in lines:
        launch, is_refused = report[name], word == "refused"
        found = (launch.name, launch.algorithm, launch.value and launch.value.hex(), launch.refusal)
        wrong += differs(name, found, (name, None, None, rest) if is_refused else (name, word, rest, None))
        for ask in (partial(rim.launch_rim, VM, FILES, name), launch.rim):
            wrong += differs(f"{name}: {ask}", error_of(ask) if is_refused else str(ask()), rest if is_refused else f"{word} {rest}")
    wrong += differs("pages", f"pages {report.pages}", kept("virtual-machine").splitlines()[-1])
    wrong += differs("no launch", error_of(lambda: report["none"]), "no-such-launch") + differs("get", report.get("none"), None)
    wrong += differs("paths", rim.manifest_paths(VM), list(FILES))
    return wrong + differs("version", re.fullmatch(r"[\d.]+ \(\d{4}-\d\d-\d\d\)", rim.version()) is not None, True)


# ---- room, and threads


class Counted:
    """A library whose calls are counted."""

    def __init__(self) -> None:
        self.library, self.count = native.library(), 0

    def __getattr__(self, name: str):
        call = getattr(self.library, name)

        def counted(*words):
            self.count += 1
            return call(*words)

        return counted


def counted(ask: Callable[[], str]) -> tuple[int, str]:
    """How many calls of the library are made for an answer, and the answer."""
    library, own = Counted(), native.library
    native.library = lambda: library
    try:
        found = ask()
    finally:
        native.library = own
    return library.count, found


# A launch of 65,536 pages of zeros, of which each makes a line of a trace with two digests by SHA-512.
LARGE = """
rim_manifest = 1
file = [{ name = "zeros", path = "zeros" }]
[[launch]]
name = "large"
algo = "sha512"
s2sz = 40
ram = [[0x40000000, 0x50000000]]
item = [{ name = "zeros", kind = "raw", file = "zeros", at = 0x40000000, size = 0x10000000 }]
"""
ZEROS = {"zeros": b""}


def room() -> list[str]:
    """An answer is made once where the first room suffices, and else twice, with all its bytes."""
    wrong = []
    for ask in (partial(rim.measure, VM, FILES), partial(rim.measure_json, VM, FILES), partial(rim.list_commands, VM, FILES, "one-vcpu"), rim.version):
        wrong += differs("calls for an ordinary answer", counted(ask)[0], 1)
    count, trace = counted(partial(rim.trace, LARGE, ZEROS, "large"))
    wrong += differs("calls for a large answer", count, 2)
    with tempfile.TemporaryDirectory() as folder:
        write(folder, {"m": LARGE.encode()} | ZEROS)
        manifest, files = reference.read_manifest("m", folder)
    value, listing = reference.measure(manifest["launch"][0], files, set())
    lines, commands = trace.splitlines(), [line.split(" ") for line in listing]
    measured = [" ".join(words[:1] + words[1 + (words[0] == "data_create"):]) for words in commands if words[0] in ("init_ripas", "data_create")]
    wrong += differs("more than the first room", len(trace) > native.FIRST_ROOM, True)
    wrong += differs("its commands", [line.split(" ", 1)[1] for line in lines[1:]] == measured, True)
    wrong += differs("its last measurement", lines[-1].split(" ")[0], value)
    return wrong + differs("a listing", rim.list_commands(LARGE, ZEROS, "large").splitlines() == listing, True)


def threads() -> list[str]:
    """Eight threads at a time have each its own answer."""
    asks = [(lambda: rim.measure(VM, FILES).text, kept("virtual-machine")), (lambda: rim.measure(KERNEL, FILES).text, kept("kernel-example")),
            (lambda: rim.list_commands(VM, FILES, "one-vcpu"), kept("virtual-machine-listing")),
            (lambda: rim.map(VM, FILES, "two-vcpus").text, kept("virtual-machine-map"))]
    start = threading.Barrier(8)

    def asked(number: int) -> list[str]:
        start.wait(60)
        ask, expected = asks[number % len(asks)]
        return [line for _ in range(10) for line in differs(f"thread {number}", ask(), expected)]

    with concurrent.futures.ThreadPoolExecutor(8) as pool:
        return [line for wrong in pool.map(asked, range(8)) for line in wrong]


def beside() -> list[str]:
    """Other threads go on during a call."""
    with concurrent.futures.ThreadPoolExecutor(1) as pool:
        call, turns = pool.submit(rim.trace, LARGE, ZEROS, "large"), 0
        while not call.done():
            time.sleep(0.001)
            turns += 1
    return differs("some turns of another thread during a call", turns > 20, True)


def resident() -> int:
    """How many bytes of memory this process has."""
    with open("/proc/self/statm", encoding="ascii") as file:
        return int(file.read().split(" ")[1]) * mmap.PAGESIZE


def memory() -> list[str]:
    """Calls keep no memory: an answer, a fault of the manifest, a file that is missing."""
    def ask() -> None:
        rim.measure(VM, FILES)
        error_of(lambda: rim.measure(VM + b"x", FILES))
        error_of(lambda: rim.launch_rim(VM, {}, "one-vcpu"))

    for _ in range(20):
        ask()
    before = resident()
    for _ in range(200):
        ask()
    return [f"{resident() - before} bytes more after 600 calls, expected at most 2 MiB"] * (resident() - before > 2 << 20)


# ---- which library, the wheel, older versions of Python


def python(code: str, folder: str = TOP, program: str = sys.executable, **changed: str) -> str:
    """What a program in Python prints that is started in a folder; with its errors where it fails."""
    environment = os.environ | {"PYTHONPATH": PACKAGE, "PYTHONDONTWRITEBYTECODE": "1"} | changed
    ran = subprocess.run([program, "-c", code], cwd=folder, env=environment, capture_output=True, text=True, timeout=120, check=False)
    return ran.stdout if ran.returncode == 0 else f"{ran.stdout}{ran.stderr}"


def found_library() -> list[str]:
    """RIM_LIBRARY goes before the library of a wheel, of which the processor says which one, and that before the system's."""
    ask = "import sys\nfrom rim import native\nif sys.argv: native.__file__ = {0!r}\nnative.flags = lambda: frozenset({1!r})\nprint(native.where())"
    wrong = []
    with tempfile.TemporaryDirectory() as folder:
        own, older, newer = (os.path.join(folder, name) for name in ("native.py", "librim-x86_64-v2.so", "librim-x86_64-v3.so"))
        wrong += differs("no wheel", python(ask.format(own, ()), RIM_LIBRARY=""), "librim.so.0\n")
        for path in (older, newer):
            open(path, "wb").close()
        if os.uname().machine == "x86_64":
            wrong += differs("without AVX2", python(ask.format(own, ("sse2", "avx")), RIM_LIBRARY=""), older + "\n")
            wrong += differs("with AVX2", python(ask.format(own, tuple(native.V3)), RIM_LIBRARY=""), newer + "\n")
        wrong += differs("RIM_LIBRARY", python(ask.format(own, ()), RIM_LIBRARY=older), older + "\n")
        wrong += differs("a folder", python(ask.format(own, ()), RIM_LIBRARY=folder), os.path.join(folder, "librim.so.0") + "\n")
    none = "import rim\ntry: rim.version()\nexcept rim.NoLibrary as why: print(str(why).count(chr(10)), '/none/x' in str(why))"
    return wrong + differs("no library", python(none, RIM_LIBRARY="/none/x"), "0 True\n")


def made_wheel(folder: str) -> str:
    words = [sys.executable, os.path.join(PACKAGE, "wheel.py"), "--v3", native.where(), "--out", folder, native.where()]
    return subprocess.run(words, capture_output=True, text=True, check=True).stdout.strip()


def wheel() -> list[str]:
    """The wheel has the same bytes again, and the version of its library; it works where nothing else is."""
    with tempfile.TemporaryDirectory() as folder:
        paths = []
        for name in ("a", "b"):
            os.mkdir(os.path.join(folder, name))
            paths.append(made_wheel(os.path.join(folder, name)))
        wrong = differs("the wheel's bytes, made again", *(open(path, "rb").read() for path in paths)) and ["the wheel has other bytes when it is made again"]
        wrong += differs("its version", os.path.basename(paths[0]).split("-")[1], rim.version().split(" ")[0])
        return wrong + (installed(folder, paths[0]) if importlib.util.find_spec("ensurepip") else [])


def installed(folder: str, path: str) -> list[str]:
    """The wheel, installed by pip in an environment of its own, prints an example's report."""
    place = os.path.join(folder, "venv")
    program = os.path.join(place, "bin", "python")
    for words in ([sys.executable, "-m", "venv", place], [program, "-m", "pip", "install", "--no-index", "--disable-pip-version-check", "-q", path]):
        ran = subprocess.run(words, cwd=folder, stdout=subprocess.PIPE, stderr=subprocess.STDOUT, text=True, timeout=300, check=False)
        if ran.returncode:
            return [f"{words[1:]}: {ran.stdout}"]
    code = "import rim\nprint(rim.native.where())\nprint(rim.measure_path('examples/vm/manifest.toml').text, end='')"
    where, _, text = python(code, program=program, RIM_LIBRARY="", PYTHONPATH="").partition("\n")
    return differs("its report", text, kept("virtual-machine")) + differs(f"{where} is the wheel's", where.startswith(place + os.sep), True)


def older_versions() -> list[str]:
    """Python 3.9 reads the package and the maker of wheels, and has the same report."""
    for path in (*glob.glob(os.path.join(PACKAGE, "rim", "*.py")), os.path.join(PACKAGE, "wheel.py")):
        with open(path, encoding="utf-8") as file:
            ast.parse(file.read(), path, feature_version=(3, 9))
    oldest = oldest_python()
    code = "import rim\nprint(rim.measure_path('examples/vm/manifest.toml').text, end='')"
    return differs("its report", python(code, program=oldest), kept("virtual-machine")) if oldest else []


USER = """import rim
from rim import NoSuchLaunch, Report


def value(manifest: bytes, files: dict[str, bytes]) -> bytes:
    report: Report = rim.measure(manifest, files)
    try:
        return report["vm"].rim().value + rim.dtb(manifest, {"a": memoryview(b"")}, "vm")
    except NoSuchLaunch as why:
        return " ".join([why.word, *why.lines]).encode()
"""


def mypy() -> str | None:
    """A Python that has mypy; None where there is none."""
    some = (sys.executable, "/usr/bin/python3")
    return next((each for each in some if not subprocess.run([each, "-c", "import mypy"], stderr=subprocess.DEVNULL, check=False).returncode), None)


def types() -> list[str]:
    """mypy finds nothing in the package, and nothing in a module over it."""
    with tempfile.TemporaryDirectory() as folder:
        user = os.path.join(folder, "user.py")
        with open(user, "w", encoding="utf-8") as file:
            file.write(USER)
        words = [mypy(), "-m", "mypy", "--strict", "--cache-dir", folder, "rim", "wheel.py", user]
        ran = subprocess.run(words, cwd=PACKAGE, stdout=subprocess.PIPE, stderr=subprocess.STDOUT, text=True, check=False)
        return [] if ran.returncode == 0 else ran.stdout.splitlines()


# ---- documents


def programs(path: str) -> list[tuple[str, str]]:
    """The programs in Python of a document, each with what it prints: the block after it."""
    with open(path, encoding="utf-8") as file:
        return re.findall(r"```python\n(.*?)```.*?```\n(.*?)```", file.read(), re.S)


def of_document(path: str) -> list[str]:
    """Each program of a document prints what the document says."""
    found = programs(path)
    return [line for code, expected in found for line in differs(code.splitlines()[0], python(code), expected)] + [f"{path} has no program"] * (not found)


def left_out() -> None:
    """Says what this machine has not."""
    absent = [("the wheel in an environment: ensurepip is absent", importlib.util.find_spec("ensurepip")), ("Python 3.9: it is absent", oldest_python()),
              ("types: mypy is absent", mypy()), ("documents: there is none", DOCUMENTS)]
    for what, found in absent:
        if not found:
            print(f"not asked: {what}")


def main(words: list[str]) -> int:
    if len(words) != 1:
        print("usage: tests/python_library.py LIBRARY", file=sys.stderr)
        return 2
    os.environ["RIM_LIBRARY"] = os.path.abspath(words[0])
    if not os.path.isfile(native.where()):
        raise SystemExit(f"{native.where()} is not built")
    left_out()
    looks = [("codes", codes), ("groups", groups), ("bytes of many kinds", bytes_like), ("empty files", empty), ("odd names", odd_names),
             ("the manifest as a file", itself), ("no UTF-8", no_text), ("missing files", missing), ("values", values), ("room", room), ("threads", threads),
             ("other threads", beside), ("memory", memory), ("which library", found_library), ("the wheel", wheel), ("older versions of Python", older_versions)]
    looks += [("types", types)] * bool(mypy()) + [(path, partial(of_document, path)) for path in DOCUMENTS]
    return told([(name, tried(look)) for name, look in looks] + at_a_time((run["name"], partial(of_run, run)) for run in runs()))


if __name__ == "__main__":
    sys.exit(main(sys.argv[1:]))
