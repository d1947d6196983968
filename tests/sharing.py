#!/usr/bin/env python3
"""Tries what the scripts share: the package `outside`.

    tests/sharing.py [PROGRAM]          by default the program that `rt ci` has built

- Texts: what is shown of characters that nobody sees, of bytes that are no UTF-8, of long texts.
- Files that are FIFOs, devices, folders, too long; TOML and JSON that have two meanings or are too deep.
- Programs that never end, say too much, leave others that keep their output open; scripts that a signal stops while one runs.
- How a script ends: full disks, closed outputs, faults. Older versions of Python, which read the files that are started; and the oldest one that
  the scripts take, where it is here.
- What PROGRAM says of Images and devicetrees, and of files that are none.

The last line is 'N passed, M failed'.
"""
import ast
import glob
import importlib.util
import os
import shutil
import signal
import struct
import subprocess
import sys
import tempfile
import time
import unicodedata
from collections.abc import Callable
from functools import partial

from helpers import SCRIPTS, TOP
from helpers.files import deep, image, tree
from helpers.folders import Folder
from helpers.guests import WITH_TREE
from helpers.tries import program_of, told

from outside import files, programs, texts
from outside.faults import Fault
from outside.programs import Limits
from outside.rim import Image, Rim, image_of, tree_of

# ---- texts

VISIBLE = [
    ("plain /path", "plain /path"), ("a\\b", "a\\\\b"), ("\n\x1b[2J\x7f", "\\x0a\\x1b[2J\\x7f"), ("\xa0\x85", "\\xa0\\x85"), ("\xad", "\\xad"),
    ("\u200b\u202e\ufeff", "\\u200b\\u202e\\ufeff"), ("\u3000\u2028", "\\u3000\\u2028"), ("\U000e0041", "\\U000e0041"),
    ("\u2800\ufffc", "\\u2800\\ufffc"), ("\U00016fe4\U0001d159\U00013441\U00013442", "\\U00016fe4\\U0001d159\\U00013441\\U00013442"),
    ("\udcff\udc80", "\\xff\\x80"), ("\ud800", "\\ud800"), ("\u00e9\u4e2d\U0001f600", "\u00e9\u4e2d\U0001f600"), ("\u115f\u3164", "\\u115f\\u3164"),
    ("\ue000", "\\ue000"), ("\ufe0f", "\\ufe0f"), ('"', '"'),
]
SHOWN = [("a", '"a"'), ('"\\', '"\\"\\\\"'), ("\n", '"\\x0a"'), ("a" * 160, f'"{"a" * 160}"'), ("a" * 161, f'"{"a" * 160}"..'), ("", '""')]
PASTED = [("a.toml", "a.toml"), ("a b;c", "'a b;c'"), ("a\n'", "'a\\x0a'\"'\"''"), ("", "''")]
LAST = [("a\nb\n", "b"), ("a\n \n", "a"), ("", "it says nothing"), ("rim: a\\x0a\n", "rim: a\\x0a"), ("\x1b[1mx", "\\x1b[1mx"),
        ("a" * 2000, "a" * 1000 + "..")]


def wrong_rows(call: Callable[[str], str], rows: list[tuple[str, str]]) -> list[str]:
    return [f"{ascii(text[:40])}: {ascii(call(text))}, expected {ascii(expected)}" for text, expected in rows if call(text) != expected]


def shown_texts() -> list[str]:
    wrong = wrong_rows(texts.visible, VISIBLE) + wrong_rows(texts.shown, SHOWN) + wrong_rows(texts.last_line, LAST)
    wrong += wrong_rows(texts.pasted, PASTED)
    hidden = [number for number in range(0x110000) if unicodedata.category(chr(number))[0] in "CZ" and number != 0x20]
    return wrong + [f"{number:#x} is shown" for number in hidden if texts.character(chr(number)) == chr(number)]


# ---- files


def fault_of(call: Callable[[], object]) -> str:
    try:
        call()
    except Fault as why:
        return str(why)
    return "no fault"


READ = [("gone", "No such file or directory, expected a file"), (".", "it is a folder, expected a file"), ("fifo", "it is a FIFO, expected a file"),
        ("/dev/zero", "it is a device, expected a file"), ("large", "it has more than 64 bytes, expected a file of at most that"),
        ("/proc/self/maps", "it has more than 64 bytes, expected a file of at most that"), ("a\0b", "it is no path, expected a file"), ("\ud800", "it is no path, expected a file")]
DATA = [
    (files.toml_of, b"a = 1", "no fault"), (files.toml_of, b"a = \xff", "x: it is no UTF-8 at byte 4, expected TOML 1.0"),
    (files.toml_of, b"a = " + b"[" * 10_000, "x: it is no TOML that is read here (values too deep in one another), expected TOML 1.0"),
    (files.toml_of, b"a = " + b"1" * 5_000, "x: it is no TOML that is read here (Exceeds the limit "),
    (files.toml_of, b"a = 1\na = 2", "x: it is no TOML that is read here (Cannot overwrite a value "),
    (files.json_of, b'{"a": [1, 2.5, null]}', "no fault"), (files.json_of, b'"\xff"', "x: it is no UTF-8 at byte 1, expected JSON"),
    (files.json_of, b"[" * 100_000, "x: it is no JSON that is read here (values too deep in one another), expected JSON"),
    (files.json_of, b"1" * 5_000, "x: it is no JSON that is read here (Exceeds the limit "),
    (files.json_of, b'{"a": {"b\\n": 1, "b\\n": 2}}', 'x: it is no JSON that is read here (the member "b\\x0a" is given twice), expected JSON'),
    (files.json_of, b"[NaN]", "x: it is no JSON that is read here (NaN is no number of JSON), expected JSON"),
    (files.json_of, b"-Infinity", "x: it is no JSON that is read here (-Infinity is no number of JSON), expected JSON"),
    (files.json_of, b"", "x: it is no JSON that is read here (Expecting value: "),
]


def read_files() -> list[str]:
    with tempfile.TemporaryDirectory() as here:
        os.mkfifo(os.path.join(here, "fifo"))
        files.write(os.path.join(here, "large"), b"1" * 65)
        files.write(os.path.join(here, "whole"), b"1" * 64)
        wrong = []
        for name, expected in READ:
            path = os.path.join(here, name)
            said = fault_of(lambda path=path: files.read(path, 64))
            if said != f"{texts.visible(path)}: {expected}":
                wrong.append(f"{name}: {said!r}")
        if files.read(os.path.join(here, "whole"), 64) != b"1" * 64:
            wrong.append("a whole file is not read")
    said = fault_of(lambda: files.write("/dev/full", b"1"))
    return wrong + [said] * (said != "/dev/full: No space left on device, expected that it can be written")


def copied_files() -> list[str]:
    """A copy has so many of a file's first bytes, and zeros where it has fewer."""
    wrong, data = [], bytes(range(1, 200))
    with tempfile.TemporaryDirectory() as here:
        path, new = os.path.join(here, "file"), os.path.join(here, "new")
        files.write(path, data)
        for length, step in ((0, 64), (63, 64), (64, 64), (150, 64), (199, 64), (300, 64), (300, 4096)):
            files.copy(path, new, length, step)
            came = files.read(new, 4096)
            wrong += [f"{length} by {step}: {came!r}"] * (came != data[:length].ljust(length, b"\0"))
        faults = (((path, "/dev/full"), "/dev/full: No space left on device, expected that it can be written"),
                  ((here, new), f"{here}: it is a folder, expected a file"))
        for (given, made), fault in faults:
            said = fault_of(lambda given=given, made=made: files.copy(given, made, 64))
            wrong += [f"{said}, expected {fault}"] * (said != fault)
    return wrong


def put_files() -> list[str]:
    """Files get their places together: where one cannot be written, those that are there stay as they are, and nothing else is left."""
    with tempfile.TemporaryDirectory() as here:
        place = os.path.join(here, "new", "folder")

        def has() -> dict[str, tuple[bytes, int]]:
            return {name: (files.read(os.path.join(place, name), 64), os.stat(os.path.join(place, name)).st_mode & 0o777) for name in os.listdir(place)}

        first, more = {"a": (b"1", 0o644), "b": (b"2", 0o755)}, {"a": (b"3", 0o755), "c": (b"4", 0o600)}
        files.put_all(place, first)
        wrong = [f"{has()}"] * (has() != first)
        said = fault_of(lambda: files.put_all(place, more | {"n" * 256: (b"5", 0o644)}))
        wrong += [said] * (not said.endswith(": File name too long, expected that it can be written")) + [f"after a fault: {has()}"] * (has() != first)
        files.put_all(place, more)
        wrong += [f"{has()}"] * (has() != first | more)
        said = fault_of(lambda: files.put_all(os.path.join(place, "a"), more))
    return wrong + [said] * (not said.endswith("/a: File exists, expected a folder in which files can be made"))


def put_file() -> list[str]:
    """A file is put whole or not at all. What else is in its folder stays: a planted link is not followed, and a file of a likely name is kept."""
    with tempfile.TemporaryDirectory() as here:
        path, target, full = (os.path.join(here, name) for name in ("file", "target", "n" * 256))
        files.write(target, b"kept")
        os.symlink(target, f"{path}.{os.getpid()}")
        files.put(path, b"1" * 64)
        wrong = [f"mode {os.stat(path).st_mode:o}"] * (os.stat(path).st_mode != os.stat(target).st_mode)
        files.put(path, b"2" * 64, 0o600)
        wrong += [f"mode {os.stat(path).st_mode:o}"] * (os.stat(path).st_mode & 0o777 != 0o600)
        wrong += [f"{each}: other bytes" for each, data in ((path, b"2" * 64), (target, b"kept")) if files.read(each, 64) != data]
        said = fault_of(lambda: files.put(full, b"3", name="it"))
        wrong += [said] * (said != "it: File name too long, expected that it can be written")
        return wrong + [f"{os.listdir(here)}"] * (sorted(os.listdir(here)) != ["file", f"file.{os.getpid()}", "target"])


def no_files() -> list[str]:
    """What is there and is no file is never replaced: a device that root had replaced would be gone for all."""
    wrong = []
    with tempfile.TemporaryDirectory() as here:
        fifo = os.path.join(here, "fifo")
        os.mkfifo(fifo)
        for path in (fifo, here, "/dev/null"):
            said = fault_of(lambda path=path: files.may_be_made(path, True))
            wrong += [f"{path}: {said}"] * (not said.startswith(f"{path}: it cannot be made"))
    return wrong


def read_data() -> list[str]:
    found = [(data[:40], fault_of(lambda call=call, data=data: call("x", data)), expected) for call, data, expected in DATA]
    return [f"{data!r}: {said!r}, expected {expected!r}" for data, said, expected in found if not said.startswith(expected)]


# ---- programs

# A body of a shell's script, its limits, and what comes of it: status, output, what it has said, or a fault.
RUNS = [
    ("echo out; echo err >&2; exit 5", Limits(), (5, b"out\n", "err")),
    ("kill -9 $$", Limits(), (-9, b"", "ended by SIGKILL")),
    ("sleep 1000 & echo out", Limits(), (0, b"out\n", "status 0")),
    ("exec >&- 2>&-; sleep 0.1; exit 3", Limits(), (3, b"", "status 3")),
    ("yes >&2 & sleep 0.2; echo out", Limits(), (0, b"out\n", "y")),
    ("sleep 1000", Limits(seconds=0.2), "/bin/sh: it takes more than 0.2 s, expected it to end"),
    ("yes", Limits(), "/bin/sh: it says more than 65536 bytes, expected at most that"),
    ("yes", Limits(out=10), "/bin/sh: it says more than 10 bytes, expected at most that"),
    ("sleep 0.1; ulimit -v", Limits(memory=100 << 20), (0, b"102400\n", "status 0")),
    ("sleep 0.1; ulimit -f", Limits(file=1 << 20), (0, b"2048\n", "status 0")),
]


def come_of(body: str, limits: Limits) -> tuple[int, bytes, str] | str:
    try:
        ran = programs.run(["/bin/sh", "-c", body], limits)
    except Fault as why:
        return str(why)
    return ran.status, ran.out, ran.said


def is_left(mark: str) -> bool:
    """Whether a program goes on that has this word; one that is killed takes a moment to end."""
    until = time.monotonic() + 1
    while runs(mark):
        if time.monotonic() > until:
            return True
        time.sleep(0.01)
    return False


def runs(mark: str) -> bool:
    """Whether a program runs that has this word."""
    for name in filter(str.isdigit, os.listdir("/proc")):
        try:
            with open(f"/proc/{name}/cmdline", "rb") as file:
                if mark.encode() in file.read().split(b"\0") and name != str(os.getpid()):
                    return True
        except OSError:
            pass
    return False


# A script whose own limit is less than that of the program, and which is started with the ends of programs ignored.
LIMITED = """
import signal, sys
signal.signal(signal.SIGCHLD, signal.SIG_IGN)
from outside import ending, programs
def work():
    print(programs.run(["/bin/sh", "-c", "sleep 0.1; ulimit -f; exit 5"], programs.Limits(file=1 << 30)))
    return 0
sys.exit(ending.status_of("outside", work))
"""


def limited() -> list[str]:
    words = ["/bin/sh", "-c", 'ulimit -f 64; exec "$0" -c "$1"', sys.executable, LIMITED]
    ran = subprocess.run(words, cwd=SCRIPTS, capture_output=True, text=True, check=False)
    return [f"{ran}"] * ((ran.returncode, ran.stdout, ran.stderr) != (0, "Ran(status=5, out=b'64\\n', err=b'', is_cut=False)\n", ""))


def run_programs() -> list[str]:
    wrong = limited()
    for number, (body, limits, expected) in enumerate(RUNS):
        mark = f"1000.{os.getpid()}{number}"
        start = time.monotonic()
        came = come_of(body.replace("sleep 1000", f"sleep {mark}"), limits)
        wrong += [f"{body}: {came}, expected {expected}"] * (came != expected)
        wrong += [f"{body}: it took {time.monotonic() - start} s"] * (time.monotonic() - start > 5)
        wrong += [f"{body}: a program is left"] * is_left(mark)
    said = fault_of(lambda: programs.run(["./none"]))
    wrong += [said] * (said != "./none: No such file or directory, expected a program")
    end = time.monotonic() + 0.2
    ran = programs.run(["/bin/sh", "-c", "echo a; sleep 60"], until=lambda: time.monotonic() > end)
    return wrong + [str(ran)] * ((ran.status, ran.out, ran.is_cut) != (-9, b"a\n", True))


# ---- scripts that are stopped

# A script that runs a program with a mark, in the main thread or in another one, and has a folder.
SCRIPT = """
import sys
from concurrent.futures import ThreadPoolExecutor
from outside import ending, files, programs
def work():
    with files.folder("outside-test-") as made:
        print(made, flush=True)
        words = ["/bin/sh", "-c", "sleep " + sys.argv[1] + " & echo x; sleep " + sys.argv[1]]
        if sys.argv[2] == "thread":
            pool = ThreadPoolExecutor(1)
            try:
                pool.submit(programs.run, words).result()
            finally:
                pool.shutdown(cancel_futures=True)
        programs.run(words)
    return 0
sys.exit(ending.status_of("outside", work))
"""


def stopped() -> list[str]:
    wrong = []
    for number in (signal.SIGINT, signal.SIGTERM, signal.SIGHUP):
        for where in ("main", "thread"):
            mark = f"1001.{os.getpid()}{int(number)}{len(where)}"
            ran = subprocess.Popen([sys.executable, "-c", SCRIPT, mark, where], cwd=SCRIPTS, stdout=subprocess.PIPE, stderr=subprocess.PIPE, text=True)
            folder = ran.stdout.readline().strip()
            while not runs(f"sleep {mark} & echo x; sleep {mark}"):
                time.sleep(0.01)
            start = time.monotonic()
            for _ in range(3):
                ran.send_signal(number)
            _, said = ran.communicate(timeout=20)
            came = ran.returncode, said, os.path.exists(folder), is_left(mark), time.monotonic() - start < 3
            wrong += [f"{number!r} {where}: {came}"] * (came != (128 + number, "", False, False, True))
    return wrong


# Runs a script, and sends it INT before it executes the first line with a text.
INTERRUPTED = """
import linecache, os, runpy, signal, sys
path, text = sys.argv[1:]
def traced(frame, event, _):
    if frame.f_code.co_filename != path:
        return None
    if event == "line" and linecache.getline(path, frame.f_lineno).strip().startswith(text):
        os.kill(os.getpid(), signal.SIGINT)
    return traced
sys.argv = [path, "--help"]
sys.settrace(traced)
runpy.run_path(path, run_name="__main__")
"""
# A line of start.py that is executed early, and later ones.
STARTING = ("import importlib", "SCRIPTS = {", "found = None", "needed = SCRIPTS", "folder = modules_of", "return importlib")


def starting() -> list[str]:
    """INT ends a script that starts, and nothing is printed."""
    wrong = []
    for text in STARTING:
        words = [sys.executable, "-c", INTERRUPTED, os.path.join(TOP, "rim-verify"), text]
        ran = subprocess.run(words, capture_output=True, text=True, check=False)
        came = ran.returncode, ran.stdout, ran.stderr
        wrong += [f"{text}: {came}"] * (came != (-signal.SIGINT, "", ""))
    return wrong


ENDS = [
    ("print('a' * 9)\nreturn 0", "/dev/full", 3, "name: output: No space left on device\n"),
    ("print('a' * 99999)\nreturn 0", "/dev/full", 3, "name: output: No space left on device\n"),
    ("return 7", "/dev/full", 7, ""),
    ("print('a')\nraise Fault('one', 'two\\x1b')", "/dev/full", 3, "name: one\nname: two\\x1b\n"),
    ("open('/none/x')", "/dev/null", 3, "name: /none/x: No such file or directory\n"),
    ("raise WrongWords('w')", "/dev/null", 2, "name: w\n"),
    ("def f(): f()\nf()", "/dev/null", 3, "name: what is read has values too deep in one another\n"),
    ("raise MemoryError", "/dev/null", 3, "name: there is not enough memory\n"),
    ("print(chr(0xdcff))\nreturn 0", "/dev/null", 0, ""),
]


def ends() -> list[str]:
    wrong = []
    for body, output, status, said in ENDS:
        lines = "".join(f"    {line}\n" for line in body.split("\n"))
        script = f"import sys\nfrom outside import ending\nfrom outside.faults import *\ndef run():\n{lines}sys.exit(ending.status_of('name', run))"
        with open(output, "w", encoding="utf-8") as file:
            ran = subprocess.run([sys.executable, "-c", script], cwd=SCRIPTS, stdout=file, stderr=subprocess.PIPE, text=True, check=False,
                                 env=os.environ | {"PYTHONUNBUFFERED": ""})
        wrong += [f"{body}: {ran.returncode} {ran.stderr!r}"] * ((ran.returncode, ran.stderr) != (status, said))
    script = "import sys\nfrom outside import ending\nsys.exit(ending.status_of('name', lambda: 0))"
    ran = subprocess.run(["/bin/sh", "-c", 'exec "$0" -c "$1" >&-', sys.executable, script], cwd=SCRIPTS, stderr=subprocess.PIPE, text=True, check=False)
    came = ran.returncode, ran.stderr
    return wrong + [f"closed: {came}"] * (came != (3, "name: output: it is closed, expected one that can be written to\n"))


# ---- older versions of Python

STARTS = ("rim-manifest", "rim-match", "rim-compare", "rim-page", "rim-verify", "rim-endorse", "scripts/vmm/measure.py")
OLD = "import runpy, sys; sys.version_info = (3, 8, 2, 'final', 0); sys.argv = sys.argv[1:]; runpy.run_path(sys.argv[0], run_name='__main__')"


def versions() -> list[str]:
    """An older Python reads each file that is started, and says which version it is to be."""
    wrong = []
    for name in STARTS:
        path = os.path.join(TOP, name)
        with open(path, encoding="utf-8") as file:
            ast.parse(file.read(), name, feature_version=(3, 6))
        ran = subprocess.run([sys.executable, "-c", OLD, path, "--help"], stdout=subprocess.PIPE, stderr=subprocess.PIPE, text=True, check=False)
        said = f"{os.path.basename(name).removesuffix('.py')}: Python 3.8 runs it ({sys.executable}), expected Python 3.9 or later\n"
        wrong += [f"{name}: {ran}"] * ((ran.returncode, ran.stdout, ran.stderr) != (3, "", said))
    return wrong


def oldest_python() -> str | None:
    """A Python 3.9 that starts, of the PATH or of pyenv's; None where there is none."""
    root = os.environ.get("PYENV_ROOT") or os.path.expanduser("~/.pyenv")
    some = [shutil.which("python3.9"), *sorted(glob.glob(os.path.join(root, "versions", "3.9.*", "bin", "python3.9")))]
    return next((path for path in some if path and not subprocess.run([path, "-c", ""], stderr=subprocess.DEVNULL, check=False).returncode), None)


def tomli() -> str | None:
    """The folder of the module tomli: by itself, or the copy that pip has of it."""
    for name in ("tomli", "pip._vendor.tomli"):
        try:
            found = importlib.util.find_spec(name)
        except ModuleNotFoundError:
            continue
        if found and found.submodule_search_locations:
            return found.submodule_search_locations[0]
    return None


def oldest(program: str) -> list[str]:
    """The oldest Python that the scripts take reads each module. Where it is here it takes a guest's words, and measures, compares and looks for
    what came of them; without tomli it says what is missing."""
    for path in glob.glob(os.path.join(SCRIPTS, "*", "*.py")):
        with open(path, encoding="utf-8") as file:
            ast.parse(file.read(), path, feature_version=(3, 9))
    python, reader = oldest_python(), tomli()
    if python is None or reader is None:
        print("sharing.py: there is no Python 3.9, or no tomli: the scripts are not started by it")
        return []
    with Folder() as here:
        for path, leads in (("bin/python3", python), ("has/tomli", reader)):
            os.makedirs(os.path.join(here.path, os.path.dirname(path)))
            os.symlink(leads, os.path.join(here.path, path))
        own = os.environ | {"PATH": f"{here.path}/bin:{os.environ['PATH']}", "RIM": program}

        def said(name: str, *words: str, folder: str = "out", modules: str = "has") -> tuple[int, str]:
            ran = subprocess.run([os.path.join(TOP, name), *words], cwd=os.path.join(here.path, folder), stdout=subprocess.PIPE, stderr=subprocess.STDOUT,
                                 text=True, check=False, env=own | {"PYTHONPATH": os.path.join(here.path, modules)})
            return ran.returncode, ran.stdout

        bare = said("rim-manifest", *WITH_TREE, folder="", modules="none")
        wrong = [f"without tomli: {bare}"] * ("Python 3.9 reads no TOML, expected the module tomli beside it" not in bare[1])
        made = said("rim-manifest", *WITH_TREE, folder="")
        measured = said(os.path.join(here.path, "out", "measure"))
        here.put("out/kept", said(os.path.join(here.path, "out", "measure"), "--json")[1].encode())
        name, _, value = measured[1].splitlines()[1].split(" ")
        found = said("rim-match", "manifest.toml", name, value)
        wrong += [f"rim-match: {found}"] * (found != (0, f'launch "{name}" has the value as it is\n'))
        others = [said("rim-compare", "kept", "manifest.toml"), said("rim-page", "--before", "kept", "--out", "page.html", "manifest.toml"),
                  said("rim-verify", "--help"), said("rim-endorse", "--help")]
        return wrong + [f"{came}" for came in (made, measured, *others) if came[0]]


# ---- what rim says of files


def node(name: bytes, children: list[bytes]) -> bytes:
    """A node of a devicetree without properties."""
    return b"\0\0\0\1" + name + bytes(4 - len(name) % 4) + b"".join(children) + b"\0\0\0\2"


def devicetree(children: list[bytes]) -> bytes:
    structure = node(b"", children) + b"\0\0\0\x09"
    size = 56 + len(structure)
    return struct.pack(">10I", 0xD00DFEED, size, 56, size, 40, 17, 16, 0, 0, len(structure)) + bytes(16) + structure


def nested(length: int, leaves: int) -> bytes:
    """Nodes with long names in one another, and many in the last one: a text of many times their size."""
    children = [node(b"a", [])] * leaves
    for _ in range(60):
        children = [node(b"n" * length, children)]
    return devicetree(children)


CPUS = {"cpus": {"#address-cells": b"\0\0\0\2", "b": b""}}
TOO_LARGE = ": it is too large to be shown by rim fdt, expected at most 33554432 bytes of text"
TREES = [(nested(16_000, 60_000), TOO_LARGE), (nested(100, 10_000), TOO_LARGE), (devicetree([node(b"a", [])] * 170_000), ""),
         (bytes(10), ": dtb-short, expected a flattened devicetree that rim fdt shows"),
         (tree([(0, 1)], deep=deep(70)), ": dtb-too-deep, expected a flattened devicetree that rim fdt shows")]


def images(program: str) -> list[str]:
    rim, wrong = Rim(program), []
    with tempfile.TemporaryDirectory() as here:
        path = os.path.join(here, "-file")
        for data, expected in ((image(0x300000, 0x1000), Image(0x1000, 0x300000, 0x1000, 0x300000)), (b"none", None),
                               (image(0, 0x1000, 9000), Image(0x1000, 0, 0x80000, 9000)), (bytes(100), None)):
            files.write(path, data)
            wrong += [f"{data[:20]!r}: {image_of(rim, path)}"] * (image_of(rim, path) != expected)
    said = fault_of(lambda: image_of(rim, "/dev/zero"))
    wrong += [said] * (said != "/dev/zero: it is a device, expected a file")
    said = fault_of(lambda: image_of(Rim("/bin/echo"), __file__))
    return wrong + [said] * ("rim image has not said what it is" not in said)


def trees(program: str) -> list[str]:
    rim, wrong = Rim(program), []
    with tempfile.TemporaryDirectory() as here:
        path = os.path.join(here, "tree")
        files.write(path, tree([(1 << 30, 1 << 31)], "quiet", **CPUS))
        found = tree_of(rim, path)
        cpus, names = found.root.child("cpus"), [each.name for each in found.root.children]
        came = (found.total, names[:3], found.root.child("chosen").text("bootargs"), cpus.properties, cpus.cells("#address-cells", 1),
                [each.name for each in found.root.walk()])
        expected = 1 << 20, ["chosen", "memory@40000000", "cpus"], "quiet", CPUS["cpus"], 2, ["", *names]
        wrong += [f"{came}, expected {expected}"] * (came != expected)
        for data, fault in TREES:
            files.write(path, data)
            said = fault_of(lambda: tree_of(rim, path, "the devicetree"))
            wrong += [f"{said}, expected {fault}"] * (said != (f"the devicetree{fault}" if fault else "no fault"))
    said = fault_of(lambda: tree_of(Rim("/bin/echo"), __file__))
    return wrong + [said] * ("rim fdt has shown no tree" not in said)


def run_all() -> int:
    program = program_of(sys.argv[1:])
    looks = {look.__name__: look for look in (shown_texts, read_files, copied_files, put_files, put_file, no_files, read_data, run_programs, stopped, starting, ends, versions)}
    looks |= {look.__name__: partial(look, program) for look in (images, trees, oldest)}
    return told([(name, look()) for name, look in looks.items()])


if __name__ == "__main__":
    sys.exit(run_all())
