#!/usr/bin/env python3
"""Has the program write its output to a file, by `-o`.

    tests/saving.py [PROGRAM]          by default the program that `rt ci` has built

- Each command that has the option writes the same bytes as to standard output, which stays empty, with the same status.
- A file that is there is replaced whole, and keeps its permissions; where a link leads to it, the link stays.
- A fault leaves the file as it was. So does a folder that is none, one that may not be written to, a file that may not, a full disk, and a
  file that grows past its limit; nothing is left beside it then.
- A pipe and a device get the bytes, and stay what they are.
- Two runs at a time leave one whole output.

The files are made here. The last line is 'N passed, M failed'.
"""
import os
import resource
import signal
import stat
import subprocess
import sys
import threading

from helpers import SECONDS
from helpers.folders import Folder
from helpers.tries import at_a_time, differs, program_of, told

TREE = bytes.fromhex("d00dfeed00000048000000380000004800000028000000110000001000000000000000000000001000000000000000000000000000000000"
                     "00000001000000000000000200000009")
MANIFEST = """rim_manifest = 1
file = [{ name = "t", path = "tree" }]
[[launch]]
name = "a"
algo = "sha256"
s2sz = 33
ram = [[0x40000000, 0x40200000]]
item = [{ name = "t", kind = "dtb", file = "t", at = 0x40000000 }]
[[launch]]
name = "b"
algo = "sha256"
s2sz = 33
pool_count = 4
"""
FILES = {"m.toml": MANIFEST.encode(), "tree": TREE, "bad.toml": b"rim_manifest = 1\nlunch = 1\n"}
COMMANDS = [
    (["measure", "m.toml"], 1), (["measure", "--json", "m.toml"], 1), (["audit", "m.toml"], 1), (["list", "m.toml", "a"], 0),
    (["list", "m.toml", "b"], 1), (["trace", "m.toml", "a"], 0), (["map", "m.toml", "a"], 0), (["map", "--json", "m.toml", "b"], 1),
    (["check", "m.toml"], 1), (["check", "--json", "m.toml"], 1), (["check", "bad.toml"], 3), (["dtb", "m.toml", "a"], 0),
]
REPORT = ["measure", "m.toml"]


class Here(Folder):
    """A folder with a manifest and a devicetree, in which the program is started."""

    def __init__(self, program: str):
        super().__init__(FILES)
        self.program = program
        self.there = self.names()

    def start(self, *words: str, **how) -> tuple[int, bytes, str]:
        ran = subprocess.run([self.program, *words], cwd=self.path, capture_output=True, timeout=SECONDS, check=False,
                             stdin=subprocess.DEVNULL, **how)
        return ran.returncode, ran.stdout, ran.stderr.decode()

    def report(self) -> bytes:
        return self.start(*REPORT)[1]

    def more(self) -> set[str]:
        """What is in the folder that was not."""
        return self.names() - self.there


def same(program: str, words: list[str], status: int) -> list[str]:
    """The file has what standard output gets without it: by either name of the option, before the operands or after them."""
    with Here(program) as here:
        shown = here.start(*words)
        wrong = differs("without a file", (shown[0], shown[2]), (status, "")) + ([] if shown[1] else ["nothing is shown"])
        command, *rest = words
        for said in ([*words, "-o", "out"], [command, "--output=out", *rest], [command, "-oout", *rest]):
            wrong += differs(" ".join(said), here.start(*said), (status, b"", ""))
            wrong += differs("the file", here.read("out"), shown[1]) + differs("files", here.more(), {"out"})
            os.remove(os.path.join(here.path, "out"))
        return wrong


def nothing_found(program: str) -> list[str]:
    """A check that finds nothing makes an empty file."""
    with Here(program) as here:
        here.put("good.toml", b"rim_manifest = 1\n[[launch]]\nname = 'a'\nalgo = 'sha256'\ns2sz = 33\n")
        wrong = differs("a check", here.start("check", "--quiet", "good.toml", "-o", "out"), (0, b"", ""))
        return wrong + differs("the file", here.read("out"), b"")


def replaced(program: str) -> list[str]:
    """A longer file is replaced whole, with its permissions, by a new one of the same name."""
    with Here(program) as here:
        path = os.path.join(here.path, "out")
        here.put("out", b"x" * 100_000)
        os.chmod(path, 0o640)
        before = os.stat(path)
        with open(path, "rb") as held:
            wrong = differs("a run", here.start(*REPORT, "-o", "out"), (1, b"", ""))
            wrong += differs("who has the old file open", held.read(), b"x" * 100_000)
        after = os.stat(path)
        wrong += differs("the file", here.read("out"), here.report()) + differs("its mode", stat.S_IMODE(after.st_mode), 0o640)
        return wrong + differs("it is another", after.st_ino != before.st_ino, True) + differs("files", here.more(), {"out"})


def new_mode(program: str) -> list[str]:
    """A new file has the permissions that the mask leaves."""
    with Here(program) as here:
        wrong = differs("a run", here.start(*REPORT, "-o", "out", umask=0o027), (1, b"", ""))
        return wrong + differs("its mode", stat.S_IMODE(os.stat(os.path.join(here.path, "out")).st_mode), 0o640)


def linked(program: str) -> list[str]:
    """Where a link leads to a file in another folder, that file is replaced, or made."""
    with Here(program) as here:
        here.put("kept/out", b"old")
        os.symlink("kept/out", os.path.join(here.path, "link"))
        wrong = differs("a run", here.start(*REPORT, "-o", "link"), (1, b"", ""))
        wrong += differs("the link", os.readlink(os.path.join(here.path, "link")), "kept/out")
        wrong += differs("the file", here.read("kept/out"), here.report()) + differs("beside it", os.listdir(os.path.join(here.path, "kept")), ["out"])
        os.symlink("kept/new", os.path.join(here.path, "early"))
        wrong += differs("a run where a link leads to nothing yet", here.start(*REPORT, "-o", "early"), (1, b"", ""))
        wrong += differs("that link", os.readlink(os.path.join(here.path, "early")), "kept/new") + differs("its file", here.read("kept/new"), here.report())
        os.symlink("none/out", os.path.join(here.path, "lost"))
        status, output, _ = here.start(*REPORT, "-o", "lost")
        return wrong + differs("a link into no folder", (status, output), (3, b""))


def in_folders(program: str) -> list[str]:
    """A path in another folder, an absolute one, and names with odd letters."""
    with Here(program) as here:
        os.mkdir(os.path.join(here.path, "deep"))
        wrong, report = [], here.report()
        for path in ("deep/out", "./out", os.path.join(here.path, "whole"), "a b\n\x1b", "-", "é" * 120, "n" * 255):
            wrong += differs(path, here.start(*REPORT, f"--output={path}"), (1, b"", "")) + differs(path, here.read(path), report)
        return wrong


FAULTS = [
    ("bad.toml", "out", "rim: unknown-key\n"), ("gone.toml", "out", "rim: file-unreadable\n"), ("m.toml", "gone/out", "rim: output-failed\n"),
    ("m.toml", "", "rim: output-failed\n"), ("m.toml", ".", "rim: output-failed\n"), ("m.toml", "tree/out", "rim: output-failed\n"),
    ("m.toml", "n" * 256, "rim: output-failed\n"), ("m.toml", "/dev/full", "rim: output-failed\n"), ("m.toml", "new/", "rim: output-failed\n"),
]


def fault(program: str, manifest: str, output: str, said: str) -> list[str]:
    """The file is as it was, and nothing is beside it."""
    with Here(program) as here:
        here.put("out", b"old")
        wrong = differs("a run", here.start("measure", manifest, "-o", output), (3, b"", said))
        return wrong + differs("the file", here.read("out"), b"old") + differs("files", here.more(), {"out"})


WHY = [
    ("gone/out", "  gone/out: there is no such folder"), (".", "  .: it is a directory"), ("/dev/full", "  /dev/full: no storage space"),
]


def explained(program: str, output: str, why: str) -> list[str]:
    with Here(program) as here:
        return differs("a run", here.start(*REPORT, "--explain", "-o", output)[2].splitlines()[-1:], [why])


def limited(program: str) -> list[str]:
    """A file that would grow past its limit is as it was, whether the system refuses the write or ends the run by a signal."""
    def limit():
        resource.setrlimit(resource.RLIMIT_FSIZE, (64, 64))
    with Here(program) as here:
        here.put("out", b"old")
        status = here.start(*REPORT, "-o", "out", preexec_fn=limit)[0]
        wrong = [] if status in (3, -signal.SIGXFSZ) else [f"status {status}"]
        return wrong + differs("the file", here.read("out"), b"old")


def not_allowed(program: str) -> list[str]:
    """Who may not write to a file or a folder, does not; the superuser may, so another user is tried then, with a copy of the program."""
    who = {} if os.geteuid() else {"user": 65534, "group": 65534, "extra_groups": []}
    with Here(program) as here:
        here.program = os.path.join(here.path, "rim")
        # by another program, since this one starts others meanwhile, which would have the copy open
        subprocess.run(["cp", "--", program, here.program], check=True)
        for name, mode in (*((name, 0o644) for name in FILES), ("rim", 0o755)):
            os.chmod(os.path.join(here.path, name), mode)
        for name, file_mode, folder_mode in (("shut/out", 0o666, 0o555), ("out", 0o444, 0o777)):
            here.put(name, b"old")
            os.chmod(os.path.join(here.path, name), file_mode)
            os.chmod(os.path.dirname(os.path.join(here.path, name)), folder_mode)
        wrong = []
        for output in ("shut/out", "shut/new", "out"):
            wrong += differs(output, here.start(*REPORT, "-o", output, **who), (3, b"", "rim: output-failed\n"))
        left = here.read("shut/out"), here.read("out"), os.listdir(os.path.join(here.path, "shut"))
        os.chmod(os.path.join(here.path, "shut"), 0o755)
        return wrong + differs("files", left, (b"old", b"old", ["out"]))


def piped(program: str) -> list[str]:
    """A named pipe and a device get the bytes."""
    with Here(program) as here:
        path = os.path.join(here.path, "pipe")
        os.mkfifo(path)
        got = []

        def read():
            with open(path, "rb") as file:
                got.append(file.read())
        reader = threading.Thread(target=read)
        reader.start()
        wrong = differs("a pipe", here.start(*REPORT, "-o", "pipe"), (1, b"", ""))
        reader.join(SECONDS)
        wrong += differs("what it got", got, [here.report()]) + differs("it is a pipe", stat.S_ISFIFO(os.stat(path).st_mode), True)
        wrong += differs("a device", here.start(*REPORT, "-o", "/dev/null"), (1, b"", ""))
        wrong += differs("it is a device", stat.S_ISCHR(os.stat("/dev/null").st_mode), True)
        return wrong + differs("standard output by its path", here.start(*REPORT, "-o", "/dev/stdout"), (1, here.report(), ""))


def beside(program: str) -> list[str]:
    """Runs at the same time leave one whole report."""
    with Here(program) as here:
        report = here.report()
        runs = [subprocess.Popen([program, *REPORT, "-o", "out"], cwd=here.path) for _ in range(16)]
        wrong = differs("statuses", [run.wait(SECONDS) for run in runs], [1] * 16)
        return wrong + differs("the file", here.read("out"), report) + differs("files", here.more(), {"out"})


def all_tries(program: str):
    for words, status in COMMANDS:
        yield " ".join(words), lambda words=words, status=status: same(program, words, status)
    for look in (nothing_found, replaced, new_mode, linked, in_folders, limited, not_allowed, piped, beside):
        yield look.__name__, lambda look=look: look(program)
    for manifest, output, said in FAULTS:
        yield f"{manifest} to {output}", lambda manifest=manifest, output=output, said=said: fault(program, manifest, output, said)
    for output, why in WHY:
        yield f"why {output}", lambda output=output, why=why: explained(program, output, why)


def run_all() -> int:
    program = program_of(sys.argv[1:])
    resource.setrlimit(resource.RLIMIT_CORE, (0, 0))
    return told(at_a_time(all_tries(program)))


if __name__ == "__main__":
    sys.exit(run_all())
