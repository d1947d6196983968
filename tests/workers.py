#!/usr/bin/env python3
"""Measures releases by one worker and by more: more workers give the same report, take at most 1.4 times the processors' time of one, and are no
more than there are processors. Launches that have only little in common take no longer than those that have nothing, and RECs that they share are
hashed once. Files that are read at once are those that are read one after another, and so is the fault of the first that cannot be read.

    tests/workers.py [PROGRAM]      by default the program that `rt ci` has built

The last line is 'N passed, M failed' over the releases and the numbers of processors.
"""
import os
import pathlib
import random
import subprocess
import sys
import threading
import time
from collections.abc import Callable, Iterator

from helpers import MIB, PATIENCE, SECONDS, manifests
from helpers.folders import Folder
from helpers.manifests import manifest
from helpers.tries import at_a_time, differs, program_of, told

ENTRY, RUN, BASE = 1 << 12, 1 << 21, 0x4000_0000
WORKERS = ("1", "2", "3", "4", "8", "64")
# Times are compared where launches are more than these.
MOST = 4


def launch(name: str, regions: list[tuple[int, int]], algo="sha256", more="") -> str:
    """A launch with these regions of RAM, whose entries have 4 KiB: where each begins, and how many entries it has."""
    return manifests.launch(name, more, algo=algo, s2sz=40, block_level=3, ram=[[base, base + entries * ENTRY] for base, entries in regions])


def apart(count: int, entries: int, algos=("sha256",)) -> str:
    """Launches that have nothing in common."""
    return "".join(launch(f"l{n}", [(BASE + (n << 30), entries)], algos[n % len(algos)]) for n in range(count))


def begun_alike(bases: int, followers: int, entries: int) -> str:
    """Launches from which others go on, each at a place of its own near the end."""
    text = ""
    for base in range(bases):
        at = BASE + (base << 32)
        text += launch(f"b{base}", [(at, entries)])
        text += "".join(launch(f"b{base}-{n}", [(at, entries - (n + 1) * 512), (at + (1 << 31), 1000 + n)]) for n in range(followers))
    return text


def tails() -> str:
    """Launches of different lengths."""
    return "".join(launch(f"t{n}", [(BASE + (n << 30), 1024 * (n + 1))]) for n in range(24))


def sizes() -> str:
    """Launches with RAM of different sizes, and as much of it elsewhere."""
    return "".join(launch(f"s{n}", [(BASE, 512 * (n + 1)), (BASE + (1 << 36), 32_768)]) for n in range(8))


def recs() -> str:
    """Launches that differ in their processors alone, with an item of their own."""
    processors = "rec = [" + ", ".join(["{}"] * 200) + "]\n"
    return "".join(launch(f"r{n}", [(BASE + (n << 30), 4096)], more=processors) for n in range(12))


RELEASES = {
    "launches that share nothing": lambda: apart(24, 16_384),
    "nine launches": lambda: apart(9, 30_720),
    "both algorithms": lambda: apart(24, 12_288, ("sha256", "sha512")),
    "fewer launches than workers": lambda: apart(3, 16_384),
    "launches that begin alike": lambda: begun_alike(8, 3, 16_384),
    "one that begins them all": lambda: begun_alike(1, 20, 65_536),
    "different lengths": tails,
    "RAM of different sizes": sizes,
    "launches with processors": recs,
}


# ---- reports and times


def run(program: str, folder: Folder, workers: str) -> tuple[float, bytes]:
    """The processors' time that a run takes, in seconds, and what it prints."""
    ran = subprocess.Popen([program, "measure", "--workers", workers, "manifest.toml"], cwd=folder.path, stdout=subprocess.PIPE, stdin=subprocess.DEVNULL)
    printed = ran.stdout.read()
    _, status, used = os.wait4(ran.pid, 0)
    ran.returncode = os.waitstatus_to_exitcode(status)
    return used.ru_utime + used.ru_stime, printed if ran.returncode == 0 else b"status %d" % ran.returncode


def more_time(program: str, folder: Folder) -> list[str]:
    """Which numbers of workers take more of the processors' time than one, of the least of some runs."""
    least = {workers: min(run(program, folder, workers)[0] for _ in range(3)) for workers in ("1", "4", "64")}
    return [f"{workers} workers take {least[workers]:.2f} s, and one {least['1']:.2f} s"
            for workers in least if least[workers] > 1.4 * least["1"] + 0.03 * PATIENCE]


def same(program: str, text: str) -> list[str]:
    """More workers give the same report, and take little more time where there are more launches."""
    folder = Folder({"manifest.toml": manifest(text).encode()})
    alone = run(program, folder, "1")[1]
    wrong = [] if alone.startswith(b"rim-report 1\n") and b"refused" not in alone else [f"by one worker: {alone[:200]!r}"]
    wrong += [line for workers in WORKERS for line in differs(f"by {workers}", run(program, folder, workers)[1], alone)]
    if wrong or text.count("[[launch]]") <= MOST:
        return wrong
    # a busy machine may hold up one of the runs
    return more_time(program, folder) and more_time(program, folder)


def least_time(program: str, text: str) -> float:
    """The least processors' time of some runs by one worker, in seconds."""
    folder = Folder({"manifest.toml": manifest(text).encode()})
    return min(run(program, folder, "1")[0] for _ in range(3))


def little_in_common(program: str) -> list[str]:
    """Launches whose first blocks of RAM alone are the same go side by side, as those do that have nothing in common."""
    for _ in range(2):
        alike, other = least_time(program, sizes()), least_time(program, apart(8, 36_352))
        if alike <= 1.4 * other + 0.03 * PATIENCE:
            return []
    return [f"launches with RAM of different sizes take {alike:.2f} s, and those that share nothing {other:.2f} s"]


def processors_once(program: str) -> list[str]:
    """Launches whose realms have two RECs, of contents that are the same in each launch, take little longer than those with one."""
    def many(recs: str) -> str:
        return "".join(f'[[launch]]\nname = "l{n}"\nalgo = "sha256"\ns2sz = 40\nrpv = "{n:0128x}"\nrec = [{recs}]\n' for n in range(1000))

    for _ in range(2):
        two, one = least_time(program, many("{ pc = 4096 }, {}")), least_time(program, many("{ pc = 4096 }"))
        if two <= 1.4 * one + 0.03 * PATIENCE:
            return []
    return [f"launches with two RECs take {two:.2f} s, and those with one {one:.2f} s"]


# ---- files that are read at once

# What is at a path: a file of this many bytes, nothing, a folder, or a pipe into which nobody writes.
Gone, Shut, Idle = "gone", "shut", "idle"
FILES = {
    "large and small ones": [2 * MIB, 3, 5 * MIB, MIB - 1, MIB, 0, 3 * MIB, 2 * MIB],
    "more than there are workers": [MIB + n for n in range(12)],
}
# The files of a manifest, and the fault of a run on it. What is after the first that cannot be read is not waited for.
UNREAD = {
    "the first": ([Gone, 2 * MIB], "file-unreadable"),
    "the last": ([2 * MIB, 3 * MIB, Gone], "file-unreadable"),
    "after one that is too large": ([2 * MIB, 256 * MIB + 1, Idle], "file-too-large"),
    "before one that is too large": ([2 * MIB, Gone, 256 * MIB + 1], "file-unreadable"),
    "a folder": ([2 * MIB, Shut, Idle], "file-unreadable"),
}


def manifest_of(count: int) -> str:
    """A launch for each of this many files, with that file in it."""
    files = "".join(f'[[file]]\nname = "f{n}"\npath = "f{n}"\n' for n in range(count))
    return files + "".join(launch(f"l{n}", [(BASE, 8192)], more=f'item = [{{ name = "i", kind = "raw", file = "f{n}", at = 0x{BASE:x} }}]\n') for n in range(count))


def with_files(folder: Folder, each: list) -> None:
    """Makes the files of a manifest, and the manifest."""
    for number, what in enumerate(each):
        path = os.path.join(folder.path, f"f{number}")
        if what == Shut:
            os.mkdir(path)
        elif what == Idle:
            os.mkfifo(path)
        elif what != Gone and what > 8 * MIB:
            with open(path, "wb") as file:
                file.truncate(what)
        elif what != Gone:
            folder.put(f"f{number}", random.Random(number).randbytes(what))
    folder.put("manifest.toml", manifest(manifest_of(len(each))).encode())


def read_alike(program: str, sizes_of_files: list[int], pipe: int | None = None) -> list[str]:
    """More workers give the same report of these files, of which one may come through a pipe."""
    with Folder() as folder:
        with_files(folder, sizes_of_files)
        alone = run(program, folder, "1")[1]
        if not alone.startswith(b"rim-report 1\n") or b"refused" in alone:
            return [f"by one worker: {alone[:200]!r}"]
        if pipe is None:
            return [line for workers in WORKERS for line in differs(f"by {workers}", run(program, folder, workers)[1], alone)]
        path, data, wrong = os.path.join(folder.path, f"f{pipe}"), folder.read(f"f{pipe}"), []
        os.remove(path)
        os.mkfifo(path)
        for workers in WORKERS:
            writer = threading.Thread(target=lambda: pathlib.Path(path).write_bytes(data))
            writer.start()
            wrong += differs(f"by {workers}", run(program, folder, workers)[1], alone)
            writer.join(SECONDS)
        return wrong


def first_unread(program: str, each: list, fault: str) -> list[str]:
    """A run on these files ends with that fault, by any number of workers."""
    with Folder() as folder:
        with_files(folder, each)
        wrong = []
        for workers in WORKERS:
            ran = subprocess.run([program, "measure", "--workers", workers, "manifest.toml"], cwd=folder.path, capture_output=True, text=True,
                                 stdin=subprocess.DEVNULL, timeout=SECONDS, check=False)
            wrong += differs(f"by {workers}", (ran.returncode, ran.stdout, ran.stderr.split("\n")[0]), (3, "", f"rim: {fault}"))
        return wrong


# ---- threads


def most_threads(program: str, processors: set[int]) -> int:
    """How many threads a run by 64 workers has at most, which may run on these processors."""
    folder = Folder({"manifest.toml": manifest(apart(16, 65_536)).encode()})
    ran = subprocess.Popen([program, "measure", "--workers", "64", "manifest.toml"], cwd=folder.path, stdout=subprocess.DEVNULL,
                           preexec_fn=lambda: os.sched_setaffinity(0, processors))
    most, end = 0, time.monotonic() + SECONDS
    while ran.poll() is None and time.monotonic() < end:
        try:
            most = max(most, len(os.listdir(f"/proc/{ran.pid}/task")))
        except OSError:
            break
        time.sleep(0.002)
    ran.wait()
    return most


def threads(program: str, count: int) -> list[str]:
    """No more workers are started than there are processors. That they are so many is said where an emulator has no threads of its own."""
    processors = sorted(os.sched_getaffinity(0))[:count]
    most = most_threads(program, set(processors))
    return differs(f"threads on {count}", most, len(processors))


def tries(program: str) -> Iterator[tuple[str, Callable[[], list[str]]]]:
    for name, made in RELEASES.items():
        yield name, lambda made=made: same(program, made())
    yield "little in common", lambda: little_in_common(program)
    yield "RECs that launches share", lambda: processors_once(program)
    for name, each in FILES.items():
        yield f"files: {name}", lambda each=each: read_alike(program, each)
    yield "files: one through a pipe", lambda: read_alike(program, [2 * MIB] * 5, pipe=2)
    for name, (each, why) in UNREAD.items():
        yield f"unread: {name}", lambda each=each, why=why: first_unread(program, each, why)
    if PATIENCE == 1:
        for count in (1, 2):
            yield f"{count} processors", lambda count=count: threads(program, count)


if __name__ == "__main__":
    sys.exit(told(at_a_time(tries(program_of(sys.argv[1:])), count=1)))
