"""What is around a run: a guest that runs beside a dump; programs that misbehave; signals; full disks; FIFOs."""
import os
import resource
import shutil
import signal
import socket
import subprocess
import time

from helpers import SECONDS
from helpers.folders import Folder
from helpers.guests import QEMU, STAND_IN, START, TREES, WITH_TREE, replaced, without
from helpers.processes import still_running
from helpers.tries import differs

from .options import OTHERS

# Programs that misbehave: a name, what one does once it is started for a dump, and what the line on standard error has.
BAD_PROGRAMS = [
    ("says much", "yes & sleep 0.1; yes", "it says more than 65536 bytes"),
    ("complains much", "yes >&2 & sleep 0.3; kill $!; exit 1", "has written no devicetree (status 1): y"),
    ("writes much", 'head -c 300000000 /dev/zero >"$path"', "the devicetree of launch 256M-smp1-Image-no-initrd-sha512: "),
    ("writes a FIFO", 'mkfifo "$path"', "the devicetree of launch 256M-smp1-Image-no-initrd-sha512: it is a FIFO, expected a devicetree"),
    ("writes a folder", 'mkdir "$path"', "the devicetree of launch 256M-smp1-Image-no-initrd-sha512: it is a folder"),
    ("says escapes", r"printf 'a\033[2Jb\n' >&2; exit 1", "(status 1): a\\x1b[2Jb"),
    ("names a copy", 'while [ "$1" != -kernel ]; do shift; done; echo "no $2 here" >&2; exit 1', "(status 1): no Image here\n"),
    ("says nothing", "exit 9", "has written no devicetree (status 9): it says nothing"),
    ("is killed", "kill -9 $$", "has written no devicetree (ended by SIGKILL): it says nothing"),
]
BAD_PROGRAM = r"""#!/bin/sh
[ "$1" = --version ] && echo "QEMU emulator version 10.0.2 (a stand-in)" && exit
path=${2#*dumpdtb=} path=${path%,dtb-randomness=off}
"""


def bad_programs(_program: str):
    """A program that misbehaves is one line and status 3, in little time, and nothing is left of it."""
    wrong = []
    for name, does, why in BAD_PROGRAMS:
        with Folder() as folder:
            folder.put("bad", (BAD_PROGRAM + does + "\n").encode(), is_program=True)
            before, begun = folder.names(), time.monotonic()
            status, _, said = folder.run(*QEMU, "--qemu", "./bad")
            wrong += differs(name, (status, why in said, said.count("\n"), len(said) < 2000), (3, True, 1, True))
            wrong += ([] if why in said else [said[:300]]) + differs(f"{name}: names", folder.names(), before)
            wrong += [f"{name}: it takes long"] * (time.monotonic() - begun > 20)
    return wrong


def signals(_program: str):
    """A signal ends a run at once, with all that it has started, and no folder is left."""
    wrong = []
    for number in (signal.SIGINT, signal.SIGTERM, signal.SIGHUP):
        with Folder() as folder:
            folder.put("bad", (BAD_PROGRAM + 'sleep 100 & echo $! >"$(dirname "$0")/child"; sleep 100\n').encode(), is_program=True)
            before = folder.names() | {"child"}
            ran = subprocess.Popen([START, *QEMU, "--qemu", "./bad"], cwd=folder.path, stdout=subprocess.PIPE, stderr=subprocess.STDOUT)
            until = time.monotonic() + 20
            while not (folder.names() >= before and folder.read("child").strip()) and time.monotonic() < until:
                time.sleep(0.02)
            begun = time.monotonic()
            ran.send_signal(number)
            said = ran.communicate(timeout=30)[0]
            wrong += differs(number.name, (ran.returncode, said, time.monotonic() - begun < 5), (128 + number, b"", True))
            wrong += differs(f"{number.name}: names", folder.names(), before)
            wrong += differs(f"{number.name}: children", still_running([int(folder.read("child"))]), [])
    return wrong


def full(_program: str):
    """Where a file cannot be written whole, its path is named, and no folder is left."""
    def limit():
        resource.setrlimit(resource.RLIMIT_FSIZE, (10_000, 10_000))

    with Folder() as folder:
        before = folder.names()
        ran = subprocess.run([START, *WITH_TREE], cwd=folder.path, capture_output=True, timeout=SECONDS, check=False, preexec_fn=limit)
        said = ran.stderr.decode()
        return differs("full", (ran.returncode, said, folder.names()),
                       (3, "rim-manifest: out/kernel: File too large, expected that it can be written\n", before))


def fifos(_program: str):
    """A FIFO is named, and not waited for."""
    wrong = []
    for words, what in ((replaced(WITH_TREE, "--dtb", "fifo"), "a devicetree"), (replaced(WITH_TREE, "--host", "fifo"), "the file of --host"),
                        (replaced(WITH_TREE, "-kernel", "fifo"), "an arm64 Image"), ([*WITH_TREE, "-initrd", "fifo"], "an initrd")):
        with Folder() as folder:
            os.mkfifo(os.path.join(folder.path, "fifo"))
            status, _, said = folder.run(*words)
            wrong += differs(what, (status, said), (3, f"rim-manifest: fifo: it is a FIFO, expected {what}\n"))
    return wrong


def unharmed(_program: str):
    """A guest's socket, log and disk are as before, whatever of its words comes after `--`: by the stand-in, and by QEMU where it is."""
    wrong = []
    for program in filter(None, ("./stand-in", shutil.which("qemu-system-aarch64"))):
        with Folder(TREES | {"live/log": b"log", "live/disk": bytes(4096), "live/ram": bytes(4096)}) as folder, \
                socket.socket(socket.AF_UNIX) as guest, socket.socket(socket.AF_UNIX) as asks:
            folder.put("stand-in", STAND_IN.encode(), is_program=True)
            live = os.path.join(folder.path, "live")
            guest.bind(os.path.join(live, "qmp"))
            guest.listen()
            before = {name: os.lstat(os.path.join(live, name)) for name in os.listdir(live)}
            others = [word for pair in zip(OTHERS, OTHERS[1:] + [""]) if "memfd" not in pair[0] + pair[1] for word in pair[:1]]
            words = replaced(QEMU, "-M", "virt,gic-version=3,memory-backend=r")
            status, _, said = folder.run(*words, "--qemu", program, "--", *without(others, "-numa"))
            wrong += differs(program, status, 0) + ([said] if status else [])
            after = {name: os.lstat(os.path.join(live, name)) for name in os.listdir(live)}
            seen = ("st_ino", "st_size", "st_mtime_ns", "st_mode")
            wrong += differs(program, {name: [getattr(each, key) for key in seen] for name, each in after.items()},
                             {name: [getattr(each, key) for key in seen] for name, each in before.items()})
            asks.connect(os.path.join(live, "qmp"))
    return wrong
