"""--force: what it replaces, what it keeps, where it refuses, and what a stop at each step leaves."""
import hashlib
import json
import os
import sys

from helpers import MIB, SCRIPTS
from helpers.files import tree
from helpers.folders import Folder
from helpers.guests import FILES, LOW, OTHER_IMAGE, WITH_INITRD, WITH_TREE, replaced
from helpers.tries import differs

from .written import files_of, read_by

MADE = ["dtb-1", "kernel", "manifest.toml", "measure", "record.json", "stub-1"]
WITH_STUB = [*WITH_TREE, "--stub", "measured"]


def forced(program: str):
    """--force replaces what rim-manifest has written, also where the kernel is among it, and keeps the rest, also where DIR is a link."""
    with Folder() as folder:
        folder.run(*WITH_STUB)
        for name in ("out/values.json", "out/history/a"):
            folder.put(name, b"mine")
        before = folder.names()
        status, _, said = folder.run(*replaced(WITH_STUB, "-kernel", "out/kernel"), "--force")
        wrong = differs("status", (status, said), (0, "")) + differs("names", folder.names(), before)
        wrong += differs("files", sorted(os.listdir(os.path.join(folder.path, "out"))), sorted([*MADE, "history", "values.json"]))
        wrong += differs("kept", (folder.read("out/values.json"), folder.read("out/history/a")), (b"mine", b"mine"))
        kept = folder.read("out/manifest.toml")
        status, _, _ = folder.run(*WITH_TREE, "--force", "-append", "other")
        wrong += differs("a fault", (status, folder.read("out/manifest.toml"), folder.names()), (3, kept, before))
        folder.put("with", tree([(LOW, LOW + 256 * MIB)], initrd=WITH_INITRD))
        os.rename(os.path.join(folder.path, "out"), os.path.join(folder.path, "there"))
        os.symlink("there", os.path.join(folder.path, "out"))
        status, _, said = folder.run(*replaced(WITH_TREE, "--dtb", "with"), "-initrd", "initrd", "--stub", "none", "--force")
        wrong += differs("a link", (status, said, os.path.islink(os.path.join(folder.path, "out"))), (0, "", True))
        wrong += differs("files that are gone", sorted(os.listdir(os.path.join(folder.path, "there"))), sorted(
            ["dtb-1", "history", "initrd", "kernel", "manifest.toml", "measure", "record.json", "values.json"]))
        return wrong + read_by(program, folder, count=1)


def spoil(what: str, folder: Folder):
    """Changes something in a folder that rim-manifest has made."""
    path = os.path.join(folder.path, "out")
    record = json.loads(folder.read("out/record.json"))
    if what in ("a file", "a folder", "a link"):
        os.rename(os.path.join(path, "kernel"), os.path.join(folder.path, "mine"))
        if what == "a file":
            folder.put("out/kernel", b"mine")
        elif what == "a folder":
            folder.put("out/kernel/a", b"mine")
        else:
            os.symlink("../mine", os.path.join(path, "kernel"))
    elif what == "another file":
        folder.put("out/initrd", b"mine")
    elif what == "a record of version 1":
        del record["files"]
        folder.put("out/record.json", json.dumps(record | {"rim_manifest_record": 1}).encode())
    elif what == "a record of another folder":
        record["files"]["../host.toml"] = hashlib.sha256(FILES["host.toml"]).hexdigest()
        folder.put("out/record.json", json.dumps(record).encode())
    else:
        folder.put("out/record.json", {"a deep record": b"[" * 100_000, "a record of nothing": b'{"rim_manifest_record":2}'}[what])


SPOILT = [("a file", "out: kernel: not as rim-manifest has made it"), ("a folder", "out: kernel: not as rim-manifest has made it"),
          ("a link", "out: kernel: not as rim-manifest has made it"), ("another file", "out: initrd: rim-manifest has not made it"),
          ("a record of version 1", "out/record.json: version 1, which does not say what was made, expected version 2: move the folder away"),
          ("a record of another folder", "out/record.json: ../host.toml is no file of the folder"),
          ("a deep record", "out/record.json: it is no JSON that is read here (values too deep in one another)"),
          ("a record of nothing", "out/record.json: it does not say what was made")]


def not_forced(_program: str):
    """--force replaces nothing that rim-manifest has not made, or that was changed since: it names it, and all is as before."""
    wrong = []
    for what, why in SPOILT:
        with Folder({"with": tree([(LOW, LOW + 256 * MIB)], initrd=WITH_INITRD)}) as folder:
            folder.run(*WITH_TREE)
            spoil(what, folder)
            before, names = files_of(folder), folder.names()
            status, out, said = folder.run(*replaced(WITH_TREE, "--dtb", "with"), "-initrd", "initrd", "--force")
            wrong += differs(what, (status, out, why in said, said.count("\n")), (3, "", True, 1)) + ([] if why in said else [said])
            wrong += differs(f"{what}: files", (files_of(folder), folder.names()), (before, names))
    return wrong


def stopped_midway(program: str):
    """Wherever a run with --force is stopped, no manifest is beside files of another run, nothing of the user's is lost, and the next run
    with --force ends well. The stop is a kill before the Nth renaming or removal."""
    wrong = []
    with Folder() as folder:
        folder.run(*WITH_STUB)
        old = files_of(folder)
    for number in range(20):
        with Folder({"b": OTHER_IMAGE, "out/values.json": b"mine"} | {f"out/{name}": data for name, data in old.items()}) as folder:
            words = [*replaced(WITH_TREE, "-kernel", "b"), "--stub", "none", "--force"]
            status = folder.run("-c", KILLED, str(number), *words, start=sys.executable, PYTHONPATH=SCRIPTS)[0]
            has = files_of(folder)
            wrong += differs(f"{number}: mine", has.get("values.json"), b"mine")
            if "manifest.toml" in has:
                is_old = has["manifest.toml"] == old["manifest.toml"]
                wrong += differs(f"{number}: the kernel of the manifest", has.get("kernel"), FILES["Image"] if is_old else OTHER_IMAGE)
                wrong += differs(f"{number}: the stub of the manifest", "stub-1" in has, is_old)
            wrong += differs(f"{number}: the next run", folder.run(*words)[::2], (0, ""))
            wrong += differs(f"{number}: mine at last", folder.read("out/values.json"), b"mine")
            if not status:
                return wrong + read_by(program, folder, count=1)
    return [*wrong, "it is never done"]


# Runs rim-manifest, and kills itself before the Nth renaming or removal of a file.
KILLED = """
import os, signal, sys
left = int(sys.argv[1])
def counted(call):
    def counting(*words, **more):
        global left
        if left == 0:
            os.kill(os.getpid(), signal.SIGKILL)
        left -= 1
        return call(*words, **more)
    return counting
os.rename, os.remove = counted(os.rename), counted(os.remove)
from vmm.main import main
sys.exit(main(sys.argv[2:]))
"""
