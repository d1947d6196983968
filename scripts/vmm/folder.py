"""The folder that is written: made in a folder of another name, and put in its place once it is whole.

A folder that is new gets its place by one rename. In one that rim-manifest has written before, `--force` replaces the files that its
record.json names, as far as they are as they were made, and nothing else. A stop in the middle leaves no manifest, and a record by which
the next run goes on: so no manifest is ever beside files of another run.
"""
import fcntl
import hashlib
import json
import os
import re
import shutil
import stat
import tempfile
from collections.abc import Iterator
from contextlib import contextmanager
from dataclasses import dataclass, field

from outside import files
from outside.faults import Fault
from outside.stopping import held
from outside.texts import visible

from .guest import Blob

RECORD, MEANWHILE = "record.json", ".record.json"
RECORD_VERSION = 2
MOST_RECORD = 64 << 20
# How many names a fault has.
MOST_NAMES = 5
# What measures: it is taken away first and put in its place last.
MEASURES = re.compile(r"manifest(-[0-9]+)?\.toml|measure")


@dataclass
class Made:
    """What a record says that rim-manifest has made: the digests that each file may have. A stop in the middle may leave two of some."""

    digests: dict[str, set[str]] = field(default_factory=dict)


class Folder:
    """What is written, in a folder of another name until all of it is made."""

    def __init__(self, out: str, is_forced: bool):
        self.name, self.out, self.is_forced = out, os.path.realpath(out), is_forced
        self.digests: dict[str, str] = {}
        self.replaces = exists(self.out, out)
        self.path = ""
        self.may_be_written()

    def begin(self):
        """Makes the folder of another name."""
        parent, name = os.path.split(self.out)
        parent, prefix = (self.out, ".rim-manifest.") if self.replaces else (parent, f".{name[:64]}.")
        with held(), files.faults_of(self.name, "a folder that can be made"):
            self.path = tempfile.mkdtemp(prefix=prefix, dir=parent)

    def shown(self, name: str = "") -> str:
        return visible(os.path.join(self.name, name) if name else self.name)

    def may_be_written(self):
        """Refuses a place that is not free, and a file that somebody has changed."""
        if not os.path.lexists(self.out):
            return
        if not self.is_forced:
            raise Fault(f"{self.shown()}: it exists, expected a new folder or --force")
        made = self.made()
        changed = [name for name, digests in made.digests.items() if is_another(os.path.join(self.out, name), digests)]
        if changed:
            raise Fault(f"{self.shown()}: {names_shown(changed)}: not as rim-manifest has made it, expected it unchanged: --force would "
                        "lose it, so move it away, or take another --out")
        others = [name for name in [*self.digests, RECORD] if name not in made.digests and is_in_the_way(self.out, name)]
        if others:
            raise Fault(f"{self.shown()}: {names_shown(others)}: rim-manifest has not made it, expected nothing of a name that it needs: "
                        "move it away, or take another --out")

    def made(self) -> Made:
        """What the record of the folder says."""
        path, what = os.path.join(self.out, RECORD), "one that rim-manifest has written"
        if not os.path.isdir(self.out) or not os.path.lexists(path):
            raise Fault(f"{self.shown()}: it is no folder that rim-manifest has written, expected such a one for --force")
        table = files.json_of(self.shown(RECORD), files.read(path, MOST_RECORD, what), what)
        version = table.get("rim_manifest_record") if isinstance(table, dict) else None
        if version == 1:
            raise Fault(f"{self.shown(RECORD)}: version 1, which does not say what was made, expected version {RECORD_VERSION}: move the "
                        "folder away, or take another --out")
        made = Made()
        for key in ("files", "before"):
            digests = table.get(key, {} if key == "before" else None) if isinstance(table, dict) else None
            if version != RECORD_VERSION or not isinstance(digests, dict):
                raise Fault(f"{self.shown(RECORD)}: it does not say what was made, expected {what}")
            for name, digest in digests.items():
                if not is_name(name) or not isinstance(digest, str):
                    raise Fault(f"{self.shown(RECORD)}: {visible(name)} is no file of the folder, expected {what}")
                made.digests.setdefault(name, set()).add(digest)
        return made

    def write(self, name: str, data: bytes, is_program: bool = False) -> str:
        """Writes a file, and gives its digest."""
        path = os.path.join(self.path, name)
        files.write(path, data, os.path.join(self.name, name))
        if is_program:
            os.chmod(path, 0o777 & ~mask())
        self.digests[name] = hashlib.sha256(data).hexdigest()
        return self.digests[name]

    def put(self, name: str, data: bytes, label: str, origin: str, path: str = "", source: str = "") -> Blob:
        """Writes a file; `origin` says where its bytes come from, and `source` is the digest of what was read at the path."""
        return Blob(name, path, origin, len(data), label, self.write(name, data), source)

    def text(self, name: str, text: str):
        self.write(name, text.encode())

    def script(self, name: str, source: str):
        self.write(name, files.read(source, 1 << 20), is_program=True)

    def record(self, name: str, about: dict[str, object]):
        """Writes the record: what was made, and of what."""
        table: dict[str, object] = {"rim_manifest_record": RECORD_VERSION} | about | {"files": self.digests}
        files.write(os.path.join(self.path, name), (json.dumps(table, indent=1) + "\n").encode(), os.path.join(self.name, RECORD))

    def finish(self, about: dict[str, object]):
        """Puts what was made in its place."""
        if self.replaces:
            with held(), locked(self.out, self.name):
                self.replace(about)
            return
        self.record(RECORD, about)
        os.chmod(self.path, 0o777 & ~mask())
        with held():
            self.may_be_written()
            with files.faults_of(self.name, "a folder that can be made"):
                os.rename(self.path, self.out)

    def replace(self, about: dict[str, object]):
        """Replaces the files of another run, one by one: the manifests go first and come last. Meanwhile the record has a member `before`,
        the digests that files have which are still those of the other run."""
        self.may_be_written()
        before = {name: digest for name in self.made().digests if (digest := digest_of(os.path.join(self.out, name)))}
        self.record(RECORD, about)
        self.record(MEANWHILE, {"before": before})
        with files.faults_of(self.name, "a folder that can be written; a next run with --force goes on"):
            self.move(MEANWHILE, RECORD)
            for name in sorted(before, key=lambda name: not MEASURES.fullmatch(name)):
                if MEASURES.fullmatch(name) or name not in self.digests:
                    os.remove(os.path.join(self.out, name))
            for name in sorted(self.digests, key=lambda name: bool(MEASURES.fullmatch(name))):
                self.move(name, name)
            self.move(RECORD, RECORD)

    def move(self, name: str, to: str):
        os.rename(os.path.join(self.path, name), os.path.join(self.out, to))

    def drop(self):
        if self.path:
            with held():
                shutil.rmtree(self.path, ignore_errors=True)


def exists(path: str, name: str) -> bool:
    """Whether something has a path. A path that nothing can have is a fault, before any work is done."""
    try:
        os.lstat(path)
    except FileNotFoundError:
        return False
    except OSError as why:
        raise Fault(f"{visible(name)}: {files.why_of(why)}, expected a folder that can be made") from None
    return True


def names_shown(names: list[str]) -> str:
    more = f" and {len(names) - MOST_NAMES} more" if len(names) > MOST_NAMES else ""
    return ", ".join(map(visible, sorted(names)[:MOST_NAMES])) + more


def is_name(name: str) -> bool:
    """Whether a name is that of a file of a folder itself."""
    return name not in ("", ".", "..", RECORD) and "/" not in name and "\0" not in name


def digest_of(path: str) -> str:
    """The digest of a file, or nothing where it is absent or no file."""
    try:
        is_file = stat.S_ISREG(os.lstat(path).st_mode)
    except OSError:
        return ""
    return files.digest(path) if is_file else ""


def is_another(path: str, digests: set[str]) -> bool:
    """Whether something has this path that is not what was made. What was taken away is not missed."""
    return os.path.lexists(path) and digest_of(path) not in digests


def is_in_the_way(folder: str, name: str) -> bool:
    path = os.path.join(folder, name)
    return os.path.lexists(path) and (name != RECORD or os.path.islink(path))


@contextmanager
def locked(path: str, name: str) -> Iterator[None]:
    """The steps of one run at a time in a folder."""
    with files.faults_of(name, "a folder that no other run replaces now"):
        folder = os.open(path, os.O_RDONLY | os.O_DIRECTORY | os.O_CLOEXEC)
        try:
            fcntl.flock(folder, fcntl.LOCK_EX | fcntl.LOCK_NB)
        except OSError:
            os.close(folder)
            raise
    try:
        yield
    finally:
        os.close(folder)


def mask() -> int:
    """The bits of permission that new files don't get."""
    bits = os.umask(0)
    os.umask(bits)
    return bits
