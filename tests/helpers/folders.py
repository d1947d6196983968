"""A folder with files, in which a script is started."""
import contextlib
import io
import os
import subprocess
import tempfile
import tomllib

from vmm.main import main as rim_manifest

from . import SECONDS, TOP
from .guests import FILES, START


class Folder:
    """A fresh folder with files, in which rim-manifest is started."""

    def __init__(self, files: dict[str, bytes] | None = None):
        self.made = tempfile.TemporaryDirectory()
        self.path = self.made.name
        for name, data in (FILES | (files or {})).items():
            self.put(name, data)

    def put(self, name: str, data: bytes, is_program=False):
        path = os.path.join(self.path, name)
        os.makedirs(os.path.dirname(path), exist_ok=True)
        with open(path, "wb") as file:
            file.write(data)
        if is_program:
            os.chmod(path, 0o755)

    def run(self, *words: str, start=START, **environment):
        ran = subprocess.run([start, *words], cwd=self.path, capture_output=True, timeout=SECONDS, check=False, stdin=subprocess.DEVNULL,
                             env=os.environ | environment)
        return ran.returncode, ran.stdout.decode(), ran.stderr.decode()

    def run_here(self, *words: str):
        """The same in this process, where nothing else may run."""
        out, said = io.StringIO(), io.StringIO()
        os.chdir(self.path)
        with contextlib.redirect_stdout(out), contextlib.redirect_stderr(said):
            status = rim_manifest(list(words))
        os.chdir(TOP)
        return status, out.getvalue(), said.getvalue()

    def names(self) -> set[str]:
        return set(os.listdir(self.path))

    def read(self, name: str) -> bytes:
        with open(os.path.join(self.path, name), "rb") as file:
            return file.read()

    def toml(self, name="out/manifest.toml") -> dict:
        return tomllib.loads(self.read(name).decode())

    def __enter__(self):
        return self

    def __exit__(self, *_):
        self.made.cleanup()
