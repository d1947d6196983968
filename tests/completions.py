#!/usr/bin/env python3
"""Asks the shells of this machine what they complete by the files that tools/package/completions.py writes.

    tests/completions.py

Each row is a line up to the cursor, as the words that the shell has there, and what is offered. Bash is asked without the package
bash-completion, and fish where it is installed. Zsh completes only in a terminal, so where it is installed it just reads its files.
The last line is 'N passed, M failed' over rows and files.
"""
import os
import pathlib
import shutil
import subprocess
import sys
import tempfile

from helpers.tries import told

TOOLS = pathlib.Path(__file__).resolve().parent.parent / "tools"
sys.path[:0] = [str(TOOLS / "package"), str(TOOLS / "checks")]
import completions
import man

SECONDS = 60
# Names of files, items and tables below a launch are none of launches, and a name with a dash in front would be an option.
MANIFEST = """\
rim_manifest = 2
file = [{ name = "inline", path = "Image" }]
[[file]]
name = "kernel"
path = "Image"
[[launch]]  # the first
name = "one-vcpu"
algo = "sha256"
ram = [
[0x40000000, 0x50000000],
]
item = [
    { name = "item", kind = "kernel", file = "kernel", at = 0x40200000 },
]
[[launch]]
algo = "sha512"
name="two_vcpus.b"   # without spaces
  [[launch.rec]]
  name = "table"
[[ launch ]]
name  =  'one-b'
# name = "comment"
[[launch]]
name = "-dash"
[[launch]]
name = "$(touch made)"
"""
COMMANDS = list(man.subcommands())
LAUNCHES = ["one-vcpu", "two_vcpus.b", "one-b"]
PATHS = object()  # paths are offered, by whatever way the shell has
ROWS = [
    (["rim", ""], COMMANDS),
    (["rim", "me"], ["measure"]),
    (["rim", "--ver"], ["--version"]),
    (["rim", "list", ""], PATHS),
    (["rim", "image", ""], PATHS),
    (["rim", "list", "m.toml", ""], LAUNCHES),
    (["rim", "trace", "m.toml", "one"], ["one-vcpu", "one-b"]),
    (["rim", "dtb", "--", "m.toml", "t"], ["two_vcpus.b"]),
    (["rim", "list", r"a\ folder/m\ x.toml", "two"], ["two_vcpus.b"]),
    (["rim", "list", "'a folder/m x.toml'", "two"], ["two_vcpus.b"]),
    (["rim", "list", "~/m.toml", "two"], ["two_vcpus.b"]),
    (["rim", "list", "none.toml", ""], []),
    (["rim", "list", "$(touch made)", ""], []),
    (["rim", "measure", "--j"], ["--json"]),
    (["rim", "check", "--q"], ["--quiet"]),
    (["rim", "measure", "m.toml", "--w"], ["--workers"]),
    (["rim", "measure", "--workers", ""], []),
    (["rim", "measure", "--workers", "4", ""], PATHS),
    (["rim", "audit", "m.toml", "--w"], []),
    (["rim", "audit", "m.toml", "-o", ""], PATHS),
    (["rim", "dtb", "--output", ""], PATHS),
    (["rim", "list", "m.toml", "one-b", "--e"], ["--explain"]),
    (["rim", "check", "--e"], []),
    (["rim-manifest", "q"], ["qemu"]),
    (["rim-manifest", "qemu", "--stub", ""], ["measured", "none"]),
    (["rim-manifest", "qemu", "--dtb", ""], PATHS),
    (["rim-manifest", "settle", ""], ["qemu", "kvmtool", "cloud-hypervisor"]),
    (["rim-manifest", "settle", "qemu", "--rim-"], ["--rim-file"]),
    (["rim-manifest", "settle", "qemu", "--mea"], []),
    (["rim-manifest", "settle", "qemu", "--out", ""], PATHS),
    (["rim-manifest", "qemu", "--for"], ["--force"]),
    (["rim-manifest", "qemu", "--li"], ["--line"]),
    (["rim-manifest", "kvmtool", "--each-k"], ["--each-kernel"]),
    (["rim-manifest", "qemu", "--line", ""], PATHS),
    (["rim-manifest", "qemu", "--smp", "1,2", "-kern"], ["-kernel"]),
    (["rim-manifest", "kvmtool", "--", ""], []),
    (["rim-match", ""], PATHS),
    (["rim-match", "m.toml", ""], LAUNCHES),
    (["rim-match", "--also", "x.toml", "m.toml", "two"], ["two_vcpus.b"]),
    (["rim-match", "m.toml", "one-b", ""], []),
    (["rim-match", "m.toml", "--ne"], ["--nearest"]),
    (["rim-match", "--nearest", ""], PATHS),
    (["rim-compare", ""], PATHS),
    (["rim-compare", "m.toml", ""], PATHS),
    (["rim-compare", "m.toml", "m.toml", "--ke"], ["--kept"]),
    (["rim-page", ""], PATHS),
    (["rim-page", "m.toml", ""], PATHS),
    (["rim-page", "--bef"], ["--before"]),
    (["rim-page", "m.toml", "--out", ""], PATHS),
    (["rim-verify", "m.toml", ""], PATHS),
    (["rim-verify", "--ver"], ["--version"]),
    (["rim-endorse", "--class-id", ""], []),
    (["rim-endorse", "--vendor", "a", "m.toml", ""], PATHS),
]
# Bash also has the words of a line parted where there is a `=` or a `:`.
BASH_ROWS = [
    (["rim-manifest", "qemu", "--stub", "=", "no"], ["none"]),
    (["rim-manifest", "qemu", "--stub", "="], ["measured", "none"]),
    (["rim", "list", "m:x", ":", "y.toml", "two"], []),
    (["rim", "list", "c", ":", "m.toml", "two"], ["two_vcpus.b"]),
    (["rim", "list", "m.toml", '"two'], ["two_vcpus.b"]),
]
# What is asked in a folder with a manifest: the line's words come as the words of the script.
BASH = """
. "$FILES/$1.bash"
compopt() { echo "paths $*"; }
COMP_WORDS=("$@") COMP_CWORD=$(($# - 1))
"_${1//-/_}"
[ "${#COMPREPLY[@]}" = 0 ] || printf '%s\\n' "${COMPREPLY[@]}"
"""
FISH = """
source $FILES/$argv[1].fish
complete -C (string join ' ' -- $argv)
"""


def environment(folder, files):
    return {"PATH": os.environ["PATH"], "HOME": str(folder), "FILES": str(files), "TERM": "dumb", "LC_ALL": "C.UTF-8"}


def output(command, folder, files):
    ran = subprocess.run(command, cwd=folder, env=environment(folder, files), stdin=subprocess.DEVNULL, capture_output=True, text=True,
                         timeout=SECONDS, check=False)
    return [*ran.stdout.splitlines(), *ran.stderr.splitlines()]


def is_path(offer):
    return offer.startswith("paths ") or "." in offer or "/" in offer


def is_right(lines, wanted):
    """Whether the offers are the wanted ones; of paths, whether there are some and nothing else."""
    if wanted is PATHS:
        return bool(lines) and all(map(is_path, lines))
    return sorted(lines) == sorted(wanted)


def ask_bash(words, folder, files):
    return output(["bash", "--norc", "--noprofile", "-c", BASH, "bash", *words], folder, files)


def ask_fish(words, folder, files):
    lines = output(["fish", "--no-config", "-c", FISH, *words], folder, files)
    return [line.split("\t")[0] for line in lines]


ASKED = {"bash": (ask_bash, ROWS + BASH_ROWS), "fish": (ask_fish, ROWS)}


def fill(folder):
    (folder / "a folder").mkdir()
    for name in ("m.toml", "c:m.toml", "a folder/m x.toml"):
        (folder / name).write_text(MANIFEST)


def try_shell(name, folder, files):
    """Yields each row with what a shell offers wrongly, and then whether the shell ran a word."""
    ask, rows = ASKED[name]
    for words, wanted in rows:
        lines = ask(words, folder, files)
        wrong = [] if is_right(lines, wanted) else [f"it offers {lines}, expected {'paths' if wanted is PATHS else wanted}"]
        yield f"{name}: {' '.join(words)!r}", wrong
    yield f"{name}: no word of a line or a manifest is run", ["one was"] * (folder / "made").exists()


def read_by_zsh(files):
    """Yields each file with the lines that zsh prints about it."""
    for name in sorted(path.name for path in files.glob("_*")):
        yield f"zsh: {name}", output(["zsh", "-f", "-n", name], files, files)


def outcomes():
    with tempfile.TemporaryDirectory() as top:
        files, folder = pathlib.Path(top) / "files", pathlib.Path(top) / "there"
        completions.write(files)
        folder.mkdir()
        fill(folder)
        for name in (*ASKED, "zsh"):
            if not shutil.which(name):
                print(f"completions.py: {name} is not installed: not asked")
                continue
            yield from try_shell(name, folder, files) if name in ASKED else read_by_zsh(files)


if __name__ == "__main__":
    sys.exit(told(outcomes()))
