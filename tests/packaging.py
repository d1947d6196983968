#!/usr/bin/env python3
"""Has tools/package/deb.sh make the packages and the archives twice, of the last commit, and compares both.

    tests/packaging.py

The second time all that tar, gzip, xz, dpkg-deb and git take from the environment and from a user's configuration is set, new files may be
written by everybody, and the folder for temporary files hands its group on. The bytes have to be the same, and the modes plain. Where dist/
is not of the sources of the last commit, or dpkg-deb is not installed, nothing is asked. Each link of the documents leads somewhere in the
archive. Where dist/ has the library for C, its packages and the archives have its files, and the packages say of each of its names since which version it
is there. A program that is linked with what they have says the library's version; where gcc or pkg-config is not installed, that is not asked.

The last line is 'N passed, M failed'.
"""
import os
import pathlib
import re
import shutil
import subprocess
import sys
import tarfile
import tempfile

from helpers.tries import told

TOP = os.path.dirname(os.path.dirname(os.path.realpath(__file__)))
sys.path.insert(0, os.path.join(TOP, "tools", "checks"))

import links  # noqa: E402, the path is set above

HOSTILE = {"TAR_OPTIONS": "--mode=0777 --format=pax", "DPKG_DEB_COMPRESSOR_LEVEL": "1", "DPKG_DEB_COMPRESSOR_TYPE": "gzip", "GZIP": "-1",
           "DPKG_DEB_THREADS_MAX": "4", "XZ_OPT": "-0", "XZ_DEFAULTS": "-T4", "POSIXLY_CORRECT": "1", "CDPATH": "/", "GIT_DIR": "/none",
           "TZ": "Asia/Tokyo", "PYTHONHOME": "/none", "TWO": "lines\nPATH=/none", "LANG": "xx", "GREP_COLORS": "x"}
# What the packages of the library have, beside what says what they are; for amd64 there is a shared library more.
LIBRARY = {"librim0": ["usr/lib/{0}/librim.so.0"],
           "librim-dev": ["usr/include/rim.h", *(f"usr/lib/{{0}}/{name}" for name in ("librim.a", "librim.so", "pkgconfig/rim.pc"))]}
WIDE = "usr/lib/{0}/glibc-hwcaps/x86-64-v3/librim.so.0"
MULTIARCH = {"amd64": "x86_64-linux-gnu", "arm64": "aarch64-linux-gnu"}
LEAST = {"amd64": "x86_64-v2", "arm64": "aarch64"}
GITCONFIG = "[core]\n\tautocrlf = true\n\tattributesFile = {0}/attributes\n[tar]\n\tumask = 0\n[log]\n\tshowSignature = true\n[safe]\n\tdirectory = *\n"


def made(here: str, name: str, mask: int, **environment: str) -> tuple[str, str, dict[str, bytes]]:
    """What deb.sh prints, and the files that it makes."""
    out = os.path.join(here, name)
    ran = subprocess.run([os.path.join(TOP, "tools", "package", "deb.sh"), out], capture_output=True, text=True, check=False, umask=mask, cwd=here,
                         env=os.environ | {"HOME": here} | environment)
    files = {}
    for each in os.listdir(out):
        with open(os.path.join(out, each), "rb") as file:
            files[each] = file.read()
    return ran.stdout, ran.stderr, files


def modes(path: str) -> list[str]:
    """What has another mode than files and folders of a package, or another owner."""
    with tarfile.open(path) as archive:
        return [f"{each.name}: {each.mode:o} {each.uid} {each.gid}" for each in archive
                if each.mode not in ((0o755,) if each.isdir() else (0o777,) if each.issym() else (0o644, 0o755)) or each.uid or each.gid]


def modes_of_package(here: str, path: str) -> list[str]:
    with open(os.path.join(here, "package.tar"), "wb") as file:
        subprocess.run(["dpkg-deb", "--fsys-tarfile", path], stdout=file, check=True)
    return modes(file.name)


def broken_links(here: str, path: str) -> list[str]:
    """Links of the documents of an archive that lead nowhere in it."""
    tree = pathlib.Path(here, "tree", os.path.basename(path))
    with tarfile.open(path) as archive:
        archive.extractall(tree, filter="data")
    links.TOP = next(tree.iterdir()) / "share" / "doc" / "rim"
    found = list(links.links())
    wrong = [f"{page}: {link} leads nowhere" for page, link, ends in found if not ends]
    return wrong + [f"{tree.name}: there are no links"] * (not found)


def in_dist(arch: str) -> bool:
    """Whether the last commit has the library for a processor."""
    path = f"dist/librim-{LEAST[arch]}.so.0"
    return subprocess.run(["git", "-C", TOP, "cat-file", "-e", f"HEAD:{path}"], capture_output=True, check=False).returncode == 0


def expected_names(version: str) -> list[str]:
    """The files that deb.sh has to make."""
    names = [f"rim_{version}_{arch}.deb" for arch in MULTIARCH] + [f"rim-{version}-{machine}-linux.tar.gz" for machine in ("x86_64", "aarch64")]
    return sorted(names + [f"{name}_{version}_{arch}.deb" for arch in MULTIARCH if in_dist(arch) for name in LIBRARY])


def control_of(path: str, name: str) -> str:
    """A file of those that tell of a package."""
    said = subprocess.run(["dpkg-deb", "--info", path, name], stdout=subprocess.PIPE, text=True, check=True)
    return said.stdout


def of_library(here: str, path: str) -> list[str]:
    """What is wrong with a package of the library."""
    name, _, arch = os.path.basename(path).removesuffix(".deb").split("_")
    modes_of_package(here, path)
    with tarfile.open(os.path.join(here, "package.tar")) as archive:
        files = sorted(each.name.removeprefix("./") for each in archive if not each.isdir() and "/share/doc/" not in each.name)
    wanted = sorted(each.format(MULTIARCH[arch]) for each in [*LIBRARY[name], *([WIDE] if name == "librim0" and arch == "amd64" else [])])
    wrong = [] if files == wanted else [f"{files}, expected {wanted}"]
    if name == "librim0":
        with open(os.path.join(TOP, "library", "rim.h"), encoding="utf-8") as file:
            calls = re.findall(r"^rim_code (rim_\w+)\(", file.read(), re.M)
        said = re.findall(r"^ (rim_\w+)@RIM_0 ", control_of(path, "symbols"), re.M)
        wrong += [] if said == sorted(calls) else [f"symbols: {said}"]
    return [f"{os.path.basename(path)}: {line}" for line in wrong]


SAYS_VERSION = """#include <rim.h>
#include <stdio.h>
int main(void) {
    char text[100];
    size_t length = 0;
    rim_code code = rim_version(text, sizeof text, &length);
    printf("%.*s", (int)length, text);
    return (int)code;
}
"""


def linked(tree: pathlib.Path, usr: str, lib: str, version: str) -> list[str]:
    """What is wrong with a program that is linked with the library in a folder of a tree, by the words of pkg-config, and with the archive. A package is
    unpacked as into a system, whose place pkg-config is given; an archive finds its own."""
    top, source, program = tree / usr, tree / "version.c", tree / "version"
    source.write_text(SAYS_VERSION)
    environment = os.environ | {"PKG_CONFIG_PATH": str(top / lib / "pkgconfig"), "LD_LIBRARY_PATH": str(top / lib)}
    environment |= {"PKG_CONFIG_SYSROOT_DIR": str(tree)} if usr else {}
    asked = subprocess.run(["pkg-config", "--cflags", "--libs", "rim"], stdout=subprocess.PIPE, text=True, check=True, env=environment)
    wrong = []
    for words in (asked.stdout.split(), [f"-I{top}/include", str(top / lib / "librim.a")]):
        subprocess.run(["gcc", "-std=c11", "-Wall", "-Wextra", "-Werror", source, *words, "-o", program], check=True)
        said = subprocess.run([program], stdout=subprocess.PIPE, text=True, check=False, env=environment)
        is_said = said.returncode == 0 and said.stdout.split(" ")[0] == version
        wrong += [] if is_said else [f"a program linked by {words}: status {said.returncode}, {said.stdout!r}"]
    return wrong


def linked_by_all(here: str, version: str) -> list[str]:
    """The same of the packages for amd64, and of the archive."""
    installed, unpacked = pathlib.Path(here, "installed"), pathlib.Path(here, "unpacked")
    for name in LIBRARY:
        subprocess.run(["dpkg-deb", "--extract", os.path.join(here, "plain", f"{name}_{version}_amd64.deb"), installed], check=True)
    with tarfile.open(os.path.join(here, "plain", f"rim-{version}-x86_64-linux.tar.gz")) as archive:
        archive.extractall(unpacked, filter="data")
    return linked(installed, "usr", f"lib/{MULTIARCH['amd64']}", version) + linked(next(unpacked.iterdir()), "", "lib", version)


def of_archive(path: str) -> list[str]:
    """What is wrong with the library in an archive."""
    arch = next(arch for arch, multiarch in MULTIARCH.items() if multiarch.split("-")[0] in os.path.basename(path))
    wide = [WIDE] if arch == "amd64" else []
    wanted = {each.replace("usr/", "", 1).replace("lib/{0}", "lib") for each in [*LIBRARY["librim0"], *LIBRARY["librim-dev"], *wide]}
    with tarfile.open(path) as archive:
        found = {each.name.partition("/")[2] for each in archive if not each.isdir()}
    found = {name for name in found if name.startswith(("lib/", "include/"))}
    return [] if found == (wanted if in_dist(arch) else set()) else [f"{os.path.basename(path)}: {sorted(found)}, expected {sorted(wanted)}"]


def packages(here: str) -> list[str] | None:
    """What is wrong; None where dist/ has no programs of the sources."""
    with open(os.path.join(here, "attributes"), "w", encoding="utf-8") as file:
        file.write("*.md text eol=crlf\n")
    temporary = os.path.join(here, "temporary")
    os.mkdir(temporary)
    os.chmod(temporary, 0o2777)
    if os.getuid() == 0:
        os.chown(temporary, -1, 12345)
    with open(os.path.join(here, ".gitconfig"), "w", encoding="utf-8") as file:
        file.write("[safe]\n\tdirectory = *\n")
    plain = made(here, "plain", 0o022)
    if "dist/ is not of the sources" in plain[1]:
        return None
    with open(file.name, "w", encoding="utf-8") as file:
        file.write(GITCONFIG.format(here))
    hostile = made(here, "hostile", 0, TMPDIR="temporary", **HOSTILE)
    wrong = [f"{name} is another one" for name in plain[2] if plain[2][name] != hostile[2].get(name)]
    version = next((name.split("_")[1] for name in plain[2] if name.endswith(".deb")), "none")
    wrong += [f"{said!r}" for said in (plain[1], hostile[1]) if said] + [f"{sorted(plain[2])}"] * (sorted(plain[2]) != expected_names(version))
    for name in hostile[2]:
        path = os.path.join(here, "hostile", name)
        found = modes_of_package(here, path) if name.endswith(".deb") else modes(path)
        wrong += [f"{name}: {each}" for each in found[:3]]
        if name.startswith("librim"):
            wrong += of_library(here, path)
            continue
        with tarfile.open(path if name.endswith(".gz") else os.path.join(here, "package.tar")) as archive:
            folders = {"outside", "vmm", "matcher", "comparer", "page"} - {os.path.basename(each.name) for each in archive if each.isdir()}
        wrong += [f"{name}: there is no {each}" for each in folders]
    archives = [os.path.join(here, "plain", name) for name in plain[2] if name.endswith(".gz")]
    wrong += [line for path in archives for line in broken_links(here, path) + of_archive(path)]
    if in_dist("amd64") and shutil.which("gcc") and shutil.which("pkg-config"):
        wrong += linked_by_all(here, version)
    return wrong + [f"{each} is left" for each in os.listdir(temporary)]


def run_all() -> int:
    with tempfile.TemporaryDirectory() as here:
        wrong = packages(here) if shutil.which("dpkg-deb") else None
    if wrong is None:
        print("packaging.py: dpkg-deb is not installed, or dist/ is not of these sources: not asked\n0 passed, 0 failed")
        return 0
    return told([("packages", wrong)])


if __name__ == "__main__":
    sys.exit(run_all())
