#!/usr/bin/env python3
"""Runs `rim measure` on releases at the limits, where a test would take too long, and compares the reports with those of
tools/oracles/reference.py. It also gives it directories, missing files and files of the greatest size. Not part of the gate.

usage: tools/trials/limits.py [WORD]

`rim` has to be built, by `./rim --build --help`. WORD picks the cases whose name has it.
"""
import os
import subprocess
import sys
import tempfile
import time

top = os.path.dirname(os.path.dirname(os.path.dirname(os.path.abspath(__file__))))
program = os.path.join(top, "crates", "rim", "out", "rim")
reference = os.path.join(top, "tools", "oracles", "reference.py")

FILE_LIMIT = 268_435_456
PAGES = 1_048_576


def launch(name, ram, items="", more=""):
    return f"[[launch]]\nname = '{name}'\nalgo = 'sha256'\ns2sz = 48\nram = [[0, {ram}]]\nitem = [{items}]\n{more}"


def item(name, file, at, size, more=""):
    return f"{{name = '{name}', kind = 'raw', file = '{file}', at = {at}, size = {size}{more}}}, "


FILES = "".join(f"[[file]]\nname = '{name}'\npath = 'one'\n" for name in "fgh")


def spans(pages, measured):
    """A launch of this many pages, a third of them in each of three items."""
    part = pages // 3
    sizes = [part, part, pages - 2 * part]
    more = "" if measured else ", measured = false"
    return "".join(item(name, name, sum(sizes[:at]) << 12, sizes[at] << 12, more) for at, name in enumerate("fgh"))


def unknown(pages):
    return f"{{name = 'u', kind = 'unknown', at = 0, size = {pages << 12}}}"


def one_file(path):
    return f"[[file]]\nname = 'f'\npath = '{path}'\n" + launch("a", 4096)



def large(path):
    return f"[[file]]\nname = 'f'\npath = '{path}'\n" + launch("a", FILE_LIMIT, item("x", "f", 0, FILE_LIMIT))


# what it is, the manifest, and the fault or the refusals that are expected; None where the reference says all
CASES = [
    ("1,048,576 pages that are not measured", FILES + launch("a", PAGES << 12, spans(PAGES, False)), None),
    ("1,048,576 pages that are measured", FILES + launch("a", PAGES << 12, spans(PAGES, True)), None),
    ("1,048,576 pages of one launch, each of them in another one too", FILES + launch("a", PAGES << 12, spans(PAGES, True)) + launch("b", 1 << 32, item("x", "g", 8192, 16384)), None),
    ("1,048,576 different pages of two launches", FILES + launch("a", PAGES << 11, spans(PAGES // 2, True)) + launch("b", PAGES << 12, item("x", "f", 1, (PAGES << 11) - 1)), None),
    ("a page more by two launches", FILES + launch("a", PAGES << 11, spans(PAGES // 2, True)) + launch("b", PAGES << 12, item("x", "f", 1, PAGES << 11)), "too-many-pages"),
    ("a page more by another algorithm", FILES + launch("a", PAGES << 12, spans(PAGES, True)) + launch("b", 1 << 32, item("x", "f", 0, 1)).replace("sha256", "sha512"), "too-many-pages"),
    ("a page more that is not measured", FILES + launch("a", PAGES << 12, spans(PAGES, True)) + launch("b", 1 << 32, item("x", "f", 8, 1, ", measured = false")), None),
    ("1,048,576 pages that are unknown", launch("a", PAGES << 12, unknown(PAGES)), None),
    ("a page more that is unknown", FILES + launch("a", PAGES << 12, spans(PAGES, True)) + launch("b", 1 << 32, unknown(1)), None),
    ("a page more of a launch that is refused", FILES + launch("a", PAGES << 12, spans(PAGES, True)) + launch("b", 4096, item("x", "f", 0, 2) + item("y", "g", 8, 2)), None),
    ("4,194,304 blocks", launch("a", 4_194_304 << 12, "", "block_level = 3\n"), None),
    ("a file of the greatest size", large("largest"), None),
    ("a file of a byte more", large("larger"), "file-too-large"),
    ("a directory", one_file("folder"), "file-unreadable"),
    ("a missing file", one_file("missing"), "file-unreadable"),
    ("a file in a file", one_file("one/x"), "file-unreadable"),
    ("a path with a zero character", one_file("one").replace("'one'", '"one\\u0000"'), "file-unreadable"),
    ("a path of 5,000 characters", one_file("x" * 5000), "file-unreadable"),
    ("a file too large, then a missing one", large("larger") + "[[file]]\nname = 'g'\npath = 'missing'\n", "file-too-large"),
    ("a missing file, then one too large", one_file("missing") + "[[file]]\nname = 'g'\npath = 'larger'\n", "file-unreadable"),
]


def run(words, folder):
    start = time.perf_counter()
    ran = subprocess.run(words, cwd=folder, capture_output=True, text=True)
    return ran.returncode, ran.stdout, ran.stderr, time.perf_counter() - start


def expected(fault, folder):
    """The status and what is written to standard output and to standard error."""
    if fault is not None:
        return 3, "", f"rim: {fault}\n"
    status, report, error, _ = run([sys.executable, reference, "manifest.toml"], folder)
    if status != 0:
        raise SystemExit(error)
    return (1 if " refused " in report else 0), report, ""


def check(what, manifest, fault, folder):
    with open(os.path.join(folder, "manifest.toml"), "w") as file:
        file.write("rim_manifest = 1\n" + manifest)
    *found, seconds = run([program, "measure", "manifest.toml"], folder)
    wanted = list(expected(fault, folder))
    same = found == wanted
    print(f"{'ok' if same else 'WRONG'}: {what}, {seconds:.1f} s", flush=True)
    if not same:
        print(f"  found {found}\n  wanted {wanted}")
    return same


def files(folder):
    with open(os.path.join(folder, "one"), "w") as file:
        file.write("*")
    for name, size in (("largest", FILE_LIMIT), ("larger", FILE_LIMIT + 1)):
        with open(os.path.join(folder, name), "w") as file:
            file.truncate(size)
    os.mkdir(os.path.join(folder, "folder"))


def main():
    word = sys.argv[1] if len(sys.argv) > 1 else ""
    with tempfile.TemporaryDirectory() as folder:
        files(folder)
        done = [check(*case, folder) for case in CASES if word in case[0]]
        for path in ("folder", "missing", "larger"):
            found = run([program, "measure", path], folder)[:3]
            fault = "file-too-large" if path == "larger" else "file-unreadable"
            done.append(found == (3, "", f"rim: {fault}\n"))
            print(f"{'ok' if done[-1] else 'WRONG'}: {path} as the manifest")
    print(f"{sum(done)} of {len(done)} as expected")
    sys.exit(0 if all(done) else 1)


if __name__ == "__main__":
    main()
