#!/usr/bin/env python3
"""Checks that `rim measure` shows on a terminal how far it is, that it removes what it showed, and that nothing is shown
where standard error is no terminal; and that `rim dtb` writes its bytes to no terminal. Not part of the gate.

usage: tools/trials/progress.py

`rim` has to be built, by `./rim --build --help`.
"""
import os
import pty
import re
import subprocess
import tempfile
import time

from limits import FILES, PAGES, launch, program, spans, top

# A line ends, so the next one begins with the way back to it.
LINE = re.compile(rb"(?:\x1b\[A)?rim: (\d+) of (\d+) pages, (\d+) of (\d+) launches\x1b\[K\r\n")
REMOVED = b"\x1b[A\x1b[K"


def on_a_terminal(words):
    """The output of a run whose standard error is a terminal, what the terminal got, and how many seconds it took."""
    ours, theirs = pty.openpty()
    start = time.monotonic()
    ran = subprocess.Popen(words, stdout=subprocess.PIPE, stderr=theirs)
    os.close(theirs)
    shown = b""
    while True:
        try:
            shown += os.read(ours, 65536)
        except OSError:  # the other side is closed
            break
    text = ran.stdout.read()
    if ran.wait() != 0:
        raise SystemExit("the run failed")
    return text, shown, time.monotonic() - start


def to_a_terminal(words):
    """The status of a run whose output is a terminal, its line on standard error, and what the terminal got."""
    ours, theirs = pty.openpty()
    ran = subprocess.run(words, stdout=theirs, stderr=subprocess.PIPE, cwd=top)
    os.set_blocking(ours, False)
    try:
        shown = os.read(ours, 65536)
    except BlockingIOError:
        shown = b""
    os.close(theirs)
    os.close(ours)
    return ran.returncode, ran.stderr, shown


def check(is_so, what):
    print(f"{'ok' if is_so else 'WRONG'}: {what}")
    return is_so


def no_bytes():
    """Whether the bytes of a devicetree are kept from a terminal, and texts are not."""
    manifest = "examples/vm/manifest.toml"  # it names its files from the top
    status, said, shown = to_a_terminal([program, "dtb", manifest, "one-vcpu"])
    helped, _, text = to_a_terminal([program, "dtb", "--help"])
    return [
        check((status, said) == (3, b"rim: output-is-terminal\n"), "rim dtb on a terminal ends with 3"),
        check(shown == b"", "no byte of the devicetree is shown there"),
        check(helped == 0 and text.startswith(b"Writes"), "its help is shown there"),
    ]


def progress():
    """Whether a run on a terminal shows how far it is, and only that."""
    with tempfile.TemporaryDirectory() as folder:
        path = os.path.join(folder, "manifest.toml")
        with open(os.path.join(folder, "one"), "wb") as file:
            file.write(b"\1")
        with open(path, "w") as file:
            text = FILES + launch("a", PAGES << 12, spans(PAGES, True))
            file.write("rim_manifest = 1\n" + text.replace("path = 'one'", f"path = '{folder}/one'"))
        words = [program, "measure", path, "--workers", "2"]
        plain = subprocess.run(words, check=True, capture_output=True)
        report, shown, seconds = on_a_terminal(words)
    lines = [tuple(int(number) for number in line) for line in LINE.findall(shown)]
    pages, launches = [line[0] for line in lines], [line[2] for line in lines]
    return [
        check(plain.stderr == b"", "nothing is shown where standard error is no terminal"),
        check(report == plain.stdout, "the report is the same"),
        check(1 <= len(lines) <= 4 * seconds, f"{len(lines)} lines in {seconds:.1f} s"),
        check(pages == sorted(pages) and launches == sorted(launches), "the counts rise"),
        check({line[1::2] for line in lines} == {(PAGES, 1)}, "each line has the numbers of all pages and launches"),
        check(LINE.sub(b"", shown) == REMOVED and shown.endswith(REMOVED), "the line is removed, and nothing else is shown"),
    ]


def main():
    raise SystemExit(0 if all(progress() + no_bytes()) else 1)


if __name__ == "__main__":
    main()
