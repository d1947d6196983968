"""The words of a command line."""
from __future__ import annotations

from collections.abc import Callable
from dataclasses import dataclass, replace

from outside.faults import WrongWords
from outside.texts import shown
from outside.words import Known, no_option, walk

LIMIT, SECONDS = 300_000, 60

ABOUT = f"""rim-match: which change of a launch gives the measurement that a machine has

usage: rim-match [OPTIONS..] MANIFEST LAUNCH VALUE
       rim-match --nearest TRACE [--contents FILE].. MANIFEST [LAUNCH]
       rim-match --axes
       rim-match --help | --version

VALUE is the RIM of a token: 32 or 64 bytes, as hexadecimal digits or in base64. One that is padded with zeros is that of SHA-256.
First the launches of MANIFEST are measured by `rim`: the machine may have booted another one. Then their parts are exchanged. Then those
are measured that differ from LAUNCH in what people change and what hosts get wrong, the likeliest first, by one change and by two likely
ones. The first that has VALUE is printed, as the lines of the manifest to change. The program is the one that the variable RIM names, or
`rim` beside this one, or of the PATH.

  --also MANIFEST    another manifest, whose launches and their parts are tried too; may be given more than once
  --kept REPORT      a report that was kept, as `rim measure --json` writes it: has a launch of it VALUE? More than once
  --file NAME=OTHER  the file NAME of MANIFEST may have had the contents of the file OTHER; more than once
  --append-file FILE command lines that the kernel may have had, one a line
  --qemu PROGRAM     QEMU, which makes devicetrees anew by changed words, where record.json beside MANIFEST has those of LAUNCH
  --far              go on after that with two and three changes of all kinds, which takes minutes
  --limit N          stop after N launches; {LIMIT} by default
  --seconds N        stop after N seconds; {SECONDS} by default, and never with --far
  --nearest TRACE    which launch shares the longest beginning with TRACE, and where it parts from it: a trace as `rim trace` prints one, also
                     without its RIMs, a listing of `rim list`, or a log of the monitor's commands
  --contents FILE    with --nearest: a file that the machine may have had, to look in for what differs; more than once
  --axes             print what may be changed, and do nothing else
  -h, --help         print help
  -V, --version      print the version

Status: 0 found, or TRACE is that of the launch; 1 not found, or TRACE is another; 2 wrong words; 3 a fault; 130, 143 or 129 stopped by
INT, TERM or HUP, once what was tried is printed.
"""
HELP_HINT = "expected MANIFEST LAUNCH VALUE; see rim-match --help"


@dataclass(frozen=True)
class Words:
    """What the command line says."""

    operands: tuple[str, ...] = ()
    limit: int = LIMIT
    seconds: int | None = None
    is_far: bool = False
    trace: str | None = None
    also: tuple[str, ...] = ()
    kept: tuple[str, ...] = ()
    files: tuple[tuple[str, str], ...] = ()
    appends: str | None = None
    qemu: str | None = None
    contents: tuple[str, ...] = ()
    alone: str = ""             # an option that does nothing else


def number_of(name: str, text: str) -> int:
    if not (text.isascii() and text.isdigit() and 0 < len(text) < 10 and int(text) > 0):
        raise WrongWords(f"{name}: {shown(text)}, expected a whole number from 1 to 999999999")
    return int(text)


def pair_of(text: str) -> tuple[str, str]:
    name, is_whole, path = text.partition("=")
    if not (name and is_whole and path):
        raise WrongWords(f"--file: {shown(text)}, expected NAME=OTHER, a file of the manifest and a path")
    return name, path


# What an option takes, and what the words are then.
TAKES: dict[str, tuple[str, Callable[[Words, str], Words]]] = {
    "--limit": ("a number", lambda said, text: replace(said, limit=number_of("--limit", text))),
    "--seconds": ("a number", lambda said, text: replace(said, seconds=number_of("--seconds", text))),
    "--nearest": ("a file", lambda said, text: replace(said, trace=text)),
    "--also": ("a manifest", lambda said, text: replace(said, also=(*said.also, text))),
    "--kept": ("a report", lambda said, text: replace(said, kept=(*said.kept, text))),
    "--file": ("NAME=OTHER", lambda said, text: replace(said, files=(*said.files, pair_of(text)))),
    "--append-file": ("a file", lambda said, text: replace(said, appends=text)),
    "--qemu": ("a program", lambda said, text: replace(said, qemu=text)),
    "--contents": ("a file", lambda said, text: replace(said, contents=(*said.contents, text))),
}
ALONE = ("-h", "--help", "-V", "--version", "--axes")
KNOWN = Known({name: what for name, (what, _) in TAKES.items()} | dict.fromkeys(("--far", *ALONE), ""), no_option("rim-match"))
# The options that are of a search, and not of a trace.
OF_SEARCH = {"--also": "also", "--kept": "kept", "--file": "files", "--append-file": "appends", "--qemu": "qemu"}


def parse(all_words: list[str]) -> Words:
    """The command line's words. What comes after `--` is no option."""
    said = Words()
    for name, value in walk(KNOWN, all_words):
        if name in TAKES:
            said = TAKES[name][1](said, value)
        elif name == "--far":
            said = replace(said, is_far=True)
        elif name in ALONE:
            said = replace(said, alone=said.alone or name)
        else:
            said = replace(said, operands=(*said.operands, value))
    return said


def check_operands(said: Words):
    count = len(said.operands)
    if said.trace is None and count != 3:
        raise WrongWords(f"{count} operand{'s' * (count != 1)}, {HELP_HINT}")
    if said.trace is not None and count not in (1, 2):
        raise WrongWords(f"--nearest: {count} operand{'s' * (count != 1)}, expected MANIFEST and, for one launch alone, LAUNCH")
    if said.trace is None and said.contents:
        raise WrongWords("--contents: it is of --nearest, expected both; a search is given --file NAME=OTHER")
    for option, key in OF_SEARCH.items() if said.trace is not None else ():
        if getattr(said, key):
            raise WrongWords(f"{option}: it is of a search, expected no --nearest beside it")
