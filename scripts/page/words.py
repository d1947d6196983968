"""The words of a command line."""
from __future__ import annotations

from dataclasses import dataclass, replace

from outside.faults import WrongWords
from outside.words import END, VERSION, Known, no_option, walk

ABOUT = """rim-page: a page to look at before one signs the values of a release

usage: rim-page [--before REPORT].. [--signed FILE].. [--force] --out FILE MANIFEST..
       rim-page --diff [--force] --out FILE MANIFEST LAUNCH [MANIFEST] LAUNCH
       rim-page --svg [-o FILE] MANIFEST LAUNCH
       rim-page --help | --version

FILE is one page of HTML, which opens anywhere and asks nobody: all launches of each MANIFEST in a table that can be sorted and searched, with what
is wrong and what is rarely meant first, and what is assumed of the machine; and of each launch its map as a picture, its files with their digests, its parameters, and what its
measurement is made of. A MANIFEST may be a folder that rim-manifest has made. Where a manifest is at fault, nothing is measured: the page says so
first and has no values. The same input gives the same bytes. The program is the one that the variable RIM names, or `rim` beside this one, or of
the PATH.

      --before REPORT  say what changed since a report that was kept, as `rim measure --json` writes it; more than once: all are taken as one
      --signed FILE    a file that is to be signed: a report, an in-toto statement or an unsigned CoRIM. It must have exactly the values of
                       the page, which shows its digest; more than once for several
      --diff           the page of two launches, of one manifest or of two: their maps side by side, and the first step that parts them
      --svg            the map of a launch alone, as a picture (SVG), to standard output
      --out FILE       the page; `-` is standard output. FILE must not be there
      --force          replace FILE
  -o, --output FILE    with --svg: the picture; what is there is replaced, as `rim map -o FILE` does it
  -h, --help           print help
  -V, --version        print the version

Status: 0 done; 1 done, and a launch is refused; 2 wrong words; 3 a fault, or a manifest is at fault.
"""
ALONE = {"-h": ABOUT, "--help": ABOUT, "-V": f"rim-page {VERSION}\n", "--version": f"rim-page {VERSION}\n"}
TAKES = {"--before": "a report", "--signed": "a file that is to be signed", "--out": "a file", "-o": "a file", "--output": "a file"}
KNOWN = Known(dict.fromkeys((*ALONE, "--diff", "--svg", "--force"), "") | TAKES, no_option("rim-page"))
SEE = "see rim-page --help"


@dataclass(frozen=True)
class Words:
    """What the command line says."""

    operands: tuple[str, ...] = ()
    before: tuple[str, ...] = ()
    signed: tuple[str, ...] = ()
    out: str | None = None
    output: str | None = None
    flags: frozenset[str] = frozenset()
    alone: str = ""                     # an option that does nothing else

    @property
    def is_forced(self) -> bool:
        return "--force" in self.flags


def once(value: str | None, option: str, given: str) -> str:
    if value is not None:
        raise WrongWords(f"{option} is given twice")
    return given


def parse(all_words: list[str]) -> Words:
    """The command line's words. What comes after `--` is no option."""
    said = Words()
    for option, value in walk(KNOWN, all_words):
        if option in ("", END):
            said = replace(said, operands=(*said.operands, value))
        elif option in ALONE:
            said = replace(said, alone=said.alone or option)
        elif option == "--before":
            said = replace(said, before=(*said.before, value))
        elif option == "--signed":
            said = replace(said, signed=(*said.signed, value))
        elif option == "--out":
            said = replace(said, out=once(said.out, option, value))
        elif option in TAKES:
            said = replace(said, output=once(said.output, option, value))
        else:
            said = replace(said, flags=said.flags | {option})
    return said


def check(said: Words):
    """Refuses words that are not of one form."""
    count = len(said.operands)
    is_svg, is_diff = "--svg" in said.flags, "--diff" in said.flags
    if is_svg and is_diff:
        raise WrongWords(f"--svg and --diff, expected one of them; {SEE}")
    of_release = [name for name, given in (("--before", said.before), ("--signed", said.signed)) if given]
    if of_release and (is_svg or is_diff):
        raise WrongWords(f"{of_release[0]}: it is of a release, expected no {'--svg' if is_svg else '--diff'} beside it")
    if is_svg:
        if said.out is not None or said.is_forced:
            raise WrongWords(f"{'--force' if said.out is None else '--out'}: it is of a page, expected -o FILE with --svg")
        if count != 2:
            raise WrongWords(f"--svg: {operands(count)}, expected MANIFEST LAUNCH; {SEE}")
        return
    if said.output is not None:
        raise WrongWords("-o: it is of --svg, expected --out FILE for a page")
    if is_diff and count not in (3, 4):
        raise WrongWords(f"--diff: {operands(count)}, expected MANIFEST LAUNCH LAUNCH, or MANIFEST LAUNCH MANIFEST LAUNCH; {SEE}")
    if not count:
        raise WrongWords(f"0 operands, expected MANIFEST; {SEE}")
    if said.out is None:
        raise WrongWords(f"no --out, expected --out FILE; {SEE}")


def operands(count: int) -> str:
    return f"{count} operand{'s' * (count != 1)}"
