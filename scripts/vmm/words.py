"""The words of the command line: options, lists of values, sizes."""
from __future__ import annotations

import base64
import binascii
import re
import textwrap
from collections.abc import Callable
from dataclasses import dataclass
from fractions import Fraction

from outside.faults import WrongWords
from outside.texts import shown
from outside.words import END, Known, walk

from .guest import GIB, KIB, MIB, Memory, Processors, Word
from .host import example
from .names import labelled

UNITS = {"": 1, "B": 1, "K": KIB, "M": MIB, "G": GIB, "T": KIB * GIB}
ALGORITHMS = ("sha256", "sha512")
# The longest command line of a kernel: no Linux reads more than 2,048 bytes, and no program takes a word of more than 128 KiB.
MOST_APPEND = 64 << 10


@dataclass(frozen=True)
class Option:
    names: tuple[str, ...]
    key: str
    value: str          # what the help calls its value; nothing where it takes none
    help: str
    many: bool = False  # whether it may be given more than once, each time with one value more of a list


COMMON = [
    Option(("--line",), "line", "FILE", "a file with the hypervisor's command line, as a shell reads it: quotes, backslashes, lines that go "
           "on. It is what else comes after `--`. For a guest of libvirt: its log, /var/log/libvirt/qemu/NAME.log, or the output of "
           "`virsh domxml-to-native qemu-argv DOMAIN.xml`"),
    Option(("--append-file",), "append_file", "FILE", "command lines of the kernel, one a line; empty lines are passed over", True),
    Option(("--no-initrd",), "no_initrd", "", "a launch without initrd too, beside those with one"),
    Option(("--algo",), "algo", "LIST", "hash algorithms, sha256 and sha512: that of the hypervisor's words where these say one, else that of "
           "the row hash", True),
    Option(("--host",), "host", "FILE", f"what only the machine knows: {example()} explains it. Required"),
    Option(("--dtb",), "dtb", "FILE", "a devicetree as the hypervisor loads it, which is placed as it is. Of several, each launch takes "
           "the one that fits it. Those of QEMU that fit some launches become the devicetrees of others, byte for byte as QEMU writes them: with "
           "other RAM, command lines and initrds, and with other numbers of processors if two dumps show the step", True),
    Option(("--row",), "row", "ROW=ALTERNATIVE", "the alternative of a row that a realm may change, such as ram=each; --rules prints the rows "
           "with their alternatives. It takes the place of what the table [realm] of the host's file says, and without both it is the "
           "likeliest", True),
    Option(("--s2sz",), "s2sz", "N", "the row s2sz: the width of an IPA in bits, in the place of what the rule of the table gives"),
    Option(("--kernel-pages",), "kernel_pages", "WHICH", "the row kernel_pages: measured are pages of the kernel's `file`, or those of its "
           "`image_size` too, with the BSS as zeros"),
    Option(("--dtb-pages",), "dtb_pages", "WHICH", "the row dtb_pages: measured are the pages of the `whole` devicetree, or those that are "
           "`used`"),
    Option(("--order",), "order", "ORDER", "the row order: in which order the realm is built, by rising `address`, by `kind`, or a list such "
           "as ram,kernel,initrd,dtb,rec"),
    Option(("--out",), "out", "DIR", "the folder that is written. Required, but with --measure"),
    Option(("--force",), "force", "", "replace what rim-manifest has written into DIR before, as far as it is unchanged, and nothing else"),
    Option(("--short-names",), "short_names", "", "names of launches without kernel, initrd and command line, where there is one of them"),
    Option(("--measure",), "measure", "", "measure the launches at once, and print the report. Without --out the folder is gone after it"),
    Option(("--json",), "json", "", "with --measure: the report as JSON"),
    Option(("--explain",), "explain", "", "print what each word of the command line does, and do nothing else"),
    Option(("-C",), "folder", "DIR", "do all as if it were started in DIR: paths, those of a command line too, are read as from there"),
    Option(("--rules",), "rules", "", "print the tables of the hypervisor, and do nothing else"),
    Option(("-h", "--help"), "help", "", "print this help"),
]


def parse(options: list[Option], words: list[str], refuse: Callable[[list[str]], None]) -> dict:
    """What the words say: a text for each key, a list where there may be many, True for a flag. `rest` is what comes after `--`. A word
    that is no option is refused by `refuse`, where that knows it, or as one that nobody knows."""
    by_name = {name: option for option in options for name in option.names}

    def refuse_word(word: str, rest: list[str]):
        name, _, value = word.partition("=")
        if name in by_name and word.startswith("--"):
            raise WrongWords(f"{name}: {shown(value)} is given, expected no value")
        refuse([word, *rest])
        if not word.startswith("-"):
            raise WrongWords(f"{shown(word)}: it is no option, expected `--` before a hypervisor's command line")
        raise WrongWords(f"{shown(word)}: no word of this hypervisor's that is known, expected one of --help")

    said: dict = {"rest": []}
    for name, value in walk(Known({name: option.value for name, option in by_name.items()}, refuse_word, "nothing is given"), words):
        if name == END:
            said["rest"].append(value)
            continue
        option = by_name[name]
        if option.key in said and not option.many:
            raise WrongWords(f"{name}: it is given twice, expected once")
        if option.many:
            said.setdefault(option.key, []).append(value)
        else:
            said[option.key] = value if option.value else True
    return said


INDENT = " " * 8


def help_of(options: list[Option]) -> str:
    """The lines of the options."""
    lines = []
    for option in options:
        lines.append("  " + ", ".join(option.names) + (f" {option.value}" if option.value else ""))
        lines.append(textwrap.fill(option.help + (" [list]" if option.many else ""), 120, initial_indent=INDENT, subsequent_indent=INDENT))
    return "\n".join(lines)


def required(said: dict, key: str, names: str, why: str = ""):
    if key not in said:
        raise WrongWords(f"{names}: it is not given, expected {why or 'one'}")
    return said[key]


def choice(said: dict, key: str, name: str, choices: tuple[str, ...]) -> str:
    """One of some words, the first by default."""
    value = said.get(key, choices[0])
    if value not in choices:
        raise WrongWords(f"{name}: {shown(value)}, expected {' or '.join(choices)}")
    return value


def number(name: str, text: str, least: int, most: int) -> int:
    if not re.fullmatch(r"[0-9]{1,9}", text) or not least <= int(text) <= most:
        raise WrongWords(f"{name}: {shown(text)}, expected a whole number from {least} to {most}")
    return int(text)


def size(name: str, text: str, bare: int, has_fractions: bool = False) -> int:
    """A size in bytes: a number and a unit of B, K, M, G or T, which are powers of 1,024. Without one its unit is `bare`."""
    form = r"([0-9]{1,12}(?:\.[0-9]{1,12})?)([bkmgtBKMGT]?)" if has_fractions else r"([0-9]{1,12})([bkmgtBKMGT]?)"
    found = re.fullmatch(form, text)
    if not found:
        raise WrongWords(f"{name}: {shown(text)}, expected a size such as 512M or 2G")
    unit = UNITS[found[2].upper()] if found[2] else bare
    return int(Fraction(found[1]) * unit)


def size_label(count: int) -> str:
    """A size by the largest unit of which it is a whole number."""
    for unit, length in (("G", GIB), ("M", MIB), ("K", KIB)):
        if count % length == 0:
            return f"{count // length}{unit}"
    return f"{count}B"


def parted(text: str) -> list[str]:
    """The parts of a text between commas, but for those in brackets."""
    found, depth = [""], 0
    for letter in text:
        depth += (letter == "[") - (letter == "]")
        if letter == "," and depth <= 0:
            found.append("")
        else:
            found[-1] += letter
    return found


def with_words(name: str, texts: list[str], key: str) -> list[tuple[str, list[str]]]:
    """The values of a list, each with the words `KEY=VALUE` that were said beside it. A value is said alone, or as `key=VALUE`."""
    found = []
    for text in texts:
        parts = parted(text)
        values = [part.removeprefix(key + "=") for part in parts if "=" not in part or part.startswith(key + "=")]
        beside = [part for part in parts if "=" in part and not part.startswith(key + "=")]
        if not values:
            raise WrongWords(f"{name}: {shown(text)} has no value, expected one alone or as {key}=")
        found += [(value, beside) for value in values]
    return found


def processors(name: str, texts: list[str], key: str, allows: Callable[[str], bool]) -> list[Processors]:
    found = []
    for value, beside in with_words(name, texts, key):
        refuse_beside(name, beside, allows)
        count = number(name, value, 1, 512)
        found.append(Processors(count, ",".join([str(count), *beside]), f"smp{count}"))
    return found


def refuse_beside(name: str, beside: list[str], allows: Callable[[str], bool]):
    """Words beside a value of which the effect is not known are refused."""
    for part in beside:
        if not allows(part.split("=")[0]):
            raise WrongWords(f"{name}: {shown(part)}: what it changes is not known, expected values alone")


def memories(name: str, texts: list[str], read: Callable[[str], tuple[int, int | None]], allows: Callable[[str], bool]) -> list[Memory]:
    """Sizes of RAM; `read` gives that of a text, and where RAM begins if the text says so."""
    found = []
    for value, beside in with_words(name, texts, "size"):
        refuse_beside(name, beside, allows)
        length, base = read(value)
        if not length:
            raise WrongWords(f"{name}: {shown(value)}, expected more than nothing")
        label = size_label(length) + (f"at{base:x}" if base is not None else "")
        found.append(Memory(length, ",".join([value, *beside]), label, base))
    return found


def algorithms(texts: list[str]) -> list[str]:
    values = [value for text in texts for value in text.split(",")]
    for value in values:
        if value not in ALGORITHMS:
            raise WrongWords(f"--algo: {shown(value)}, expected {' or '.join(ALGORITHMS)}")
    return values


def personalization(text: str) -> str | None:
    """The 64 bytes of a personalization value, which is hexadecimal digits or base64; None where it is neither."""
    if re.fullmatch(r"[0-9a-fA-F]{128}", text):
        return text.lower()
    try:
        data = base64.b64decode(text, validate=True)
    except (binascii.Error, ValueError):
        return None
    return data.hex() if len(data) == 64 else None


def appends(name: str, texts: list[str]) -> list[Word]:
    """Command lines of the kernel."""
    for text in texts:
        if any(ord(letter) < 32 or ord(letter) == 127 for letter in text):
            raise WrongWords(f"{name}: {shown(text)} has a control character, expected a text of one line")
        if any("\ud800" <= letter <= "\udfff" for letter in text):
            raise WrongWords(f"{name}: {shown(text)} is not UTF-8, expected a text that is")
        if len(text.encode()) > MOST_APPEND:
            raise WrongWords(f"{name}: {shown(text, 40)} has {len(text.encode())} bytes, expected at most {MOST_APPEND}")
    return labelled(texts)
