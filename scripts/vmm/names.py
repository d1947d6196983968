"""Names of launches, and of what they are made of. A name is made of what it names alone: it never says at which place of a list that was,
so it keeps its meaning whatever comes beside it."""
import hashlib
import re

from outside.faults import WrongWords
from outside.texts import shown

from .guest import Guest, Word

# The longest name of a launch or of a file that a manifest takes (docs/FORMATS.md), and how long the name of a file of the folder's is.
MOST, MOST_FILE = 64, 48
NAMED = re.compile(r"([A-Za-z0-9._-]+)=(.+)", re.S)
DIGITS = 6
# The parts that a launch's name has always, and of these the ones that are as long as what they name.
ALWAYS = ("memory", "smp", "kernel", "initrd", "append", "algo")
LONG = ("machine", "cpu", "kernel", "initrd", "append")


def clean(text: str) -> str:
    """A text as a part of a name: each stretch of characters that a name may not have is a `_`."""
    return re.sub(r"[^A-Za-z0-9._-]+", "_", text)


def digest(text: str) -> str:
    return hashlib.sha256(text.encode(errors="surrogateescape")).hexdigest()[:DIGITS]


def short(label: str, most: int) -> str:
    """A label of at most so many characters: of a longer one the beginning, some digits of its digest, and the end."""
    if len(label) <= most:
        return label
    left = max(most - DIGITS - 2, 0)
    return f"{label[:left - left // 2]}_{digest(label)}_{label[len(label) - left // 2:]}" if left else digest(label)[:most]


def labelled(texts: list[str]) -> list[Word]:
    """Texts with their labels. Of different texts with one label each has digits of its digest beside it."""
    labels = [clean(text) for text in texts]
    of_label: dict[str, set[str]] = {}
    for text, label in zip(texts, labels):
        of_label.setdefault(label, set()).add(text)
    return [Word(text, label if len(of_label[label]) == 1 else f"{label}_{digest(text)}") for text, label in zip(texts, labels)]


def parted(text: str) -> tuple[str, str]:
    """The name and the path of NAME=FILE; without a name it is that of the file. A path with a `=` and no name is written as ./PATH."""
    found = NAMED.fullmatch(text)
    return (found[1], found[2]) if found else (clean(text.rsplit("/", 1)[-1]), text)


def files(option: str, texts: list[str], is_line: bool) -> list[tuple[str, str]]:
    """Names and paths of files. Those of a hypervisor's line are paths alone."""
    found = [(clean(text.rsplit("/", 1)[-1]), text) if is_line else parted(text) for text in texts]
    paths: dict[str, str] = {}
    for name, path in found:
        other = paths.setdefault(name, path)
        if other != path:
            raise WrongWords(f"{option}: {shown(other)} and {shown(path)} are both called {name}, expected NAME=FILE for one of them")
    return found


def name_of(guest: Guest, several: set[str], is_short: bool) -> str:
    """The name of a launch: RAM, processors, kernel, initrd, command line, algorithm; machine and model where there are several of them.
    Long parts are cut where the whole would be too long."""
    labels = {"machine": guest.machine.label, "cpu": guest.cpu.label, "memory": guest.memory.label, "smp": guest.smp.label,
              "kernel": guest.loaded.label, "initrd": guest.initrd.label if guest.initrd else "" if guest.firmware else "no-initrd",
              "append": guest.append.label, "algo": guest.algo}
    always = ("memory", "smp", "algo") if is_short else ALWAYS
    parts = {key: label for key, label in labels.items() if label and (key in always or key in several)}
    room = MOST - len(parts) + 1 - sum(len(label) for key, label in parts.items() if key not in LONG)
    most = MOST
    while most > DIGITS and sum(min(len(label), most) for key, label in parts.items() if key in LONG) > room:
        most -= 1
    return "-".join(short(label, most) if key in LONG else label for key, label in parts.items())
