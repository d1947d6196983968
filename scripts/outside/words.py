"""The words of a command line: options with their values, operands, and what comes after `--`."""
from collections.abc import Callable, Iterator, Mapping
from dataclasses import dataclass

from .faults import WrongWords
from .texts import shown

# The version of the scripts.
VERSION = "0.2.0"
# Stands for an option where there is none.
END = "--"


@dataclass(frozen=True)
class Known:
    """What a script knows of its words: what each option takes, nothing where it is a flag; what refuses a word that is no option, which gets
    the words after it too; and what is said of an option after which nothing comes."""

    takes: Mapping[str, str]
    refuse: Callable[[str, list[str]], None]
    nothing: str = "nothing comes after it"


def walk(known: Known, words: list[str]) -> Iterator[tuple[str, str]]:
    """Each option with its value, which is empty for a flag; each operand with an empty option; what comes after `--` with that."""
    rest = list(words)
    while rest:
        word = rest.pop(0)
        if word == END:
            yield from ((END, each) for each in rest)
            return
        name, is_joined, value = word.partition("=") if word.startswith("--") else (word, "", "")
        if name not in known.takes or is_joined and not known.takes[name]:
            known.refuse(word, rest)
            yield "", word
        elif is_joined or not known.takes[name]:
            yield name, value
        elif rest:
            yield name, rest.pop(0)
        else:
            raise WrongWords(f"{name}: {known.nothing}, expected {known.takes[name]}")


def no_option(script: str) -> Callable[[str, list[str]], None]:
    """Refuses a word that begins as an option does: each other one is an operand."""
    def refuse(word: str, _rest: list[str]):
        if word.startswith("-") and word != "-":
            raise WrongWords(f"{shown(word)} is no option; see {script} --help")
    return refuse
