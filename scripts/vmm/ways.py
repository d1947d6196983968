"""Which alternative is taken of each row that a realm may change: what an option says, or else the file about the host, or else the likeliest."""
import re
from dataclasses import dataclass

from outside.faults import WrongWords
from outside.texts import shown

from .layout import Row, Way

LIKELIEST = "the likeliest"
# The rows of which an option of their name says the alternative.
OPTIONS = {"stub": "--stub", "order": "--order", "kernel_pages": "--kernel-pages", "dtb_pages": "--dtb-pages", "s2sz": "--s2sz"}
# The words of an order, beside the names of blobs.
RAM, RECS = "ram", "rec"
BLOBS = ("kernel", "initrd", "dtb", "stub", "firmware")


@dataclass(frozen=True)
class Chosen:
    """What is taken of a row: its name, and where the choice comes from."""

    row: Row
    name: str
    source: str

    @property
    def way(self) -> Way:
        return self.row.way(self.name) or Way(self.name, "as it is given", 0)

    @property
    def is_of_option(self) -> bool:
        return self.source.startswith("--")

    @property
    def is_of_file(self) -> bool:
        return not self.is_of_option and self.source != LIKELIEST

    @property
    def is_likeliest(self) -> bool:
        return self.name == self.row.names[0]


def is_way(row: Row, name: str) -> bool:
    """Whether a row has an alternative of this name, or takes this text in the place of one."""
    if row.way(name):
        return True
    if row.name == "s2sz" and row.more:
        return bool(re.fullmatch(r"[0-9]{2}", name)) and 32 <= int(name) <= 48
    return row.name == "order" and bool(row.more) and is_order(name.split(","))


def is_order(words: list[str]) -> bool:
    """Whether some words are an order: RAM, RECs and blobs, each once."""
    return len(set(words)) == len(words) and {RAM, RECS, "dtb"} <= set(words) <= {RAM, RECS, *BLOBS} and bool({"kernel", "firmware"} & set(words))


def parted(text: str, rows: dict[str, Row]) -> tuple[str, str]:
    """The row and the alternative of a word of --row."""
    name, _, way = text.partition("=")
    if name not in rows:
        raise WrongWords(f"--row: {shown(text)}, expected ROW=ALTERNATIVE, of one of {', '.join(rows)}")
    if not is_way(rows[name], way):
        raise WrongWords(f"--row: {shown(text)}, expected {name}={rows[name].expected}")
    return name, way


def said_by_options(said: dict, rows: dict[str, Row]) -> dict[str, tuple[str, str]]:
    """What options say: by the name of a row its alternative, and the option."""
    found: dict[str, tuple[str, str]] = {}
    for key, option in OPTIONS.items():
        if key in said and key in rows:
            if not is_way(rows[key], said[key]):
                raise WrongWords(f"{option}: {shown(said[key])}, expected {rows[key].expected}")
            found[key] = said[key], option
    for text in said.get("row", []):
        name, way = parted(text, rows)
        if found.get(name, (way,))[0] != way:
            raise WrongWords(f"{found[name][1]} and --row: {name} is {shown(found[name][0])} and {shown(way)}, expected one of them")
        found[name] = way, found.get(name, ("", "--row"))[1]
    return found


def chosen(rows: dict[str, Row], said: dict, of_host: dict[str, str], host_name: str) -> dict[str, Chosen]:
    """What is taken of each row."""
    options = said_by_options(said, rows)
    found = {}
    for name, row in rows.items():
        if name in options:
            found[name] = Chosen(row, *options[name])
        elif name in of_host:
            found[name] = Chosen(row, of_host[name], host_name)
        else:
            found[name] = Chosen(row, row.names[0], LIKELIEST)
    return found
