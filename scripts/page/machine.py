"""What a release assumes of the machine, as the record of a folder that rim-manifest has made says it."""
from __future__ import annotations

import os
from dataclasses import dataclass

from comparer.report import Malformed, member, or_none
from outside import files
from outside.faults import Fault
from outside.texts import visible

from .markup import code, count_of, escaped, named, scrolled, table

RECORD, MOST = "record.json", 64 << 20
WHAT = "a record of rim-manifest"
# What rim-manifest says of a row for which nobody chose an alternative.
LIKELIEST = "the likeliest"


@dataclass(frozen=True)
class Row:
    """A row that a realm may change: what is taken, what that means, who chose it, its likelihood in percent, and what else the machine may do."""

    name: str
    taken: str
    does: str
    source: str
    likely: int
    not_settled: tuple[str, ...]


@dataclass(frozen=True)
class Machine:
    """The hypervisor of a folder with its version, the file about the host, who settled it, the host's numbers with their sources, and the rows."""

    folder: str
    program: str
    host: str
    settled_by: str | None
    numbers: tuple[tuple[str, str, str], ...]
    rows: tuple[Row, ...]


def value_text(value: object) -> str:
    return str(value).lower() if isinstance(value, bool) else str(value)


def machine_of(table: object, folder: str) -> Machine:
    host = member(table, "host", dict)
    numbers = tuple((member(each, "name", str), value_text(each.get("value")), member(each, "from", str)) for each in member(host, "numbers", list))
    rows = tuple(Row(*(member(each, key, str) for key in ("name", "taken", "does", "from")), member(each, "likely", int),
                     tuple(map(str, member(each, "not_settled", list)))) for each in member(host, "rows", list))
    program = member(table, "program", str) or member(table, "hypervisor", str)
    return Machine(folder, program, member(host, "path", str), or_none(host, "settled_by", str), numbers, rows)


def read(folder: str, digests: dict[str, str]) -> Machine | None:
    """Returns what the record of a folder says, if there is one that has it. The manifests, given by their digests, must be those that it names."""
    path = os.path.join(folder, RECORD)
    if not os.path.lexists(path):
        return None
    table = files.json_of(path, files.read(path, MOST, WHAT), WHAT)
    if not isinstance(table, dict) or "host" not in table:
        return None
    try:
        made = member(table, "files", dict)
        changed = [name for name, digest in digests.items() if made.get(name) != digest]
        if changed:
            raise Malformed(f"it is not of {changed[0]}, which was changed since")
        return machine_of(table, folder)
    except Malformed as why:
        raise Fault(f"{visible(path)}: {why}, expected {WHAT}") from None


def state_of(row: Row, of: Machine) -> str:
    """Who says that a row is so."""
    if row.not_settled:
        return f"<em>not settled</em>: {named(' or '.join(row.not_settled))} is possible too"
    if row.source == LIKELIEST:
        return f"<b>assumed</b>, the likeliest ({row.likely}%)"
    if row.source.startswith("--"):
        return f"chosen by {code(row.source)}"
    return "settled" if of.settled_by else f"chosen in {code(row.source)}"


def part(of: Machine) -> str:
    """The part of a page about one folder."""
    open_ = sum(1 for row in of.rows if row.not_settled or row.source == LIKELIEST)
    settled = f"Settled by: {named(of.settled_by)}." if of.settled_by else "No machine has settled it."
    head = (f"<h2>What is assumed of the machine</h2><p>Of {code(of.folder)}, for {named(of.program)}. {settled} "
            f"{count_of(open_, 'row is', 'rows are')} assumed or not settled: if one of them is otherwise, the machine gives another value.</p>")
    rows = [[escaped(row.name), named(row.taken), named(row.does), state_of(row, of)] for row in of.rows]
    numbers = [[escaped(name), named(value), code(source)] for name, value, source in of.numbers]
    made = scrolled("Rows", table("What a realm may change", ["Row", "Taken", "Meaning", "Who says so"], rows))
    return head + made + (scrolled("Numbers", table("Numbers of the host", ["Number", "Value", "From"], numbers)) if numbers else "") + "\n"
