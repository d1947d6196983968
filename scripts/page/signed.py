"""What is to be signed: files that must hold exactly the values of a page."""
from __future__ import annotations

import hashlib
import json
from collections.abc import Mapping
from dataclasses import dataclass

from comparer import report
from comparer.report import Report, Value
from endorser import comid, in_toto
from outside import cbor, files
from outside.faults import Fault
from outside.texts import shown, visible

from .markup import code, digits, scrolled, table

# Longest file that is read, in bytes.
MOST = 64 << 20
WHAT = "a report of rim measure --json, an in-toto statement of it, or an unsigned CoRIM of rim-endorse"


@dataclass(frozen=True)
class Signed:
    """A file that is to be signed: its path, what it is, its length in bytes and its SHA-256 digest."""

    path: str
    kind: str
    length: int
    digest: str


def in_json(data: bytes, path: str) -> tuple[str, Report]:
    """Returns what JSON is, and the report in it."""
    table = files.json_of(path, data, WHAT)
    if not isinstance(table, dict) or "predicate" not in table:
        return "report", report.of_table(table, path)
    made, found = in_toto.statement(json.dumps(table["predicate"]).encode(), path)
    if json.loads(made) != table:
        raise Fault(f"{visible(path)}: it says other things than its report, expected a statement of rim-endorse --in-toto")
    return "in-toto statement", found


def check_report(path: str, has: Report, shown_: Report):
    """Compares a report with that of the page."""
    other = next((name for name in (*shown_.launches, *has.launches) if has.launches.get(name) != shown_.launches.get(name)), None)
    if other is not None:
        raise Fault(f"{visible(path)}: launch {shown(other)} is not as on the page, expected exactly the values of the page")
    if has.files != shown_.files:
        raise Fault(f"{visible(path)}: its files are not those of the page, expected the report of the same files")


def check_corim(path: str, data: bytes, launches: Mapping[str, Value]):
    """Compares a CoRIM, which may leave names out, and has no launch that is refused."""
    try:
        has = comid.values_in(data)
    except cbor.Malformed as why:
        raise Fault(f"{visible(path)}: {why}, expected {WHAT}") from None
    named = any(name is not None for _, name in has)
    expected = {(comid.endorsed(value), name if named else None) for name, value in launches.items() if not value.refused}
    if has != expected:
        raise Fault(f"{visible(path)}: it has {len(has - expected)} values that the page does not have, and lacks {len(expected - has)}, expected exactly "
                    "the values of the page")


def read(path: str, of: Report) -> Signed:
    """Reads a file that is to be signed. One that has other values than the report of a page is a fault."""
    data = files.read(path, MOST, WHAT)
    if data.lstrip().startswith(b"{"):
        kind, has = in_json(data, path)
        check_report(path, has, of)
    else:
        kind = "unsigned CoRIM"
        check_corim(path, data, of.launches)
    return Signed(path, kind, len(data), hashlib.sha256(data).hexdigest())


def part(some: tuple[Signed, ...]) -> str:
    """The part of a page that names the files."""
    rows = [[code(each.path), digits(each.digest), each.kind, f"{each.length:,}"] for each in some]
    made = scrolled("Signed", table("Each of these files has exactly the values of this page", ["File", "SHA-256", "What", "Bytes"], rows))
    return f"<h2>What is to be signed</h2>{made}\n" if some else ""
