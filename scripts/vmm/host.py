"""The file about a host: what no words say. vmm/host-example.toml explains each key."""
from __future__ import annotations

import os
import re
from dataclasses import dataclass, field

from outside import files, parameters
from outside.faults import Fault
from outside.texts import shown, visible

from .layout import Row
from .ways import is_way

# Each number with its least and its greatest value. `block_level` is a row too, and so is `rec_rule`: they may be here or in [realm].
NUMBERS = {**dict.fromkeys(parameters.KEYS, (0, parameters.MOST)), "block_level": (0, 3), "s2sz_max": (32, 48), "num_aux": (0, 16),
           "pool_base": (0, (1 << 48) - 65536), "pool_count": (1, 1 << 24)}
FLAGS = parameters.FLAGS
RULES = ("runnable", "all")
TEXTS = ("rpv", "rec_rule", "hypervisor_version", "settled_by")
# The table that names alternatives of rows, and the longest text of `settled_by`.
REALM, MOST_SETTLED_BY = "realm", 1000
# The key with the alternatives, as ROW=ALTERNATIVE, that `settle` has not excluded beside those that are taken.
NOT_SETTLED = "not_settled"
# What the example has in the place of a number that only the machine knows.
UNSAID = "?"
MOST = 64 << 10


def example() -> str:
    """The path of the example, as it is where this is installed; from the user's folder on where it is below that."""
    path = os.path.join(os.path.dirname(os.path.realpath(__file__)), "host-example.toml")
    try:
        near = os.path.relpath(path)
    except OSError:
        return path
    return path if near.startswith(os.pardir) else near


@dataclass(frozen=True)
class Host:
    path: str
    values: dict[str, int | str]
    notes: dict[str, str] = field(default_factory=dict)     # where a value comes from that the file does not have
    realm: dict[str, str] = field(default_factory=dict)     # the alternatives of rows, by their names
    not_settled: dict[str, list[str]] = field(default_factory=dict)     # the other alternatives that rows may have, by their names

    def __getitem__(self, key: str) -> int | str | None:
        return self.values.get(key)

    @property
    def name(self) -> str:
        return visible(self.path)

    @property
    def ways(self) -> dict[str, str]:
        """The alternatives of rows that it names, in [realm] or, of two of them, beside it."""
        return {key: str(self.values[key]) for key in ("block_level", "rec_rule") if key in self.values} | self.realm

    def require(self, key: str, why: str) -> int | str:
        if key not in self.values:
            raise Fault(f"{self.name}: it has no {key}, expected one {why} ({visible(example())} explains it)")
        return self.values[key]


def read(path: str, rows: dict[str, Row], is_settled: bool = True) -> Host:
    """What a file says; `rows` are those of which it may name an alternative. Before it is settled, numbers may be missing, or be "?"."""
    values: dict[str, int | str] = {}
    table = files.toml_of(path, files.read(path, MOST, "the file of --host"), "the file of --host")
    realm = realm_of(path, table.pop(REALM, {}), rows)
    not_settled = not_settled_of(path, table.pop(NOT_SETTLED, []), rows)
    unsaid = [key for key, value in table.items() if value == UNSAID]
    if not is_settled:
        table = {key: value for key, value in table.items() if key not in unsaid or key not in (*NUMBERS, *FLAGS)}
    elif unsaid and not set(unsaid) - {*NUMBERS, *FLAGS, *TEXTS}:
        raise Fault(f'{visible(path)}: {", ".join(unsaid)}: "{UNSAID}" as in the example, expected what holds for the machine, '
                    "or no such line where it need not be given")
    for key, value in table.items():
        if expected := wrong(key, value):
            raise Fault(f"{visible(path)}: {key_shown(key)} = {value_shown(value)}, expected {expected}")
        if isinstance(value, (int, str)):
            values[key] = value
    for key in set(realm) & set(values) & {"block_level", "rec_rule"}:
        raise Fault(f"{visible(path)}: {key}: it is given twice, once in [{REALM}], expected it there alone")
    host = Host(path, values, realm=realm, not_settled=not_settled)
    for key in parameters.ASKED if is_settled else ():
        host.require(key, "since it is measured")
    for flag, key in parameters.FLAGGED:
        if values.get(flag) and is_settled:
            host.require(key, f"since {flag} is true and it is measured")
        elif values.get(flag) is False and values.get(key):
            raise Fault(f"{visible(path)}: {key} = {values[key]} and {flag} = false, expected no {key} or {flag} = true")
    return host


def realm_of(path: str, table: object, rows: dict[str, Row]) -> dict[str, str]:
    """The alternatives that the table [realm] names. A number is as its text."""
    if not isinstance(table, dict):
        raise Fault(f"{visible(path)}: {REALM} = {value_shown(table)}, expected a table of alternatives")
    found = {}
    for name, value in table.items():
        if name not in rows:
            raise Fault(f"{visible(path)}: [{REALM}]: {key_shown(name)} = {value_shown(value)}, expected one of {', '.join(rows)}")
        text = str(value) if isinstance(value, int) and not isinstance(value, bool) else value
        if not isinstance(text, str) or not is_way(rows[name], text):
            raise Fault(f"{visible(path)}: [{REALM}]: {name} = {value_shown(value)}, expected {rows[name].expected}")
        found[name] = text
    return found


def not_settled_of(path: str, entries: object, rows: dict[str, Row]) -> dict[str, list[str]]:
    """The alternatives that the key `not_settled` has, by the names of their rows."""
    if not isinstance(entries, list):
        raise Fault(f"{visible(path)}: {NOT_SETTLED} = {value_shown(entries)}, expected an array of texts ROW=ALTERNATIVE")
    found: dict[str, list[str]] = {}
    for entry in entries:
        name, _, way = entry.partition("=") if isinstance(entry, str) else ("", "", "")
        if name not in rows or not rows[name].way(way):
            expected = f"{name}={' or '.join(rows[name].names)}" if name in rows else f"ROW=ALTERNATIVE, of one of {', '.join(rows)}"
            raise Fault(f"{visible(path)}: {NOT_SETTLED}: {value_shown(entry)}, expected {expected}")
        found.setdefault(name, []).append(way)
    return found


def key_shown(key: str) -> str:
    return key if re.fullmatch(r"[a-z0-9_]{1,32}", key) else shown(key)


def value_shown(value: object) -> str:
    """A value of TOML in a line."""
    if isinstance(value, bool):
        return "true" if value else "false"
    if isinstance(value, (dict, list)):
        return "a table" if isinstance(value, dict) else "an array"
    if isinstance(value, int) and abs(value) >= 1 << 64:
        return "a large number"
    return shown(value) if isinstance(value, str) else str(value)


def wrong(key: str, value: object) -> str | None:
    """What is expected of a key, where its value is not that."""
    if key in NUMBERS:
        least, most = NUMBERS[key]
        is_number = isinstance(value, int) and not isinstance(value, bool) and least <= value <= most
        if key == "pool_base" and isinstance(value, int) and is_number and value % 65536:
            return "a multiple of 65,536"
        return None if is_number else f"a whole number from {least} to {most}"
    if key in FLAGS:
        return None if isinstance(value, bool) else "true or false"
    if key == "rec_rule":
        return None if value in RULES else "runnable or all"
    if key == "settled_by":
        return None if isinstance(value, str) and len(value) <= MOST_SETTLED_BY else f"a text of at most {MOST_SETTLED_BY} characters"
    if key == "rpv":
        return None if isinstance(value, str) and re.fullmatch(r"[0-9a-fA-F]{128}", value) else "128 hexadecimal digits"
    if key == "hypervisor_version":
        is_version = isinstance(value, str) and re.fullmatch(r"[0-9]{1,6}(\.[0-9]{1,6})*([.+~_-][0-9A-Za-z.+~_-]{0,64})?", value)
        return None if is_version else "a version such as 10.0.2"
    return "one of " + ", ".join([*NUMBERS, *FLAGS, *TEXTS, NOT_SETTLED, f"[{REALM}]"])
