"""Expected values of a platform, from a TOML file, and how the claims of a platform token differ from them.

The labels and the numbers of the lifecycle are from memory of DEN0137 and draft-ffm-rats-cca-token.
"""
from __future__ import annotations

import re
from collections.abc import Callable, Mapping

from outside import files
from outside.faults import Fault
from outside.texts import shown, visible

# Longest file that is read, in bytes.
MOST = 1 << 20
WHAT = "expected values of a platform"
# Claims of a platform token, and the labels of a software component.
LIFECYCLE, IMPLEMENTATION, SOFTWARE = 2395, 2396, 2399
COMPONENT = {"type": 1, "measurement": 2, "version": 4, "signer": 5}
# The states of the lifecycle: the higher byte of the claim.
STATES = {"unknown": 0x00, "assembly_and_test": 0x10, "rot_provisioning": 0x20, "secured": 0x30, "non_cca_platform_rot_debug": 0x40,
          "recoverable_cca_platform_rot_debug": 0x50, "decommissioned": 0x60}
HEX = re.compile("([0-9a-fA-F]{2})+")


def is_hex(value: object) -> bool:
    return isinstance(value, str) and HEX.fullmatch(value) is not None


def is_component(value: object) -> bool:
    """Returns whether a table of `software` has known keys alone, a measurement and its signer among them."""
    if not isinstance(value, dict) or not {"measurement", "signer"} <= set(value) <= set(COMPONENT):
        return False
    return is_hex(value["measurement"]) and is_hex(value["signer"]) and all(isinstance(each, str) for each in value.values())


# What each key of the file may be.
KEYS: dict[str, tuple[Callable[[object], bool], str]] = {
    "implementation_id": (is_hex, "hexadecimal digits"),
    "lifecycle": (lambda value: isinstance(value, str) and value in STATES, " or ".join(STATES)),
    "software": (lambda value: isinstance(value, list) and all(map(is_component, value)),
                 "tables, each with measurement and signer in hexadecimal digits, and perhaps type and version"),
}


def read(path: str) -> dict:
    """Returns the table of a file of expected values, which has one at least."""
    table = files.toml_of(path, files.read(path, MOST, WHAT), WHAT)
    for key, value in table.items():
        if key not in KEYS:
            raise Fault(f"{visible(path)}: the key {shown(key)} is not known, expected {', '.join(KEYS)}")
        is_right, kind = KEYS[key]
        if not is_right(value):
            raise Fault(f"{visible(path)}: {key} is of another form, expected {kind}")
    if not table:
        raise Fault(f"{visible(path)}: it has no key, expected {', '.join(KEYS)}")
    return table


def fits(component: object, expected: Mapping[str, str]) -> bool:
    """Returns whether a software component of a token has all that is expected of one."""
    if not isinstance(component, dict):
        return False
    return all(component.get(COMPONENT[key]) == (bytes.fromhex(text) if key in ("measurement", "signer") else text) for key, text in expected.items())


def difference(claims: Mapping, table: Mapping) -> str:
    """Returns how the claims of a platform differ from the expected values first; "" if they don't."""
    if "implementation_id" in table and claims.get(IMPLEMENTATION) != bytes.fromhex(table["implementation_id"]):
        return f"the implementation id (claim {IMPLEMENTATION}) is not the expected one"
    if "lifecycle" in table:
        said = claims.get(LIFECYCLE)
        if type(said) is not int or said < 0 or said >> 8 != STATES[table["lifecycle"]]:
            return f"the lifecycle (claim {LIFECYCLE}) is {said:#06x}, expected {table['lifecycle']}" if type(said) is int else "the lifecycle is missing"
    return software_difference(claims.get(SOFTWARE), table["software"]) if "software" in table else ""


def software_difference(said: object, wanted: list) -> str:
    """Compares software components: each one that is expected has to be there, and no other one."""
    found = said if isinstance(said, list) else []
    for number, component in enumerate(found, 1):
        if not any(fits(component, each) for each in wanted):
            return f"software component {number} of the token (claim {SOFTWARE}) is not expected"
    missing = [number for number, each in enumerate(wanted, 1) if not any(fits(component, each) for component in found)]
    return f"the token has no software component (claim {SOFTWARE}) as number {missing[0]} of those expected" if missing else ""
