"""The tables of the hypervisors against their type, the man page and docs/VMM.md."""
import inspect
import os
import re

from helpers import TOP
from vmm import host as host_keys
from vmm.hypervisor import Hypervisor
from vmm.hypervisors import HYPERVISORS
from vmm.main import options_of
from vmm.qemu_words import MACHINE
from vmm.rows import SHARED


def types(_program: str):
    """Each hypervisor has what its type asks for, and no word in two rows of its table."""
    wrong = []
    methods = {name: inspect.signature(method) for name, method in vars(Hypervisor).items() if inspect.isfunction(method) and name[0] != "_"}
    for name, vmm in HYPERVISORS.items():
        wrong += [f"{name}: {each} is missing" for each in (*Hypervisor.__annotations__, *methods) if not hasattr(vmm, each)]
        wrong += [f"{name}: {each} takes something else" for each, signature in methods.items()
                  if len(inspect.signature(getattr(vmm, each)).parameters) != len(signature.parameters) - 1]
        words = [each for entry in vmm.GRAMMAR.table for each in entry.names]
        wrong += [f"{name}: {each} is in two rows" for each in sorted({each for each in words if words.count(each) > 1})]
        keys = {option.key for option in vmm.OPTIONS}
        wrong += [f"{name}: {entry.names[0]} is of no option" for entry in vmm.GRAMMAR.table if entry.key and entry.key not in keys]
    return wrong


def documents(_program: str):
    """The man page names each option, each key of the host and each alternative; docs/VMM.md has each row of the tables, and what is said
    of its alternatives."""
    page, tables = (open(os.path.join(TOP, "docs", name), encoding="utf-8").read() for name in ("rim-manifest.1", "VMM.md"))
    named = set(re.split(r'[\s",()|]+', page.replace("\\-", "-").replace("\\fI", " ").replace("\\fR", " ")))
    wrong = []
    for vmm in HYPERVISORS.values():
        wrong += [f"docs/rim-manifest.1: {name} is not named" for option in options_of(vmm) for name in option.names if name not in named]
        every = [*vmm.TABLE, *vmm.FIRMWARE]
        rows = [f"| {row.name} | {row.rule} | {row.sure} |" for row in every]
        rows += [f"| {'all' if row in SHARED else vmm.NAME} | {row.name} | `{way.name}` | {way.does} | {way.likely}%, {way.sure} |"
                 for row in every for way in row.ways]
        wrong += [f"docs/VMM.md has not {row!r}" for row in dict.fromkeys(rows) if row not in tables]
        wrong += [f"docs/rim-manifest.1: {name} of {row.name} is not named" for row in every for name in (row.name, *row.names)
                  if row.ways and name not in named]
        wrong += [f"{vmm.NAME}: {row.name}: its alternatives are not the likeliest first, or come to other than 100" for row in every if row.ways
                  and ([way.likely for way in row.ways] != sorted((way.likely for way in row.ways), reverse=True)
                       or sum(way.likely for way in row.ways) != 100)]
    words = {key for row in MACHINE if not row.instead or row.passes for key in row.keys}
    wrong += [f"docs/VMM.md: {key} of -M is not named" for key in sorted(words) if f"`{key}`" not in tables]
    keys = {*host_keys.NUMBERS, *host_keys.FLAGS, *host_keys.TEXTS}
    return wrong + [f"docs/rim-manifest.1: {key} is not named" for key in sorted(keys - named)]
