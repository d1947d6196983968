#!/usr/bin/env python3
"""Gives rim-compare a kept report and a manifest that was changed since, and looks at what it says.

    tests/comparing.py [PROGRAM]          by default the program that `rt ci` has built

- Changes: PROGRAM makes the report of a manifest, the manifest or a file is changed here, and rim-compare has to print the lines that are
  written here. Values in them are those of `rim measure`, digests of files those of Python's hashlib.
- Launches that changed for one cause: it is said once.
- Several manifests: the script that joins their reports, and what rim-compare says of what it writes; what misbehaves, and signals.
- Two reports, reports of versions 1 and 2, another program, reports that are none, wrong words and faults, an installed rim-compare, its
  man page.

The files are made here, and PROGRAM measures. The last line is 'N passed, M failed'.
"""
import copy
import hashlib
import json
import os
import re
import shutil
import signal
import subprocess
import sys
import time

from helpers import SCRIPTS, TOP, manifests
from helpers.files import tree
from helpers.folders import Folder
from helpers.manifests import launch
from helpers.processes import still_running
from helpers.tries import at_a_time, differs, program_of, told

START = os.path.join(TOP, "rim-compare")
ODD = 'a "b"\n'
FILES = {"one": b"*", "two": bytes(range(250)) * 40, ODD: b"a name that has to be quoted"}
ITEM = "item = [{ name = 'i', kind = 'raw', file = '%s', at = 0x40000000%s }]"
OVERLAP = "item = [{ name = 'i', kind = 'raw', file = 'two', at = 0x40000000 }, { name = 'j', kind = 'raw', file = 'one', at = 0x40001000 }]"
RAM = "ram = [[0x40000000, 0x40010000]]"


LAUNCHES = [launch("a", RAM, ITEM % ("one", "")), launch("b", RAM, ITEM % ("two", ", measured = false"), algo="sha512"),
            launch("c", ITEM % ("two", "")), launch("d")]
PATHS = {"one": "one", "two": "two", "odd": 'a "b"\n'}


def manifest(launches: list[str], paths: dict[str, str]) -> bytes:
    return manifests.manifest(*launches, files=paths).encode()


def folder(more: dict[str, bytes] | None = None) -> Folder:
    return Folder(FILES | {"m.toml": manifest(LAUNCHES, PATHS)} | (more or {}))


def made(program: str, here: Folder, *words: str) -> str:
    """What PROGRAM prints of a manifest in a folder."""
    ran = subprocess.run([program, "measure", *words], cwd=here.path, capture_output=True, text=True, check=False)
    if ran.returncode > 1:
        raise ValueError(ran.stderr.strip())
    return ran.stdout


def keep(program: str, here: Folder):
    here.put("kept.json", made(program, here, "--json", "m.toml").encode())


def values(program: str, here: Folder) -> dict[str, str]:
    """What came of each launch, as the lines of a report have it: `ALGORITHM DIGITS`, or `refused KIND`."""
    return dict(line.split(" ", 1) for line in made(program, here, "m.toml").splitlines()[1:-1])


def digest(data: bytes) -> str:
    return hashlib.sha256(data).hexdigest()


def content(data: bytes) -> str:
    return f"{len(data)} byte{'s' * (len(data) != 1)}, sha256 {digest(data)}"


# ---- changes: what they are, the new launches, paths and files, and the lines, in which {A} is what launch a had, and {a} what it has


def replaced(name: str, old: str, new: str) -> list[str]:
    return [each.replace(old, new) if f'name = "{name}"' in each else each for each in LAUNCHES]


OTHER, MORE, LONGER = b"+", b"more", FILES[ODD] + b"\0"
CHANGES = [
    ("nothing", LAUNCHES, PATHS, {}, []),
    ("the order", LAUNCHES[::-1], dict(reversed(PATHS.items())), {}, []),
    ("a key", replaced("d", "s2sz = 33", "s2sz = 33\nnum_bps = 5"), PATHS, {},
     ['launch "d" has another value: {d}, was {D}', "  parameter num_bps: 5, was 0"]),
    ("an algorithm", replaced("b", "sha512", "sha256"), PATHS, {},
     ['launch "b" has another value: {b}, was {B}', "  algorithm: sha256, was sha512"]),
    ("a personalization value", replaced("d", "s2sz = 33", "s2sz = 33\nrpv = '" + "ab" * 64 + "'"), PATHS, {},
     ['launch "d" has another personalization value: ' + "ab" * 64 + ", was " + "00" * 64]),
    ("a refusal", replaced("a", "0x40010000", "0x40010001"), PATHS, {},
     ['launch "a" is refused now: plan-unaligned, was {A}', "  RAM: 0x40000000 to 0x40010001, was 0x40000000 to 0x40010000"]),
    ("an acceptance", replaced("c", "item", RAM + "\nitem"), PATHS, {},
     ['launch "c" is accepted now: {c}, was refused outside-ram', "  RAM: 0x40000000 to 0x40010000, was none"]),
    ("an acceptance at another address, with a size",
     replaced("c", ITEM % ("two", ""), RAM + "\n" + (ITEM % ("two", ", size = 0x3000")).replace("0x40000000", "0x40002000")), PATHS, {},
     ['launch "c" is accepted now: {c}, was refused outside-ram', "  RAM: 0x40000000 to 0x40010000, was none",
      '  item "i", address: 0x40002000, was 0x40000000']),
    ("another refusal", [LAUNCHES[0], LAUNCHES[1], launch("c", RAM, OVERLAP), LAUNCHES[3]], PATHS, {},
     ['launch "c" is refused for another reason: overlap, was outside-ram', "  RAM: 0x40000000 to 0x40010000, was none",
      f'  item "j" is new: raw, sha256 {digest(FILES["one"])}']),
    ("a name", replaced("b", '"b"', '"new"'), PATHS, {}, ['launch "new" has the value that launch "b" had, which is gone: {new}']),
    ("the name of one that is refused", replaced("c", '"c"', '"new"'), PATHS, {},
     ['launch "c" is gone: it was {C}', 'launch "new" is new: {new}']),
    ("names exchanged", [*replaced("a", '"a"', '"d"')[:1], *LAUNCHES[1:3], *replaced("d", '"d"', '"a"')[3:]], PATHS, {},
     ['launch "a" has the value that launch "d" had: {D}, was {A}', "  RAM: none, was 0x40000000 to 0x40010000",
      f'  item "i" is gone: it was raw, sha256 {digest(FILES["one"])}', 'launch "d" has the value that launch "a" had: {A}, was {D}',
      "  RAM: 0x40000000 to 0x40010000, was none", f'  item "i" is new: raw, sha256 {digest(FILES["one"])}']),
    ("a launch more", [LAUNCHES[0], launch("bad", ITEM % ("one", "")), *LAUNCHES[1:]], PATHS, {}, ['launch "bad" is new: refused outside-ram']),
    ("a launch that was refused is gone", [LAUNCHES[0], LAUNCHES[1], LAUNCHES[3]], PATHS, {},
     ['launch "c" is gone: it was refused outside-ram']),
    ("a file that is measured", LAUNCHES, PATHS, {"one": OTHER},
     ['launch "a" has another value: {a}, was {A}', f'  item "i", sha256: {digest(OTHER)}, was {digest(FILES["one"])}',
      f'file "one" has other contents: {content(OTHER)}, was {content(FILES["one"])}']),
    ("a file that is not measured", LAUNCHES, PATHS, {"two": FILES["two"][:-1]},
     [f'file "two" has other contents: {content(FILES["two"][:-1])}, was {content(FILES["two"])}']),
    ("a file that has one byte more", LAUNCHES, PATHS, {ODD: LONGER},
     [r'file "a \"b\"\x0a" has other contents: ' + f"{content(LONGER)}, was {content(FILES[ODD])}"]),
    ("another path", LAUNCHES, PATHS | {"one": "./one"}, {},
     [f'file "./one" has the contents that file "one" had, which is gone: {content(FILES["one"])}']),
    ("a file more", LAUNCHES, PATHS | {"more": "more"}, {"more": MORE}, [f'file "more" is new: {content(MORE)}']),
    ("a path twice", LAUNCHES, PATHS | {"twin": "two"}, {}, []),
    ("all at once", [*LAUNCHES[2:], launch("e"), launch("f", algo="sha512")], {"two": "two", "one": "more"}, {"more": MORE},
     ['launch "a" is gone: it was {A}', 'launch "b" is gone: it was {B}', 'launch "e" is new: {e}', 'launch "f" is new: {f}',
      f'file "one" is gone: it was {content(FILES["one"])}',
      r'file "a \"b\"\x0a" is gone: it was ' + content(FILES[ODD]), f'file "more" is new: {content(MORE)}']),
]


def change(program: str, launches: list[str], paths: dict[str, str], files: dict[str, bytes], lines: list[str]) -> list[str]:
    here = folder()
    keep(program, here)
    was = values(program, here)
    for name, data in files.items():
        here.put(name, data)
    here.put("m.toml", manifest(launches, paths))
    now = values(program, here)
    known = {name.upper(): value for name, value in was.items()} | now
    expected = [re.sub(r"\{(\w+)\}", lambda name: known[name[1]], line) for line in lines]
    wrong = differs("a manifest", here.run("kept.json", "m.toml", start=START, RIM=program),
                    (int(bool(lines)), "".join(line + "\n" for line in expected), ""))
    # two reports give the same lines
    here.put("now.json", made(program, here, "--json", "m.toml").encode())
    return wrong + differs("a report", here.run("--", "kept.json", "now.json", start=START, RIM="/none/rim"),
                           (int(bool(lines)), "".join(line + "\n" for line in expected), ""))


# ---- reports


def one_cause(program: str) -> list[str]:
    """What differs in the same way in several launches is said once, below all of them; what is of one of them is below its own line."""
    item = ITEM % ("one", "")
    before = [launch(name, RAM, item) for name in "pqst"] + [launch("r"), launch("u", RAM, item.replace("one", "two"))]
    after = [launch("p", RAM, item), launch("q", RAM, item), launch("s", "num_bps = 5", RAM, item), launch("t", "num_wps = 7", RAM, item),
             launch("r", "num_bps = 5"), before[5]]
    here = folder({"m.toml": manifest(before, PATHS)})
    was = values(program, here)
    keep(program, here)
    here.put("one", OTHER)
    here.put("m.toml", manifest(after, PATHS))
    now = values(program, here)
    head = {name: f'launch "{name}" has another value: {now[name]}, was {was[name]}' for name in "pqstr"}
    file = f'item "i", sha256: {digest(OTHER)}, was {digest(FILES["one"])}'
    expected = [head["p"], head["q"], head["t"], "  parameter num_wps: 7, was 0", f"  each of these 3 launches: {file}",
                head["s"], "  parameter num_bps: 5, was 0", f"  {file}", head["r"], "  parameter num_bps: 5, was 0",
                f'file "one" has other contents: {content(OTHER)}, was {content(FILES["one"])}']
    wrong = differs("lines", here.run("kept.json", "m.toml", start=START, RIM=program), (1, "".join(line + "\n" for line in expected), ""))
    table = json.loads(here.run("--json", "kept.json", "m.toml", start=START, RIM=program)[1])
    inputs = [[each["what"] for each in one["inputs"]] for one in table["differences"] if one["of"] == "launch"]
    return wrong + differs("JSON", inputs, [['item "i", sha256']] * 2 + [["parameter num_bps", 'item "i", sha256'], ["parameter num_wps", 'item "i", sha256'],
                                                                       ["parameter num_bps"]])


def report(program: str, here: Folder) -> dict:
    keep(program, here)
    return json.loads(here.read("kept.json"))


def of_version(table: dict, version: int) -> dict:
    """The report as earlier versions had it."""
    old = {key: copy.deepcopy(table[key]) for key in (("files", "launches", "pages", "program") if version == 3 else ("launches", "pages"))}
    known = {"algorithm", "name", "refused", "rim"} | ({"rim_base64"} if version > 1 else set())
    old["launches"] = [{key: value for key, value in each.items() if key in known} for each in old["launches"]]
    return old | {"version": version}


def versions(program: str) -> list[str]:
    """Reports without files: values alone are compared, and that is said."""
    here = folder()
    now, wrong = report(program, here), []
    for version in (1, 2):
        said = "rim-compare: the kept report has version %d, the other one version %d: values alone are compared, since versions 1 and 2 " \
               "have no files\n"
        old = of_version(now, version)
        here.put("old.json", json.dumps(old, indent=2).encode())
        wrong += differs(f"version {version}, the same", here.run("old.json", "m.toml", start=START, RIM=program), (0, "", said % (version, 4)))
        wrong += differs(f"version {version} now", here.run("kept.json", "old.json", start=START), (0, "", said % (4, version)))
        old["launches"][3]["rim"] = "5a" * 32
        here.put("old.json", json.dumps(old).encode())
        line = f'launch "d" has another value: sha256 {now["launches"][3]["rim"]}, was sha256 {"5a" * 32}\n'
        wrong += differs(f"version {version}, a value", here.run("old.json", "m.toml", start=START, RIM=program), (1, line, said % (version, 4)))
        here.put("older.json", json.dumps(of_version(now, 1)).encode())
        wrong += differs(f"versions {version} and 1", here.run("old.json", "older.json", start=START), (1, line, said % (version, 1)))
    return wrong


def programs(program: str) -> list[str]:
    """Another program is said, and is no difference."""
    here = folder()
    now = report(program, here)
    here.put("kept.json", json.dumps(now | {"program": "rim 0.1.0 (2026-01-02)"}).encode())
    wrong = differs("another program", here.run("kept.json", "m.toml", start=START, RIM=program),
                    (0, "", f'rim-compare: the program is "{now["program"]}", was "rim 0.1.0 (2026-01-02)"\n'))
    said = subprocess.run([program, "--version"], capture_output=True, text=True, check=True).stdout.rstrip("\n")
    return wrong + differs("what it says of itself", now["program"], said)


def put_in(*path, value):
    """A change of a report: another value at a place in it."""
    def change_it(table: dict):
        for key in path[:-1]:
            table = table[key]
        table[path[-1]] = value
    return change_it


def taken_out(*path):
    def change_it(table: dict):
        for key in path[:-1]:
            table = table[key]
        del table[path[-1]]
    return change_it


MALFORMED = [
    ("no version", taken_out("version"), "version is missing, or is no whole number"),
    ("version true", put_in("version", value=True), "version is missing, or is no whole number"),
    ("version 5", put_in("version", value=5), "version is 5, expected one of 1, 2, 3, 4"),
    ("version 0", put_in("version", value=0), "version is 0, expected"),
    ("no launches", taken_out("launches"), "launches is missing, or is no array"),
    ("launches of numbers", put_in("launches", 0, value=3), "name is missing, or is no text"),
    ("no name", taken_out("launches", 0, "name"), "name is missing, or is no text"),
    ("a name twice", put_in("launches", 1, "name", value="a"), 'two launches have the name "a"'),
    ("no algorithm", taken_out("launches", 0, "algorithm"), "algorithm is missing, or is no text"),
    ("another algorithm", put_in("launches", 0, "algorithm", value="sha384"), 'algorithm is "sha384"'),
    ("the other algorithm", put_in("launches", 0, "algorithm", value="sha512"), "rim is "),
    ("no value", taken_out("launches", 0, "rim"), "rim is missing, or is no text"),
    ("upper case digits", lambda table: put_in("launches", 0, "rim", value=table["launches"][0]["rim"].upper())(table), "rim is "),
    ("a digit more", lambda table: put_in("launches", 0, "rim", value=table["launches"][0]["rim"] + "0")(table), "rim is "),
    ("a refusal that is no word", put_in("launches", 2, "refused", value=""), 'refused is ""'),
    ("no files", taken_out("files"), "files is missing, or is no array"),
    ("no path", taken_out("files", 0, "path"), "path is missing, or is no text"),
    ("no size", put_in("files", 0, "bytes", value="1"), "bytes is missing, or is no whole number"),
    ("no digest", put_in("files", 0, "sha256", value="00"), 'sha256 is "00"'),
    ("a path with two contents", put_in("files", 1, "path", value="one"), 'the file "one" is there twice, with other contents'),
    ("a negative size", put_in("files", 0, "bytes", value=-1), "bytes is -1, expected"),
    ("a value and a refusal", put_in("launches", 0, "refused", value="overlap"), "a launch has both rim and refused"),
    ("no program", taken_out("program"), "program is missing, or is no text"),
    ("no personalization value", taken_out("launches", 0, "rpv"), "rpv is missing, or is no text"),
    ("a short personalization value", put_in("launches", 0, "rpv", value="00"), 'rpv is "00"'),
    ("no edited devicetree", taken_out("launches", 0, "edited_sha256"), "edited_sha256 is missing, or is no text"),
    ("a digest that is short", put_in("launches", 0, "edited_sha256", value="00"), 'edited_sha256 is "00"'),
    ("no RAM", taken_out("launches", 0, "ram"), "ram is missing, or is no array"),
    ("a region of texts", put_in("launches", 0, "ram", 0, "base", value="0"), "base is missing, or is no whole number"),
    ("no items", put_in("launches", 0, "items", value={}), "items is missing, or is no array"),
    ("an item without a place", taken_out("launches", 0, "items", 0, "place"), "place is missing, or is no object"),
    ("an item without a digest", taken_out("launches", 0, "items", 0, "sha256"), "sha256 is missing, or is no text"),
    ("no RECs", taken_out("launches", 0, "recs"), "recs is missing, or is no object"),
    ("no parameters", put_in("launches", 0, "parameters", value=[]), "parameters is missing, or is no object"),
]


def malformed(program: str) -> list[str]:
    here = folder()
    now, wrong = report(program, here), []
    for name, change_it, text in MALFORMED:
        table = copy.deepcopy(now)
        change_it(table)
        here.put("bad.json", json.dumps(table).encode())
        for given in (("bad.json", "m.toml"), ("kept.json", "bad.json")):
            status, out, said = here.run(*given, start=START, RIM=program)
            if (status, out, said.startswith(f"rim-compare: bad.json: {text}"), said.count("\n")) != (3, "", True, 1):
                wrong.append(f"{name}, {given}: {status} {out!r} {said!r}")
    return wrong


# ---- several manifests, whose reports scripts/vmm/measure.py joins

MEASURE = "realms/measure"


def several(more: dict[str, bytes] | None = None) -> Folder:
    """Three manifests, of which each has a file of its own and one that all have."""
    found = {f"realms/manifest-{n}.toml": manifest([launch(f"l{n}", RAM, ITEM % ("own", ""))], {"all": "all", "own": f"own-{n}"}) for n in (1, 2, 3)}
    with open(os.path.join(SCRIPTS, "vmm", "measure.py"), "rb") as file:
        found[MEASURE] = file.read()
    here = Folder(found | {"realms/all": b"all"} | {f"realms/own-{n}": bytes([n]) for n in (1, 2, 3)} | (more or {}))
    os.chmod(os.path.join(here.path, MEASURE), 0o755)
    return here


def rim_of(here: Folder, body: str) -> str:
    """A program in the place of `rim`."""
    here.put("fake", f"#!/bin/sh\n{body}\n".encode(), is_program=True)
    return os.path.join(here.path, "fake")


def command_lines(program: str) -> list[str]:
    """Another command line, as long as the old one, is named by the digest of the devicetree that has it."""
    item = "ram = [[0x40000000, 0x40400000]]\nitem = [{ name = 'i', kind = 'dtb', file = 'tree', at = 0x40000000, bootargs = '%s' }]"
    both = {name: manifest([launch("a", item % line)], {"tree": "tree"}) for name, line in (("m.toml", "quiet"), ("n.toml", "noisy"))}
    here = Folder(both | {"tree": tree([(0x40000000, 0x40400000)])})
    keep(program, here)
    trees = [digest(subprocess.run([program, "dtb", name, "a"], cwd=here.path, capture_output=True, check=True).stdout) for name in both]
    _, out, said = here.run("kept.json", "n.toml", start=START, RIM=program)
    return differs("what differs", (out.splitlines()[1:], said), ([f"  edited devicetree: sha256 {trees[1]}, was sha256 {trees[0]}"], ""))


def joined(program: str) -> list[str]:
    here = several()
    measure = os.path.join(here.path, MEASURE)
    status, out, said = here.run("--json", start=measure, RIM=program)
    wrong = differs("status, standard error", (status, said), (0, ""))
    here.put("kept.json", out.encode())
    table = json.loads(out)
    wrong += differs("files", [each["path"] for each in table["files"]], ["all", "own-1", "own-2", "own-3"])
    wrong += differs("launches", [each["name"] for each in table["launches"]], ["l1", "l2", "l3"])
    for name, text in (("own-3", b"three"), ("own-2", b"two"), ("all", b"other")):
        was = here.read(f"realms/{name}")
        here.put(f"realms/{name}", text)
        here.put("now.json", here.run("--json", start=measure, RIM=program)[1].encode())
        status, out, said = here.run("kept.json", "now.json", start=START)
        line = f'file "{name}" has other contents: {content(text)}, was {content(was)}\n'
        wrong += differs(name, (status, line in out, said), (1, True, ""))
        here.put(f"realms/{name}", was)
    fake = rim_of(here, f'{program} "$@"\necho >>all')
    status, out, said = here.run("--json", start=measure, RIM=fake)
    changed = f"measure: 'all': it was changed while it was measured: {content(b'all' + bytes([10]))}, was {content(b'all')}; expected one content\n"
    return wrong + differs("a file that is changed", (status, out, said), (3, "", changed))


def of_folders(program: str) -> list[str]:
    """A folder of rim-manifest, several reports and several manifests are compared as one. The folder is read from anywhere."""
    here = several()
    here.put("kept.json", here.run("--json", start=os.path.join(here.path, MEASURE), RIM=program)[1].encode())
    names = [f"manifest-{n}.toml" for n in (1, 2, 3)]
    for name in names:
        ran = subprocess.run([program, "measure", "--json", name], cwd=os.path.join(here.path, "realms"), capture_output=True, check=True)
        here.put(f"{name}.json", ran.stdout)
    reports = [f"{name}.json" for name in names]
    wrong = differs("a folder", here.run("kept.json", "realms", start=START, RIM=program), (0, "", ""))
    wrong += differs("its reports", here.run("kept.json", *reports, start=START), (0, "", ""))
    wrong += differs("kept apart", here.run("--kept", reports[2], f"--kept={reports[1]}", reports[0], "realms/", start=START, RIM=program), (0, "", ""))
    wrong += differs("one of them", here.run("kept.json", *reports[1:], start=START)[:2], (1, "".join(
        f'{of} is gone: it was {was}\n' for of, was in (('launch "l1"', value_in(here, reports[0])), ('file "own-1"', content(b"\x01"))))))
    before = here.read("realms/own-2")
    here.put("realms/own-2", b"two")
    status, out, said = here.run("--json", "kept.json", "realms", start=START, RIM=program)
    now = here.run("--json", start=os.path.join(here.path, MEASURE), RIM=program)[1]
    was = {"algorithm": "sha256", "rim": value_in(here, reports[1]).split(" ")[1], "rpv": "00" * 64}
    new = {"algorithm": "sha256", "rim": json.loads(now)["launches"][1]["rim"], "rpv": "00" * 64}
    contents = [{"bytes": len(data), "sha256": hashlib.sha256(data).hexdigest()} for data in (before, b"two")]
    wrong += differs("JSON", (status, json.loads(out), said), (1, {"version": 2, "notes": [], "differences": [
        {"of": "launch", "name": "l2", "kind": "value", "was": was, "now": new, "inputs": [
            {"what": 'item "i", sha256', "was": digest(before), "now": digest(b"two")}, {"what": 'item "i", size', "was": "1", "now": "3"}]},
        {"of": "file", "name": "own-2", "kind": "contents", "was": contents[0], "now": contents[1]}]}, ""))
    wrong += differs("JSON of nothing", here.run("--json", "kept.json", "kept.json", start=START),
                     (0, '{"version": 2, "notes": [], "differences": []}\n', ""))
    here.put("realms/manifest-2.toml", b"rim_manifest = 1\nlunch = 1")
    return wrong + differs("a fault in a folder", here.run("kept.json", "realms", start=START, RIM=program),
                           (3, "", 'rim-compare: manifest-2.toml:2:1: manifest: unknown-key: "lunch" (nearest: launch) (in realms)\n'))


def value_in(here: Folder, path: str) -> str:
    """The value of the first launch of a report, as a line has it."""
    first = json.loads(here.read(path))["launches"][0]
    return f"{first['algorithm']} {first['rim']}"


def of_schema(program: str) -> list[str]:
    """A joined report is as long as the schema lets it be."""
    with open(os.path.join(TOP, "docs", "report.schema.json"), encoding="utf-8") as file:
        schema = json.load(file)
    report_of = json.dumps({"files": [], "launches": [], "pages": 1 << 20, "manifests": [], "program": "p", "version": 4})
    most = {key: 1024 * each for key, each in (("launches", 1024), ("files", 64))}
    wrong = differs("the schema", {key: schema["properties"][key]["maxItems"] for key in most}, most)
    wrong += differs("pages", schema["properties"]["pages"]["maximum"], 1 << 30)
    here = several({f"realms/manifest-{n}.toml": b"" for n in range(4, 1026)})
    fake = rim_of(here, f"echo '{report_of}'")
    status, _, said = here.run("--json", start=os.path.join(here.path, MEASURE), RIM=fake)
    return wrong + differs("manifests", (status, "has 1025 manifests, expected 1 to 1024" in said), (3, True))


MISBEHAVING = [
    ("nothing", "exit 0", [], 3, "a report of rim is none ("), ("nothing as JSON", "exit 0", ["--json"], 3, "a report of rim is none ("),
    ("no UTF-8", r"printf '\377\n\n'", [], 3, "a report of rim is none ("), ("other lines", "echo a; echo b", [], 3, "a report of rim is none ("),
    ("many pages", "echo rim-report 1; echo pages 11111111111111111111", [], 3, "a report of rim is none ("),
    ("a list", "echo '[]'", ["--json"], 3, "a report of rim is none ("), ("a number", "echo 1", ["--json"], 3, "a report of rim is none ("),
    ("deep", "head -c 100000 /dev/zero | tr '\\0' '['", ["--json"], 3, "a report of rim is none ("),
    ("one launch thrice", "echo '{\"files\":[],\"launches\":[{\"name\":\"a\"}],\"pages\":1,\"program\":\"p\",\"version\":4}'", ["--json"], 3,
     "('two launches have one name')"),
    ("endless", "exec yes", [], 3, "manifest-1.toml: ended by signal 25"), ("killed", "kill -9 $$", [], 3, "manifest-1.toml: ended by signal 9"),
    ("wrong words", "exit 2", ["--jso"], 2, "manifest-1.toml: status 2\n"), ("no memory", "exit 4", [], 4, "manifest-1.toml: status 4\n"),
    ("a fault", "exit 3", [], 3, "manifest-1.toml: status 3\n"), ("status 77", "exit 77", [], 3, "status 77\n"),
    ("one that goes on", "sleep 1000 &\nexec /bin/false", [], 3, "a report of rim is none ("),
]


def misbehaving(program: str) -> list[str]:
    """A program that is no `rim`: a line, and no report."""
    here, wrong = several(), []
    for name, body, given, expected, text in MISBEHAVING:
        status, out, said = here.run(*given, start=os.path.join(here.path, MEASURE), RIM=rim_of(here, body))
        is_lines = all(line.startswith("measure: ") for line in said.splitlines())
        wrong += differs(name, (status, out, text in said, is_lines), (expected, "", True, True)) and [f"{name}: {status} {out!r} {said!r}"]
    words = ["/bin/sh", "-c", "ulimit -f 8192; trap '' CHLD; exec realms/measure"]
    ran = subprocess.run(words, cwd=here.path, capture_output=True, text=True, check=False, env=os.environ | {"RIM": program})
    wrong += differs("less than its limit", (ran.returncode, ran.stderr, ran.stdout.count("\n")), (0, "", 5))
    for output, said in (("/dev/full", "measure: output: No space left on device\n"), ("closed", "")):
        wrong += differs(output, ended(here, [os.path.join(here.path, MEASURE)], output, program), (3, said))
    return wrong


def signals(_program: str) -> list[str]:
    """A signal ends the script and all that its program has started, with no line."""
    here, wrong = several(), []
    fake = rim_of(here, "sleep 1000 &\necho $! >>started; wait")
    for number in (signal.SIGINT, signal.SIGTERM, signal.SIGHUP):
        ran = subprocess.Popen([os.path.join(here.path, MEASURE)], cwd=here.path, stdout=subprocess.PIPE, stderr=subprocess.PIPE, text=True,
                               env=os.environ | {"RIM": fake})
        while not os.path.exists(os.path.join(here.path, "realms/started")) or not here.read("realms/started").endswith(b"\n"):
            time.sleep(0.01)
        for _ in range(2):
            ran.send_signal(number)
        out, said = ran.communicate(timeout=20)
        wrong += differs(number.name, (ran.returncode, out, said, still_running([int(here.read("realms/started"))])),
                         (128 + number, "", "", []))
        os.remove(os.path.join(here.path, "realms/started"))
    return wrong


# ---- words and faults

KEY = manifest(LAUNCHES, PATHS).replace(b"s2sz", b"ss2z", 1)
BAD = {"key.toml": KEY, "key $(b).toml": KEY, "toml.toml": b"rim_manifest = ", "gone-file.toml":
       manifest(LAUNCHES, PATHS | {"one": "none"}), "array.json": b"[]", "cut.json": b'{"files":[', "deep.json": b'{"a":' + b"[" * 100_000,
       "bytes.json": b"{\xff\xfe}", "empty": b"", "twice.json": b'{"version":3,"version":3}', "digits.json": b'{"a":' + b"1" * 5000,
       "nan.json": b'{"a":NaN}'}
WORDS = [
    ([], 2, "usage: rim-compare [--json]"),
    (["kept.json"], 2, "1 operand, expected REPORT and what it is compared with; see rim-compare --help"),
    (["--kept", "kept.json", "kept.json"], 2, "1 operand, expected"),
    (["kept.json", "m.toml", "--kept"], 2, "--kept: nothing comes after it, expected a report"),
    (["kept.json", "m.toml", "m.toml"], 3, 'two launches have the name "a", expected each name once'),
    (["kept.json", "m.toml", "--kept=kept.json"], 3, 'two launches have the name "a", expected each name once'),
    (["--all", "kept.json", "m.toml"], 2, '"--all" is no option'),
    (["--help", "--all"], 2, '"--all" is no option'),
    (["gone.json", "m.toml"], 3, "gone.json: No such file or directory, expected a report of rim measure --json"),
    (["kept.json", "gone.toml"], 3, "gone.toml: No such file or directory, expected a report, a manifest or a folder of rim-manifest"),
    (["kept.json", "."], 3, ".: it has 0 manifests, expected a folder of rim-manifest with 1 to 1024"),
    (["m.toml", "kept.json"], 3, "m.toml: it is no JSON that is read here"),
    (["twice.json", "m.toml"], 3, 'twice.json: it is no JSON that is read here (the member "version" is given twice)'),
    (["digits.json", "m.toml"], 3, "digits.json: it is no JSON that is read here (Exceeds the limit"),
    (["nan.json", "m.toml"], 3, "nan.json: it is no JSON that is read here (NaN is no number of JSON)"),
    (["/dev/zero", "m.toml"], 3, "/dev/zero: it is a device, expected a report"),
    (["kept.json", "/dev/zero"], 3, "/dev/zero: it is a device, expected a report, a manifest or a folder of rim-manifest"),
    (["fifo", "m.toml"], 3, "fifo: it is a FIFO, expected a report"),
    (["kept.json", "fifo"], 3, "fifo: it is a FIFO, expected a report, a manifest or a folder of rim-manifest"),
    (["huge", "m.toml"], 3, "huge: it has more than 67108864 bytes, expected a report"),
    (["kept.json", "huge"], 3, "huge: it has more than 67108864 bytes, expected a report, a manifest or a folder of rim-manifest"),
    (["a\x1b\n\u200b", "m.toml"], 3, "a\\x1b\\x0a\\u200b: No such file or directory"),
    (["array.json", "m.toml"], 3, "array.json: version is missing"),
    (["cut.json", "m.toml"], 3, "cut.json: it is no JSON that is read here"),
    (["deep.json", "m.toml"], 3, "deep.json: it is no JSON that is read here"),
    (["bytes.json", "m.toml"], 3, "bytes.json: it is no UTF-8 at byte 1, expected a report"),
    (["kept.json", "bytes.json"], 3, "bytes.json: it is no UTF-8 at byte 1, expected a report"),
    (["kept.json", "key.toml"], 3, 'key.toml:6:1: launch "a": unknown-key: "ss2z" (nearest: s2sz)'),
    (["kept.json", "key $(b).toml"], 3, 'key $(b).toml:6:1: launch "a": unknown-key: "ss2z" (nearest: s2sz)'),
    (["kept.json", "toml.toml"], 3, "toml.toml:1:16: syntax: invalid value, expected a string"),
    (["kept.json", "gone-file.toml"], 3, "none: file-unreadable: there is no such file in the folder where rim runs"),
    (["kept.json", "empty"], 3, "empty:1:1: manifest: rim_manifest: version: not given, expected 1 or 2"),
]


def words(program: str) -> list[str]:
    here = folder(BAD)
    os.mkfifo(os.path.join(here.path, "fifo"))
    with open(os.path.join(here.path, "huge"), "wb") as file:
        file.truncate(1 << 30)
    keep(program, here)
    wrong = []
    for given, expected, text in WORDS:
        status, out, said = here.run(*given, start=START, RIM=program)
        if (status, out, text in said) != (expected, "", True):
            wrong.append(f"{given[:2]}: {status} {out!r} {said!r}, expected {expected} {text!r}")
        if given and (not said.startswith("rim-compare: ") or said.count("\n") != 1):
            wrong.append(f"{given[:2]}: {said!r} is not one line")
    for given, text in ((["--help"], "usage: rim-compare [--json]"), (["-V"], "rim-compare 0."), (["a", "b", "c", "-h"], "Status: 0")):
        status, out, said = here.run(*given, start=START)
        wrong += differs(given[0], (status, text in out, said), (0, True, ""))
    for rim, text in (("/none/rim", 'no program "/none/rim" is found, expected it in the PATH or its path in the variable RIM'),
                      ("/bin/false", "/bin/false --version: status 1, expected the program rim"),
                      ("/bin/true", "/bin/true: it is no JSON that is read here (Expecting value: line 1 column 1 (char 0)), "
                                    "expected a report of rim measure --json")):
        wrong += differs(rim, here.run("kept.json", "m.toml", start=START, RIM=rim), (3, "", f"rim-compare: {text}\n"))
    here.put("--", manifest(LAUNCHES, PATHS))
    wrong += differs("a manifest of a name like an option", here.run("--", "kept.json", "--", start=START, RIM=program), (0, "", ""))
    return wrong


def faults(program: str) -> list[str]:
    """A `rim` that has no memory, and one that is killed, are faults that are passed on."""
    here = folder()
    keep(program, here)
    wrong = []
    for body, said in (("echo 'rim: no-memory' >&2; exit 4", "rim: no-memory"), ("kill -9 $$", "rim: ended by SIGKILL")):
        here.put("fake", f"#!/bin/sh\n[ \"$1\" = --version ] && exit 0\n{body}\n".encode(), is_program=True)
        wrong += differs(body, here.run("kept.json", "m.toml", start=START, RIM="./fake"), (3, "", f"rim-compare: {said}\n"))
    return wrong


# ---- how it is started


def installed(program: str) -> list[str]:
    """It finds its modules beside itself, or in ../share/rim, and `rim` of the PATH or beside itself."""
    here = folder()
    keep(program, here)
    os.makedirs(os.path.join(here.path, "usr/bin"))
    start = shutil.copy(START, os.path.join(here.path, "usr/bin/rim-compare"))
    for name in ("outside", "comparer"):
        shutil.copytree(os.path.join(SCRIPTS, name), os.path.join(here.path, "usr/share/rim", name), ignore=shutil.ignore_patterns("__pycache__"))
    os.symlink(program, os.path.join(here.path, "usr/bin/rim"))
    os.symlink(START, os.path.join(here.path, "link"))
    wrong = differs("beside it", here.run("kept.json", "m.toml", start=start, RIM=""), (0, "", ""))
    wrong += differs("a link", here.run("kept.json", "m.toml", start="./link", RIM=program), (0, "", ""))
    kept = [path for path, _, _ in os.walk(os.path.join(here.path, "usr")) if path.endswith("__pycache__")]
    wrong += differs("what is compiled", kept, [])
    os.remove(os.path.join(here.path, "usr/share/rim/comparer/main.py"))
    status, _, said = here.run("--help", start=start)
    return wrong + differs("no modules", (status, "no folders comparer and outside" in said), (3, True))


def outputs(program: str) -> list[str]:
    """An output that is full is a fault, and so is one that nobody reads."""
    here = folder()
    keep(program, here)
    here.put("none.toml", b"rim_manifest = 1")
    wrong = []
    for output, said in (("/dev/full", "rim-compare: output: No space left on device\n"), ("closed", "")):
        wrong += differs(output, ended(here, [START, "kept.json", "none.toml"], output, program), (3, said))
    return wrong


def ended(here: Folder, words: list[str], output: str, program: str) -> tuple[int, str]:
    """What comes of a run whose output is this file, or one that nobody reads."""
    ends = os.pipe() if output == "closed" else (None, os.open(output, os.O_WRONLY))
    if ends[0] is not None:
        os.close(ends[0])
    ran = subprocess.run(words, cwd=here.path, stdout=ends[1], stderr=subprocess.PIPE, text=True, check=False, env=os.environ | {"RIM": program})
    os.close(ends[1])
    return ran.returncode, ran.stderr


def documents(_program: str) -> list[str]:
    """The man page has each option and each kind of line."""
    with open(os.path.join(TOP, "docs", "rim-compare.1"), encoding="utf-8") as file:
        page = re.sub(r"\s+", " ", file.read().replace("\\-", "-").replace("\\(dq", '"'))
    with open(os.path.join(SCRIPTS, "comparer", "differ.py"), encoding="utf-8") as file:
        text = file.read()
    kinds = re.findall(r'f"((?:is|has) [^:{"]+):', text) + re.findall(r'^    [A-Z]+ = ("[a-z]+")', text, re.M)
    wrong = differs("kinds of lines, and of JSON", len(kinds), 8 + 9)
    return wrong + [f"docs/rim-compare.1: {name!r} is not there" for name in ("--help", "--version", *kinds) if name not in page]


def all_tries(program: str):
    for name, launches, paths, changed, lines in CHANGES:
        yield name, lambda launches=launches, paths=paths, changed=changed, lines=lines: change(program, launches, paths, changed, lines)
    for look in (one_cause, command_lines, joined, of_folders, of_schema, misbehaving, signals, versions, programs, malformed, words, faults, installed,
                 outputs, documents):
        yield look.__name__, lambda look=look: look(program)


def run_all() -> int:
    return told(at_a_time(all_tries(program_of(sys.argv[1:]))))


if __name__ == "__main__":
    sys.exit(run_all())
