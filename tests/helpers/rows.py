"""The runs of the program that the files of cases/ and rows/ describe: each is words and files, and what is expected.

A folder in cases/ is one run. Its file `words` has the words of the command line after the program, one a line. Its files
`status` (a number; absent: 0), `stdout` and `stderr` (absent: empty) are what is expected. All else in it are files of the run.

A file in rows/ has many runs of one kind in TOML, one for each `[[row]]`. A key at its top holds for each row that does not
have the key itself:

  name            what the row is
  words           the words of the command line after the program
  manifest        what manifest.toml has
  files           a table of what the other files have, by their paths. Those of the top and those of a row are side by side
  stdin           what comes through a pipe on standard input; nothing where absent
  status, stdout, stderr          what is expected; 0 and empty where absent
  stdout_begins, stderr_begins    the same, where only the beginning is said
  stderr_has                      a text that is somewhere on standard error too
  reference       why tools/oracles/reference.py is not asked

Any other key of the top or of a row is a value: `{KEY}` in a text is replaced by it. `{program}` is the name and version of the
program, as it prints them; a row of command-lines.toml says which they are. `{no_numbers}` is the words of a listing for numbers of
the realm's parameters that are not given, `{no_parameters}` and `{no_rpv}` are what a report as JSON has for them and for no personalization
value; `{own}` is what it has of manifest.toml. These are at the top alone:

  run             an array of tables of the keys above. A row has a run for each table; but for one with a key `of = "KEY"`
                  only where the row has the key KEY
  base            a table of contents by names

What a file has, or what is expected, is one of these:

  "a text"
  { hex = "d00dfeed" }                                bytes
  { byte = 7, count = 4097 }                          a byte, this many times; hex may have a count too
  { text = "f{n}, ", count = 64, n = [0, 1] }         a text, this many times; {n} is first 0, then 1 more each time
  { base = "empty", keep = 39, put = [[3, "ee"]] }    a base, of which 39 bytes are kept; from byte 3 on it has these bytes
  [ .., .. ]                                          some of these, one after the other

A row may have a count as a text has it, and is then this many rows.
"""
import hashlib
import json
import os
import re
import subprocess
import tomllib

from . import TOP

import reference

TESTS = os.path.join(TOP, "tests")
PLACE = re.compile(r"\{(\w+)\}")
EXPECTED = ("stdout", "stderr")
SETTINGS = ("name", "words", "manifest", "files", "stdin", "status", *EXPECTED, "stdout_begins", "stderr_begins", "stderr_has", "reference")


# What a listing and a report have for parameters that are not given.
PARAMETERS = {"pmu": False, "sve": False} | dict.fromkeys(reference.NUMBERS, 0)
NOTHING_GIVEN = {"no_numbers": " ".join("0" for _ in reference.NUMBERS), "no_rpv": "00" * 64,
                 "no_parameters": json.dumps(PARAMETERS, sort_keys=True, separators=(",", ":"))}


# ---- what the files of rows say


def times(table):
    """A table as often as its count says: each pair `[first, step]` in it is a number there."""
    for number in range(int(table.get("count", 1))):
        is_pair = lambda part: isinstance(part, list) and len(part) == 2 and all(isinstance(n, int) for n in part)
        yield {key: part[0] + number * part[1] if is_pair(part) else part for key, part in table.items()}


def filled(said, values, used):
    """What is said, with values in the places of its texts. The keys of these values are added to `used`."""
    if isinstance(said, list):
        return [filled(part, values, used) for part in said]
    if isinstance(said, dict):
        return {key: filled(part, values, used) for key, part in said.items()}
    if not isinstance(said, str):
        return said

    def value(place):
        if place[1] not in values:
            return place[0]
        used.add(place[1])
        return filled(values[place[1]], values, used)

    alone = PLACE.fullmatch(said)
    return value(alone) if alone else PLACE.sub(lambda place: str(value(place)), said)


def with_bases(said, bases):
    """What is said, with a base in the place of its name."""
    if isinstance(said, list):
        return [with_bases(part, bases) for part in said]
    if isinstance(said, dict):
        return {key: bases[part] if key == "base" else with_bases(part, bases) for key, part in said.items()}
    return said


def own(manifest):
    """What a report as JSON has of manifest.toml."""
    data = contents(manifest)
    return f'{{"bytes":{len(data)},"path":"manifest.toml","sha256":"{hashlib.sha256(data).hexdigest()}"}}'


def runs_of_row(top, row):
    """The runs of a row, each as a table of settings."""
    plans = [plan for plan in top.get("run", [{}]) if plan.get("of", "name") in top | row]
    used = {"count"} | {plan.get("of") for plan in plans}
    for plan in plans:
        values = top | plan | row
        values["files"] = top.get("files", {}) | plan.get("files", {}) | row.get("files", {})
        run = {key: values[key] for key in SETTINGS if key in values}
        run = with_bases(filled(run, values, used), top.get("base", {}))
        if "manifest" in run:
            run["files"]["manifest.toml"] = run.pop("manifest")
            run |= {key: run[key].replace("{own}", own(run["files"]["manifest.toml"])) for key in EXPECTED if isinstance(run.get(key), str)}
        if len(plans) > 1:
            run["name"] += f" ({run['words'][0]})"
        yield run
    unused = row.keys() - used - set(SETTINGS)
    if unused or not plans:
        raise SystemExit(f"no run uses {', '.join(unused) or 'anything'} of the row {row}")


def runs_of_rows(name, said):
    """The runs of a file of rows, for a program that says this name and version."""
    with open(os.path.join(TESTS, "rows", name), "rb") as file:
        top = {"program": said, **NOTHING_GIVEN} | tomllib.load(file)
    for many in top.pop("row"):
        for row in times(many):
            for run in runs_of_row(top, row):
                title = f"{name.removesuffix('.toml')}: {run['name']}"
                yield run | {"name": title.replace("\n", "\\n")}


def contents(said):
    """The bytes that a file of rows describes."""
    if isinstance(said, bytes):
        return said
    if isinstance(said, list):
        return b"".join(contents(part) for part in said)
    if not isinstance(said, dict):
        return str(said).encode()
    if "text" in said:
        return "".join(str(filled(each["text"], each, set())) for each in times(said)).encode()
    if "base" in said:
        data = bytearray(contents(said["base"])[: said.get("keep")])
        for offset, part in said.get("put", []):
            part = bytes.fromhex(part)
            data[offset : offset + len(part)] = part
        return bytes(data)
    part = bytes.fromhex(said["hex"]) if "hex" in said else bytes([said["byte"]])
    return part * int(said.get("count", 1))


# ---- cases


def run_of_case(name):
    """A folder of cases/ as a table of settings."""
    folder = os.path.join(TESTS, "cases", name)
    files = {}
    for where, _, names in os.walk(folder):
        for each in names:
            path = os.path.join(where, each)
            with open(path, "rb") as file:
                files[os.path.relpath(path, folder)] = file.read()
    words = files.pop("words").removesuffix(b"\n").split(b"\n")
    expected = {key: files.pop(key, b"") for key in EXPECTED}
    return {"name": name, "words": [os.fsdecode(word) for word in words], "status": int(files.pop("status", 0)), "files": files} | expected


def all_runs(program):
    said = subprocess.run([program, "--version"], capture_output=True, text=True, check=True).stdout.rstrip("\n")
    for name in sorted(os.listdir(os.path.join(TESTS, "cases"))):
        yield run_of_case(name)
    for name in sorted(os.listdir(os.path.join(TESTS, "rows"))):
        yield from runs_of_rows(name, said)


# ---- folders


def write(folder, files):
    """Writes the files of a run. Zeros at the end of one take no room."""
    os.symlink(os.path.join(TOP, "examples"), os.path.join(folder, "examples"))
    for path, data in files.items():
        path = os.path.join(folder, path)
        os.makedirs(os.path.dirname(path), exist_ok=True)
        with open(path, "wb") as file:
            file.write(data.rstrip(b"\0"))
            file.truncate(len(data))


def difference(what, expected, found, begins=False):
    """How some bytes differ from those that are expected, as lines."""
    if found == expected or begins and found.startswith(expected):
        return []
    at = next((n for n, (a, b) in enumerate(zip(expected, found)) if a != b), min(len(expected), len(found)))
    start = max(expected.rfind(b"\n", 0, at) + 1, at - 60)
    part = lambda text: repr(text[start : at + 60])[1:]
    number = expected.count(b"\n", 0, at) + 1
    return [f"{what}, byte {at}, in line {number}: expected {part(expected)}, found {part(found)}"]
