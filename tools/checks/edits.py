#!/usr/bin/env python3
"""Tries the broken edits of crates/*/must-fail and crates/*/edits. The prover must refuse each of them.

    tools/checks/edits.py [NAME..]   tries the edits of all crates, or of these, whose record is out of date
    tools/checks/edits.py --all      tries every edit again
    tools/checks/edits.py --check    status 1 if an edit cannot be made or was changed since it was tried; needs no prover

`./test` tries the edits of must-fail in every run. Those of edits are tried here, because each costs a check of its crate.

tools/checks/edits-tried.tsv is the record: a line per edit with its file, a digest of its text, the commit and the kit with which it was tried, and the
goal that was not proved. A record is out of date if the edit's text, the kit, or a source of its crate or of a crate below has changed since. An edit gets
a record only if a goal is not proved. It gets none if the crate is still proved, if the edited text cannot be read, or if all that fails is a proof that
names what the edit took away, because that says nothing of the contract.

The work is done by `rt ci NAME..` in a temporary copy of the crates, whose must-fail folders hold the edits to try. `rt` keeps what it has proved and tried
on this machine, so a run that was stopped goes on where it was. Everything that is tried must be committed.
"""
from __future__ import annotations

import functools
import hashlib
import os
import pathlib
import re
import shutil
import subprocess
import sys
import tempfile
from dataclasses import dataclass

TOP = pathlib.Path(__file__).resolve().parents[2]
CRATES = TOP / "crates"
RECORD = TOP / "tools" / "checks" / "edits-tried.tsv"
# The parts of a crate that the prover reads.
PARTS = ("src", "specs", "proofs")
# Whether an edit without a record is a fault of --check. It becomes one when every edit has been tried once.
NEEDS_RECORD = False
# What `rt ci` prints of an edit: its crate, its file and the outcome.
LINE = re.compile(r"rt: must-fail (\w+)/([\w.-]+): (.*)")
REFUSED = "refused, as it must be: "


class Fault(Exception):
    """Why the script stops. It is printed as one line."""


@dataclass(frozen=True)
class Edit:
    """An edit file of a crate."""

    path: pathlib.Path

    @property
    def name(self) -> str:
        return str(self.path.relative_to(CRATES))

    @property
    def crate(self) -> str:
        return self.path.parent.parent.name

    @property
    def digest(self) -> str:
        return hashlib.sha256(self.path.read_bytes()).hexdigest()[:16]


@dataclass(frozen=True)
class Row:
    """A line of the record."""

    digest: str
    commit: str
    kit: str
    goal: str


def all_edits() -> list[Edit]:
    return sorted((Edit(path) for folder in ("must-fail", "edits") for path in CRATES.glob(f"*/{folder}/*")), key=lambda edit: edit.name)


# ---- whether an edit can be made


def pairs(text: str) -> list[tuple[str, str, str]]:
    """Returns the pairs of an edit as (file, old, new)."""
    found, file, old = [], "", None
    for number, line in enumerate(text.splitlines(), 1):
        kind, _, rest = line.partition(":")
        rest = rest.removeprefix(" ")
        if kind == "file" and old is None:
            file = rest.strip()
        elif kind == "old" and old is None and file and rest:
            old = rest
        elif kind == "new" and old is not None:
            found.append((file, old, rest))
            old = None
        elif line.strip():
            raise Fault(f"line {number} is out of place, or doesn't begin with `file:`, `old:` or `new:`")
    if old is not None or not found:
        raise Fault("an `old:` has no `new:`" if found or old is not None else "it has no pair of `old:` and `new:`")
    return found


def why_not_made(edit: Edit) -> str:
    """Returns why an edit cannot be made, or an empty text."""
    if edit.path.suffix != ".edit":
        return "its name does not end in .edit"
    now: dict[str, str] = {}
    try:
        for file, old, new in pairs(edit.path.read_text()):
            path = edit.path.parent.parent / file
            if not re.match(r"(src|specs|proofs)/(?!.*\.\.)", file) or not path.is_file():
                raise Fault(f"{file} is no file of src/, specs/ or proofs/ of its crate")
            text = now.setdefault(file, path.read_text())
            if text.count(old) != 1:
                raise Fault(f"{file} has the old text {text.count(old)} times, expected once: {old.strip()}")
            if old == new:
                raise Fault(f"the old text of {file} is the new text: {old.strip()}")
            now[file] = text.replace(old, new)
        if all(text == (edit.path.parent.parent / file).read_text() for file, text in now.items()):
            raise Fault("its pairs together change nothing")
    except Fault as why:
        return str(why)
    return ""


# ---- the record


def read_record() -> dict[str, Row]:
    lines = RECORD.read_text().splitlines() if RECORD.exists() else []
    return {name: Row(*rest) for name, *rest in (line.split("\t") for line in lines)}


def write_record(record: dict[str, Row]):
    text = "".join("\t".join((name, row.digest, row.commit, row.kit, row.goal)) + "\n" for name, row in sorted(record.items()))
    new = RECORD.with_suffix(".new")
    new.write_text(text)
    new.replace(RECORD)


def check() -> int:
    """Prints each edit that cannot be made or was changed since it was tried, and each record without an edit. Returns how many there are."""
    record, edits = read_record(), all_edits()
    wrong, missing = [], 0
    for edit in edits:
        row = record.get(edit.name)
        if why := why_not_made(edit):
            wrong.append(f"{edit.name}: {why}")
        elif row and row.digest != edit.digest:
            wrong.append(f"{edit.name}: it was changed since it was tried, run tools/checks/edits.py {edit.crate}")
        elif not row and NEEDS_RECORD:
            wrong.append(f"{edit.name}: it has no record, run tools/checks/edits.py {edit.crate}")
        missing += not row
    known = {edit.name for edit in edits}
    wrong += [f"{name}: it has a record, and the file is gone: run tools/checks/edits.py" for name in record if name not in known]
    if missing:
        print(f"{missing} of {len(edits)} edits have no record yet: tools/checks/edits.py tries them")
    print(*wrong, sep="\n", end="\n" if wrong else "")
    return len(wrong)


# ---- what has changed


def said(*words: str) -> str:
    ran = subprocess.run(words, cwd=TOP, capture_output=True, text=True)
    if ran.returncode:
        raise Fault(f"{' '.join(words)}: {(ran.stderr.strip() or 'it failed').splitlines()[-1]}")
    return ran.stdout.strip()


@functools.cache
def lower_crates() -> dict[str, tuple[str, ...]]:
    """Returns for each crate of crates.txt the crates below it, and itself as the last."""
    lines = [line.partition("#")[0].partition(":") for line in (TOP / "crates.txt").read_text().splitlines()]
    uses = {head.split()[0]: tail.split() for head, _, tail in lines if head.strip()}

    @functools.cache
    def below(name: str) -> tuple[str, ...]:
        return tuple(dict.fromkeys(each for used in uses[name] if used in uses for each in (*below(used), used)))

    return {name: (*below(name), name) for name in uses}


@functools.cache
def is_changed(commit: str, crate: str) -> bool:
    """Returns whether a source of a crate, or of one below it, differs from that of a commit."""
    paths = [f"crates/{name}/{part}" for name in lower_crates()[crate] for part in PARTS]
    return subprocess.run(["git", "diff", "--quiet", commit, "--", *paths], cwd=TOP, stderr=subprocess.DEVNULL).returncode != 0


def is_out_of_date(edit: Edit, row: Row | None, kit: str) -> bool:
    return not row or row.digest != edit.digest or row.kit != kit or is_changed(row.commit, edit.crate)


# ---- a run


def copy_crates(folder: pathlib.Path, tried: dict[str, list[Edit]]):
    """Copies what the prover reads of the crates, with these edits as those that must fail."""
    for name in ("crates.txt", "HANDLES"):
        shutil.copyfile(TOP / name, folder / name)
    for name in lower_crates():
        for part in PARTS:
            if (CRATES / name / part).is_dir():
                shutil.copytree(CRATES / name / part, folder / "crates" / name / part)
        for edit in tried.get(name, []):
            (folder / "crates" / name / "must-fail").mkdir(exist_ok=True)
            shutil.copyfile(edit.path, folder / "crates" / name / "must-fail" / edit.path.name)


def outcomes_of(tried: dict[str, list[Edit]]) -> dict[str, str]:
    """Returns what `rt ci` prints of these edits, by crate and file, and shows its other lines as they come. An unproved crate is a fault."""
    found, unproved = {}, ""
    environment = {name: value for name, value in os.environ.items() if name != "CI"}
    with tempfile.TemporaryDirectory(prefix="rim-edits-") as folder:
        copy_crates(pathlib.Path(folder), tried)
        with subprocess.Popen(["rt", "ci", *tried], cwd=folder, env=environment, stdout=subprocess.PIPE, stderr=subprocess.STDOUT, text=True, errors="replace") as ran:
            for line in ran.stdout:
                if match := LINE.match(line):
                    found[f"{match[1]}/{match[2]}"] = match[3]
                elif line.startswith("rt: "):
                    print(line, end="", file=sys.stderr, flush=True)
                    unproved = unproved or (line.split()[1] if "NOT PROVED" in line else "")
    if unproved:
        raise Fault(f"{unproved} is not proved without an edit")
    return found


def goal_of(outcome: str) -> str:
    """Returns the goal that was not proved, or an empty text if the edit was not refused for a goal."""
    return " ".join(outcome.removeprefix(REFUSED).removeprefix("note: ").split()) if outcome.startswith(REFUSED) else ""


def try_edits(edits: list[Edit], kit: str) -> int:
    """Tries edits, prints the outcome of each and keeps the record. Returns how many were not refused."""
    record, commit = read_record(), said("git", "rev-parse", "--short=12", "HEAD")
    known = {edit.name for edit in all_edits()}
    record = {name: row for name, row in record.items() if name in known}
    tried: dict[str, list[Edit]] = {}
    for edit in edits:
        tried.setdefault(edit.crate, []).append(edit)
    outcomes = outcomes_of(tried) if tried else {}
    missing = 0
    for edit in edits:
        outcome = outcomes.get(f"{edit.crate}/{edit.path.name}", "rt printed nothing of it")
        goal = goal_of(outcome)
        print(f"{'refused' if goal else 'NOT    '} {edit.name}: {goal or outcome}")
        missing += not goal
        if goal:
            record[edit.name] = Row(edit.digest, commit, kit, goal)
        else:
            record.pop(edit.name, None)
    write_record(record)
    print(f"{len(edits) - missing} refused, {missing} not")
    return missing


def main(words: list[str]) -> int:
    if words == ["--check"]:
        return int(check() > 0)
    has_all = "--all" in words
    names = [word for word in words if word != "--all"]
    for word in names:
        if word not in lower_crates():
            raise Fault(f"{word!r}: expected --check, --all or names of crates")
    if said("git", "status", "--porcelain", "--", "crates", "crates.txt"):
        raise Fault("crates/ has changes that are not committed: a record names the commit that was tried")
    kit, record = said("rt", "version"), read_record()
    edits = [edit for edit in all_edits() if not names or edit.crate in names]
    return int(try_edits([edit for edit in edits if has_all or is_out_of_date(edit, record.get(edit.name), kit)], kit) > 0)


if __name__ == "__main__":
    try:
        sys.exit(main(sys.argv[1:]))
    except (Fault, OSError, UnicodeDecodeError) as why:
        print(f"edits.py: {why}", file=sys.stderr)
        sys.exit(3)
    except KeyboardInterrupt:
        sys.exit(130)
