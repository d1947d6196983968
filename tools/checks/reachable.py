#!/usr/bin/env python3
"""Finds promised functions that neither the program nor the library calls.

    tools/checks/reachable.py      prints them; status 1 if there are any

The functions are those in docs/PROMISES.md's contracts, and those that README names. A function is reached if `main` or a call of the library mentions its name, directly or
through functions that are reached. A name is looked up in its own crate and among what its file imports; a method may be that of any crate.
Comments and contracts don't count. Nothing calls a law. Any other function that is not reached must say so in its comment, with the words
"No program calls it", or stand in `KEPT`.
"""
from __future__ import annotations

import pathlib
import re
import sys

TOP = pathlib.Path(__file__).resolve().parents[2]
# Tests, benchmarks and examples, and the facade for callers outside.
OUTSIDE = re.compile(r".*_tests|rim_(?:bench|example|starved|release)")
# A function, as its crate and its name.
Function = tuple[str, str]
# Public calls of low crates for callers outside. Their comments can't say so yet: a new comment has everything above proved again.
KEPT = {("rim_launch", "has_files"), ("rmi_list", "list"), ("rmm_monitor", "owner"), ("rmm_monitor", "owner_count"), ("rtt_plan", "start_of")}


def sources() -> dict[str, list[str]]:
    """Returns the texts of each crate of the program and the library."""
    names = [line.split()[0].rstrip(":") for line in (TOP / "crates.txt").read_text().splitlines() if line and not line.startswith("#")]
    return {name: [path.read_text() for path in sorted((TOP / "crates" / name / "src").rglob("*.rt"))] for name in names if not OUTSIDE.fullmatch(name)}


def without_contracts(text: str) -> str:
    """Returns a text without comments and without clauses in braces."""
    text, kept, at = re.sub(r"//.*", "", text), [], 0
    for clause in re.finditer(r"\b(?:requires|ensures|ghost \w+(?: =|:)|ghost use)[^{;]*\{", text):
        if clause.start() >= at:
            depth, end = 1, clause.end()
            while depth and end < len(text):
                depth += {"{": 1, "}": -1}.get(text[end], 0)
                end += 1
            kept.append(text[at:clause.start()])
            at = end
    return "".join(kept) + text[at:]


def imports(text: str, word: str) -> dict[str, str]:
    """Returns the crate of each name that a file imports, or exports by `pub use`."""
    return {name: crate for crate, names in re.findall(rf"^{word} (\w+)::([^;]*);", text, re.M) for name in re.findall(r"\w+", names)}


def calls(crates: dict[str, list[str]]) -> tuple[dict[Function, set[Function]], set[Function]]:
    """Returns the functions that each function mentions, and those with an empty body, which are laws."""
    bodies, exported = [], {}
    for crate, texts in crates.items():
        for text in map(without_contracts, texts):
            exported.update(((crate, name), other) for name, other in imports(text, "pub use").items() if other in crates)
            parts = re.split(r"\bfn (\w+)", text)
            bodies += [((crate, name), body, imports(text, "(?:pub )?use")) for name, body in zip(parts[1::2], parts[2::2])]
    places: dict[str, set[str]] = {}
    for (crate, name), _, _ in bodies:
        places.setdefault(name, set()).add(crate)
    found: dict[Function, set[Function]] = {}
    for (crate, name), body, imported in bodies:
        mentioned = found.setdefault((crate, name), set())
        for dot, word in re.findall(r"(\.|::)?\b(\w+)", body):
            source = imported.get(word, crate)
            while (source, word) in exported:
                source = exported[source, word]
            mentioned.update((place, word) for place in places.get(word, ()) if dot or place in (crate, source))
    return found, {function for function, body, _ in bodies if re.match(r"(?:<[^>]*>)?\([^)]*\)\s*\{\}", body)}


def reached(found: dict[Function, set[Function]]) -> set[Function]:
    """Returns the functions that `main` and the calls of the library lead to."""
    seen: set[Function] = set()
    waiting = [function for function in found if function[1] == "main" or function[0] == "rim_c"]
    while waiting:
        function = waiting.pop()
        if function not in seen:
            seen.add(function)
            waiting += found.get(function, ())
    return seen


def promised() -> set[Function]:
    """Returns the functions in the contract columns of docs/PROMISES.md, except for what these call laws."""
    found, crate = set(), ""
    for line in (TOP / "docs" / "PROMISES.md").read_text().splitlines():
        crate = line[3:] if line.startswith("## ") else crate
        cells = line.split(" | ")
        if len(cells) == 4 and "law" not in cells[2].split():
            found.update((crate, name) for name in re.findall(r"`(?:\w+::)?([a-z]\w*)`", cells[2]))
    return found


def named_by_readme(found: dict[Function, set[Function]]) -> set[Function]:
    """Returns the functions whose names README has in backquotes."""
    names = set(re.findall(r"`(?:\w+::)?([a-z]\w*)`", (TOP / "README.md").read_text()))
    return {function for function in found if function[1] in names}


def is_excused(texts: list[str], name: str) -> bool:
    """Says whether the comment of a function has the sentence that no program calls it."""
    return any("No program calls it" in comment for text in texts for comment in re.findall(rf"((?:^ *//.*\n)+)(?: *#.*\n)*[\w ]*\bfn {name}\b", text, re.M))


def main() -> int:
    crates = sources()
    found, laws = calls(crates)
    known = reached(found)
    names = {name for _, name in known | laws}
    missed = (promised() & set(found)) - known - laws
    missed |= {function for function in named_by_readme(found) if function[1] not in names}
    wrong = [f"{crate}: no program calls {name}, and its comment does not say so" for crate, name in sorted(missed - KEPT) if not is_excused(crates[crate], name)]
    print(*wrong, sep="\n", end="\n" if wrong else "")
    return int(bool(wrong))


if __name__ == "__main__":
    sys.exit(main())
