#!/usr/bin/env python3
"""Checks what crates.txt says of functions that may wait, and of what tests may do.

    tools/checks/handles.py           each crate that has some, as crates.txt has to name it
    tools/checks/handles.py --check   status 1 where crates.txt says otherwise

A function whose handle has the bound `Wait` may wait for ever, and then meets each of its clauses. The prover counts those
of a crate in `may-wait=` on the last line of its proof, and names under `main=` what its tests do with their `HostRuntime`.
`rt verdict` holds `may_wait=` and `tests_may=` of crates.txt to these, and `rt ci` does not. This reads the sources and
asks no prover. It counts as the prover does:

- A function counts where `Wait` is a bound of its own handle or of the `impl` that it is in, be it used or not; without a
  body it does not.
- An `impl` under the bound counts each function with a body that it leaves to its trait, too.
- `main` counts where it hands its `rt` to a function that may wait. Nothing else has the bound without naming it.
- A closure does not count, nor does what is read for tests alone.

Tests may do what is a bound of a function of their crate, or of one below it or in std to which they hand their `rt`. Names are
compared and no types, so two functions of one name are one here. Some forms are not counted and fail the check: another
name for `Wait`, a trait that has it above it, a body of a trait's function under the bound, and what is derived for a type
with the bound, but for `Drop` and `Copy`.
"""
import pathlib
import re
import sys

TOP = pathlib.Path(__file__).resolve().parents[2]
# The bounds that crates.txt names, in the order in which it does.
WORDS = ("Threads", "Wait", "Net", "Processes")
# What is no code: comments, texts, and single characters, of which one may be a bracket.
NO_CODE = re.compile(r'//[^\n]*|/\*.*?\*/|b?r(#*)".*?"\1|b?"(?:\\.|[^"\\])*"|b?\'(?:\\[^\n]{1,9}?|[^\'\\\n])\'', re.S)
ITEM = re.compile(r"\b(fn\s+(?P<fn>\w+)|mod\s+(?P<mod>\w+)|impl\b|trait\s+(?P<trait>\w+)|(?:struct|enum)\s+\w+)")
# A contract follows the header, and its words are no bounds.
CONTRACT = re.compile(r"\b(?:requires|ensures|decreases)\b")
# A call whose first argument is the handle.
HANDED = re.compile(r"\b(\w+)(?:::<[^()]*>)?\(\s*&?rt\b(?!\s*[.:])|\brt\.(\w+)\(")
# Calls of the kit's std that take a handle with a bound.
OF_STD = {"lock": {"Wait"}, "wait": {"Wait"}, "join": {"Wait"}, "forever": {"Wait"}, "spawn": {"Threads"}, "scope": {"Threads"}}


class Item:
    """A function, a module, an implementation, a trait or a type: its header, and the items of its body."""

    def __init__(self, found, above, header, attributes):
        self.kind, self.above, self.inner = found[0].split()[0], above, []
        self.name = found["fn"] or found["mod"] or found["trait"]
        self.header, self.attributes, self.body = CONTRACT.split(header)[0], attributes, None

    def all(self):
        yield self
        for item in self.inner:
            yield from item.all()

    def bounds(self):
        """The bounds of its header and of the one that it is in, unless that is a function."""
        own = {word for word in WORDS if re.search(rf"\b{word}\b", self.header)}
        return own | (self.above.bounds() if self.above and self.above.kind in ("impl", "trait") else set())

    def is_for_tests(self):
        own = re.search(r"#\[\s*(?:test|cfg\(test\))\s*\]", self.attributes)
        return bool(own or self.above and self.above.is_for_tests())


def header_end(text, at, end):
    """Where the header that begins here ends: at a brace or a semicolon that is in no bracket."""
    depth = 0
    for found in re.compile(r"[(\[)\]{;]").finditer(text, at, end):
        depth += (found[0] in "([") - (found[0] in ")]")
        if depth == 0 and found[0] in "{;":
            return found.start()
    return end


def closing(text, at):
    """Where the brace that opens here is closed."""
    depth = 0
    for found in re.compile("[{}]").finditer(text, at):
        depth += 1 if found[0] == "{" else -1
        if depth == 0:
            return found.start()
    return len(text)


def body_of(text, at, header):
    """Where the body begins and ends of what has a header up to this brace. A contract has braces too, and a function that is
    only declared has no others."""
    is_clause, end = bool(CONTRACT.search(header)), closing(text, at)
    while is_clause:
        more = re.compile(r"\s*((?:ghost\s+)?(?:requires|ensures|decreases)\b[^{;]*)?\{").match(text, end + 1)
        if not more:
            return None, end + 1
        is_clause, at = bool(more[1]), more.end() - 1
        end = closing(text, at)
    return at, end + 1


def items_of(text, at, end, above):
    """The items of a piece of code, with those inside them."""
    found = ITEM.search(text, at, end)
    while found:
        stop = header_end(text, found.start(), end)
        header = text[found.start():stop]
        item = Item(found, above, header, re.split(r"[;}]", text[at:found.start()])[-1])
        at = stop + 1
        if text[stop:at] == "{":
            start, at = body_of(text, stop, header if item.kind == "fn" else "")
            if start is not None:
                item.body = text[start:at]
                item.inner = list(items_of(text, start + 1, at - 1, item))
        yield item
        found = ITEM.search(text, at, end)


def code(path):
    """What a file has beside comments and texts."""
    return NO_CODE.sub(lambda found: '""' if found[0][0] in 'b"r' else " ", path.read_text())


def modules(path, folder, above):
    """The items of a file and of the modules that it names."""
    text = code(path)
    for item in items_of(text, 0, len(text), above):
        if item.kind == "mod" and item.body is None:
            item.inner = list(modules(folder / f"{item.name}.rt", folder / item.name, item))
        yield item


def items(crate):
    """All items of a crate."""
    folder = TOP / "crates" / crate / "src"
    root = next(path for path in (folder / "lib.rt", folder / "main.rt") if path.is_file())
    return [inner for item in modules(root, folder, None) for inner in item.all()]


def rows():
    """Each crate of crates.txt: what it says of waiting and of tests, and the libraries that it names."""
    for line in (TOP / "crates.txt").read_text().splitlines():
        front, _, below = line.partition("#")[0].partition(":")
        if front.strip():
            name, *words = front.split()
            said = dict(word.split("=") for word in words if "=" in word)
            yield name, int(said.get("may_wait", 0)), said.get("tests_may", ""), below.split()


def given_over(item, defaults):
    """The functions with a body that an implementation leaves to its trait."""
    trait = re.search(r"(?:>|\bimpl)\s+([\w:]+)(?:<.*>)?\s+for\b", item.header)
    own = {inner.name for inner in item.inner}
    return defaults.get(trait[1].split("::")[-1], set()) - own if trait else set()


def handed(text, bounds):
    """The bounds of the functions to which a text hands its `rt`, of those known by name."""
    return set().union(*(bounds.get(function or method, set()) for function, method in HANDED.findall(text)))


def may_wait(known, defaults, bounds):
    """How many functions of a crate may wait."""
    read = [item for item in known if not item.is_for_tests()]
    bound = [item for item in read if "Wait" in item.bounds()]
    own = sum(item.kind == "fn" and item.body is not None for item in bound)
    left = sum(len(given_over(item, defaults)) for item in bound if item.kind == "impl")
    mains = [item for item in read if item.kind == "fn" and item.name == "main" and item.above is None]
    return own + left + sum("Wait" in handed(item.body, bounds) for item in mains)


def tests_may(known, bounds):
    """What the tests of a crate may do, in the form of crates.txt."""
    if not any(item.is_for_tests() for item in known):
        return ""
    functions = [item for item in known if item.kind == "fn"]
    found = set().union(*(item.bounds() | handed(item.body or "", bounds) for item in functions))
    return "+".join(word for word in WORDS if word in found)


def bounds_by_name(known):
    """The bounds of the functions that a crate has or can call."""
    bounds = {name: set(words) for name, words in OF_STD.items()}
    for item in known:
        if item.kind == "fn":
            bounds.setdefault(item.name, set()).update(item.bounds())
    return bounds


def uncounted(crate, known):
    """The forms that are not counted here."""
    for item in known:
        if "Wait" not in item.bounds():
            continue
        if item.kind == "trait":
            yield f"{crate}: the trait {item.name} has `Wait` above it, which is not counted"
        if item.kind == "fn" and item.body is not None and item.above and item.above.kind == "trait":
            yield f"{crate}: {item.above.name}::{item.name} has a body under the bound, which is not counted for each `impl`"
        derived = re.findall(r"#\[\s*derive\(([^)]*)\)", item.attributes)
        if item.kind in ("struct", "enum") and set(re.findall(r"\w+", " ".join(derived))) - {"Drop", "Copy"}:
            yield f"{crate}: what is derived for a type with the bound is not counted: {item.header.strip()}"
    for path in sorted((TOP / "crates" / crate / "src").glob("**/*.rt")):
        if re.search(r"\bWait as\b", code(path)):
            yield f"{crate}: {path.name} has another name for `Wait`"


def main(words):
    said = list(rows())
    all_items = {crate: items(crate) for crate, *_ in said}
    traits = [item for known in all_items.values() for item in known if item.kind == "trait"]
    defaults = {trait.name: {inner.name for inner in trait.inner if inner.body is not None} for trait in traits}
    wrong = []
    for crate, waits, tests, below in said:
        known = all_items[crate]
        bounds = bounds_by_name([item for name in [crate, *below] for item in all_items.get(name, [])])
        counted, done = may_wait(known, defaults, bounds), tests_may(known, bounds)
        if words != ["--check"] and (counted or done):
            print(crate, *[f"may_wait={counted}"] * bool(counted), *[f"tests_may={done}"] * bool(done))
        if waits != counted:
            wrong.append(f"crates.txt: {crate}: may_wait={waits} is written, and {counted} functions may wait")
        if tests != done:
            wrong.append(f"crates.txt: {crate}: tests_may={tests} is written, and its tests may do {done or 'nothing'}")
        wrong += uncounted(crate, known)
    if words != ["--check"]:
        return 0
    print("\n".join(wrong), end="\n" if wrong else "")
    return int(bool(wrong))


if __name__ == "__main__":
    sys.exit(main(sys.argv[1:]))
