#!/usr/bin/env python3
"""Puts the documents that a user reads into a package's tree, with links that lead somewhere there.

    tools/package/documents.py TREE           TREE has the scripts already

A link to what is in the package leads to it. Of one to anything else of the repository the words stay, and after them its path, where they are
not the path themselves.
"""
import os
import pathlib
import re
import sys

TOP = pathlib.Path(__file__).resolve().parents[2]
HERE, SCRIPTS = "share/doc/rim", "share/rim"
PATTERNS = ("README.md", "docs/*.md", "docs/*.schema.json", "docs/*.png", "bench/RESULTS.md", "examples/**/*")
# Examples that build something need the repository around them.
LEFT_OUT = "examples/debian/"
CODE = re.compile(r"(^```.*?^```)", re.M | re.S)
LINK = re.compile(r"\[([^\[\]]*)\]\(([^()\s]+)\)")


def documents() -> list[str]:
    """Their paths in the repository."""
    found = (path for pattern in PATTERNS for path in TOP.glob(pattern) if path.is_file())
    return sorted(name for name in (path.relative_to(TOP).as_posix() for path in found) if not name.startswith(LEFT_OUT))


def places(tree: pathlib.Path, names: list[str]) -> dict[str, str]:
    """Where in the package each file is that documents may lead to, and each folder of them."""
    found = {name: f"{HERE}/{name}" for name in names}
    scripts = (path.relative_to(TOP / "scripts").as_posix() for path in (TOP / "scripts").glob("*/*") if path.is_file())
    found |= {f"scripts/{name}": f"{SCRIPTS}/{name}" for name in scripts if (tree / SCRIPTS / name).is_file()}
    return found | {os.path.dirname(name): os.path.dirname(place) for name, place in found.items()}


def led(name: str, there: dict[str, str], words: str, link: str) -> str:
    """A link of a document as it is in the package."""
    path, mark, anchor = link.partition("#")
    if re.match(r"\w+:", link) or not path:
        return f"[{words}]({link})"
    target = os.path.normpath(os.path.join(os.path.dirname(name), path))
    if target in there:
        return f"[{words}]({os.path.relpath(there[target], os.path.dirname(there[name]))}{mark}{anchor})"
    return words if words.strip("`") in (target, path, path.rstrip("/")) else f"{words} (`{target}`)"


def packaged(name: str, text: str, there: dict[str, str]) -> str:
    """The text of a document, outside its blocks of code."""
    parts = CODE.split(text)
    return "".join(part if part.startswith("```") else LINK.sub(lambda found: led(name, there, found[1], found[2]), part) for part in parts)


def main(words: list[str]) -> int:
    if len(words) != 1:
        print("documents.py: expected TREE", file=sys.stderr)
        return 2
    tree = pathlib.Path(words[0])
    names = documents()
    there = places(tree, names)
    for name in names:
        data = (TOP / name).read_bytes()
        file = tree / there[name]
        file.parent.mkdir(parents=True, exist_ok=True)
        file.write_bytes(packaged(name, data.decode(), there).encode() if name.endswith(".md") else data)
    return 0


if __name__ == "__main__":
    sys.exit(main(sys.argv[1:]))
