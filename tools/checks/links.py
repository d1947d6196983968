#!/usr/bin/env python3
"""Follows the links of README.md, docs/*.md and bench/*.md that stay in the repository.

    tools/checks/links.py           each of them, one a line
    tools/checks/links.py --check   status 1 where a file or a heading does not exist
"""
import pathlib
import re
import sys

TOP = pathlib.Path(__file__).resolve().parents[2]
LINK = re.compile(r"\]\(([^()\s]+)\)")


def pages():
    return [TOP / "README.md", *sorted(TOP.glob("docs/*.md")), *sorted(TOP.glob("bench/*.md"))]


def prose(path):
    """The lines of a page that are not within a block of code."""
    return re.sub(r"^```.*?^```", "", path.read_text(), flags=re.M | re.S).splitlines()


def anchors(path):
    """The anchors of a page: those of its headings, of which equal ones are numbered."""
    found = []
    for line in prose(path):
        if re.match(r"#+ ", line):
            words = re.sub(r"\]\([^)]*\)", "", line.lstrip("#").strip().lower())
            name = re.sub(r"[^\w\- ]", "", words).replace(" ", "-")
            count = found.count(name)
            found += [name, f"{name}-{count}"] if count else [name]
    return found


def links():
    """Each link that stays here: the page, its words, and whether they lead to something."""
    for page in pages():
        for link in LINK.findall("\n".join(prose(page))):
            if re.match(r"\w+:", link):
                continue
            file, _, anchor = link.partition("#")
            there = (page.parent / file).resolve() if file else page
            ends = there.exists() and (not anchor or there.suffix == ".md" and anchor in anchors(there))
            yield page.relative_to(TOP), link, ends


def main(words):
    some = list(links())
    if words != ["--check"]:
        print("\n".join(f"{page} {link}" for page, link, _ in some))
        return 0
    wrong = [f"{page}: {link} leads nowhere" for page, link, ends in some if not ends]
    print("\n".join(wrong), end="\n" if wrong else "")
    return int(bool(wrong))


if __name__ == "__main__":
    sys.exit(main(sys.argv[1:]))
