"""What the measurement of a launch is made of, as a bar (SVG) and in words: its extensions by their kind."""
from __future__ import annotations

from .maps import Map
from .markup import count_of, element
from .picture import area, path

# The members of a map's extensions, with what each counts in words: of one, and of several.
PARTS = (("realms", "realm", "realms"), ("ripas", "block of RAM", "blocks of RAM"), ("pages", "page with contents", "pages with contents"),
         ("unmeasured", "page without contents", "pages without contents"), ("recs", "REC", "RECs"))
# How wide the bar is, and each part of it at least, in its own units.
WIDTH, LEAST, HEIGHT = 760, 4, 12


def parts(here: Map) -> list[tuple[int, int, str]]:
    """The number of each part that there is, how many extensions it has, and that in words."""
    known = [(at, here.extensions.get(key, 0), one, several) for at, (key, one, several) in enumerate(PARTS)]
    return [(at, count, count_of(count, one, several)) for at, count, one, several in known if count > 0]


def bar(here: Map) -> str:
    """The bar with what each part of it is."""
    some = parts(here)
    whole = sum(count for _, count, _ in some)
    room, left, drawn = WIDTH - LEAST * len(some), 0.0, []
    for at, count, _ in some:
        right = left + LEAST + room * count / whole
        drawn.append(path(f"e{at}", area(left, 0, right, HEIGHT)))
        left = right
    # the list after it says the same
    picture = element("svg", "".join(drawn), class_="bar", viewBox=f"0 0 {WIDTH} {HEIGHT}", preserveAspectRatio="none", aria_hidden="true")
    keys = "".join(f'<li class="e{at}">{said}</li>' for at, _, said in some)
    return f'<p>The measurement has {count_of(whole, "extension")}:</p>{picture}<ul class="key">{keys}</ul>'


def granules(here: Map) -> str:
    """What the granules of the pool become, in words."""
    of = here.granules
    levels = "".join(f", {count:,} of level {level}" for level, count in enumerate(here.tables, 1) if count)
    others = (("descriptors", "descriptor"), ("pages", "page"), ("recs", "REC"), ("auxiliary", "auxiliary granule"))
    some = [count_of(of[key], what) for key, what in others if of.get(key)]
    return f"{of.get('delegated', 0):,} of the pool: tables: {of.get('start_tables', 0):,} to begin with{levels}; {', '.join(some)}"
