"""A whole page: its head, with what a browser may do with it, and the frame of all pages."""
from __future__ import annotations

import base64
import hashlib

from . import picture, script, style
from .markup import element

# What a reader has to know of each page.
FOOT = ("This page is only tested: what is proved is the program, over definitions that restate the standard. No RIM of <code>rim</code> was ever "
        "compared with one that a running RMM measured.")
OF_VALUES = "Values are those that <code>rim measure</code> has computed while this page was made. "


def hash_of(text: str) -> str:
    """How a policy names an inline text."""
    return f"'sha256-{base64.b64encode(hashlib.sha256(text.encode()).digest()).decode()}'"


def policy() -> str:
    """What the page may load: nothing. Its own style and its own script are named by their digests."""
    return (f"default-src 'none'; style-src {hash_of(style.OF_PAGE)}; script-src {hash_of(script.OF_PAGE)}; img-src data:; base-uri 'none'; "
            "form-action 'none'")


def page(title: str, content: str, has_values: bool = True) -> str:
    """A page with this title and this content, both HTML. The icon is an empty one, since a browser would ask for one."""
    return f"""<!DOCTYPE html>
<html lang="en">
<head>
<meta charset="utf-8">
<meta http-equiv="Content-Security-Policy" content="{policy()}">
<meta name="referrer" content="no-referrer">
<meta name="viewport" content="width=device-width, initial-scale=1">
<meta name="color-scheme" content="light dark">
<link rel="icon" href="data:,">
<title>{title}</title>
<style>{style.OF_PAGE}</style>
</head>
<body>
<main>
{content}</main>
<footer><p>{OF_VALUES * has_values}{FOOT}</p></footer>
<script>{script.OF_PAGE}</script>
</body>
</html>
"""


def how_to_read() -> str:
    """What the colours of the pictures are."""
    drawn = element("svg", f"<title>What the colours of a map are</title>{picture.legend(4)}", class_="map", role="img",
                    viewBox=f"0 0 {picture.WIDTH} {picture.LEGEND_HEIGHT}")
    return ("<h2>How to read a map</h2><p>Addresses rise downwards. RAM is to scale, with its items in it; beside it each item is drawn again, as large "
            "as the others: its box has its pages, and the colour its bytes. Left of RAM are the blocks of RAM that are measured, by their "
            "size, and the parts that a table of level 3 divides into pages. These two are worked out by rim-page, and drawn only where there are as "
            f"many of them as rim counts.</p><figure>{drawn}</figure>\n")
