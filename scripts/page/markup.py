"""Elements of HTML and SVG as texts. Each text that comes from a manifest, a file or a program is shown by the rule of `outside.texts` and
escaped here, so no character of it is a mark, moves others or is hidden. It is always between tags: no attribute has a text of others."""
from __future__ import annotations

import html

from outside.texts import plain, visible

# How many characters of a path, and of a command line, a cell of a table has; how many are shown where all of it is to be read.
MOST_PATH, MOST_LINE, MOST_WHOLE = 120, 160, 1 << 16


def escaped(text: str) -> str:
    """A text of a program's, which has shown what is hidden in it already."""
    return html.escape(plain(text), quote=False)


def named(text: str, most: int = MOST_WHOLE) -> str:
    """A path or a command line: its own `\\` are doubled. One that is longer than this is cut, with `..` after it."""
    return html.escape(visible(text[:most]), quote=False) + ".." * (len(text) > most)


def element(name: str, content: str, **attributes: object) -> str:
    """An element. The names of attributes have no `_` at their end, and `-` for each other one; one that is None is left out."""
    said = "".join(f' {key.rstrip("_").replace("_", "-")}="{value}"' for key, value in attributes.items() if value is not None)
    return f"<{name}{said}>{content}</{name}>"


def code(text: str, most: int = MOST_WHOLE) -> str:
    return f"<code>{named(text, most)}</code>"


def digits(text: str) -> str:
    """Hexadecimal digits, which the style shows in groups: who copies them gets all of them and nothing else."""
    return f"<samp>{escaped(text)}</samp>"


def listed(lines: list[str], **attributes: object) -> str:
    """Lines of HTML as a list; nothing where there are none."""
    return element("ul", "".join(f"<li>{line}</li>" for line in lines), **attributes) if lines else ""


def pairs(rows: list[tuple[str, str]]) -> str:
    """Names with what is said of each: a name is of ours, and what is said is HTML."""
    return "<dl>" + "".join(f"<dt>{name}</dt><dd>{said}</dd>" for name, said in rows) + "</dl>"


def table(about: str, heads: list[str], rows: list[list[str]], **attributes: object) -> str:
    """A table whose first column names its rows. `about` is its caption, and all cells are HTML."""
    head = "".join(f'<th scope="col">{each}</th>' for each in heads)
    body = "".join(f'<tr><th scope="row">{row[0]}</th>{"".join(f"<td>{cell}</td>" for cell in row[1:])}</tr>\n' for row in rows)
    return element("table", f"<caption>{about}</caption><thead><tr>{head}</tr></thead><tbody>\n{body}</tbody>", **attributes)


def scrolled(about: str, content: str) -> str:
    """What may be wider than the page: it is moved by itself, also by the keyboard."""
    return f'<div class="wide" role="region" aria-label="{about}" tabindex="0">{content}</div>'


def count_of(count: int, what: str, several: str = "") -> str:
    """How many there are, in words: `1 launch`, `1,024 launches`."""
    return f"{count:,} {what if count == 1 else several or what + 's'}"


def size_of(count: int) -> str:
    """A number of bytes in the largest unit of which it is a whole number."""
    unit = max((bits for bits in (0, 10, 20, 30, 40) if count and count % (1 << bits) == 0), default=0)
    return count_of(count, "byte") if not unit else f"{count >> unit:,} {('KiB', 'MiB', 'GiB', 'TiB')[unit // 10 - 1]}"
