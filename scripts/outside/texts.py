"""How a text of somebody else's is shown: a path, a name, what a program says. It is the rule of the program's crate shown_text.

A character that nobody sees, or that cannot be told from a space, is shown by its number: `\\x` and two hexadecimal digits, `\\u` and four,
or `\\U` and eight. So no text ends a line, moves a terminal's cursor or looks like another one. A byte that is no UTF-8 is shown by its
number too: Python keeps such a byte in a path as one of a pair of surrogates.
"""
import functools
import shlex
import unicodedata

# How many characters are shown of a text between quotes, and of a line that a program says.
MOST_SHOWN, MOST_SAID = 160, 1000
# Default_Ignorable_Code_Point (Unicode, DerivedCoreProperties.txt): first and last of each range. The module unicodedata has no such table.
IGNORABLE = ((0x00AD, 0x00AD), (0x034F, 0x034F), (0x061C, 0x061C), (0x115F, 0x1160), (0x17B4, 0x17B5), (0x180B, 0x180F), (0x200B, 0x200F),
             (0x202A, 0x202E), (0x2060, 0x206F), (0x3164, 0x3164), (0xFE00, 0xFE0F), (0xFEFF, 0xFEFF), (0xFFA0, 0xFFA0), (0xFFF0, 0xFFF8),
             (0x1BCA0, 0x1BCA3), (0x1D173, 0x1D17A), (0xE0000, 0xE0FFF))
# Signs that are drawn as nothing: the empty pattern of Braille, two fillers, the place of an object, two blanks of hieroglyphs.
BLANK = frozenset((0x2800, 0x16FE4, 0x1D159, 0xFFFC, 0x13441, 0x13442))
# The bytes that are no UTF-8, as Python keeps them in a path.
BYTES = range(0xDC80, 0xDD00)


@functools.lru_cache(maxsize=4096)
def is_hidden(letter: str) -> bool:
    """Whether nobody sees a character, or can tell it from a space."""
    number = ord(letter)
    is_sign = letter == " " or unicodedata.category(letter)[0] not in "CZ"
    return not is_sign or number in BLANK or any(first <= number <= last for first, last in IGNORABLE)


@functools.lru_cache(maxsize=4096)
def character(letter: str) -> str:
    """A character as it is shown."""
    number = ord(letter)
    if number in BYTES:
        return f"\\x{number - 0xDC00:02x}"
    if not is_hidden(letter):
        return letter
    if number < 0x100:
        return f"\\x{number:02x}"
    return f"\\u{number:04x}" if number < 0x10000 else f"\\U{number:08x}"


def plain(text: str) -> str:
    """A text without hidden characters. Its own `\\` are as they are, as in what is shown by this rule already."""
    return text if text.isascii() and text.isprintable() else "".join(map(character, text))


def visible(text: str) -> str:
    """A text that is not between quotes, as a path: each `\\` is doubled, so that none is taken for the first of a number."""
    return plain(text.replace("\\", "\\\\"))


def pasted(word: str) -> str:
    """A word in a command line that a reader may paste into a shell: no character of it begins another command."""
    return shlex.quote(visible(word))


def quoted(text: str) -> str:
    """A text between quotes."""
    return '"' + plain(text.replace("\\", "\\\\").replace('"', '\\"')) + '"'


def shown(text: str, most: int = MOST_SHOWN) -> str:
    """A text between quotes. One that is long is cut, with `..` after it."""
    return quoted(text) if len(text) <= most else quoted(text[:most]) + ".."


def last_line(said: str, otherwise: str = "it says nothing") -> str:
    """The last line that a program has said. Its `\\` are not doubled: `rim` shows names by this rule itself."""
    lines = [line for line in map(str.strip, said.split("\n")) if line] or [otherwise]
    return plain(lines[-1][:MOST_SAID]) + ".." * (len(lines[-1]) > MOST_SAID)
