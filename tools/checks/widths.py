#!/usr/bin/env python3
"""Makes the text of SHA-512 in lanes from that of SHA-256.

    tools/checks/widths.py --write   writes it anew
    tools/checks/widths.py --check   status 1 where it is another text than would be written

SHA-512 is SHA-256 over words of twice as many bits (FIPS 180-4, 6.2 and 6.4): its blocks and its numbers of rounds and words are
larger, and its constants and rotations are others. The kit states each of the two by definitions of its own, so a contract names
those of one width, and no function or lemma serves both. What differs between the two in the files of SAME is only what TABLE has:
they are written for SHA-256, and made for SHA-512. What differs in more, as rotations, constants and padding, is in files of
its own, written for each.
"""
import pathlib
import re
import sys

TOP = pathlib.Path(__file__).resolve().parent.parent.parent
CRATES = TOP / "crates"
FROM, MADE = "rim_sha256", "rim_sha512"
# The files, and folders of them, that are written for SHA-256, within its crate.
SAME = [
    "src/lanes.rt",
    "src/vectors.rt",
    "src/lanes/known_blocks.rt",
    "src/lanes/loading.rt",
    "src/lanes/messages.rt",
    "src/lanes/rounds.rt",
    "proofs/KnownBlocks.antt",
    "proofs/MessageHashes.antt",
    "proofs/vectors",
    "proofs/lanes/known_blocks",
    "proofs/lanes/loading",
    "proofs/lanes/messages",
    "proofs/lanes/rounds",
]
# What SHA-256 has, and what SHA-512 has there. Of the patterns that fit at a place the first counts.
TABLE = [
    # Names and sections of the standard.
    (r"(?<=[A-Za-z_-])256\b", "512"),
    (r"\b4\.1\.2\b", "4.1.3"),
    (r"\b5\.2\.1\b", "5.2.2"),
    (r"\b5\.3\.3\b", "5.3.5"),
    (r"\b6\.2\.2\b", "6.4.2"),
    # The bits of a word, and the bytes of a word and of a digest.
    (r"(?<=[a-z])32\b", "64"),
    (r"\b32\b", "64"),
    (r"\b4 \*", "8 *"),
    # A vector has as many words at most, whatever their width.
    (r"(?<=N ≤ )64\b", "64"),
    # Rounds, and turns of eight and of sixteen of them.
    (r"(?<=u32; )64\b", "80"),
    (r"(?<=t < )64\b", "80"),
    (r"(?<=t \+ 4 ≤ )64\b", "80"),
    (r"(?<=turn ≡ )64\b", "80"),
    (r"\b64(?= add32)", "80"),
    (r"(?<=Below256 sums b )64\b", "80"),
    (r"(?<=turn in 0\.\.)8\b", "10"),
    (r"(?<=turn in 1\.\.)4\b", "5"),
    (r"(?<=turn < )4\b", "5"),
    # Words of a schedule after the block's own.
    (r"\b48\b", "64"),
    # The bytes of a block.
    (r"\b64\b", "128"),
]
ORIGIN = "tools/checks/widths.py makes this text from that for SHA-256."
PATTERN = re.compile("|".join(f"({pattern})" for pattern, _ in TABLE))


def widened(text: str) -> str:
    """A text for SHA-512, from that for SHA-256."""
    return PATTERN.sub(lambda found: TABLE[found.lastindex - 1][1], text)


def made_from(file: str, text: str) -> str:
    """The text of a file for SHA-512, which says where it comes from."""
    if file.endswith(".rt"):
        return re.sub(r"\A(?://!.*\n)*", lambda head: f"{head[0]}//! {ORIGIN}\n", widened(text))
    return f"-- {ORIGIN}\n{widened(text)}"


def files(crate: str, place: str) -> set[str]:
    """The files at a place of a crate: it may be one, a folder of them, or nothing."""
    folder = CRATES / crate
    path = folder / place
    if path.is_dir():
        return {str(each.relative_to(folder)) for each in path.rglob("*") if each.is_file()}
    return {place} if path.exists() else set()


def texts() -> dict[str, str]:
    """The files of SHA-512, with their texts as they are made."""
    return {file: made_from(file, (CRATES / FROM / file).read_text()) for place in SAME for file in sorted(files(FROM, place))}


def kept() -> dict[str, str]:
    """The files that are in these places of SHA-512's crate, with their texts."""
    return {file: (CRATES / MADE / file).read_text() for place in SAME for file in files(MADE, place)}


def check() -> int:
    """Says which files differ from what is made."""
    made, now = texts(), kept()
    wrong = sorted(file for file in made | now if made.get(file) != now.get(file))
    for file in wrong:
        print(f"crates/{MADE}/{file} is not what tools/checks/widths.py makes")
    print(f"{len(made)} files of SHA-512 are made from those of SHA-256; {len(wrong)} differ")
    return int(bool(wrong))


def write() -> int:
    """Writes what is made, and removes what is not made any more."""
    made = texts()
    for file in kept().keys() - made.keys():
        (CRATES / MADE / file).unlink()
    for file, text in made.items():
        (CRATES / MADE / file).parent.mkdir(parents=True, exist_ok=True)
        (CRATES / MADE / file).write_text(text)
    return 0


if __name__ == "__main__":
    commands = {("--check",): check, ("--write",): write}
    if tuple(sys.argv[1:]) not in commands:
        sys.exit(__doc__)
    sys.exit(commands[tuple(sys.argv[1:])]())
