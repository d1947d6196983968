"""A measurement that a machine has: hexadecimal digits or base64, as tokens and reports have it; or the bytes of a claim."""
import base64
import binascii
import re
from collections.abc import Sequence
from dataclasses import dataclass

from outside.faults import WrongWords
from outside.texts import shown

# How many bytes a digest of each algorithm has.
LENGTHS = {"sha256": 32, "sha512": 64}
# What CBOR has before the bytes of the claim cca-realm-initial-measurement: its label, and how many bytes follow.
CLAIM_HEADS = (b"\x19\xac\xce", b"\x58\x20", b"\x58\x40")
# What hexadecimal digits and base64 consist of.
TEXT = re.compile(rb"[0-9A-Za-z+/_=-]+")
EXPECTED = "expected 32 or 64 bytes, as hexadecimal digits or in base64"


@dataclass(frozen=True)
class Value:
    """A measurement: the algorithm that its length is of, and its digits as a report has them."""

    algo: str
    digits: str


def last_shared(here: Sequence[str], there: Sequence[str]) -> tuple[int, int]:
    """Returns how many of each sequence there are up to the last one that is in both, or 0 and 0. For measurements after each step, equal ones
    are of equal steps before them, whether a machine logs a step for each block of RAM or for each command."""
    places = {each: number for number, each in enumerate(there, 1)}
    return max(((number, places[each]) for number, each in enumerate(here, 1) if each in places), default=(0, 0), key=lambda both: both[1])


def bytes_of(text: str, name: str) -> bytes:
    """The bytes of a text. One of hexadecimal digits alone is no base64, where it has the length of a digest."""
    plain = text.removeprefix("0x")
    if re.fullmatch(r"[0-9a-fA-F]+", plain) and len(plain) in (64, 96, 128):
        return bytes.fromhex(plain)
    # tokens as JSON have the alphabet for addresses, often without the `=` at the end
    padded = text.rstrip("=").replace("-", "+").replace("_", "/")
    padded += "=" * (-len(padded) % 4)
    try:
        return base64.b64decode(padded, validate=True)
    except (binascii.Error, ValueError):
        raise WrongWords(f"{name}: {shown(text)}, {EXPECTED}") from None


def read(text: str, name: str = "VALUE") -> Value:
    """The measurement of a word, which `name` calls. One that is padded with zeros is the 32 bytes before them: a monitor keeps a SHA-256
    digest so."""
    data = bytes_of(text.strip(), name)
    if len(data) not in (32, 48, 64):
        raise WrongWords(f"{name}: {shown(text)} has {len(data)} byte{'s' * (len(data) != 1)}, {EXPECTED}")
    return of_bytes(data, name)


def of_bytes(data: bytes, name: str) -> Value:
    """The measurement of 32, 48 or 64 bytes."""
    if not any(data[32:]):
        return Value("sha256", data[:32].hex())
    if len(data) == 48:
        raise WrongWords(f"{name}: it has 48 bytes, as SHA-384 has, which is the hash of no realm that rim measures: {EXPECTED}")
    return Value("sha512", data.hex())


def of_file(data: bytes, name: str) -> Value:
    """Returns the measurement in a file: a text as above, the bytes of the claim, or the whole claim as CBOR has it. Text comes first, since 64
    hexadecimal digits are as many bytes as a SHA-512 digest."""
    text = b"".join(data.split())
    if TEXT.fullmatch(text):
        return read(text.decode(), name)
    claim = data
    for head in CLAIM_HEADS if len(data) not in (32, 64) else ():
        claim = claim.removeprefix(head)
    if len(claim) not in (32, 64):
        raise WrongWords(f"{name}: {len(data)} bytes, {EXPECTED}, or the claim as CBOR has it")
    return of_bytes(claim, name)
