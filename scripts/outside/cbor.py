"""CBOR (RFC 8949) of somebody else, as data. It is read strictly: a length is compared with what is there before anything is made of that
length, a map has each key once, tags are kept and not interpreted, and depth has a limit. So bytes have one reading, or are a fault."""
from __future__ import annotations

from dataclasses import dataclass

# How deep arrays, maps and tags may be within one another.
MOST_DEPTH = 64
# The major types.
UNSIGNED, NEGATIVE, BYTES, TEXT, ARRAY, MAP, TAG, OTHER = range(8)
# What the lower five bits of a first byte say beside small numbers: how many bytes of the number follow; that no length is given.
FOLLOWING, UNTIL_BREAK = {24: 1, 25: 2, 26: 4, 27: 8}, 31
BREAK = 0xFF
SIMPLE = {20: False, 21: True, 22: None, 23: None}


@dataclass(frozen=True)
class Tag:
    number: int
    value: object


class Malformed(Exception):
    """The bytes are no CBOR that is read here."""


class Reader:
    """What is left of some bytes."""

    def __init__(self, data: bytes):
        self.data, self.at = data, 0

    def take(self, count: int) -> bytes:
        if count > len(self.data) - self.at:
            raise Malformed(f"it ends within what begins before byte {self.at}")
        self.at += count
        return self.data[self.at - count:self.at]

    def head(self) -> tuple[int, int | None, int]:
        """The major type, its number, which is None where an end is to come, and the lower five bits."""
        first = self.take(1)[0]
        major, low = first >> 5, first & 31
        if low < 24:
            return major, low, low
        if low in FOLLOWING:
            return major, int.from_bytes(self.take(FOLLOWING[low]), "big"), low
        if low == UNTIL_BREAK and major in (BYTES, TEXT, ARRAY, MAP):
            return major, None, low
        raise Malformed(f"byte {self.at - 1} is {first:#04x}, which begins nothing")

    def is_break(self) -> bool:
        """Whether the end of something without a length is here, which is passed then."""
        if self.at < len(self.data) and self.data[self.at] == BREAK:
            self.at += 1
            return True
        return False

    def string(self, major: int, length: int | None) -> bytes:
        """The bytes of a string. One without a length is made of others of its type that have one."""
        if length is not None:
            return self.take(length)
        parts = []
        while not self.is_break():
            kind, size, _ = self.head()
            if kind != major or size is None:
                raise Malformed(f"a part of a string before byte {self.at} is no string of its type")
            parts.append(self.take(size))
        return b"".join(parts)

    def count(self, length: int | None, each: int):
        """As many turns as there are members, each of at least so many bytes; or until the end."""
        if length is None:
            while not self.is_break():
                yield
            return
        if length * each > len(self.data) - self.at:
            raise Malformed(f"it has fewer bytes than the {length} members before byte {self.at} take")
        for _ in range(length):
            yield

    def text(self, length: int | None) -> str:
        data = self.string(TEXT, length)
        try:
            return data.decode()
        except UnicodeDecodeError:
            raise Malformed(f"a text before byte {self.at} is no UTF-8") from None

    def map(self, length: int | None, depth: int) -> dict:
        found: dict[int | bytes | str, object] = {}
        for _ in self.count(length, 2):
            key = self.value(depth)
            if type(key) not in (int, bytes, str):
                raise Malformed(f"a map has a key before byte {self.at} that is no number and no string")
            if key in found:
                raise Malformed(f"a map has a key twice, at byte {self.at}")
            found[key] = self.value(depth)
        return found

    def other(self, number: int, low: int) -> object:
        """True, false, null; what is no data here, as a fraction, is kept as a tag of -1."""
        return SIMPLE[number] if low == number and number in SIMPLE else Tag(-1, number)

    def value(self, depth: int = 0) -> object:
        if depth > MOST_DEPTH:
            raise Malformed(f"it is deeper than {MOST_DEPTH} at byte {self.at}")
        major, number, low = self.head()
        if major == BYTES:
            return self.string(BYTES, number)
        if major == TEXT:
            return self.text(number)
        if major == ARRAY:
            return [self.value(depth + 1) for _ in self.count(number, 1)]
        if major == MAP:
            return self.map(number, depth + 1)
        assert number is not None
        if major == UNSIGNED:
            return number
        if major == NEGATIVE:
            return -1 - number
        return Tag(number, self.value(depth + 1)) if major == TAG else self.other(number, low)


def decoded(data: bytes) -> object:
    """The one value that some bytes are."""
    reader = Reader(data)
    found = reader.value()
    if reader.at < len(data):
        raise Malformed(f"it ends at byte {reader.at}, and {len(data) - reader.at} follow")
    return found


def head_of(major: int, number: int) -> bytes:
    """The first bytes of a value, the shortest that there are."""
    if number < 24:
        return bytes([major << 5 | number])
    low, size = next((low, size) for low, size in FOLLOWING.items() if number < 1 << 8 * size)
    return bytes([major << 5 | low]) + number.to_bytes(size, "big")


def encoded(value: object) -> bytes:
    """A value in the one way of RFC 8949, 4.2.1: shortest heads, and maps in the order of their keys' bytes."""
    if value is None or isinstance(value, bool):
        return bytes([OTHER << 5 | (22 if value is None else 20 + value)])
    if isinstance(value, int):
        return head_of(UNSIGNED, value) if value >= 0 else head_of(NEGATIVE, -1 - value)
    if isinstance(value, bytes):
        return head_of(BYTES, len(value)) + value
    if isinstance(value, str):
        return head_of(TEXT, len(value.encode())) + value.encode()
    if isinstance(value, (list, tuple)):
        return head_of(ARRAY, len(value)) + b"".join(map(encoded, value))
    if isinstance(value, dict):
        pairs = sorted((encoded(key), encoded(each)) for key, each in value.items())
        return head_of(MAP, len(value)) + b"".join(key + each for key, each in pairs)
    if isinstance(value, Tag):
        return head_of(TAG, value.number) + encoded(value.value)
    raise TypeError(f"{type(value).__name__} is no value of CBOR here")
