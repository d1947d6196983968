"""The realm's claims of a CCA attestation token. No signature is checked here: what is read is what the bytes say.

Labels and tags are from memory of the CCA token's profile (draft-ffm-rats-cca-token), as docs/VERIFIER.md says of each.
"""
from __future__ import annotations

import base64
import binascii
import re
from dataclasses import dataclass

from outside import cbor
from outside.cbor import Malformed, Tag
from outside.faults import Fault
from outside.texts import visible

# The longest token that is read: real ones have some 2 KiB.
MOST = 1 << 20
WHAT = "a CCA attestation token"
# Tags that a token, or a part of it, may have, and what they say: CBOR itself (RFC 8949), a CCA token, CWT, COSE_Sign1.
TAGS = {55799: "CBOR", 399: "a CCA token", 61: "a CWT", 18: "COSE_Sign1"}
# The labels of a CCA token's two parts, and of the realm's claims.
PLATFORM, REALM = 44234, 44241
RPV, HASH, KEY, RIM, REMS, KEY_HASH = 44235, 44236, 44237, 44238, 44239, 44240
# The names of hash algorithms in claims, and those of rim.
HASHES = {"sha-256": "sha256", "sha-512": "sha512"}
LENGTHS = {"sha256": 32, "sha512": 64}
# The length of a realm's challenge.
NONCE_BYTES = 64
# How many parts within parts: a token has four.
MOST_PARTS = 8


@dataclass(frozen=True)
class Claims:
    """What a realm's token claims: the hash algorithm by rim's name, the RIM, and the Realm Personalization Value, if it has one."""

    algorithm: str
    rim: str
    rpv: str | None


def untagged(value: object) -> object:
    """A value without the tags that are known here."""
    while isinstance(value, Tag):
        if value.number not in TAGS:
            raise Malformed(f"it has the tag {value.number}, expected one of {', '.join(map(str, TAGS))}" if value.number >= 0
                            else "it has a simple value or a fraction where a part of a token is expected")
        value = value.value
    return value


def realm_token(collection: dict) -> object:
    """Returns the realm token of a CCA token. No signature covers the collection itself, so a claim of the realm in it is an error."""
    for label, name in ((RIM, "RIM"), (HASH, "hash algorithm"), (RPV, "personalization value")):
        if label in collection:
            raise Malformed(f"it has the claim {label} ({name}) outside the realm token")
    if REALM not in collection:
        raise Malformed(f"it has a platform token ({PLATFORM}) and no realm token ({REALM})")
    return collection[REALM]


def sign1(value: object) -> tuple[bytes, dict, bytes, bytes]:
    """Returns the parts of a COSE_Sign1: protected header, unprotected header, payload, signature."""
    if not isinstance(value, list):
        raise Malformed("it is no COSE_Sign1")
    if not (len(value) == 4 and isinstance(value[0], bytes) and isinstance(value[1], dict) and isinstance(value[3], bytes)):
        raise Malformed(f"it has an array of {len(value)}, expected COSE_Sign1: protected, unprotected, payload, signature")
    if not isinstance(value[2], bytes):
        raise Malformed("a COSE_Sign1 has no payload")
    return value[0], value[1], value[2], value[3]


def inner(value: object, parts: int = 0) -> dict:
    """Returns the map of the realm's claims: the payload of a COSE_Sign1, the realm token of a CCA token, or a bare map."""
    if parts > MOST_PARTS:
        raise Malformed(f"it has more than {MOST_PARTS} parts within one another")
    value = untagged(value)
    if isinstance(value, bytes):
        return inner(cbor.decoded(value), parts + 1)
    if isinstance(value, list):
        return inner(sign1(value)[2], parts + 1)
    if not isinstance(value, dict):
        raise Malformed("it is no map, no COSE_Sign1 and no bytes of one")
    if PLATFORM in value or REALM in value:
        return inner(realm_token(value), parts + 1)
    if RIM in value:
        return value
    raise Malformed(f"it has no realm's token ({REALM}) and no RIM ({RIM})")


def claim(claims: dict, label: int, name: str, kind: type) -> object:
    value = claims.get(label)
    if type(value) is not kind:
        raise Malformed(f"its claim {label} ({name}) is {'missing' if label not in claims else 'of another type'}")
    return value


def claims_of(claims: dict) -> Claims:
    """Returns what is looked up of the realm's claims."""
    said = claim(claims, HASH, "hash algorithm", str)
    if said not in HASHES:
        raise Malformed(f"its claim {HASH} (hash algorithm) is {visible(str(said)[:40])}, expected {' or '.join(HASHES)}")
    algorithm, rim = HASHES[str(said)], claim(claims, RIM, "RIM", bytes)
    if len(rim) != LENGTHS[algorithm]:
        raise Malformed(f"its claim {RIM} (RIM) has {len(rim)} bytes, expected {LENGTHS[algorithm]} as {said} has")
    if RPV not in claims:
        return Claims(algorithm, rim.hex(), None)
    rpv = claim(claims, RPV, "personalization value", bytes)
    if len(rpv) != 64:
        raise Malformed(f"its claim {RPV} (personalization value) has {len(rpv)} bytes, expected 64")
    return Claims(algorithm, rim.hex(), rpv.hex())


def bytes_of(data: bytes) -> bytes:
    """The token's bytes, where the file has them as hexadecimal digits or in base64."""
    text = re.sub(rb"\s", b"", data)
    if text and re.fullmatch(rb"(0x)?([0-9a-fA-F]{2})+", text):
        return bytes.fromhex(text.removeprefix(b"0x").decode())
    if text and re.fullmatch(rb"[A-Za-z0-9+/_-]+={0,2}", text):
        plain = text.rstrip(b"=").translate(bytes.maketrans(b"-_", b"+/"))
        try:
            return base64.b64decode(plain + b"=" * (-len(plain) % 4), validate=True)
        except binascii.Error:
            return data
    return data


def read(data: bytes, path: str) -> Claims:
    try:
        return claims_of(inner(cbor.decoded(bytes_of(data))))
    except Malformed as why:
        raise Fault(f"{visible(path)}: {why}, expected {WHAT}") from None
