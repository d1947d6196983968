"""Verifies a CCA attestation token from the attestation key down to the realm's claims.

The profiles, the labels and the forms of the realm's key are from memory of DEN0137 and draft-ffm-rats-cca-token, as docs/VERIFIER.md says. The
signatures are COSE_Sign1 (RFC 9052, 4.4).
"""
from __future__ import annotations

import hashlib
from collections.abc import Mapping, Sequence
from dataclasses import dataclass

from outside import cbor
from outside.cbor import Malformed, Tag, encoded
from outside.texts import plain, shown

from . import keys, token
from .keys import Key
from .token import KEY, KEY_HASH, PLATFORM, REALM, Claims

# The tags of a CCA token and of COSE_Sign1.
CCA, SIGN1 = 399, 18
# The header parameters of COSE that matter here.
ALG, CRIT = 1, 2
# The claims that both tokens have: the challenge and the profile.
CHALLENGE, PROFILE = 10, 265
PLATFORM_PROFILES = ("tag:arm.com,2023:cca_platform#1.0.0", "http://arm.com/CCA-SSD/1.0.0")
REALM_PROFILES = ("tag:arm.com,2023:realm#1.0.0",)
# The hash algorithms of the realm's key.
KEY_HASHES = ("sha-256", "sha-384", "sha-512")


class NotValid(Exception):
    """Why a token is not valid."""


@dataclass(frozen=True)
class Sign1:
    """A COSE_Sign1 that is not verified yet: its name in messages, its algorithm, and its parts as bytes."""

    name: str
    algorithm: int
    protected: bytes
    payload: bytes
    signature: bytes

    @property
    def signed(self) -> bytes:
        """The bytes that are signed."""
        return encoded(["Signature1", self.protected, b"", self.payload])


@dataclass(frozen=True)
class Verified:
    """A valid token: the file of the key that signed it, both algorithms, and the claims of its platform and of its realm."""

    key_file: str
    algorithms: tuple[str, str]
    platform: Mapping
    realm: Claims


def decoded(data: bytes, what: str) -> object:
    try:
        return cbor.decoded(data)
    except Malformed as why:
        raise NotValid(f"{what}: {why}") from None


def headers_of(protected: bytes, unprotected: dict, name: str) -> dict:
    """Returns the protected header, if the unprotected one, which no signature covers, says nothing that matters."""
    headers = decoded(protected, f"the protected header of the {name}")
    if not isinstance(headers, dict) or type(headers.get(ALG)) is not int:
        raise NotValid(f"the {name} has no algorithm in its protected header")
    both = {ALG, CRIT} & set(unprotected) | set(headers) & set(unprotected)
    if both:
        raise NotValid(f"the {name} has the header {', '.join(sorted(map(str, both)))} outside its protected header")
    if CRIT in headers:
        raise NotValid(f"the {name} has critical headers, expected none")
    return headers


def part_of(data: object, name: str) -> Sign1:
    if not isinstance(data, bytes):
        raise NotValid(f"the {name} is no byte string")
    value = decoded(data, f"the {name}")
    if isinstance(value, Tag) and value.number == SIGN1:
        value = value.value
    protected, unprotected, payload, signature = token.sign1(value)
    return Sign1(name, headers_of(protected, unprotected, name)[ALG], protected, payload, signature)


def parts_of(data: bytes) -> tuple[Sign1, Sign1]:
    """Returns the platform token and the realm token. No signature covers the map that holds both, so it has nothing else."""
    value = decoded(data, "the token")
    if isinstance(value, Tag) and value.number == CCA:
        value = value.value
    if not isinstance(value, dict) or set(value) != {PLATFORM, REALM}:
        raise NotValid(f"it is no map of a platform token ({PLATFORM}) and a realm token ({REALM}) alone")
    return part_of(value[PLATFORM], "platform token"), part_of(value[REALM], "realm token")


def claims_in(part: Sign1) -> dict:
    claims = decoded(part.payload, f"the claims of the {part.name}")
    if not isinstance(claims, dict):
        raise NotValid(f"the claims of the {part.name} are no map")
    return claims


def signer_of(part: Sign1, known: Sequence[tuple[str, Key]]) -> str:
    """Returns the file of the key that signed a part."""
    fitting = [(path, key) for path, key in known if key.curve.algorithm == part.algorithm]
    if not fitting:
        names = dict.fromkeys(key.curve.name for _, key in known)
        raise NotValid(f"the {part.name} is signed by algorithm {part.algorithm}, expected {' or '.join(names)} of its key")
    path = next((path for path, key in fitting if key.has_signed(part.signed, part.signature)), None)
    if path is None:
        raise NotValid(f"the signature of the {part.name} is not by its key")
    return path


def check_profile(claims: dict, known: Sequence[str], name: str):
    said = claims.get(PROFILE)
    if said not in known:
        raise NotValid(f"the profile of the {name} is {shown(said) if isinstance(said, str) else 'missing'}, expected {' or '.join(known)}")


def key_of(platform: dict, realm: dict) -> Key:
    """Returns the realm's key, if the platform's challenge is its hash."""
    data, algorithm = (token.claim(realm, label, name, kind) for label, name, kind in ((KEY, "public key", bytes), (KEY_HASH, "its hash algorithm", str)))
    if algorithm not in KEY_HASHES:
        raise NotValid(f"the hash algorithm of the realm's key is {shown(str(algorithm))}, expected {', '.join(KEY_HASHES)}")
    if platform.get(CHALLENGE) != hashlib.new(algorithm.replace("-", ""), data).digest():
        raise NotValid("the challenge of the platform token is not the hash of the realm's key")
    # tokens without a profile are older than it, and have the key as a point
    if PROFILE in realm or not keys.is_point(data):
        check_profile(realm, REALM_PROFILES, "realm token")
    return keys.of_claim(data)


def verified(data: bytes, known: Sequence[tuple[str, Key]], nonce: bytes | None) -> Verified:
    """Verifies a token by attestation keys, each with its file, and by a nonce, if there is one. Raises NotValid if any step fails."""
    try:
        platform_part, realm_part = parts_of(token.bytes_of(data))
        path = signer_of(platform_part, known)
        platform, realm = claims_in(platform_part), claims_in(realm_part)
        check_profile(platform, PLATFORM_PROFILES, "platform token")
        key = key_of(platform, realm)
        signer_of(realm_part, [("", key)])
        if nonce is not None and realm.get(CHALLENGE) != nonce:
            raise NotValid("the challenge of the realm token is not the nonce")
        names = {curve.algorithm: curve.name for curve in (*keys.CURVES, keys.ED25519)}
        return Verified(path, (names[platform_part.algorithm], names[realm_part.algorithm]), platform, token.claims_of(realm))
    except Malformed as why:
        raise NotValid(plain(str(why))) from None
