"""Public keys and the signatures made by their private keys. All cryptography is that of the package `cryptography`.

A key is used with one algorithm only, the one that RFC 9053 recommends for its curve. So a token can't choose how its signature is checked.
"""
from __future__ import annotations

import base64
import re
from dataclasses import dataclass

from cryptography.exceptions import InvalidSignature, UnsupportedAlgorithm
from cryptography.hazmat.primitives import hashes, serialization
from cryptography.hazmat.primitives.asymmetric import ec
from cryptography.hazmat.primitives.asymmetric.ed25519 import Ed25519PublicKey
from cryptography.hazmat.primitives.asymmetric.utils import encode_dss_signature

from outside import cbor, files
from outside.cbor import Malformed
from outside.faults import Fault
from outside.texts import shown, visible

# Longest key file that is read, in bytes.
MOST = 1 << 16
WHAT = "public keys of P-256, P-384, P-521 or Ed25519, as PEM or JWK"
# The parameters of a COSE_Key (RFC 9052, 7; RFC 9053, 7), and the types of keys.
KTY, ALG, CRV, X, Y, D = 1, 3, -1, -2, -3, -4
OKP, EC2 = 1, 2
# The first byte of a point that is not compressed (SEC 1, 2.3.3).
WHOLE_POINT = 4


@dataclass(frozen=True)
class Curve:
    """A curve: its names in COSE and JWK, the algorithm of its signatures in COSE, the bytes of a coordinate, and its objects in `cryptography`."""

    cose: int
    jwk: str
    algorithm: int
    name: str
    size: int
    kind: ec.EllipticCurve | None = None
    hash: hashes.HashAlgorithm | None = None


CURVES = (Curve(1, "P-256", -7, "ES256", 32, ec.SECP256R1(), hashes.SHA256()), Curve(2, "P-384", -35, "ES384", 48, ec.SECP384R1(), hashes.SHA384()),
          Curve(3, "P-521", -36, "ES512", 66, ec.SECP521R1(), hashes.SHA512()))
ED25519 = Curve(6, "Ed25519", -8, "EdDSA", 32)


@dataclass(frozen=True)
class Key:
    """A public key with its curve."""

    public: ec.EllipticCurvePublicKey | Ed25519PublicKey
    curve: Curve

    def has_signed(self, message: bytes, signature: bytes) -> bool:
        """Returns whether a signature in COSE's form, which is r and s for ECDSA, is of a message."""
        try:
            if isinstance(self.public, Ed25519PublicKey):
                self.public.verify(signature, message)
                return True
            size = self.curve.size
            if len(signature) != 2 * size or self.curve.hash is None:
                return False
            numbers = int.from_bytes(signature[:size], "big"), int.from_bytes(signature[size:], "big")
            self.public.verify(encode_dss_signature(*numbers), message, ec.ECDSA(self.curve.hash))
        except InvalidSignature:
            return False
        return True


def on_curve(curve: Curve, point: bytes) -> Key:
    """Returns the key at a point, in SEC 1's form or as the bytes of Ed25519."""
    try:
        if curve.kind is None:
            return Key(Ed25519PublicKey.from_public_bytes(point), curve)
        return Key(ec.EllipticCurvePublicKey.from_encoded_point(curve.kind, point), curve)
    except ValueError:
        raise Malformed(f"a key is no point of {curve.jwk}") from None


# ---- the realm's key, as its token has it


def of_claim(data: bytes) -> Key:
    """Returns the key in the realm's claim: a whole point, which older monitors write, or a COSE_Key."""
    if is_point(data):
        return on_curve(next(curve for curve in CURVES if len(data) == 1 + 2 * curve.size), data)
    try:
        key = cbor.decoded(data)
    except Malformed:
        key = None
    if not isinstance(key, dict):
        raise Malformed("the realm's key is neither a point of P-256, P-384 or P-521 nor a COSE_Key")
    return of_cose(key)


def is_point(data: bytes) -> bool:
    return data[:1] == bytes([WHOLE_POINT]) and any(len(data) == 1 + 2 * curve.size for curve in CURVES)


def of_cose(key: dict) -> Key:
    known = {EC2: CURVES, OKP: (ED25519,)}.get(key[KTY], ()) if type(key.get(KTY)) is int else ()
    curve = next((each for each in known if type(key.get(CRV)) is int and each.cose == key[CRV]), None)
    x, y = key.get(X), key.get(Y)
    if curve is None or type(x) is not bytes or len(x) != curve.size or D in key or key.get(ALG, curve.algorithm) != curve.algorithm:
        raise Malformed("the realm's key is no COSE_Key of P-256, P-384, P-521 or Ed25519")
    if curve is ED25519:
        return on_curve(curve, x)
    if type(y) is bool:
        return on_curve(curve, bytes([2 + y]) + x)
    if type(y) is not bytes:
        raise Malformed("the realm's COSE_Key has no y")
    return on_curve(curve, bytes([WHOLE_POINT]) + x + y)


# ---- attestation keys, as a user has them


def of_pem(block: bytes) -> Key:
    try:
        public = serialization.load_pem_public_key(block)
    except (ValueError, UnsupportedAlgorithm):
        raise Malformed("a PEM block is no public key that is read here") from None
    if isinstance(public, Ed25519PublicKey):
        return Key(public, ED25519)
    name = public.curve.name if isinstance(public, ec.EllipticCurvePublicKey) else ""
    found = [curve for curve in CURVES if curve.kind and curve.kind.name == name]
    if not found:
        raise Malformed("a PEM block has a key of another kind")
    return Key(public, found[0])


def of_jwk(table: object) -> Key:
    """Returns the key of a JWK (RFC 7518, 6.2; RFC 8037, 2)."""
    if not isinstance(table, dict) or "d" in table:
        raise Malformed("a JWK is a private key" if isinstance(table, dict) else "a JWK is no object")
    known = {"EC": CURVES, "OKP": (ED25519,)}.get(table["kty"], ()) if isinstance(table.get("kty"), str) else ()
    curve = next((each for each in known if each.jwk == table.get("crv")), None)
    if curve is None or table.get("alg", curve.name) != curve.name:
        raise Malformed(f"a JWK has kty {shown(str(table.get('kty')))}, crv {shown(str(table.get('crv')))}, alg {shown(str(table.get('alg')))}")
    point = b"".join(coordinate(table, name, curve.size) for name in ("x", "y")[:1 + (curve.kind is not None)])
    return on_curve(curve, bytes([WHOLE_POINT]) * (curve.kind is not None) + point)


def coordinate(table: dict, name: str, size: int) -> bytes:
    said = table.get(name)
    data = base64.urlsafe_b64decode(said + "=" * (-len(said) % 4)) if isinstance(said, str) and re.fullmatch("[A-Za-z0-9_-]{2,200}", said) else b""
    if len(data) != size:
        raise Malformed(f"the member {name} of a JWK is no base64url of {size} bytes")
    return data


def in_file(data: bytes, path: str) -> list[Key]:
    """Returns the keys of a file: PEM blocks, a JWK, or a set of JWKs."""
    try:
        if data.lstrip().startswith(b"{"):
            table = files.json_of(path, data, WHAT)
            found = table["keys"] if isinstance(table, dict) and isinstance(table.get("keys"), list) else [table]
            keys = list(map(of_jwk, found))
        else:
            blocks = list(re.finditer(rb"-----BEGIN ([A-Z0-9 ]+)-----.*?-----END \1-----", data, re.DOTALL))
            other = [block[1] for block in blocks if block[1] != b"PUBLIC KEY"]
            if other:
                raise Malformed(f"a PEM block is {shown(other[0].decode())}")
            keys = [of_pem(block[0] + b"\n") for block in blocks]
        if not keys:
            raise Malformed("it has no key")
    except (Malformed, ValueError) as why:
        raise Fault(f"{visible(path)}: {why}, expected {WHAT}") from None
    return keys
