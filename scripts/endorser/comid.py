"""Reference values as a CoMID (draft-ietf-rats-corim), in the JSON that `cocli comid create` takes and in CBOR, and an unsigned CoRIM around it.

The labels, the tags, the profile and the members of the JSON are from memory of the draft, of the profile for CCA realms and of cocli: nothing
that can be installed here has them. docs/VERIFIER.md says so of each.
"""
from __future__ import annotations

import base64
import json
import uuid
from collections.abc import Mapping, Sequence
from dataclasses import dataclass

from comparer.report import Value
from outside import cbor
from outside.cbor import Malformed, Tag, encoded

# What identifiers are made in: the same contents have the same ones.
NAMESPACE = uuid.uuid5(uuid.NAMESPACE_URL, "urn:rim:endorsement:1")
PROFILE = "http://arm.com/cca/realm/1"
# The hash algorithms in texts, and their numbers of the registry of named information.
HASHES = {"sha256": ("sha-256", 1), "sha512": ("sha-512", 8)}
# Tags: an unsigned CoRIM, a CoMID in it, a URI, a UUID, bytes.
CORIM, COMID, URI, UUID, BYTES = 501, 506, 32, 37, 560
# Labels: of a CoRIM; of a CoMID; of its identity; of a class; of an environment, a measurement and its values.
CORIM_ID, CORIM_TAGS, CORIM_PROFILE = 0, 1, 3
LANGUAGE, IDENTITY, TRIPLES, REFERENCE_VALUES = 0, 1, 4, 0
TAG_ID, TAG_VERSION = 0, 1
CLASS_ID, VENDOR = 0, 1
CLASS, INSTANCE = 0, 1
MKEY, VALUES, RAW_VALUE, REGISTERS = 0, 1, 4, 14
RIM, ENGLISH = "rim", "en-GB"


@dataclass(frozen=True)
class About:
    """What all launches share: the vendor and the class of the workload, of which there is one at least."""

    vendor: str | None
    class_id: uuid.UUID | None


# The launches that are endorsed: each value once, with the names of its launches, or without where these are left out.
Launches = Mapping[Value, Sequence[str]]


def in_base64(data: bytes) -> str:
    return base64.b64encode(data).decode()


def has_rpv(value: Value) -> bool:
    """Whether a launch has a personalization value of its own. One of zeros is that of a manifest that gives none."""
    return bool(value.rpv.strip("0"))


def class_json(about: About) -> dict:
    found = {"id": {"type": "uuid", "value": str(about.class_id)}} if about.class_id else {}
    return found | ({"vendor": about.vendor} if about.vendor is not None else {})


def launch_json(about: About, value: Value, names: Sequence[str]) -> dict:
    """Returns the reference value of launches with one RIM, which is the instance of the environment. Each name has a measurement."""
    rim = in_base64(bytes.fromhex(value.digits))
    registers = {RIM: {"key-type": "text", "value": [f"{HASHES[value.algorithm][0]};{rim}"]}}
    values = {"integrity-registers": registers}
    if has_rpv(value):
        values |= {"raw-value": {"type": "bytes", "value": in_base64(bytes.fromhex(value.rpv))}}
    keys = [{"key": {"type": "string", "value": name}} for name in names] or [{}]
    return {"environment": {"class": class_json(about), "instance": {"type": "bytes", "value": rim}},
            "measurements": [key | {"value": values} for key in keys]}


def identifier(about: About, launches: Launches) -> uuid.UUID:
    """The identifier of a CoMID, which is made of what it says."""
    return uuid.uuid5(NAMESPACE, json.dumps([launch_json(about, value, names) for value, names in launches.items()]))


def as_json(about: About, launches: Launches) -> str:
    """The CoMID as cocli takes it."""
    table = {"lang": ENGLISH, "tag-identity": {"id": str(identifier(about, launches)), "version": 0},
             "triples": {"reference-values": [launch_json(about, value, names) for value, names in launches.items()]}}
    return json.dumps(table, indent=2) + "\n"


def launch_cbor(about: About, value: Value, names: Sequence[str]) -> list:
    rim = bytes.fromhex(value.digits)
    of_class = {CLASS_ID: Tag(UUID, about.class_id.bytes)} if about.class_id else {}
    of_class |= {VENDOR: about.vendor} if about.vendor is not None else {}
    registers = {RIM: [[HASHES[value.algorithm][1], rim]]}
    values = {REGISTERS: registers} | ({RAW_VALUE: Tag(BYTES, bytes.fromhex(value.rpv))} if has_rpv(value) else {})
    keys = [{MKEY: name} for name in names] or [{}]
    return [{CLASS: of_class, INSTANCE: Tag(BYTES, rim)}, [key | {VALUES: values} for key in keys]]


def as_cbor(about: About, launches: Launches) -> bytes:
    """The CoMID in CBOR."""
    return encoded({LANGUAGE: ENGLISH, IDENTITY: {TAG_ID: identifier(about, launches).bytes, TAG_VERSION: 0},
                    TRIPLES: {REFERENCE_VALUES: [launch_cbor(about, value, names) for value, names in launches.items()]}})


def corim(about: About, launches: Launches, profile: str = PROFILE) -> bytes:
    """An unsigned CoRIM of a profile, with that CoMID alone."""
    inner = as_cbor(about, launches)
    own = uuid.uuid5(NAMESPACE, inner.hex())
    return encoded(Tag(CORIM, {CORIM_ID: own.bytes, CORIM_TAGS: [Tag(COMID, inner)], CORIM_PROFILE: Tag(URI, profile)}))


# ---- what a CoRIM has

# A value as a CoRIM has it, without a personalization value of zeros.
Endorsed = tuple[str, str, str]


def endorsed(value: Value) -> Endorsed:
    return value.algorithm, value.digits, value.rpv if has_rpv(value) else ""


def values_in(data: bytes) -> set[tuple[Endorsed, str | None]]:
    """Returns each value in an unsigned CoRIM with the name of its launch, if that is there. What `corim` does not write is refused."""
    try:
        outer = tagged(cbor.decoded(data), CORIM)
        triples = [triple for each in outer[CORIM_TAGS] for triple in triples_of(cbor.decoded(tagged(each, COMID)))]
        return {(value_of(environment, measurement), measurement.get(MKEY)) for environment, some in triples for measurement in some}
    except (KeyError, TypeError, ValueError, AttributeError):
        raise Malformed("it is no unsigned CoRIM as rim-endorse writes it") from None


def tagged(value: object, number: int):
    """Returns what has a tag."""
    if not isinstance(value, Tag) or value.number != number:
        raise Malformed(f"it has no tag {number} where a CoRIM has it")
    return value.value


def triples_of(inner: dict) -> list:
    (kind, triples), = inner[TRIPLES].items()
    if kind != REFERENCE_VALUES:
        raise Malformed("it has other triples than reference values")
    return triples


def value_of(environment: dict, measurement: dict) -> Endorsed:
    """Returns the value of a measurement, whose RIM is the instance of the environment too."""
    values = measurement[VALUES]
    (name, ((number, rim),)), = values[REGISTERS].items()
    algorithms = [each for each, (_, own) in HASHES.items() if type(number) is int and own == number]
    is_alone = set(measurement) <= {MKEY, VALUES} and set(values) <= {REGISTERS, RAW_VALUE}
    if name != RIM or not algorithms or not is_alone or tagged(environment[INSTANCE], BYTES) != rim:
        raise Malformed("it has a measurement that is not one of a RIM alone")
    return algorithms[0], rim.hex(), tagged(values[RAW_VALUE], BYTES).hex() if RAW_VALUE in values else ""
