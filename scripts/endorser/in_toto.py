"""A report as an in-toto statement (version 1), unsigned: its subjects are the manifests and files that were measured."""
from __future__ import annotations

import json

from comparer import report
from comparer.report import Malformed, member
from outside import files
from outside.faults import Fault
from outside.texts import visible

STATEMENT = "https://in-toto.io/Statement/v1"
# The predicate is the report. Its type is the identifier of the report's schema.
PREDICATE = "urn:rim:report:{}"


def statement(data: bytes, path: str) -> tuple[str, report.Report]:
    """Returns the statement of the report in some bytes, and the report."""
    table = files.json_of(path, data, report.WHAT)
    found = report.of_table(table, path)
    digests = {name: content.digest for name, content in (found.files or {}).items()}
    try:
        manifests = member(table, "manifests", list) if found.inputs is not None else []
        digests |= {member(each, "path", str): report.text(each, "sha256", "[0-9a-f]{64}") for each in manifests}
    except Malformed as why:
        raise Fault(f"{visible(path)}: {why}, expected {report.WHAT}") from None
    if not digests:
        raise Fault(f"{visible(path)}: it has no file with a digest, expected a report of version {report.WITH_FILES} or later with one")
    subjects = [{"name": name, "digest": {"sha256": digest}} for name, digest in digests.items()]
    made = {"_type": STATEMENT, "subject": subjects, "predicateType": PREDICATE.format(found.version), "predicate": table}
    return json.dumps(made, indent=2) + "\n", found
