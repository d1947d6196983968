#!/usr/bin/env python3
"""Gives rim-endorse reports, and looks at the reference values that it makes.

    tests/endorsing.py [PROGRAM]          by default the program that `rt ci` has built

- A report that is written here: its CoMID as JSON; its CoRIM byte for byte as Python's `cbor2` 5.4.6 writes it canonically (made once, with the
  structure written by hand), and as our reader of CBOR reads it.
- A CoRIM with names and a profile, as `cbor2` reads it, which writes the same bytes canonically. This needs Debian's python3-cbor2.
- The same reports give the same bytes; launches with one value, several reports, launches that are refused, a report of PROGRAM.
- An in-toto statement, with the digests that Python computes of the files; the example for CI, by the lines of both of its jobs.
- Wrong words and faults, outputs that are full, a file that is there.

The last line is 'N passed, M failed'.
"""
import base64
import hashlib
import json
import os
import re
import subprocess
import sys
import uuid

from helpers import TOP
from helpers.commands import checkout, run_in
from helpers.folders import Folder
from helpers.tries import at_a_time, differs, program_of, told

from outside import cbor
from outside.cbor import Tag

START = os.path.join(TOP, "rim-endorse")
SHORT, LONG = bytes(range(32)), bytes(range(64))
CLASS = "cd1f0e55-26f9-460d-b9d8-f7fde171787c"
WORDS = ["--vendor", "ACME Ltd", "--class-id", CLASS]
BARE = [*WORDS, "--no-mkey"]
# What cbor2 writes of the CoRIM of that report.
CORIM = bytes.fromhex("""
    d901f5a30050fc096d071f19517a8880391bafdb47190181d901fa590150a30065656e2d474201a20050f2bed4230657527d87f5141c37de4262010004a1008282a2
    00a200d82550cd1f0e5526f9460db9d8f7fde171787c016841434d45204c746401d902305820000102030405060708090a0b0c0d0e0f101112131415161718191a1b
    1c1d1e1f81a101a10ea16372696d8182015820000102030405060708090a0b0c0d0e0f101112131415161718191a1b1c1d1e1f82a200a200d82550cd1f0e5526f946
    0db9d8f7fde171787c016841434d45204c746401d902305840000102030405060708090a0b0c0d0e0f101112131415161718191a1b1c1d1e1f202122232425262728
    292a2b2c2d2e2f303132333435363738393a3b3c3d3e3f81a101a10ea16372696d8182085840000102030405060708090a0b0c0d0e0f101112131415161718191a1b
    1c1d1e1f202122232425262728292a2b2c2d2e2f303132333435363738393a3b3c3d3e3f03d820781a687474703a2f2f61726d2e636f6d2f6363612f7265616c6d2f
    31
""")


def in_base64(data: bytes) -> str:
    return base64.b64encode(data).decode()


def launch(name: str, algorithm: str, rim: bytes) -> dict:
    return {"algorithm": algorithm, "name": name, "rim": rim.hex(), "rim_base64": in_base64(rim)}


LAUNCHES = [launch("a", "sha256", SHORT), launch("b", "sha512", LONG), launch("same", "sha256", SHORT)]
REFUSED = {"algorithm": "sha256", "name": "r", "refused": "overlap"}


def report(launches: list[dict]) -> bytes:
    return json.dumps({"files": [], "launches": launches, "pages": 0, "program": "rim", "version": 3}).encode()


def folder(more: dict[str, bytes] | None = None) -> Folder:
    return Folder({"r.json": report(LAUNCHES), "refused.json": report([*LAUNCHES[:1], REFUSED]), "none.json": report([REFUSED]),
                   "b.json": report(LAUNCHES[1:2]), "name.json": report([launch("a b", "sha256", SHORT)])} | (more or {}))


def reference_value(word: str, rim: bytes, *names: str) -> dict:
    """As cocli's templates for CCA realms have it, with the names of the launches."""
    value = {"value": {"integrity-registers": {"rim": {"key-type": "text", "value": [f"{word};{in_base64(rim)}"]}}}}
    return {"environment": {"class": {"id": {"type": "uuid", "value": CLASS}, "vendor": "ACME Ltd"},
                            "instance": {"type": "bytes", "value": in_base64(rim)}},
            "measurements": [{"key": {"type": "string", "value": name}} | value for name in names] or [value]}


def one_report(_program: str) -> list[str]:
    here = folder()
    status, out, said = here.run(*BARE, "--corim", "c.cbor", "r.json", start=START)
    table = json.loads(out)
    identity = table["tag-identity"]
    wrong = differs("status, standard error", (status, said), (0, ""))
    wrong += differs("JSON", table, {"lang": "en-GB", "tag-identity": identity, "triples": {"reference-values": [
        reference_value("sha-256", SHORT), reference_value("sha-512", LONG)]}})
    wrong += differs("the identity", (uuid.UUID(identity["id"]).version, identity["version"]), (5, 0))
    written = here.read("c.cbor")
    wrong += differs("CBOR", written.hex(), CORIM.hex())
    outer = cbor.decoded(written)
    inner = cbor.decoded(outer.value[1][0].value)
    wrong += differs("what is read back", (outer.number, outer.value[1][0].number, inner[1][0], inner[4][0][0]), (
        501, 506, uuid.UUID(identity["id"]).bytes,
        [{0: {0: Tag(37, uuid.UUID(CLASS).bytes), 1: "ACME Ltd"}, 1: Tag(560, SHORT)}, [{1: {14: {"rim": [[1, SHORT]]}}}]]))
    wrong += differs("again", here.run(*BARE, "--corim", "d.cbor", "r.json", start=START), (0, out, ""))
    wrong += differs("the same bytes", here.read("d.cbor") == written, True)
    here.put("a.json", report(LAUNCHES[:1]))
    wrong += differs("two reports", here.run(*BARE, "a.json", "b.json", start=START), (0, out, ""))
    other = json.loads(here.run(*BARE, "b.json", start=START)[1])
    return wrong + differs("another identity", other["tag-identity"]["id"] != identity["id"], True)


# Decodes CBOR by cbor2, and says whether that writes the same bytes. Tags that it makes other objects of are shown as these.
DECODES = """
import cbor2, json, sys, uuid
def plain(value):
    if isinstance(value, cbor2.CBORTag):
        return {"tag": value.tag, "value": plain(value.value)}
    if isinstance(value, uuid.UUID):
        return {"uuid": str(value)}
    if isinstance(value, bytes):
        return {"hex": value.hex()}
    if isinstance(value, dict):
        return {str(key): plain(each) for key, each in value.items()}
    return [plain(each) for each in value] if isinstance(value, list) else value
data = sys.stdin.buffer.read()
value = cbor2.loads(data)
print(json.dumps([plain(value), cbor2.dumps(value, canonical=True) == data]))
"""


def python_with_cbor2() -> str | None:
    """The path of a Python that has cbor2: this one, or Debian's."""
    for path in (sys.executable, "/usr/bin/python3"):
        if os.path.exists(path) and subprocess.run([path, "-c", "import cbor2"], capture_output=True, check=False).returncode == 0:
            return path
    return None


def by_cbor2(python: str, data: bytes):
    ran = subprocess.run([python, "-c", DECODES], input=data, capture_output=True, check=True)
    return json.loads(ran.stdout)


def named(_program: str) -> list[str]:
    """The names of launches are keys of measurements, in JSON and, as cbor2 reads it, in CBOR; and a profile."""
    here = folder()
    status, out, said = here.run(*WORDS, "--corim", "c.cbor", "--profile", "tag:example.com,2026:realm#1", "r.json", "b.json", start=START)
    wrong = differs("status, standard error", (status, said), (0, ""))
    table = json.loads(out)
    wrong += differs("JSON", table["triples"]["reference-values"], [reference_value("sha-256", SHORT, "a", "same"), reference_value("sha-512", LONG, "b")])
    wrong += differs("the identity", table["tag-identity"]["id"] != json.loads(here.run(*BARE, "r.json", start=START)[1])["tag-identity"]["id"], True)
    python = python_with_cbor2()
    if python is None:
        print("not tried: CBOR by another reader, which needs cbor2 (Debian: apt install python3-cbor2)")
        return wrong
    outer, is_same = by_cbor2(python, here.read("c.cbor"))
    wrong += differs("the bytes of cbor2", is_same, True)
    inner, is_same = by_cbor2(python, bytes.fromhex(outer["value"]["1"][0]["value"]["hex"]))
    wrong += differs("the bytes of cbor2, of the CoMID", is_same, True)
    wrong += differs("profile and tags", (outer["tag"], outer["value"]["3"], outer["value"]["1"][0]["tag"], len(outer["value"]["0"]["hex"])),
                     (501, {"tag": 32, "value": "tag:example.com,2026:realm#1"}, 506, 32))
    identity = {"0": {"hex": uuid.UUID(table["tag-identity"]["id"]).hex}, "1": 0}
    values = [[{"0": {"0": {"uuid": CLASS}, "1": "ACME Ltd"}, "1": {"tag": 560, "value": {"hex": rim.hex()}}},
               [{"0": name, "1": {"14": {"rim": [[number, {"hex": rim.hex()}]]}}} for name in names]]
              for rim, number, names in ((SHORT, 1, ("a", "same")), (LONG, 8, ("b",)))]
    return wrong + differs("the CoMID", inner, {"0": "en-GB", "1": identity, "4": {"0": values}})


def refusals(program: str) -> list[str]:
    """A launch that is refused has no reference value, and that is said; and a report of a program that measures."""
    here = folder({"m.toml": b'rim_manifest = 1\nlaunch = [{ name = "a", algo = "sha256", s2sz = 33 }]'})
    status, out, said = here.run(*WORDS, "refused.json", start=START)
    wrong = differs("one of two", (status, len(json.loads(out)["triples"]["reference-values"]), said), (
        1, 1, 'rim-endorse: launch "r" of refused.json is refused (overlap) and has no reference value\n'))
    wrong += differs("all", here.run(*WORDS, "none.json", start=START), (3, "", "rim-endorse: no launch has a RIM, expected one\n"))
    ran = subprocess.run([program, "measure", "--json", "m.toml"], cwd=here.path, capture_output=True, check=True)
    here.put("m.json", ran.stdout)
    status, out, said = here.run("--vendor", "ACME", "m.json", start=START)
    values = json.loads(out)["triples"]["reference-values"]
    return wrong + differs("measured", (status, said, values[0]["environment"]["instance"]["value"], values[0]["environment"]["class"]), (
        0, "", json.loads(ran.stdout)["launches"][0]["rim_base64"], {"vendor": "ACME"}))


def personalized(program: str) -> list[str]:
    """A personalization value is a raw value beside the RIM, which it does not change. One of zeros is none."""
    own = {"a": "", "b": f", rpv = '{'ab' * 64}'", "c": f", rpv = '{'00' * 64}'"}
    launches = ", ".join(f'{{ name = "{name}", algo = "sha256", s2sz = 33{rpv} }}' for name, rpv in own.items())
    here = folder({"m.toml": f"rim_manifest = 1\nlaunch = [{launches}]".encode()})
    here.put("m.json", subprocess.run([program, "measure", "--json", "m.toml"], cwd=here.path, capture_output=True, check=True).stdout)
    status, out, said = here.run(*WORDS, "--corim", "c.cbor", "m.json", start=START)
    found = [each["measurements"][0]["value"].get("raw-value") for each in json.loads(out)["triples"]["reference-values"]]
    wrong = differs("raw values", (status, said, found), (0, "", [None, {"type": "bytes", "value": in_base64(b"\xab" * 64)}]))
    inner = cbor.decoded(cbor.decoded(here.read("c.cbor")).value[1][0].value)
    return wrong + differs("in CBOR", [each[1][0][1].get(4) for each in inner[4][0]], [None, Tag(560, b"\xab" * 64)])


def digest_of(path: str) -> str:
    with open(os.path.join(TOP, path), "rb") as file:
        return hashlib.sha256(file.read()).hexdigest()


def in_toto(program: str) -> list[str]:
    """A statement's subjects are the manifest and its files; its predicate is the report."""
    here = folder()
    ran = subprocess.run([program, "measure", "--json", "examples/vm/manifest.toml"], cwd=TOP, capture_output=True, check=False)
    here.put("m.json", ran.stdout)
    status, out, said = here.run("--in-toto", "m.json", start=START)
    paths = [f"examples/vm/{name}" for name in ("Image", "initrd.img", "virt.dtb", "manifest.toml")]
    expected = {"_type": "https://in-toto.io/Statement/v1", "subject": [{"name": path, "digest": {"sha256": digest_of(path)}} for path in paths],
                "predicateType": f"urn:rim:report:{json.loads(ran.stdout)['version']}", "predicate": json.loads(ran.stdout)}
    wrong = differs("a launch that is refused", (status, said), (
        1, 'rim-endorse: launch "initrd-in-the-kernel" of m.json is refused (overlap) and has no reference value\n'))
    wrong += differs("the statement", json.loads(out), expected)
    older = json.loads(report(LAUNCHES)) | {"files": [{"path": "Image", "bytes": 1, "sha256": "ab" * 32}]}
    here.put("older.json", json.dumps(older).encode())
    status, out, said = here.run("--in-toto", "older.json", start=START)
    wrong += differs("version 3", (status, said, json.loads(out)["subject"], json.loads(out)["predicateType"]),
                     (0, "", [{"name": "Image", "digest": {"sha256": "ab" * 32}}], "urn:rim:report:3"))
    with open(os.path.join(TOP, "docs", "report.schema.json"), encoding="utf-8") as file:
        return wrong + differs("the schema", json.load(file)["$id"], expected["predicateType"])


def job_of(name: str) -> tuple[str, dict[str, str]]:
    """The command and the variables of a job of examples/ci: its lines are plain, so that no reader of YAML is needed."""
    with open(os.path.join(TOP, "examples", "ci", name), encoding="utf-8") as file:
        text = file.read()
    commands = re.findall(r"- (?:run: )?(sh examples/.*)", text)
    return commands[0] if len(commands) == 1 else "", dict(re.findall(r"(RIM_[A-Z]+): (.*)", text))


def in_ci(program: str) -> list[str]:
    """Each job of examples/ci runs; it fails where a value is not the kept one, and installs what is missing."""
    wrong = differs("the jobs", job_of("github.yml"), job_of("gitlab.yml"))
    command, variables = job_of("github.yml")
    here = folder({"installs/apt-get": b'#!/bin/sh\necho "$@" >>said\n'})
    place = os.path.join(here.path, "top")
    os.mkdir(place)
    checkout(place, program)
    os.chmod(os.path.join(here.path, "installs", "apt-get"), 0o755)
    path = {"PATH": f"{place}:{os.environ['PATH']}"}
    made = {"report.json", "changes.txt", "page.html", "realms.cbor", "realms.json", "statement.json"}
    warning = 'warning: launch "vm": no item of kind "dtb", expected one for Linux to read\n'
    wrong += differs("as it is", run_in(place, command, program, **path, **variables), (0, warning))
    wrong += differs("what is made", set(os.listdir(os.path.join(place, "realms"))), made)
    kept = json.loads(here.read("top/examples/ci/kept.json"))
    rims = [[each["rim"] for each in table["launches"]] for table in (json.loads(here.read("top/realms/report.json")), kept)]
    wrong += differs("the report", rims[0], rims[1])
    kept["launches"][0]["rim"] = "00" * 32
    here.put("kept.json", json.dumps(kept).encode())
    other = command.replace("examples/ci/kept.json", "../kept.json").replace("realms", "again")
    status, said = run_in(place, other, program, **path, **variables)
    wrong += differs("another value", (status, said.startswith(f'{warning}launch "vm" has another value: sha256 '),
                                       set(os.listdir(os.path.join(place, "again")))), (1, True, made))
    installs = {"PATH": f"{here.path}/installs:/usr/bin:/bin"}
    if not any(os.path.exists(os.path.join(each, "rim")) for each in ("/usr/bin", "/bin")):
        status, _ = run_in(place, command.replace("realms", "third"), program, **installs, **variables)
        wrong += differs("what is installed", (status, here.read("top/said")), (127, b"-q update\n-q -y install ./rim.deb\n"))
    return wrong


WRONG = [
    (["--in-toto"], 2, "0 operands, expected REPORT"), (["--in-toto", "r.json", "b.json"], 2, "expected one REPORT alone"),
    (["--in-toto", "--vendor", "a", "r.json"], 2, "--in-toto is given with another option"), (["--in-toto", "r.json"], 3, "r.json: it has no file with a digest"),
    (["--in-toto", "fifo"], 3, "fifo: it is a FIFO, expected a report"), (["--in-toto", "Image"], 3, "Image: it is no UTF-8"),
    ([], 2, "usage: rim-endorse"), (["r.json"], 2, "no class is given, expected --vendor or --class-id"),
    (["--vendor", "a"], 2, "0 operands, expected REPORT"), (["--vendor", "", "r.json"], 2, '--vendor: "", expected a name'),
    (["--vendor", "a\nb", "r.json"], 2, '--vendor: "a\\x0ab", expected a name'), (["--vendor", "a" * 201, "r.json"], 2, "expected a name of 1 to 200"),
    (["--class-id", "cd1f", "r.json"], 2, '--class-id: "cd1f", expected a UUID'), (["--class-id", CLASS + "0", "r.json"], 2, "expected a UUID"),
    ([*WORDS, "--profile", "urn:a", "r.json"], 2, "--profile is given without --corim"), ([*WORDS, "name.json"], 3, 'name.json: a launch has the name "a b"'),
    ([*WORDS, "--corim", "c", "--profile", "a", "r.json"], 2, '--profile: "a", expected a URI'), ([*WORDS, "--no-mkey=1", "r.json"], 2, "is no option"),
    ([*WORDS, "--corim", "c", "--profile", "a:\n", "r.json"], 2, '--profile: "a:\\x0a", expected a URI'),
    ([*WORDS, "--corim", "c", "--profile", "a:" + "b" * 199, "r.json"], 2, "expected a URI of at most 200"),
    (["--vendor", "a", "--vendor", "b", "r.json"], 2, "--vendor is given twice"), (["--all", "r.json"], 2, '"--all" is no option'),
    ([*WORDS, "gone.json"], 3, "gone.json: No such file or directory, expected a report of rim measure --json"),
    ([*WORDS, "/dev/zero"], 3, "/dev/zero: it is a device, expected a report"), ([*WORDS, "fifo"], 3, "fifo: it is a FIFO, expected a report"),
    ([*WORDS, "--corim", "r.json", "b.json"], 3, "r.json: File exists, expected a file that is not there"),
    ([*WORDS, "--corim", "none/c", "b.json"], 3, "none/c: No such file or directory, expected a file that is not there"),
    ([*WORDS, "--corim", "", "b.json"], 3, "No such file or directory, expected a file that is not there"),
]


def words(_program: str) -> list[str]:
    here, wrong = folder(), []
    os.mkfifo(os.path.join(here.path, "fifo"))
    for given, expected, text in WRONG:
        status, out, said = here.run(*given, start=START)
        if (status, out, text in said) != (expected, "", True) or (given and said.count("\n") != 1):
            wrong.append(f"{given[:4]}: {status} {out!r} {said!r}, expected {expected} {text!r}")
    for given, text in ((["--help"], "from memory of drafts"), (["-V"], "rim-endorse 0.")):
        status, out, said = here.run(*given, start=START)
        wrong += differs(given[0], (status, text in out, said), (0, True, ""))
    with open("/dev/full", "w", encoding="utf-8") as full:
        ran = subprocess.run([START, *WORDS, "--corim", "full", "r.json"], cwd=here.path, stdout=full, stderr=subprocess.PIPE, text=True, check=False)
    wrong += differs("a full disk", (ran.returncode, ran.stderr, os.path.exists(os.path.join(here.path, "full"))),
                     (3, "rim-endorse: output: No space left on device\n", False))
    limited = ["/bin/sh", "-c", "ulimit -f 0; trap '' XFSZ; exec \"$0\" \"$@\"", START, *WORDS, "--corim", "c", "r.json"]
    ran = subprocess.run(limited, cwd=here.path, capture_output=True, text=True, check=False)
    is_line = ran.stderr.startswith("rim-endorse: c: File too large")
    return wrong + differs("a file that is full", (ran.returncode, ran.stdout, is_line, os.path.exists(os.path.join(here.path, "c"))), (3, "", True, False))


def all_tries(program: str):
    for look in (one_report, named, refusals, personalized, in_toto, in_ci, words):
        yield look.__name__, lambda look=look: look(program)


def run_all() -> int:
    return told(at_a_time(all_tries(program_of(sys.argv[1:]))))


if __name__ == "__main__":
    sys.exit(run_all())
