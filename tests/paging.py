#!/usr/bin/env python3
"""Has rim-page make pages and pictures, and reads them.

    tests/paging.py [PROGRAM]          by default the program that `rt ci` has built

- Each page is read by a grammar: elements end as they began, ids are there once, links lead to one, heads of tables have a scope, nothing is asked of
  anybody, the policy names the digests of the page's own style and script, and no attribute has a text of a manifest.
- Its values are those that PROGRAM measures, and no others; where a manifest is at fault there is none. The same input gives the same bytes.
- What is to be signed has the page's values, or there is no page. What rim-manifest has recorded of the machine is on it.
- Texts of others: marks of HTML, characters that nobody sees, ten thousand characters. Kept reports, two launches side by side, pictures by the
  launchers, which are copied for that. 1,024 launches in a page.
- Files that change meanwhile, programs that misbehave, odd files, full disks, signals, wrong words.

No browser is asked: tools/trials/page_in_browser.py does that. The last line is 'N passed, M failed'.
"""
import base64
import hashlib
import json
import os
import re
import shutil
import signal
import stat
import subprocess
import sys
import time
import xml.etree.ElementTree as ElementTree
from dataclasses import replace
from html.parser import HTMLParser

from helpers import TOP, manifests
from helpers.files import image, tree
from helpers.folders import Folder
from helpers.tries import at_a_time, differs, program_of, told

from outside import cbor
from outside.rim import Rim
from page import launches, maps, reading, release_page, style
from page import picture as picture_of

START = os.path.join(TOP, "rim-page")
EXAMPLE = "examples/vm/manifest.toml"
# Elements without an end.
VOID = {"meta", "link", "input"}
# The characters that attributes have: names and numbers of ours, paths of pictures, and the policy with its digests.
ATTRIBUTE = re.compile(r"[A-Za-z0-9 #._:;,='+/-]*")
MOST_BYTES = 5_000_000
ITEMS = '''item = [{ name = "kernel", kind = "kernel", file = "kernel", at = 0x40200000 },
  { name = "tree", kind = "dtb", file = "tree", at = 0x40600000, bootargs = %s }]'''


def launch(name: str, line="quiet", algo="sha256", end=0x40800000, more="") -> str:
    return manifests.launch(name, ITEMS % json.dumps(line), more, algo=algo, s2sz=40, ram=[[0x40000000, end]], rec=[{}])


def manifest(*launches: str, kernel="kernel") -> bytes:
    return manifests.manifest(*launches, files={"kernel": kernel, "tree": "tree"}, version=2).encode()


FILES = {"kernel": image(1 << 20, length=3 * 4096 + 5), "tree": tree([(0x40000000, 0x40800000)], length=None),
         "m.toml": manifest(launch("a"), launch("b", "noisy", "sha512")), "at-fault.toml": manifest(launch("a").replace("s2sz", "s2szz"))}


def folder(more: dict[str, bytes] | None = None) -> Folder:
    here = Folder(FILES | (more or {}))
    os.symlink(os.path.join(TOP, "examples"), os.path.join(here.path, "examples"))
    return here


# ---- the grammar of a page


class Page(HTMLParser):
    """A page as it is read: what is wrong with it, its texts by the element that has them, and the cells of its tables."""

    def __init__(self, text: str):
        super().__init__()
        self.wrong, self.open, self.ids, self.links, self.all = [], [], [], [], []
        self.texts: dict[str, list[str]] = {}
        self.policy = ""
        self.feed(text)
        self.close()
        self.wrong += [f"<{name}> does not end" for name in self.open] + [f"{each} is there twice" for each in {*self.ids} if self.ids.count(each) > 1]
        self.wrong += [f"#{each} leads nowhere" for each in {*self.links} - {*self.ids}]
        if not text.startswith("<!DOCTYPE html>\n<html lang=\"en\">"):
            self.wrong.append("it does not begin as a page")
        self.wrong += self.faults_of_policy()

    def faults_of_policy(self) -> list[str]:
        rules = dict(rule.strip().split(" ", 1) for rule in self.policy.split(";"))
        own = {name: f"'sha256-{base64.b64encode(hashlib.sha256(each.encode()).digest()).decode()}'" for name in ("style", "script")
               for each in self.texts.get(name, [""])[:1]}
        wanted = {"default-src": "'none'", "style-src": own["style"], "script-src": own["script"], "img-src": "data:", "base-uri": "'none'",
                  "form-action": "'none'"}
        counts = [len(self.texts.get(name, [])) for name in ("style", "script")]
        return differs("the policy", rules, wanted) + differs("styles and scripts", counts, [1, 1])

    def handle_starttag(self, tag, attrs):
        said = dict(attrs)
        self.all.append(tag)
        if len(said) != len(attrs):
            self.wrong.append(f"<{tag}> has an attribute twice")
        if tag not in VOID:
            self.open.append(tag)
            self.texts.setdefault(tag, []).append("")
        if "id" in said:
            self.ids.append(said["id"])
        if tag == "th" and said.get("scope") not in ("col", "row"):
            self.wrong.append("a <th> without a scope")
        if tag == "meta" and said.get("http-equiv") == "Content-Security-Policy":
            self.policy = said["content"]
        for key, value in attrs:
            if key in ("href", "src", "xlink:href", "action", "data", "srcset", "poster"):
                self.links += [value[1:]] if value.startswith("#") else []
                self.wrong += [] if value.startswith("#") or value == "data:," else [f"{key} is {value}"]
            elif key == "style" or key.startswith("on") or not ATTRIBUTE.fullmatch(value or ""):
                self.wrong.append(f"<{tag}> has {key}={value!r}")

    def handle_startendtag(self, tag, attrs):
        self.handle_starttag(tag, attrs)
        if tag not in VOID:
            self.handle_endtag(tag)

    def handle_endtag(self, tag):
        if not self.open or self.open[-1] != tag:
            self.wrong.append(f"</{tag}> ends {self.open[-1:]}")
        if tag in self.open:
            while self.open.pop() != tag:
                pass

    def handle_data(self, data):
        for tag in set(self.open):
            self.texts[tag][-1] += data
        hidden = [letter for letter in data if not letter.isprintable() and letter != "\n"]
        self.wrong += [f"it has {hidden[:3]!r}"] * bool(hidden)

    @property
    def digits(self) -> list[str]:
        """All that is shown as digits."""
        return self.texts.get("samp", [])

    @property
    def text(self) -> str:
        return self.texts["main"][0]


def made(here: Folder, program: str, *words: str, status=0, said="") -> tuple[Page, list[str]]:
    """The page that some words make, and what is wrong with that."""
    came = here.run("--out", "-", *words, start=START, RIM=program)
    page = Page(came[1])
    return page, differs(f"{words}: status", (came[0], came[2]), (status, said)) + page.wrong


def missing(page: Page, *texts: str) -> list[str]:
    """Which of some texts a page has not."""
    return [f"{each[:80]!r} is missing" for each in texts if each not in page.text]


def values(here: Folder, program: str, path: str) -> dict[str, str]:
    """What PROGRAM measures, by the names of launches."""
    ran = subprocess.run([program, "measure", path], cwd=here.path, capture_output=True, text=True, check=False)
    return dict(line.split(" ", 1) for line in ran.stdout.splitlines()[1:-1])


def report_of(here: Folder, program: str, path: str) -> bytes:
    """The report that PROGRAM makes of a manifest."""
    return subprocess.run([program, "measure", "--json", path], cwd=here.path, capture_output=True, check=False).stdout


# ---- releases


def release(program: str) -> list[str]:
    """The example with a launch that is refused: each value is in its row and its part, what is wrong and odd comes first, each launch has its map."""
    with folder() as here:
        page, wrong = made(here, program, EXAMPLE, status=1)
        known = values(here, program, EXAMPLE)
        digests = [hashlib.sha256(here.read(path)).hexdigest() for path in (EXAMPLE, "examples/vm/Image", "examples/vm/initrd.img", "examples/vm/virt.dtb")]
        digests.append(hashlib.sha256(report_of(here, program, EXAMPLE)).hexdigest())
    rows = {text.split("examples/vm/Image")[0]: text for text in page.texts["tr"] if text.split("examples/vm/Image")[0] in known}
    wrong += differs("rows", list(rows), list(known))
    for name, value in known.items():
        shown = value.replace("refused ", "sha256refused: ") if "refused" in value else value.replace(" ", "")
        wrong += [] if shown in rows.get(name, "") and "examples/vm/initrd.img" in rows[name] else [f"{name}: {value} is not in {rows.get(name)!r}"]
    rims = sorted(value.split(" ")[1] for value in known.values() if "refused" not in value)
    shown = sorted(each for each in page.digits if each in rims)
    wrong += differs("each value twice", shown, sorted(rims * 2))
    trees = set(page.digits) - {*rims, *digests}
    wrong += differs("other digits", len(trees), 1) + [f"{each} is missing" for each in digests if each not in page.digits]
    wrong += differs("the order", page.texts["h2"], ["A launch is refused and has no value", "Warnings: what is rarely meant", "Launches", "Files",
                                                     "How to read a map", "Each launch"])
    wrong += missing(page, '"initrd" 0x40300000 to 0x4030232d: initrd-in-the-kernel', 'item "dtb": processors in /cpus: 1, expected 2, one for each REC: two-vcpus, two-vcpus')
    maps = [title for title in page.texts["title"] if title.startswith("Map of ")]
    return wrong + differs("maps", len(maps), 4) + differs("the bar", page.text.count("The measurement has 139 extensions"), 3)


def same_bytes(program: str) -> list[str]:
    """The same input gives the same bytes, whatever the environment says; several manifests and a folder of rim-manifest are one release."""
    manifests = {f"made/manifest-{n}.toml": manifest(launch(f"l{n}", f"n={n}")) for n in (1, 2)}
    with folder(manifests | {f"made/{name}": FILES[name] for name in ("kernel", "tree")}) as here:
        words = ("--out", "-", "m.toml", "made")
        first = here.run(*words, start=START, RIM=program, TZ="UTC", LANG="C", PYTHONHASHSEED="1")
        other = here.run(*words, start=START, RIM=program, TZ="Asia/Tokyo", LANG="de_DE.UTF-8", PYTHONHASHSEED="2", COLUMNS="20")
        wrong = differs("the bytes", first, other) + differs("the status", (first[0], first[2]), (0, ""))
        page = Page(first[1])
        wrong += page.wrong + differs("sections", len(page.texts["section"]), 4 + ("Warnings:" in page.text))
        twice = here.run("--out", "-", "m.toml", "./m.toml", start=START, RIM=program)
        return wrong + differs("one name twice", twice, (3, "", 'rim-page: two launches have the name "a", expected each name once in all that is compared\n'))


def at_fault(program: str) -> list[str]:
    """Where a manifest or a file of it is at fault, no value is on the page, also not those of another manifest."""
    said = "rim-page: at-fault.toml: it is at fault, so the page has no values\n"
    with folder({"no-file.toml": manifest(launch("c"), kernel="gone")}) as here:
        page, wrong = made(here, program, "m.toml", "at-fault.toml", status=3, said=said)
        manifests = [hashlib.sha256(here.read(each)).hexdigest() for each in ("m.toml", "at-fault.toml")]
        wrong += differs("digits", page.digits, manifests) + differs("the title", page.texts["title"], ["NO VALUES: m.toml, at-fault.toml"])
        wrong += missing(page, 'at-fault.toml:6:1: launch "a": unknown-key: "s2szz" (nearest: s2sz)')
        wrong += [each for each in values(here, program, "m.toml").values() if each.split(" ")[1] in page.text]
        page, more = made(here, program, "no-file.toml", status=3, said="rim-page: no-file.toml: it is at fault, so the page has no values\n")
        return wrong + more + missing(page, "gone: file-unreadable")


ODD = "<b>\"&amp;'\u202e\u200b</script><script>alert(1)</script>\\"


def texts(program: str) -> list[str]:
    """Texts of others are shown as texts, whatever they have."""
    kernel = "k<i>\u202e\"'&.img"
    with folder({kernel: FILES["kernel"], "odd.toml": manifest(launch("a", ODD), launch("b", "x" * 10_000), kernel=kernel),
                 "long.toml": manifest(launch("a"), kernel="\u202e<u>" * 2500)}) as here:
        page, wrong = made(here, program, "odd.toml")
        shown = ODD.replace("\\", "\\\\").replace("\u202e", "\\u202e").replace("\u200b", "\\u200b")
        wrong += missing(page, shown, kernel.replace("\u202e", "\\u202e"), "x" * 10_000)
        wrong += differs("marks of theirs", [each for each in ("b", "script", "i", "u") if page.all.count(each) > (each in ("script", "b"))], [])
        page, more = made(here, program, "long.toml", status=3, said="rim-page: long.toml: it is at fault, so the page has no values\n")
        return wrong + more + differs("marks of theirs", page.all.count("u"), 0) + missing(page, "\\u202e<u>")


def before(program: str) -> list[str]:
    """What changed since a kept report, launch by launch; and no value of that report is on the page."""
    with folder() as here:
        here.put("was.toml", manifest(launch("a", "other"), launch("b", "noisy", "sha512"), launch("gone", "gone"), launch("old name", "renamed").replace(
            "old name", "old-name")))
        kept = subprocess.run([program, "measure", "--json", "was.toml"], cwd=here.path, capture_output=True, check=True)
        here.put("kept.json", kept.stdout)
        was = values(here, program, "was.toml")
        here.put("m.toml", manifest(launch("a"), launch("b", "noisy", "sha512"), launch("new", "new"), launch("new-name", "renamed")))
        here.put("tree", FILES["tree"] + b"\0")
        page, wrong = made(here, program, "--before", "kept.json", "m.toml")
        rows = {name: text for text in page.texts["tr"] for name in ("a", "b", "new", "new-name") if text.startswith(f"{name}kernel")}
        words = {"a": "another value", "b": "", "new": "new", "new-name": "another name"}
        wrong += [f"{name}: {rows.get(name)!r}" for name, word in words.items() if not rows.get(name, "").endswith(word)]
        wrong += missing(page, "a has another value", "new is new", "gone is gone", "new-name has the value that launch old-name had",
                         "edited devicetree: sha256 ", "tree has other contents", "What changed since kept.json")
        wrong += [f"the old value of {name} is there" for name in ("a", "gone") if was[name].split(" ")[1] in page.text]
        here.put("tree", FILES["tree"])
        here.put("m.toml", here.read("was.toml"))
        page, more = made(here, program, "--before", "kept.json", "m.toml")
        return wrong + more + missing(page, "Nothing: each launch has the value that it had")


def joined(program: str) -> list[str]:
    """Refusals with one cause are one line, and so are launches that changed for one cause."""
    bad = [launch(f"bad{n}", f"n={n}", end=0x40500000) for n in range(3)]
    with folder({"m.toml": manifest(launch("a"), launch("b", "noisy"), *bad, launch("c", "third"))}) as here:
        here.put("kept.json", report_of(here, program, "m.toml"))
        here.put("kernel", FILES["kernel"][:-1] + b"\1")
        here.put("m.toml", here.read("m.toml").replace(b'name = "c"', b'num_wps = 7\nname = "c"'))
        page, wrong = made(here, program, "--before", "kept.json", "m.toml", status=1)
    lines = [each for each in page.texts["li"] if "bad0" in each]
    wrong += [f"refusals: {lines}"] * (len(lines) != 1 or not lines[0].endswith(": bad0, bad1, bad2") or not lines[0].startswith("outside-ram: "))
    said = page.text.split("What changed since kept.json")[1].split("Search the launches")[0]
    wrong += differs("changes", (said.count('item "kernel", sha256: '), said.count("a, b, c: each has another value, for one cause")), (1, 1))
    return wrong + [f"what is of one launch: {said!r}"] * ("c: parameter num_wps: 7, was 0" not in said)


def signed(program: str) -> list[str]:
    """What is to be signed has exactly the values of the page, which has its digest; else there is no page."""
    with folder({"n.toml": manifest(launch("a"), launch("b", "noisy", "sha512"), launch("c", more=f"rpv = '{'ab' * 64}'"), launch("d", end=0x40500000))}) as here:
        here.put("r.json", report_of(here, program, "n.toml"))
        for name, *words in (("s.json", "--in-toto"), ("c.json", "--vendor", "a", "--corim", "c.cbor"), ("b.json", "--vendor", "a", "--no-mkey", "--corim", "b.cbor")):
            here.put(name, here.run(*words, "r.json", start=os.path.join(TOP, "rim-endorse"))[1].encode())
        names = ("r.json", "s.json", "c.cbor", "b.cbor")
        page, wrong = made(here, program, *(word for name in names for word in ("--signed", name)), "n.toml", status=1)
        wrong += [f"the digest of {name} is missing" for name in names if hashlib.sha256(here.read(name)).hexdigest() not in page.digits]
        wrong += differs("kinds", [row for row in page.texts["tr"] if "unsigned CoRIM" in row or "in-toto statement" in row] != [], True)
        for name, data, text in others(here):
            here.put("other", data)
            came = here.run("--out", "page.html", "--signed", "other", "n.toml", start=START, RIM=program)
            if (came[0], came[1], came[2].startswith(f"rim-page: other: {text}"), came[2].count("\n"), "page.html" in here.names()) != (3, "", True, 1, False):
                wrong.append(f"{name}: {came}, expected {text!r}")
        page, more = made(here, program, "--signed", "other", "at-fault.toml", status=3, said="rim-page: at-fault.toml: it is at fault, so the page has no values\n")
        return wrong + more


def others(here: Folder) -> list[tuple[str, bytes, str]]:
    """Files that have not the values of the page, and what is said of each."""
    report, statement = json.loads(here.read("r.json")), json.loads(here.read("s.json"))
    launches = report["launches"]
    outer = cbor.decoded(here.read("c.cbor"))
    inner = cbor.decoded(outer.value[1][0].value)
    triples = inner[4][0]

    def corim(some: list, more: dict | None = None, kind: int = 0) -> bytes:
        return cbor.encoded(cbor.Tag(501, outer.value | {1: [cbor.Tag(506, cbor.encoded(inner | {4: {kind: some} | (more or {})}))]}))

    def changed(value: dict) -> list:
        return [[triples[0][0], [triples[0][1][0] | {1: value}]], *triples[1:]]

    rim = triples[0][0][1].value
    unlike, malformed = "it has %d values that the page does not have, and lacks %d", "it is no unsigned CoRIM as rim-endorse writes it"
    return [("a value", json.dumps(report | {"launches": [launches[0] | {"rim": "00" * 32}, *launches[1:]]}).encode(), 'launch "a" is not as on the page'),
            ("a launch less", json.dumps(report | {"launches": launches[:2] + launches[3:]}).encode(), 'launch "c" is not as on the page'),
            ("a launch more", json.dumps(report | {"launches": [*launches, launches[0] | {"name": "e"}]}).encode(), 'launch "e" is not as on the page'),
            ("another refusal", json.dumps(report | {"launches": [*launches[:3], launches[3] | {"refused": "overlap"}]}).encode(), 'launch "d" is not'),
            ("another file", json.dumps(report | {"files": report["files"][:1]}).encode(), "its files are not those of the page"),
            ("another subject", json.dumps(statement | {"subject": statement["subject"][:1]}).encode(), "it says other things than its report"),
            ("no report", b"{}", "version is missing"), ("no JSON", b"{", "it is no JSON"), ("a bare array", b"[]", "it "), ("nothing", b"", "it ends within"),
            ("a CoRIM of another value", corim([[triples[0][0] | {1: cbor.Tag(560, bytes(32))}, [{0: "a", 1: {14: {"rim": [[1, bytes(32)]]}}}]], *triples[1:]]), unlike % (1, 1)),
            ("a CoRIM with a value less", corim(triples[1:]), unlike % (0, 1)), ("with a value more", corim([*triples, [{1: cbor.Tag(560, bytes(32))},
             [{0: "e", 1: {14: {"rim": [[1, bytes(32)]]}}}]]]), unlike % (1, 0)),
            ("another name", corim([[triples[0][0], [triples[0][1][0] | {0: "b"}]], *triples[1:]]), unlike % (1, 1)),
            ("no personalization value", corim([*triples[:2], [triples[2][0], [{0: "c", 1: {14: triples[2][1][0][1][14]}}]]]), unlike % (1, 1)),
            ("other triples", corim(triples, {1: []}), malformed), ("endorsed values", corim(triples, kind=1), "it has other triples than reference"),
            ("another register", corim(changed({14: {"rem": [[1, rim]]}})),
             "it has a measurement that is not one of a RIM alone"), ("two digests", corim(changed({14: {"rim": [[1, rim], [1, rim]]}})), malformed),
            ("another hash", corim(changed({14: {"rim": [[2, rim]]}})), "it has a measurement that is not"), ("more of a measurement", corim(changed(
                {14: {"rim": [[1, rim]]}, 0: 1})), "it has a measurement that is not"), ("another instance", corim(changed({14: {"rim": [[1, bytes(32)]]}})),
             "it has a measurement that is not"), ("a list", cbor.encoded([1]), "it has no tag 501"), ("another tag", cbor.encoded(cbor.Tag(502, {})), "it has no tag 501"),
            ("no CoMID", cbor.encoded(cbor.Tag(501, {1: [cbor.Tag(505, b"")]})), "it has no tag 506"), ("no tags", cbor.encoded(cbor.Tag(501, {})), malformed)]


HOST = {"path": "h<b>.toml", "settled_by": "the RIM of g<i>", "numbers": [{"name": "num_bps", "value": 5, "from": "h<b>.toml"}, {"name": "pmu", "value": True, "from": "-cpu"}],
        "rows": [{"name": "ram", "taken": "first", "does": "all of it", "likely": 75, "from": "the likeliest", "not_settled": []},
                 {"name": "order", "taken": "kind", "does": "by kind", "likely": 20, "from": "h<b>.toml", "not_settled": []},
                 {"name": "stub", "taken": "none", "does": "no part", "likely": 85, "from": "--stub", "not_settled": []},
                 {"name": "block_level", "taken": "0", "does": "as large as fits", "likely": 75, "from": "h<b>.toml", "not_settled": ["1", "3"]}]}


def machines(program: str) -> list[str]:
    """What the record of a folder says of the machine is on the page; a record of another manifest, or one that is none, is a fault."""
    text = manifest(launch("a"))
    record = {"rim_manifest_record": 2, "hypervisor": "qemu", "program": "QEMU 1<u>", "host": HOST, "files": {"manifest.toml": hashlib.sha256(text).hexdigest()}}
    with folder({"made/manifest.toml": text, "made/kernel": FILES["kernel"], "made/tree": FILES["tree"], "made/record.json": json.dumps(record).encode()}) as here:
        page, wrong = made(here, program, "made")
        rows = {"ram": "ramfirstall of itassumed, the likeliest (75%)", "order": "orderkindby kindsettled", "stub": "stubnoneno partchosen by --stub",
                "block_level": "block_level0as large as fitsnot settled: 1 or 3 is possible too", "num_bps": "num_bps5h<b>.toml", "pmu": "pmutrue-cpu"}
        wrong += [f"{name}: {text!r} is missing" for name, text in rows.items() if text not in page.texts["tr"]]
        wrong += missing(page, "for QEMU 1<u>. Settled by: the RIM of g<i>. 2 rows are assumed or not settled")
        wrong += differs("marks of theirs", [each for each in ("i", "u") if each in page.all], [])
        unsettled = record | {"program": "", "host": HOST | {"settled_by": None, "numbers": []}}
        here.put("made/record.json", json.dumps(unsettled).encode())
        page, more = made(here, program, "made")
        wrong += more + missing(page, "for qemu. No machine has settled it", "orderkindby kindchosen in h<b>.toml")
        here.put("made/record.json", json.dumps({key: value for key, value in record.items() if key != "host"}).encode())
        page, more = made(here, program, "made")
        wrong += more + ["an older record"] * ("What is assumed of the machine" in page.text)
        for name, data, text in (("another manifest", json.dumps(record | {"files": {}}), "it is not of manifest.toml, which was changed since"), ("no JSON", "{", "it is no JSON"),
                                 ("no rows", json.dumps(record | {"host": {"path": "h", "settled_by": None, "numbers": []}}), "rows is missing, or is no array"),
                                 ("a row", json.dumps(record | {"host": HOST | {"rows": [1]}}), "name is missing, or is no text")):
            here.put("made/record.json", data.encode())
            status, out, said = here.run("--out", "-", "made", start=START, RIM=program)
            wrong += differs(name, (status, out, said.startswith(f"rim-page: made/record.json: {text}"), said.count("\n")), (3, "", True, 1))
        os.remove(os.path.join(here.path, "made", "record.json"))
        os.mkfifo(os.path.join(here.path, "made", "record.json"))
        status, out, said = here.run("--out", "-", "made", start=START, RIM=program)
        return wrong + differs("a FIFO", (status, out, said), (3, "", "rim-page: made/record.json: it is a FIFO, expected a record of rim-manifest\n"))


def two(program: str) -> list[str]:
    """Two launches side by side, of one manifest and of two, and the first step that parts them."""
    with folder({"n.toml": manifest(launch("a", more="num_bps = 5"))}) as here:
        page, wrong = made(here, program, "--diff", "m.toml", "a", "b")
        wrong += missing(page, "a beside b", "They have different values", "line 1 differs in", "algorithm", "noisy")
        known = values(here, program, "m.toml")
        wrong += [f"{name}: its value is missing" for name in ("a", "b") if known[name].split(" ")[1] not in page.digits]
        page, more = made(here, program, "--diff", "m.toml", "a", "n.toml", "a")
        wrong += more + missing(page, "a of m.toml beside a of n.toml", "parameter num_bps", "differs in num_bps")
        page, more = made(here, program, "--diff", "m.toml", "a", "a")
        wrong += more + missing(page, "Both have one value", "lines are those of a")
        page, more = made(here, program, "--diff", EXAMPLE, "one-vcpu", "initrd-in-the-kernel", status=1)
        wrong += more + missing(page, 'launch "initrd-in-the-kernel" is refused, so there are no steps of it')
        page, more = made(here, program, "--diff", "m.toml", "a", "at-fault.toml", "a", status=3, said="rim-page: a manifest is at fault, so the page has "
                          "no values\n")
        wrong += more + differs("the title", page.texts["title"], ["NO VALUES: m.toml, at-fault.toml"])
        return wrong + differs("no launch", here.run("--diff", "--out", "-", "m.toml", "a", "c", start=START, RIM=program),
                               (3, "", 'rim-page: rim: no-such-launch: "c", expected one of m.toml\n'))


# ---- many launches


def many(program: str) -> list[str]:
    """Maps that are asked for by manifests of their own are those of the manifest; and 1,024 launches are a page of at most 5 MB."""
    count, wrong, line = 34, [], "console=ttyAMA0 root=/dev/vda ro quiet loglevel=3 net.ifnames=0 panic=-1 n="
    names = [f"512M-smp2-Image-initrd.img-console_ttyAMA0_quiet-{n:04}-sha512" for n in range(1024)]
    texts_of = [launch(names[n], f"{line}{n}", "sha512", 0x40800000 + (n << 21)) for n in range(count)]
    with folder({"many.toml": manifest(*texts_of), "one.toml": manifest(texts_of[7])}) as here:
        os.chdir(here.path)
        try:
            rim = Rim(program)
            found = reading.released(rim, reading.sources_of(["many.toml"]))
            alone = reading.released(rim, reading.sources_of(["one.toml"]))
        finally:
            os.chdir(TOP)
        wrong += differs("a launch among many, and alone", found.launches[7], alone.launches[0])
    release_of = replace(found, launches=tuple(renamed(found.launches[n % count], names[n], f"{line}{n}", n) for n in range(1024)))
    start = time.process_time()
    page = release_page.page(release_of, None).encode()
    took = time.process_time() - start
    wrong += [f"a page of 1,024 launches has {len(page):,} bytes"] * (len(page) > MOST_BYTES)
    return wrong + [f"a page of 1,024 launches took {took:.1f} s"] * (took > 10)


def renamed(of: reading.Launch, name: str, line: str, number: int) -> reading.Launch:
    """A launch as another one: another name, value, line and size of RAM, so that no picture is that of another one."""
    digits = hashlib.sha512(name.encode()).hexdigest()
    base = of.map.regions[0][0]
    ram = ((base, base + (number + 4 << 21)),)
    extensions = of.map.extensions | {"ripas": number + 4}
    return replace(of, name=name, value=replace(of.value, digits=digits), command_line=line, map=replace(of.map, name=name, regions=ram, extensions=extensions))


# ---- what a browser would show

# The widest a character is on average, of texts of numbers, in a sans-serif font of 11 pixels.
WIDTH_OF_CHARACTER = 6.5


def on_screens(_program: str) -> list[str]:
    """A picture has room for what it says of an item of 1 GiB above 64 GiB; on a phone each cell of the table has the head of its column, but the
    name and what says itself what it is."""
    item = maps.Item("kernel", "kernel", "Image", False, True, 0x10_8000_0000, 1 << 30, 1 << 18)
    lines = re.findall(r">([^<]*)<", f">{picture_of.said_of(item, 0)}<")
    longest = max(len(line) for line in lines) * WIDTH_OF_CHARACTER
    wrong = [f"{lines} take {longest}"] * (longest > picture_of.WIDTH - picture_of.TEXT)
    phone = style.OF_PAGE.split("@media screen and (max-width:48rem)")[1].split("@media print")[0]
    labels = {int(number): label for number, label in re.findall(r'nth-child\((\d)\)::before\{content:"([^"]*)"', phone)}
    heads = {number: head for number, head in enumerate(launches.HEADS, 1) if head not in ("Name", "Value", "Warnings")}
    wrong += differs("labels", labels, heads) + differs("the value comes first", f"td:nth-child({launches.HEADS.index('Value') + 1}){{order:-1}}" in phone, True)
    return wrong + differs("numbers break", "th,td{text-align:left;vertical-align:top;padding:.35rem .5rem;border-bottom:1px solid var(--line);"
                           "overflow-wrap:break-word}" in style.OF_PAGE, True)


# ---- pictures


def picture(program: str) -> list[str]:
    """A picture is a file of its own, that XML's reader reads; where it is put, it is as `rim map -o` puts its output."""
    wrong = []
    with folder() as here:
        for name, status in (("two-vcpus", 0), ("initrd-in-the-kernel", 1)):
            came = here.run("--svg", EXAMPLE, name, start=START, RIM=program)
            root = ElementTree.fromstring(came[1])
            space = "{http://www.w3.org/2000/svg}"
            title, said = (root.find(space + each).text for each in ("title", "desc"))
            wrong += differs(name, (came[0], came[2], root.tag, title), (status, "", space + "svg", f'The map of launch "{name}"'))
            wrong += [] if "kernel" in said and ("overlap" in said) == bool(status) else [f"{name}: {said!r}"]
        here.put("there", b"old")
        os.chmod(os.path.join(here.path, "there"), 0o640)
        os.symlink("there", os.path.join(here.path, "link"))
        apart = [rule for rule in style.OF_PICTURE.split("}") if " " in rule.split("{")[0].strip()]
        wrong += differs("rules of more than one class, which do not hold where a picture is used", apart, [])
        wrong += differs("-o", here.run("-o", "link", "--svg", EXAMPLE, "two-vcpus", start=START, RIM=program), (0, "", ""))
        first = here.run("--svg", EXAMPLE, "two-vcpus", start=START, RIM=program)[1]
        mode = stat.S_IMODE(os.stat(os.path.join(here.path, "there")).st_mode)
        wrong += differs("a link", (here.read("there").decode() == first, os.path.islink(os.path.join(here.path, "link")), mode), (True, True, 0o640))
        wrong += differs("a full disk", here.run("--svg", "-o", "/dev/full", EXAMPLE, "two-vcpus", start=START, RIM=program),
                         (3, "", "rim-page: /dev/full: No space left on device, expected that it can be written\n"))
        wrong += differs("no launch", here.run("--svg", EXAMPLE, "none", start=START, RIM=program),
                         (3, "", 'rim-page: examples/vm/manifest.toml has no launch "none"\n'))
    return wrong


HANDED = [(["map", "--svg", "m", "l"], "--svg m l"), (["map", "m", "l", "-o", "x", "--svg"], "m l -o x --svg")]
NOT_HANDED = [["map", "m", "l"], ["map", "--", "--svg", "l"], ["list", "--svg", "l"], []]


def launchers(_program: str) -> list[str]:
    """Both launchers hand `map --svg` to rim-page with themselves as the program, and nothing else."""
    wrong = []
    with folder() as here:
        for source, path in ((os.path.join(TOP, "rim"), "top/rim"), (os.path.join(TOP, "tools", "package", "rim"), "top/bin/rim")):
            beside = os.path.dirname(path)
            here.put(path, b"", is_program=True)
            shutil.copy(source, os.path.join(here.path, path))
            here.put(f"{beside}/rim-page", b'#!/bin/sh\necho "page: $RIM_DIST $*"\nls -L "$RIM" >/dev/null\n', is_program=True)
            for given, handed in HANDED:
                wrong += differs(f"{path} {given}", here.run(*given, start=os.path.join(here.path, path), RIM_DIST="no"), (0, f"page: no {handed}\n", ""))
            for given in NOT_HANDED:
                came = here.run(*given, start=os.path.join(here.path, path), PATH="/none:/usr/bin:/bin", RIM_DIST="no")
                wrong += [f"{path} {given}: {came}"] * ("page:" in came[1])
    return wrong


# ---- what goes wrong


def changes(program: str) -> list[str]:
    """A file or a manifest that changes while the page is made is a fault, and nothing is written."""
    wrong = []
    for what, when in (("kernel", "measure"), ("m.toml", "measure"), ("kernel", "map"), ("m.toml", "map"), ("m.toml", "check")):
        with folder() as here:
            fake = os.path.join(here.path, "fake")
            here.put("fake", f'#!/bin/sh\n{program} "$@"\nstatus=$?\n[ "$1" != {when} ] || echo >>{what}\nexit $status\n'.encode(), is_program=True)
            status, out, said = here.run("--out", "page.html", "m.toml", start=START, RIM=fake)
            is_line = said.startswith("rim-page: ") and said.count("\n") == 1 and "change" in said
            wrong += differs(f"{what} after {when}", (status, out, is_line, "page.html" in here.names()), (3, "", True, False)) and [f"{what} {when}: {said!r}"]
    return wrong


MISBEHAVING = [
    ("no JSON", "check", "echo none", "it is no JSON that is read here"), ("no check", "check", "echo '{}'", "status is missing, or is no whole number"),
    ("a fault without status", "check", 'echo \'{"faults":["x"],"status":0,"version":1,"warnings":[]}\'', "status 0 with 1 faults"),
    ("no memory", "check", "echo 'rim: no-memory' >&2; exit 4", "rim: no-memory"), ("killed", "measure", "kill -9 $$", "rim: ended by SIGKILL"),
    ("an older report", "measure", 'echo \'{"version":2,"launches":[]}\'', "its reports have version 2"),
    ("no map", "map", "echo '{}'", "version is missing, or is no whole number"), ("another map", "map", f'exec PROGRAM map --json {EXAMPLE} one-vcpu',
                                                                                    "are of other items"),
    ("a refused map", "map", "echo 'rim: plan' >&2; exit 3", "rim: plan"), ("another program", "--version", "echo other", "it says that it is other"),
]


def misbehaving(program: str) -> list[str]:
    """A program that is no `rim`: a line, and no page."""
    wrong = []
    for name, word, body, text in MISBEHAVING:
        with folder() as here:
            body = body.replace("PROGRAM", program)
            here.put("fake", f'#!/bin/sh\nif [ "$1" = {word} ]; then\n{body}\nelse exec {program} "$@"\nfi\n'.encode(), is_program=True)
            status, out, said = here.run("--out", "page.html", "m.toml", start=START, RIM="./fake")
            is_line = said.startswith("rim-page: ") and said.count("\n") == 1 and text in said
            if (status, is_line, "page.html" in here.names()) != (3, True, False):
                wrong.append(f"{name}: {status} {out!r} {said!r}")
    return wrong


WORDS = [
    ([], 2, "usage: rim-page"), (["m.toml"], 2, "no --out, expected --out FILE"), (["--out", "-"], 2, "0 operands, expected MANIFEST"),
    (["--out", "-", "--out", "-", "m.toml"], 2, "--out is given twice"), (["--out", "-", "--svg", "m.toml", "a"], 2, "--out: it is of a page"),
    (["--svg", "m.toml"], 2, "--svg: 1 operand, expected MANIFEST LAUNCH"), (["--svg", "--diff", "m.toml", "a"], 2, "--svg and --diff"),
    (["--diff", "--out", "-", "m.toml", "a"], 2, "--diff: 2 operands, expected"), (["-o", "x", "--out", "-", "m.toml"], 2, "-o: it is of --svg"),
    (["--diff", "--before", "k", "--out", "-", "m.toml", "a", "b"], 2, "--before: it is of a release"), (["--al", "m.toml"], 2, '"--al" is no option'),
    (["--out", "there", "m.toml"], 3, "there: it exists, expected a new file, or --force"), (["--force", "--out", ".", "m.toml"], 3, ".: it cannot be made"),
    (["--out", "none/x", "m.toml"], 3, "none/x: it cannot be made"), (["--force", "--out", "m.toml", "m.toml"], 3, "m.toml: the page is made of it"),
    (["--force", "--out", "kernel", "m.toml"], 3, "kernel: the page is made of it"),
    (["--out", "-", "gone.toml"], 3, "gone.toml: No such file or directory, expected a manifest"),
    (["--out", "-", "fifo"], 3, "fifo: it is a FIFO, expected a manifest"), (["--out", "-", "/dev/zero"], 3, "/dev/zero: it is a device, expected a manifest"),
    (["--out", "-", "."], 3, ".: it has 0 manifests, expected a folder of rim-manifest"), (["--out", "-", "huge"], 3, "huge: it has more than 67108864 bytes"),
    (["--diff", "--signed", "k", "--out", "-", "m.toml", "a", "b"], 2, "--signed: it is of a release, expected no --diff"),
    (["--out", "-", "--signed", "fifo", "m.toml"], 3, "fifo: it is a FIFO, expected a report"), (["--out", "-", "--signed"], 2, "--signed: nothing comes after it"),
    (["--out", "-", "--signed", "huge", "m.toml"], 3, "huge: it has more than 67108864 bytes"),
    (["--out", "-", "--before", "fifo", "m.toml"], 3, "fifo: it is a FIFO, expected a report"),
    (["--out", "-", "--before", "huge", "m.toml"], 3, "huge: it has more than 67108864 bytes"),
    (["--out", "-", "--before", "m.toml", "m.toml"], 3, "it is no JSON"),
    (["--out", "-", "--before", "gone.json", "m.toml"], 3, "gone.json: No such file or directory, expected a report"),
]


def words(program: str) -> list[str]:
    wrong = []
    with folder({"there": b"old"}) as here:
        os.mkfifo(os.path.join(here.path, "fifo"))
        with open(os.path.join(here.path, "huge"), "wb") as file:
            file.truncate(1 << 30)
        before_names = here.names()
        for given, expected, text in WORDS:
            status, out, said = here.run(*given, start=START, RIM=program)
            if (status, out, text in said) != (expected, "", True):
                wrong.append(f"{given}: {status} {out[:80]!r} {said!r}, expected {expected} {text!r}")
            if given and (not said.startswith("rim-page: ") or said.count("\n") != 1):
                wrong.append(f"{given}: {said!r} is not one line")
        wrong += differs("files", here.names(), before_names) + differs("what was there", (here.read("there"), here.read("m.toml")), (b"old", FILES["m.toml"]))
        for given, text in ((["--help"], "usage: rim-page"), (["-V"], "rim-page 0.")):
            status, out, said = here.run(*given, start=START)
            wrong += differs(given[0], (status, text in out, said), (0, True, ""))
        wrong += differs("--force", here.run("--force", "--out", "there", "m.toml", start=START, RIM=program), (0, "", ""))
        return wrong + Page(here.read("there").decode()).wrong


def disks(program: str) -> list[str]:
    """A full disk: one line, and what was there is as it was."""
    wrong = []
    with folder({"there": b"old"}) as here:
        os.mkdir(os.path.join(here.path, "temporary"))
        own = os.environ | {"RIM": program, "TMPDIR": os.path.join(here.path, "temporary")}
        for line, text in (("ulimit -f 16; exec \"$0\" --force --out there m.toml", "rim-page: there: File too large, expected that it can be written\n"),
                           ("exec \"$0\" --out - m.toml >/dev/full", "rim-page: output: No space left on device\n"),
                           ("exec \"$0\" --svg m.toml a >/dev/full", "rim-page: output: No space left on device\n")):
            ran = subprocess.run(["/bin/sh", "-c", line, START], cwd=here.path, capture_output=True, text=True, check=False, env=own)
            wrong += differs(line, (ran.returncode, ran.stderr), (3, text))
        wrong += differs("what is there", (here.read("there"), os.listdir(os.path.join(here.path, "temporary"))), (b"old", []))
        return wrong + [f"{each} is left" for each in here.names() if each.startswith("there.")]


def signals(program: str) -> list[str]:
    """A signal ends all of it, and leaves nothing."""
    wrong = []
    for number in (signal.SIGINT, signal.SIGTERM, signal.SIGHUP):
        with folder({"there": b"old"}) as here:
            os.mkdir(os.path.join(here.path, "temporary"))
            here.put("fake", f'#!/bin/sh\n[ "$1" = map ] || exec {program} "$@"\necho >>started\nsleep 1000\n'.encode(), is_program=True)
            ran = subprocess.Popen([START, "--force", "--out", "there", "m.toml"], cwd=here.path, stdout=subprocess.PIPE, stderr=subprocess.PIPE, text=True,
                                   env=os.environ | {"RIM": "./fake", "TMPDIR": os.path.join(here.path, "temporary")})
            while "started" not in here.names() and ran.poll() is None:
                time.sleep(0.01)
            for _ in range(2):
                ran.send_signal(number)
            out, said = ran.communicate(timeout=20)
            left = os.listdir(os.path.join(here.path, "temporary")), here.read("there")
            wrong += differs(number.name, (ran.returncode, out, said, left), (128 + number, "", "", ([], b"old")))
    return wrong


TRIES = [("a release", release), ("what is joined", joined), ("what is to be signed", signed), ("what a browser would show", on_screens), ("the machine", machines), ("the same bytes", same_bytes), ("manifests at fault", at_fault), ("texts of others", texts), ("kept reports", before),
         ("two launches", two), ("pictures", picture), ("launchers", launchers), ("what changes meanwhile", changes),
         ("a program that misbehaves", misbehaving), ("words", words), ("full disks", disks), ("signals", signals)]


def main() -> int:
    program = program_of(sys.argv[1:])
    # what changes this process's folder comes first, where nothing else runs
    outcomes = at_a_time([("many launches", lambda: many(program))], 1)
    return told(outcomes + at_a_time([(name, lambda look=look: look(program)) for name, look in TRIES]))


if __name__ == "__main__":
    sys.exit(main())
