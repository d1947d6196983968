#!/usr/bin/env python3
"""Refuses memory, the start of workers, files and the output, one call of the C library after the other, and looks at what comes.

    tests/starved.py [PROGRAM [CALLS]]        by default crates/rim/out/rim and crates/rim_starved/out/rim_starved

- Each public call that takes memory, by the program of crates/rim_starved: with its first request for memory refused, its second,
  and so on until none is left. It has to answer as with ample memory, or want of memory; in the second case what it works on
  answers as before, no job of a run was begun, and the same call then answers as with ample memory.
- A run of three workers, with the start of each refused in turn, and of both: the same report, by fewer workers.
- `rim measure` of a release with a file: with each request for memory refused, each file not opened, and each read and each write
  failed; and each read interrupted 1,023 and 1,024 times in a row. How it has to end is said in tools/oracles/failing.py.

For each call a line has how many requests were refused, and what came of them. The last line is 'N passed, M failed' over these.
"""
import collections
import concurrent.futures
import os
import sys
import tempfile

from helpers import TOP, manifests
from helpers.tries import program_of, told

import failing
from refusing import Refused, Refuser

ITEM = 'item = [{ name = "x", kind = "raw", file = "f", at = 0x40000000 }]'


def launch(name, algo="sha256", more=""):
    return manifests.launch(name, more, algo=algo)


def release(size, *launches, **files):
    """A manifest of a file, which has so many bytes, and of launches. Such a file is made by whoever reads the path."""
    return manifests.manifest(*launches, files={"f": str(size)} | files, version=2)


RAM = "ram = [[0x40000000, 0x40200000]]\n"
TWO = RAM + 'item = [{ name = "x", kind = "raw", file = "f", at = 0x40000000 }, { name = "y", kind = "raw", file = "f", at = 0x40000000 }]'
# Launches that begin alike. They have enough commands that an audit keeps a copy of its monitor.
ALIKE = "ram = [[0x40000000, 0x40600000]]\nblock_level = 3\n" + ITEM
ALL_KINDS = """ram = [[0x40000000, 0x40400000]]
item = [
    { name = "tree", kind = "dtb", file = "tree", at = 0x40200000, bootargs = "quiet", memory = true, initrd = true },
    { name = "initrd", kind = "initrd", file = "f", at = 0x40000004 },
    { name = "log", kind = "unknown", at = 0x40010000, size = 0x2000 },
]
rec = [{}, { runnable = false }]
rec_rule = "runnable"
"""
RELEASES = {
    "two GiB of RAM": release(4096, """[[launch]]
name = "wide"
algo = "sha256"
s2sz = 40
block_level = 1
ram = [[0x40000000, 0xc0000000]]
item = [{ name = "x", kind = "raw", file = "f", at = 0x40000000, measured = false }]
"""),
    "both algorithms": release(8192, launch("a", more=RAM + ITEM), launch("b", "sha512", RAM + ITEM)),
    "one algorithm": release(8192, launch("a", more=RAM + ITEM), launch("b", more=RAM + ITEM)),
    "a page twice": release(4096, launch("a"), launch("b", more=TWO), launch("c")),
    "alike": release(600 * 4096, launch("a", more=ALIKE), launch("b", more=ALIKE + "\nrec = [{}]"), launch("c", more=ALIKE + "\nrec = [{}, {}]")),
    "all kinds": release(5000, launch("a", more=ALL_KINDS), tree="tree"),
}
# Releases whose first launch is refused.
REFUSED = {
    "a list that is refused": release(4096, launch("a", more="pool_count = 9\n" + RAM + ITEM)),
    "a launch that is not laid out": release(4096, launch("a", more=TWO)),
}
FAULTY = "rim_manifest = 1\nfile = [{ name = 3 }]\n[[launch]]\nname = \"a b\"\nalgo = \"sha384\"\ns2sz = 49\n"
# A root without anything in it, and one with a node `chosen` whose one property `bootargs` is `quiet` and a zero byte.
EMPTY = bytes.fromhex("d00dfeed 00000048 00000038 00000048 00000028 00000011 00000010 00000000 00000000 00000010" + "00000000" * 4 + "00000001 00000000 00000002 00000009")
CHOSEN = bytes.fromhex(
    "d00dfeed 00000075 00000038 0000006c 00000028 00000011 00000010 00000000 00000009 00000034" + "00000000" * 4
    + "00000001 00000000 00000001 63686f73 656e0000 00000003 00000006 00000000 71756965 74000000 00000002 00000002 00000009 626f6f74 61726773 00"
)
IMAGE = bytes(56) + bytes.fromhex("41524d64") + bytes(4)
WORDS = {
    "words": "rim\nmeasure\n--workers\n7\nmanifest.toml\n",
    "wrong words": "rim\nmeasure\n--workers\n65\nmanifest.toml\n",
}

# What each call is given. All calls that the program names are here.
BYTES = {
    "fdt_tree::read": ["an empty root", "a node"], "Tree::set": ["an empty root", "a node"], "Tree::set_memory": ["an empty root", "a node"],
    "Tree::write": ["an empty root", "a node"], "show_fdt": ["an empty root", "a node"], "show_image": ["an Image"],
    "command": list(WORDS),
    **{call: ["listing of two GiB of RAM", "listing of all kinds"] for call in ("replay", "Monitor::apply", "Monitor::try_clone", "print_line")},
    "read_manifest": ["two GiB of RAM", "both algorithms", "a page twice", "all kinds", "a faulty manifest"],
    "check_manifest": ["two GiB of RAM", "both algorithms", "a page twice", "all kinds", "a faulty manifest"],
    "mark_first": ["a faulty manifest"], "check_json": ["a faulty manifest"],
    **{call: ["two GiB of RAM", "both algorithms", "all kinds"] for call in ("place", "list", "LaunchPlan::read", "audit", "listing", "trace")},
    "Tables::ripas_runs": ["both algorithms"], "Tables::data_pages": ["both algorithms"], "Core::new": ["both algorithms"],
    **{call: ["both algorithms", "all kinds"] for call in ("Table::reserve", "DigestRow::reserve", "BoardState::new")},
    **{call: list(RELEASES) for call in ("measure_alone", "measure_release", "measure_release/no-waiting", "measure_with_digests", "audit_report")},
    "check_launches": ["both algorithms", "a page twice", "all kinds"],
    "json_report": ["both algorithms", "all kinds", "a list that is refused", "a launch that is not laid out"],
    **{call: ["both algorithms", "all kinds", "a list that is refused", "a launch that is not laid out"] for call in ("map_text", "map_json")},
    "placed_devicetree": ["all kinds"],
}
WORKERS = ["measure_release", "measure_release/no-waiting", "measure_with_digests"]
MANIFESTS = ["read_manifest", "check_manifest"]


def inputs(program, folder):
    """What the calls are given, by its name."""
    given = {name: text.encode() for name, text in {**RELEASES, **REFUSED, **WORDS, "a faulty manifest": FAULTY}.items()}
    given |= {"an empty root": EMPTY, "a node": CHOSEN, "an Image": IMAGE}
    given["all kinds"] += b"\0" + CHOSEN
    for name, first in ("two GiB of RAM", "wide"), ("all kinds", "a"):
        given["listing of " + name] = listing(program, folder, name, first)
    return given


def listing(program, folder, name, first):
    """The listing of the first launch of a release."""
    where = os.path.join(folder, name.replace(" ", "-"))
    put_release(where, name)
    return Refuser.plain([program, "list", "manifest.toml", first], where)


def put_release(where, name):
    """A release with its files, in a folder."""
    os.makedirs(where)
    size = int(RELEASES[name].split('path = "')[1].split('"')[0])
    for path, content in ("manifest.toml", RELEASES[name].encode()), (str(size), b"\x09" * size), ("tree", CHOSEN):
        with open(os.path.join(where, path), "wb") as file:
            file.write(content)


class Trials:
    """What came of a call, with requests refused one after the other."""

    def __init__(self, refuser, calls, number):
        self.refuser, self.calls, self.number = refuser, calls, number
        self.wrong = []

    def run(self, call, given, refused=None):
        """The words after the two lines around the call, and whether a request was refused."""
        end = self.refuser.run([self.calls, call], refused, between=True, number=self.number, input=given)
        lines = end.output.decode().split("\n")
        if end.status != 0 or lines[:2] != ["call", "returned"]:
            return [f"status {end.status}", *lines], end.was_refused
        return lines[2:-1], end.was_refused

    def memory(self, call, name, given):
        """Each request for memory refused."""
        answers = collections.Counter()
        plain, _ = self.run(call, given)
        if plain[-1:] != ["answered"]:
            self.wrong.append(f"{call}, {name}: {plain}")
        for first in range(1, 1_000_000):
            words, was_refused = self.run(call, given, Refused("memory", first))
            if not was_refused:
                return answers
            came_to = words[-1]
            if came_to == "answered" and words != plain:
                came_to = "answered by fewer workers"
            answers[came_to] += 1
            if came_to not in ("answered", "answered by fewer workers", "no-memory"):
                self.wrong.append(f"{call}, {name}, request {first}: {words}")

    def threads(self, call, name, given):
        """The start of each worker refused, and of both."""
        answers = collections.Counter()
        for refused, started in ((1, 1), 2), ((2, 1), 2), ((1, 2), 1):
            words, was_refused = self.run(call, given, Refused("thread", *refused))
            answers[words[-1]] += 1
            if not was_refused or words != [f"{started} started", "answered"]:
                self.wrong.append(f"{call}, {name}, workers {refused}: {words}")
        return answers


def tried(refuser, calls, given, number, call, name):
    """A call on one of its inputs: the lines that say what came of it, and those that are wrong."""
    trials = Trials(refuser, calls, number)
    # a manifest is a text: what comes after a zero byte is a file of it
    content = given[name].split(b"\0")[0] if call in MANIFESTS else given[name]
    answers = trials.memory(call, name, content)
    said = [line_of(f"{call}, {name}", "requests", answers)]
    if answers.total() == 0:
        trials.wrong.append(f"{call}, {name}: no request for memory")
    if call in WORKERS:
        said.append(line_of(f"{call}, {name}", "workers", trials.threads(call, name, content)))
    return said, trials.wrong


def line_of(what, refused, answers):
    return f"{what}: {answers.total()} {refused} refused" + "".join(f", {count} {end}" for end, count in sorted(answers.items()))


def measured(refuser, program, where, kind, count):
    """`rim measure` of a release with its files, with calls of a kind refused."""
    answers, wrong = failing.each_refused(refuser, program, "measure manifest.toml", kind, count, where)
    what = f"rim measure, {kind}" + f", {count} in a row" * (count > 1)
    return [line_of(what, "calls", answers)], wrong


def outcomes(program, calls):
    """Yields each call on each of its inputs, and `rim measure`, with what is wrong. Prints how many requests were refused and how the calls ended."""
    with tempfile.TemporaryDirectory() as folder, concurrent.futures.ThreadPoolExecutor(os.cpu_count()) as pool:
        refuser = Refuser(folder)
        given = inputs(program, folder)
        named = Refuser.plain([calls], folder).decode().split()
        if set(named) != set(BYTES):
            yield "calls without an input, or inputs without a call", sorted(set(named) ^ set(BYTES))
        pairs = [(call, name) for call, names in BYTES.items() for name in names]
        runs = [pool.submit(tried, refuser, calls, given, number, *pair) for number, pair in enumerate(pairs)]
        for (call, name), done in zip(pairs, runs):
            said, wrong = done.result()
            print(*said, sep="\n", flush=True)
            yield f"{call}, {name}", wrong
        where = os.path.join(folder, "measured")
        put_release(where, "both algorithms")
        for kind, count in failing.kinds():
            said, wrong = measured(refuser, program, where, kind, count)
            print(*said, sep="\n", flush=True)
            yield f"rim measure, {kind}, {count}", wrong


def main():
    program, calls = sys.argv[1:2], sys.argv[2] if len(sys.argv) > 2 else os.path.join(TOP, "crates", "rim_starved", "out", "rim_starved")
    return told(outcomes(program_of(program), os.path.abspath(calls)))


if __name__ == "__main__":
    sys.exit(main())
