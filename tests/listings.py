#!/usr/bin/env python3
"""Gives the built program bad listings and large ones, and compares what `rim replay` answers with what is expected: the line, the
status, and nothing on standard error.

    tests/listings.py [PROGRAM]        by default the program that `rt ci` has built

Four listings are changed in each of their places: bytes, words, lines. Others are made of commands at random. What is expected of
each is the answer of tools/oracles/replay.py, a replay of its own. Each kind of change of one listing is a test.

Each large listing is a test too. Its answer is known, and its run has limits on processor time and memory.

The last line is 'N passed, M failed' over the tests.
"""
import concurrent.futures
import os
import random
import re
import resource
import subprocess
import sys
import tempfile

from helpers import PATIENCE, SECONDS
from helpers.rows import difference, write as write_files
from helpers.tries import program_of, told

import reference
import replay

NEWLINE = b"\n"
PAGE = replay.PAGE
MB = 1 << 20
FILE_LIMIT = 268_435_456
# The changes and the commands at random follow from these numbers.
SEEDS = range(500)
# The listings that a process is given at a time, and those that are shown of a test that fails.
PART, SHOWN = 200, 5
# The bytes of memory that a replay may take beside its file.
MEMORY = 100 * MB
# The bytes at the end of a large listing in which the lines of its last page are.
TAIL = 4096

FILE = "rim_manifest = 2\nfile = [{name = 'one', path = 'one'}]\n"
# A page that is not measured and one that is unknown, in a block of 1 GiB.
TWO_PAGES = """
[[launch]]
name = "a"
algo = "sha256"
s2sz = 40
block_level = 1
ram = [[0x40000000, 0xc0000000]]
item = [{name = 'one', kind = 'raw', file = 'one', at = 0x40000000, measured = false}, {name = 'log', kind = 'unknown', at = 0x40001000, size = 1}]
"""
# A page that is measured there, and a REC.
ONE_REC = """
[[launch]]
name = "a"
algo = "sha256"
s2sz = 40
block_level = 1
ram = [[0x40000000, 0xc0000000]]
item = [{name = 'one', kind = 'raw', file = 'one', at = 0x40000000}]
rec = [{pc = 0x40000000}]
"""
# RAM of two levels, four start tables, a page that is not measured, and two RECs with auxiliary granules.
TWO_RECS = f"""
[[launch]]
name = "a"
algo = "sha512"
s2sz = 32
sve = true
sve_vl = 3
pmu = true
pmu_num_ctrs = 8
num_bps = 16
num_wps = 100
num_aux = 2
rpv = "{'0123456789abcdef' * 8}"
ram = [[0x40000000, 0x40202000]]
item = [{{name = 'one', kind = 'raw', file = 'one', at = 0x40000000, measured = false}}]
rec = [{{pc = 0x40000000, x = [1, "0xfedcba9876543210"]}}, {{pc = 0x40001000}}]
"""
# A REC that is not runnable between two that are, and a rule by which it is not measured.
A_RULE = """
[[launch]]
name = "a"
algo = "sha256"
s2sz = 36
num_aux = 1
rec_rule = "runnable"
rec = [{}, {pc = 0x40000000, runnable = false}, {pc = 0x40001000}]
"""
LAUNCHES = {"two pages": TWO_PAGES, "one REC": ONE_REC, "two RECs": TWO_RECS, "a rule": A_RULE}
# The rules of a first line.
RULES = ("all", "runnable")
# As many pages as a launch may have.
MANY_PAGES = """
[[launch]]
name = "a"
algo = "sha256"
s2sz = 40
ram = [[0x40000000, 0x140000000]]
item = [{name = 'one', kind = 'raw', file = 'one', at = 0x40000000, size = 0x100000000}]
"""


def digits(number):
    """A number of 64 bits, as a listing has it."""
    return b"%016x" % (number % (1 << 64))


def addresses(text):
    """The words of a listing that are numbers of 64 bits, each once."""
    return list(dict.fromkeys(re.findall(rb"\b[0-9a-f]{16}\b", text)))


def put(parts, at, *new):
    """Parts with others in the place of one."""
    return [*parts[:at], *new, *parts[at + 1 :]]


# ---- changes of a listing: what is changed, and the listing then


def prefixes(text):
    for end in range(len(text)):
        yield f"the first {end} bytes", text[:end]


def bytes_changed(text):
    for at, old in enumerate(text):
        for new in ((old + 1) % 256, ord("0"), ord("\n"), bytes([old]).swapcase()[0], (ord(" "), 0xFF)[at % 2]):
            yield f"byte {at} changed to {new:#04x}", text[:at] + bytes([new]) + text[at + 1 :]


def bytes_removed(text):
    for at in range(len(text)):
        yield f"byte {at} removed", text[:at] + text[at + 1 :]


def bytes_added(text):
    for at in range(len(text) + 1):
        new = b"0\n "[at % 3]
        yield f"{new:#04x} added before byte {at}", text[:at] + bytes([new]) + text[at:]


def lines_dropped(text):
    lines = text.splitlines(True)
    for at in range(len(lines)):
        yield f"line {at + 1} dropped", b"".join(put(lines, at))


def lines_twice(text):
    lines = text.splitlines(True)
    for at, line in enumerate(lines):
        for place, other in enumerate(lines):
            yield f"line {at + 1} once more after line {place + 1}", b"".join(put(lines, place, other, line))


def lines_exchanged(text):
    lines = text.splitlines(True)
    for high, line in enumerate(lines):
        for low in range(high):
            yield f"lines {low + 1} and {high + 1} exchanged", b"".join(put(put(lines, low, line), high, lines[low]))


def other_words(word, known):
    """Words to be put in the place of a word: of its kind, at the ends of what it may be, and past them."""
    if re.fullmatch(rb"[0-9a-f]{16}", word):
        numbers = [0, 1, 2, 6, 8, 1 << 31, 1 << 32, 1 << 39, 1 << 63, -PAGE, -1]
        numbers += [int(word, 16) + step for step in (1, -1, 16, PAGE, -PAGE, 1 << 21, -(1 << 21), 1 << 30, 1 << 39)]
        return known + [digits(number) for number in numbers]
    if word.isdigit() and len(word) < 4:
        numbers = [0, 1, 2, 3, 4, 8, 15, 16, 17, 31, 32, 33, 34, 35, 40, 48, 49, 255, 256, 999, 1 << 64]
        return [b"%d" % number for number in numbers] + [b"00", b"0" + word, b"+" + word, b"-1", b"", b"a"]
    others = [b"sha256", b"sha512", b"measured", b"unmeasured", b"all", b"runnable", b"none"]
    return [*others, word[:-1], word + word, word[::-1], word.upper(), b"0" * len(word), b"f" * len(word)]


def words_changed(text):
    lines, known = text.splitlines(True), addresses(text)
    for at, line in enumerate(lines):
        words = line[:-1].split(b" ")
        for place, word in enumerate(words):
            for new in other_words(word, known):
                changed = b" ".join(put(words, place, new)) + NEWLINE
                yield f"word {place + 1} of line {at + 1} changed to {new}", b"".join(put(lines, at, changed))


def commands_added(text):
    """A command with other words, which may have several faults at once, after some line."""
    lines, known = text.splitlines(True), addresses(text)
    for seed in SEEDS:
        dice = random.Random(seed)
        words = dice.choice(lines[1:-1])[:-1].split(b" ")
        for _ in range(6):
            place = dice.randrange(len(words))
            other = put(words, place, dice.choice(other_words(words[place], known)))
            words = other if replay.command(b" ".join(other)) else words
        at = dice.randrange(len(lines) - 1)
        yield f"{b' '.join(words)} after line {at + 1}", b"".join(put(lines, at, lines[at], b" ".join(words) + NEWLINE))


def other_ends(text):
    *lines, last = text.splitlines(True)
    measurement = last[:-1].split(b" ")[2].ljust(128, b"0")
    for algo, length in ((b"sha256", 64), (b"sha384", 96), (b"sha512", 128)):
        line = b"rim %b %b\n" % (algo, measurement[:length])
        yield f"the last line {line}", b"".join([*lines, line])
    bytes_after = (b"\n", b"\r", b"\0", b" ", b"*", b"\xff", b"\n\n", b"activate", b"activate\n", b"delegate 0000000800010000\n")
    for more in (*bytes_after, last, last[:-1], text):
        yield f"after the last line {len(more)} bytes, {more[:20]}", text + more


def first_lines(text):
    """Other first lines: each version with each number of granules, and with each rule or none."""
    _, rest = text.split(NEWLINE, 1)
    for version in (0, 1, 2, 3):
        for num_aux in range(19):
            for rule in ("", " rec", " rec ", " rec none", " all", *(f" rec {rule}" for rule in RULES), " rec all runnable", " rec all ", " REC all"):
                line = f"rim-list {version} aux {num_aux}{rule}"
                yield f"the first line {line!r}", line.encode() + NEWLINE + rest


def line_ends(text):
    for old, new in ((b"\n", b"\r\n"), (b"\n", b"\n\r"), (b"\n", b"\r"), (b"\n", b"\n\n"), (b"\n", b"\0"), (b" ", b"\t"), (b" ", b"  ")):
        yield f"each {old} changed to {new}", text.replace(old, new)
    lines = text.splitlines(True)
    for at, line in enumerate(lines):
        for end in (b"\r\n", b" \n", b"\0\n"):
            yield f"{end} at the end of line {at + 1}", b"".join(put(lines, at, line[:-1] + end))


def changed_once(dice, text):
    """A listing with one thing changed at random."""
    lines = text.splitlines(True) or [NEWLINE]
    at, other = dice.randrange(len(lines)), dice.randrange(len(lines))
    line, words = lines[at], lines[at].removesuffix(NEWLINE).split(b" ")
    others = put(lines, at) or [NEWLINE]
    place, step = dice.randrange(len(line)), dice.choice([PAGE, -PAGE, 1 << 21, 1])
    word, after = dice.choice(lines[other].removesuffix(NEWLINE).split(b" ")), dice.randrange(len(others))
    return b"".join(dice.choice([
        put(lines, at),
        put(lines, other, lines[other], line),
        put(others, after, others[after], line),
        put(lines, at, b" ".join(put(words, dice.randrange(len(words)), word)) + NEWLINE),
        put(lines, at, re.sub(rb"\b[0-9a-f]{16}\b", lambda found: digits(int(found[0], 16) + step), line, count=1)),
        put(lines, at, line[:place] + dice.choice([b"0", b"1", b"f", b" ", NEWLINE]) + line[place + 1 :]),
    ]))


def several_changes(text):
    for seed in SEEDS:
        dice, changed = random.Random(seed), text
        for _ in range(dice.randrange(2, 5)):
            changed = changed_once(dice, changed)
        yield f"the changes of random.Random({seed})", changed


def made_right(text):
    """Changed listings whose commands a monitor takes, with the last line to which these lead."""
    for kind in (words_changed, first_lines, lines_dropped, lines_exchanged, several_changes):
        for what, changed in kind(text):
            answer, monitor = replay.replayed(changed)
            if answer == "no wrong-rim" and monitor.last_line():
                yield f"{what}, and the last line made right", b"".join(changed.splitlines(True)[:-1]) + monitor.last_line() + NEWLINE


KINDS = {
    "the beginning alone": prefixes,
    "a byte changed": bytes_changed,
    "a byte removed": bytes_removed,
    "a byte added": bytes_added,
    "a line dropped": lines_dropped,
    "a line given twice": lines_twice,
    "two lines exchanged": lines_exchanged,
    "a word changed": words_changed,
    "a command added": commands_added,
    "other first lines": first_lines,
    "other ends": other_ends,
    "other line ends and spaces": line_ends,
    "several changes at random": several_changes,
    "a change, and the last line made right": made_right,
}
# What is known of a kind of change without a replay.
ANSWERS = {"the beginning alone": lambda text: f"no line {text.count(NEWLINE) + 1}"}


# ---- listings of other commands


class Commands:
    """The lines of commands that are given to a monitor."""

    def __init__(self, num_aux, rule=None):
        first = f"rim-list 2 aux {num_aux} rec {rule}" if rule else f"rim-list 1 aux {num_aux}"
        self.monitor, self.lines = replay.Monitor(num_aux, rule), [first.encode()]

    def give(self, *words, keep=True):
        """Gives the monitor a command. One that it refuses is kept in the lines only where that is asked for."""
        line = b" ".join(word if isinstance(word, bytes) else digits(word) for word in words)
        command = replay.command(line)
        refused = getattr(self.monitor, command[0])(*command[1]) if command else "no line"
        if keep or not refused:
            self.lines.append(line)
        return refused

    def realm(self, base, level, number, s2sz, algo=b"sha256", flags=0):
        for granule in [0, *range(base, base + number * PAGE, PAGE)]:
            self.give(b"delegate", granule)
        numbers = [b"%d" % part for part in (level, number, s2sz)]
        self.give(b"realm_create", 0, base, *numbers, algo, flags, b"1", b"2", b"3", b"4", b"5" * 128)

    def listing(self):
        return NEWLINE.join([*self.lines, self.monitor.last_line() or b"rim sha256 " + b"0" * 64, b""])


def start_tables():
    """Realms of each width with start tables of each level and number, the right ones at several addresses."""
    for s2sz in range(31, 50):
        for level, number in [(level, 1 << more) for level in range(4) for more in range(5)]:
            size = number * PAGE
            is_right = replay.start_tables(s2sz) == (level, number)
            for base in [1 << 35, *([1 << 63, 3 * size, (1 << 35) + size // 2, -size, -size // 2] if is_right else [])]:
                commands = Commands(0)
                commands.realm(base, level, number, s2sz)
                yield f"{s2sz} bits, {number} start tables of level {level} at {base:#x}", commands.listing()


def auxiliary_granules():
    """A REC with each number of auxiliary granules, of monitors with one number or another. Each third one is the second REC."""
    for num_aux in (0, 1, 2, 15, 16):
        for count in range(19):
            commands = Commands(num_aux)
            commands.realm(1 << 35, 2, 4, 32)
            rec, *aux = range(1 << 20, (1 << 20) + 20 * PAGE, PAGE)
            for granule in [rec, *aux]:
                commands.give(b"delegate", granule)
            commands.give(b"rec_create", rec, 1, int(count % 3 == 2), *[0] * 9, b"%d" % count, *aux[:count])
            yield f"{count} auxiliary granules, and {num_aux} of the monitor", commands.listing()


def flags_of_recs():
    """A REC with each of some flags, and a REC after it, by each rule and without one."""
    for rule in (None, *RULES):
        for flags in [*range(9), *(1 << bit for bit in range(4, 64)), (1 << 63) + 1, (1 << 64) - 2, (1 << 64) - 1]:
            for after in (0, 1):
                commands = Commands(1, rule)
                commands.realm(1 << 35, 2, 4, 32)
                for number, word in enumerate((flags, after)):
                    rec, aux = ((1 << 20) + (2 * number + part) * PAGE for part in (0, 1))
                    commands.give(b"delegate", rec)
                    commands.give(b"delegate", aux)
                    commands.give(b"rec_create", rec, word, number, 0x4000_0000 + number, *[number] * 8, b"1", aux)
                commands.give(b"activate")
                yield f"a REC with the flags {flags:#x} and one with {after}, by the rule {rule}", commands.listing()


def at_random(dice, monitor):
    """The words of a command that a monitor may take."""
    delegated = [granule for granule, owner in monitor.owners.items() if owner == "DELEGATED"]
    granule = lambda: dice.choice(delegated if dice.random() < 0.95 else list(monitor.owners))
    what = dice.randrange(11)
    if what == 0 or len(delegated) < 4:
        return b"delegate", dice.randrange(1000) * PAGE
    places = [0, *(base for base, _ in monitor.ram), *(base for tables in monitor.tables.values() for base in tables)]
    level = dice.randrange(monitor.start, 4)
    entry = replay.page_size(level)
    ipa = (dice.choice(places) // entry + dice.choice([-1, 0, 1, 1, 2, 511])) * entry
    if what < 4:
        return b"rtt_create", granule(), ipa, b"%d" % (level + 1)
    if what < 6:
        return b"init_ripas", ipa, ipa + dice.choice([1, 1, 2, 3]) * entry
    if what < 9:
        content = dice.randbytes(32) + (bytes(32) if monitor.algo == "sha256" and dice.random() < 0.9 else dice.randbytes(32))
        ipa = dice.choice(places) + dice.choice([0, 1, 2]) * PAGE
        return b"data_create", granule(), ipa, dice.choice([b"unmeasured", b"measured " + content.hex().encode()])
    if what < 10:
        return b"data_unknown", granule(), dice.choice(places) + dice.choice([0, 1, 2]) * PAGE
    number = monitor.num_recs if dice.random() < 0.8 else dice.randrange(40)
    aux = [granule() for _ in range(monitor.num_aux if dice.random() < 0.9 else dice.randrange(4))]
    registers = [dice.randrange(1 << 64) for _ in range(9)]
    flags = dice.choice([1, 1, 0, 0, 0]) if dice.random() < 0.95 else dice.choice([2, 3, 1 << 63])
    return b"rec_create", granule(), flags, number % 16 + 256 * (number // 16), *registers, b"%d" % len(aux), *aux


def commands_at_random():
    """Commands that a monitor takes, some of them after `activate`, and then sometimes one that it refuses."""
    for seed in SEEDS:
        dice = random.Random(seed)
        commands, s2sz = Commands(dice.choice([0, 0, 1, 2]), dice.choice([None, *RULES])), dice.choice([32, 34, 36, 40, 44, 48])
        commands.realm(1 << 35, *replay.start_tables(s2sz), s2sz, dice.choice([b"sha256", b"sha512"]), dice.choice([0, 2, 4, 6]))
        activation = dice.choice([150, None])
        for number in range(200):
            keep = dice.random() < 0.005
            words = (b"activate",) if number == activation else at_random(dice, commands.monitor)
            if commands.give(*words, keep=keep) and keep:
                break
        yield f"the commands of random.Random({seed})", commands.listing()


OTHERS = {
    "start tables": start_tables,
    "auxiliary granules": auxiliary_granules,
    "flags of RECs": flags_of_recs,
    "commands at random": commands_at_random,
}


# ---- what the program answers of these


def write(folder, launch, text=b""):
    write_files(folder, {"one": b"*", "manifest.toml": (FILE + launch).encode(), "listing": text})


def listing(launch):
    """The listing of a launch, by tools/oracles/reference.py."""
    with tempfile.TemporaryDirectory() as folder:
        write(folder, launch)
        manifest, files = reference.read_manifest("manifest.toml", folder)
    return "".join(line + "\n" for line in reference.measure(manifest["launch"][0], files, set())[1]).encode()


def outcome(words, folder):
    """The status, the output and the faults of a run."""
    try:
        ran = subprocess.run(words, cwd=folder, stdin=subprocess.DEVNULL, capture_output=True, timeout=SECONDS, check=False)
    except subprocess.TimeoutExpired:
        return None, b"", b"no end in time"
    return ran.returncode, ran.stdout, ran.stderr


def expected(answer):
    """The outcome of a replay with this answer."""
    return int(answer != "yes"), answer.encode() + NEWLINE, b""


def differences(known, found):
    return [] if found == known else [f"expected {known}, found {found}"]


def compare_printed(program, launch, text):
    """How what `rim list` prints of a launch differs from this listing, and the answer of its replay from `yes`, as lines."""
    with tempfile.TemporaryDirectory() as folder:
        write(folder, launch, text)
        wrong = difference("what `rim list` prints", text, outcome([program, "list", "manifest.toml", "a"], folder)[1])
        wrong += differences(expected("yes"), outcome([program, "replay", "listing"], folder))
    return wrong + differences("yes", replay.replay(text))


def compare(program, kind, listings):
    """How the answers of listings differ from those of tools/oracles/replay.py, as lines."""
    wrong = []
    with tempfile.TemporaryDirectory() as folder:
        for what, text in listings:
            with open(os.path.join(folder, "listing"), "wb") as file:
                file.write(text)
            answer = replay.replay(text)
            each = differences(expected(answer), outcome([program, "replay", "listing"], folder))
            if kind in ANSWERS:
                each += [f"tools/oracles/replay.py: {line}" for line in differences(ANSWERS[kind](text), answer)]
            wrong += [f"{what}: {line}" for line in each]
    return wrong


def small_listings(program):
    """The tests of small listings: the name of each, and its differences."""
    waiting = []
    with concurrent.futures.ProcessPoolExecutor(len(os.sched_getaffinity(0))) as pool:

        def give(name, kind, listings):
            # each listing once, with the last of the changes that lead to it
            different = [(what, text) for text, what in {text: what for what, text in listings}.items()]
            parts = [different[at : at + PART] for at in range(0, len(different), PART)]
            waiting.append((f"{name}, {len(different)} times", [pool.submit(compare, program, kind, part) for part in parts]))

        for name, launch in LAUNCHES.items():
            text = listing(launch)
            waiting.append((f"{name}: as `rim list` prints it", [pool.submit(compare_printed, program, launch, text)]))
            for kind, changes in KINDS.items():
                give(f"{name}: {kind}", kind, ((what, changed) for what, changed in changes(text) if changed != text))
        for kind, listings in OTHERS.items():
            give(kind, kind, listings())
        for name, parts in waiting:
            yield name, [line for part in parts for line in part.result()]


# ---- large listings


def tables_and_runs():
    """Commands that make a table for each second block of 2 MiB, and then RAM of each block between two of them."""
    granule, gib, block, end = 1 << 36, 1 << 30, 1 << 21, 1 << 39
    tables = [(base, 2) for base in range(0, end, gib)] + [(base, 3) for base in range(0, end, 2 * block)]
    for at, (base, level) in zip(range(granule, 2 * granule, PAGE), tables):
        yield b"delegate %016x\nrtt_create %016x %016x %d\n" % (at, at, base, level)
    for base in range(block, end, 2 * block):
        yield b"init_ripas %016x %016x\n" % (base, base + block)


def large_listings():
    """Large listings: what each is, its parts, the answer, and how many seconds of processor time a replay may take."""
    lines = listing(ONE_REC).splitlines(True)
    long, rec, many = b"0" * MB, b" ".join(lines[13].split(b" ")[:13]), b" 0000000800007000" * 61_680
    yield "a first line of 1 MB", [b"rim-list 1 aux ", long, NEWLINE, *lines[1:]], "no line 1", 0.3
    yield "a first line with a rule of 1 MB", [b"rim-list 2 aux 0 rec ", long, NEWLINE, *lines[1:]], "no line 1", 0.3
    yield "a line of 1 MB", [*lines[:7], b"delegate ", long, NEWLINE, *lines[8:]], "no line 8", 0.3
    yield "a last line of 1 MB", [*lines[:15], b"rim sha256 ", long, NEWLINE], "no line 16", 0.3
    yield "61,680 addresses after `16`", [*lines[:13], rec, b" 16", many, NEWLINE, *lines[14:]], "no line 14", 0.3
    yield "61,680 auxiliary granules", [*lines[:13], rec, b" 61680", many, NEWLINE, *lines[14:]], "no line 14", 0.3
    yield "1 MB without a newline", [long], "no line 1", 0.3
    yield "1 MB without a newline after the commands", [*lines[:15], long], "no line 16", 0.3
    yield "10,000,000 lines `activate`", [lines[0], *[b"activate\n" * 1_000_000] * 10], "no refused 2 state", 1
    yield "10,000,000 newlines after the last line", [*lines, *[NEWLINE * 1_000_000] * 10], "no line 17", 1
    yield "131,072 tables and as many runs", [*lines[:5], *tables_and_runs()], "no line 394246", 2
    yield "a file of the greatest size", [bytes(MB)] * (FILE_LIMIT // MB), "no line 1", 2


def cost(words, folder, output):
    """The outcome of a run, whose output is also a file of that name, its seconds of processor time, and its most bytes of memory.

    A run begins with the memory of this process, so this one holds no large listing."""
    limit = lambda: resource.setrlimit(resource.RLIMIT_CPU, (SECONDS, SECONDS))
    with open(os.path.join(folder, output), "w+b") as out, tempfile.TemporaryFile() as faults:
        child = subprocess.Popen(words, cwd=folder, stdin=subprocess.DEVNULL, stdout=out, stderr=faults, preexec_fn=limit)
        _, status, usage = os.wait4(child.pid, 0)
        child.returncode = os.waitstatus_to_exitcode(status)
        out.seek(0)
        faults.seek(0)
        return (child.returncode, out.read(PAGE), faults.read(PAGE)), usage.ru_utime + usage.ru_stime, usage.ru_maxrss * 1024


def compare_large(program, folder, known, seconds):
    """How the replay of the file `listing` differs from what is expected, as lines."""
    seconds *= PATIENCE
    found, seconds_used, memory_used = cost([program, "replay", "listing"], folder, "output")
    memory = os.path.getsize(os.path.join(folder, "listing")) + MEMORY
    wrong = differences(known, found)
    if seconds_used > seconds:
        wrong.append(f"it takes {seconds_used:.2f} s, expected at most {seconds:.2f} s")
    if memory_used > memory:
        wrong.append(f"it takes {memory_used} bytes of memory, expected at most {memory}")
    return wrong


def large_tests(program):
    """The tests of large listings: the name of each, and its differences."""
    with tempfile.TemporaryDirectory() as folder:
        path = os.path.join(folder, "listing")
        for name, parts, answer, seconds in large_listings():
            with open(path, "wb") as file:
                file.writelines(parts)
            yield name, compare_large(program, folder, expected(answer), seconds)
        os.truncate(path, FILE_LIMIT + 1)
        yield "a file of a byte more", compare_large(program, folder, (3, b"", b"rim: file-too-large\n"), 2)


def pages_tests(program):
    """The tests of the listing of a launch with as many pages as there may be.

    Places of it are changed one after the other, the last one first, so that the change just made is the first fault."""
    with tempfile.TemporaryDirectory() as folder:
        write(folder, MANY_PAGES)
        listed, seconds, _ = cost([program, "list", "manifest.toml", "a"], folder, "listing")
        if listed[0] != 0:
            yield "1,048,576 pages: as `rim list` prints them", [f"expected the status 0, found {listed}"]
            return
        seconds = 1.3 * seconds + 0.3
        with open(os.path.join(folder, "listing"), "r+b", buffering=0) as file:
            lines = sum(part.count(NEWLINE) for part in iter(lambda: file.read(MB), b""))
            end = file.seek(-TAIL, os.SEEK_END)
            tail = file.read()

            def changed(place, byte):
                file.seek(end + place)
                file.write(byte)

            yield "1,048,576 pages", compare_large(program, folder, expected("yes"), seconds)
            changed(TAIL - 2, b"1" if tail[-2:-1] == b"0" else b"0")
            yield "1,048,576 pages: the last digit changed", compare_large(program, folder, expected("no wrong-rim"), seconds)
            changed(tail.rindex(b"activate"), b"A")
            yield "1,048,576 pages: the last command changed", compare_large(program, folder, expected(f"no line {lines - 1}"), seconds)
            changed(tail.rindex(b"data_create") + len(b"data_create "), b"1")
            refused = expected(f"no refused {lines - 2} not-delegated")
            yield "1,048,576 pages: the granule of the last one changed", compare_large(program, folder, refused, seconds)


def main():
    program = program_of(sys.argv[1:])
    return told((each for tests in (small_listings, large_tests, pages_tests) for each in tests(program)), SHOWN)


if __name__ == "__main__":
    sys.exit(main())
