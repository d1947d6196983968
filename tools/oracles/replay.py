#!/usr/bin/env python3
"""A second opinion: what `rim replay` answers of a listing, and `rim trace` of its launch, by the plainest program that can be
written from docs/FORMATS.md and docs/DEFINITIONS.md.

It shares no code with rim. It keeps a listing whole and every granule of it, so it takes some seconds, and several times the
memory of the file, where the file is large.

usage: replay.py FILE

tests/listings.py and tests/apart.py import it.
"""
import bisect
import re
import sys

import reference

PAGE = reference.PAGE
page_size = reference.page_size

# What each word of a line may be, and the value that it has. A letter is that of the table "The lines of a listing".
# The number of auxiliary granules is part of a word here, since that many addresses come after it.
NUMBER = rb"[0-9]|[1-9][0-9]|1[0-9]{2}|2[0-4][0-9]|25[0-5]"
AUX = b"|".join(b"%d(?: [0-9a-f]{16}){%d}" % (number, number) for number in range(17))
WORDS = {
    "A": (rb"[0-9a-f]{16}", lambda digits: int(digits, 16)),
    "N": (NUMBER, int),
    "M": (rb"[0-9a-f]{128}", lambda digits: bytes.fromhex(digits.decode())),
    "ALGO": (rb"sha256|sha512", bytes.decode),
    "CONTENT": (rb"measured [0-9a-f]{128}|unmeasured", lambda words: WORDS["M"][1](words[9:]) if words[:1] == b"m" else None),
    "AUX": (AUX, lambda words: [int(digits, 16) for digits in words.split(b" ")[1:]]),
}
SPELLED = {
    b"delegate": "A",
    b"realm_create": "A A N N N ALGO A" + " N" * len(reference.NUMBERS) + " M",
    b"rtt_create": "A A N",
    b"init_ripas": "A A",
    b"data_create": "A A CONTENT",
    b"data_unknown": "A A",
    b"rec_create": "A A A A A A A A A A A A AUX",
    b"activate": "",
}
# A first line, with or without a rule for the RECs that are not runnable.
FIRST = re.compile(rb"rim-list (?:1 aux (?P<alone>[0-9]|1[0-6])|2 aux (?P<aux>[0-9]|1[0-6]) rec (?P<rule>all|runnable))")
LAST = re.compile(rb"rim (?:sha256 [0-9a-f]{64}|sha512 [0-9a-f]{128})")

# The words of a trace's line after the name of its command: those of the listing's line but for the granules of the host. The
# other commands measure nothing, and have no line; nor has a REC that is not measured.
TRACED = {"realm_create": slice(3, None), "init_ripas": slice(1, None), "data_create": slice(2, None), "rec_create": slice(2, 13)}


def reader(name, spelled):
    """A pattern that matches all the lines of a command, and for each of its groups what makes a value of it."""
    kinds = spelled.split()
    pattern = b" ".join([name] + [b"(" + WORDS[kind][0] + b")" for kind in kinds])
    return re.compile(pattern), [WORDS[kind][1] for kind in kinds], name.decode()


READERS = {name: reader(name, spelled) for name, spelled in SPELLED.items()}


def command(line):
    """The command that a line spells, as its name and its values; none where it spells none."""
    if (found := READERS.get(line.partition(b" ")[0])) is None:
        return None
    pattern, makers, name = found
    if (words := pattern.fullmatch(line)) is None:
        return None
    return name, [make(word) for make, word in zip(makers, words.groups())]


def start_tables(s2sz):
    """The level of the start tables and their number; none where no realm has this width."""
    if not 32 <= s2sz <= 48:
        return None
    if s2sz <= 34:
        return 2, 1 << (s2sz - 30)
    return (1, 1 << max(0, s2sz - 39)) if s2sz <= 43 else (0, 1)


def down(address, size):
    return address // size * size


class Monitor:
    """A monitor from its start on. Each command answers the KIND by which it is refused, and then changes nothing; or none.

    The checks of a command are in the order of the table "The monitor's commands that build a realm". The rule says which RECs are
    measured: "all", or those that are "runnable". Without a rule, a REC has to be runnable.
    """

    def __init__(self, num_aux, rule=None):
        self.num_aux, self.rule = num_aux, rule
        self.phase = "EMPTY"
        # the owner of each granule that is not UNDELEGATED
        self.owners = {}
        self.num_recs = 0
        self.rim = None

    def are_delegated(self, granules):
        """Whether the granules are DELEGATED, and no two of them are equal."""
        return len(set(granules)) == len(granules) and all(self.owners.get(granule) == "DELEGATED" for granule in granules)

    def walk(self, ipa):
        """The greatest level that has a table covering the address."""
        for level in range(3, self.start, -1):
            if down(ipa, page_size(level - 1)) in self.tables[level]:
                return level
        return self.start

    def meets_ram(self, base, top):
        """Whether an address of this range is RAM. No two ranges of RAM meet, so only the last that begins below `top` may."""
        at = bisect.bisect_left(self.ram, (top, 0)) - 1
        return at >= 0 and self.ram[at][1] > base

    def delegate(self, granule):
        if granule % PAGE:
            return "unaligned"
        if granule in self.owners:
            return "not-undelegated"
        self.owners[granule] = "DELEGATED"

    def realm_create(self, rd, base, level, number, s2sz, algo, flags, *others):
        if self.phase != "EMPTY":
            return "state"
        end = base + number * PAGE
        if flags & ~6 or start_tables(s2sz) != (level, number) or base % (number * PAGE) or end > 1 << 64:
            return "bad-params"
        if rd % PAGE:
            return "unaligned"
        tables = range(base, end, PAGE)
        if not self.are_delegated([rd, *tables]):
            return "not-delegated"
        self.owners.update({rd: "RD"} | dict.fromkeys(tables, "RTT"))
        self.phase, self.algo, self.start, self.protected_end = "NEW", algo, level, 1 << (s2sz - 1)
        # the tables below the start tables, by level and first address; the ranges of RAM, rising; the pages with data
        self.tables, self.ram, self.assigned = {level: set() for level in range(4)}, [], set()
        # the others are the numbers, and last the Realm Personalization Value, which is not measured
        numbers = dict(zip(reference.NUMBERS, others))
        page = reference.realm_page(numbers | {"algo": algo, "s2sz": s2sz, "sve": flags & 2, "pmu": flags & 4})
        self.rim = reference.Measurement(algo, page)

    def rtt_create(self, rtt, ipa, level):
        if self.phase == "EMPTY":
            return "state"
        if not self.start + 1 <= level <= 3:
            return "bad-params"
        if rtt % PAGE or ipa % page_size(level - 1):
            return "unaligned"
        if ipa >= self.protected_end:
            return "outside-protected"
        if self.walk(ipa) != level - 1:
            return "walk-level"
        if not self.are_delegated([rtt]):
            return "not-delegated"
        self.owners[rtt] = "RTT"
        self.tables[level].add(ipa)

    def init_ripas(self, base, top):
        if self.phase != "NEW":
            return "state"
        if top <= base:
            return "bad-params"
        if base % PAGE or top % PAGE:
            return "unaligned"
        if top > self.protected_end:
            return "outside-protected"
        level = self.walk(base)
        entry, table = page_size(level), 512 * page_size(level)
        if base % entry or top % entry or top > down(base, table) + table:
            return "walk-level"
        # a table of a still deeper level is in one of the next level, and that begins in the range too
        if self.meets_ram(base, top) or level < 3 and any(at in self.tables[level + 1] for at in range(base, top, entry)):
            return "not-fresh"
        bisect.insort(self.ram, (base, top))
        for at in range(base, top, entry):
            self.rim.ripas(at, at + entry)

    def assign(self, granule, ipa):
        """Puts a granule at a page, as both commands for data do after the checks of their own."""
        if granule % PAGE or ipa % PAGE:
            return "unaligned"
        if ipa >= self.protected_end:
            return "outside-protected"
        if self.walk(ipa) != 3:
            return "walk-level"
        if not self.meets_ram(ipa, ipa + PAGE):
            return "not-ram"
        if ipa in self.assigned:
            return "assigned"
        if not self.are_delegated([granule]):
            return "not-delegated"
        self.owners[granule] = "DATA"
        self.assigned.add(ipa)

    def data_create(self, granule, ipa, content):
        if self.phase != "NEW":
            return "state"
        if self.algo == "sha256" and content and any(content[32:]):
            return "bad-params"
        if refused := self.assign(granule, ipa):
            return refused
        self.rim.data(ipa, content)

    def data_unknown(self, granule, ipa):
        # accepted of a realm that is ACTIVE too; nothing is measured
        return "state" if self.phase == "EMPTY" else self.assign(granule, ipa)

    def is_measured(self, flags):
        """Whether a REC with these flags is measured."""
        return flags == 1 or self.rule == "all"

    def rec_create(self, rec, flags, mpidr, pc, *rest):
        *gprs, aux = rest
        if self.phase != "NEW":
            return "state"
        if flags & ~1 or flags == 0 and self.rule is None or mpidr & ~0xFFFF_FF0F:
            return "bad-params"
        if any(granule % PAGE for granule in [rec, *aux]):
            return "unaligned"
        aff0, aff1, aff2, aff3 = mpidr & 15, mpidr >> 8 & 255, mpidr >> 16 & 255, mpidr >> 24 & 255
        if aff0 + 16 * aff1 + 4096 * aff2 + 1048576 * aff3 != self.num_recs:
            return "rec-index"
        if len(aux) != self.num_aux:
            return "aux-count"
        if not self.are_delegated([rec, *aux]):
            return "not-delegated"
        self.owners.update({rec: "REC"} | dict.fromkeys(aux, "REC_AUX"))
        self.num_recs += 1
        if self.is_measured(flags):
            self.rim.rec(self.rim.hash(reference.rec_page({"pc": pc, "x": gprs, "runnable": flags == 1}, 0, 0, 0)))

    def activate(self):
        if self.phase != "NEW":
            return "state"
        self.phase = "ACTIVE"

    def last_line(self):
        """The last line of a listing that leads to the realm that there is; none where there is no realm."""
        if self.rim is not None:
            return f"rim {self.algo} {self.rim.value[: 32 if self.algo == 'sha256' else 64].hex()}".encode()


def monitor_of(line):
    """The monitor that a first line speaks of; none where the line is no first one."""
    if found := FIRST.fullmatch(line):
        return Monitor(int(found["alone"] or found["aux"]), found["rule"] and found["rule"].decode())


def replayed(listing):
    """The answer, and the monitor after the last command that it took; none where the first line is no first one."""
    *lines, rest = listing.split(b"\n")
    monitor = monitor_of(lines[0]) if lines else None
    if monitor is None:
        return "no line 1", None
    for number, line in enumerate(lines[1:], 2):
        if found := command(line):
            name, values = found
            if kind := getattr(monitor, name)(*values):
                return f"no refused {number} {kind}", monitor
        elif LAST.fullmatch(line) is None:
            return f"no line {number}", monitor
        elif line != monitor.last_line():
            return "no wrong-rim", monitor
        else:
            return "yes" if number == len(lines) and not rest else f"no line {number + 1}", monitor
    return f"no line {len(lines) + 1}", monitor


def replay(listing):
    """What `rim replay` prints of a file with these bytes, without the newline."""
    return replayed(listing)[0]


def trace(listing):
    """What `rim trace` prints of the launch that has this listing, as lines. The listing is one, line by line."""
    monitor, traced = monitor_of(listing[0].encode()), []
    for line in listing[1:-1]:
        name, values = command(line.encode())
        getattr(monitor, name)(*values)
        if name in TRACED and (name != "rec_create" or monitor.is_measured(values[1])):
            digits = monitor.last_line().decode().rpartition(" ")[2]
            traced.append(" ".join([digits, name, *line.split(" ")[TRACED[name]]]))
    return traced


def main():
    if len(sys.argv) != 2:
        raise SystemExit("usage: replay.py FILE")
    with open(sys.argv[1], "rb") as file:
        answer = replay(file.read())
    print(answer)
    return int(answer != "yes")


if __name__ == "__main__":
    sys.exit(main())
