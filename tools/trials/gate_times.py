#!/usr/bin/env python3
"""Says what each part of a gate from nothing takes: `rt ci --anew`, with one job a check.

    tools/trials/gate_times.py [--lanes N]

Nothing that an earlier run has kept counts, so it takes as long as the gate on an empty machine. N checks run at a time, by default
one for each processor. Let nothing run beside it: two threads of one core slow each other. What `rt ci` says goes to standard error.

Standard output gets a table of the crates, dearest first, in seconds of a processor:

    proof    the crate's own proof, as a library or a program
    made     what the compilers take for a program that is proved
    tests    the proof of its tests, and their compiler
    run      its tests, or its program, when they are run
    seed     the proof once more, which its edits begin with
    edits    all its edits of must-fail/, and how many; then the dearest of these, by name

Then come the sum in minutes of a processor; the longest chain, in minutes, whose steps wait for one another however many processors
there are; and the most memory that a check took. A process is looked at ten times a second, so what it takes after the last look is
missing: what all together took by the system's account stands beside the sum. The status is that of `rt ci`.
"""
import enum
import os
import pathlib
import re
import sys
import time
from collections import Counter
from collections.abc import Iterator
from dataclasses import dataclass, field

TOP = pathlib.Path(__file__).resolve().parents[2]
sys.path.insert(0, str(TOP / "scripts"))

from outside import ending, files, programs, texts  # noqa: E402, the path is set above
from outside.faults import WrongWords  # noqa: E402

# Seconds between two looks at the processes, and the most bytes of crates.txt.
EACH, FILE = 0.1, 1 << 20
MOST_LANES = 64
TICKS = os.sysconf("SC_CLK_TCK")


class Part(enum.Enum):
    """What a process is for, as the table has it."""

    PROOF = "proof"
    MADE = "made"
    TESTS = "tests"
    RUN = "run"
    SEED = "seed"
    EDITS = "edits"
    OTHER = "others"


@dataclass(frozen=True)
class Work:
    """What a process works at: a part of a crate, and the edit where it is one."""

    crate: str
    part: Part
    edit: str = ""


OTHER = Work("", Part.OTHER)


@dataclass
class Spent:
    """What a process has taken when it was looked at last: seconds of a processor, and bytes of memory."""

    work: Work
    seconds: float = 0
    memory: int = 0


def edits_of(crate: str) -> list[str]:
    """The names of a crate's edits that the gate tries, as `rt ci` numbers them."""
    return sorted(path.stem for path in (TOP / "crates" / crate / "must-fail").glob("*.edit"))


def after(words: list[str], option: str) -> str:
    at = words.index(option) + 1 if option in words else len(words)
    return words[at] if at < len(words) else ""


def work_of(words: list[str], folder: str) -> Work:
    """What a process works at, by its words and its folder."""
    name = os.path.basename(words[0])
    crate = after(words, "--crate-name")
    if name == "rattle" and crate:
        if "--crate-checked" in words:
            return Work(crate, Part.MADE)
        if "--test" in words:
            return Work(crate, Part.TESTS)
        begun = os.path.basename(after(words, "--incremental"))
        if begun == "seed":
            return Work(crate, Part.SEED)
        if begun.isdigit():
            return Work(crate, Part.EDITS, dict(enumerate(edits_of(crate))).get(int(begun), begun))
        if os.path.realpath(folder) == str(TOP / "crates" / crate):
            return Work(crate, Part.PROOF)
        return Work(crate, Part.EDITS, ", ".join(edits_of(crate)))
    ran = next((found for word in words if (found := re.search(r"/rt-run-\d+-\w+/bin/(\w+)$", word))), None)
    return Work(ran[1].removesuffix("_tests") if not (TOP / "crates" / ran[1]).is_dir() else ran[1], Part.RUN) if ran else OTHER


# The processes.


@dataclass(frozen=True)
class Seen:
    """A process as the system shows it: its number, its parent's, when it began, and what it has taken."""

    number: int
    parent: int
    began: str
    seconds: float
    memory: int


def processes() -> Iterator[Seen]:
    for name in os.listdir("/proc"):
        if name.isdigit():
            try:
                with open(f"/proc/{name}/stat", encoding="utf-8", errors="replace") as file:
                    words = file.read().rpartition(")")[2].split()
            except OSError:
                continue
            yield Seen(int(name), int(words[1]), words[19], (int(words[11]) + int(words[12])) / TICKS, int(words[21]) * os.sysconf("SC_PAGE_SIZE"))


def work_now(number: int) -> Work:
    """What a process works at, as it is now."""
    try:
        with open(f"/proc/{number}/cmdline", encoding="utf-8", errors="replace") as file:
            words = file.read().split("\0")
        return work_of(words, os.readlink(f"/proc/{number}/cwd"))
    except OSError:
        return OTHER


@dataclass
class Watch:
    """What the processes below this one have taken so far."""

    spent: dict[tuple[int, str], Spent] = field(default_factory=dict)
    looked: float = 0

    def look(self) -> bool:
        """Looks at them, where it is time to. It ends nothing."""
        if time.monotonic() >= self.looked + EACH:
            self.looked = time.monotonic()
            self.look_now()
        return False

    def look_now(self):
        children: dict[int, list[Seen]] = {}
        for each in processes():
            children.setdefault(each.parent, []).append(each)
        left = [os.getpid()]
        while left:
            for each in children.get(left.pop(), []):
                self.note(each)
                left.append(each.number)

    def note(self, seen: Seen):
        spent = self.spent.setdefault((seen.number, seen.began), Spent(OTHER))
        if spent.work == OTHER:
            # it may have taken other words since
            spent.work = work_now(seen.number)
        spent.seconds, spent.memory = seen.seconds, max(spent.memory, seen.memory)


# The table.


def uses() -> dict[str, list[str]]:
    """The crates of this repository that each one uses, as crates.txt has them."""
    path = TOP / "crates.txt"
    found = {}
    for line in files.text_of(str(path), files.read(str(path), FILE), "a text").splitlines():
        head, _, tail = line.partition("#")[0].partition(":")
        if head.strip():
            found[head.split()[0]] = tail.split()
    return {crate: [each for each in below if each in found] for crate, below in found.items()}


@dataclass
class Table:
    """What each part of each crate took, and each edit, in seconds of a processor."""

    parts: Counter[tuple[str, Part]]
    edits: Counter[tuple[str, str]]

    def sum(self, crate: str) -> float:
        return sum(self.parts[crate, part] for part in Part)

    def whole(self) -> float:
        return sum(self.parts.values())

    def dearest(self, crate: str) -> tuple[str, float]:
        """The edit of a crate that takes longest, and how long."""
        return max(((edit, seconds) for (of, edit), seconds in self.edits.items() if of == crate), key=lambda each: each[1], default=("", 0.0))

    def row(self, crate: str) -> str:
        cells = [f"{self.parts[crate, part]:8.1f}" for part in (Part.PROOF, Part.MADE, Part.TESTS, Part.RUN, Part.SEED, Part.EDITS)]
        count = sum(of == crate for of, _ in self.edits)
        name, seconds = self.dearest(crate)
        return f"{crate:18}{''.join(cells)} {f'({count})' if count else '':6}{self.sum(crate):8.1f}  {f'{name} {seconds:.1f}' if count else ''}".rstrip()


def table_of(watch: Watch) -> Table:
    table = Table(Counter(), Counter())
    for each in watch.spent.values():
        table.parts[each.work.crate, each.work.part] += each.seconds
        if each.work.part == Part.EDITS:
            table.edits[each.work.crate, each.work.edit] += each.seconds
    return table


@dataclass(frozen=True)
class Chain:
    """Steps that wait for one another, and how long they take together, in seconds."""

    seconds: float = 0
    steps: tuple[str, ...] = ()

    def then(self, step: str, seconds: float) -> "Chain":
        return Chain(self.seconds + seconds, (*self.steps, f"{step} {seconds:.1f}")) if seconds else self


def longest(chains: list[Chain]) -> Chain:
    return max(chains, key=lambda each: each.seconds, default=Chain())


def chain_of(table: Table, below: dict[str, list[str]]) -> Chain:
    """The longest chain. A crate's proof and the seed of its edits wait for the proofs below it, an edit for its crate's proof and its tests'."""
    proved: dict[str, Chain] = {}

    def of_proof(crate: str) -> Chain:
        if crate not in proved:
            proved[crate] = longest([of_proof(each) for each in below[crate]]).then(crate, table.parts[crate, Part.PROOF])
        return proved[crate]

    ends = []
    for crate in below:
        begun = longest([of_proof(each) for each in below[crate]])
        tests = begun.then(f"tests of {crate}", table.parts[crate, Part.TESTS])
        seed = begun.then(f"seed of {crate}", table.parts[crate, Part.SEED])
        made = of_proof(crate).then(f"programs of {crate}", table.parts[crate, Part.MADE])
        ends += [tests, made, longest([of_proof(crate), tests, seed]).then(*edit) if (edit := table.dearest(crate))[1] else seed]
    return longest(ends)


def show(watch: Watch):
    table, below = table_of(watch), uses()
    print(f"{'crate':18}{'proof':>8}{'made':>8}{'tests':>8}{'run':>8}{'seed':>8}{'edits':>8}       {'all':>8}  dearest edit")
    for crate in sorted(below, key=table.sum, reverse=True):
        print(table.row(crate))
    children = os.times()
    told = children.children_user + children.children_system
    print(f"\n{table.whole() / 60:.1f} minutes of a processor, {table.parts['', Part.OTHER] / 60:.1f} of them for none of these; {told / 60:.1f} by the system's account")
    chain = chain_of(table, below)
    print(f"the longest chain: {chain.seconds / 60:.1f} minutes: {', '.join(chain.steps)}")
    most = max(watch.spent.values(), key=lambda each: each.memory, default=Spent(OTHER))
    print(f"the most memory of a process: {most.memory / 1e9:.1f} GB, by {most.work.crate} ({most.work.part.value})")


def lanes_of(words: list[str]) -> int:
    if not words:
        return len(os.sched_getaffinity(0))
    number = words[1] if len(words) == 2 and words[0] == "--lanes" else ""
    if not re.fullmatch(r"[1-9][0-9]?", number, re.ASCII) or int(number) > MOST_LANES:
        raise WrongWords(f"{texts.shown(' '.join(words))} is seen, expected nothing, or --lanes with a number from 1 to {MOST_LANES}")
    return int(number)


def main() -> int:
    os.environ["RT_JOBS"] = str(lanes_of(sys.argv[1:]))
    watch, began = Watch(), time.monotonic()
    ran = programs.run(["/bin/sh", "-c", "exec rt ci --anew >&2"], folder=str(TOP), until=watch.look, shows=True)
    show(watch)
    print(f"{(time.monotonic() - began) / 60:.1f} minutes passed, {os.environ['RT_JOBS']} checks at a time; status {ran.status}")
    return ran.status


if __name__ == "__main__":
    sys.exit(ending.status_of("gate_times.py", main))
