#!/usr/bin/env python3
"""Tries tools/checks/edits.py and tools/trials/gate_times.py over a kit that is made here: what the first records and when it tries an edit again, and
what the second says that each part of `rt ci` took.

    tests/editing.py

The last line is 'N passed, M failed'.
"""
import contextlib
import os
import pathlib
import shutil
import subprocess
import sys
import tempfile
from collections.abc import Callable, Iterator
from dataclasses import dataclass

from helpers.tries import differs, told

TOP = pathlib.Path(__file__).resolve().parent.parent
# A kit. Its `ci` with names of crates prints for each edit the line that the edit's own last line has. Its `ci --anew` is that of a crate `high` over
# `low`: each process takes as many seconds as its first word says.
RT = r"""#!/bin/bash
takes() {
    (cd "$ROOT/crates/$2" && exec -a "$3" "$PYTHON" -c "import sys, time
while time.process_time() < $1: pass" "${@:4}")
}
case $1 in
version) cat "$KIT/version" ;;
ci)
    if [ "$2" != --anew ]; then
        grep -q broken crates/low/src/lib.rt && { echo "rt: low NOT PROVED"; exit 1; }
        for crate in "${@:2}"; do
            for edit in crates/$crate/must-fail/*.edit; do
                echo "$edit" >> "$KIT/log"
                echo "rt: must-fail $crate/${edit##*/}: $(sed -n 's/^new: //p' "$edit")"
            done
        done
        exit 0
    fi
    takes 0.3 low /a/rattle build --crate-name low
    takes 0.6 high /a/rattle build --crate-name high &
    takes 0.3 high /a/rattle build --crate-name high --test -o x
    cd "$TMPDIR"
    takes 0.5 ../.. /a/rattle check --crate-name high --incremental /b/seed
    takes 0.3 ../.. /a/rattle check --crate-name high --incremental /b/0
    takes 0.4 ../.. /a/rattle check --crate-name high --incremental /b/1
    takes 0.3 ../.. sh x /tmp/rt-run-1-ab_c/bin/high_tests
    takes 0.3 ../.. another
    wait
    echo "$* by $RT_JOBS"
    exit 1
    ;;
esac
"""
GOAL = "refused, as it must be: note: src/lib.rt:3:5: it is not proved that the result is 1"
# What the kit says of an edit, and whether the edit gets a record.
OUTCOMES = {
    "goal": (GOAL, True),
    "name": ("refused, as it must be (only because a proof file names what the edit took away, so this says little of the contract): x", False),
    "proved": ("NOT REFUSED: the crate is still proved with this edit", False),
    "unread": ("BAD EDIT: the prover cannot read the edited text, so no contract was tried: x", False),
}


@dataclass
class Tree:
    """A checkout of two crates, `high` over `low`, with a kit next to it."""

    top: pathlib.Path

    @property
    def root(self) -> pathlib.Path:
        return self.top / "tree"

    @property
    def environment(self) -> dict[str, str]:
        return os.environ | {"PATH": f"{self.top}/kit/bin:{os.environ['PATH']}", "KIT": f"{self.top}/kit", "ROOT": str(self.root), "PYTHON": sys.executable,
                             "TMPDIR": f"{self.top}/tmp"}

    def write(self, path: str, text: str):
        (self.top / path).parent.mkdir(parents=True, exist_ok=True)
        (self.top / path).write_text(text)

    def edit(self, name: str, new: str, folder: str = "edits"):
        self.write(f"tree/crates/high/{folder}/f.{name}.edit", f"file: src/lib.rt\nold: body first\nnew: {new}\n")

    def commit(self):
        for words in (("add", "-A"), ("-c", "user.name=a", "-c", "user.email=a", "commit", "-q", "--allow-empty", "-m", "a")):
            subprocess.run(["git", *words], cwd=self.root, check=True)

    def start(self, *words: str, script: str = "checks/edits.py") -> subprocess.Popen[str]:
        return subprocess.Popen([sys.executable, f"tools/{script}", *words], cwd=self.root, env=self.environment, stdout=subprocess.PIPE,
                                stderr=subprocess.PIPE, text=True)

    def run(self, *words: str) -> tuple[int, list[str], str]:
        ran = self.start(*words)
        out, said = ran.communicate(timeout=60)
        return ran.returncode, out.splitlines(), said

    def tries(self) -> int:
        """Returns how many edits the kit has tried since the last call."""
        log = self.top / "kit/log"
        count = log.read_text().count(".edit") if log.exists() else 0
        log.unlink(missing_ok=True)
        return count


@contextlib.contextmanager
def tree() -> Iterator[Tree]:
    with tempfile.TemporaryDirectory() as folder:
        made = Tree(pathlib.Path(folder))
        shutil.copytree(TOP / "scripts" / "outside", made.root / "scripts" / "outside", ignore=shutil.ignore_patterns("__pycache__"))
        for script in ("checks/edits.py", "trials/gate_times.py"):
            made.write(f"tree/tools/{script}", (TOP / "tools" / script).read_text())
        made.write("tree/crates.txt", "# NAME: libraries\nlow:\nhigh may_wait=1: low hex\n")
        made.write("tree/HANDLES", "Handles allowed: Threads, Wait.\n")
        made.write("tree/crates/low/src/lib.rt", "body low\n")
        made.write("tree/crates/high/src/lib.rt", "body first\n")
        made.write("kit/version", "a kit\n")
        made.write("kit/bin/rt", RT)
        (made.top / "kit/bin/rt").chmod(0o755)
        (made.top / "tmp").mkdir()
        subprocess.run(["git", "init", "-q"], cwd=made.root, check=True)
        yield made


def outcomes() -> list[str]:
    """Only an edit that is refused for a goal gets a record, and --check counts the others."""
    with tree() as made:
        for name, (said, _) in OUTCOMES.items():
            made.edit(name, said)
        made.edit("gate", GOAL, "must-fail")
        made.commit()
        before = made.run("--check")[:2]
        status, lines, _ = made.run("--all")
        after = made.run("--check")[:2]
        record = (made.root / "tools/checks/edits-tried.tsv").read_text()
    said = "of 5 edits have no record yet: tools/checks/edits.py tries them"
    kept = [name for name, (_, is_kept) in OUTCOMES.items() if is_kept]
    wrong = differs("before", before, (0, [f"5 {said}"])) + differs("run", (status, lines[-1]), (1, "2 refused, 3 not"))
    wrong += differs("after", after, (0, [f"3 {said}"]))
    return wrong + differs("record", [name for name in OUTCOMES if f"f.{name}.edit" in record], kept)


def again() -> list[str]:
    """An edit is tried again if its text, its crate, a crate below or the kit has changed."""
    wrong = []

    def after(what: str, change: Callable[[], object], tries: int, checked: int = 0):
        change()
        made.commit()
        wrong.extend(differs(f"{what}: check", made.run("--check")[0], checked))
        status, lines, said = made.run()
        wrong.extend(differs(what, (status, lines[-1], said, made.tries()), (0, f"{tries} refused, 0 not", "", tries)))

    with tree() as made:
        made.edit("one", GOAL)
        made.edit("two", GOAL)
        after("first", lambda: None, 2)
        after("nothing", lambda: None, 0)
        after("an edit", lambda: made.edit("two", GOAL + " and 2"), 1, 1)
        after("its crate", lambda: made.write("tree/crates/high/specs/A.antt", "a"), 2)
        after("a crate below", lambda: made.write("tree/crates/low/src/lib.rt", "body other"), 2)
        after("the kit", lambda: made.write("kit/version", "another\n"), 2)
        after("an edit is removed", lambda: (made.root / "crates/high/edits/f.two.edit").unlink(), 0, 1)
        after("it is forgotten", lambda: None, 0)
    return wrong


# The text of an edit, and what `--check` says of it.
BAD = [
    ("", "it has no pair of `old:` and `new:`"),
    ("file: src/lib.rt\nold: body\nnew: body\n", "the old text of src/lib.rt is the new text: body"),
    ("file: src/lib.rt\nold: nothing\nnew: a\n", "src/lib.rt has the old text 0 times, expected once: nothing"),
    ("file: src/lib.rt\nold: body\n", "an `old:` has no `new:`"),
    ("file: src/lib.rt\nold: body\nnew: a\nold: a\nnew: body\n", "its pairs together change nothing"),
    ("file: src/../../low/src/lib.rt\nold: body\nnew: a\n", "src/../../low/src/lib.rt is no file of src/, specs/ or proofs/ of its crate"),
]


def bad_edits() -> list[str]:
    wrong = []
    for text, why in BAD:
        with tree() as made:
            made.write("tree/crates/high/edits/f.bad.edit", text)
            wrong += differs(text, (made.run("--check")[0], made.run("--check")[1][1:]), (1, [f"high/edits/f.bad.edit: {why}"]))
    return wrong


def faults() -> list[str]:
    """Each fault is one line and status 3, and nothing is tried."""
    wrong = []
    with tree() as made:
        made.edit("one", GOAL)
        made.commit()
        for words in (("--jobs", "2"), ("--al",), ("lowest",), ("--check", "high")):
            status, lines, said = made.run(*words)
            wrong += differs(str(words), (status, lines, said.count("\n"), made.tries()), (3, [], 1, 0))
        made.write("tree/crates/low/src/lib.rt", "body that is not committed")
        wrong += differs("not committed", made.run()[0], 3)
        made.write("tree/crates/low/src/lib.rt", "broken")
        made.commit()
        status, _, said = made.run()
        wrong += differs("not proved", (status, said), (3, "rt: low NOT PROVED\nedits.py: low is not proved without an edit\n"))
    return wrong


def times() -> list[str]:
    """What each part of `rt ci` took. A process is looked at now and then, so a part may lack a fifth of a second, and their sum more."""
    with tree() as made:
        for body in ("first_edit", "second_edit"):
            made.edit(body, GOAL, "must-fail")
        ran = made.start("--lanes", "3", script="trials/gate_times.py")
        out, said = ran.communicate(timeout=60)
    wrong = differs("end", (ran.returncode, said), (1, "ci --anew by 3\n"))
    rows = {line.split()[0]: line.split()[1:] for line in out.splitlines() if line[:4] in ("high", "low ")}
    wanted = {"high": (0.6, 0, 0.3, 0.3, 0.5, 0.7, "(2)", 2.4, "f.second_edit", 0.4), "low": (0.3, 0, 0, 0, 0, 0, 0.3)}
    most = (0.2,) * 7 + (0.8, 0, 0.2)
    for crate, numbers in wanted.items():
        wrong += differs(crate, len(rows.get(crate, [])), len(numbers))
        for seen, number, by in zip(rows.get(crate, []), numbers, most):
            is_near = seen == number if isinstance(number, str) else abs(float(seen) - number) <= by
            wrong += [] if is_near else [f"{crate}: {seen}, expected about {number}"]
    chain = next((line for line in out.splitlines() if line.startswith("the longest chain: 0.0 minutes: ")), "")
    steps = [step.rsplit(" ", 1)[0] for step in chain.partition("minutes: ")[2].split(", ")]
    return wrong + differs("chain", steps, ["low", "high", "f.second_edit"])


def run_all() -> int:
    return told([(look.__name__, look()) for look in (outcomes, again, bad_edits, faults, times)])


if __name__ == "__main__":
    sys.exit(run_all())
