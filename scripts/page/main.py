"""The order of the work: words, what `rim` says, the page, the file."""
from __future__ import annotations

import os
import stat
import sys
from collections.abc import Iterable

from comparer import differ, report
from comparer.report import Report
from outside import ending, files
from outside.faults import Fault
from outside.rim import Rim, started
from outside.texts import visible

from . import changes, machine, picture, reading, release_page, sides, signed, words
from .reading import Release, Source
from .words import ABOUT, ALONE, Words

# The longest report that is read.
MOST = 64 << 20


def check_no_input(out: str, inputs: Iterable[str]):
    """Refuses a file that is to be written and is read too."""
    if os.path.realpath(out) in {os.path.realpath(each) for each in inputs}:
        raise Fault(f"{visible(out)}: the page is made of it, expected another file")


def write(data: bytes, out: str):
    """Writes a page to its file, whole or not at all, or to standard output."""
    if out == "-":
        sys.stdout.buffer.write(data)
        sys.stdout.flush()
    else:
        files.put(os.path.realpath(out), data, name=out)


def replace(data: bytes, out: str):
    """Writes a picture as `rim -o` writes: a file that is there is replaced and keeps its permissions, and what is no file gets the bytes."""
    try:
        mode = os.stat(out).st_mode
    except OSError:
        mode = None
    if mode is None or stat.S_ISREG(mode):
        if mode is not None and not os.access(out, os.W_OK):
            raise Fault(f"{visible(out)}: Permission denied, expected that it can be written")
        files.put(os.path.realpath(out), data, None if mode is None else stat.S_IMODE(mode), out)
    else:
        files.write(out, data)


# ---- what is made


def since(said: Words, now: Report) -> changes.Changes | None:
    """What changed since the kept reports."""
    if not said.before:
        return None
    was = report.joined([report.read(files.read(path, MOST, report.WHAT), path) for path in said.before])
    return changes.between(was, now, said.before, differ.notes(was, now))


def inputs_of(release: Release, said: Words) -> list[str]:
    """The paths of all that a page is made of."""
    found = [each.source.at for each in release.checked] + [*said.before, *said.signed]
    found += [os.path.join(each.folder, machine.RECORD) for each in release.machines]
    return found + [each.source.of(path) for each in release.checked for path in (release.report.files or {} if release.report else {})]


def of_release(rim: Rim, said: Words, out: str) -> int:
    """The page of a release. Where a manifest is at fault, the page says so, and so does the status."""
    release = reading.released(rim, reading.sources_of(said.operands))
    found = release.report
    made = release_page.page(release, since(said, found) if found else None, tuple(signed.read(path, found) for path in said.signed if found))
    check_no_input(out, inputs_of(release, said))
    write(made.encode(), out)
    if not release.is_whole:
        ending.say("rim-page", *(f"{visible(each.source.path)}: it is at fault, so the page has no values" for each in release.checked if each.status == 3))
    return release.status


def of_two(rim: Rim, said: Words, out: str) -> int:
    """The page of two launches."""
    first, name, *rest = said.operands
    places = [(Source(first), name), (Source(rest[0] if len(rest) == 2 else first), rest[-1])]
    with files.folder("rim-page-") as folder:
        made, status = sides.page(rim, places, folder)
    check_no_input(out, [source.at for source, _ in places])
    write(made.encode(), out)
    if status == 3:
        ending.say("rim-page", "a manifest is at fault, so the page has no values")
    return status


def of_map(rim: Rim, said: Words) -> int:
    """The picture of a launch alone."""
    path, name = said.operands
    here = reading.map_of(rim, Source(path), name)
    made = picture.alone(here).encode()
    if said.output is None:
        write(made, "-")
    else:
        replace(made, said.output)
    return int(bool(here.refused))


def run(all_words: list[str]) -> int:
    if not all_words:
        print(ABOUT, end="", file=sys.stderr)
        return 2
    said = words.parse(all_words)
    if said.alone:
        print(ALONE[said.alone], end="")
        return 0
    words.check(said)
    if "--svg" in said.flags:
        return of_map(started(), said)
    out = said.out or "-"
    if out != "-":
        files.may_be_made(out, said.is_forced)
    return (of_two if "--diff" in said.flags else of_release)(started(), said, out)


def main(all_words: list[str]) -> int:
    """The status of a run; what stops it is a line on standard error."""
    return ending.status_of("rim-page", lambda: run(all_words))
