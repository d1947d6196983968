"""The page of a release: what is wrong and odd first, then what changed, the launches, the files, and each launch by itself."""
from __future__ import annotations

from collections.abc import Iterable, Mapping

from comparer.report import Report
from outside.texts import visible

from . import changes, launch_part, launches, machine, whole
from . import signed as signing
from .changes import Changes
from .markup import code, count_of, digits, escaped, listed, scrolled, table
from .names import ids_of, links, rest
from .reading import Checked, Launch, Release, Source
from .signed import Signed


def place_of(source: Source) -> str:
    """A manifest, and the folder in which `rim` was started for it."""
    return code(source.path) + (f" in {code(source.folder)}" if source.folder else "")


def manifests(checked: tuple[Checked, ...], reports: tuple[str, ...] = ()) -> str:
    """The manifests with their digests, and with those of their reports."""
    rows = [[place_of(each.source), f"{each.length:,}", digits(each.digest)] for each in checked]
    heads = ["Manifest", "Bytes", "SHA-256"]
    if reports:
        heads, rows = [*heads, "SHA-256 of its report"], [[*row, digits(each)] for row, each in zip(rows, reports)]
    return scrolled("Manifests", table("The manifests that this page is of", heads, rows))


def files(report: Report) -> str:
    """The files of all manifests with their digests."""
    rows = [[code(path), f"{content.length:,}", digits(content.digest)] for path, content in (report.files or {}).items()]
    made = scrolled("Files", table("All files that the manifests name", ["File", "Bytes", "SHA-256"], rows)) if rows else "<p>None.</p>"
    return f"<h2>Files</h2>{made}\n"


# ---- what is wrong, and what is odd


def joined(lines: Iterable[tuple[str, str]], ids: Mapping[str, str]) -> list[str]:
    """Lines that are said of launches, each with the name of one: each line once, with all its launches."""
    found: dict[str, list[str]] = {}
    for said, name in lines:
        found.setdefault(said, []).append(name)
    return [f"{escaped(said)}: {links(names, ids)}" for said, names in found.items()]


def refusals(some: tuple[Launch, ...], ids: Mapping[str, str]) -> str:
    """Why launches are refused."""
    lines = joined(((rest(each.map.refusal, each.name), each.name) for each in some if each.value.refused), ids)
    several = "Launches that are refused and have no value" if sum(1 for each in some if each.value.refused) > 1 else "A launch is refused and has no value"
    return f'<section class="bad"><h2>{several}</h2>{listed(lines)}</section>\n' if lines else ""


def warnings(some: tuple[Launch, ...], ids: Mapping[str, str]) -> str:
    """What is rarely meant."""
    lines = joined(((rest(line, launch.name), launch.name) for launch in some for line in launch.map.warnings), ids)
    return f'<section class="odd"><h2>Warnings: what is rarely meant</h2>{listed(lines)}</section>\n' if lines else "<p>There are no warnings.</p>\n"


def counted(some: tuple[Launch, ...]) -> str:
    """How many launches have a value, are refused, have warnings."""
    refused = sum(1 for each in some if each.value.refused)
    odd = sum(1 for each in some if each.map.warnings)
    have = len(some) - refused
    said = [f"{count_of(len(some), 'launch', 'launches')}: {have:,} {'has' if have == 1 else 'have'} a value"]
    said += [f"{refused:,} {'is' if refused == 1 else 'are'} refused"] * bool(refused)
    said += [f"{odd:,} {'has' if odd == 1 else 'have'} warnings"] * bool(odd)
    return ", ".join(said)


def title_of(release: Release) -> str:
    paths = [visible(each.source.path) for each in release.checked]
    return ", ".join(paths[:3]) + (f" and {len(paths) - 3} more" if len(paths) > 3 else "")


def without_values(release: Release) -> str:
    """The page of a release of which a manifest is at fault: nothing is measured, and the page says so before all else."""
    several = len(release.checked) > 1
    wrong = [(each.source, listed(list(map(escaped, each.faults)))) for each in release.checked if each.faults]
    said = "".join(f"<p>{place_of(source)}:</p>{lines}" if several else lines for source, lines in wrong)
    head = f'<div class="bad"><h1>No values: {escaped(title_of(release))}</h1><p><strong>Nothing was measured, since this is wrong:</strong></p>'
    content = [f"{head}{said}</div>", f"<p>The program is {escaped(release.program)}.</p>", manifests(release.checked)]
    return whole.page(f"NO VALUES: {escaped(title_of(release))}", "\n".join(content) + "\n", has_values=False)


def page(release: Release, since: Changes | None, signed: tuple[Signed, ...] = ()) -> str:
    """The page of a release, with files that are to be signed."""
    if not release.is_whole:
        return without_values(release)
    some, ids = release.launches, ids_of(each.name for each in release.launches)
    pictures = launch_part.Pictures()
    content = [f"<h1>{escaped(title_of(release))}</h1>\n<p>{counted(some)}. Computed by {escaped(release.program)}.</p>\n",
               manifests(release.checked, release.digests), signing.part(signed), refusals(some, ids), warnings(some, ids),
               *map(machine.part, release.machines), changes.part(since, ids) if since is not None else "",
               "<h2>Launches</h2>\n", launches.table(some, ids, since), files(release.report) if release.report is not None else "",
               whole.how_to_read(), "<h2>Each launch</h2>\n", *(launch_part.part(each, ids, since, pictures) for each in some)]
    return whole.page(f"{escaped(title_of(release))}: {counted(some)}", "".join(content))
