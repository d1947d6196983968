"""Manifests that are given: what `rim` says of their launches, the launches themselves, and their files."""
from dataclasses import dataclass, replace

from outside import files as outside_files
from outside.faults import Fault
from outside.programs import Ran
from outside.rim import Rim
from outside.texts import shown, visible

from .files import Files, read
from .launch import Launch, launch_of

# The longest manifest that is read, and how many names of launches a line has.
MOST, MOST_NAMES = 64 << 20, 8


@dataclass(frozen=True)
class Manifest:
    """A manifest: its path, what `rim measure` says of each launch (nothing where there are too many pages), its table and its launches."""

    path: str
    values: dict[str, str]
    table: dict[str, object]
    launches: list[Launch]

    @property
    def version(self) -> int:
        version = self.table.get("rim_manifest")
        return version if isinstance(version, int) else 0

    @property
    def paths(self) -> dict[str, str]:
        return {each["name"]: each["path"] for each in tables_of(self.table, "file")}

    def named(self, name: str) -> Launch:
        found = next((each for each in self.launches if each.name == name), None)
        if found is None:
            raise no_such_launch(name, names_of(self.table), self.path)
        return found

    def with_value(self, said: str) -> list[str]:
        return [name for name, value in self.values.items() if value == said]


def manifest(rim: Rim, path: str) -> Manifest:
    values, table = report_of(rim, path)
    return Manifest(path, values, table, launches_of(path, table))


def hold(files: Files, of: Manifest):
    """Takes the files that the launches of a manifest name, by its names."""
    named = {item.file for launch in of.launches for item in launch.item}
    for name, path in of.paths.items():
        if name in named:
            files[name] = read(files.rim, path)


def held(files: Files, of: Manifest) -> list[Launch]:
    """The launches of another manifest, once its files are taken by names of their own."""
    named = {item.file for launch in of.launches for item in launch.item}
    keys = {name: files.add(name, path, shown(path)) for name, path in of.paths.items() if name in named}
    return [replace(launch, item=tuple(replace(each, file=keys.get(each.file or "", each.file)) for each in launch.item))
            for launch in of.launches]


def report_of(rim: Rim, path: str) -> tuple[dict[str, str], dict[str, object]]:
    """What `rim measure` says of each launch of a manifest, by its name, and the manifest as Python reads it."""
    data = outside_files.read(path, MOST, "a manifest")
    ran = rim.run("measure", "--explain", "--", path)
    if ran.status > 1 or ran.status < 0:
        if "too-many-pages" not in ran.said:
            raise Fault(ran.said.strip())
        return {}, table_of(path, data)
    return values_of(ran), table_of(path, data)


def table_of(path: str, data: bytes) -> dict[str, object]:
    return outside_files.toml_of(path, data, "TOML 1.0, as Python's tomllib reads it")


def values_of(ran: Ran) -> dict[str, str]:
    """The lines of a report: what came of each launch by its name."""
    rows = [line.split(" ", 1) for line in ran.out.decode("ascii", errors="replace").splitlines()[1:-1]]
    return {row[0]: row[1] for row in rows if len(row) == 2}


def tables_of(table: dict[str, object], key: str) -> list[dict]:
    """The tables of an array of a manifest; that they are tables, `rim` says."""
    some = table.get(key)
    return [each for each in some if isinstance(each, dict)] if isinstance(some, list) else []


def launches_of(path: str, table: dict[str, object]) -> list[Launch]:
    """The launches of a manifest that `rim` has taken."""
    try:
        return [launch_of(each) for each in tables_of(table, "launch")]
    except (TypeError, ValueError, KeyError, AttributeError):
        raise Fault(f"{visible(path)}: it has a launch that is none, expected one that rim measures") from None


def names_of(table: dict[str, object]) -> list[str]:
    return [str(each.get("name")) for each in tables_of(table, "launch")]


def no_such_launch(name: str, names: list[str], path: str) -> Fault:
    return Fault(f"rim: no-such-launch: {shown(name)}, expected one of {visible(path)}: {list_of(names) or 'it has none'}")


def list_of(names: list[str]) -> str:
    """Some names: the first ones, and how many more there are."""
    more = len(names) - MOST_NAMES
    return ", ".join(map(shown, names[:MOST_NAMES])) + (f" and {more} more" if more > 0 else "")
