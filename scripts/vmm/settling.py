"""The words of `rim-manifest settle`, the guests that it is given, and the file about the host that it writes."""
from __future__ import annotations

import itertools
import os
import sys
from collections.abc import Mapping, Sequence
from dataclasses import dataclass, replace

from finder.runs import Runs
from outside import ending, files, measurement, parameters
from outside.faults import Fault, WrongWords
from outside.measurement import Value
from outside.rim import REPORT
from outside.texts import shown, visible

from . import asked, checks, devicetree, dumps, host, launches, layout, settle, words
from .folder import Folder
from .guest import Blob
from .host import Host
from .hypervisor import Hypervisor
from .hypervisors import HYPERVISORS
from .manifest import text, value_text
from .realm import ZEROS
from .rows import NUMBERS, PSCI
from .settle import Case, Outcome, Settled
from .words import Option
from .work import Work, go_to, rows_of, tree_blob

USE = "rim-manifest settle HYPERVISOR --host FILE --rim VALUE --out FILE [OPTIONS..] -- LINE"
# The options of a hypervisor, and of all of them, that it has too.
OF_HYPERVISOR, OF_ALL = ("program",), ("line", "host", "dtb", "row", "folder", "help")
OPTIONS = [
    Option(("--rim",), "rim", "VALUE", "the measurement that the machine gave for the guest: hexadecimal digits, or base64"),
    Option(("--rim-file",), "rim_file", "FILE", "a file with it: as text, as the bytes of the claim, or as CBOR has the claim"),
    Option(("--trace",), "trace", "FILE", "lines of which each begins with the measurement after a step, as `rim trace` prints them. The first one "
           "says the parameters of the realm by themselves. Without --rim the last one is the measurement"),
    Option(("--guests",), "guests", "FILE", "more guests of the machine, in TOML: an array of tables `guest`, each with `line`, with "
           "`rim`, `rim_file` or `trace`, and with `dtb`, one or several. What is found gives the values of all"),
    Option(("--limit",), "limit", "N", f"stop after N launches; {settle.LIMIT:,} by default"),
    Option(("--out",), "out", "FILE", "the file about the host that is written. Required"),
    Option(("--force",), "force", "", "replace that file"),
]
ABOUT = """
It looks for the alternatives of rows and for the numbers of a machine that give the measurement which the machine gave for a guest, the
likeliest first, and writes the host's file with them. The guest is a hypervisor's command line, after `--` or of --line. The
file of --host has what is known: numbers that it gives come first, then those beside them, then all others. A "?", or a key that is left
out, is not known; a row that it names is likely, and one that --row names is sure.

Status: 0 found and written, 1 not found, 2 wrong words, 3 a fault; 130, 143 or 129 stopped by INT, TERM or HUP, once what was tried is
printed.
"""
GUEST_KEYS = ("line", "dtb", "rim", "rim_file", "trace")
MOST_GUESTS, MOST_FILE, MOST_TRACE = 64, 1 << 20, 256 << 20
# How many digits of a value a line has.
DIGITS = 16


def options_of(vmm: Hypervisor) -> list[Option]:
    return [each for each in vmm.OPTIONS if each.key in OF_HYPERVISOR] + [each for each in words.COMMON if each.key in OF_ALL] + OPTIONS


def every_option() -> list[Option]:
    """The options with each hypervisor."""
    found = {each.names: each for vmm in HYPERVISORS.values() for each in options_of(vmm)}
    return list(found.values())


def help_text() -> str:
    return f"usage: {USE}\n{ABOUT}\n{words.help_of(every_option())}"


# ---- the guests


@dataclass(frozen=True)
class Given:
    """A guest as it is given: what the words say of it, and its value."""

    said: dict
    value: Value
    trace: list[str]


def trace_of(path: str) -> list[str]:
    """The measurement at the beginning of each line."""
    what = "a trace, of which each line begins with a measurement"
    lines = files.text_of(path, files.read(path, MOST_TRACE, what), what).splitlines()
    found = [line.split(" ")[0].lower() for line in lines]
    if not found or any(len(each) != len(found[0]) or len(each) not in (64, 128) or set(each) - set("0123456789abcdef") for each in found):
        raise Fault(f"{visible(path)}: it has a line that begins otherwise, or none, expected {what}")
    return found


def value_of(said: Mapping[str, str], where: str) -> tuple[Value, list[str]]:
    """The value of a guest, and its trace."""
    trace = trace_of(said["trace"]) if "trace" in said else []
    if "rim" in said and "rim_file" in said:
        raise WrongWords(f"{where}: --rim and --rim-file: both are given, expected one of them")
    if "rim" in said:
        value = measurement.read(said["rim"], f"{where}--rim")
    elif "rim_file" in said:
        value = measurement.of_file(files.read(said["rim_file"], MOST_FILE, "a measurement"), f"{where}{visible(said['rim_file'])}")
    elif trace:
        value = measurement.read(trace[-1], f"{where}--trace")
    else:
        raise WrongWords(f"{where}--rim: it is not given, expected the measurement that the machine gave, or --rim-file or --trace")
    if trace and len(trace[0]) != len(value.digits):
        raise WrongWords(f"{where}--trace: its measurements have {len(trace[0]) // 2} bytes, expected {len(value.digits) // 2}, as --rim has")
    return value, trace


def more_guests(path: str, said: dict) -> list[Given]:
    """The guests of a file."""
    what = "an array of tables `guest`"
    table = files.toml_of(path, files.read(path, MOST_FILE, what), what)
    guests = table.get("guest")
    if set(table) != {"guest"} or not isinstance(guests, list) or not 0 < len(guests) <= MOST_GUESTS:
        raise Fault(f"{visible(path)}: it has something else, or not 1 to {MOST_GUESTS} guests, expected {what}")
    found = []
    for number, guest in enumerate(guests, 1):
        where = f"{visible(path)}: guest {number}: "
        if not isinstance(guest, dict) or set(guest) - set(GUEST_KEYS):
            raise Fault(f"{where}expected a table of {', '.join(GUEST_KEYS)}")
        texts = {key: [value] if key == "dtb" and isinstance(value, str) else value for key, value in guest.items()}
        if any(not (isinstance(value, list) and all(isinstance(each, str) for each in value) if key == "dtb" else isinstance(value, str))
               for key, value in texts.items()):
            raise Fault(f"{where}expected texts, and of dtb one or several")
        value, trace = value_of(texts, where)
        shared = {key: each for key, each in said.items() if key in ("host", "row", "program")}
        own = {key: each for key, each in texts.items() if key in ("line", "dtb")}
        if "dtb" in own:
            shared.pop("program", None)
        found.append(Given(shared | own | {"rest": []}, value, trace))
    return found


def guests_of(said: dict) -> list[Given]:
    """All guests, that of the words first."""
    found = []
    if said["rest"] or "line" in said or "guests" not in said:
        value, trace = value_of({key: said[key] for key in ("rim", "rim_file", "trace") if key in said}, "")
        keys = ("host", "row", "program", "line", "dtb", "rest")
        found.append(Given({key: said[key] for key in keys if key in said}, value, trace))
    return found + (more_guests(said["guests"], said) if "guests" in said else [])


# ---- a guest's launches


class Maker:
    """Makes the cases of guests, each in a folder of its own below one."""

    def __init__(self, vmm: Hypervisor, scratch: str, all_words: list[str]):
        self.vmm, self.scratch, self.words = vmm, scratch, all_words
        self.works: list[Work] = []
        self.folders: list[Folder] = []
        self.has_pmu = False

    def case(self, given: Given, number: int) -> Case:
        said = given.said | {"out": os.path.join(self.scratch, f"guest-{number}")}
        what = asked.asked(self.vmm, said)
        if what.line is None:
            raise WrongWords("no command line of the guest is given, expected it after `--`, or --line")
        realm = what.others.realm
        if realm and realm.algorithm and realm.algorithm != given.value.algo:
            raise WrongWords(f"the value has the length of {given.value.algo}, and {realm.source} says {realm.algorithm}, expected a value of that")
        what.said.setdefault("algo", [given.value.algo])
        work = Work(self.vmm, what, self.words, is_settled=False)
        made = Folder(work.out, False)
        made.begin()
        self.folders.append(made)
        self.works.append(work)
        work.find_programs()
        launch, = work.launches(made)
        dump = work.trees(made, [launch])[launch.name]
        self.has_pmu = self.has_pmu or dump.tree.root.child("pmu") is not None
        warnings = [*checks.warnings([dump.by(work.chosen["psci"].name).tree]), *checks.of_console([launch])]
        ending.say("rim-manifest", *(f"warning: {each}" for each in warnings))
        if wrong := checks.of_unsettled(self.vmm, launch, dump):
            raise Fault(*checks.faults({launch.name: wrong}, {}))
        return self.of_launch(work, made, launch, dump, given)

    def of_launch(self, work: Work, made: Folder, launch: launches.Launch, dump: dumps.Dump, given: Given) -> Case:
        """The case of a launch: with all blobs that a combination may need."""
        known: dict[tuple, Blob] = {}
        trees, stubs = {}, {}
        for name, each in variants(work, dump, launch):
            for psci, pages in itertools.product(methods(each), ("whole", "used")):
                try:
                    trees[name, psci, pages] = tree_blob(made, launch, each, {"psci": psci, "dtb_pages": pages}, known, True)
                except Fault:
                    # zeros are asked for after its blocks: a realm of this tree has no such pages
                    continue
        places = layout.places(work.table, replace(launch.guest, ways={"stub": "measured"}))
        if places.stub is not None:
            stubs[places.stub_bytes] = made.put("stub-1", places.stub_bytes, "", "rule stub_bytes")
        blobs = [launch.guest.loaded, *filter(None, [launch.initrd]), *known.values(), *stubs.values(), made.put(ZEROS, b"\0", "", "zeros")]
        contents = {blob.file: settle.content_of(files.read(os.path.join(made.path, blob.file), 1 << 30)) for blob in blobs}
        runs = Runs(work.rim, settle.head_of(blobs), made.path)
        return Case(self.vmm, work.table, launch, trees, stubs, contents, runs, given.value, given.trace)

    def drop(self):
        for each in self.folders:
            each.drop()


def methods(dump: dumps.Dump) -> list[str]:
    """The alternatives of the row psci that a devicetree leaves: one that has smc by itself is that of a realm."""
    return PSCI.names[:1] if devicetree.psci_method(dump.tree) == "smc" and not dump.is_own else PSCI.names


def variants(work: Work, dump: dumps.Dump, launch: launches.Launch) -> list[tuple[str, dumps.Dump]]:
    """A devicetree by each alternative of `dtb_file`, where the hypervisor is given one."""
    if not dump.is_own:
        return [("given", dump)]
    path = work.said["own_dtb"]
    with files.folder("rim-manifest.") as scratch:
        reader = dumps.Reader(work.rim, scratch)
        found = [("given", dumps.own(path, False, reader, [launch])[launch.name])]
        try:
            found.append(("padded", dumps.own(path, True, reader, [launch])[launch.name]))
        except Fault:
            # QEMU writes such a file anew, or Linux takes none of that length
            return found
    return found


# ---- the file about the host


def values_of(about: Host, settled: Settled) -> dict[str, int | str]:
    """The keys of the file: what it said, with what was found in its place."""
    found: dict[str, int | str] = {key: value for key, value in about.values.items() if key not in ("block_level", "rec_rule", "settled_by")}
    for flag, key in parameters.FLAGGED:
        if not settled.values[flag]:
            found.pop(key, None)
    found |= settled.values
    order = [*host.NUMBERS, *host.FLAGS, *host.TEXTS]
    return {key: found[key] for key in order if key in found}


def realm_lines(rows: Mapping[str, layout.Row], settled: Settled, values: dict[str, int | str]) -> list[str]:
    """The lines of [realm]: each row that is settled, and each that is not at its likeliest alternative."""
    lines = []
    for name, way in settled.ways.items():
        if name == "s2sz" and way.isdigit() and ("host" in rows[name].names or int(way) > int(values.get("s2sz_max", way))):
            values["s2sz_max"] = int(way)
        is_taken = name not in settled.open_rows or way != rows[name].names[0]
        if is_taken and not (name == "s2sz" and "host" in rows[name].names):
            lines.append(f"{name} = {way if way.isdigit() else text(way)}")
    return lines


def kept_lines(about: Host, settled: Settled) -> list[str]:
    """The lines of [realm] that are of no row of these guests: what was said of others stays."""
    return [f"{name} = {way if way.isdigit() else text(way)}" for name, way in about.realm.items() if name not in settled.ways]


def untried(about: Host, rows: Mapping[str, layout.Row], settled: Settled) -> dict[str, list[str]]:
    """The rows that no guest has and that the file of --host has not settled either, with their other alternatives."""
    before = set(about.realm) - set(about.not_settled) if about["settled_by"] else set()
    names = [name for name in rows if len(rows[name].ways) > 1 and name not in (*settled.ways, *NUMBERS, *before)]
    return {name: [way for way in rows[name].names if way != about.realm.get(name, rows[name].names[0])] for name in names}


def file_text(about: Host, rows: Mapping[str, layout.Row], settled: Settled, by: str) -> str:
    values = values_of(about, settled)
    realm = realm_lines(rows, settled, values) + kept_lines(about, settled)
    lines = ["# What holds on a machine: a file of `rim-manifest --host`, which `rim-manifest settle` has written."]
    lines += [f"{key} = {value_text(value)}" for key, value in values.items()] + [f"settled_by = {text(by)}"]
    left = settled.open_rows | untried(about, rows, settled)
    lines += [f"{host.NOT_SETTLED} = [{', '.join(text(f'{name}={way}') for name, some in left.items() for way in some)}]", ""]
    lines += [f"# Not settled: {line}" for line in open_lines(rows, settled)]
    return "\n".join([*lines, "[realm]", *realm]) + "\n"


def open_lines(rows: Mapping[str, layout.Row], settled: Settled) -> list[str]:
    """The rows that the values do not pin, with the guest that would."""
    return [f"{name} = {settled.ways[name]}: {' and '.join(some)} {'gives' if len(some) == 1 else 'give'} the same; a guest for which "
            f"they differ: {rows[name].apart}" for name, some in settled.open_rows.items()]


def found_lines(outcome: Outcome, settled: Settled, rows: Mapping[str, layout.Row], cases: Sequence[Case]) -> list[str]:
    """What is said of what was found."""
    guests = ", ".join(case.launch.name for case in cases)
    lines = [f"{guests}: {'the value is' if len(cases) == 1 else 'the values are'} given by these, after {outcome.tried:,} launch{'es' * (outcome.tried != 1)}:"]
    for name, way in settled.ways.items():
        rest = "not settled" if name in settled.open_rows else "settled"
        if name == "s2sz" and "host" in rows[name].names and way.isdigit():
            lines.append(f"  s2sz_max = {way}: {rest}")
            continue
        value = f"{settled.values[name]} ({way})" if name in settled.values else way
        lines.append(f"  {name} = {value}: {rest}" + ("" if way == rows[name].names[0] else ", and not the likeliest"))
    lines += [f"  {flag} = {str(settled.values[flag]).lower()}: settled" for flag in ("sve", "pmu")]
    return lines + [f"not settled: {line}" for line in open_lines(rows, settled)]


def not_found_lines(outcome: Outcome, cases: Sequence[Case]) -> list[str]:
    guests = ", ".join(case.launch.name for case in cases)
    all_of = "all that differ" if outcome.is_whole else "the likeliest"
    return [f"{guests}: none of {outcome.tried:,} launches has the value, {all_of} of {outcome.count:,} combinations; "
            f"{outcome.refused:,} were refused. Tried were", *(f"  {line}" for line in outcome.lines),
            "what no row says may be: another kernel, initrd, command line or devicetree than the machine had; another base of RAM; other blobs"]


# ---- the work


def check_out(said: dict) -> str:
    path = words.required(said, "out", "--out", "the file about the host that is written")
    return files.may_be_made(path, "force" in said)


def verify(maker: Maker, given: Sequence[Given], cases: Sequence[Case], path: str):
    """Makes the manifest of each guest by the file that was found, and measures it: the whole way that a user goes with it."""
    for number, (each, case) in enumerate(zip(given, cases)):
        out = os.path.join(maker.scratch, f"again-{number}")
        said = {key: value for key, value in each.said.items() if key != "row"}
        work = Work(maker.vmm, asked.asked(maker.vmm, said | {"host": path, "out": out}), maker.words)
        work.is_checked = work.is_told = False
        made = Folder(out, False)
        made.begin()
        maker.folders.append(made)
        work.find_programs()
        work.write(made)
        ran = work.rim.run("measure", "manifest.toml", limits=REPORT, folder=made.path)
        if f" {case.value.algo} {case.value.digits}\n" not in ran.out.decode("ascii", errors="replace"):
            raise Fault(f"{case.launch.name}: a manifest by what was found has another measurement, which is a fault of this script")


def do(vmm: Hypervisor, said: dict, all_words: list[str]) -> int:
    out = check_out(said)
    words.required(said, "host", "--host", f"the file that says what is known of the machine: {host.example()}")
    limit = words.number("--limit", said["limit"], 1, 999_999_999) if "limit" in said else settle.LIMIT
    rows = rows_of(vmm)
    with files.folder("rim-manifest.") as scratch:
        maker = Maker(vmm, scratch, all_words)
        try:
            given = guests_of(said)
            cases = [maker.case(each, number) for number, each in enumerate(given)]
            return search(maker, given, cases, rows, limit, out)
        finally:
            maker.drop()


def with_features(work: Work) -> Host:
    """What is known of the host, with what the words of the processor say."""
    about = work.host
    for cpu in work.lists["cpu"]:
        said = {key: fitting[0] for key, fitting in work.vmm.features(cpu.text).items() if about[key] is None}
        about = replace(about, values=about.values | said)
    return about


def search(maker: Maker, given: Sequence[Given], cases: list[Case], rows: Mapping[str, layout.Row], limit: int, out: str) -> int:
    work = maker.works[0]
    names = {row.name for each in maker.works for row in each.table if row.ways}
    is_own = {"own_dtb" in each.said for each in maker.works}
    names -= {"dtb_file"} if is_own == {False} else {"psci"} if is_own == {True} else set()
    choices = settle.choices_of(cases, with_features(work), work.chosen, names, maker.has_pmu)
    ending.say("rim-manifest", f"{choices.count:,} combinations of {len(choices.rows)} rows, the width and four numbers; "
               f"{len(choices.structures):,} of the rows are measured in other ways")
    algo = None if any(each.what.others.realm and each.what.others.realm.algorithm for each in maker.works) else cases[0].value.algo
    outcome = settle.search(cases, choices, limit, algo)
    if outcome.settled is None:
        print("\n".join(not_found_lines(outcome, cases)))
        return 1
    by = (f"rim-manifest settle: {cases[0].value.algo} {cases[0].value.digits[:DIGITS]}.. of {cases[0].launch.name}"
          + f" and {len(cases) - 1} more" * (len(cases) > 1))
    about = host.read(given[0].said["host"], rows, False)
    made = file_text(about, rows, outcome.settled, by)
    path = os.path.join(maker.scratch, "host.toml")
    files.write(path, made.encode())
    verify(maker, given, cases, path)
    lines = found_lines(outcome, outcome.settled, rows, cases)
    if names := untried(about, rows, outcome.settled):
        lines.append(f"not settled: {', '.join(names)}: no guest has {'this row' if len(names) == 1 else 'these rows'}")
    print("\n".join(lines), flush=True)
    files.put(out, made.encode())
    return 0


def run(all_words: list[str]) -> int:
    """`rim-manifest settle` with its words after that one."""
    if not all_words or all_words[0] in ("-h", "--help"):
        print(help_text(), file=sys.stdout if all_words else sys.stderr)
        return 0 if all_words else 2
    if all_words[0] not in HYPERVISORS:
        raise WrongWords(f"settle: {shown(all_words[0])}, expected {', '.join(HYPERVISORS)} or --help")
    vmm = HYPERVISORS[all_words[0]]
    said = words.parse(options_of(vmm), all_words[1:], vmm.refuse_before)
    if "help" in said:
        print(help_text())
        return 0
    if "folder" in said:
        go_to(said["folder"])
    return do(vmm, said, ["rim-manifest", "settle", *all_words])
