"""One run: what is asked for, the host, and the folder that is being made."""
from __future__ import annotations

import hashlib
import os
import shutil
from collections.abc import Callable, Mapping
from dataclasses import asdict, replace

from outside import ending, files, parameters, programs
from outside.faults import Fault, WrongWords
from outside.rim import REPORT, Rim, started
from outside.texts import shown, visible

from . import asked, checks, derived, dumps, host, image, launches, layout, manifest, measure, names, realm, settle, sorting, ways, words
from .asked import Asked
from .folder import Folder
from .guest import PAGE, Blob, up
from .hypervisor import Hypervisor
from .launches import Launch
from .layout import Row
from .measured import Content
from .rows import PSCI
from .settle import Alternatives
from .ways import Chosen


def rows_of(vmm: Hypervisor) -> dict[str, Row]:
    """The rows that a realm may change, of all tables of a hypervisor."""
    return layout.rows_with_ways([vmm.TABLE, vmm.FIRMWARE])


def blobs(made: Folder, rim: Rim, vmm: Hypervisor, paths: dict[str, list[tuple[str, str]]], version: str) -> dict[str, list]:
    """Kernels and initrds, copied into the folder."""
    def named(key: str) -> list[tuple[str, str, str]]:
        several = len(paths[key]) > 1
        return [(path, label, f"{key}-{names.short(label, names.MOST_FILE)}" if several else key) for label, path in paths[key]]

    if paths.get("firmware"):
        loaded = [image.firmware(made, path, label, name) for path, label, name in named("firmware")]
    else:
        loaded = [image.kernel(made, rim, path, label, name, vmm, version) for path, label, name in named("kernel")]
    found: dict[str, list] = {"kernel": loaded}
    found["initrd"] = [] if paths.get("firmware") else [image.initrd(made, path, label, name) for path, label, name in named("initrd")]
    return found


def set_width(launch: Launch, width: Chosen, most: int, source: str):
    """The width of an IPA: what is said, or what the rule gives for the host."""
    places = launch.places
    if width.name.isdigit():
        places.s2sz, places.width_from = int(width.name), width.source if width.source.startswith("--") else "row s2sz"
    if places.s2sz > most:
        raise Fault(f"{places.width_from}: {places.s2sz}, expected at most {most}, {source}")


def tree_blob(made: Folder, launch: Launch, dumped: dumps.Dump, taken: Mapping[str, str], known: dict[tuple, Blob], is_handed_in: bool) -> Blob:
    """The file of a devicetree by the alternatives of its rows; those of the same bytes are one file."""
    dump, pages = dumped.by(taken["psci"]), taken["dtb_pages"]
    data, key = dump.data, (dump.packed, dump.length, pages)
    if pages == "used":
        data = data[:up(dump.tree.used, PAGE)]
        if len(dump.packed) > len(data):
            raise Fault(f"{dump.path}: there is something after its blocks, expected zeros for --dtb-pages used")
    if key not in known:
        name = f"dtb-{len(known) + 1}"
        origin = f"made for launch {launch.name}, {dumped.derived}" if dumped.derived else f"made for launch {launch.name}"
        is_copied = is_handed_in and not dumped.derived
        origin = f"copied from \"{dump.path}\"" if is_copied else origin
        origin += ", with the psci method \"smc\" in the place of \"hvc\"" * (dump is not dumped)
        source = "" if dumped.derived else hashlib.sha256(dumped.data).hexdigest()
        known[key] = made.put(name, data, name, origin, dump.source if is_copied else "", source)
    return known[key]


def checked(vmm: Hypervisor, found: list[Launch], trees: dict[str, dumps.Dump], about_host: host.Host, is_handed_in: bool):
    """The five checks of each launch."""
    wrong = {launch.name: checks.all_of(vmm, launch, trees[launch.name], bool(about_host["pmu"])) for launch in found}
    paths = {launch.name: trees[launch.name].path for launch in found} if is_handed_in else {}
    if lines := checks.faults(wrong, paths):
        raise Fault(*lines)


def host_of(of: host.Host, chosen: dict[str, Chosen]) -> dict[str, object]:
    """What the record says of the machine: each number with where it comes from, and each row that a realm may change, with what is taken, who says
    so, and what else the machine may do."""
    numbers = [{"name": key, "value": of[key], "from": of.notes.get(key) or of.path} for key in manifest.OF_MACHINE if of[key] is not None]
    rows = [{"name": name, "taken": each.name, "does": each.way.does, "likely": each.way.likely, "from": each.source,
             "not_settled": of.not_settled.get(name, [])} for name, each in chosen.items()]
    return {"path": of.path, "settled_by": of["settled_by"], "numbers": numbers, "rows": rows}


def record_of(vmm: Hypervisor, groups: list[tuple[str, launches.Group]], program_line: str, what: Asked) -> dict[str, object]:
    """What the record says: the command line, where each file is of, and each launch."""
    blobs_ = {blob.file: blob for _, group in groups for launch in group.launches for blob in launch.files if blob.path}

    def one(name: str, launch: Launch) -> dict[str, object]:
        guest = launch.guest
        loaded = {"kernel": None if guest.firmware else guest.loaded.file, "firmware": guest.firmware and guest.firmware.file}
        return {"name": launch.name, "manifest": name, "words": vmm.final_words(guest)} | loaded | {
            "initrd": guest.initrd and guest.initrd.file, "append": guest.append.text, "rest": what.others.kept, "dropped": what.others.dropped}

    return {"hypervisor": vmm.NAME, "program": program_line, "line": what.line and what.line.words,
            "sources": {name: {"path": blob.path, "sha256": blob.source} for name, blob in blobs_.items()},
            "launches": [one(name, launch) for name, group in groups for launch in group.launches]}


def derived_lines(of_dumps: Mapping[str, dumps.Derived | None], trees: Mapping[str, dumps.Dump]) -> list[str]:
    """Returns a line that says how many devicetrees are derived, and from which dumps."""
    paths = sorted({visible(each.path) for each in of_dumps.values() if each})
    count = len({(each.packed, each.length) for each in trees.values()})
    return [f"{len(of_dumps)} of {count} devicetrees are derived from {sorting.listed(paths)}"] if paths else []


def first_faults(*steps: Callable[[], object]):
    """Does some steps, and raises the wrong words of all of them at once."""
    found: list[str] = []
    for step in steps:
        try:
            step()
        except WrongWords as why:
            found += why.lines
    if found:
        raise WrongWords(*found)


class Work:
    """One run: what is asked for, the host, and the folder that is being made."""

    def __init__(self, vmm: Hypervisor, what: Asked, all_words: list[str], is_settled: bool = True):
        self.vmm, self.what, self.said, self.words, self.is_settled = vmm, what, what.said, all_words, is_settled
        self.is_checked = self.is_told = True
        self.lists: dict[str, list] = {}
        first_faults(what.others.raise_faults, self.read_values)
        self.paths = asked.paths(vmm, what)
        said, others = self.said, what.others
        rows = rows_of(vmm)
        ways.said_by_options(said, rows)
        asked.algorithms(said, others.realm, Chosen(rows["hash"], rows["hash"].names[0], ""))
        self.check_source()
        self.out = said["out"]
        path = words.required(said, "host", "--host", f"the file that says what only the machine knows: {host.example()}")
        self.host = asked.of_realm(host.read(path, rows, is_settled), others.realm)
        self.chosen = ways.chosen(rows, said, self.host.ways, self.host.name)
        self.lists["algo"], self.algo_from = asked.algorithms(said, others.realm, self.chosen["hash"])
        asked.check_features(vmm, self.lists["cpu"], others, self.host, is_settled)
        self.lists["append"] = words.appends("--append", asked.command_lines(what))
        self.program_name, self.program_line, self.version = "", "", str(self.host["hypervisor_version"] or "")
        self.rim = Rim("")
        ending.say("rim-manifest", *(f"warning: {each}" for each in asked.warnings(vmm, what, self.lists["machine"])))

    def read_values(self):
        """Reads the values of the words, and refuses those that do not fit."""
        if "firmware" in self.said:
            asked.check_firmware(self.vmm, self.said)
        else:
            words.required(self.said, "kernel", option_names(self.vmm, "kernel"), "a kernel")
        self.lists = asked.values(self.vmm, self.what)
        for machine in self.lists["machine"] if not self.what.others.faults else ():
            self.vmm.check_realm(machine.text, self.what.others)

    def check_source(self):
        """Devicetrees are made or handed in, or are a file of the words; none is made where that would open what a guest has."""
        given = [source_name(self.vmm, key) for key in SOURCES if key in self.said]
        if len(given) > 1:
            raise WrongWords(f"{' and '.join(given)}: both are given, expected one of them for the devicetrees")
        if not given:
            names = [source_name(self.vmm, key) for key in SOURCES if key == "dtb" or any(option.key == key for option in self.vmm.OPTIONS)]
            raise WrongWords(f"{' and '.join(names)}: none is given, expected one of them for the devicetrees")
        if "program" not in self.said and "approximate_cpu" in self.said:
            raise WrongWords(f"--approximate-cpu: no devicetree is made here, expected {option_names(self.vmm, 'program')} too")
        if "program" in self.said and self.what.others.opens:
            opens = sorting.listed([shown(str(each)) for each in self.what.others.opens])
            raise WrongWords(f"{opens}: in the devicetree, and making one here would open what a guest has open or be another one, expected --dtb "
                             "with the devicetree")

    def find_programs(self):
        """Finds `rim`, and looks at the version of the hypervisor's program, which has to be the one that is deployed."""
        self.rim = started()
        if "program" not in self.said:
            return
        path = self.program_name = self.said["program"]
        self.said["program"] = shutil.which(path) or path
        self.program_line, version = dumps.version(self.said["program"])
        if self.version and version != self.version:
            raise Fault(f"{visible(path)}: it is of version {shown(version or self.program_line)}, "
                        f"expected {self.version}, hypervisor_version of {self.host.name}")
        self.version = version

    def launches(self, made: Folder) -> list[Launch]:
        self.lists |= blobs(made, self.rim, self.vmm, self.paths, self.version)
        if "no_initrd" in self.said or not self.lists["initrd"]:
            self.lists["initrd"].append(None)
        for key, why in self.vmm.FACTS.host_needs.items():
            if self.is_settled and not self.chosen["s2sz"].name.isdigit():
                self.host.require(key, why)
        most = int(self.host["s2sz_max"] or 48)
        guests = launches.combinations(self.lists, {name: each.name for name, each in self.chosen.items()}, most, self.handed(),
                                       self.said.get("firmware_address", ""))
        found = launches.named(guests, self.lists, self.table, "short_names" in self.said)
        for launch in found:
            set_width(launch, self.chosen["s2sz"], most, f"s2sz_max of {self.host.name}")
        return found

    def handed(self) -> str:
        """The kernel that firmware is given, where that is started."""
        paths = self.paths["kernel"] if "firmware" in self.said else []
        return os.path.abspath(paths[0][1]) if paths else ""

    @property
    def table(self) -> list[Row]:
        """The table by which things have their places."""
        return self.vmm.FIRMWARE if "firmware" in self.said else self.vmm.TABLE

    def taken(self) -> dict[str, Chosen]:
        """The rows that a realm may change, of these launches, with what is taken of them."""
        names = {row.name for row in self.table}
        is_own = "own_dtb" in self.said
        without = {"dtb_file": not is_own, "psci": is_own, "hash": self.algo_from != "rule hash"}
        without |= {key: not self.host[flag] for flag, key in parameters.FLAGGED}
        return {name: each for name, each in self.chosen.items() if name in names and not without.get(name)}

    def approximate(self) -> dict[str, Chosen]:
        """What the manifest says of devicetrees that are only like those of the realm, as of a row."""
        model = self.said.get("approximate_cpu")
        row = Row("approximate_cpu", "", None, "", layout.MEMORY, (layout.Way(str(model), LIKE, 0),))
        return {row.name: Chosen(row, str(model), "--approximate-cpu")} if model else {}

    def trees(self, made: Folder, found: list[Launch]) -> dict[str, dumps.Dump]:
        def differences(launch: Launch, dump: dumps.Dump) -> list[checks.Difference]:
            return checks.of_tree(self.vmm, launch, dump, bool(self.host["pmu"]) if self.is_settled else None)

        with files.folder("rim-manifest.") as scratch:
            reader = dumps.Reader(self.rim, scratch)
            if "own_dtb" in self.said:
                return dumps.own(self.said["own_dtb"], self.chosen["dtb_file"].name == "padded", reader, found)
            if "program" in self.said:
                return self.made_here(dumps.Program(self.vmm, self.said["program"], self.what.others.kept, made.path, self.said.get("approximate_cpu", "")), reader, found)
            program = dumps.Program(self.vmm, self.what.line and self.what.line.program or self.vmm.FACTS.dumped_by, self.what.others.kept, made.path)
            return derived.completed(program, reader, found, dumps.handed_in(self.said["dtb"], reader, found, differences), differences)

    def made_here(self, program: dumps.Program, reader: dumps.Reader, found: list[Launch]) -> dict[str, dumps.Dump]:
        """The devicetrees that the program makes; if this machine cannot make those of a realm, a fault with what to do instead."""
        try:
            return dumps.made(program, reader, found)
        except dumps.NotMade as why:
            lacking = program.lacking(found[0].guest)
            if not lacking:
                raise
            has_option = self.is_settled and any(option.key == "approximate_cpu" for option in self.vmm.OPTIONS)
            instead = f"; or give --approximate-cpu MODEL for {LIKE}" if has_option else ""
            fault = Fault(f"{why.lines[0]}; {' and '.join(lacking)}: run the commands below on the machine of the realm, and give what they "
                          f"write by the options in the last line, without {option_names(self.vmm, 'program')}{instead}")
            fault.block = dumps.commands(program, self.program_name, found)
            raise fault from None

    def place_files(self, made: Folder, found: list[Launch], trees: dict[str, dumps.Dump]):
        """Writes the devicetrees and the stubs, and makes of each launch what a manifest says of it."""
        known: dict[tuple, Blob] = {}
        stubs: dict[bytes, Blob] = {}
        zeros: Blob | None = None
        taken = {name: each.name for name, each in self.chosen.items()}
        numbers = realm.numbers_of(self.host.values, taken, self.host.name)
        for launch in found:
            launch.tree = tree_blob(made, launch, trees[launch.name], taken, known, "program" not in self.said)
            data = launch.places.stub_bytes
            if launch.places.stub is not None:
                launch.stub = stubs.get(data) or made.put(f"stub-{len(stubs) + 1}", data, "", "rule stub_bytes")
                stubs[data] = launch.stub
            launch.realm = realm.of_parts(self.vmm, realm.Parts(launch.guest, launch.places, launch.tree, launch.stub), numbers, taken)
            if any(item.file == realm.ZEROS for item in launch.realm.items):
                launch.zeros = zeros = zeros or made.put(realm.ZEROS, b"\0", "", "a zero: the pages of a host's page before a blob")

    def alternatives(self, launch: Launch, dump: dumps.Dump) -> Alternatives:
        """A launch by the alternatives of its rows. Its files are as long as they would be, and none is written."""
        assert launch.tree is not None
        name = self.chosen["dtb_file"].name if dump.is_own else "given"
        lengths = {"whole": dump.length, "used": up(dump.tree.used, PAGE)}
        dumped = {psci: dump.by(psci) for psci in PSCI.names}
        trees = {(name, psci, pages): replace(launch.tree, file=psci if each is not dump else "dumped", length=length) for psci, each in dumped.items()
                 for pages, length in lengths.items() if len(each.packed) <= length}
        data = layout.places(self.table, replace(launch.guest, ways={"stub": "measured"})).stub_bytes
        stub = launch.stub or Blob("stub", "", "", len(data), "", "", "")
        contents = {each.file: Content(each.file, each.length) for each in (*launch.files, stub)}
        contents |= {name: Content(name, len(dump.packed)) for name in PSCI.names} | {realm.ZEROS: Content(realm.ZEROS, 0)}
        return Alternatives(self.vmm, self.table, launch, trees, {data: stub}, contents)

    def unsettled(self, found: list[Launch], trees: dict[str, dumps.Dump]) -> list[str]:
        """A warning for each row that the host's file has not settled, if its other alternatives change a launch."""
        taken, lines = self.taken(), []
        names = {name: each.name for name, each in taken.items()}
        for name, others in self.host.not_settled.items():
            if name not in taken or taken[name].is_of_option:
                continue
            for launch in found:
                if some := settle.differing(self.alternatives(launch, trees[launch.name]), taken[name].row, others, names):
                    lines.append(f"{self.host.name}: row {name} is not settled, and launch {launch.name} has another measurement with "
                                 f"{' or '.join(some)}: settle it with such a guest, or choose with --row {name}=..")
                    break
        return lines

    def made_by(self, are_derived: bool) -> str:
        if "program" in self.said:
            seeds = self.vmm.FACTS.no_seeds
            among = f", {seeds} among them" if seeds else ""
            return (f"The devicetrees were made by {shown(self.program_line)}, twice each. Another version makes others, so start guests "
                    f"by this one, and by the words of the launch{among}.")
        if "own_dtb" in self.said:
            return "The devicetree is the file of -dtb, and QEMU does not edit it for a realm: see the row dtb_file."
        some = ". Those of other launches are derived from them, as the comments of their files say" if are_derived else ""
        return f"The devicetrees were handed in by --dtb and are placed as they are, but for the row psci{some}."

    def write(self, made: Folder) -> tuple[list[str], dict[str, object]]:
        """All of the work, into a folder that is not in its place yet; lines about it, and what its record says."""
        found = self.launches(made)
        trees = self.trees(made, found)
        if self.is_checked:
            checked(self.vmm, found, trees, self.host, "program" not in self.said)
        self.place_files(made, found, trees)
        loaded = (each.by(self.chosen["psci"].name) for each in trees.values())
        different = {(each.packed, each.length): each.tree for each in loaded}
        warnings = [*checks.warnings(list(different.values())), *checks.of_console(found), *self.unsettled(found, trees)]
        line = self.what.line.words if self.what.line and not self.what.line.program else []
        warnings += [f"--approximate-cpu: these are {LIKE}" for _ in self.approximate()]
        of_dumps = {launch.tree.file: each.derived for launch in found if launch.tree and not launch.tree.path and (each := trees[launch.name]).derived}
        about = manifest.About(self.vmm, self.words, line, self.host, self.taken() | self.approximate(), self.algo_from, self.table,
                               self.made_by(bool(of_dumps)), warnings,
                               ["-dtb", self.said["own_dtb"]] if "own_dtb" in self.said else [])
        groups = launches.groups(found)
        manifests = ["manifest.toml"] if len(groups) == 1 else [f"manifest-{number}.toml" for number in range(1, len(groups) + 1)]
        for number, (name, group) in enumerate(zip(manifests, groups), 1):
            part = f", part {number} of {len(groups)}" if len(groups) > 1 else ""
            made.text(name, manifest.manifest(group, about, part))
        made.script("measure", os.path.join(os.path.dirname(os.path.realpath(__file__)), "measure.py"))
        if self.is_told:
            ending.say("rim-manifest", *(f"warning: {warning}" for warning in warnings), *derived_lines(of_dumps, trees))
        lines = [f"{visible(os.path.join(self.out, name))}: {group}" for name, group in zip(manifests, groups)]
        record = record_of(self.vmm, list(zip(manifests, groups)), self.program_line, self.what)
        return lines, record | {"derived": {name: asdict(each) for name, each in of_dumps.items() if each}, "host": host_of(self.host, about.chosen)}

    def measured(self, folder: str) -> tuple[int, str]:
        """Measures the launches of a folder that is not in its place yet. Returns the status of `rim measure` and the report."""
        reports, statuses = [], []
        for name in measure.manifests(folder):
            said = ["--json"] if "json" in self.said else []
            ran = programs.run([self.rim.path, "measure", "--explain", *said, name], REPORT, folder)
            if ran.status not in (0, 1):
                why = ran.said.strip().removeprefix("rim: ")
                raise Fault(f"{visible(os.path.join(self.out, name))}: {why}; expected a manifest that is measured")
            reports.append(ran.out)
            statuses.append(ran.status)
        return max(statuses), measure.joined(reports, "json" in self.said).decode()


def option_names(vmm: Hypervisor, key: str) -> str:
    return next(", ".join(option.names) for option in vmm.OPTIONS if option.key == key)


# What --approximate-cpu makes.
LIKE = ("devicetrees of a plain guest with that processor, without KVM and rme-guest, in which compatible, caches and PMU of the processors, "
        "the interrupt controller and windows may differ from the realm's, and so the measurement")
# By the keys of the options, where devicetrees come from.
SOURCES = ("program", "own_dtb", "dtb")


def source_name(vmm: Hypervisor, key: str) -> str:
    return "--dtb" if key == "dtb" else option_names(vmm, key) if any(option.key == key for option in vmm.OPTIONS) else ""


def go_to(folder: str):
    """Has all paths read as from a folder; that of `rim` is of where it was started. A program's name alone is one of the PATH."""
    program = os.environ.get("RIM", "")
    if os.sep in program:
        os.environ["RIM"] = os.path.abspath(program)
    with files.faults_of(folder, "a folder"):
        os.chdir(folder)
