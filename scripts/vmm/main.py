"""The order of the work: words, files, places, devicetrees, checks, manifests."""
import os
import sys

from outside import ending, files
from outside.faults import WrongWords
from outside.texts import shown, visible
from outside.words import VERSION

from . import asked, layout, settling, sorting, words
from .asked import Asked
from .folder import Folder
from .hypervisor import Hypervisor
from .hypervisors import ALL, HYPERVISORS
from .work import Work, first_faults, go_to

COMMON_USE = "--host FILE (--out DIR | --measure) [OPTIONS..]"
ABOUT = "rim-manifest: from a hypervisor's words to a manifest of rim\n\nusage: " + "\n       ".join(
    [f"rim-manifest {each.NAME} {COMMON_USE} {each.USAGE}" for each in ALL]
    + [settling.USE, "rim-manifest HYPERVISOR --explain [--line FILE] [-- WORDS..]", "rim-manifest HYPERVISOR --help | --rules",
       "rim-manifest --help | --version"]) + "\n"
LISTS = """
A hypervisor's command line comes after `--`, its program first, or is read of a file by --line. It is one launch. What it says, an
option before it may say in its place: --each-smp 1,2,4 or --each-kernel NAME=FILE, and the same by other names. The words may also be
given as options, without a line.

An option marked [list] may be given more than once. Where it says LIST, commas part values too. There is a launch for each
combination. Its name has RAM, processors, kernel, initrd, command line and algorithm, and machine and processor model where there are
several of them. A kernel or an initrd is called NAME where NAME=FILE says so, else as its file is.

`-append` and its like take a text; --append-file takes a file with one command line a line.

DIR gets manifest.toml, or manifest-1.toml and so on where more than 64 files are needed; copies of kernels and initrds, so that
DIR holds wherever it is moved and whatever becomes of the originals; the devicetrees; `measure`, a script that measures all and joins
the reports; and record.json, which says the words of each launch, and the digest of each file that was made.

Kernels and devicetrees are read by `rim`: the program that the variable RIM names, or `rim` beside this script or of the PATH.

Status: 0 done, 1 a launch is refused by --measure, 2 wrong words, 3 a fault. A fault is a line on standard error, and then nothing is written.
"""


def options_of(vmm: Hypervisor) -> list[words.Option]:
    return vmm.OPTIONS + words.COMMON


def help_of(vmm: Hypervisor) -> str:
    return f"usage: rim-manifest {vmm.NAME} {COMMON_USE} {vmm.USAGE}\n\n{vmm.TITLE}\n\n{words.help_of(options_of(vmm))}\n{LISTS}"


def rules_of(vmm: Hypervisor) -> str:
    """The tables of a hypervisor: of its layout, with a kernel and with firmware, and of its words."""
    firmware = layout.shown(vmm.FIRMWARE, "\n\nWith firmware:\n") if vmm.FIRMWARE else ""
    return layout.SURE + layout.shown(vmm.TABLE) + firmware + "\n\n" + sorting.shown_table(vmm.GRAMMAR.table)


# What --explain prints of a dump that is handed in.
OF_A_DUMP = "the devicetree of each launch that it fits; those of other launches are derived from it if each byte of them is known"


def explain(vmm: Hypervisor, what: Asked) -> int:
    """Prints what each word of a command line does, and refuses those that a launch cannot be made of."""
    lines = [(effect.value, text, why) for text, effect, why in what.others.explained()]
    lines += [("dump", f"--dtb {visible(path)}", OF_A_DUMP) for path in what.said.get("dtb", []) if vmm.FACTS.dumped_by]
    if "approximate_cpu" in what.said:
        machine, cpu = vmm.read_machine(what.said)[0].text, vmm.read_cpu(what.said)[0].text
        like = vmm.approximated(machine, cpu, what.others.kept, what.said["approximate_cpu"])
        lines += [("dump", " ".join(map(visible, like.left_out)), "a dump by --approximate-cpu is not given these"),
                  ("dump", visible(f"-machine {like.machine} -cpu {like.cpu}"), "a dump by --approximate-cpu has these instead")]
    print("".join(f"{effect:<9} {text}\n{'':<10}{why}\n" for effect, text, why in lines), end="", flush=True)
    first_faults(what.others.raise_faults, lambda: asked.values(vmm, what))
    return 0


def do(vmm: Hypervisor, what: Asked, all_words: list[str]) -> int:
    """Writes the folder, and measures it where that is asked for."""
    work = Work(vmm, what, all_words)
    made = Folder(work.out, "force" in what.said)
    try:
        made.begin()
        work.find_programs()
        lines, record = work.write(made)
        status, report = work.measured(made.path) if "measure" in what.said else (0, "\n".join(lines) + "\n")
        made.may_be_written()
        # The output comes before the folder gets its place: if printing fails, there is no folder either.
        print(report, end="", flush=True)
        made.finish(record)
    finally:
        made.drop()
    return status


def of_hypervisor(vmm: Hypervisor, all_words: list[str]) -> int:
    said = words.parse(options_of(vmm), all_words[1:], vmm.refuse_before)
    if "help" in said or "rules" in said:
        print(help_of(vmm) if "help" in said else rules_of(vmm))
        return 0
    if "folder" in said:
        go_to(said["folder"])
    what = asked.asked(vmm, said)
    if "explain" in said:
        return explain(vmm, what)
    if "json" in said and "measure" not in said:
        raise WrongWords("--json: it is of the report, expected --measure too")
    if said.get("out") == "":
        raise WrongWords('--out: "", expected the folder that is written')
    every = ["rim-manifest", *all_words]
    if "out" in said or "measure" not in said:
        words.required(said, "out", "--out", "the folder that is written, or --measure")
        return do(vmm, what, every)
    with files.folder("rim-manifest.") as scratch:
        what.said["out"] = os.path.join(scratch, "realms")
        return do(vmm, what, every)


def run(all_words: list[str]) -> int:
    if not all_words or all_words[0] in ("-h", "--help"):
        print(ABOUT + LISTS, end="", file=sys.stdout if all_words else sys.stderr)
        return 0 if all_words else 2
    if all_words == ["--version"] or all_words == ["-V"]:
        print(f"rim-manifest {VERSION}")
        return 0
    if all_words[0] == "settle":
        return settling.run(all_words[1:])
    if all_words[0] not in HYPERVISORS:
        raise WrongWords(f"{shown(all_words[0])}, expected {', '.join(HYPERVISORS)}, settle or --help")
    return of_hypervisor(HYPERVISORS[all_words[0]], all_words)


def main(all_words: list[str]) -> int:
    """The status of a run; what stops it is a line on standard error."""
    return ending.status_of("rim-manifest", lambda: run(all_words))
