"""What is asked for: the options of rim-manifest, and a hypervisor's command line, which is after `--` or in a file. An option that says the
same counts in its place. A command line is one launch: only options ask for several."""
from __future__ import annotations

from dataclasses import dataclass, field, replace

from outside import files, parameters
from outside.faults import Fault, WrongWords
from outside.texts import shown, visible

from . import host, lines, names, words
from .guest import Word
from .host import Host
from .hypervisor import Hypervisor
from .sorting import Realm, Sorted
from .ways import Chosen

# How long a file of command lines may be: each is a launch, of which a manifest takes 1,024.
MOST_LINES = 4 << 20


@dataclass(frozen=True)
class Line:
    """A hypervisor's command line: its program where that may be started, and its words."""

    program: str
    words: list[str]


def line_of(vmm: Hypervisor, said: dict) -> Line | None:
    """The command line that is given; None where there is none. A program that a file names is not started: a file may be somebody else's."""
    if said["rest"] and "line" in said:
        raise WrongWords("the words after `--` and --line: both are given, expected one of them")
    if "line" in said:
        return Line("", lines.of_file(said["line"], vmm.PROGRAM, vmm.GRAMMAR.title, "folder" in said))
    if not said["rest"] or said["rest"][0].startswith("-"):
        return None
    return Line(*lines.of_words(said["rest"], vmm.PROGRAM, vmm.GRAMMAR.title))


@dataclass
class Asked:
    """What the options and the command line say, by the keys of the options; what the words that are no options do; and the keys that the
    command line alone says."""

    said: dict
    others: Sorted
    line: Line | None = None
    of_line: set[str] = field(default_factory=set)


def asked(vmm: Hypervisor, said: dict) -> Asked:
    """What is asked for; nothing is refused yet of the words that are no options."""
    line = line_of(vmm, said)
    if line is None:
        return Asked(said, vmm.sort_rest(said["rest"]))
    others = vmm.sort(line.words)
    of_line = set(others.said) - set(said)
    alone = {option.key for option in vmm.OPTIONS if not option.many}
    said = {key: texts[-1] if key in alone else texts for key, texts in others.said.items()} | said
    if line.program and not {"program", "dtb", "own_dtb"} & set(said) and any(option.key == "program" for option in vmm.OPTIONS):
        said["program"] = line.program
    return Asked(said, others, line, of_line)


def command_lines(what: Asked) -> list[str]:
    """The kernel's command lines of the options and of the files; of a hypervisor's line where these say none."""
    said = what.said
    texts = [] if "append" in what.of_line and "append_file" in said else list(said.get("append", []))
    for path in said.get("append_file", []):
        kind = "command lines, one a line"
        found = [text for text in files.text_of(path, files.read(path, MOST_LINES, kind), kind).split("\n") if text]
        if not found:
            raise Fault(f"{visible(path)}: it has no command line, expected one a line")
        texts += found
    return texts or [""]


def algorithms(said: dict, realm: Realm | None, row: Chosen) -> tuple[list[str], str]:
    """The hash algorithms: those of --algo, which the words of the realm may say too, or else that of the row `hash`; and which of these
    says it."""
    if realm is None or realm.algorithm is None:
        return (words.algorithms(said["algo"]), "--algo") if "algo" in said else ([row.name], "rule hash")
    given = words.algorithms(said.get("algo", [realm.algorithm]))
    if given != [realm.algorithm]:
        raise WrongWords(f"--algo: {shown(','.join(given))}, expected {realm.algorithm}, which {realm.source} says")
    return given, realm.source


def of_realm(about_host: Host, realm: Realm | None) -> Host:
    """The host with the personalization value that the words of the realm say."""
    value, has = realm and realm.personalization, about_host["rpv"]
    if realm is None or value is None or has == value:
        return about_host
    if has is not None and str(has).lower() != value:
        raise Fault(f"{about_host.name}: rpv = {shown(str(has))}, expected that of {realm.source}, {shown(value)}, or none")
    return replace(about_host, values=about_host.values | {"rpv": value}, notes={"rpv": realm.source})


def check_features(vmm: Hypervisor, cpus: list[Word], others: Sorted, about_host: Host, is_settled: bool = True):
    """What the words of a processor say, the host's file has to say too; one that is not settled yet may say nothing."""
    wrong = {}
    said = [(f"-cpu: {shown(cpu.text)}", vmm.features(cpu.text)) for cpu in cpus] + list(others.features.items())
    for source, key, fitting in [(source, key, fitting) for source, features in said for key, fitting in features.items()]:
        if about_host[key] not in fitting and (is_settled or about_host[key] is not None):
            has = f"has {key} = {host.value_shown(about_host[key])}" if about_host[key] is not None else f"has no {key}"
            fits = " or ".join(host.value_shown(value) for value in fitting if value is not None)
            wrong[key] = f"{source}, and {about_host.name} {has}, expected {f'{key} = {fits}' if fits else f'no {key}'} there, or another processor"
    # a number is wrong only because its flag is
    dependent = {key for flag, key in parameters.FLAGGED if flag in wrong}
    if wrong:
        raise Fault(*(line for key, line in wrong.items() if key not in dependent))


def values(vmm: Hypervisor, what: Asked) -> dict[str, list]:
    """The values of a launch's words. A command line has one of each: commas part several only in options."""
    said = what.said
    found: dict[str, list] = {"machine": vmm.read_machine(said), "cpu": vmm.read_cpu(said), "smp": vmm.read_smp(said),
                              "memory": vmm.read_memory(said)}
    for key in what.of_line & set(found):
        if len(found[key]) > 1:
            option = next(option for option in vmm.OPTIONS if option.key == key)
            raise WrongWords(f"{option.names[0]}: {shown(said[key][0])}: several values in a command line, expected one; {option.names[-1]} "
                             "before `--` asks for several")
    return found


def check_firmware(vmm: Hypervisor, said: dict):
    """Refuses what does not go with firmware."""
    names = next(", ".join(option.names) for option in vmm.OPTIONS if option.key == "firmware")
    if len(said.get("kernel", [])) > 1:
        raise WrongWords(f"{names}: it is given, and {len(said['kernel'])} kernels are, expected at most one: none of them is measured then")
    if not vmm.FACTS.hands_over and (beside := [key for key in ("kernel", "initrd") if key in said]):
        raise WrongWords(f"{names}: it is given, and so is {' and '.join(beside)}, expected firmware alone, or a kernel")


def paths(vmm: Hypervisor, what: Asked) -> dict[str, list[tuple[str, str]]]:
    """Names and paths of kernels, initrds and firmware."""
    found = {}
    if "firmware" in what.said:
        found["firmware"] = names.files("firmware", [what.said["firmware"]], True)
    for key in ("kernel", "initrd"):
        option = next(option for option in vmm.OPTIONS if option.key == key)
        found[key] = names.files(option.names[0], what.said.get(key, []), key in what.of_line)
    return found


def warnings(vmm: Hypervisor, what: Asked, machines: list[Word]) -> list[str]:
    """What is done otherwise than the words say, or might be meant otherwise."""
    seeds = vmm.FACTS.no_seeds
    found = list(what.others.warnings)
    if "firmware" in what.said:
        found.append("firmware is started: the measurement covers it, the devicetree, RAM and processors. Kernel, initrd and command line are "
                     "of the extensible measurements, which are not computed here" + ("; those of the words are handed to the firmware, and no "
                                                                                      "pages of them are measured" * ("kernel" in what.said)))
    if len(machines) > 1:
        found.append(f"-machine has {len(machines)} machines: there are launches for each, where QEMU would make one of them")
    if what.line and seeds and not any(word.partition("=")[0] in machines[0].text for word in (seeds, "dtb-kaslr-seed")):
        found.append(f"the command line has no {seeds}, which is added: start the guest with it too, or each start has another devicetree")
    return found
