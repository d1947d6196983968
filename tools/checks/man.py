#!/usr/bin/env python3
"""Checks that the man pages and tools/package/command_table.py name what the programs have.

    tools/checks/man.py           what docs/rim.1 has to name, one a line
    tools/checks/man.py --check   status 1 where something is not named

docs/rim.1 has to name each command and option of the command line, each exit status of `rim --help` and 127, the word of
each fault and of each refusal, and each key of a manifest that docs/FORMATS.md lists. Its SYNOPSIS has a form for each command, with
its operands in their order and its options, and no form of another command. The table of the shells' completions has
to have the same commands, their operands, and the same options. What the table says of `rim-manifest` is compared with the
help texts of that script, and its man page has to name all of it; its SYNOPSIS has a form for each command. The man pages of
`rim-match`, `rim-compare`, `rim-page`, `rim-verify` and `rim-endorse` have to name the options of their help texts, which the table has too.
"""
import itertools
import pathlib
import re
import subprocess
import sys

TOP = pathlib.Path(__file__).resolve().parents[2]
sys.path.insert(0, str(TOP / "tools" / "package"))

import command_table  # noqa: E402, the path is set above

CRATES = TOP / "crates"
FAULTS = ["rim_files/src/fault.rt", "rim_manifest/src/fault.rt", "rim_pages/src/fault.rt", "rim_accepted/src/audit_fault.rt",
          "rim_show/src/fault.rt", "rim_replay/src/fault.rt"]
DEFINITION = CRATES / "rim_words/src/definition.rt"
# The arguments of a subcommand, where the command line is defined: operands by the names that usage texts show, and options.
OPERAND = r'(?<=[\[ ])(?!EXPLAIN\b)[A-Z]+(?=[,\]])|(?<=", ")[A-Z]+(?=", ")'
OPTION = r'(?<=Argument::Flag\()"([\w-]+)"|(?<=Argument::)(Workers|Output)\b|\b(EXPLAIN)\b'


def found(pattern, *paths):
    """What a pattern matches in some files, each once."""
    texts = [path.read_text() for path in paths]
    return sorted({match for text in texts for match in re.findall(pattern, text, re.M)})


def manifest_keys():
    """The keys of the tables of docs/FORMATS.md that list keys, and those at the top."""
    text = (TOP / "docs/FORMATS.md").read_text()
    tables = re.findall(r"^\| Key of [^\n]*\n\|[-|]*\n((?:\|[^\n]*\n)*)", text, re.M)
    cells = [line.split("|")[1] for table in tables for line in table.splitlines()]
    return sorted({"rim_manifest", "file", "launch"} | {key for cell in cells for key in re.findall(r"`(\w+)`", cell)})


def named():
    """What the page has to name, by kind."""
    return {
        "command": sorted(subcommands()),
        "option": ["--help", "--version", *sorted(set().union(*options().values()))],
        "status": found(r"^  (\d)  ", DEFINITION) + ["127"],
        # a wrong number of workers is refused as a mistake in the command line, and never by this word
        "fault": [word for word in found(r'=> "([a-z0-9-]+)"', *(CRATES / path for path in FAULTS)) if word != "workers"],
        "key": manifest_keys(),
    }


def subcommands():
    """The subcommands, each with the text of its arguments, as the definition lists them."""
    table = re.search(r"^const COMMANDS: .*?^\];", DEFINITION.read_text(), re.M | re.S)[0]
    return dict(re.findall(r'^        name: "(\w+)",.*?^        arguments: (.*?)^    \},', table, re.M | re.S))


def operands():
    """The operands of each command, in their order."""
    return {name: tuple(operand.lower() for operand in re.findall(OPERAND, arguments)) for name, arguments in subcommands().items()}


def options():
    """The options of each command."""
    found_in = {name: re.findall(OPTION, arguments) for name, arguments in subcommands().items()}
    return {name: {"--" + "".join(option).lower() for option in some} for name, some in found_in.items()}


def faults_of_page(name, wanted):
    """A line for each word that a man page does not show in bold; `wanted` has them by kind."""
    page = (TOP / "docs" / name).read_text().replace("\\-", "-")
    bold = " ".join(re.findall(r"^\.(?:[BIR]{1,2}|OP) (.*)$", page, re.M))
    words = set(re.split(r'[\s",]+', bold))
    return [f"docs/{name}: the {kind} `{word}` is not named" for kind, some in wanted.items() for word in some if word not in words]


def differences(what, here, there, where="tools/package/command_table.py"):
    """A line for each word that only this place or only the program has."""
    lines = [f"{where}: {what}: `{word}` is missing" for word in sorted(there - here)]
    return lines + [f"{where}: {what}: the program has no `{word}`" for word in sorted(here - there)]


# ---- the SYNOPSIS of a page


def forms(name, program):
    """The words after the program's name in each form of the SYNOPSIS of a man page."""
    page = (TOP / "docs" / name).read_text().replace("\\-", "-")
    section = re.search(r"^\.SH SYNOPSIS\n(.*?)^\.SH ", page, re.M | re.S)[1]
    texts = [re.sub(r"^\.[A-Z]+ |\\f[A-Z]", "", form, flags=re.M) for form in section.split(".br\n")]
    words = [re.findall(r"[\w-]+", text) for text in texts]
    return [some[1:] for some in words if some[:1] == [program] and some[1:]]


def faults_of_synopsis(name, program, commands):
    """A line for each command without a form, for each form of another command, and where help or version has none."""
    some = forms(name, program)
    lines = differences("SYNOPSIS", {form[0] for form in some if form[0][0].islower()}, set(commands), f"docs/{name}")
    options_there = {word for form in some for word in form} & {"--help", "--version"}
    return lines + differences("SYNOPSIS", options_there, {"--help", "--version"}, f"docs/{name}")


def faults_of_forms():
    """A line for each form of docs/rim.1 that has not the operands or the options of its command."""
    lines, taken, added = [], operands(), options()
    for command, *words in forms("rim.1", "rim"):
        if command in taken:
            given, wanted = list(itertools.takewhile(lambda word: word[0] != "-", words)), [word.upper() for word in taken[command]]
            lines += differences(f"SYNOPSIS: {command}", {word for word in words if word[0] == "-"}, added.get(command, set()), "docs/rim.1")
            lines += [f"docs/rim.1: SYNOPSIS: `{command}` has the operands {' '.join(wanted)}"] if given != wanted else []
    return lines


# ---- the table


def names_of(some):
    return {name for option in some for name in option.names}


def faults_of_rim():
    """What the table says of `rim` that the program does not, or the other way."""
    rim, wanted, added = command_table.RIM, operands(), options()
    lines = differences("commands", {command.name for command in rim.commands}, set(named()["command"]))
    every = {name for command in rim.commands for name in names_of(command.options)} | names_of(rim.options_before())
    lines += differences("options", {name for name in every if name.startswith("--")}, set(named()["option"]))
    for command in rim.commands:
        long = {name for name in names_of(command.options) if name.startswith("--")}
        lines += differences(command.name, long, added.get(command.name, set()))
        if command.operands != wanted.get(command.name, command.operands):
            lines.append(f"tools/package/command_table.py: `{command.name}` has the operands {' '.join(wanted[command.name])}")
    return lines


def helped(*words, program="rim-manifest"):
    """The options that a help text of a script lists."""
    text = subprocess.run([TOP / program, *words, "--help"], capture_output=True, text=True, check=True).stdout
    lines = re.findall(r"^ {1,8}(-.*?)(?: {2}|$)", text, re.M)
    return {name for line in lines for name in re.findall(r"(?<![\w-])--?[A-Za-z][\w-]*", line)}


def alone():
    """What `rim-manifest` takes instead of a hypervisor, as its usage says."""
    text = subprocess.run([TOP / "rim-manifest", "--help"], capture_output=True, text=True, check=True).stdout
    return {word for line in re.findall(r"^(?:usage:)? *rim-manifest (-.*)$", text, re.M) for word in line.split() if word != "|"}


def faults_of_rim_manifest():
    """The same for `rim-manifest`, whose own help texts say what it takes."""
    program = command_table.RIM_MANIFEST
    lines = differences("rim-manifest", names_of(program.alone), alone() - names_of(program.common))
    for command in program.commands:
        lines += differences(f"rim-manifest {command.name}", names_of(program.options_of(command)), helped(command.name))
    return lines


def named_of_rim_manifest():
    program = command_table.RIM_MANIFEST
    every = {name for command in program.commands for name in names_of(program.options_of(command))}
    return {"command": [command.name for command in program.commands], "option": sorted(every)}


def faults():
    """All that is not named."""
    lines = faults_of_page("rim.1", named()) + faults_of_rim()
    lines += faults_of_synopsis("rim.1", "rim", operands()) + faults_of_forms()
    if (TOP / "rim-manifest").exists():
        lines += faults_of_rim_manifest()
    if (TOP / "docs/rim-manifest.1").exists():
        lines += faults_of_page("rim-manifest.1", named_of_rim_manifest())
        lines += faults_of_synopsis("rim-manifest.1", "rim-manifest", named_of_rim_manifest()["command"])
    for script in command_table.SCRIPTS:
        options_there = helped(program=script.name)
        lines += differences(script.name, names_of(script.options_of(script.commands[0])), options_there)
        lines += faults_of_page(f"{script.name}.1", {"option": sorted(options_there)})
        lines += faults_of_synopsis(f"{script.name}.1", script.name, [])
    return lines


def main(words):
    if words == ["--check"]:
        lines = faults()
        print("\n".join(lines), end="\n" if lines else "")
        return int(bool(lines))
    for kind, names in named().items():
        print(kind, *names)
    return 0


if __name__ == "__main__":
    sys.exit(main(sys.argv[1:]))
