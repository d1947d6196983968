#!/usr/bin/env python3
"""Writes the completions of `rim` and its scripts for bash, zsh and fish, out of tools/package/command_table.py.

    tools/package/completions.py DIR       writes rim.bash, _rim, rim.fish and those of the scripts into DIR

To try them:

    bash   . DIR/rim.bash
    zsh    fpath=(DIR $fpath); autoload -Uz compinit; compinit
    fish   source DIR/rim.fish

A launch is completed by the names that the manifest on the line gives in lines `name = ".."` below `[[launch]]`. None begins with
a dash, since the program would take it for an option.
"""
import pathlib
import re
import sys

import command_table
from command_table import FILE, FOLDER, LAUNCH, MANIFEST, PROGRAM, TEXT

MADE = "as tools/package/completions.py writes it out of tools/package/command_table.py"
SPACE = "[[:space:]]*"
# Keeps the header of a table; a line with a name is printed where the last header is that of a launch. There is no single quote in
# it, since each shell has it between two. What is on the line may be no manifest, so only its first 4 MB are read.
HEADER = rf"/^{SPACE}\[\{{1,2\}}{SPACE}[[:alpha:]]/h"
QUOTE = "[^[:space:]A-Za-z0-9._-]"
NAME = (rf"/^{SPACE}name{SPACE}=/{{G;s/^{SPACE}name{SPACE}={SPACE}{QUOTE}\([A-Za-z0-9._][A-Za-z0-9._-]*\){QUOTE}.*"
        rf"\n{SPACE}\[\[{SPACE}launch{SPACE}\].*/\1/p;}}")
NAMES = f"head -c 4000000 MANIFEST 2>/dev/null | LC_ALL=C sed -n -e '{HEADER}' -e '{NAME}' 2>/dev/null"


def prefix_of(program):
    """How the functions of a program's completion begin."""
    return "_" + program.name.replace("-", "_")


def shown_names(option):
    """The names of an option that are worth completing: those that say what it is, where it has such."""
    return [name for name in option.names if len(name.lstrip("-")) > 1] or list(option.names)


def first_of(program):
    """What stands for a subcommand before the first word, where a program has none."""
    return command_table.ALONE if program.is_alone else ""


def has_launches(program):
    return any(LAUNCH in command.operands for command in program.commands)


def filled(template, **parts):
    """A template with its parts put in, in this order. Shells have many braces, so a place is a word in capitals."""
    for place, text in parts.items():
        template = template.replace(place, text)
    return template


# ---- bash, which also has to work without the package bash-completion

BASH = r"""# bash completion of TITLE, MADE

# Sets `words` to the words of the line up to the cursor. Bash parts them at `=` and `:`, which is undone here.
PREFIX_words() {
    local at part last=0
    words=("${COMP_WORDS[0]}")
    for ((at = 1; at <= COMP_CWORD; at++)); do
        part=${COMP_WORDS[at]}
        if ((at > 1)) && [[ $part && ($part == [=:]* || ${words[last]} == *[=:]) ]]; then
            words[last]+=$part
        else
            words[++last]=$part
        fi
    done
}

# Sets `kind` to what the value of an option is, and to nothing where it takes none.
PREFIX_value() {
    case "$1 $2" in
VALUES
    *) kind= ;;
    esac
}

# Sets `kind` to what the next operand of a command is. Where it takes no more, there are options.
PREFIX_operand() {
    case "$1 $2" in
OPERANDS
    *) kind=option ;;
    esac
}

# Sets `options` to those of a command.
PREFIX_options() {
    case $1 in
OPTIONS
    esac
}

LAUNCHES# Offers what the kind is of. Readline itself completes paths, since it knows their quotes.
PREFIX_offer() {
    local given= options
    cur=${cur#[\"\']}
    case $kind in
    option)
        PREFIX_options "$command"
        given=$options
        ;;
    launch) given=$(PREFIX_launches "${operands[0]}") ;;
    manifest | file) compopt -o default 2>/dev/null ;;
    folder) compopt -o dirnames 2>/dev/null ;;
    program)
        compopt -o default 2>/dev/null
        [[ $cur == */* ]] || COMPREPLY=($(compgen -c -- "$cur"))
        ;;
    words*) given=${kind#words } ;;
    esac
    [[ ! $given ]] || COMPREPLY=($(compgen -W "$given" -- "$cur"))
}

PREFIX() {
    local IFS=$' \t\n' words cur command=FIRST operands=() awaits= ended= kind= word at
    COMPREPLY=()
    PREFIX_words
    cur=${words[${#words[@]} - 1]}
    for ((at = 1; at < ${#words[@]} - 1; at++)); do
        word=${words[at]}
        if [[ $awaits ]]; then
            awaits=
        elif [[ ! $ended && $word == -- ]]; then
            ended=yes
        elif [[ ! $ended && $word == -* ]]; then
            PREFIX_value "$command" "$word"
            awaits=$kind
        elif [[ ! $command ]]; then
            command=$word
        else
            operands+=("$word")
        fi
    done
    if [[ $awaits ]]; then
        kind=$awaits
    elif [[ ! $ended && $cur == --*=* ]]; then
        PREFIX_value "$command" "${cur%%=*}"
        cur=${cur#*=}
    elif [[ ! $ended && $cur == -* ]]; then
        kind=option
    else
        PREFIX_operand "$command" "${#operands[@]}"
        [[ ! $ended || $kind != option ]] || kind= # what follows `--` is of another program
    fi
    PREFIX_offer
}

complete -F PREFIX TITLE
"""
BASH_LAUNCHES = r"""# The path that a word of the line means, without the quotes that it has there.
PREFIX_path() {
    local word=$1
    case $word in
    [\"\']*)
        word=${word#?}
        word=${word%[\"\']}
        ;;
    *)
        IFS= read word <<<"$word" # without -r, which takes the backslashes away
        [[ $word != "~/"* ]] || word=$HOME/${word#??}
        ;;
    esac
    printf '%s' "$word"
}

# The names of the launches of a manifest, one a line.
PREFIX_launches() {
    local manifest
    manifest=$(PREFIX_path "$1")
    [[ ! -f $manifest ]] || NAMES
}

"""


def bash_kind(kind):
    return f"'words {' '.join(kind)}'" if isinstance(kind, tuple) else kind


def bash_values(program):
    """A line of `case` for each option with a value."""
    rows = [(f'"{command.name} ', option) for command in program.commands for option in command.options]
    rows += [('*" ', option) for option in (*program.common, *program.alone)]
    rows = [(" | ".join(f'{start}{name}"' for name in option.names), option.value) for start, option in rows if option.value]
    return "\n".join(f"    {pattern}) kind={bash_kind(kind)} ;;" for pattern, kind in rows)


def bash_operands(program):
    rows = [] if program.is_alone else [('" 0"', "'words " + " ".join(command.name for command in program.commands) + "'")]
    rows += [(f'"{command.name} "*' if command.repeats else f'"{command.name} {at}"', kind)
             for command in program.commands for at, kind in enumerate(command.operands)]
    return "\n".join(f'    {pattern}) kind={kind if isinstance(kind, str) else bash_kind(kind)} ;;' for pattern, kind in rows)


def bash_options(program):
    rows = [("''", program.options_before())] + [(command.name, program.options_of(command)) for command in program.commands]
    shown = [(pattern, " ".join(name for option in options for name in shown_names(option))) for pattern, options in rows]
    return "\n".join(f"    {pattern}) options='{names}' ;;" for pattern, names in [*shown, ("*", "")])


def bash(program):
    return filled(BASH, LAUNCHES=BASH_LAUNCHES if has_launches(program) else "", VALUES=bash_values(program),
                  OPERANDS=bash_operands(program), OPTIONS=bash_options(program), FIRST=first_of(program), NAMES=NAMES.replace("MANIFEST", '-- "$manifest"'),
                  TITLE=program.name, MADE=MADE, PREFIX=prefix_of(program))


# ---- zsh

ZSH = r"""#compdef TITLE
# zsh completion of TITLE, MADE

LAUNCHESPREFIX() {    local curcontext=$curcontext state ret=1
    local -a line subcommands
    local -A opt_args
    _arguments -C -S \
BEFORE
        '1: :->command' \
        '*:: :->operands' && ret=0
    case $state in
    command)
        subcommands=(
COMMANDS
        )
        _describe -t commands command subcommands && ret=0
        ;;
    operands)
        curcontext=${curcontext%:*}-$words[1]:
        case $words[1] in
CASES
        esac
        ;;
    esac
    return ret
}

if [[ $funcstack[1] == _TITLE ]]; then
    PREFIX "$@"
else
    compdef PREFIX TITLE
fi
"""
# The same of a program without subcommands.
ZSH_ALONE = r"""#compdef TITLE
# zsh completion of TITLE, MADE

LAUNCHESPREFIX() {
    local -a line
    local -A opt_args
    _arguments -SWORDS
}

if [[ $funcstack[1] == _TITLE ]]; then
    PREFIX "$@"
else
    compdef PREFIX TITLE
fi
"""
ZSH_LAUNCHES = r"""# The names of the launches of the manifest on the line.
PREFIX_launches() {
    local manifest=${(Q)line[1]} expl
    manifest=${manifest/#\~\//$HOME/}
    [[ -f $manifest ]] || return 1
    local -a launches=(${(f)"$(NAMES)"})
    _wanted launches expl launch compadd -a launches
}

"""
ZSH_KINDS = {MANIFEST: 'manifest:_files -g "*.toml(-.)"', LAUNCH: "launch:PREFIX_launches", FILE: "file:_files", FOLDER: "folder:_files -/",
             PROGRAM: "program: _command_names -e", TEXT: "value: "}


def zsh_kind(kind):
    return f"word:({' '.join(kind)})" if isinstance(kind, tuple) else ZSH_KINDS[kind]


def zsh_option(option, stars):
    """A specification of `_arguments`. One with a star may come more than once."""
    value = f":{zsh_kind(option.value)}" if option.value else ""
    names = [name + "=" if option.value and name.startswith("--") else name for name in option.names]
    if option is command_table.HELP or "--version" in option.names:
        start = "'(- : *)'"
    else:
        start = "'*'" if stars else f"'({' '.join(option.names)})'"
    brace = "{" + ",".join(names) + "}" if len(names) > 1 else names[0]
    return f"{start}{brace}'[{option.about}]{value}'"


def zsh_words(program, command, space):
    # what rim-manifest is given more than once makes a list of launches, the scripts take some options again, and rim takes nothing twice
    stars = not command.operands or program.is_alone
    words = [zsh_option(option, stars) for option in program.options_of(command)]
    words += [f"'{'*' if command.repeats else at}:{zsh_kind(kind)}'" for at, kind in enumerate(command.operands, 1)]
    return "".join(f" \\\n{space}{word}" for word in words)


def zsh_case(program, command):
    lines = zsh_words(program, command, " " * 16)
    return f"        {command.name})\n            _arguments -S{lines} && ret=0\n            ;;"


def zsh(program):
    launches = ZSH_LAUNCHES if has_launches(program) else ""
    names = NAMES.replace("MANIFEST", '-- "$manifest"')
    if program.is_alone:
        return filled(ZSH_ALONE, LAUNCHES=launches, WORDS=zsh_words(program, program.commands[0], " " * 8), NAMES=names, TITLE=program.name,
                      MADE=MADE, PREFIX=prefix_of(program))
    before = "\n".join(f"        {zsh_option(option, False)} \\" for option in program.options_before())
    commands = "\n".join(f"            '{command.name}:{command.about}'" for command in program.commands)
    cases = "\n".join(zsh_case(program, command) for command in program.commands)
    return filled(ZSH, LAUNCHES=launches, BEFORE=before, COMMANDS=commands, CASES=cases, NAMES=names, TITLE=program.name, MADE=MADE,
                  PREFIX=prefix_of(program))


# ---- fish

FISH = r"""# fish completion of TITLE, MADE

# The words before the cursor that are no options and no values of options, one a line.
function PREFIX_operands
FIRST    set -l awaits no
    set -l ended no
    set -l words (commandline -opc)
    set -e words[1]
    for word in $words
        if test $awaits = yes
            set awaits no
        else if test $ended = no; and test "$word" = --
            set ended yes
        else if test $ended = no; and string match -q -- '-*' $word
            if contains -- $word VALUED
                set awaits yes
            end
        else
            printf '%s\n' $word
        end
    end
end

# Whether N operands are before the cursor, of which the first is one of the commands after N.
function PREFIX_at --argument-names count
    set -l operands (PREFIX_operands)
    test (count $operands) -eq $count; or return
    test $count -eq 0; or contains -- $operands[1] $argv[2..-1]
end

# Whether one of these commands is before the cursor.
function PREFIX_in
    set -l operands (PREFIX_operands)
    test (count $operands) -gt 0; and contains -- $operands[1] $argv
end

LAUNCHEScomplete -c TITLE -f
LINES
"""
FISH_LAUNCHES = r"""# The names of the launches of the manifest on the line, one a line.
function PREFIX_launches
    set -l operands (PREFIX_operands)
    set -l manifest (string replace -r '^~/' "$HOME/" -- $operands[2])
    test -f "$manifest"; and NAMES
end

"""
FISH_KINDS = {MANIFEST: "-k -a '(__fish_complete_suffix .toml)'", LAUNCH: "-a '(PREFIX_launches)'", FILE: "-F",
              FOLDER: "-a '(__fish_complete_directories)'", PROGRAM: "-a '(__fish_complete_command)'", TEXT: ""}


def fish_kind(kind):
    return f"-a '{' '.join(kind)}'" if isinstance(kind, tuple) else FISH_KINDS[kind]


def fish_option(option):
    names = [("-l " if name.startswith("--") else "-o " if len(name) > 2 else "-s ") + name.lstrip("-") for name in option.names]
    # -x: it has a value, and files are none unless the kind says so
    value = "" if not option.value else " -r -F" if option.value == FILE else f" -x {fish_kind(option.value)}".rstrip()
    return f"{' '.join(names)}{value} -d '{option.about}'"


def fish_place(program, option):
    """Where an option of all subcommands may be: anywhere, unless some subcommand has it not."""
    names = [command.name for command in program.commands if option in program.options_of(command)]
    return "" if len(names) == len(program.commands) else f" -n 'PREFIX_in {' '.join(names)}'"


def fish_lines(program):
    rows = [(fish_place(program, option), option) for option in program.common] + [(" -n 'PREFIX_at 0'", option) for option in program.alone]
    rows += [(f" -n 'PREFIX_in {command.name}'", option) for command in program.commands for option in command.options]
    if program.common not in ((), (command_table.HELP,)):
        # all but help are of a subcommand
        rows = [(" -n 'not PREFIX_at 0'" if not where and option is not command_table.HELP else where, option) for where, option in rows]
    lines = [f"complete -c TITLE -n 'PREFIX_at 0' -a {command.name} -d '{command.about}'" for command in program.commands if command.about]
    lines += [f"complete -c TITLE{where} {fish_option(option)}" for where, option in rows]
    lines += [f"complete -c TITLE -n 'PREFIX_in {command.name}' {fish_kind(command.operands[-1])}" for command in program.commands if command.repeats]
    places = {(at, kind) for command in program.commands if not command.repeats for at, kind in enumerate(command.operands, 1)}
    for at, kind in sorted(places):
        names = " ".join(command.name for command in program.commands if command.operands[at - 1:at] == (kind,))
        lines.append(f"complete -c TITLE -n 'PREFIX_at {at} {names}' {fish_kind(kind)}")
    return "\n".join(lines)


def fish(program):
    options = [option for command in program.commands for option in program.options_of(command)]
    valued = sorted({name for option in options if option.value for name in option.names})
    first = f"    echo {first_of(program)}\n" if program.is_alone else ""
    return filled(FISH, FIRST=first, LAUNCHES=FISH_LAUNCHES if has_launches(program) else "", LINES=fish_lines(program), VALUED=" ".join(valued),
                  NAMES=NAMES.replace("MANIFEST", "-- $manifest"), TITLE=program.name, MADE=MADE, PREFIX="_" + prefix_of(program))


# ---- all of them


def files():
    """Each file that is written, by its name."""
    made = {}
    for program in command_table.PROGRAMS:
        made |= {f"{program.name}.bash": bash(program), f"_{program.name}": zsh(program), f"{program.name}.fish": fish(program)}
    return made


def write(folder):
    folder.mkdir(parents=True, exist_ok=True)
    for name, text in files().items():
        (folder / name).write_text(text)
    return 0


def main(words):
    match words:
        case [folder] if not re.match("-", folder):
            return write(pathlib.Path(folder))
        case _:
            print(__doc__.split("\n\n")[1], file=sys.stderr)
            return 2


if __name__ == "__main__":
    sys.exit(main(sys.argv[1:]))
