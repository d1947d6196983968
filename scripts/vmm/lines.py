"""Finds a hypervisor's command line in a text or among words.

A text is read as a POSIX shell reads it: quotes, backslashes, comments, continued lines, commands, redirections. No shell is run. The command
may have variables, and arrays of bash, that lines of their own before it set to literal text; it is refused if a shell would expand
anything else in it. A command before it, or a prefix of its program such as `sudo -E`, is skipped only if it is known to change neither the
folder nor the host. All else is refused: a list of what does would never be complete.

`shlex` is not used for shells. It does not join continued lines, begins comments within words, and does not tell which `$` is in single quotes.
"""
from __future__ import annotations

import os
import re
import shlex
from collections.abc import Iterator, Mapping
from dataclasses import dataclass, field

from outside import files
from outside.faults import Fault, WrongWords
from outside.texts import pasted, shown, visible

# Greatest length of a text, which bounds the time for an odd one to a few seconds.
MOST = 1 << 20
# The pieces of a word, and the tokens of a text; the first alternative that matches counts. `open` is a quote or a backslash without an end.
PIECES = r"""(?P<joined>\\\n)|\\(?P<escaped>.)|'(?P<single>[^']*)'|"(?P<double>[^"\\]*(?:\\.[^"\\]*)*)"|(?P<plain>(?:[^ \t\n\\'";&|()<>$]+|\$\(?|[<>]\()+)"""
PIECE = re.compile(PIECES, re.S)
TOKEN = re.compile(r"""
    (?P<blank>(?:[ \t]|\\\n)+) | (?P<end>[\n;&|]+) | (?P<parenthesis>[()]+) | (?P<redirect>[0-9]*(?:<<<|<<-?|[<>]&|<>|>>|>\||[<>](?!\()))
    | (?P<comment>\#[^\n]* | (?:\A|(?<=[^\\]\n))[0-9]{4}-[0-9]{2}-[0-9]{2}[ ][0-9:]{8}\.[0-9]{3}\+[0-9]{4}:[ ][^\n]*)    # a line of libvirt's log
    | (?P<word>(?:""" + re.sub(r"\?P<\w+>", "?:", PIECES) + r")+) | (?P<open>.)", re.X | re.S)
# Between double quotes: an escaped character, or what a shell expands.
INNER = re.compile(r"""\\(?:\n|([$`"\\])|.)|(\$(?=[A-Za-z0-9_{(\[@*#?$!-])|`)""", re.S)
EXPANDS = re.compile(r"""[<>]\(|\$(?=[A-Za-z0-9_{(\[@*#?$!-]|\Z)|`|[*?\[{]|\A~""")
# A word without quotes and expansions.
PLAIN = re.compile(r"""[^\\'"$`<>*?\[{~]+""")
# Expansions that run no command and contain no quotes. Others may end elsewhere than they seem to.
SIMPLE = re.compile(r"\$[A-Za-z0-9_@*#?$!-]|\$\{[A-Za-z0-9_]+\}|[*?\[{~]")
NAME = r"[A-Za-z_][A-Za-z0-9_]*"
ASSIGNS = re.compile(rf"({NAME})=(.*)", re.S)
# A variable, all elements of an array, and what an array begins or goes on with.
VARIABLE = re.compile(rf"\$(?:({NAME})|\{{({NAME})\}})")
ELEMENTS = re.compile(rf'"\$\{{({NAME})\[@\]\}}"')
ARRAY = re.compile(rf"({NAME})(\+?)=")
# The separators after a command that a shell runs by itself, and not in another process.
SEQUENCE = re.compile(r"[\n;]*|(?:&&|\|\|)\n*")
# The start of a domain of libvirt, as `virsh dumpxml` prints it and as a file of libvirt has it.
DOMAIN = re.compile(r"\s*(?:(?:<\?[^>]*>|<!--(?:(?!-->).)*-->)\s*)*<domain[\s>]", re.S)
# A section of a unit of systemd with its keys, but for [Service], of which these keys do not change what ExecStart= starts, or where.
UNIT_SECTION = re.compile(r"^\[(?:Unit|Install)\]\n(?:[^\[\n].*\n|\n)*|^\[Service\]\n?", re.M)
UNIT_KEYS = re.compile(r"Type|ExecStart|ExecStop|ExecStopPost|ExecReload|Restart\w*|User|Group|Environment|EnvironmentFile|Limit\w+|Kill\w+|Timeout\w+|"
                       r"Standard\w+|Syslog\w+|Nice|CPU\w+|Memory\w+|Tasks\w+|IO\w+|OOM\w+|Slice|Delegate|WorkingDirectory|RemainAfterExit|PIDFile|"
                       r"SuccessExitStatus|WatchdogSec|NotifyAccess")
# What a shell does for an expansion that begins so.
EXPANSIONS = {"$((": "arithmetic", "$[": "arithmetic", "$(": "a command substitution", "`": "a command substitution", "<(": "a process substitution",
              ">(": "a process substitution"}
# Options that take a number.
COUNTS = ("-smp", "-m", "-c", "--cpus", "--mem", "--memory")
# Words before a command in a block: those that begin one, and others; and the words that end one.
BEGINS, INNER_WORDS, ENDS = ("if", "{"), ("!", "then"), ("fi", "}")
# Arguments of `set` that do not change how later commands are read.
SETS = re.compile(r"[-+][aefuvxo]+|pipefail|errexit|nounset|xtrace|verbose")
GOES = ("cd", "pushd")


@dataclass(frozen=True)
class Prefix:
    """A program that runs another one in its own folder: patterns of its options that stand alone and of those with a value in the next word;
    the number of its operands; whether variables may follow."""

    alone: str = ""
    valued: str = ""
    operands: int = 0
    assigns: bool = False


PREFIXES = {
    "exec": Prefix(),
    "nohup": Prefix(),
    "setsid": Prefix("-f|-w|--fork|--wait"),
    "time": Prefix("-p|-v"),
    "sudo": Prefix("-E|-H|-n|-b|--preserve-env(=.*)?", "-u|-g", assigns=True),
    "doas": Prefix("-n", "-u"),
    "env": Prefix("-|-i|--ignore-environment|--unset=.*", "-u", assigns=True),
    "timeout": Prefix("-v|--foreground|--preserve-status|-[ks][0-9A-Za-z.]+|--(kill-after|signal)=.*", "-k|-s", 1),
    "nice": Prefix("-n?-?[0-9]+|--adjustment=.*", "-n"),
    "ionice": Prefix("-[cn][0-9]|-t", "-c|-n"),
    "chrt": Prefix("-[fribo]|--(fifo|rr|batch|idle|other)", operands=1),
    "taskset": Prefix("-a|-c|-ac|--all-tasks|--cpu-list", operands=1),
    "numactl": Prefix("-l|--localalloc|--(cpunodebind|physcpubind|membind|interleave|preferred)=.*", "-[NCmip]"),
    "gdb": Prefix("--args|-q|--quiet|-batch|-nx"),
    "strace": Prefix("-f|-ff|-t|-tt|-T|-v|-q|-y|--[a-z-]+=.*", "-o|-e|-s"),
    "prlimit": Prefix("--[a-z]+=.*|-[clmnstuv].+"),
    "stdbuf": Prefix("-[ioe](L|[0-9]+[KMG]?)|--(input|output|error)=.*", "-[ioe]"),
}


@dataclass
class Command:
    """A command of a shell: its position, its words, and the positions of its first expansion, of the first one that is not simple, of its first
    parenthesis, and of the comment by which the command before it ends. `raw` are its words as they are in the text, or the elements of the
    array that it sets; `before` and `after` are the separators; `option` is the word before the expansion, and `depth` counts blocks."""

    at: int
    words: list[str] = field(default_factory=list)
    expands: int | None = None
    computes: int | None = None
    parenthesis: int | None = None
    comment: int | None = None
    raw: list[tuple[int, str]] = field(default_factory=list)
    before: str = ""
    after: str = ""
    array: str = ""
    option: str = ""
    depth: int = 0
    is_redirected: bool = False

    def add(self, at: int, word: str):
        """Adds a word at a position of a text."""
        self.at = at if not self.words else self.at
        self.raw.append((at, word))
        if PLAIN.fullmatch(word) or word == "$":
            self.words.append(word)
            return
        self.words.append(unquoted(word))
        for place in expansions(word):
            if self.expands is None:
                self.expands, self.option = at + place, "".join(self.words[-2:-1])
            if not SIMPLE.match(word, place):
                self.computes = at + place if self.computes is None else self.computes
                return

    @property
    def bare(self) -> list[str]:
        """Its words without those of the block that it is in."""
        at = next((number for number, word in enumerate(self.words) if word not in (*BEGINS, *INNER_WORDS)), len(self.words))
        return self.words[at:]

    @property
    def is_certain(self) -> bool:
        """Whether a shell runs it whatever came before, and what it sets counts for the commands after it."""
        return not self.depth and not self.is_redirected and not set(self.before) - set("\n;") and bool(SEQUENCE.fullmatch(self.after))


@dataclass(frozen=True)
class Text:
    """A text and the path of its file."""

    path: str
    text: str

    def line(self, at: int) -> int:
        return self.text.count("\n", 0, at) + 1

    def fault(self, at: int, what: str) -> Fault:
        return Fault(f"{visible(self.path)}: line {self.line(at)}: {what}")

    def expansion(self, at: int, option: str = "") -> Fault:
        """Returns the fault of something that a shell expands, in the value of an option or elsewhere."""
        what = next((what for begin, what in EXPANSIONS.items() if self.text.startswith(begin, at)), "a shell would expand it")
        value = f"; give {option} {'a number' if option in COUNTS else 'its value'}" if option.startswith("-") else ", expected its value"
        return self.fault(at, f"{shown(self.text[at:at + 20].split(chr(10))[0])}: {what}, and no shell is run{value}, or single quotes where it is "
                          "meant as it is")


def expansions(word: str) -> Iterator[int]:
    """Yields the positions of what a shell expands in a word."""
    for piece in PIECE.finditer(word):
        pattern = {"plain": EXPANDS, "double": INNER}.get(piece.lastgroup or "")
        for found in pattern.finditer(piece[piece.lastgroup]) if pattern else ():
            if pattern is EXPANDS and (found[0] != "~" or not piece.start()) or found.lastindex == 2:
                yield piece.start(piece.lastgroup) + found.start()


def unquoted(word: str) -> str:
    """Returns a word without its quotes."""
    def piece(found: re.Match) -> str:
        kind = found.lastgroup
        if kind == "double":
            return INNER.sub(lambda each: each[1] or ("" if each[0] == "\\\n" else each[0]), found[kind])
        return "" if kind == "joined" else found[kind]
    return PIECE.sub(piece, word)


class Unknown(Exception):
    """Something that a shell expands is not known: its position."""


@dataclass
class Known:
    """The variables and arrays that are known; None for those that are set to something that is not. `left`: how much text they may still
    become, since one that is made of itself doubles each time."""

    variables: dict[str, str | None] = field(default_factory=dict)
    arrays: dict[str, list[str] | None] = field(default_factory=dict)
    left: int = 4 * MOST

    def take(self, place: int, *values: str):
        """Counts values that are put in the place of a variable."""
        self.left -= sum(len(each) + 1 for each in values)
        if self.left < 0:
            raise Unknown(place)

    def forget(self):
        for known in (self.variables, self.arrays):
            known.update(dict.fromkeys(known))

    def parts(self, kind: str, text: str) -> Iterator[tuple[int, str, bool]]:
        """Yields the parts of a piece of a word: the position of each, its text, and whether it is a variable's value."""
        pattern, end = EXPANDS if kind == "plain" else INNER, 0
        while found := pattern.search(text, end):
            yield end, text[end:found.start()], False
            end = found.end()
            if kind == "double" and found.lastindex != 2:
                yield end, found[1] or ("" if found[0] == "\\\n" else found[0]), False
                continue
            name = VARIABLE.match(text, found.start())
            value = self.variables.get(name[1] or name[2]) if name else None
            if name is None or value is None:
                raise Unknown(found.start())
            self.take(found.start(), value)
            yield found.start(), value, True
            end = name.end()
        yield end, text[end:], False

    def fields(self, at: int, word: str, is_split: bool = True) -> list[str]:
        """Returns what a shell makes of a word at a position of a text. Values that are not quoted are split, but in an assignment."""
        found = ELEMENTS.fullmatch(word)
        if found and is_split and (elements := self.arrays.get(found[1])) is not None:
            self.take(at, *elements)
            return elements
        made: list[list[str]] = [[]]
        for piece in PIECE.finditer(word):
            kind = piece.lastgroup or ""
            if kind not in ("plain", "double"):
                made[-1] += [] if kind == "joined" else [piece[kind]]
                continue
            made[-1] += [""] * (kind == "double")
            try:
                for place, part, is_value in self.parts(kind, piece[kind]):
                    if not is_value or kind == "double" or not is_split:
                        made[-1] += [part] * bool(part)
                    elif "IFS" in self.variables or re.search(r"[*?\[\\]", part):
                        raise Unknown(place)
                    else:
                        self.split(made, part)
            except Unknown as why:
                raise Unknown(at + piece.start(kind) + why.args[0]) from None
        return ["".join(each) for each in made if each]

    @staticmethod
    def split(made: list[list[str]], value: str):
        """Adds a value to fields: a blank in it ends one."""
        first, *others = re.split("[ \t\n]+", value)
        made[-1] += [first] * bool(first)
        made += [[part] * bool(part) for part in others]

    def value(self, at: int, word: str, is_split: bool) -> str | None:
        """Returns the value of an assignment; None where it is not known."""
        try:
            found = self.fields(at, word, is_split) if "~" not in word else []
        except Unknown:
            return None
        return found[0] if len(found) == 1 else None if word else ""

    def run(self, command: Command):
        """Does what a command does to variables, and gives it those that it has."""
        is_export = command.bare[:1] == ["export"]
        raw = command.raw[len(command.raw) - len(command.bare) + is_export:]
        sets = [(at, ASSIGNS.fullmatch(word)) for at, word in raw if not is_export or not re.fullmatch(NAME, word)]
        if command.array:
            self.set_array(command)
        elif all(found for _, found in sets):
            for at, found in sets:
                value = self.value(at + found.start(2), found[2], is_export) if found else None
                if value is None and is_export:
                    self.forget()   # some shells split the value, and set what is in it
                self.variables[found[1]], self.arrays[found[1]] = value if command.is_certain else None, None
        elif is_export:
            self.forget()
        elif command.expands is not None:
            try:
                command.words = [each for at, word in command.raw for each in self.fields(at, word)] or command.words
                command.expands, command.computes = command.parenthesis, None
            except Unknown as why:
                command.expands = why.args[0]

    def set_array(self, command: Command):
        """Sets an array, or adds to one."""
        name, goes_on = command.array.rstrip("=").rstrip("+"), command.array.endswith("+=")
        had = self.arrays.get(name) if goes_on else []
        self.variables[name], self.arrays[name] = None, None
        try:
            found = [each for at, word in command.raw for each in self.fields(at, word)]
        except Unknown:
            return
        self.arrays[name] = [*had, *found] if had is not None and command.is_certain else None


def read(text: Text) -> list[Command]:
    """Returns the commands of a text. Parentheses are one by themselves, but for those of an array."""
    commands, command, comment, is_target, is_array = [], Command(0), None, False, False
    for found in TOKEN.finditer(text.text):
        kind, at = found.lastgroup, found.start()
        if kind == "open":
            why = "it ends with a backslash, expected a line after it" if found[0] == "\\" else f"{found[0]} has no end, expected one"
            raise text.fault(at, why)
        if kind == "redirect" and "<<" in found[0]:
            raise text.fault(at, "a document in the text, which is not read here, expected a command line alone")
        if is_array:
            is_array = goes_on(text, command, found)
            continue
        if kind == "word" and not is_target:
            command.add(at, found[0])
        elif begins_array(command, found):
            command.array, command.words, command.raw, is_array = command.words[0], [f"{command.words[0].rstrip('+=')}="], [], found[0] == "("
            continue
        elif kind == "parenthesis" and command.words:
            command.parenthesis = at if command.parenthesis is None else command.parenthesis
            command.expands = at if command.expands is None else command.expands
        if kind == "comment" and command.words:
            comment = at
        if kind in ("end", "parenthesis"):
            command.after = found[0] if kind == "end" else "("
            commands += [command] * bool(command.words) + [Command(at, [found[0]])] * (kind == "parenthesis")
            command, comment = Command(at, comment=comment if command.words else command.comment, before=found[0]), None
        command.is_redirected = command.is_redirected or kind == "redirect"
        is_target = kind == "redirect" or is_target and kind in ("blank", "comment")
    if is_array:
        raise text.fault(command.at, f"{shown(command.array + '(')} has no end, expected one")
    return resolved(commands + [command] * bool(command.words))


def begins_array(command: Command, found: re.Match) -> bool:
    """Checks whether a token is the parenthesis of an array of bash, right after its name."""
    is_alone = len(command.raw) == 1 and ARRAY.fullmatch(command.raw[0][1]) and command.raw[0][0] + len(command.raw[0][1]) == found.start()
    return bool(is_alone) and found.lastgroup == "parenthesis" and found[0] in ("(", "()")


def goes_on(text: Text, command: Command, found: re.Match) -> bool:
    """Reads a token of an array. Returns whether more of it comes."""
    kind = found.lastgroup
    if kind == "word":
        command.raw.append((found.start(), found[0]))
    elif kind not in ("blank", "comment") and found[0].strip("\n") not in ("", ")"):
        raise text.fault(found.start(), f"{shown(found[0])} in an array, expected its words alone")
    return found[0] != ")"


def resolved(commands: list[Command]) -> list[Command]:
    """Gives commands the variables and arrays that those before them set."""
    known, depth = Known(), 0
    for each in commands:
        depth += sum(word in BEGINS for word in each.words[:len(each.words) - len(each.bare)]) - (each.words[0] in ENDS)
        each.depth = depth
        known.run(each)
    return commands


def has_program(words: list[str], program: re.Pattern) -> bool:
    """Checks whether a program is among some words, by its name. A variable with its path does not count."""
    return any(is_program(words, at, program) and not ASSIGNS.fullmatch(word) for at, word in enumerate(words))


def is_program(words: list[str], at: int, program: re.Pattern) -> bool:
    """Checks whether a word is a program, by its name, or by that and the next word."""
    name = os.path.basename(words[at])
    return bool(program.fullmatch(name) or program.fullmatch(" ".join([name, *words[at + 1:at + 2]])))


def after_options(prefix: Prefix, words: list[str], at: int) -> int:
    """Returns the index after a prefix's options and operands, or that of its first unknown option."""
    while at < len(words) and words[at].startswith("-"):
        if re.fullmatch(prefix.valued, words[at]):
            at += 2
        elif re.fullmatch(prefix.alone, words[at]):
            at += 1
        else:
            return at
    return at + prefix.operands


def program_at(words: list[str], program: re.Pattern) -> int:
    """Returns the index of the program, which only variables and known prefixes may precede."""
    at, assigns = int(words[0] == "$"), True
    while at < len(words):
        name = os.path.basename(words[at])
        if assigns and ASSIGNS.fullmatch(words[at]):
            at += 1
        elif name in PREFIXES:
            at, assigns = after_options(PREFIXES[name], words, at + 1), PREFIXES[name].assigns
        elif is_program(words, at, program):
            return at
        else:
            break
    raise WrongWords(unknown(words[min(at, len(words) - 1)]))


def unknown(text: str) -> str:
    return f"{shown(text)} is before the program, and its effect is not known, expected the command line alone; -C DIR says where it is run"


def is_harmless(words: list[str], program: re.Pattern) -> bool:
    """Checks whether a command, without the words of its block, changes nothing for the commands after it but variables."""
    asks = words[:2] == ["command", "-v"] or words[1:] in (["--version"], ["-version"]) and program.fullmatch(os.path.basename(words[0]))
    return (not words or words[0] in ("echo", "export", "test", "[", "which", "type", "true") or words in (["fi"], ["}"]) or bool(asks)
            or words[0] == "set" and all(map(SETS.fullmatch, words[1:])) or all(map(ASSIGNS.fullmatch, words)))


def of_words(words: list[str], program: str, title: str) -> tuple[str, list[str]]:
    """Returns the program of a command line, and the words after it."""
    pattern = re.compile(program)
    if not has_program(words, pattern):
        raise WrongWords(f"{shown(words[0])}: it is after `--`, and no program of {title}'s is there, expected all of its command line")
    at = program_at(words, pattern)
    return words[at], words[at + 1:]


def text_of(path: str) -> Text:
    what = "a command line, or a shell's script with one"
    text = Text(path, files.text_of(path, files.read(path, MOST, what), what))
    for letter, name in (("\r", "a carriage return, expected lines that end with a line feed alone"), ("\0", "a zero byte, expected a text")):
        if letter in text.text:
            raise text.fault(text.text.index(letter), name)
    return text


def of_unit(text: Text, program: re.Pattern, has_folder: bool) -> list[str]:
    """Returns the words after the program of the one ExecStart= of a unit of systemd. Its quotes are like a shell's, and what it expands is
    refused."""
    service = UNIT_SECTION.sub("", re.sub(r"^[#;].*\n", "", text.text, flags=re.M).replace("\\\n", " "))
    pairs = [(key.strip(), value.strip()) for key, equals, value in (line.partition("=") for line in service.split("\n")) if key.strip()]
    if unknown := next((key for key, _ in pairs if not UNIT_KEYS.fullmatch(key)), None):
        raise text.fault(text.text.index(unknown), f"{shown(unknown)} of a unit: its effect is not known, expected a unit without it")
    starts = [value for key, value in pairs if key == "ExecStart"]
    at = max(text.text.find("ExecStart"), 0)
    if len(starts) != 1:
        raise text.fault(at, f"it is a unit with {len(starts)} ExecStart=, expected one")
    if found := re.search(r"[%$\\]|(?:^|\s);(?:\s|$)|^[@|]", starts[0]):
        raise text.fault(at, f"{shown(found[0].strip())} in ExecStart=, which systemd expands, expected its value")
    if not has_folder:
        raise text.fault(at, "paths of a unit are of its WorkingDirectory= or of /, expected -C DIR, which says of which")
    try:
        words = shlex.split(starts[0].lstrip("-:+!"))
    except ValueError:
        raise text.fault(at, "a quote in ExecStart= has no end, expected one") from None
    if not words or not has_program(words, program):
        raise text.fault(at, "ExecStart= starts another program, expected a hypervisor's command line")
    return words[program_at(words, program) + 1:]


def commands_of(text: Text) -> list[Command]:
    """Returns the commands of a text."""
    commands = read(text)
    at = next((number for number, each in enumerate(commands) if each.words[0].startswith("-")), None)
    if at is not None:
        cut, before = commands[at], [each for each in commands[:at] if each.raw][-1:]
        if before and before[0].expands is not None:
            raise text.expansion(before[0].expands, before[0].option)
        why = ("a backslash at the end of the line before it" if cut.comment is None else
               f"no comment in line {text.line(cut.comment)}, where it ends the command, with a backslash after it too")
        raise text.fault(cut.at, f"a command begins with {shown(cut.words[0])}, expected {why}")
    return commands


def check_before(text: Text, command: Command, has_folder: bool, program: re.Pattern):
    """Refuses a command before the hypervisor's, unless it is harmless, or ends the script if a check fails."""
    if command.computes is not None:
        raise text.expansion(command.computes)
    if command.bare[:1] == ["exit"] and (command.depth or command.before.startswith("||")):
        return
    if command.words[0] in GOES and not has_folder:
        raise text.fault(command.at, f"{shown(' '.join(command.words))}: paths are of another folder after it, expected -C DIR, which says of which")
    if command.words[0] not in GOES and not is_harmless(command.bare, program):
        raise text.fault(command.at, unknown(" ".join(command.words)))


def of_file(path: str, program: str, title: str, has_folder: bool) -> list[str]:
    """Returns the words after the program of the only command line of a hypervisor in a file. `has_folder`: whether -C says where it is run."""
    text, pattern = text_of(path), re.compile(program)
    if DOMAIN.match(text.text):
        raise Fault(f"{visible(path)}: it is a domain of libvirt, expected a command line, as libvirt's log /var/log/libvirt/qemu/NAME.log has it, "
                    f"and as `virsh domxml-to-native qemu-argv {pasted(path)}` prints it")
    if re.search(UNIT_SECTION, text.text):
        return of_unit(text, pattern, has_folder)
    commands = commands_of(text)
    found = [number for number, each in enumerate(commands) if has_program(each.words, pattern) and not is_harmless(each.bare, pattern)]
    if len(found) != 1:
        lines = " and ".join(str(text.line(commands[number].at)) for number in found[:2])
        has = f"it has {len(found)} command lines of {title}'s, in lines {lines}" if found else f"it has no command line of {title}'s"
        raise Fault(f"{visible(path)}: {has}, expected one")
    for each in commands[:found[0]]:
        check_before(text, each, has_folder, pattern)
    command = commands[found[0]]
    try:
        at = program_at(command.words, pattern)
    except WrongWords as why:
        raise text.fault(command.at, why.lines[0]) from None
    if command.expands is not None:
        raise text.expansion(command.expands, command.option)
    if command.depth:
        raise text.fault(command.at, "the command line is in a block, expected it outside of `if` and `{`")
    return command.words[at + 1:]
