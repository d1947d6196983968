"""The text of a manifest: version 2, in which each number has the word or the rule that it comes from."""
from __future__ import annotations

import json
import shlex
from dataclasses import dataclass

from outside import parameters

from .guest import Blob, Kernel
from .host import Host
from .hypervisor import Hypervisor
from .launches import Group, Launch
from .layout import Row
from .realm import Item
from .ways import LIKELIEST, Chosen

WIDTH = 140
# The keys of a launch that are the host's.
OF_HOST = (*parameters.ALL, "block_level", "num_aux", "rec_rule", "rpv", "pool_base", "pool_count")
# All that the file about a host says of the machine and is no choice.
OF_MACHINE = (*OF_HOST, "s2sz_max", "hypervisor_version")


@dataclass(frozen=True)
class About:
    """What all manifests of a folder share."""

    vmm: Hypervisor
    words: list[str]
    line: list[str]         # the command line, where the words only name its file
    host: Host
    chosen: dict[str, Chosen]
    algo_from: str          # what says the hash algorithm
    rules: list[Row]        # the rows by which things have their places
    made_by: str            # where the devicetrees come from
    warnings: list[str]
    more: list[str]         # what the words of a launch have beside those of its machine and its files


def shown(words: list[str]) -> str:
    """Words as a shell takes them, in one line."""
    return " ".join(shlex.quote(word) if word.isprintable() else json.dumps(word) for word in words)


def comment(text: str) -> str:
    """Lines of a comment, none longer than is easily read."""
    if not text:
        return "#\n"
    lines, line = [], "#"
    for word in text.split(" "):
        if len(line) + 1 + len(word) > WIDTH and line != "#":
            lines.append(line)
            line = "#  "
        line += " " + word
    return "\n".join([*lines, line]) + "\n"


def text(value: str) -> str:
    """A text of TOML."""
    return json.dumps(value, ensure_ascii=False).replace("\x7f", "\\u007f")


def head(about: About, part: str) -> str:
    """What the manifest is made of, what is chosen, and the rules that its lines name."""
    vmm = about.vmm
    lines = [f"Launches of {vmm.TITLE}{part}. rim-manifest has made this of the words", "  " + shown(about.words), about.made_by,
             f"The numbers marked `host` are those of {shown([about.host.path])}."]
    lines[2:2] = ["by the command line", "  " + shown(about.line)] if about.line else []
    lines += ["Warning: " + each for each in about.warnings]
    lines += ["A path is relative to this folder: start rim here, or the script `measure` beside this file from anywhere.", "",
              *sure_lines(about.host), *chosen_lines(about.chosen), "",
              "The rules that lines below name. In brackets is how sure each is, seen, source or memory: "
              f"`rim-manifest {vmm.NAME} --rules` explains this, and has the sources."]
    lines += [f"  {row.name} ({row.sure}): {row.rule}" for row in about.rules]
    return "".join(map(comment, lines)) + "\nrim_manifest = 2\n"


def sure_lines(host: Host) -> list[str]:
    """How sure it is what a realm changes."""
    if by := host["settled_by"]:
        return [f"What a realm changes. The alternatives that {shown([host.path])} names were settled by: {' '.join(str(by).split())}"]
    return ["What a realm changes. No machine has settled it for this host: it is from memory, and each row may be otherwise. `rim-manifest "
            "settle` finds what holds, by one measurement of the machine."]


def chosen_lines(chosen: dict[str, Chosen]) -> list[str]:
    """What is taken of each row that a realm may change, how likely that is, and where the choice comes from."""
    def one(each: Chosen) -> str:
        likely = f"{each.way.likely}%, {each.way.sure}" if each.way.likely else "given"
        return f"  {each.row.name} = {each.name} ({likely}; {LIKELIEST if each.source == LIKELIEST else 'by ' + each.source}): {each.way.does}"

    return [one(each) for each in chosen.values()]


def noted(line: str, note: str) -> str:
    """A line with a note after it."""
    return f"{line}".ljust(32) + f" # {note}\n"


def file(blob: Blob) -> str:
    about = f"{blob.length} bytes, sha256 {blob.digest}"
    if isinstance(blob, Kernel):
        about += f"; text_offset {blob.image.text_offset:#x}, image_size {blob.image.image_size:#x}"
        about += f"; {blob.how}" if blob.how else ""
    if blob.source not in ("", blob.digest):
        about += f"; what was copied has sha256 {blob.source}"
    return f"\n[[file]]\n{comment(blob.origin)}{comment(about)}name = {text(blob.file)}\npath = {text(blob.file)}\n"


def item_text(item: Item) -> str:
    size = "" if item.size is None else f", size = {item.size:#x}"
    return f'{{ name = "{item.name}", kind = "{item.kind}", file = {text(item.file)}, at = {item.at:#x}{size} }}'


def recs_text(count: int, pc: int, x: tuple[int, ...]) -> str:
    first = f'{{ pc = "{pc:#x}", x = [{", ".join(chr(34) + hex(value) + chr(34) for value in x)}] }}'
    return "[" + ", ".join([first] + ["{ runnable = false }"] * (count - 1)) + "]"


def ram_text(regions: tuple[tuple[int, int], ...]) -> str:
    return "[" + ", ".join(f"[{base:#x}, {end:#x}]" for base, end in regions) + "]"


def value_text(value: int | str) -> str:
    return text(value) if isinstance(value, str) else str(value).lower()


def number_lines(launch: Launch, about: About) -> str:
    """The keys of a launch that are numbers of the host's, or of rows."""
    lines, host = "", about.host
    for key in OF_HOST:
        row = about.chosen.get(key)
        value = launch.made.numbers.get(key, host[key])
        if value is None or (row and key not in launch.made.numbers):
            continue
        of_row = f"row {key}" if row and not row.is_likeliest or host[key] is None else ""
        lines += noted(f"{key} = {value_text(value)}", host.notes.get(key) or ", ".join(filter(None, ["host" * (host[key] is not None), of_row])))
    return lines


def said(launch: Launch, about: About) -> str:
    """The words of a launch, as a comment."""
    return comment(shown(about.vmm.final_words(launch.guest) + about.vmm.load_words(launch.guest, lambda blob: blob.path) + about.more))


def table_of(launch: Launch, about: About) -> str:
    """The table of a launch."""
    made, order = launch.made, about.chosen.get("order")
    items = [noted(f"    {item_text(item)},", f"rule {item.name.removesuffix('_lead')}") for item in made.items]
    return "".join([
        f"\n[[launch]]\n{said(launch, about)}name = {text(launch.name)}\n", noted(f"algo = {text(launch.guest.algo)}", about.algo_from),
        noted(f"s2sz = {made.s2sz}", launch.places.width_from), number_lines(launch, about),
        noted(f"ram = {ram_text(made.regions)}", f"rule ram: {shown([launch.guest.memory.words])}"), "item = [\n", *items, "]\n",
        noted(f"rec = {recs_text(made.recs, made.pc, made.x)}", f"rules pc, x and recs: {made.recs} processor{'s' * (made.recs > 1)}"),
        noted(f"steps = [{', '.join(map(text, made.steps))}]", "rule order" if order is None or order.source == LIKELIEST else order.source)])


def manifest(group: Group, about: About, part: str) -> str:
    files = "".join(file(blob) for blob in group.files.values())
    return head(about, part) + files + "".join(table_of(launch, about) for launch in group.launches)
