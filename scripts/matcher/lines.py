"""The lines of a manifest by which one launch differs from another, each with what the manifest has."""
from __future__ import annotations

from collections.abc import Mapping
from dataclasses import fields

from .files import Blob
from .launch import DEFAULTS, SCALARS, Item, Launch, item_text, ram_text, recs_text, scalar, steps_text, text, value_text

COLUMN = 40


def noted(line: str, note: str) -> str:
    return f"{line}".ljust(COLUMN) + f" # {note}"


def changed(line: str, key: str, old: str | None, new: str | None) -> list[str]:
    """The line of a key with what it had, or that it is left out; `line` is where it is, and None a key that is not given."""
    if old == new:
        return []
    default = f", which is {value_text(key, DEFAULTS[key])}" if key in DEFAULTS else ""
    note = f"the manifest has {old}" if old is not None else f"the manifest has none{default}"
    return [noted(f"{line}{key} = {new}" if new is not None else f"{line}leave out {key}", note)]


def of_key(line: str, key: str, old, new) -> list[str]:
    given = [None if value is None else value_text(key, value) for value in (old, new)]
    return changed(line, key, *given)


def of_file(line: str, old: str | None, new: str | None, files: Mapping[str, Blob]) -> list[str]:
    """The lines of another file: one of the manifest, one that is new to it, or one that was made of one of its files."""
    blob = files.get(new or "")
    if old == new or blob is None or not blob.about:
        return of_key(line, "file", old, new)
    if blob.is_made:
        return [noted(f"{line}{blob.about}", f"the manifest has {text(old or '')} as it is")]
    return [*of_key(line, "file", old, new), noted(f"[[file]] name = {text(new or '')}, path = {text(blob.path)}", "the manifest has none")]


def of_items(old: Launch, new: Launch, files: Mapping[str, Blob]) -> list[str]:
    left = {each.name: each for each in new.item}
    found = []
    for item in old.item:
        if item.name not in left:
            found.append(f'leave out item "{item.name}"')
            continue
        for key in (each.name for each in fields(Item)):
            if key == "file":
                found += of_file(f'item "{item.name}": ', item.file, left[item.name].file, files)
                continue
            found += of_key(f'item "{item.name}": ', key, getattr(item, key), getattr(left[item.name], key))
    mine = {each.name for each in old.item}
    return found + [noted(f"item: add {item_text(each)}", "the manifest has none") for each in new.item if each.name not in mine]


def between(old: Launch, new: Launch, version: int, files: Mapping[str, Blob]) -> list[str]:
    """The lines to change in a manifest of this version, which has the old launch, so that it has the new one."""
    found = of_key("", "rim_manifest", version, 2) if new.rec_rule is not None else []
    for key in SCALARS:
        found += of_key("", key, scalar(old, key), scalar(new, key))
    found += changed("", "ram", ram_text(old.ram), ram_text(new.ram)) + of_items(old, new, files)
    found += changed("", "rec", recs_text(old.rec), recs_text(new.rec))
    steps = [None if each is None else steps_text(each) for each in (old.steps, new.steps)]
    return found + changed("", "steps", *steps)
