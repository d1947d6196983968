"""The manifests of a folder that rim-manifest has made."""
from __future__ import annotations

import os
import re

from outside import files
from outside.faults import Fault
from outside.texts import visible

# The manifests that rim-manifest writes into a folder, and the most of them.
IN_FOLDER, MOST_MANIFESTS = re.compile(r"manifest(?:-([0-9]{1,4}))?\.toml"), 1024


def manifests_in(path: str) -> list[str]:
    """Their names, in their order. Their own paths are as from the folder, so `rim` is started there."""
    with files.faults_of(path, "a folder of rim-manifest"):
        found = sorted((int(named[1] or 0), named[0]) for named in map(IN_FOLDER.fullmatch, os.listdir(path)) if named)
    if not 1 <= len(found) <= MOST_MANIFESTS:
        raise Fault(f"{visible(path)}: it has {len(found)} manifests, expected a folder of rim-manifest with 1 to {MOST_MANIFESTS}")
    return [name for _, name in found]
