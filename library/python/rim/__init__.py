"""Realm Initial Measurements of confidential VMs (Arm CCA), computed from a manifest and its files in memory by the library librim.

    import rim
    report = rim.measure(manifest, {"Image": kernel})
    report["vm"].rim().value                                # 32 bytes, or 64 by SHA-512

`rim.calls` says what the calls take, and `rim.errors` what they raise.
"""
# `NAME as NAME` says that a name is for others, to whoever checks types.
from .answers import (Audit as Audit, Check as Check, Image as Image, Launch as Launch, Launches as Launches, Map as Map, Replay as Replay,
                      Report as Report, Rim as Rim)
from .calls import (audit as audit, check as check, check_json as check_json, dtb as dtb, fdt as fdt, image as image, launch_rim as launch_rim,
                    list_commands as list_commands, manifest_paths as manifest_paths, map as map, map_json as map_json, measure as measure,
                    measure_json as measure_json, measure_path as measure_path, read_file as read_file, read_files as read_files, replay as replay,
                    trace as trace, version as version)
from .errors import *
from .native import Bytes as Bytes, NoLibrary as NoLibrary
