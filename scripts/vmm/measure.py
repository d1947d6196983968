#!/usr/bin/env python3
"""Measures the launches of all manifests in the folder of this script, and joins the reports.

usage: measure [--json] [--workers N]

The words are those of `rim measure`, which is asked to explain each fault. The program is the one that the variable RIM names, or else `rim` of the PATH. The report is
written as `rim measure` writes it, once all of it is made. Its `pages` is the sum of those of the manifests: a page of two manifests is
hashed twice. Its `files` has each path once: a file that has two contents was changed meanwhile, which is a fault. The status is the
greatest of those of the runs: 1 where a launch is refused, 2 to 4 for a fault, and then there is no report; 130, 143 or 129 where INT,
TERM or HUP has stopped it.
"""
import signal
import sys

# This file is read by older versions of Python too, so that they can say this.
if sys.version_info[:2] < (3, 9):
    sys.stderr.write("measure: Python %d.%d runs it (%s), expected Python 3.9 or later\n" % (*sys.version_info[:2], sys.executable))
    sys.exit(3)
if __name__ == "__main__" and signal.getsignal(signal.SIGINT) is signal.default_int_handler:
    # from here on, and until this script heeds it: Python's own way to be interrupted is a page of lines
    signal.signal(signal.SIGINT, signal.SIG_DFL)

import json  # noqa: E402, what is above comes first
import os  # noqa: E402
import re  # noqa: E402
import resource  # noqa: E402
import shutil  # noqa: E402
import subprocess  # noqa: E402
import tempfile  # noqa: E402

# The name of each manifest, and its number where there are several.
MANIFEST = re.compile(r"manifest(?:-([0-9]+))?\.toml")
# The longest report of a manifest, and the most manifests: docs/report.schema.json has as many launches and files as these can have.
MOST, MOST_MANIFESTS = 64 << 20, 1024
# How long a file of this script's may be already; no limit is the greatest number.
HARD = resource.getrlimit(resource.RLIMIT_FSIZE)[1] % (1 << 64)
SIGNALS = (signal.SIGINT, signal.SIGTERM, signal.SIGHUP)
# The signals that have come, and whether a program is being started: it is killed once it is known.
CAME, HELD = [], []


def stop(why: str, status: int = 3):
    print(f"measure: {why}", file=sys.stderr)
    sys.exit(status)


def stopped(number: int, _frame: object):
    """Ends the script at the first signal; those after it change nothing, so that what runs is killed."""
    CAME.append(number)
    if len(CAME) == 1 and not HELD:
        sys.exit(128 + number)


def program() -> str:
    named = os.environ.get("RIM")
    found = shutil.which(named or "rim")
    if not found:
        why = f"RIM is {named!r}, which is no program that can be started" if named else "rim is not in PATH"
        stop(f"{why}; start this script with RIM=path/to/rim, or add the folder of rim to PATH")
    return os.path.abspath(found)


def manifests(folder: str) -> list[str]:
    found = [each for each in map(MANIFEST.fullmatch, os.listdir(folder)) if each]
    if not 0 < len(found) <= MOST_MANIFESTS:
        stop(f"{folder!r} has {len(found)} manifests, expected 1 to {MOST_MANIFESTS}")
    return [each[0] for each in sorted(found, key=lambda each: int(each[1] or 0))]


def measured(rim: str, folder: str, name: str, words: list[str]) -> tuple[int, bytes]:
    """The status and the report of a manifest. All that the program has started is killed where it ends, or a signal comes."""
    with tempfile.TemporaryFile() as out:
        HELD.append(name)
        explain = [] if "--explain" in words else ["--explain"]
        ran = subprocess.Popen([rim, "measure", *explain, name, *words], cwd=folder, stdin=subprocess.DEVNULL, stdout=out, start_new_session=True)
        try:
            HELD.clear()
            if CAME:
                sys.exit(128 + CAME[0])
            # it ends by a signal where its report is longer, and does not fill the disk
            resource.prlimit(ran.pid, resource.RLIMIT_FSIZE, (min(MOST, HARD), min(MOST, HARD)))
            os.waitid(os.P_PID, ran.pid, os.WEXITED | os.WNOWAIT)
        finally:
            os.killpg(ran.pid, signal.SIGKILL)
            ran.wait()
        out.seek(0)
        return ran.returncode, out.read(MOST)


def joined_lines(reports: list[bytes]) -> bytes:
    """One report of lines, out of several."""
    lines, pages = [], 0
    for report in reports:
        first, *launches, last = report.decode().split("\n")[:-1]
        if first != "rim-report 1" or not re.fullmatch("pages [0-9]{1,19}", last):
            raise ValueError(f"it begins with {first[:80]!r} and ends with {last[:80]!r}")
        lines += launches
        pages += int(last.split(" ")[1])
    return "\n".join(["rim-report 1", *lines, f"pages {pages}", ""]).encode()


def joined_files(reports: list[dict]) -> list[dict]:
    """The files of several reports, each path once."""
    found: dict[str, dict] = {}
    for file in (file for report in reports for file in report["files"]):
        had = found.setdefault(file["path"], file)
        if had != file:
            was, now = (f"{each['bytes']} bytes, sha256 {each['sha256']}" for each in (had, file))
            stop(f"{file['path']!r}: it was changed while it was measured: {now}, was {was}; expected one content")
    return list(found.values())


def joined_json(reports: list[bytes]) -> bytes:
    """One report of JSON, out of several."""
    read = [json.loads(report) for report in reports]
    if any((each["version"], each["program"]) != (4, read[0]["program"]) for each in read):
        raise ValueError("it is of another version, or by another program")
    launches = [launch for each in read for launch in each["launches"]]
    if len({launch["name"] for launch in launches}) != len(launches):
        raise ValueError("two launches have one name")
    whole = read[0] | {"files": joined_files(read), "launches": launches, "manifests": [file for each in read for file in each["manifests"]],
                       "pages": sum(each["pages"] for each in read)}
    return json.dumps(whole, separators=(",", ":"), sort_keys=True).encode() + b"\n"


def joined(reports: list[bytes], is_json: bool) -> bytes:
    if len(reports) == 1:
        return reports[0]
    try:
        return joined_json(reports) if is_json else joined_lines(reports)
    except (ValueError, KeyError, TypeError, AttributeError, RecursionError) as why:
        stop(f"a report of rim is none ({str(why)[:200]!r}), expected those that `rim measure` prints")


def run(words: list[str]) -> int:
    if "--help" in words or "-h" in words:
        print(__doc__.strip())
        return 0
    rim, folder = program(), os.path.dirname(os.path.realpath(__file__))
    statuses, reports = [], []
    for name in manifests(folder):
        status, report = measured(rim, folder, name, words)
        # a run that a signal has ended counts as a fault
        statuses.append(status if 0 <= status <= 4 else 3)
        reports.append(report)
        if statuses[-1] > 1:
            how = f"status {status}" if status >= 0 else f"ended by signal {-status}"
            print(f"measure: {name}: {how}", file=sys.stderr)
    if max(statuses) <= 1:
        sys.stdout.buffer.write(joined(reports, "--json" in words))
    return max(statuses)


def main() -> int:
    # where whoever started it ignores the ends of programs, nobody could see them
    signal.signal(signal.SIGCHLD, signal.SIG_DFL)
    for each in SIGNALS:
        if signal.getsignal(each) != signal.SIG_IGN:
            signal.signal(each, stopped)
    if sys.stdout is None:
        stop("output: it is closed, expected one that can be written to")
    try:
        status = run(sys.argv[1:])
        sys.stdout.flush()
        return status
    except OSError as why:
        os.dup2(os.open(os.devnull, os.O_WRONLY), sys.stdout.fileno())
        if not isinstance(why, BrokenPipeError):
            print(f"measure: {repr(why.filename) if why.filename else 'output'}: {why.strerror}", file=sys.stderr)
        return 3


if __name__ == "__main__":
    sys.exit(main())
