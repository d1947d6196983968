"""The order of the work: words, the reports, what is printed and written."""
import os
import re
import sys
import uuid
from collections.abc import Iterator
from contextlib import contextmanager, nullcontext

from comparer import report
from comparer.report import Report, Value
from outside import ending, files
from outside.faults import Fault, WrongWords
from outside.stopping import held
from outside.texts import quoted, shown, visible
from outside.words import END, VERSION, Known, no_option, walk

from . import comid, in_toto
from .comid import About

# The longest report that is read, the longest name of a vendor, and the longest URI.
MOST, MOST_VENDOR, MOST_URI = 64 << 20, 200, 200
# What a launch's name and a URI (RFC 3986) consist of.
NAME, URI = re.compile(r"[A-Za-z0-9._-]{1,64}"), re.compile(r"[A-Za-z][A-Za-z0-9+.-]*:[A-Za-z0-9._~:/?#@!$&'()*+,;=%\[\]-]+")

ABOUT = """rim-endorse: reference values of kept reports, as verifiers of CCA realms take them

usage: rim-endorse [--vendor NAME] [--class-id UUID] [--no-mkey] [--corim FILE [--profile URI]] REPORT..
       rim-endorse --in-toto REPORT
       rim-endorse --help | --version

REPORT is what `rim measure --json` has written. The launches of all reports are printed as a CoMID in the JSON that `cocli comid create`
takes: a reference value for each RIM, whose environment has the class and, as its instance, the RIM. The names of its launches are the keys
(mkey) of its measurements. The same reports give the same bytes. What it makes is not signed, and its labels are from memory of drafts: see
docs/VERIFIER.md.

      --vendor NAME    the vendor of the class; this or --class-id is given
      --class-id UUID  the identifier of the class
      --no-mkey        leave the names of launches out
      --corim FILE     write an unsigned CoRIM in CBOR too, with the same CoMID; FILE must not be there
      --profile URI    the profile of the CoRIM, by default http://arm.com/cca/realm/1
      --in-toto        print the report as an in-toto statement about its manifests and files, for a signer of DSSE
  -h, --help           print help
  -V, --version        print the version

Status: 0 each launch has a reference value; 1 some launch is refused and has none; 2 wrong words; 3 a fault.
"""
ALONE = {"-h": ABOUT, "--help": ABOUT, "-V": f"rim-endorse {VERSION}\n", "--version": f"rim-endorse {VERSION}\n"}
TAKES = {"--vendor": "a name", "--class-id": "a UUID", "--no-mkey": "", "--corim": "a file", "--profile": "a URI", "--in-toto": ""}
KNOWN = Known(dict.fromkeys(ALONE, "") | TAKES, no_option("rim-endorse"))


def class_id_of(text: str) -> uuid.UUID:
    if not re.fullmatch(r"[0-9a-fA-F]{8}(-[0-9a-fA-F]{4}){3}-[0-9a-fA-F]{12}", text):
        raise WrongWords(f"--class-id: {shown(text)}, expected a UUID, as cd1f0e55-26f9-460d-b9d8-f7fde171787c")
    return uuid.UUID(text)


def about_of(given: dict[str, str]) -> About:
    vendor = given.get("--vendor")
    if vendor is not None and (not vendor or len(vendor) > MOST_VENDOR or not vendor.isprintable()):
        raise WrongWords(f"--vendor: {shown(vendor)}, expected a name of 1 to {MOST_VENDOR} characters that can be seen")
    if vendor is None and "--class-id" not in given:
        raise WrongWords("no class is given, expected --vendor or --class-id; see rim-endorse --help")
    return About(vendor, class_id_of(given["--class-id"]) if "--class-id" in given else None)


def profile_of(given: dict[str, str]) -> str:
    uri = given.get("--profile", comid.PROFILE)
    if len(uri) > MOST_URI or not URI.fullmatch(uri):
        raise WrongWords(f"--profile: {shown(uri)}, expected a URI of at most {MOST_URI} characters")
    if "--profile" in given and "--corim" not in given:
        raise WrongWords("--profile is given without --corim, which has it")
    return uri


def launches_of(reports: list[tuple[str, Report]], has_names: bool) -> comid.Launches:
    """Returns each value of the reports with the names of its launches, if these are wanted."""
    found: dict[Value, list[str]] = {}
    for path, each in reports:
        for name, value in each.launches.items():
            if value.refused:
                continue
            names = found.setdefault(value, [])
            if has_names and not NAME.fullmatch(name):
                raise Fault(f"{visible(path)}: a launch has the name {shown(name)}, expected one that a manifest may have")
            if has_names and name not in names:
                names.append(name)
    return found


@contextmanager
def new_file(path: str, data: bytes) -> Iterator[None]:
    """Writes a new file before the steps in it, and removes it if they fail: the next run would find it there."""
    is_made = False
    try:
        with held(), files.faults_of(path, "a file that is not there, and can be written"):
            file = open(path, "xb")
            is_made = True
        with files.faults_of(path, "that it can be written"), file:
            file.write(data)
        yield
    except BaseException:
        if is_made:
            os.unlink(path)
        raise


def said_refused(reports: list[tuple[str, Report]]) -> bool:
    """Says which launches are refused, and returns whether some are."""
    refused = [(path, name, value) for path, each in reports for name, value in each.launches.items() if value.refused]
    for path, name, value in refused:
        print(f"rim-endorse: launch {quoted(name)} of {visible(path)} is refused ({value.refused}) and has no reference value", file=sys.stderr)
    return bool(refused)


def run_in_toto(given: dict[str, str], operands: list[str]) -> int:
    if len(given) > 1 or len(operands) != 1:
        raise WrongWords("--in-toto is given with another option or several reports, expected one REPORT alone")
    path = operands[0]
    text, found = in_toto.statement(files.read(path, MOST, report.WHAT), path)
    is_refused = said_refused([(path, found)])
    print(text, end="")
    return int(is_refused)


def run(words: list[str]) -> int:
    if not words:
        print(ABOUT, end="", file=sys.stderr)
        return 2
    said = list(walk(KNOWN, words))
    options = [option for option, _ in said if option in ALONE]
    operands = [word for option, word in said if option in ("", END)]
    if options:
        print(ALONE[options[0]], end="")
        return 0
    for option in TAKES:
        if sum(each == option for each, _ in said) > 1:
            raise WrongWords(f"{option} is given twice")
    if not operands:
        raise WrongWords("0 operands, expected REPORT; see rim-endorse --help")
    given = {option: value for option, value in said if option in TAKES}
    if "--in-toto" in given:
        return run_in_toto(given, operands)
    about, profile = about_of(given), profile_of(given)
    reports = [(path, report.read(files.read(path, MOST, report.WHAT), path)) for path in operands]
    launches = launches_of(reports, "--no-mkey" not in given)
    if not launches:
        raise Fault("no launch has a RIM, expected one")
    with new_file(given["--corim"], comid.corim(about, launches, profile)) if "--corim" in given else nullcontext():
        is_refused = said_refused(reports)
        print(comid.as_json(about, launches), end="", flush=True)
    return int(is_refused)


def main(words: list[str]) -> int:
    """The status of a run; what stops it is a line on standard error."""
    return ending.status_of("rim-endorse", lambda: run(words))
