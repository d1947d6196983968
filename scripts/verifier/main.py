"""The order of the work: words, the token, the reports, what is printed."""
from __future__ import annotations

import re
import sys
from collections.abc import Mapping, Sequence

from comparer import report
from comparer.report import Report, Value
from outside import ending, files
from outside.faults import Fault, WrongWords
from outside.texts import quoted, shown, visible
from outside.words import END, VERSION, Known, no_option, walk

from . import expected, token
from .token import NONCE_BYTES, Claims

# The longest report that is read.
MOST = 64 << 20

ABOUT = """rim-verify: verify a CCA token by its attestation key, and print which launch of kept reports has its RIM

usage: rim-verify --cpak KEY.. (--nonce HEX | --no-nonce) [--platform FILE] TOKEN REPORT..
       rim-verify TOKEN REPORT..
       rim-verify --help | --version

TOKEN is a CCA attestation token: its bytes, or these as hexadecimal digits or in base64. REPORT is what `rim measure --json` has written.

With --cpak the token is verified: the attestation key signed the platform token, whose challenge is the hash of the realm's key, which signed
the realm token, whose challenge is the nonce. Then each launch that has the token's RIM is printed. The hash algorithm is compared too, and
the Realm Personalization Value where a report has one. This needs Debian's package python3-cryptography.

Without --cpak NOTHING IS VERIFIED: whoever made the token may have written anything. The RIM is looked up all the same, and TOKEN may also be
the realm's part of a token.

      --cpak KEY      a file of attestation keys of the platform: public keys as PEM or JWK; may be given several times
      --nonce HEX     the challenge that you sent: 64 bytes
      --no-nonce      accept any challenge, so that an old token is valid too
      --platform FILE expected values of the platform, as TOML: implementation_id, lifecycle, software
  -h, --help          print help
  -V, --version       print the version

Status: 0 valid, and a launch has the RIM; 1 valid, and none has it, or not with that personalization value; 2 wrong words; 3 a fault;
5 not valid. Without --cpak: 0 a launch has the RIM; 1 none has it; 2 wrong words; 3 a fault.
"""
HELP_HINT = "expected TOKEN and REPORT; see rim-verify --help"
ALONE = {"-h": ABOUT, "--help": ABOUT, "-V": f"rim-verify {VERSION}\n", "--version": f"rim-verify {VERSION}\n"}
TAKES = {"--cpak": "a file of public keys", "--nonce": "hexadecimal digits", "--no-nonce": "", "--platform": "a file"}
KNOWN = Known(dict.fromkeys(ALONE, "") | TAKES, no_option("rim-verify"))
UNVERIFIED = "nothing was verified, expected --cpak: whoever made this token may have written anything"
ANY_NONCE = "no nonce was compared: the token may be an old one"
ANY_PLATFORM = "no values of the platform were compared: it may be any whose attestation key is among the given ones"
NOT_VALID = 5


def named(path: str, name: str) -> str:
    return f"launch {quoted(name)} of {visible(path)}"


def found_in(claims: Claims, reports: Sequence[tuple[str, Report]]) -> list[tuple[str, Value]]:
    """Each launch that has the RIM, by the algorithm that the token claims."""
    wanted = (claims.algorithm, claims.rim)
    return [(named(path, name), value) for path, each in reports for name, value in each.launches.items() if (value.algorithm, value.digits) == wanted]


def has_rpv(claims: Claims, value: Value) -> bool:
    """Whether a launch has the token's personalization value, as far as its report has one."""
    return not value.rpv or value.rpv == claims.rpv


def lookup(claims: Claims, reports: Sequence[tuple[str, Report]]) -> int:
    """Prints the launches that have the RIM, and returns the status."""
    found = found_in(claims, reports)
    for line, value in found:
        print(f"{line} has the RIM: {claims.algorithm} {claims.rim}")
        if not has_rpv(claims, value):
            print(f"{line} has another personalization value: {value.rpv}, the token has {claims.rpv or 'none'}")
    if not found:
        count = sum(len(each.launches) for _, each in reports)
        print(f"no launch of {count} has the RIM: {claims.algorithm} {claims.rim}")
    return int(not any(has_rpv(claims, value) for _, value in found))


def nonce_of(given: Mapping[str, list[str]]) -> bytes | None:
    if ("--nonce" in given) == ("--no-nonce" in given):
        raise WrongWords("expected one of --nonce, the challenge that you sent, and --no-nonce; see rim-verify --help")
    if "--nonce" not in given:
        return None
    text = given["--nonce"][0].removeprefix("0x")
    if len(given["--nonce"]) > 1 or not re.fullmatch(f"[0-9a-fA-F]{{{2 * NONCE_BYTES}}}", text):
        raise WrongWords(f"--nonce: {shown(text)}, expected one of {NONCE_BYTES} bytes in hexadecimal digits")
    return bytes.fromhex(text)


def verify(data: bytes, given: Mapping[str, list[str]], reports: Sequence[tuple[str, Report]]) -> int:
    """Verifies a token, looks its RIM up, and returns the status."""
    nonce = nonce_of(given)
    try:
        from . import chain, keys
    except ImportError:
        raise Fault("--cpak: Python has no package cryptography, expected it (Debian: apt install python3-cryptography)") from None
    known = [(path, key) for path in given["--cpak"] for key in keys.in_file(files.read(path, keys.MOST, keys.WHAT), path)]
    table = expected.read(given["--platform"][0]) if "--platform" in given else {}
    try:
        found = chain.verified(data, known, nonce)
        if other := expected.difference(found.platform, table):
            raise chain.NotValid(other)
    except chain.NotValid as why:
        print(f"not valid: {why}")
        return NOT_VALID
    for is_said, line in ((nonce is None, ANY_NONCE), (not table, ANY_PLATFORM)):
        print(f"rim-verify: {line}\n" * is_said, end="", file=sys.stderr)
    first, second = found.algorithms
    print(f"valid: a key of {visible(found.key_file)} signed the platform token ({first}), the realm's key the realm token ({second})")
    return lookup(found.realm, reports)


def run(words: list[str]) -> int:
    if not words:
        print(ABOUT, end="", file=sys.stderr)
        return 2
    said = list(walk(KNOWN, words))
    options = [option for option, _ in said if option in ALONE]
    operands = [word for option, word in said if option in ("", END)]
    if options:
        print(ALONE[options[0]], end="")
        return 0
    given = {option: [value for each, value in said if each == option] for option, _ in said if option in TAKES}
    if given and "--cpak" not in given:
        raise WrongWords(f"{next(iter(given))} is given without --cpak; see rim-verify --help")
    if len(given.get("--platform", [])) > 1:
        raise WrongWords("--platform is given twice")
    if len(operands) < 2:
        raise WrongWords(f"{len(operands)} operand{'s' * (len(operands) != 1)}, {HELP_HINT}")
    path, *kept = operands
    data = files.read(path, token.MOST, token.WHAT)
    claims = token.read(data, path) if not given else None
    reports = [(each, report.read(files.read(each, MOST, report.WHAT), each)) for each in kept]
    if claims is None:
        return verify(data, given, reports)
    print(f"rim-verify: {UNVERIFIED}", file=sys.stderr)
    return lookup(claims, reports)


def main(words: list[str]) -> int:
    """The status of a run; what stops it is a line on standard error."""
    return ending.status_of("rim-verify", lambda: run(words))
