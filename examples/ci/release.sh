#!/bin/sh
# Measures a release in CI, and fails if its values are not those that were kept.
#
#     release.sh MANIFEST KEPT OUT
#
# MANIFEST   the manifest of the release
# KEPT       the report that was committed with the last release
# OUT        a new folder, which gets report.json, changes.txt, page.html, realms.cbor, realms.json and statement.json
#
# RIM_VENDOR is the vendor of the reference values. RIM_PACKAGE is a Debian package of rim, which is installed if there is no rim yet.
#
# If values differ, look at page.html and changes.txt. If the change is meant, commit report.json as KEPT. What is to be signed is in OUT: sign
# statement.json by a signer of DSSE, or realms.cbor as a CoRIM.
set -eu
manifest=$1 kept=$2 out=$3
if ! command -v rim >/dev/null; then
    apt-get -q update
    apt-get -q -y install "$RIM_PACKAGE"
fi
mkdir "$out"
rim check "$manifest"
rim measure --json -o "$out/report.json" "$manifest"
rim-endorse --vendor "$RIM_VENDOR" --corim "$out/realms.cbor" "$out/report.json" >"$out/realms.json"
rim-endorse --in-toto "$out/report.json" >"$out/statement.json"
rim-page --before "$kept" --signed "$out/report.json" --signed "$out/realms.cbor" --signed "$out/statement.json" --out "$out/page.html" "$manifest"
rim-compare "$kept" "$out/report.json" >"$out/changes.txt" || {
    status=$?
    cat "$out/changes.txt"
    exit "$status"
}
