#!/bin/sh
# The table of docs/PERFORMANCE.md: what the programs, `openssl asn1parse` and Debian's dumpasn1 take for 10 MB and 100 MB of certificates.
#
#   sh ci/time_programs.sh
set -eu
cd "$(dirname "$0")/.."
work=$(mktemp -d)
trap 'rm -rf "$work"' EXIT
. ci/common.sh
for program in asn1show asn1der asn1check; do
    build "$program"
done
python3 ci/time_programs.py "$work"
