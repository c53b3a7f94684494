#!/bin/sh
# The table of docs/SHOW.md: what asn1show, `openssl asn1parse` and Debian's dumpasn1 do with the same inputs.
#
#   sh ci/compare_listers.sh
set -eu
cd "$(dirname "$0")/.."
work=$(mktemp -d)
trap 'rm -rf "$work"' EXIT
. ci/common.sh
build asn1show
python3 ci/compare_listers.py
