#!/bin/sh
# The ends of a program: what it does if nothing reads its output, if an argument isn't text, and if memory runs out; its help, its
# version, and that its manual page and its completions name the same options.
#
#   sh ci/program_ends.sh [CRATE ..]     asn1show, asn1der, asn1check and asn1compile, or programs of these crates
#
# What runs is the program as LLVM builds it, which `rt ci` leaves there; it is proved and built first where it isn't there or a
# source is newer. The last line is `ends: N passed, N failed`.
set -eu
cd "$(dirname "$0")/.."
work=$(mktemp -d)
trap 'rm -rf "$work"' EXIT
. ci/common.sh
[ $# -gt 0 ] || set -- asn1show asn1der asn1check asn1compile
for crate in "$@"; do
    build "$crate"
done
python3 ci/program_ends.py "$@"
