#!/bin/sh
# Random input for the programs: has each read inputs made at random, and holds what they say against each other (ci/fuzz_programs.py says how).
#
#   sh ci/fuzz_programs.sh [COUNT [SEED]]     COUNT inputs, 100000 where it isn't said, made from SEED, else from the time
#
# What runs are the programs as LLVM builds them, which `rt ci` leaves there; each is proved and built first where it isn't there or a source
# is newer. The gate doesn't run this.
set -eu
cd "$(dirname "$0")/.."
count=${1:-100000}
seed=${2:-$(date +%s)}
work=$(mktemp -d)
trap 'rm -rf "$work"' EXIT
. ci/common.sh
for name in asn1show asn1der asn1check asn1compile; do
    build "$name"
done
echo "seed $seed, $count inputs"
python3 ci/fuzz_programs.py "$seed" "$count"
