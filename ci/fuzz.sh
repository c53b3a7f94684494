#!/bin/sh
# Random input: reads bytes at random, and vectors that are changed, cut, joined and nested at random, by each call in each
# mode, and holds the answers against each other (ci/fuzz.py says how).
#
#   sh ci/fuzz.sh [COUNT [SEED]]     COUNT inputs, 100000 where it isn't said, made from SEED, else from the time
#
# The counts are printed after each 100000 inputs, and where a call fails, the seed of its input: `sh ci/fuzz.sh 1 SEED` makes that
# input again. Each run makes inputs of its own, also where its SEED is the next one.
#
# What runs is yasna_vectors as LLVM builds it, which `rt ci` leaves there; it is proved and built first where it isn't there
# or a source is newer.
set -eu
cd "$(dirname "$0")/.."
count=${1:-100000}
seed=${2:-$(date +%s)}
work=$(mktemp -d)
trap 'rm -rf "$work"' EXIT
. ci/common.sh
build yasna_vectors
echo "seed $seed, $count inputs"
python3 ci/fuzz.py "$program" "$seed" "$count"
