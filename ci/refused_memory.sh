#!/bin/sh
# Refused memory: each request for memory of each vector is refused once, in a run of its own. The vector is to return out
# of memory then, and the vectors beside it what they return with ample memory.
#
#   sh ci/refused_memory.sh [JOBS]     JOBS runs go on side by side, 2 where it isn't said
#
# What runs is yasna_vectors as LLVM builds it, which `rt ci` leaves there; it is proved and built first where it isn't there
# or a source is newer. ci/refused_memory/allocator.rs is before the C library's allocator, and refuses one request of
# a run; ci/refused_memory/sweep_vectors.rs makes the runs, and says what is to come of each.
set -eu
cd "$(dirname "$0")/.."
jobs=${1:-2}
work=$(mktemp -d)
trap 'rm -rf "$work"' EXIT
. ci/common.sh
build yasna_vectors
compile_sweep sweep_vectors
mkdir "$work/runs"
"$work/sweep" "$program" "$work/allocator.so" crates/yasna_vectors/stdin ci/worked_examples "$work/runs" "$jobs"
