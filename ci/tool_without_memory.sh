#!/bin/sh
# The program without memory: each request for memory of yasna_tool is refused once, in a run of its own, over a value of each
# kind in each mode. `OutOfMemory` for the value is a refusal, with its text and status 1; while the arguments are read it is
# `io` and status 3; either way nothing is written. Or the program does without, and its answer is whole.
#
#   sh ci/tool_without_memory.sh
#
# What runs is yasna_tool as LLVM builds it, which `rt ci` leaves there; it is proved and built first where it isn't there or a
# source is newer. ci/refused_memory/allocator.rs is before the C library's allocator, and refuses one request of a
# run; ci/refused_memory/sweep_tool.rs makes the runs, and says what is to come of each.
set -eu
cd "$(dirname "$0")/.."
work=$(mktemp -d)
trap 'rm -rf "$work"' EXIT
. ci/common.sh
build yasna_tool
compile_sweep sweep_tool
"$work/sweep" "$program" "$work/allocator.so" "$work"
