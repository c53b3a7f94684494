#!/bin/sh
# What must not compile: in each program of ci/lifetimes a slice that was read outlives the input. The borrow checker must
# reject it, for that reason and no other.
set -eu
cd "$(dirname "$0")/.."
work=$(mktemp -d)
trap 'rm -rf "$work"' EXIT
mkdir "$work/crates" "$work/crates/misuse" "$work/crates/misuse/src" "$work/crates/unbuilt" "$work/crates/unbuilt/src"
git init -q "$work"
cp HANDLES "$work/"
# rt reads the program before it builds a library only where it has kept nothing of one: so there is one that is never built
{ grep -E '^yasna(_base|_times|_bytes|_reader|_writer)?:' crates.txt; echo 'unbuilt:'; echo 'misuse: yasna unbuilt'; } > "$work/crates.txt"
printf '//! Never built.\n#![tactic(auto)]\n' > "$work/crates/unbuilt/src/lib.rt"
for name in yasna_base yasna_times yasna_bytes yasna_reader yasna_writer yasna; do
    mkdir "$work/crates/$name"
    for part in src specs proofs; do
        [ ! -d "crates/$name/$part" ] || cp -r "crates/$name/$part" "$work/crates/$name/"
    done
done
for program in ci/lifetimes/*.rt.txt; do
    cp "$program" "$work/crates/misuse/src/lib.rt"
    status=0
    (cd "$work/crates/misuse" && rt check) > "$work/said" 2>&1 || status=$?
    if [ "$status" -eq 0 ]; then
        echo "$program: compiles, and must not" >&2
        exit 1
    fi
    if ! grep -q 'src/lib.rt:.*error\[borrow-' "$work/said" || grep 'error' "$work/said" | grep -qv 'error\[borrow-'; then
        echo "$program: refused, but not by the borrow checker alone:" >&2
        head -n 20 "$work/said" >&2
        exit 1
    fi
    echo "$program: refused by the borrow checker"
done
