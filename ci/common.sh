# What the scripts of this folder share. They are at the top of the repository, and have a folder $work.

# Sees that the program of the crate $1 is there as LLVM builds it, which `rt ci` leaves so: where it isn't, or a source is newer,
# it is proved and built first, and run as the gate runs it. A program that reads files of data/, which aren't beside it here, prints its help.
build() {
    program=crates/$1/out/$1
    if [ -x "$program" ] && [ -z "$(find crates/*/src -name '*.rt' -newer "$program")" ]; then
        return
    fi
    echo "$program isn't there, or is older than a source: it is proved and built first"
    words=$(cat "crates/$1/args" 2> /dev/null || :)
    [ ! -d "crates/$1/data" ] || words=--help
    if ! (cd "crates/$1" && rt run -- $words < stdin) > "$work/said" 2>&1; then
        cat "$work/said" >&2
        exit 1
    fi
}

# Compiles the allocator that refuses requests.
compile_allocator() {
    rustc --edition 2021 -O -C panic=abort --crate-type cdylib -o "$work/allocator.so" ci/refused_memory/allocator.rs
}

# Compiles it, and the sweep $1 of ci/refused_memory.
compile_sweep() {
    compile_allocator
    rustc --edition 2021 -O -o "$work/sweep" "ci/refused_memory/$1.rs"
}
