#!/bin/sh
# What the documents show. Each block of Rust or of antt in them, and in the comments on public items, is in one of the proved crates
# tests_yasna, tests_messages, tests_notation, examples_proved, x509 and ldap, line for line, but for its indentation as a whole. A module that a
# document shows is the document's blocks, one after the other, and nothing else: so a reader who copies them has all that is needed. Each
# block of GUIDE.md and NOTATION.md is a module. A page CALLING.md also quotes contracts and definitions, which are in the sources, line for line. Each mutant that
# PROMISES.md names is an edit that the gate or ci/mutants.sh tries.
# First the picture of the crates, which ARCHITECTURE.md shows, is compared with crates.txt.
set -eu
cd "$(dirname "$0")/.."
sh ci/picture.sh check
work=$(mktemp -d)
trap 'rm -rf "$work"' EXIT

# A document's lines; of a file of Rust, those of its comments for readers, and all other lines as empty ones.
lines_of() {
    case $1 in
    *.rt) sed -e 's|^ *//[/!] \{0,1\}||' -e t -e 's/.*//' "$1" ;;
    *) cat "$1" ;;
    esac
}

# The first file holds a document's lines, the other files are the crates'. Prints the number of blocks, or the first error. With `quotes` set,
# comments are omitted on both sides, and a block that isn't in a file as a whole may be quotes with empty lines between them.
compare='
# The number of lines of the block that are at this place.
function fits(file, first,    indent, k) {
    k = index(text[file, first], block[1])
    indent = substr(text[file, first], 1, k - 1)
    if (k == 0 || indent !~ /^ *$/) return 0
    for (k = 1; k <= size; k++)
        if (text[file, first + k - 1] != (block[k] == "" ? "" : indent block[k])) break
    return k - 1
}
# The number of lines at the place that has most.
function most_that_fit(    file, first, k, most) {
    for (file = 2; file < ARGC; file++)
        for (first = 1; first <= lines[file]; first++) {
            k = fits(file, first)
            if (k > most) most = k
        }
    return most + 0
}
function fail(why) {
    print why
    exit 1
}
function find_block(    k) {
    blocks++
    k = most_that_fit()
    if (size == 0 || k < size) fail(begin + k ": no file of the crates continues with " block[k + 1])
}
# The quotes of the block, one after the other.
function find_quotes(    all, whole, k, from) {
    from = begin
    for (k = 1; k <= size; k++) whole[k] = block[k]
    all = size
    whole[all + 1] = ""
    size = 0
    for (k = 1; k <= all + 1; k++)
        if (whole[k] != "") block[++size] = whole[k]
        else if (size > 0) {
            begin = from + k - 1 - size
            find_block()
            size = 0
        }
}
BEGIN {
    for (file = 1; file < ARGC; file++)
        while ((getline line < ARGV[file]) > 0)
            if (!quotes || file == 1 || line !~ /^ *(--|\/\/)/) text[file, ++lines[file]] = line
    for (at = 1; at <= lines[1]; at++) {
        line = text[1, at]
        if (inside && line == "```") {
            inside = 0
            if (quotes && most_that_fit() < size) find_quotes()
            else find_block()
        } else if (inside) {
            if (!quotes || line !~ /^ *(--|\/\/)/) block[++size] = line
        } else if (line == "```rust" || line == "```antt") {
            inside = 1
            size = 0
            begin = at + 1
        }
    }
    if (inside) fail(begin ": a block that does not end")
    if (!blocks) fail("1: no block")
    print blocks
}'

# The first file is a module, the second the document that shows it. Prints the first line of the module that no block holds, if any.
assemble='
# Whether the module continues with the block; if so, it is passed.
function takes(    k) {
    for (k = 1; k <= size; k++)
        if (module[at + k - 1] != block[k]) return 0
    at += size
    while (at <= lines && module[at] == "") at++
    return 1
}
BEGIN {
    while ((getline line < ARGV[1]) > 0) module[++lines] = line
    for (at = 1; module[at] ~ /^\/\/!/ || module[at] == ""; at++) if (at > lines) exit
    while ((getline line < ARGV[2]) > 0) {
        if (inside && line == "```") {
            inside = 0
            if (at <= lines) takes()
        } else if (inside) {
            block[++size] = line
        } else if (line == "```rust") {
            inside = 1
            size = 0
        }
    }
    if (at <= lines) print at ": no block continues with " module[at]
}'

# is_whole DOCUMENT MODULE..
is_whole() {
    shown_in=$1
    shift
    for module in "$@"; do
        awk "$assemble" "$module" "$shown_in" > "$work/said"
        if [ -s "$work/said" ]; then
            echo "$module is not whole in $shown_in: $(cat "$work/said")" >&2
            exit 1
        fi
    done
    echo "$shown_in: $# modules, each whole"
}

# rust_blocks DOCUMENT COUNT
rust_blocks() {
    if [ "$(grep -c '^```rust$' "$1")" -ne "$2" ]; then
        echo "$1: a block that is not a module" >&2
        exit 1
    fi
}

# compare_blocks DOCUMENT QUOTES FILE..
compare_blocks() {
    document=$1
    quotes=$2
    shift 2
    lines_of "$document" > "$work/lines"
    if ! awk -v quotes="$quotes" "$compare" "$work/lines" "$@" > "$work/said"; then
        echo "$document:$(cat "$work/said")" >&2
        exit 1
    fi
}

guide=crates/tests_yasna/src/examples
examples=crates/examples_proved/src
types=crates/x509/src
filters=crates/ldap/src
more=crates/tests_notation/src/examples
messages=crates/tests_messages/src
files=$(find "$guide" "$examples" "$types" "$filters" "$more" "$messages/rewritten.rt" crates/examples_proved/proofs -name '*.rt' -o -name '*.antt')
for page in README.md docs/GUIDE.md docs/NOTATION.md docs/IMPLEMENTING.md \
    crates/yasna/src/lib.rt crates/yasna/src/shapes.rt \
    crates/yasna_reader/src/state.rt crates/yasna_reader/src/set.rt \
    crates/yasna_writer/src/state.rt crates/yasna_writer/src/sequence.rt crates/yasna_writer/src/set.rt; do
    compare_blocks "$page" "" $files
    echo "$page: $(cat "$work/said") pieces, all in proved crates"
done

is_whole README.md "$guide/first.rt"
set -- $(find "$guide" -name '*.rt' ! -name first.rt | sort) "$examples/strings.rt" "$examples/exact.rt"
is_whole docs/GUIDE.md "$@"
rust_blocks docs/GUIDE.md $#
set -- "$messages/rewritten.rt" "$types/time.rt" "$types/extension.rt" "$types/extensions.rt" "$more/header.rt" "$filters/filter.rt" "$filters/filter_notation.rt"
is_whole docs/NOTATION.md "$@"
rust_blocks docs/NOTATION.md $#
is_whole docs/IMPLEMENTING.md "$examples/by_tuple.rt" "$examples/by_closure.rt"

library=$(for crate in yasna yasna_base yasna_times yasna_bytes yasna_reader yasna_writer yasna_notation yasna_notation_constraints; do
    find "crates/$crate/src" "crates/$crate/specs" -name '*.rt' -o -name '*.antt'
done)
for page in crates/yasna/CALLING.md crates/yasna_notation/CALLING.md; do
    compare_blocks "$page" 1 $files $library
    echo "$page: $(cat "$work/said") callers, contracts and definitions, all in the sources"
done

# The names after "Mutants:", up to the end of that item.
awk '/^ *- / || $0 == "" { inside = /^ *- Mutants: / } inside' docs/PROMISES.md | grep -o '`[a-z0-9_]*`' | tr -d '`' | sort -u > "$work/mutants"
while read -r name; do
    if ! ls crates/*/must-fail/"$name".edit mutants/*/"$name".edit 2> /dev/null | grep -q .; then
        echo "docs/PROMISES.md: no mutant $name" >&2
        exit 1
    fi
done < "$work/mutants"
echo "docs/PROMISES.md: $(grep -c . "$work/mutants") mutants, each an edit"
