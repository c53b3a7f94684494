#!/bin/sh
# How many of the modules in packages of Debian asn1compile reads, and how many of their types it takes: three tables, for docs/MODULES.md. The gate
# doesn't run this.
#
#   sh ci/module_coverage.sh [FOLDER [--incomplete]]
#
# With `--incomplete` asn1compile takes any element for a type that no module gives.
# The packages are downloaded by apt-get into FOLDER, or a folder that is removed afterwards; what is in FOLDER already is not downloaded again.
# What runs is asn1compile as LLVM builds it, which is proved and built first where it isn't there or a source is newer.
set -eu
cd "$(dirname "$0")/.."
work=$(mktemp -d)
trap 'rm -rf "$work"' EXIT
. ci/common.sh
build asn1compile
folder=$(realpath "${1:-$work}")
[ $# = 0 ] || shift
codename=$(. /etc/os-release && echo "$VERSION_CODENAME")

# Runs apt-get with lists of its own, which name sources too.
apt() {
    apt-get -q -o Dir::Etc::sourcelist="$folder/sources.list" -o Dir::Etc::sourceparts=- -o Dir::State::lists="$folder/lists" \
        -o Dir::Cache="$folder/cache" -o APT::Sandbox::User=root "$@" > "$work/said" 2>&1 || { cat "$work/said" >&2; exit 1; }
}

# Downloads the sources of the package $1, and takes its modules out.
source_of() {
    [ -n "$(find "$folder" -maxdepth 1 -name "$1_*.orig.tar.*")" ] || (cd "$folder" && apt source --download-only --tar-only "$1")
    unpack "$1" "$(find "$folder" -maxdepth 1 -name "$1_*.orig.tar.*" ! -name '*.asc')"
}

# Downloads the package $1, and takes its modules out.
binary_of() {
    [ -n "$(find "$folder" -maxdepth 1 -name "$1_*.deb")" ] || (cd "$folder" && apt download "$1")
    dpkg-deb --fsys-tarfile "$(find "$folder" -maxdepth 1 -name "$1_*.deb")" > "$work/$1.tar"
    unpack "$1" "$work/$1.tar"
}

# Takes the modules out of an archive, and what says for which encoding Wireshark reads them, into a folder that has the package's name.
unpack() {
    mkdir -p "$work/modules/$1"
    tar -xf "$2" -C "$work/modules/$1" --wildcards '*.asn*' '*/asn1/*/CMakeLists.txt' 2> /dev/null || :
}

mkdir -p "$folder/lists/partial" "$folder/cache/archives/partial"
printf '%s http://deb.debian.org/debian %s main\n' deb "$codename" deb-src "$codename" > "$folder/sources.list"
[ -n "$(find "$folder" -maxdepth 1 -name '*.deb')" ] || apt update
for package in wireshark heimdal krb5; do
    source_of "$package"
done
for package in erlang-src snacc; do
    binary_of "$package"
done
(cd "$folder" && find . -maxdepth 1 -name '*.orig.tar.*' ! -name '*.asc' -o -maxdepth 1 -name '*.deb') |
    sed -e 's|^\./||' -e 's|\.orig\.tar\.[a-z0-9]*$||' -e 's|_[a-z0-9]*\.deb$||' -e 's|%3a|:|' | sort | tr '_' ' '
python3 ci/module_coverage.py "$program" "$work/modules" "$@"
