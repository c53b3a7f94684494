#!/bin/sh
# Proves and builds the programs, and installs them with their manual pages and completions for bash.
#
#   sh ci/install.sh [PREFIX]     below /usr/local where no folder is named
#
# The first run proves all that they use. `rattle` builds only what is proved, so no run is without that.
set -eu
cd "$(dirname "$0")/.."
case ${1:-} in
    -*) echo "usage: sh ci/install.sh [PREFIX]" >&2; exit 2 ;;
esac
prefix=${1:-/usr/local}
for program in asn1show asn1der asn1check asn1compile; do
    echo "$program: proved and built"
    # --help is the shortest run: `rt run` builds the program, and leaves it in out/
    (cd "crates/$program" && rt run -- --help > /dev/null)
    install -D -m 755 "crates/$program/out/$program" "$prefix/bin/$program"
    install -D -m 644 "docs/man/$program.1" "$prefix/share/man/man1/$program.1"
    install -D -m 644 ci/completions/asn1.bash "$prefix/share/bash-completion/completions/$program"
done
echo "installed below $prefix"
