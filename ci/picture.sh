#!/bin/sh
# The picture of the crates and of what each uses, from crates.txt.
#
#   sh ci/picture.sh > docs/crates.svg     draws it
#   sh ci/picture.sh check                 fails where docs/crates.svg is another one
set -eu
cd "$(dirname "$0")/.."
exec python3 ci/picture.py "$@"
