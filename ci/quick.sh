#!/bin/sh
# A first look: every test, every vector and every program's stored run, as `rt try` runs them. Nothing is proved.
#
#   sh ci/quick.sh
#
# The runs go on side by side, one a processor. The last line is `quick: N passed, N failed (nothing was proved)`.
set -eu
cd "$(dirname "$0")/.."
exec python3 ci/quick.py
