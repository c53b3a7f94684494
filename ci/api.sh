#!/bin/sh
# What a user of the crates yasna and yasna_notation reaches, from the sources: each public item as it is declared, and the first sentence of its comment.
#
#   sh ci/api.sh > docs/API.md     prints the page
#   sh ci/api.sh check             compares it with docs/API.md, and says which line differs first
#
# Either fails where an item has no comment for readers (///), and says its name.
set -eu
cd "$(dirname "$0")/.."
exec python3 ci/api.py "$@"
