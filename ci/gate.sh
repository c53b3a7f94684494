#!/bin/sh
# The gate: the tests and proofs that a change has to pass. `.ci/run` runs it.
#
#   sh ci/gate.sh                     all stages
#   sh ci/gate.sh STAGE [CRATE ..]    one stage; for proofs, mutants, tests and programs: of these crates alone
#
# | Stage | What has to hold |
# |---|---|
# | api | docs/API.md lists the public items as the sources declare them |
# | words | names, comments and documents use the words that ci/words.txt allows |
# | guide | each piece of code that a document shows is in a proved crate |
# | lifetimes | a slice that outlives the input is rejected by the borrow checker |
# | proofs | each crate is proved, and so are its tests |
# | mutants | the prover rejects each edit of crates/CRATE/must-fail/ |
# | tests | each test passes |
# | programs | each program writes what its file stdout holds, as two compilers build it |
# | modules | each crate of modules/ is what asn1compile writes for its module, message_modules has the lines of modules/, and asn1compile ends as docs/MODULES.md says |
# | memory | each request for memory is refused once: the programs report it, and nothing else changes |
#
# First it looks for the commands that it needs, and says how many checks run side by side. The last line is `N passed, N failed`, over
# all stages. What a run has proved is kept on this machine, for later runs over the same files.
set -eu
cd "$(dirname "$0")/.."
exec python3 ci/gate.py "$@"
