#!/bin/sh
# The mutants that the gate doesn't try: each edit of mutants/CRATE/ turns one meaning of that crate's code, and the prover has to reject it.
#
#   sh ci/mutants.sh [CRATE ..]     those of these crates, else of all
#
# A mutant has the encoding of a must-fail edit: a line `file: src/FILE.rt`, then pairs of lines `old: TEXT` and `new: TEXT`. Where it was
# rejected, the line that is printed says at which goal. The last line is `mutants: N passed, N failed`. What was tried before on this
# machine, over the same files, isn't tried again.
set -eu
cd "$(dirname "$0")/.."
exec python3 ci/mutants.py "$@"
