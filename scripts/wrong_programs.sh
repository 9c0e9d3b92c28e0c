#!/usr/bin/env bash
# wrong_programs.sh [CRATE...]: tries the wrong programs of scripts/wrong_programs, of these crates or of all: each must be refused at the
# place that it names, by a fact that fails there (tests/must-fail-places.sh judges them). They cost time and are no part of the gate. Run
# after rt ci.
set -euo pipefail
cd "$(dirname "${BASH_SOURCE[0]}")/.."

EDITS=scripts/wrong_programs bash tests/must-fail-places.sh "$@"
