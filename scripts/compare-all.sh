#!/usr/bin/env bash
# compare-all.sh [N [SEED...]]: runs recover, steps, batch and checks beside the Rust original on N generated inputs of each kind from each
# seed (5,000 from 1, 2 and 3 if not given), by the oracle's compare.sh, and prints its `same X of X` for each. Run after rt ci.
# scripts/requests.txt has the requests of document 02 that change an answer; the oracle follows them, by the original's own state.
#   ORACLE       the oracle's folder (default: ../shared/oracle)
#   ORACLE_WORK  a folder to build and write in (default: a new one)
#   PROGRAMS     which programs (default: all four)
# Ends with 0 if every answer is the same, 1 if one differs, 3 if Rust or the oracle is not at hand: then nothing was compared.
set -euo pipefail
cd "$(dirname "${BASH_SOURCE[0]}")/.."

absent() { echo "compare-all: $*: NOTHING WAS COMPARED (tests/answers.sh replays stored answers without Rust)"; exit 3; }
oracle=${ORACLE:-../shared/oracle}
[ -f "$oracle/compare.sh" ] || absent "no oracle at $oracle"
command -v cargo >/dev/null || [ -x "$HOME/.cargo/bin/cargo" ] || absent "no cargo"
work=${ORACLE_WORK:-$(mktemp -d)}
REQUESTS=$(cat scripts/requests.txt)
export REQUESTS
number=${1:-5000}
[ $# -eq 0 ] || shift
[ $# -gt 0 ] || set -- 1 2 3

compare() { # PROGRAM, then arguments of compare.sh
    local program=$PWD/crates/$1/out/$1
    case $1 in
        recover) ORACLE_WORK=$work bash "$oracle/compare.sh" "$program" "${@:2}" ;;
        steps) STEPS=$program ORACLE_WORK=$work bash "$oracle/compare.sh" - "${@:2}" ;;
        batch) BATCH=$program ORACLE_WORK=$work bash "$oracle/compare.sh" - "${@:2}" ;;
        checks) CHECKS=$program ORACLE_WORK=$work bash "$oracle/compare.sh" - "${@:2}" ;;
    esac
}

wrong=0
for program in ${PROGRAMS:-recover steps batch checks}; do
    [ -x "crates/$program/out/$program" ] || { echo "compare-all: $program is not built: run rt ci"; exit 1; }
    echo "== $program: $number inputs a kind, seeds $*"
    compare "$program" "$number" "$@" || wrong=1
done
exit "$wrong"
