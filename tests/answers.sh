#!/usr/bin/env bash
# Each program answers every stored input as the Rust original did, with no Rust at hand: tests/PROGRAM/texts.tsv (inputs by hand),
# vectors.tsv (generated ones) and long.tsv (made by long.sh). A line has a name, the input and the answer, escaped for `printf %b`.
# `batch` also keeps our own limit of 4,096 lines `show`. Run after rt ci.
set -euo pipefail
cd "$(dirname "${BASH_SOURCE[0]}")/.."

wrong=0
say() { echo "answers: $*"; wrong=$((wrong + 1)); }

same() { # PROGRAM NAME ANSWER, with the input on standard input
    count=$((count + 1))
    cmp -s <("crates/$1/out/$1") <(printf '%b' "$3") || say "$1: $2: another answer"
}

each() { # PROGRAM LEAST: at least so many inputs are stored
    local count=0 file name text answer
    for file in tests/"$1"/texts.tsv tests/"$1"/vectors.tsv; do
        [ -f "$file" ] || continue
        while IFS=$'\t' read -r name text answer; do
            same "$1" "$name" "$answer" < <(printf '%b' "$text")
        done <"$file"
    done
    if [ -f "tests/$1/long.tsv" ]; then
        while IFS=$'\t' read -r name answer; do
            same "$1" "$name" "$answer" < <(bash "tests/$1/long.sh" "$name")
        done <"tests/$1/long.tsv"
    fi
    [ "$count" -ge "$2" ] || say "$1: only $count inputs"
    echo "answers: $1: $count inputs"
}

# N lines `show` behind a journal of one entry.
shows() { # N
    printf 'commands 1\n41\nrecords 1\nE 5 1 1 1 1 1 N 1\nfinish 1\nbatch 1 1\n'
    for ((i = 0; i < $1; i++)); do echo 'show 1'; done
}

limit() {
    local count=0 many
    many=$(for ((i = 0; i < 4096; i++)); do printf 'shown 1 log 41\\n'; done)
    same batch shows-4096 "${many}minimum 5\n" < <(shows 4096)
    same batch shows-4097 'line 4103 malformed\n' < <(shows 4097)
}

# Every number that a run can answer stands in the answers to at least three stored inputs, however often in each: all but 1 (no journal
# leaves an unsound state) and 29 (retired). In `checks` each line is a question of its own, so there lines count.
numbers() {
    local seen n
    seen=$(awk -F'\t' '{
        lines = split($3, line, /\\n/)
        for (i = 1; i <= lines; i++) if (line[i] ~ /refused/) {
            n = line[i]
            sub(/.* /, "", n)
            if (FILENAME ~ /^tests\/checks\// || last[n] != NR) count[n]++
            last[n] = NR
        }
    } END { for (n in count) print n, count[n] }' tests/*/texts.tsv tests/*/vectors.tsv)
    for ((n = 2; n <= 56; n++)); do
        [ "$n" -ne 29 ] || continue
        awk -v n="$n" '$1 == n && $2 >= 3 { found = 1 } END { exit !found }' <<<"$seen" || say "refusal $n stands in the answers to fewer than three inputs"
    done
}

each recover 500
each batch 400
each steps 500
each checks 4
limit
numbers
[ "$wrong" -eq 0 ] || exit 1
echo "answers: all as by the original"
