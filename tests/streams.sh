#!/usr/bin/env bash
# Streams that are slow, that fail or that do not block. A program reads and writes on where a stream is only not ready, and says so where
# one failed: `input failed` alone on standard output (of `checks` behind the answers so far), or `output failed` on standard error, with
# status 1. Run after rt ci.
set -euo pipefail
cd "$(dirname "${BASH_SOURCE[0]}")/.."

room=$(mktemp -d)
trap 'rm -rf "$room"' EXIT
tried=0 wrong=0
say() { echo "streams: $*"; wrong=$((wrong + 1)); }

# dd sets the flag of the stream that it shares with the program behind it, and moves no byte.
input_does_not_block() { dd count=0 iflag=nonblock status=none; }
output_does_not_block() { dd count=0 oflag=nonblock status=none </dev/null; }

# A part of a file, a pause, and the rest.
slowly() { # FILE BYTES
    head -c "$2" "$1"
    sleep 0.3
    tail -c +"$(($2 + 1))" "$1"
}

# The same answer as when the whole input is there at once.
same() { # PROGRAM NAME FILE BYTES
    tried=$((tried + 1))
    crates/"$1"/out/"$1" <"$3" >"$room/whole"
    slowly "$3" "$4" | { input_does_not_block && crates/"$1"/out/"$1"; } >"$room/slow" || say "$1: $2: status $?"
    cmp -s "$room/whole" "$room/slow" || say "$1: $2: another answer: $(head -n 1 "$room/slow")"
}

# Output, error and status.
gives() { # NAME OUTPUT ERROR STATUS, what the program left in $room/out and $room/err and its status
    tried=$((tried + 1))
    [ "$(cat "$room/out")" == "$2" ] || say "$1: prints '$(head -n 1 "$room/out")'"
    [ "$(cat "$room/err")" == "$3" ] || say "$1: says '$(head -n 1 "$room/err")'"
    [ "$4" -eq 1 ] || say "$1: status $4"
}

# Of each program an input with an answer, a part of it that ends within a line, and one that ends behind a line.
cat examples/day.journal examples/day.batch >"$room/batch"
cp examples/day.journal "$room/recover"
cp examples/day.journal "$room/steps"
printf 'progress 5 2 4\nhard 2 4 1 2 3 1\n' >"$room/checks"
for program in recover steps batch checks; do
    run=crates/$program/out/$program file=$room/$program
    size=$(wc -c <"$file") last=$(tail -n 1 "$file" | wc -c)
    same "$program" 'within the last line' "$file" "$((size - 3))"
    same "$program" 'behind the last line but one' "$file" "$((size - last))"
    same "$program" 'before the first byte' "$file" 0

    status=0; "$run" <. >"$room/out" 2>"$room/err" || status=$?
    gives "$program: a directory" 'input failed' '' "$status"
    status=0; "$run" <&- >"$room/out" 2>"$room/err" || status=$?
    gives "$program: no standard input" 'input failed' '' "$status"
    status=0; : >"$room/out"; "$run" <"$file" >/dev/full 2>"$room/err" || status=$?
    gives "$program: a full disk" '' 'output failed' "$status"
    status=0; "$run" <. >/dev/full 2>"$room/err" || status=$?
    gives "$program: neither" '' 'output failed' "$status"
done

# 573,440 bytes of answers into a pipe that is read late.
{
    printf 'commands 1\n%s\nrecords 1\nE 5 1 1 1 1 1 N 1\nfinish 1\nbatch 1 1\n' "$(printf '61%.0s' {1..64})"
    for ((i = 0; i < 4096; i++)); do echo 'show 1'; done
} >"$room/long"
tried=$((tried + 1))
crates/batch/out/batch <"$room/long" >"$room/whole"
{ output_does_not_block && crates/batch/out/batch <"$room/long" || echo "streams: status $?" >&2; } | { sleep 0.3; cat; } >"$room/slow"
cmp -s "$room/whole" "$room/slow" || say "batch: a slow reader: $(wc -c <"$room/slow") bytes of $(wc -c <"$room/whole")"

[ "$wrong" -eq 0 ] || exit 1
echo "streams: $tried runs answered as they should"
