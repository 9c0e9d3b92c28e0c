#!/usr/bin/env bash
# The README's examples: each line `    $ COMMAND` is run, and must print the indented lines below it. Run after rt ci.
set -euo pipefail
cd "$(dirname "${BASH_SOURCE[0]}")/.."

examples=0 wrong=0 command='' expected=''
check() {
    [ -n "$command" ] || return 0
    examples=$((examples + 1))
    [ "$(bash -c "$command")" == "$(printf '%s' "$expected")" ] || { echo "readme: another answer: $command"; wrong=$((wrong + 1)); }
    command='' expected=''
}

while IFS= read -r line; do
    case $line in
        '    $ '*) check; command=${line#    \$ } ;;
        '    '*) expected+=${line#    }$'\n' ;;
        *) check; expected='' ;;
    esac
done <README.md
check
[ "$examples" -ge 6 ] || { echo "readme: only $examples examples"; exit 1; }
[ "$wrong" -eq 0 ] || exit 1
echo "readme: $examples examples answered as they say"
