#!/usr/bin/env bash
# must-fail-places.sh [CRATE...]: a refused edit shows something only if it was refused at the place that it is about. Each fault of a
# crates/NAME/must-fail/*.edit says that place, '# expect: FILE DECLARATION'; an edit may have several faults, each in a file: part of
# its own. rt must-fail prints one error of an edit, so each edit is checked here once more, in a copy of its crate, and all its errors are
# read: there must be one of that declaration's own (not one that only passes on another's) in which a fact fails. That the proof names a
# place which the edited program no longer has shows nothing. Nor may a definition be refused, or the edited text not be read: an edit
# that makes no sense shows nothing either. Counted apart, as weaker: faults whose only errors say that a rewrite no longer applies (what
# the program tests or does is not what the goal speaks of). An edit of functions alone is checked with --only, any other with the whole
# crate. With LOGS=FOLDER the logs stay there. With EDITS=FOLDER the edits are those of FOLDER/NAME in place of crates/NAME/must-fail
# (scripts/wrong_programs.sh). Run after rt ci.
set -euo pipefail
cd "$(dirname "${BASH_SOURCE[0]}")/.."

faults=0 edits=0 rewrites=0 wrong=0
say() { echo "must-fail-places: $*"; wrong=$((wrong + 1)); }

room=$(mktemp -d)
trap 'rm -rf "$room"' EXIT
top=$PWD kit=$(dirname "$(rt doc)")
declare -A uses
while IFS=: read -r name below; do
    uses[${name%% *}]=$below
done < <(grep -E '^[a-z]' crates.txt)

# The words of a check of a crate over the libraries that `rt ci` left below crates/.
words_of() { # CRATE
    local dep
    for dep in ${uses[$1]} std; do
        if [ -n "${uses[$dep]+own}" ]; then
            echo "--extern=$dep=$top/crates/$dep/out/rlib/$dep.rlib"
        else
            echo "--extern=$dep=$kit/rlibs/$dep.rlib"
        fi
    done
    for dep in "${!uses[@]}"; do
        echo "-Ldependency=$top/crates/$dep/out/rlib"
    done
    echo "-Ldependency=$kit/rlibs" "--antt-project=$kit/rattle/logic/antt-project.json" "--logic-built=$kit/logic_built" --crate-name "$1"
}

# Checks a copy of a crate; once more if it did not come to an end. One that comes to none is no refusal, also of functions alone.
check() { # COPY LOG WORDS..
    local status
    for _ in 1 2; do
        status=0
        (cd "$1" && "$kit/bin/rattle" check "${@:3}" "src/$([ -f src/main.rt ] && echo main || echo lib).rt") >"$2" 2>&1 || status=$?
        [ "$status" -gt 1 ] || return 0
    done
    sed -i 's/^only=/no verdict: &/' "$2"
}

# Each old: text stands once and becomes its new: text, as rt does it. Where an edit changes nothing but functions of src/, and its places
# are proofs of functions, no definition sees it, and no other function's proof says more: then the words are printed that check these alone.
apply() { # EDIT FOLDER
    python3 - "$1" "$2" <<'END'
import re, sys
item = re.compile(r'^ *(?:pub(?:\([a-z]+\))? )?(?:const )?(fn\b|const\b|static\b|struct\b|enum\b|type\b|trait\b|impl\b|mod\b|use\b|ghost\b|#)', re.M)
path, old, texts, changed, places = '', None, {}, set(), []
for line in open(sys.argv[1], encoding='utf-8').read().split('\n'):
    if line.startswith('# expect: '):
        places.append(re.match(r'proofs/([^+]+)/(?:Answers|Proof|Invariants)[.]antt ', line[10:]))
    elif line.startswith('file: '):
        path = sys.argv[2] + '/' + line[6:].strip()
    elif line.startswith('old: '):
        old = line[5:]
    elif line.startswith('new:'):
        text = texts.get(path) or open(path, encoding='utf-8').read()
        if text.count(old) != 1:
            sys.exit('%s has %d times: %s' % (path, text.count(old), old))
        above = text[:text.index(old)]
        changed.update(item.findall(above + old)[max(len(item.findall(above)) - 1, 0):] if '/src/' in path else ['text'])
        texts[path] = text.replace(old, line[4:].removeprefix(' '))
for path, text in texts.items():
    open(path, 'w', encoding='utf-8').write(text)
if changed == {'fn'} and all(places):
    print(*sorted({'--only=' + it[1].replace('/', '::') for it in places}))
END
}

# FILE DECLARATION of each error of a log that is the declaration's own, and of each goal without an answer that is not found proved (of
# which notes list 16, and the functions' lines all); but for errors of a kind.
errors_of() { # LOG KINDS
    grep -E ': error: |^note: `[^`]*` of [^ ]* must prove: ' "$1" | grep -vE "$2" | sed -nE \
        -e 's#^(\./)?([^: ]*):[0-9]*:[0-9]*: error: `([^`]*)`: .*#\2 \3#p' \
        -e 's#^note: `([^`]*)` of (\./)?([^ ]*) must prove: .*#\3 \1#p'
    sed -nE 's#^fn .*: no proof: expected answers in (\./)?([^ ;]*); `search` did not prove ([^;]*).*#\2 \3#p' "$1" | tr -d '`,' \
        | while read -r file goals; do printf "$file %s\n" $goals; done
}
passed_on='was not admitted'
no_fact='was not admitted|has no field|: record `[^`]*` \(nearest|has no `|is not in scope|is no name|that can be named from here'
rewrite='no occurrence of the path|has an instance in the goal|no part of the goal'

judge() { # EDIT LOG
    local expects errors facts firm expect broken unread
    expects=$(sed -n 's/^# expect: //p' "$1")
    edits=$((edits + 1))
    [ -n "$expects" ] || { say "$1 has no '# expect: FILE DECLARATION' line"; return; }
    if [ "$(wc -l <<<"$expects")" -gt 1 ] && [ "$(wc -l <<<"$expects")" -ne "$(grep -c '^file: ' "$1")" ]; then
        say "$1: not one 'file:' line for each '# expect:' line"
    fi
    grep -E '^(logic=not-proved|only=)' "$2" | grep -qvE '^only=([0-9]+) proved=\1$' \
        || { say "$1: no proof was refused: '$(grep -m 1 -E 'error|^(logic|only)=|^no verdict|^does not apply' "$2")'"; return; }
    errors=$(errors_of "$2" "$passed_on" || true)
    facts=$(errors_of "$2" "$no_fact" || true)
    firm=$(errors_of "$2" "$no_fact|$rewrite" || true)
    while IFS= read -r expect; do
        faults=$((faults + 1))
        if ! grep -qxF -- "$expect" <<<"$errors"; then
            say "$1: nothing refused at '$expect'; refused first at '$(head -n 1 <<<"$errors")'"
        elif ! grep -qxF -- "$expect" <<<"$facts"; then
            say "$1: at '$expect' no fact fails: the proof names a place that is not there"
        elif ! grep -qxF -- "$expect" <<<"$firm"; then
            rewrites=$((rewrites + 1))
        fi
    done <<<"$expects"
    broken=$(grep -E '^(src|specs)/' <<<"$errors" | grep -vE '^specs/Cases(/|[.]antt)' | grep -vxF -- "$expects" || true)
    [ -z "$broken" ] || say "$1: a definition is refused too: '$(head -n 1 <<<"$broken")'"
    unread=$(grep -E '^(\./)?(src|specs)/[^: ]*:[0-9]+:[0-9]+: error: [^`]|error\[' "$2" || true)
    [ -z "$unread" ] || say "$1: the edited text cannot be read: '$(head -n 1 <<<"$unread")'"
}

# Where the edits of a crate stand.
folder_of() { # CRATE
    if [ -n "${EDITS:-}" ]; then echo "$EDITS/$1"; else echo "crates/$1/must-fail"; fi
}

# Checks a copy with an edit: these functions, or the whole crate. Of those checked whole the first keeps what it proved, and each other
# begins with a copy of that.
try() { # CRATE LABEL [--only=FUNCTION..]
    local copy=$room/$1/$2 log=$logs/$1/$2.log kept=$room/$1.kept
    if [ $# -gt 2 ]; then
        check "$copy" "$log" $(words_of "$1") "${@:3}"
    else
        if [ -d "$kept" ]; then cp -r "$kept" "$copy/kept"; kept=$copy/kept; else mkdir "$kept"; fi
        check "$copy" "$log" $(words_of "$1") --incremental "$kept"
    fi
    rm -rf "$copy"
}

# As many at once as there are processors: a check takes a token, and gives it back.
mkfifo "$room/tokens"
exec 9<>"$room/tokens"
for ((i = 0; i < $(nproc); i++)); do echo >&9; done
in_turn() { # CRATE LABEL [--only=FUNCTION..]
    read -r -u9
    try "$@" || true
    echo >&9
}

# The edits of a crate, each in a copy of its own. Of those checked whole the smallest is first: it leaves most proved. A check without an
# edit to begin with would cost more than it saves.
each_edit() { # CRATE
    local edits whole=() edit label log functions
    mapfile -t edits < <(ls -rS "$(folder_of "$1")"/*.edit)
    for edit in "${edits[@]}"; do
        label=$(basename "$edit" .edit)
        log=$logs/$1/$label.log
        mkdir -p "$room/$1/$label" "$logs/$1"
        tar -c -C "crates/$1" --exclude=out --exclude=must-fail . | tar -x -C "$room/$1/$label"
        if ! functions=$(apply "$edit" "$room/$1/$label" 2>"$log"); then
            echo "does not apply: $(tail -n 1 "$log")" >"$log"
        elif [ -n "$functions" ]; then
            in_turn "$1" "$label" $functions &
        else
            whole+=("$label")
        fi
    done
    [ "${#whole[@]}" -gt 0 ] || return 0
    {
        in_turn "$1" "${whole[0]}"
        for label in "${whole[@]:1}"; do in_turn "$1" "$label" & done
        wait
    } &
}

logs=${LOGS:-$room/logs}
crates=()
for crate in ${@:-${!uses[@]}}; do
    ! ls "$(folder_of "$crate")"/*.edit >/dev/null 2>&1 || crates+=("$crate")
done
# The largest crate first.
size_of() { cat "crates/$1"/src/*.rt "crates/$1"/{specs,proofs}/*.antt 2>/dev/null | wc -c; }
for crate in $(for crate in "${crates[@]}"; do echo "$(size_of "$crate") $crate"; done | sort -rn | cut -d ' ' -f 2); do
    each_edit "$crate"
done
wait
for crate in "${crates[@]}"; do
    [ -f "crates/$crate/src/main.rt" ] || [ -d "crates/$crate/out/rlib/$crate.rlib" ] || say "$crate is not proved as it stands: rt ci left no library of it"
    for edit in "$(folder_of "$crate")"/*.edit; do
        judge "$edit" "$logs/$crate/$(basename "$edit" .edit).log"
    done
done
[ "$edits" -gt 0 ] || say "no edit was found"
[ "$wrong" -eq 0 ] || exit 1
echo "must-fail-places: $faults faults in $edits edits refused where they say, $rewrites of them by a rewrite that no longer applies"
