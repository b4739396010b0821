#!/bin/bash
# Holds the must-fail edits to what the prover says of them. Several wrong programs may stand in one edit file, so that
# one check of the crate serves them all; each is a line
#
#     # LABEL [NAME]: which wrong program it is
#
# above its change, and NAME is the function or the law that must be refused for it. It is, if the check has an error of
# its own for it: one in the proof files of that function or of that law, or a goal of that function that is not proved;
# not one that only follows from another, and not one that says that a proof file names what is not there. Where a proof
# file no longer fits the code, goals that it leaves open count only if the check knows values at which they are false.
# Where a file has several wrong programs of one function, each NAME is FUNCTION.ANSWER: the answer or the goal in that
# function's proof that must be refused, and that no other of the file breaks. The last line counts the wrong programs.
#
#     tools/refusals.sh [CRATE..]          tries each edit file, and holds it to its NAMEs: a step of the gate
#     tools/refusals.sh --alone [WHICH..]  tries each wrong program by itself
#     tools/refusals.sh --page             writes docs/EDITS.md from what --alone has seen
#
# WHICH is a crate or CRATE/LABEL; without it all are tried. By itself a wrong program must be refused at its NAME, and
# at no NAME of the others of its file: then none of them is refused for another's sake. These two are run by hand and
# are no part of the gate.
#
# `rt ci` and `rt must-fail` try each edit file too, but say only the first error of each and keep no log. So this runs
# `rt check` itself, on a copy of the crate with the edit made, over what `rt check` keeps of the crate as it stands and
# over the libraries below, linked into a tree of its own outside the repository. What a check said is kept below
# build/refusals/ with a sum of the kit and of all files that it read: what has not changed is not tried again. As many
# crates are tried side by side as YB_TRIES says, 2 if it is not set. The first command also asks `rt must-fail`, which
# knows what `rt ci` has tried, whether an edit is still proved or cannot be read.
set -u
cd "$(dirname "${BASH_SOURCE[0]}")/.." || exit 2
passed=0
failed=0
seen=build/refusals
trees=$(mktemp -d) || exit 2
trap 'rm -rf "$trees"' EXIT

# own LOG NAME: the errors that a function, a law or one answer of a function's proof has for itself.
#
#     ./proofs/MODULE/F/Answers.antt:L:C: error: `ANSWER`: ..      in the proof of the function F
#     ./proofs/FILE.antt:L:C: error: `LAW`: ..                     in the law itself
#     note: src/FILE.rt:L:C: it is not proved that .. (`GOAL`)     of the function that the next line `fn` names
#     fn CRATE::MODULE::F: no proof: ..                            unless it only calls what is not proved
own() {
    awk -v name="$2" '
        BEGIN {
            answer = name; sub(/[^.]*\.?/, "", answer)
            sub(/\..*/, "", name)
            lacking = "(was|were) not admitted|was rejected, (was|were) not checked|has no field|: record `[^`]*` \\(nearest|has no `|is not in scope|is no name|that can be named from here"
        }
        / error: / {
            in_proof = $0 ~ "/" name "/(Answers|Invariants|Proof)\\.antt:[0-9]+:[0-9]+: error: "
            declared = ""
            if (match($0, /: error: `[^`]*`: /)) declared = substr($0, RSTART + 10, RLENGTH - 13)
            sub(/.*\./, "", declared)
            if (answer != "" ? in_proof && declared == answer : in_proof || declared == name) {
                if ($0 ~ lacking) unfit = 1; else print
            }
        }
        /^note: src\/[^ ]*: it is not proved that / { open[++opens] = $0 }
        /^fn / {
            path = $2; sub(/:$/, "", path); sub(/.*::/, "", path)
            if (path == name && $0 !~ /: proved$/) {
                for (i = 1; i <= opens; i++) {
                    goal = ""
                    if (match(open[i], /\(`[^`]*`\)/)) goal = substr(open[i], RSTART + 2, RLENGTH - 4)
                    if (answer != "" && goal != answer) continue
                    if (!unfit || open[i] ~ /allow values at which this goal is false/) print open[i]
                }
                if (answer == "" && !opens && !unfit && $0 ~ /: no proof: / && $0 !~ /: no proof: it calls /) print
            }
            opens = 0
        }' "$1"
}

# fault EDIT LABEL WHY: a wrong program that was not refused as it must be.
fault() {
    failed=$((failed + 1))
    echo "$1: $2: $3"
}

# labels EDIT: a line `LABEL NAME` for each wrong program of a file. It is read by `<<<"$(..)"` and not by `< <(..)`:
# where process numbers come round quickly, bash may take the status of such a process for that of a later one.
labels() {
    sed -n 's/^# \([a-z_0-9]*\) \[\([a-zA-Z_0-9.-]*\)\]: .*/\1 \2/p' "$1"
}

# part EDIT LABEL: the lines of one wrong program, each change with the `file:` line that holds for it.
part() {
    awk -v label="$2" '
        /^# [a-z_0-9]* \[/ { mine = $2 == label }
        /^file: / { file = $0; next }
        mine && /^old: / { print file }
        mine' "$1"
}

# form EDIT: every change of a file belongs to a wrong program, and each of these has a name of its own to be held to.
form() {
    local bare twice
    bare=$(sed '/^# [a-z_0-9]* \[/,$d; /^new:/!d' "$1")
    # A function by itself stands for all answers of its proof.
    twice=$(labels "$1" | cut -d ' ' -f 2 | LC_ALL=C sort | awk -F . '$0 == last || (NF == 2 && $1 in whole) { print } NF == 1 { whole[$0] } { last = $0 }')
    if [ -n "$bare" ]; then fault "$1" its 'a change has no label'; fi
    if [ -n "$twice" ]; then fault "$1" its "more than one is held to ${twice//$'\n'/, }"; fi
}

# below CRATE: what it leans on, of this repository, lowest first.
below() {
    awk -v crate="$1" '
        { sub(/#.*/, ""); split($0, half, ":"); split(half[1], word, " "); uses[word[1]] = half[2] }
        function visit(it, names, n, i) {
            if (it in met || !(it in uses)) return
            met[it]
            n = split(uses[it], names, " ")
            for (i = 1; i <= n; i++) visit(names[i])
            if (it != crate) print it
        }
        END { visit(crate) }' crates.txt
}

# sum CRATE: put into sums what every try of the crate is of: the kit, its files and those of the crates below it.
declare -A sums=() files=()
sum() {
    local it all=
    if [ -n "${sums[$1]:-}" ]; then return; fi
    for it in $(below "$1") "$1"; do
        if [ -z "${files[$it]:-}" ]; then
            files[$it]=$(cd "crates/$it" && find src specs proofs -type f -exec sha256sum {} + 2>/dev/null | LC_ALL=C sort | sha256sum)
        fi
        all+="$it ${files[$it]}"$'\n'
    done
    sums[$1]=$({ rt version && echo "$all"; } | sha256sum)
}

# of CRATE: the changes on standard input, with that.
of() {
    { echo "${sums[$1]}" && grep -v '^#'; } | sha256sum
}

# ready CRATE: the crate is proved as it stands, and what was kept of that and of the libraries below is up to date.
ready() {
    mkdir -p "$seen/$1"
    (cd "crates/$1" && rt check) </dev/null >"$seen/$1/.check" 2>&1
}

# link FROM TO: a copy by links, or by bytes where that cannot be.
link() {
    if [ -d "$1" ]; then cp -Rl "$1" "$2" 2>/dev/null || { rm -rf "$2" && cp -R "$1" "$2"; }; fi
}

# tree CRATE: a repository below $trees of that crate and those below it, with what was kept of them. rt removes such a
# file of a library before it makes it anew, and a check so replaces what it proved (.oantt), so these may be links.
tree() {
    local top=$trees/$1 other folder
    rm -rf "$top"
    mkdir -p "$top/crates" || return
    for other in $(below "$1"); do
        mkdir -p "$top/crates/$other/out"
        for folder in src specs proofs out/rlib; do link "crates/$other/$folder" "$top/crates/$other/$folder"; done
        grep "^${other}[ :]" crates.txt >>"$top/crates.txt"
    done
    grep "^${1}[ :]" crates.txt >>"$top/crates.txt"
    if [ -f HANDLES ]; then cp HANDLES "$top/HANDLES"; fi
}

# change FILE OLD NEW: put NEW where OLD stands, which is one place.
change() {
    local text
    [ -f "$1" ] && text=$(<"$1") || return 1
    case $text in
    *"$2"*"$2"*) return 1 ;;
    *"$2"*) printf '%s%s%s\n' "${text%%"$2"*}" "$3" "${text#*"$2"}" >"$1" ;;
    *) return 1 ;;
    esac
}

# apply FOLDER: the changes on standard input, made in a crate.
apply() {
    local line file='' old=''
    while IFS= read -r line; do
        case $line in
        'file: '*) file=$1/${line#file: } ;;
        'old: '*) old=${line#old: } ;;
        'new:'*)
            line=${line#new:}
            change "$file" "$old" "${line# }" || return 1
            ;;
        esac
    done
}

# try CRATE LOG: a check of the crate with the changes on standard input made in it.
try() {
    local to=$trees/$1/crates/$1 folder
    rm -rf "$to"
    mkdir -p "$to/out"
    for folder in src specs proofs; do
        if [ -d "crates/$1/$folder" ]; then cp -R "crates/$1/$folder" "$to/$folder"; fi
    done
    link "crates/$1/out/incremental" "$to/out/incremental"
    find "$to/out/incremental" -type f ! -name '*.oantt' -exec sh -c 'for it; do cp -p "$it" "$it.own" && mv "$it.own" "$it"; done' - {} +
    if apply "$to"; then
        (cd "$to" && rt check) </dev/null >"$2" 2>&1
    else
        echo 'an old text is not there, or more than once' >"$2"
    fi
}

# tries CRATE: what is listed in the crate's .todo, a line `LOG EDIT [LABEL]` for each.
tries() {
    local log edit label
    tree "$1"
    while read -r log edit label; do
        rm -f "$log.sum"
        if [ -n "$label" ]; then part "$edit" "$label"; else cat "$edit"; fi >"$log.edit"
        try "$1" "$log" <"$log.edit"
        # A check that was killed is no try.
        if grep -qE '^logic=|error\[|^an old text is not there' "$log"; then of "$1" <"$log.edit" >"$log.sum"; fi
        rm -f "$log.edit"
    done <"$seen/$1/.todo"
    rm -rf "${trees:?}/$1"
}

# todo CRATE LOG EDIT [LABEL]: note a try, unless it is known.
todo() {
    local now
    sum "$1"
    now=$(if [ -n "${4:-}" ]; then part "$3" "$4"; else cat "$3"; fi | of "$1")
    if [ ! -f "$2" ] || [ "$(cat "$2.sum" 2>/dev/null)" != "$now" ]; then echo "$2 $3 ${4:-}" >>"$seen/$1/.todo"; fi
}

# all CRATE..: make the tries that are noted of these crates, lowest first, some crates side by side.
all() {
    local crate
    # shellcheck disable=SC2013 # one word each
    for crate in $(sed -n 's/^\([a-z_0-9]*\)[ :].*/\1/p' crates.txt); do
        case " $* " in *" $crate "*) ;; *) continue ;; esac
        [ -s "$seen/$crate/.todo" ] || continue
        while [ "$(jobs -rp | wc -l)" -ge "${YB_TRIES:-2}" ]; do sleep 0.2; done
        if ready "$crate"; then
            tries "$crate" &
        else
            fault "crates/$crate" all "it is not proved as it stands: $seen/$crate/.check"
        fi
    done
    wait
}

# flaw LOG EDIT NAME: what is amiss with the refusal of a wrong program by itself, or nothing.
flaw() {
    local other
    if ! grep -q '^logic=not-proved' "$1" 2>/dev/null; then
        if grep -q '^an old text' "$1" 2>/dev/null; then cat "$1"; else echo 'it was not refused by the prover'; fi
    elif [ -z "$(own "$1" "$3")" ]; then
        echo "$3 was not refused"
    elif [ "${4:-}" != together ]; then
        while read -r _ other; do
            if [ "$other" != "$3" ] && [ -n "$(own "$1" "$other")" ]; then echo "$other is refused too, and stands for another of the file"; fi
        done <<<"$(labels "$2")"
    fi
}

# gate CRATE..: each file once, with all its wrong programs in it.
gate() {
    local edit crate log label name why said edits=() wanted=()
    for edit in crates/*/must-fail/*.edit; do
        crate=${edit#crates/} crate=${crate%%/*}
        asked "$crate" '' "$@" || continue
        edits+=("$edit")
        mkdir -p "$seen/$crate"
        case " ${wanted[*]} " in *" $crate "*) ;; *) wanted+=("$crate") && : >"$seen/$crate/.todo" ;; esac
        form "$edit"
        todo "$crate" "$seen/$crate/$(basename "$edit" .edit).log" "$edit"
    done
    all "${wanted[@]}"
    for edit in "${edits[@]}"; do
        crate=${edit#crates/} crate=${crate%%/*}
        log=$seen/$crate/$(basename "$edit" .edit).log
        while read -r label name; do
            why=$(flaw "$log" "$edit" "$name" together)
            if [ -z "$why" ]; then passed=$((passed + 1)); else fault "$edit" "$label" "$why"; fi
        done <<<"$(labels "$edit")"
    done
    while read -r said; do
        if [ -n "$said" ]; then fault "crates/${said%%: *}" all "${said#*: }"; fi
    done <<<"$(rt must-fail "$@" 2>&1 | sed -n 's/^rt: must-fail \(.*: \(BAD EDIT\|NOT TRIED\|NOT REFUSED\).*\)/\1/p' | cut -c 1-300)"
}

# asked CRATE LABEL WHICH..: this one is to be tried.
asked() {
    local crate=$1 label=$2 which
    shift 2
    for which; do
        if [ "$which" = "$crate" ] || [ "$which" = "$crate/$label" ]; then return 0; fi
    done
    [ $# = 0 ]
}

# alone WHICH..: each of these by itself.
alone() {
    local edit crate label name why wanted=()
    for edit in crates/*/must-fail/*.edit; do
        crate=${edit#crates/} crate=${crate%%/*}
        while read -r label name; do
            asked "$crate" "$label" "$@" || continue
            mkdir -p "$seen/$crate/alone"
            case " ${wanted[*]} " in *" $crate "*) ;; *) wanted+=("$crate") && : >"$seen/$crate/.todo" ;; esac
            todo "$crate" "$seen/$crate/alone/$label.log" "$edit" "$label"
        done <<<"$(labels "$edit")"
    done
    all "${wanted[@]}"
    for edit in crates/*/must-fail/*.edit; do
        crate=${edit#crates/} crate=${crate%%/*}
        while read -r label name; do
            asked "$crate" "$label" "$@" || continue
            why=$(flaw "$seen/$crate/alone/$label.log" "$edit" "$name")
            if [ -n "$why" ]; then
                fault "$edit" "$label" "${why//$'\n'/; }"
            else
                passed=$((passed + 1))
                echo "$crate $label: $name"
            fi
        done <<<"$(labels "$edit")"
    done
    if [ "$((passed + failed))" = 0 ]; then fault "$*" all 'there is no such wrong program'; fi
}

# changed EDIT LABEL: which kind of thing a wrong program changes.
changed() {
    if part "$1" "$2" | grep -q '^file: specs/'; then
        echo definition
    elif part "$1" "$2" | grep -qE '^old:.*(requires|ensures)( [a-z_0-9]+)? \{'; then
        echo contract
    else
        echo code
    fi
}

# row CRATE EDIT LABEL NAME: its line of the page.
row() {
    local log=$seen/$1/alone/$3.log first why
    sum "$1"
    if [ "$(cat "$log.sum" 2>/dev/null)" = "$(part "$2" "$3" | of "$1")" ]; then
        why=$(flaw "$log" "$2" "$4")
    else
        why='as it stands it was not tried'
    fi
    if [ -n "$why" ]; then
        fault "$2" "$3" "$why" >&2
        return
    fi
    first=$(own "$log" "$4" | head -n 1 | sed -E 's/^[^ ]*: error: //; s/^note: [^ ]*: //; s/^fn .*\.antt; //; s/\|/\\|/g')
    if [ "${#first}" -gt 120 ]; then first="${first:0:117}..."; fi
    passed=$((passed + 1))
    echo "| \`$1\` | \`$3\` | $(changed "$2" "$3") | \`$4\` | $first |"
}

# page: docs/EDITS.md, as it stands up to its table.
page() {
    local edit crate label name
    sed '/^|---/q' docs/EDITS.md
    for edit in crates/*/must-fail/*.edit; do
        crate=${edit#crates/} crate=${crate%%/*}
        while read -r label name; do row "$crate" "$edit" "$label" "$name"; done <<<"$(labels "$edit")"
    done
}

mkdir -p "$seen"
case ${1:-} in
'' | [a-z]*) gate "$@" ;;
--alone)
    shift
    alone "$@"
    ;;
--page)
    page >"$seen/EDITS.md"
    cp "$seen/EDITS.md" docs/EDITS.md
    ;;
*)
    echo 'usage: tools/refusals.sh [CRATE.. | --alone [WHICH..] | --page]' >&2
    exit 2
    ;;
esac

echo "$passed passed, $failed failed"
[ "$failed" = 0 ]
