# shellcheck shell=bash
# shellcheck disable=SC2154 # the variables are those of test_programs.sh
# Sourced by test_programs.sh: stick_partner: results that are right, and those that are not; and files that are none.

# judge OUTPUT ERROR RUN RESULT: what stick_partner says of two files.
judge() {
    check "$1" "$2" /dev/null stick_partner "${@:3}"
}

# unjudged RUN RESULT OUTPUT WORDS: there is no verdict; what stands before that on standard output and on standard
# error.
unjudged() {
    judge "$3" "$4$2: not judged; there is no verdict" "$1" "$2"
}

# holds_not RUN RESULT WHICH: one of the two is longer than the program holds.
holds_not() {
    unjudged "$1" "$2" '' "$3: longer than the 65536 bytes that this program holds; use import partner"$'\n'
}

# unreadable RUN RESULT WHICH WHY: one of the two cannot be read.
unreadable() {
    unjudged "$1" "$2" '' "$3: cannot be read: $4"$'\n'
}

# wrong RUN RESULT PLACE COUNT: so many of the result's bytes are wrong, from a place on; the import tool names it too.
wrong() {
    local first
    judge "$2: wrong: not the result of $1, from byte $3 on
    bytes there:
$(hex "$2" "$3" "$4")" '' "$1" "$2"
    first=$(build/import partner "$1" "$2" 2>/dev/null | head -n 1 | tr -d ,)
    good test "$first" = "$2: wrong: not the result of $1 from byte $3 on"
}

# lacks RUN RESULT PLACE COUNT: the result ends before the record that a field of the run file asks for.
lacks() {
    judge "$2: wrong: not the result of $1; it ends before the record that this field of $1 asks for, at byte $3:
$(hex "$1" "$3" "$4")" '' "$1" "$2"
}

# turned FILE PLACE: a file with one bit of the byte at a place turned.
turned() {
    local byte
    byte=$(od -An -tu1 -j "$2" -N 1 "$1")
    head -c "$2" "$1"
    # shellcheck disable=SC2059 # the byte is the format
    printf "\\$(printf %03o $((byte ^ 1)))"
    tail -c +$(($2 + 2)) "$1"
}

# of_file FILE: a sample stick beside its own result, or beside none where it is refused or too long.
of_file() {
    local line
    line=$(build/import check "$1" 2>/dev/null | head -n 1)
    if [ "$(wc -c <"$1")" -gt 65536 ]; then
        holds_not "$1" /dev/null "$1"
    elif [ "${line#*: complete, }" = "$line" ]; then
        unjudged "$1" /dev/null "$line" ''
    else
        rm -f "$work/result"
        build/import run "$1" "$work/result" >/dev/null 2>&1
        if [ "$(wc -c <"$work/result")" -gt 65536 ]; then
            holds_not "$1" "$work/result" "$work/result"
        else
            judge "$work/result: right: the result of $1" '' "$1" "$work/result"
        fi
    fi
}

for file in examples/*.stick; do of_file "$file"; done
unjudged /dev/null /dev/null '/dev/null: refused 8 (end field missing) at byte 0 after 0 steps' ''

# The season has three units and 336 steps, and its first reading stands at byte 180: records of 40 bytes, and 7 at the
# end. One byte is changed: of a step, of a request, the last, and of the end record.
season=examples/season.stick
rm -f "$work/right"
build/import run "$season" "$work/right" >/dev/null 2>&1
good test "$(wc -c <"$work/right")" = 40327
for place in 0 39 40 20170 40319; do
    turned "$work/right" "$place" >"$work/wrong"
    wrong "$season" "$work/wrong" $((place / 40 * 40)) 40
done
turned "$work/right" 40326 >"$work/wrong"
wrong "$season" "$work/wrong" 40320 7

# Cut short: within a record, before one, and before the end record, which the end field asks for.
for length in 1 39 41 40319; do
    head -c "$length" "$work/right" >"$work/cut"
    wrong "$season" "$work/cut" $((length / 40 * 40)) $((length % 40))
done
head -c 40323 "$work/right" >"$work/cut"
wrong "$season" "$work/cut" 40320 3
for length in 0 40 80; do
    head -c "$length" "$work/right" >"$work/cut"
    lacks "$season" "$work/cut" 180 27
done
head -c 120 "$work/right" >"$work/cut"
lacks "$season" "$work/cut" 207 27
head -c 40320 "$work/right" >"$work/cut"
lacks "$season" "$work/cut" 9036 7

# Bytes behind the end, up to the buffer's size and one more.
for count in 1 16 17 25209; do
    { cat "$work/right"; head -c "$count" /dev/zero; } >"$work/more"
    wrong "$season" "$work/more" 40327 "$count"
done
printf '\0' >>"$work/more"
holds_not "$season" "$work/more" "$work/more"
holds_not "$work/more" "$work/right" "$work/more"

# A refused run file, with any result; a result in its place.
cut=examples/refused-01-cut-short.stick
for result in "$work/right" /dev/null "$cut"; do
    unjudged "$cut" "$result" "$(build/import check "$cut" 2>/dev/null | head -n 1)" ''
done
unjudged "$work/right" "$season" "$work/right: refused 2 (unknown tag) at byte 0 after 0 steps" ''

# Files that are none. Of two the first is told.
for none in "$work/no" '' "$work/right/no"; do
    why='No such file or directory'
    [ "$none" = "$work/right/no" ] && why='Not a directory'
    unreadable "$none" "$work/right" "$none" "$why"
    unreadable "$season" "$none" "$none" "$why"
done
unreadable examples "$work/no" examples 'Is a directory'
unreadable "$season" "$work" "$work" 'Is a directory'

# Names: a byte that cannot be printed is a question mark; one that is too long for any file is told.
odd=$work/$'a\nb\x7f\xc3\xa4 ~'
cp "$work/right" "$odd"
judge "$work/a?b??? ~: right: the result of $season" '' "$season" "$odd"
long=$(printf 'a%.0s' {1..4097})
judge '' 'RUN: cannot be read: File name too long' "$long" "$work/right"
judge '' 'RESULT: cannot be read: File name too long' "$season" "$long"

usage='usage: stick_partner RUN RESULT
    RUN is a run file, RESULT what a partner says its result is.'
judge '' "$usage"
judge '' "$usage" "$season"
judge '' "$usage" "$season" "$work/right" "$work/right"
