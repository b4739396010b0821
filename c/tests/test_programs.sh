#!/bin/bash
# The Rattle programs stick_check, stick_run and settle give for standard input what the import tool gives for a
# file: on every sample stick, on an empty file, at the buffer's size and one byte beyond it; stick_run, which is fed,
# on sticks of any length. stick_check shows the refused field's value bytes besides; stick_partner takes two files by
# name. They say nothing that is not so where standard output takes no byte, or standard input fails. Each failed check
# is told on standard error; the last line counts them.
set -u
cd "$(dirname "${BASH_SOURCE[0]}")/../.." || exit 2
# shellcheck source=tools/env.sh
. tools/env.sh
yb_toolchain || { echo "$YB_CC_WHY" >&2; exit 1; }
for needed in target/bin/{stick_check,stick_run,settle,stick_partner} build/import; do
    [ -x "$needed" ] || { echo "no program $needed" >&2; exit 1; }
done
passed=0
failed=0
work=$(mktemp -d) || exit 2
trap 'umount "$work/disk" 2>/dev/null; rm -rf "$work"' EXIT

# The programs look for the C library of x86-64: in its own place where that is installed, else where the cross
# compiler has it.
how=()
if [ -n "$YB_EMULATOR" ]; then
    how=("$YB_EMULATOR")
    [ -e /lib64/ld-linux-x86-64.so.2 ] || how+=(-L /usr/x86_64-linux-gnu)
fi

# good CONDITION..: count one check; what the program gave is told if it fails.
good() {
    if "$@"; then
        passed=$((passed + 1))
    else
        failed=$((failed + 1))
        printf '%s\n  not: %s\n  output: %s\n  error: %s\n' "$called" "$*" "$(head -c 2000 "$work/output" | tr -d '\0')" \
            "$error" >&2
    fi
}

# call FILE PROGRAM WORD..: run a program on a file and keep what it gives.
call() {
    local file=$1 program=$2
    shift 2
    called="$program $* <$file"
    error=$("${how[@]}" "target/bin/$program" "$@" 2>&1 >"$work/output" <"$file")
}

# check OUTPUT ERROR FILE PROGRAM WORD..: run a program and compare both.
check() {
    local expected="$1|$2"
    shift 2
    call "$@"
    good test "$(cat "$work/output")|$error" = "$expected"
}

# line FILE: the import tool's line of a file, as the programs say it.
line() {
    local line
    line=$(build/import check "$1" 2>/dev/null | head -n 1)
    echo "standard input: ${line#"$1": }"
}

# hex FILE PLACE COUNT: so many bytes of a file, as the programs show them.
hex() {
    od -An -v -tx1 -w16 -j "$2" -N "$3" "$1" | sed 's/^/       /; y/abcdef/ABCDEF/'
}

# checked FILE: what stick_check says: the line and, of a refused file, the value bytes at its place, as many as are
# there.
checked() {
    local line place size count=0
    line=$(line "$1")
    echo "$line"
    [ "${line#*: complete, }" = "$line" ] || return
    place=$(sed 's/.* at byte \([0-9]*\) .*/\1/' <<<"$line")
    size=$(($(wc -c <"$1") - place - 3))
    if [ "$size" -ge 0 ]; then
        count=$((16#$(od -An -tx1 -j $((place + 1)) -N 2 "$1" | tr -d ' ')))
        [ "$count" -le "$size" ] || count=$size
    fi
    case $count in
    0) echo '    value: no bytes there' ;;
    1) echo '    value, 1 byte there:' ;;
    *) echo "    value, $count bytes there:" ;;
    esac
    [ "$count" = 0 ] || hex "$1" $((place + 3)) "$count"
}

# too_long DONE COMMAND: what a program says of input that is longer than its buffer.
too_long() {
    echo "standard input: not $1: longer than the 65536 bytes that this program holds; use import $2"
}

# run_it FILE: stick_run writes the result that the import tool writes; of a refused file some of its steps at most,
# and where it did, it says so.
run_it() {
    local line steps
    line=$(line "$1")
    call "$1" stick_run
    if [ "${line#*: complete, }" != "$line" ]; then
        good test "$error" = "$line"
        rm -f "$work/result"
        build/import run "$1" "$work/result" >/dev/null 2>&1
        good cmp -s "$work/output" "$work/result"
        return
    fi
    if [ -s "$work/output" ]; then
        steps=$(sed 's/.* after \([0-9]*\) steps/\1/' <<<"$line")
        good test "$error" = "$line"$'\n''standard output: steps of a stick that was refused; throw away what it holds'
        good early "$work/output" "$steps"
    else
        good test "$error" = "$line"
    fi
}

# early FILE STEPS: the last whole record is of a step before that one, and of a unit or an inverter.
early() {
    local tag step
    tag=$(tail -c 40 "$1" | head -c 1 | od -An -tx1)
    if [ "$tag" = ' 11' ]; then
        step=$((16#$(tail -c 37 "$1" | head -c 4 | od -An -tx1 | tr -d ' ')))
    else
        tag=$(tail -c 29 "$1" | head -c 1 | od -An -tx1)
        step=$((16#$(tail -c 26 "$1" | head -c 4 | od -An -tx1 | tr -d ' ')))
    fi
    [[ $tag = ' 11' || $tag = ' 12' ]] && [ "$step" -lt "$2" ]
}

# settle_it FILE WORD..: settle prints the study that the import tool prints, or its refusal, of a file that is not
# refused itself.
settle_it() {
    local file=$1 lines words
    shift
    lines=$(build/import settle "$file" "$@" 2>"$work/error")
    words=$(cat "$work/error")
    check "${lines/#"$file": /standard input: }" "${words/#"import: $file: "/standard input: }" "$file" settle "$@"
}

# studies FILE: settle on a file, at some loads and budgets.
studies() {
    local load line
    line=$(line "$1")
    if [ "${line#*: complete, }" = "$line" ]; then
        check "$line" 'standard input: refused; no study is made' "$1" settle 1000
        return
    fi
    for load in 0 1000 150000 00150000 100000000; do
        settle_it "$1" "$load"
        settle_it "$1" "$load" 1
        settle_it "$1" "$load" 0010000
    done
    # Outside their ranges.
    for load in 100000001 999999999 1000000000 4294967296 18446744073709551617 99999999999999999999999999; do
        settle_it "$1" "$load"
        settle_it "$1" 5 "$load"
    done
    settle_it "$1" 5 0
    settle_it "$1" 5 10001
    settle_it "$1" 100000001 00
}

# all_of FILE: a file that the buffer holds.
all_of() {
    check "$(checked "$1")" '' "$1" stick_check
    run_it "$1"
    studies "$1"
}

# none_of FILE: a file that the buffer does not hold.
none_of() {
    check "$(too_long checked check)" '' "$1" stick_check
    run_it "$1"
    check '' "$(too_long studied settle)" "$1" settle 1000
}

# full_stick: a complete stick of 65,536 bytes: the season's head of 180 bytes, its 336 readings seven times, 1,119
# missing ones, and the end.
full_stick() {
    local season=examples/season.stick times
    head -c 180 "$season"
    for times in 1 2 3 4 5 6 7; do tail -c +181 "$season" | head -c -7; done
    for ((times = 0; times < 1119; times++)); do printf '\005\0\0'; done
    printf '\177\0\004\0\0\015\217'
}

# spent_stick: the season without steps, its first unit at its reserve; the second of 44,228 W, which it is a watt below
# when three passes have gone over 200,000 W.
spent_stick() {
    local season=examples/season.stick
    head -c 28 "$season"
    tail -c +21 "$season" | head -c 8
    tail -c +37 "$season" | head -c 52
    printf '\0\0\254\304'
    tail -c +93 "$season" | head -c 88
    printf '\177\0\004\0\0\0\0'
}

# rest LINE LOAD BUDGET: settle's last line of the spent stick, which the import tool has too.
rest() {
    settle_it "$work/spent" "$2" "$3"
    good test "$(tail -n 1 "$work/output")" = "$1"
}

for file in examples/*.stick; do
    if [ "$(wc -c <"$file")" -gt 65536 ]; then
        none_of "$file"
    else
        all_of "$file"
    fi
done
all_of /dev/null
check 'standard input: refused 8 (end field missing) at byte 0 after 0 steps
    value: no bytes there' '' /dev/null stick_check

# At the buffer's size and one byte beyond it.
full_stick >"$work/full"
check 'standard input: complete, 3471 steps' '' "$work/full" stick_check
all_of "$work/full"
{ cat "$work/full"; printf '\0'; } >"$work/more"
none_of "$work/more"
head -c 65536 /dev/zero >"$work/zeros"
check 'standard input: refused 2 (unknown tag) at byte 0 after 0 steps
    value: no bytes there' '' "$work/zeros" stick_check
all_of "$work/zeros"
head -c 65537 /dev/zero >"$work/zeros"
none_of "$work/zeros"

# Many buffers, and more bytes than a whole-file call takes: a weather and a reading in each of 65,535 steps, in a file
# and through a pipe; and the same stick cut, and with a byte too many.
long_stick() {
    local row
    row=$(printf '\\x08\\x00\\x10'; printf '\\x00%.0s' {1..16}; printf '\\x04\\x00\\x18'; printf '\\x00%.0s' {1..24})
    head -c 180 examples/season.stick
    head -c 65535 /dev/zero | tr '\0' x | sed "s/x/$row/g"
    printf '\177\0\004\0\0\377\377'
}
long_stick >"$work/long"
good test "$(wc -c <"$work/long")" = 3014797
run_it "$work/long"
cp "$work/output" "$work/first"
called='stick_run through a pipe'
error=$(cat "$work/long" | "${how[@]}" target/bin/stick_run 2>&1 >"$work/output")
good test "$error" = 'standard input: complete, 65535 steps'
good cmp -s "$work/output" "$work/first"
head -c -1 "$work/long" >"$work/cut"
run_it "$work/cut"
good test -s "$work/output"
{ cat "$work/long"; printf '\0'; } >"$work/more"
run_it "$work/more"

# into PLACE FILE PROGRAM WORD..: run a program on a file, with its standard output there: full is /dev/full; deaf a
# pipe whose reader has gone, while SIGPIPE is switched off; disk a small disk; limit a file that may have 8 KiB.
into() {
    local place=$1 file=$2 program=$3
    shift 3
    called="$program $* <$file >$place"
    : >"$work/output"
    case $place in
    full) error=$("${how[@]}" "target/bin/$program" "$@" 2>&1 >/dev/full <"$file") ;;
    deaf) error=$(trap '' PIPE; "${how[@]}" "target/bin/$program" "$@" 2>&1 >&9 <"$file") ;;
    disk) error=$("${how[@]}" "target/bin/$program" "$@" 2>&1 >"$work/disk/output" <"$file") ;;
    limit) error=$(trap '' XFSZ; ulimit -f 8; "${how[@]}" "target/bin/$program" "$@" 2>&1 >"$work/output" <"$file") ;;
    esac
}

# true_of FILE: nothing on standard error says complete, but of a stick that the check accepts.
true_of() {
    [[ $error != *complete* || $(line "$1") == *': complete, '* ]]
}

# unwritten PLACE FILE: stick_run cannot write there all that it has. It stops, has not read to the end, and says so;
# the end record of a stick without steps comes when all is read. Of a stick that is refused before any step was
# written, the refusal is all there is to say.
not_whole='standard output: not written whole; throw away what it holds'
unwritten() {
    into "$1" "$2" stick_run
    good true_of "$2"
    case $(line "$2") in
    *': complete, 0 steps') good test "${error#*$'\n'}" = "$not_whole" ;;
    *': complete, '*) good test "$error" = "standard input: not read to its end"$'\n'"$not_whole" ;;
    *) good stopped_or_refused "$2" ;;
    esac
}

stopped_or_refused() {
    [ "$error" = "standard input: not read to its end"$'\n'"$not_whole" ] || [ "$error" = "$(line "$1")" ]
}

# unheard PLACE FILE: what stick_check and settle say does not get there either.
unheard() {
    into "$1" "$2" stick_check
    good true_of "$2"
    into "$1" "$2" settle 1000
    good true_of "$2"
    good test "${error#*settled}" = "$error"
}

# A result that cannot be written is told, at the first step and, where there is none, at the end record; sticks that
# are refused at once or far behind, cut, and whole.
{ head -c 180 examples/season.stick; printf '\177\0\004\0\0\0\0'; } >"$work/none"
all_of "$work/none"
cp "$work/long" "$work/spoiled"
printf '\177\370' | dd of="$work/spoiled" bs=1 seek=$((180 + 46 * 5000 + 22)) conv=notrunc status=none
head -c 100000 "$work/long" >"$work/part"
good test "$(line "$work/spoiled")" = "standard input: refused 6 (reading not usable) at byte $((180 + 46 * 5000 + 19)) \
after 5000 steps"
mkfifo "$work/deaf"
: <"$work/deaf" &
exec 9>"$work/deaf"
wait $!
for place in full deaf; do
    for file in examples/season.stick "$work/none" "$work/full" "$work/long" "$work/spoiled" "$work/part" \
        "$work/cut" "$work/more" /dev/null examples/refused-*.stick; do
        unwritten "$place" "$file"
        unheard "$place" "$file"
    done
done
exec 9>&-
# A disk that takes a part.
places=limit
mkdir "$work/disk"
if mount -t tmpfs -o size=64k none "$work/disk" 2>/dev/null; then
    places='limit disk'
else
    echo 'NOT RUN: a full disk: no small disk can be mounted here; a limit on the size of files ran in its place'
fi
for place in $places; do
    for file in "$work/full" "$work/long" "$work/spoiled" "$work/part" "$work/cut" "$work/more"; do
        unwritten "$place" "$file"
    done
    into "$place" examples/season.stick stick_check
    good true_of examples/season.stick
done
umount "$work/disk" 2>/dev/null

# unreadable COMMAND..: a program whose standard input cannot be read says so, and gives no verdict.
unreadable() {
    called=$*
    error=$("$@" 2>&1 >"$work/output")
    error+=$(tr -d '\0' <"$work/output")
    good grep -qa '^standard input: cannot be read$' <<<"$error"
    good test "$(grep -cEa 'complete|refused|settled|request' <<<"$error")" = 0
}
# A folder, and a device that fails: at once, within a stick, and where one ends, which then has not come to its end.
head -c 5000 examples/season.stick >"$work/begun"
for program in stick_check stick_run 'settle 1000'; do
    for file in "$work" /proc/self/mem; do
        # shellcheck disable=SC2086 # the words
        unreadable "${how[@]}" target/bin/$program <"$file"
    done
    if command -v python3 >/dev/null; then
        for file in examples/season.stick "$work/full" "$work/none" "$work/begun"; do
            # shellcheck disable=SC2086 # the words
            unreadable c/tests/failing_input.py "$file" "${how[@]}" target/bin/$program
        done
        # What was refused before that stays refused, where it is said.
        file=examples/refused-06-three-faults.stick
        # shellcheck disable=SC2086 # the words
        error=$(c/tests/failing_input.py "$file" "${how[@]}" target/bin/$program 2>&1 | tr -d '\0')
        called="$program, where standard input fails behind $file"
        good grep -qaxE "standard input: cannot be read|$(line "$file" | sed 's/[()]/./g')" <<<"$error"
        good test "$(grep -cEa 'complete|settled|request' <<<"$error")" = 0
    fi
done
command -v python3 >/dev/null || echo 'NOT RUN: standard input that fails behind a stick; install the package python3'

# How far a study is from done that its budget stopped: every kind of line.
spent_stick >"$work/spent"
all_of "$work/spent"
room='W left to the ratings of units above reserve)'
rest 'gap left 1830 W, within half the band: no further pass changes a request' 150000 5
rest 'gap left 3000 W, within half the band: no further pass changes a request' 125250 1
rest "gap left 3001 W: at most 3001 further passes change a request (3001 W to the target, 56978 $room" 125251 1
rest "gap left 45715 W: at most 24943 further passes change a request (45715 W to the target, 24943 $room" 200000 1
rest "gap left 20773 W: at most 1 further pass changes a request (20773 W to the target, 1 $room" 200000 3
rest 'gap left 20772 W: no further pass changes a request (every unit above reserve is at its rating)' 200000 4

# Words that are no whole numbers, and too few or too many of them.
usage='usage: settle LOAD [BUDGET] <FILE
    LOAD is in watts, such as 150000; BUDGET is the most passes, such as 100.'
for word in '' x 1x +5 -5 ' 5' '5 ' 1e3 0x10 1.5 1,000 - / : 000000000000000000000000000000001; do
    check '' "$usage" examples/season.stick settle "$word"
    check '' "$usage" examples/season.stick settle 1000 "$word"
done
check '' "$usage" examples/season.stick settle
check '' "$usage" examples/season.stick settle 1000 5 5

# A value of one byte, of a line's and of one more, and one that the file ends within.
for count in 1 15 16 17 300; do
    # shellcheck disable=SC2059 # the length is the format
    { printf '\0'; printf "$(printf '\\%03o' $((count / 256)) $((count % 256)))"; } >"$work/value"
    head -c "$count" examples/season.stick >>"$work/value"
    all_of "$work/value"
    head -c -1 "$work/value" >"$work/cut"
    all_of "$work/cut"
done

# shellcheck source=c/tests/test_programs_partner.sh
. c/tests/test_programs_partner.sh

echo "$passed passed, $failed failed"
[ "$failed" = 0 ]
