#!/bin/bash
# The command build/feed as people call it: sticks in chunks of several sizes, from files and from standard input, its
# messages, its exit statuses, and results that are there whole or not at all. Each failed check is told on standard
# error; the last line counts them.
set -u
cd "$(dirname "${BASH_SOURCE[0]}")/../.." || exit 2
for needed in feed import; do
    [ -x "build/$needed" ] || { echo "no command build/$needed" >&2; exit 1; }
done
passed=0
failed=0
work=$(mktemp -d) || exit 2
trap 'umount "$work/disk" 2>/dev/null; rm -rf "$work"' EXIT
result=$work/result

# good CONDITION..: count one check; what the command gave is told if it fails.
good() {
    if "$@"; then
        passed=$((passed + 1))
    else
        failed=$((failed + 1))
        printf 'feed %s\n  not: %s\n  status %s, output: %s\n  error: %s\n' \
            "$called" "$*" "$status" "$output" "$error" >&2
    fi
}

# call INPUT ARGUMENT..: call the command on an input, and keep what it gives.
call() {
    local input=$1
    shift
    called=$*
    error=$(build/feed "$@" 2>&1 >"$work/output" <"$input")
    status=$?
    output=$(cat "$work/output")
}

# said STATUS MESSAGE: the command ended so, with a message that begins so, and no other line.
said() {
    [ "$status|$output" = "$1|" ] && [[ $error == "feed: $2"* && $error != *$'\n'* ]]
}

# left NAME..: the results that there are, finished or not, are these.
left() {
    [ "$(cd "$work" && echo result*)" = "${*:-result*}" ]
}

# Complete sticks: the result is that of the whole run, whatever the chunks.
for stick in dairy harvest mill roof season vineyard voltage; do
    file=examples/$stick.stick
    build/import run "$file" "$work/whole" >/dev/null 2>&1 || { echo "no whole run of $file" >&2; exit 1; }
    steps=$(build/import check "$file" | sed -n '1s/.*complete, \([0-9]* steps\).*/\1/p')
    complete="complete, $steps in $(wc -c <"$file") bytes"
    for chunk in '' 1 131 1000 268435456; do
        rm -f "$result"
        # shellcheck disable=SC2086 # the chunk may be no word
        call /dev/null "$file" "$result" $chunk
        good test "$status|$output|$error" = "0|$file: $complete|"
        good cmp -s "$result" "$work/whole"
        good left result
        # shellcheck disable=SC2086 # the chunk may be no word
        call "$file" - "$result" $chunk
        good test "$status|$output|$error" = "0|standard input: $complete|"
        good cmp -s "$result" "$work/whole"
    done
    rm -f "$result"
    call <(cat "$file") - "$result" 4096
    good cmp -s "$result" "$work/whole"
done

# Refused ones: what and where, no result, and what had its name stays.
call /dev/null - "$result"
good test "$status|$output|$error" = \
    '1||feed: standard input: refused 8 (end field missing) at byte 0, after 0 steps; there is no result'
call <(head -c 100 examples/season.stick) - "$result"
good test "$status|$output|$error" = \
    '1||feed: standard input: refused 1 (field cut short) at byte 61, after 0 steps; there is no result'
# The words are those that import has.
for file in examples/refused-*.stick /dev/null; do
    number=${file#*refused-}
    number=${number%%-*}
    if [ "$file" = /dev/null ]; then number=8; fi
    refused=$(build/import check "$file" 2>/dev/null | sed -n '1s/.*: \(refused [0-9]* ([a-z ]*) at byte \).*/\1/p')
    good test "${refused%% (*}" = "refused $((10#$number))"
    for chunk in 7 65536; do
        rm -f "$result"
        call "$file" - "$result" "$chunk"
        good said 1 "standard input: $refused"
        good left
        echo before >"$result"
        call /dev/null "$file" "$result" "$chunk"
        good said 1 "$file: $refused"
        good test "$(cat "$result")" = before
        good left result
    done
done

usage='usage: feed IN OUT [CHUNK], where IN is a file or -, and CHUNK 1 to 268435456 bytes'
rm -f "$result"
for arguments in '' examples/mill.stick 'examples/mill.stick OUT 5 6' 'examples/mill.stick OUT 0' \
    'examples/mill.stick OUT -1' 'examples/mill.stick OUT 1k' 'examples/mill.stick OUT 268435457' \
    'examples/mill.stick OUT 99999999999999999999999'; do
    # shellcheck disable=SC2086 # the arguments are words
    call /dev/null ${arguments/OUT/$result}
    good test "$status|$output|$error" = "2||$usage"
    good left
done

# What cannot be read, written or made.
call /dev/null "$work/none" "$result"
good test "$status|$output|$error" = "2||feed: $work/none: cannot be opened"
call /dev/null "$work" "$result"
good test "$status|$output|$error" = "2||feed: $work: cannot be read to its end"
good left
for out in "$work" /dev/null; do
    call /dev/null examples/mill.stick "$out"
    good test "$status|$output|$error" = "2||feed: $out: is a folder, a device or a pipe; give OUT the name of a file"
done
echo kept >"$result.unfinished"
call /dev/null examples/mill.stick "$result"
good said 2 "$result.unfinished: cannot be made"
good test "$(cat "$result.unfinished")" = kept
rm -f "$result.unfinished"
call /dev/null examples/mill.stick "$work/none/result"
good said 2 "$work/none/result.unfinished: cannot be made"
# A disk without room: the file size limit stands for it.
error=$(ulimit -f 1 && trap '' XFSZ && build/feed examples/harvest.stick "$result" 2>&1 >/dev/null)
status=$? output='' called='examples/harvest.stick, with a limit on the size of files'
good said 2 "$result"
good left

# Nothing is said that is not so: a stick of several chunks, the same spoiled behind the first one, and the same cut.
{
    head -c 180 examples/season.stick
    for _ in 1 2 3 4 5 6 7 8 9 10; do tail -c +181 examples/season.stick | head -c -7; done
    printf '\177\0\004\0\0\015\040'
} >"$work/several"
cp "$work/several" "$work/spoiled"
printf '\377' | dd of="$work/spoiled" bs=1 seek=$((180 + 9 * 8856)) conv=notrunc status=none
head -c 80000 "$work/several" >"$work/cut"
build/import run "$work/several" "$work/due" >/dev/null || failed=$((failed + 1))
lost="feed: $result: written whole; only the line about it is lost"

# into PLACE FILE: call the command with its standard output there, which takes no byte: full is /dev/full, deaf a pipe
# whose reader has gone, while SIGPIPE is switched off, disk the full disk.
into() {
    called="$2 $result >$1" output=''
    case $1 in
    full) error=$(build/feed "$2" "$result" 2>&1 >/dev/full) ;;
    deaf) error=$(trap '' PIPE; build/feed "$2" "$result" 2>&1 >&9) ;;
    disk) error=$(build/feed "$2" "$result" 2>&1 >"$work/disk/lines") ;;
    esac
    status=$?
}

# lines_to PLACE: the line cannot be written. The result is there whole, and that is told; of a refused stick there is
# none, and the refusal goes to standard error anyway.
lines_to() {
    local file
    echo before >"$result"
    into "$1" "$work/several"
    good test "$status|$error" = "2|$lost"
    good cmp -s "$result" "$work/due"
    for file in "$work/spoiled" "$work/cut" examples/refused-06-three-faults.stick; do
        echo before >"$result"
        into "$1" "$file"
        good said 1 "$file: refused "
        good test "$(cat "$result")" = before
    done
    good left result
}

lines_to full
mkfifo "$work/deaf"
: <"$work/deaf" &
exec 9>"$work/deaf"
wait $!
lines_to deaf
exec 9>&-
# A full disk, for the result and for the line.
mkdir "$work/disk"
if mount -t tmpfs -o size=64k none "$work/disk" 2>/dev/null; then
    echo before >"$work/disk/result"
    head -c 65536 /dev/zero >"$work/disk/fill" 2>/dev/null
    call /dev/null "$work/several" "$work/disk/result"
    good said 2 "$work/disk/result.unfinished: cannot be written; nothing is under the name of OUT that was not there"
    good test "$(cat "$work/disk/result")|$(ls -A "$work/disk")" = $'before|fill\nresult'
    lines_to disk
    umount "$work/disk"
else
    echo 'NOT RUN: a full disk: no small disk can be mounted here; a limit on the size of files ran in its place'
fi
# The limit stands for such a disk.
for limit in 1 16 64; do
    echo before >"$result"
    error=$(ulimit -f "$limit" && trap '' XFSZ && build/feed "$work/several" "$result" 2>&1 >"$work/output")
    status=$? output=$(cat "$work/output") called="several, with a limit of $limit KiB"
    good said 2 "$result"
    good test "$(cat "$result")" = before
    good left result
done
# Standard input that fails where the stick ends: it has not come to its end, though its end mark is there.
if command -v python3 >/dev/null; then
    for file in "$work/several" "$work/cut" examples/season.stick; do
        error=$(c/tests/failing_input.py "$file" build/feed - "$result" 2>&1 >"$work/output")
        status=$? output=$(cat "$work/output") called="- $result, where standard input fails behind $file"
        good test "$status|$output|$error" = '2||feed: standard input: cannot be read to its end'
        good test "$(cat "$result")" = before
        good left result
    done
else
    echo 'NOT RUN: standard input that fails behind a stick; install the package python3'
fi

echo "$passed passed, $failed failed"
[ "$failed" = 0 ]
