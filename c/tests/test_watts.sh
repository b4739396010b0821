#!/bin/bash
# The command build/watts as people call it: its lines, its messages and its exit statuses. Each failed check
# is told on standard error; the last line counts them.
set -u
cd "$(dirname "${BASH_SOURCE[0]}")/../.." || exit 2
watts=build/watts
[ -x "$watts" ] || { echo "no command $watts" >&2; exit 1; }
passed=0
failed=0

# check STATUS OUTPUT ERROR ARGUMENT..: call the command and compare all three.
check() {
    local status=$1 output=$2 error=$3
    shift 3
    local got_output got_error got_status
    got_error=$("$watts" "$@" 2>&1 >build/test_watts.out)
    got_status=$?
    got_output=$(cat build/test_watts.out)
    if [ "$got_status $got_output $got_error" = "$status $output $error" ]; then
        passed=$((passed + 1))
    else
        failed=$((failed + 1))
        printf 'watts %s\n  status %s, expected %s\n  output: %s\n  expected: %s\n  error: %s\n  expected: %s\n' \
            "$*" "$got_status" "$status" "$got_output" "$output" "$got_error" "$error" >&2
    fi
}

refused='kW: refused 6 (reading not usable)'
usage='usage: watts KW..'

check 0 '1.5 kW: 1500 W' '' 1.5
check 0 $'0.0625 kW: 62 W\n-0.0625 kW: -62 W' '' 0.0625 -0.0625
check 0 $'0.1875 kW: 188 W\n-0.1875 kW: -188 W' '' 0.1875 -0.1875
check 0 $'0x1p-11 kW: 0 W\n0x1p-10 kW: 1 W' '' 0x1p-11 0x1p-10
check 0 $'100000 kW: 100000000 W\n-1e5 kW: -100000000 W' '' 100000 -1e5
check 0 $'-0 kW: 0 W\n1e-400 kW: 0 W' '' -0 1e-400
check 1 "100000.0625 $refused" '' 100000.0625
check 1 "nan $refused"$'\n'"-inf $refused"$'\n'"1e999 $refused" '' nan -inf 1e999
check 1 $'1 kW: 1000 W\ninfinity '"$refused"$'\n2 kW: 2000 W' '' 1 infinity 2
check 2 '' "$usage"
check 2 '' "watts: 'one' is no number" one
check 2 '' "watts: '1.5kW' is no number" 1 1.5kW 2
check 2 '' "watts: '' is no number" ''
check 2 '' "watts: '1,5' is no number" 1,5

# A full device, and a pipe that nobody reads, are no success: for a line or two, and for more than a buffer holds.
fifo=$(mktemp -u build/test_watts.XXXXXX)
mkfifo "$fifo"
: <"$fifo" &
exec 8>/dev/full 9>"$fifo"
wait $!
rm "$fifo"
for words in 1.5 'nan 1.5' "$(yes 1.5 | head -n 2000)"; do
    for place in 8 9; do
        # shellcheck disable=SC2086 # the words
        said=$(trap '' PIPE; "$watts" $words 2>&1 >&"$place")
        if [ "$?|$said" = '2|watts: the lines cannot be written' ]; then
            passed=$((passed + 1))
        else
            failed=$((failed + 1))
            echo "watts ${words:0:20}, lines that cannot be written: $said" >&2
        fi
    done
done
exec 8>&- 9>&-

echo "$passed passed, $failed failed"
[ "$failed" = 0 ]
