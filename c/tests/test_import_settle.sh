# shellcheck shell=bash
# shellcheck disable=SC2034,SC2154 # the variables are those of test_import.sh
# Sourced by test_import.sh: settle.

# most_left PASSES GAP ROOM: the line about a study that its budget stopped, where some passes may still change a
# request.
most_left() {
    echo "gap left $2 W: at most $1 a request ($2 W to the target, $3 W left to the ratings of units above reserve)"
}

# passes NUMBER: so many passes.
passes() {
    echo "$1 pass$([ "$1" = 1 ] || echo es)"
}

# What stands above the units, which the files count otherwise than people do.
from_0='units are counted from 0: unit 0 is the 1st unit'

settle_suite() {
    local stick=examples/season.stick name needs='import: settle needs a FILE, a LOAD and perhaps a BUDGET'
    check 2 '' "$needs"$'\n'"$usage" settle
    check 2 '' "$needs"$'\n'"$usage" settle "$stick"
    check 2 '' "$needs"$'\n'"$usage" settle "$stick" 1 2 3

    # Figure C1, at every budget.
    local budget second sum words where rest lines
    for budget in 1 2 3 4 5 10000; do
        second=$(cut -d ' ' -f $((budget < 5 ? budget : 5)) <<<'150 175 187 193 193')
        sum=$((100 + second))
        words="not settled within $(passes "$budget"), $budget changed a request"
        if [ "$budget" -gt 4 ]; then words='settled after 4 changing passes'; fi
        where=within
        if [ "$sum" -lt 290 ]; then where='not within'; fi
        rest=
        case $budget in
        1) rest=$'\n'$(most_left '50 further passes change' 50 850) ;;
        2) rest=$'\n'$(most_left '25 further passes change' 25 825) ;;
        3) rest=$'\n'$(most_left '13 further passes change' 13 813) ;;
        4) rest=$'\n''gap left 7 W, within half the band: no further pass changes a request' ;;
        esac
        lines="$work/c1: $words
$from_0
unit	request W	rating W
0	100	100
1	$second	1000
sum of requests $sum W, reading left $((1000 - sum)) W: $where half the band (20 W) of the target (700 W)$rest"
        check 0 "$lines" '' settle "$work/c1" 1000 "$budget"
    done
    check 0 "$lines" '' settle "$work/c1" 1000
    check 0 "$lines" '' settle "$work/c1" 0001000 00010000
    check 0 "$work/c1: settled after 0 changing passes
$from_0
unit	request W	rating W
0	0	100
1	0	1000
sum of requests 0 W, reading left 0 W: not within half the band (20 W) of the target (700 W)" '' settle "$work/c1" 0
    check 0 "$work/c1: not settled within 1 pass, 1 changed a request
$from_0
unit	request W	rating W
0	100	100
1	1000	1000
sum of requests 1100 W, reading left 99998900 W: not within half the band (20 W) of the target (700 W)
gap left 99998200 W: no further pass changes a request (every unit above reserve is at its rating)" '' \
        settle "$work/c1" 100000000 1
    # The mode of the file is not the study's.
    check 0 "$work/taking: settled after 1 changing pass
a study is in mode 1 (PeakShave) and by watts; the stick's mode is 3 (PeakShaveLow)
$from_0
unit	request W	rating W
0	5000	5000
sum of requests 5000 W, reading left 1000 W: not within half the band (0 W) of the target (0 W)" '' \
        settle "$work/taking" 6000
    check 0 "$stick: settled after 1 changing pass
$from_0
unit	request W	rating W
0	17142	100000
1	8571	50000
2	4285	15000
sum of requests 29998 W, reading left 120002 W: within half the band (6000 W) of the target (120000 W)" '' \
        settle "$stick" 150000

    # Words that are no whole numbers, and numbers outside their ranges.
    for name in '' x 1x +5 ' 5' '5 ' 1e3 0x10 1.5 1,000 -; do
        check 2 '' "import: $name: LOAD is no whole number; give it in watts, such as 150000" settle "$stick" "$name"
        check 2 '' "import: $name: BUDGET is no whole number; give the most passes, such as 100" \
            settle "$stick" 1 "$name"
    done
    # A dash and more is an option, unless a whole number follows it.
    check 2 '' "import: settle has no option --5; a file of that name comes behind --"$'\n'"$usage" settle "$stick" --5
    check 2 '' 'import: -1.5: LOAD is no whole number; give it in watts, such as 150000' settle "$stick" -- -1.5
    local refused=': refused 5 (value out of range)'
    for name in -1 100000001 4294967296 9223372036854775807 9223372036854775808 18446744073709551617 \
        99999999999999999999999999 -99999999999999999999999999; do
        check 1 "LOAD $name$refused"$'\n''    A load is 0 to 100,000,000 W.' \
            "import: $stick: no study; call again with another LOAD" settle "$stick" "$name"
    done
    for name in 0 -1 10001 4294967296 4294967297 18446744073709551617 99999999999999999999999999; do
        check 1 "BUDGET $name$refused"$'\n''    A budget is 1 to 10,000 passes.' \
            "import: $stick: no study; call again with another BUDGET" settle "$stick" 1 "$name"
    done
    check 1 "LOAD -1$refused
    A load is 0 to 100,000,000 W.
BUDGET 0$refused
    A budget is 1 to 10,000 passes." "import: $stick: no study; call again with another LOAD" settle "$stick" -1 0

    # Files that are refused, or cannot be read.
    for name in examples/refused-* "$work/empty" c/import/import.c; do
        check 1 "$("$import" check "$name" 2>/dev/null)" "import: $name: refused; no study is made" settle "$name" 1
    done
    check 2 '' 'import: none: cannot be read: No such file or directory' settle none 1
    error=$("$import" settle "$stick" 1 2>&1 >/dev/full)
    status=$? called='settle >/dev/full'
    good test "$status|$error" = '2|import: the lines cannot be written'
}

# last LINE ARGUMENT..: a study's last line.
last() {
    local line=$1
    shift
    call settle "$@"
    good test "$status|${output##*$'\n'}|$error" = "0|$line|"
}

# rest_of UNIT..: the last line of the study in the output as it follows from the others, where the units named are not
# above their reserves.
rest_of() {
    awk -F '\t' -v spent=" $* " '
        NF == 3 && $1 != "unit" && index(spent, " " $1 " ") == 0 { room += $3 - $2 }
        /^sum of requests / {
            gsub(/[^-0-9 ]/, "")
            split($0, number, " ")
            gap = number[2] - number[4]
            most = gap < room ? gap : room
            passes = most == 1 ? " further pass changes" : " further passes change"
            if (2 * gap <= number[3])
                print "gap left " gap " W, within half the band: no further pass changes a request"
            else if (most == 0)
                print "gap left " gap " W: no further pass changes a request" \
                    " (every unit above reserve is at its rating)"
            else
                print "gap left " gap " W: at most " most passes " a request (" gap " W to the target, " room \
                    " W left to the ratings of units above reserve)"
        }' "$work/output"
}

# bounded FILE LOAD UNIT..: at every budget that stops the study its last line is the one that follows from the others,
# and says no fewer passes than those that still change a request when the budget is the largest. The units named are
# not above their reserves.
bounded() {
    local file=$1 load=$2 whole budget most
    shift 2
    call settle "$file" "$load" 10000
    good like "$status $output" "0 $file: settled after * changing pass*"$'\n*'
    whole=${output#"$file: settled after "} whole=${whole%% *}
    good like "${output##*$'\n'}" 'sum of requests *'
    for ((budget = 1; budget <= whole; budget++)); do
        call settle "$file" "$load" "$budget"
        good like "$status $output" "0 $file: not settled within $(passes "$budget"), $budget changed a request"$'\n*'
        good test "${output##*$'\n'}" = "$(rest_of "$@")"
        most=0
        if like "$output" $'*\ngap left * W: at most *'; then most=${output##*: at most } most=${most%% *}; fi
        good test $((whole - budget)) -le "$most"
    done
}

# spent_stick STORED: figure C1 with a larger first unit that has so much stored; a reserve is 00000000000186A0.
spent_stick() {
    cp "$work/c1" "$work/spent"
    patch "$work/spent" 36 00001388
    patch "$work/spent" 28 "$1"
}

# How far a study is from done that its budget stopped.
settle_rest_suite() {
    local within=', within half the band: no further pass changes a request' stored
    local none=': no further pass changes a request (every unit above reserve is at its rating)'
    # A gap of one watt, in figure C1 without a band.
    cp "$work/c1" "$work/fine"
    patch "$work/fine" 121 00000000
    last "$(most_left '2 further passes change' 2 802)" "$work/fine" 1000 6
    last "$(most_left '1 further pass changes' 1 801)" "$work/fine" 1000 7
    # A unit that is one watt below its rating, and then at it.
    cp "$work/c1" "$work/near"
    patch "$work/near" 88 0000028B
    last "$(most_left '1 further pass changes' 550 1)" "$work/near" 2000 1
    last "gap left 549 W$none" "$work/near" 2000 2
    # Half the band, and more than half of one that is a watt smaller.
    patch "$work/fine" 121 00000064
    last "gap left 50 W$within" "$work/fine" 1000 1
    patch "$work/fine" 121 00000063
    last "$(most_left '50 further passes change' 50 850)" "$work/fine" 1000 1
    # A unit at its reserve, or below it, has no room, whatever its rating; one above it has.
    for stored in 00000000000186A0 0000000000000000; do
        spent_stick "$stored"
        last "$(most_left '350 further passes change' 650 350)" "$work/spent" 2000 1
        last "gap left 8300 W$none" "$work/spent" 10000 1
    done
    spent_stick 00000000000186A1
    last "gap left 0 W$within" "$work/spent" 2000 1
    last "$(most_left '350 further passes change' 3650 350)" "$work/spent" 10000 1
    # More room than 32 bits hold: 64 units of 100,000,000 W, and half the load asked for in the first pass.
    {
        bytes 01 0006 01 40 0000003C
        repeated "02 0031 000000000036EE80 0000000000000000 000000000036EE80 05F5E100 05F5E100 000003E8 00000000 0001
            2710 2710 2710 00" 64
        bytes 03 000C 01 00000000 00000000 01F4 00 "$(end 0)"
    } >"$work/large"
    last "$(most_left '50000000 further passes change' 50000000 6350000000)" "$work/large" 100000000 1
}

# The same line at every budget, beside what happens.
settle_bounds_suite() {
    local file load stored
    patch "$work/fine" 121 00000000
    for file in "$work"/{c1,fine,near,taking}; do
        for load in 0 701 1000 2000 100000000; do bounded "$file" "$load"; done
    done
    for stored in 00000000000186A0 0000000000000000; do
        spent_stick "$stored"
        for load in 701 1000 2000 10000; do bounded "$work/spent" "$load" 0; done
    done
    for file in examples/*.stick; do
        "$import" check "$file" >/dev/null 2>&1 || continue
        for load in 0 100000 150000 200000; do bounded "$file" "$load"; done
    done
}
