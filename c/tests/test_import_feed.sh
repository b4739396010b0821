# shellcheck shell=bash
# shellcheck disable=SC2034,SC2154 # the variables are those of test_import.sh
# Sourced by test_import.sh: sticks of many chunks, and of more bytes than one call of the library takes; and pipes.

# repeated FIELDS COUNT: so many times the same fields.
repeated() {
    local hex=$1
    # shellcheck disable=SC2001 # a group of two
    head -c "$2" /dev/zero | tr '\0' x | sed "s/x/$(sed 's/../\\x&/g' <<<"${hex//[[:space:]]/}")/g"
}

# A weather and a reading of 0 kW, of 19 and 27 bytes. The head of the sticks below has 76 bytes.
row="$clear 04 0018 $(printf '%048d' 0)"
head_d="$fleet_1 $(unit_d 500000) $efficiencies_d $(settings 1 0 0)"

# long_stick: as many steps as there can be, with a weather each.
long_stick() {
    { bytes "$head_d" && repeated "$row" 65535 && bytes "$(end 65535)"; } >"$work/long"
}

# long_sticks: that; one of just a chunk; one of just the bytes that a call takes, and one of a byte more; and the
# sample with a roof, whose 96 steps of 4,115 bytes come again and again.
long_sticks() {
    local i
    long_stick
    { bytes "$head_d" && repeated "$row" 1421 && repeated "$missing" 29 && bytes "$(end 1450)"; } >"$work/chunk"
    { bytes "$head_d" && repeated "$row" 45588 && repeated "$missing" 7 && bytes "$(end 45595)"; } >"$work/just"
    { bytes "$head_d" && repeated "$row" 45588 && bytes "$clear $missing $(end 45589)"; } >"$work/above"
    piece 1038 4115 >"$work/day"
    for ((i = 0; i < 682; i++)); do cat "$work/day"; done >"$work/days"
    { piece 0 1038 && cat "$work/days" && bytes "$(end 65472)"; } >"$work/roofs"
    rm "$work/day" "$work/days"
}

# idle_table STEPS READINGS: the table of the unit of these sticks, which idles in every step; behind so many readings
# all are missing.
idle_table() {
    echo "$heading$beside"
    awk -v steps="$1" -v readings="$2" 'BEGIN {
        for (i = 0; i < steps; i++)
            print i "\t0\t0\t-0.012\t0\t500000\t720\t" (i < readings ? "0\t-12\t12" : "missing\t-12\t-")
    }'
}

# What a summary says of the long stick, which the library's figures are not for.
long_summary="$work/long: complete, 65535 steps
1 unit, 65,535 steps of 60 s (1 min), 45 days 12 h 15 min
mode 1 (PeakShave), target 0.000 kW, band 0.000 kW, factor 1,000 thousandths

The smallest and the largest measure cannot be told of a stick that long: the library takes at most
2,097,152 bytes for them. What follows is all that is there.
$below
 unit  request_kW  out_kW  in_kW  out_kWh  in_kWh  loss_kWh  low_kWh  at_step  not_met
    0       0.000   0.000  0.012    0.000  13.107    13.107    0.139        0        0
fleet       0.000   0.000  0.012    0.000  13.107    13.107    0.139        0        0

$no_vars"

feed_suite() {
    local name steps readings
    long_sticks
    good test "$(stat -c %s "$work/long" "$work/chunk" "$work/just" "$work/above" "$work/roofs" | tr '\n' ' ')" = \
        '3014693 65536 2097152 2097153 2807475 '
    for name in 'long 65535 65535' 'chunk 1450 1421' 'just 45595 45588' 'above 45589 45588'; do
        read -r name steps readings <<<"$name"
        complete "$work/$name" "$steps"
        call show "$work/$name"
        good like "$status|$error|$output" \
            "0||$work/$name: complete, $steps steps"$'\n*\n\n'"$(measured "$work/$name")"$'\n*'"$about"
        check 0 "$work/$name: complete, $steps steps" '' run "$work/$name" "$work/$name.result"
        good test "$(wc -c <"$work/$name.result")" = $((40 * steps + 7))
        call table "$work/$name" "$work/$name.result"
        good test "$status|$error" = '0|'
        good cmp "$work/output" <(idle_table "$steps" "$readings")
    done
    check 0 "$long_summary" '' summary "$work/long" "$work/long.result"
    check 0 "$long_summary" '' summary "$work/long"
    call settle "$work/long" 6000
    good like "$status|$error|$output" "0||$work/long: settled after 1 changing pass"$'\nunit*\n0\t5000\t5000\n*'

    # A fleet and a roof, whose first day is the sample's.
    check 0 "$work/roofs: complete, 65472 steps" '' run "$work/roofs" "$work/roofs.result"
    good test "$(wc -c <"$work/roofs.result")" = $((207 * 65472 + 7))
    call run examples/roof.stick "$work/roof.result"
    good cmp -n $((207 * 96)) "$work/roofs.result" "$work/roof.result"
    call table "$work/roofs" "$work/roofs.result"
    good test "$status|$error|$(wc -l <"$work/output")" = "0||$((6 * 65472 + 1))"
    "$import" table examples/roof.stick "$work/roof.result" >"$work/first"
    good cmp <(head -n 577 "$work/output") "$work/first"
    steps=$(summed_roof 900 <"$work/output" && echo && var_ends <"$work/output")
    call summary "$work/roofs" "$work/roofs.result"
    good test "$(columns <"$work/output" | tail -n 13)" = "$steps"
    good test "$(head -n 3 "$work/output")" = "$work/roofs: complete, 65472 steps
3 units, 3 inverters, 65,472 steps of 900 s (15 min), 682 days
$(sed -n 3p <<<"$roof_summary")"

    # The longest stick that there is today: 64 units with limits and connections, 64 inverters, and a function.
    {
        bytes 01 0006 02 40 0000003C
        repeated "$(unit_v 0 0 1000 1000)" 64
        bytes "$(settings 1 0 0)" 0A 00C0
        repeated '01 00E6' 64
        repeated "$(inverter 10000 100 5000) $(level 10000) $(level 9500)" 64
        bytes "$(function_of 1) $volt_var"
        repeated "${row/04 0018/$(voltage 9500) 04 0018}" 65535
        bytes "$(end 65535)"
    } >"$work/longest"
    good test "$(wc -c <"$work/longest")" = 3364791
    complete "$work/longest" 65535
    call settle "$work/longest" 6000 1
    good like "$status|$error|$output" '0||*: not settled within 1 pass,*'
    good test "$(wc -l <"$work/output")" = 69
    rm "$work/longest"

    # Results that are not those of a long stick.
    other_byte "$work/long" "$work/long.result" 2600011 2600000 40 'request W' "$(due Step 65000 unit 0)"
    other_byte "$work/long" "$work/long.result" 2621406 2621400 7 'number of steps' 'The end'
    # Where the records of one chunk end and those of the next begin.
    other_byte "$work/long" "$work/long.result" $((40 * 1423 - 1)) $((40 * 1422)) 40 'loss J' "$(due Step 1422 unit 0)"
    other_byte "$work/long" "$work/long.result" $((40 * 1423)) $((40 * 1423)) 40 tag "$(due Step 1423 unit 0)"
    cut_result "$work/long" "$work/long.result" 2600011 2600000 40 "$(due Step 65000 unit 0)"
    lacking "$work/long" "$work/long.result" 2600000 $((76 + 46 * 65000 + 19)) 27 "$(due step 65000 unit 0)"
    lacking "$work/long" "$work/long.result" 2621400 3014686 7 'the end'
    not_shown "$work/long" /dev/null 0 "The result ends there: $(due step 0 unit 0) is missing. *"
    not_shown "$work/long" /dev/zero 0 "$(due Step 0 unit 0) is due there. What differs: tag, *"
    { cat "$work/long.result" && printf '\0'; } >"$work/bad"
    not_shown "$work/long" "$work/bad" 2621407 'All that is due is there, and behind it 1 byte:'
    not_shown "$work/above" "$work/just.result" $((40 * 45589)) 'The end is due there. What differs: tag, length.'
    other_byte "$work/roofs" "$work/roofs.result" $((207 * 60000 + 178 + 8)) $((207 * 60000 + 178)) 29 on \
        "$(due Step 60000 inverter 2)"
    check 2 '' 'import: none: cannot be read: No such file or directory' table "$work/long" none
}

# cut_at BYTES: a long stick that is cut there, which may be within a weather, a reading or neither.
cut_at() {
    local row=$((($1 - 76) / 46)) of=$((($1 - 76) % 46))
    head -c "$1" "$work/long" >"$work/cut"
    case $((of < 1 ? 0 : of < 19 ? 1 : of < 20 ? 2 : 3)) in
    0 | 2) refused "$work/cut" 8 'end field missing' "$1" "$row" ;;
    1) refused "$work/cut" 1 'field cut short' $((76 + 46 * row)) "$row" ;;
    3) refused "$work/cut" 1 'field cut short' $((95 + 46 * row)) "$row" ;;
    esac
}

# bad_row PLACE NUMBER NAME STEPS HEX..: other bytes at a place of a long stick, which is that of the tag of a field
# for 2, of its length for 3, and of its value for others; the field is refused.
bad_row() {
    local place=$1 number=$2 name=$3 steps=$4
    shift 4
    cp "$work/long" "$work/damaged"
    patch "$work/damaged" "$place" "$@"
    [ "$number" = 2 ] || place=$((place - (number == 3 ? 1 : 3)))
    refused "$work/damaged" "$number" "$name" "$place" "$steps"
}

refused_feed_suite() {
    local place all=3014693
    for place in 2097152 2097153 2097154 2097170 65536 65537 131072 2228224 $((all - 8)) $((all - 7)); do
        cut_at "$place"
    done
    head -c $((all - 3)) "$work/long" >"$work/cut"
    refused "$work/cut" 1 'field cut short' $((all - 7)) 65535
    head -c $((all - 7)) "$work/long" >"$work/cut"
    refused "$work/cut" 8 'end field missing' $((all - 7)) 65535
    not_run "$work/cut"
    check 1 "$("$import" check "$work/cut" 2>/dev/null)" "import: $work/cut: refused; nothing is shown" \
        table "$work/cut" "$work/long.result"
    check 1 "$("$import" check "$work/cut" 2>/dev/null)" "import: $work/cut: refused; no study is made" \
        settle "$work/cut" 1000

    # Rows far behind, which begin with 76 bytes and have 46; the reading begins 19 bytes further.
    bad_row $((76 + 46 * 60000 + 22)) 6 'reading not usable' 60000 7FF8000000000000
    advised 'The power of phase 1 in step 60,000, the 60,001st row, is no number; *'
    not_run "$work/damaged"
    call show "$work/damaged"
    shown '    At byte 2,760,095: the reading of step 60,000, the 60,001st row, 27 bytes:' \
        '                     value           here              may be                    bytes' \
        '                       tag  power reading                                           04' \
        '                    length             24                  24                    00 18' \
        'wrong  power of phase 1 kW      no number  100,000 either way  7F F8 00 00 00 00 00 00' \
        '       power of phase 2 kW          0.000  100,000 either way  00 00 00 00 00 00 00 00' \
        '       power of phase 3 kW          0.000  100,000 either way  00 00 00 00 00 00 00 00'
    bad_row $((76 + 46 * 65534 + 3)) 6 'reading not usable' 65534 BFF0000000000000
    advised 'The irradiance in step 65,534, the 65,535th row, is -1.000 kW/m2, below 0; *'
    bad_row $((76 + 46 * 50000)) 2 'unknown tag' 50000 EE
    bad_row $((76 + 46 * 50000 + 1)) 3 'wrong length' 50000 FFFF
    advised 'Here the file has the weather of step 50,000, the 50,001st row, with the tag hex 08 (8) and the length '\
'hex FFFF (65,535); the length should be hex 0010 (16): *'
    call show "$work/damaged"
    good test "$(sed -n '/value byte/,$p' "$work/output" | sed -n '1p; 2p; $p' | cut -c -52)" = \
        "    The 65,535 value bytes that its length says:
     2300079  3F F0 00 00 00 00 00 00 40 39 00 00 00
     2365599  04 00 18 00 00 00 00 00 00 00 00 00 00"
    good test "$(grep -c '^ \{5,8\}[0-9]*  [0-9A-F][0-9A-F] ' "$work/output")" = 4096
    bad_row $((all - 4)) 7 'wrong step count' 65535 00001000
    # A field that may not come there, at the edge of a chunk and across it.
    for place in 1424 45590 65534; do
        cp "$work/long" "$work/damaged"
        patch "$work/damaged" $((76 + 46 * place + 19)) "$clear"
        refused "$work/damaged" 4 'field out of order' $((76 + 46 * place + 19)) "$place"
        advised 'Here the file has a weather, where the reading that follows a weather should be: *'
    done
    # One step more, with weather and without.
    { head -c $((all - 7)) "$work/long" && bytes "$row $(end 65536)"; } >"$work/damaged"
    refused "$work/damaged" 12 'too many bytes or steps' $((all - 7 + 19)) 65535
    not_run "$work/damaged"
    { head -c $((all - 7)) "$work/long" && bytes "$missing $(end 65536)"; } >"$work/damaged"
    refused "$work/damaged" 12 'too many bytes or steps' $((all - 7)) 65535
    # What follows the end, to be read or not.
    for place in $((all + 1)) 3G; do
        cp "$work/long" "$work/damaged"
        truncate -s "$place" "$work/damaged"
        refused "$work/damaged" 9 'bytes after the end' "$all" 65535
    done
    not_run "$work/damaged"
    # Files of no kind, of any size.
    : >"$work/damaged"
    truncate -s 3G "$work/damaged"
    refused "$work/damaged" 2 'unknown tag' 0 0
    not_run "$work/damaged"
    rm "$work/damaged" "$work/cut"
}

# piped FILE WORD..: call the command with a file coming through a pipe, and keep what it gives.
piped() {
    local file=$1
    shift
    called="$* (of a pipe)"
    # shellcheck disable=SC2002 # a pipe is what is to be tried
    error=$(cat "$file" 2>/dev/null | "$import" "$@" 2>&1 >"$work/output")
    status=$?
    output=$(cat "$work/output")
}

pipe_suite() {
    local name lines
    for name in - /dev/stdin; do
        old
        piped "$work/long" run "$name" "$work/out/result"
        good test "$status|$output|$error" = "0|$name: complete, 65535 steps|"
        good written long
        piped examples/season.stick run "$name" "$work/out/result"
        good test "$status|$output|$error" = "0|$name: complete, 336 steps|"
        good written season
        piped "$work/above" check "$name" examples/season.stick
        good test "$status|$output|$error" = "0|$name: complete, 45589 steps
$(measured "$work/above")
examples/season.stick: complete, 336 steps
$(measured examples/season.stick)
$about|"
        piped "$work/long" summary "$name" "$work/long.result"
        good test "$status|$error|$(tail -n +2 "$work/output")" = \
            "0||$("$import" summary "$work/long" "$work/long.result" | tail -n +2)"
        piped "$work/roofs.result" table "$work/roofs" "$name"
        good test "$status|$error|$(wc -l <"$work/output")" = "0||$((6 * 65472 + 1))"
        piped "$work/long" settle "$name" 6000
        good like "$status|$error|$output" "0||$name: settled after 1 changing pass"*
    done
    lines=$(measured "$work/long")
    check 0 "-: complete, 65535 steps"$'\n'"$lines"$'\n'"$about" '' check - <"$work/long"
    check 2 '' 'import: -: cannot be read: FILE is standard input already; give RESULT the name of a file' \
        table - - <"$work/long"
    mkfifo "$work/fifo"
    old
    pour "$work/above" "$work/fifo" &
    check 0 "$work/fifo: complete, 45589 steps" '' run "$work/fifo" "$work/out/result"
    good written above
    wait $!

    # Pipes that break off, that have a bad row, and that never end.
    for name in 0 1 76 100 65536 2097153 3000000; do
        head -c "$name" "$work/long" >"$work/cut"
        lines=$("$import" check - <"$work/cut" 2>/dev/null)
        old
        piped "$work/cut" run - "$work/out/result"
        good test "$status|$output|$error" = "1|$lines|import: -: refused; no result is written"
        good kept
    done
    cp "$work/long" "$work/cut"
    patch "$work/cut" $((76 + 46 * 60000 + 22)) 7FF8000000000000
    piped "$work/cut" run - "$work/out/result"
    good test "$status|$error" = '1|import: -: refused; no result is written'
    good like "$output" '-: refused 6 (reading not usable) at byte 2760095 after 60000 steps*'
    good kept
    piped /dev/zero run - "$work/out/result"
    good like "$status|$output" '1|-: refused 2 (unknown tag) at byte 0 after 0 steps*'
    for name in zero null; do
        call run "/dev/$name" "$work/out/result"
        good like "$status|$output|$error" "1|/dev/$name: refused *|import: /dev/$name: refused; no result is written"
    done
    good kept
    # The bytes of a refused field that a pipe brings later are shown all the same.
    cp "$work/long" "$work/cut"
    patch "$work/cut" $((76 + 46 * 50000 + 1)) FFFF
    lines=$("$import" show "$work/cut" 2>/dev/null | tail -n +2)
    piped "$work/cut" show -
    good test "$(tail -n +2 "$work/output")" = "$lines"
    rm "$work/cut" "$work/fifo"
}

# Results of long sticks that cannot be written.
feed_target_suite() {
    old
    # shellcheck disable=SC2094 # that is the question
    call run - "$work/long" <"$work/long"
    good like "$status $error" '2 *: it is FILE itself; give RESULT another name'
    not_written "$work/long" "$work/long" 'it is FILE itself; give RESULT another name'
    good test "$(wc -c <"$work/long")" = 3014693
    call run "$work/long" "$work/no/folder/result"
    failed_write "$work/no/folder/result" 'there is no such folder'
    # A disk that is full far behind.
    error=$(ulimit -f 1000 && "$import" run "$work/long" "$work/out/result" 2>&1 >"$work/output")
    status=$? output=$(cat "$work/output") called='run, with a limit of 1,000 KiB'
    failed_write "$work/out/result" 'File too large'
    good kept
    # A refused stick is what is told, wherever its result was to go.
    head -c 3000000 "$work/long" >"$work/cut"
    call run "$work/cut" "$work/no/folder/result"
    good like "$status|$output|$error" "1|$work/cut: refused *|import: $work/cut: refused; no result is written"
    error=$("$import" run "$work/long" "$work/out/result" 2>&1 >/dev/full)
    status=$? output='' called='run >/dev/full'
    lines_lost "$work/out/result"
    good written long
    rm "$work/cut"
}

# at_terminal COMMAND: what a command line says on standard error, where that is a terminal.
at_terminal() {
    called="$1 (at a terminal)"
    error=$(script -qec "$1 >'$work/output'" /dev/null </dev/null 2>&1)
    status=$? output=$(cat "$work/output")
}

# The progress of a long stick is for a terminal only, and is gone at the end.
feed_progress_suite() {
    local long=$work/long all='of 3014693 bytes' blanks words
    blanks=$(printf '\r%60s\r' '')
    old
    for words in "check '$long'" "run '$long' '$work/out/result'" "summary '$long' '$long.result'"; do
        at_terminal "$import $words"
        good like "$status|$error" \
            $'0|\r65536 '"$all, 1423 steps"$'\r131072 '"$all*"$'\r3014693 '"$all, 65535 steps$blanks"
        good like "$output" "$work/long: complete, 65535 steps*"
    done
    good written long
    at_terminal "$import check '$work/just'"
    good like "$status|$error|$output" "0||$work/just: complete, 45595 steps"$'\n    Smallest measure 0.000 kW *'
    at_terminal "cat '$work/long' | $import check -"
    good like "$status|$error" $'0|\r2162688 bytes, 47013 steps\r*\r3014693 bytes, 65535 steps'"$blanks"
    # It goes before a message.
    head -c 3000000 "$work/long" >"$work/cut"
    at_terminal "$import run '$work/cut' '$work/out/result'"
    good like "$status|$error" "1|*$blanks"'import: *: refused; no result is written?'
    good below
    rm "$work/cut"
}

# Reading and writing that go wrong, or are interrupted, in the middle of a long stick.
feed_fault_suite() {
    local fault signal long=$work/long
    long_stick
    "$import" run "$long" "$long.result" >/dev/null
    faulty none "$long"
    good test "$status|$output|$error" = "0|$long: complete, 65535 steps|"
    good written long
    for fault in fread:1 fread:2 fread:47; do
        faulty "$fault:5" "$long"
        good test "$status|$output|$error" = "2||import: $long: cannot be read: Input/output error"
        good kept
    done
    for fault in write:2:28 write:30:28 'write:30:half write:31:28' fsync:1:5 close:1:5; do
        faulty "$fault" "$long"
        failed_write "$work/out/result" "$(errno_text "${fault##*:}")"
        good kept
    done
    for signal in 1 2 3 13 15; do
        for fault in fread:2 fread:47 write:30; do
            faulty "$fault:-$signal" "$long"
            good test "$status|$output|$error" = \
                "$((128 + signal))||import: interrupted; nothing under the name of RESULT has changed"
            good kept
        done
        # Before the first results there is nothing to be removed.
        faulty "fread:1:-$signal" "$long"
        good test "$status|$error" = "$((128 + signal))|"
        good kept
    done
    faulty fread:47:-9 "$long"
    good test "$status|$(cat "$work/out/result")|$(unfinished)" = '137|old|1'
    # Nobody reads the line, which comes when the result is there.
    unheard run "$long"
    good test "$status|$(grep -v '^qemu: uncaught target signal' <<<"$error")" = '141|'
    good cmp "$long.result" "$work/out/result"
    good test "$(unfinished)" = 0
    rm "$long" "$long.result"
}
