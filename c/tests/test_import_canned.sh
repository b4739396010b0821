# shellcheck shell=bash
# shellcheck disable=SC2034,SC2154 # the variables are those of test_import.sh
# Sourced by test_import.sh: the tool over a stand-in for the library, for answers that the library does not give.

# canned NUMBER PLACE STEPS START LENGTH..: show a file whose answers these are, in the build with the stand-in.
canned() {
    printf '%s' "$*" >"$work/canned"
    call show "$work/canned"
}

fault="the library's answer is not about this file; keep it and tell the developers"

# What only a stand-in can answer: every number's text, and answers that are not about the file.
canned_suite() {
    local number answers
    for number in 1 2 3 4 5 6 7 8 9 12 13 4294967295; do
        canned "$number" 0 7 3 4
        good like "$status $output" "1 $work/canned: refused $number (*) at byte 0 after 7 steps"$'\n    [A-Z]*.*'
        good test "$(wc -L <"$work/output")" -le 100
    done
    advised 'There is no such refusal of a file: this is a fault of the program. Keep the file and tell the *'
    # Two are about a call and not about the file.
    for number in 10 11; do
        canned "$number" 0 7 3 4
        good test "$status|$output|$error" = \
            "2||import: $work/canned: $fault"$'\n''import: 1 of 1 file not checked'
    done
    # Places and value parts up to the end of the file, which has ten bytes.
    for answers in '5 10 7 3 0' '5 07 7 9 1' '5 07 7 1 9' '5 10 7 10 0'; do
        # shellcheck disable=SC2086 # the answers are words
        canned $answers
        good like "$status $output" $'1 *\n    The library takes a value of this field for out of range, and *'
    done
    # The same beyond it.
    for answers in '5 99 7 0 0' '5 0 7 99 0' '5 0 7 3 99' '5 18446744073709551615 7 0 0' \
        '5 0 7 18446744073709551615 2' '5 0 7 2 18446744073709551615' '5 9 7 0 1'; do
        # shellcheck disable=SC2086
        canned $answers
        good test "$status|$output|$error" = \
            "2||import: $work/canned: $fault"$'\n''import: 1 of 1 file not checked'
    done
    # As many bytes as are fed at a time, and as many as the longest field can have behind them.
    { printf '5 65536 7 131074 0 ' && head -c 3000000 /dev/zero; } >"$work/canned"
    call show "$work/canned"
    good like "$status $output" $'1 *\n    At byte 65,536: an unknown field, 3 bytes:\n*'
    { printf '4 0 7 3 65535 ' && head -c 3000000 /dev/zero; } >"$work/canned"
    call show "$work/canned"
    good test "$status|$(grep -c '^ \{5,11\}[0-9]*  [0-9A-F][0-9A-F] ' "$work/output")" = '1|4096'
    good grep -qx '    The 65,535 value bytes there, of 8,240:' "$work/output"
    for answers in '5 65537 7 65537 0 ' '5 65536 7 131075 0 ' '3 0 7 3 65536 '; do
        { printf '%s' "$answers" && head -c 3000000 /dev/zero; } >"$work/canned"
        call show "$work/canned"
        good test "$status|$output|$error" = \
            "2||import: $work/canned: $fault"$'\n''import: 1 of 1 file not checked'
    done
    # Complete, without a fleet that can be asked.
    : >"$work/canned"
    for number in check show; do
        check 2 '' "import: $work/canned: $fault"$'\n''import: 1 of 1 file not checked' "$number" "$work/canned"
    done
    check 2 '' 'import: examples: cannot be read: it is a folder'$'\n''import: 1 of 1 file not checked' \
        check examples
}

# no_such_fault ANSWERS STICK WORDS: the library refuses a field in which the tool finds nothing wrong: that is told as
# a fault of the program, and nothing is guessed.
no_such_fault() {
    called="check, with the answers $1"
    error=$(CANNED_CHECK=$1 "$import" check "$2" 2>&1 >"$work/output")
    status=$? output=$(cat "$work/output")
    good like "$status|$error|${output%%$'\n'*}" "1|import: 1 of 1 file refused|$2: refused ${1%% *} (*"
    good test "$(tail -n +2 "$work/output" | sed 's/^ *//' | tr '\n' ' ')" = \
        "$3: this is a fault of the program. Keep the file and tell the developers. "
}

# Refusals of fields that are good; and answers about a complete stick that cannot be.
canned_look_suite() {
    local season=examples/season.stick voltage=examples/voltage.stick place words stick=$work/stick
    words='The library takes a value of this field for out of range, and the tool finds none that is'
    for place in 0 9 61 165 180 9036; do
        no_such_fault "5 $place 0" "$season" "$words"
    done
    for place in 189 204 226 358 776 780 912 931; do
        no_such_fault "5 $place 0" "$voltage" "$words"
    done
    words='The library takes this reading for not usable, and the tool finds nothing wrong in it'
    for place in 180 0 61 9036; do
        no_such_fault "6 $place 0" "$season" "$words"
    done
    no_such_fault '6 912 0' "$voltage" "$words"
    words='The library takes the count of the end for wrong, and the tool does not'
    no_such_fault '7 9036 336' "$season" "$words"
    no_such_fault '7 180 0' "$season" "$words"
    no_such_fault '3 61 0' "$season" 'The library takes this length for wrong, and the tool does not'
    no_such_fault '2 61 0' "$season" 'The library knows no such tag, and the tool does'
    no_such_fault '13 61 0' "$season" 'There is no such refusal of a file'

    # Of a complete stick: settings, a unit, its limits or its connection are refused, or there are no seconds.
    for words in 0 4 5 8 14; do
        cp "$season" "$stick"
        patch "$stick" 5 "$(printf %08X "$words")"
        check 2 '' "import: $stick: $fault"$'\n''import: 1 of 1 file not checked' show "$stick"
        case $words in
        0 | 4) check 2 '' "import: $stick: $fault"$'\n''import: 1 of 1 file not checked' check "$stick" ;;
        *)
            call check "$stick"
            good test "$status|$output|$error" = "0|$stick: complete, 336 steps
    Smallest measure -0.005 kW at step 0, the 1st row.
    Largest measure 1.000 kW at step 0, the 1st row; 0 readings missing.
$about|"
            ;;
        esac
    done
    # Figures that cannot be those of a stick, and some that can.
    cp "$season" "$stick"
    for words in '5' '10' '0 335' '0 337' '0 336 337' '0 336 -1' '0 336 0 0 336' '0 336 0 0 -1' '0 336 0 0 0 0 336'; do
        for place in check show; do
            error=$(CANNED_PEAKS=$words "$import" "$place" "$stick" 2>&1 >"$work/output")
            status=$? output=$(cat "$work/output") called="$place, with the figures $words"
            good test "$status|$output|$error" = "2||import: $stick: $fault"$'\n''import: 1 of 1 file not checked'
        done
    done
    for words in '0 336 335 -300000000 335 300000000 12|335 readings' '0 336 1 -300000000 335 300000000 12|1 reading'; do
        error=$(CANNED_PEAKS=${words%|*} "$import" check "$stick" 2>&1 >"$work/output")
        status=$? output=$(cat "$work/output") called="check, with the figures $words"
        good test "$status|$error|$output" = "0||$stick: complete, 336 steps
    Smallest measure -300,000.000 kW at step 335, the 336th row.
    Largest measure 300,000.000 kW at step 12, the 13th row; ${words#*|} missing.
$about"
    done
    rm "$stick"
}

# The other commands over the stand-in, which takes every stick for complete and runs it into a row of numbers.
canned_run_suite() {
    local command stick=$work/stick result=$work/result line edition load
    cp examples/season.stick "$stick"
    check 0 "$stick: complete, 336 steps" '' run "$stick" "$result"
    good test "$(wc -c <"$result")" = 40327
    call table "$stick" "$result"
    good test "$status|$error|$(wc -l <"$work/output")" = '0||1009'
    good test "$(fronts <"$work/output")" = "$(decoded "$result")"
    call summary "$stick" "$result"
    good test "$status|$error|$(sed -n '2,3p' "$work/output")" = '0||3 units, 336 steps of 3,600 s (1 h), 14 days
mode 255, target -0.001 kW, band 0.002 kW, factor 3 thousandths'
    good test "$(columns <"$work/output" | wc -l)" = 10
    check 0 "$stick: not settled within 1 pass, 1 changed a request
a study is in mode 1 (PeakShave) and by watts; the stick's mode is 255
$from_0
unit	request W	rating W
0	1	2
1	1	2
2	1	2
sum of requests 3 W, reading left 997 W: not within half the band (2 W) of the target (-1 W)
gap left 998 W: no further pass changes a request (every unit above reserve is at its rating)" '' settle "$stick" 1000 1
    # A study that its budget stopped leaves no reading below the target.
    for load in 0 1; do
        check 2 '' "import: $stick: $fault" settle "$stick" "$load" 1
        call settle "$stick" "$load" 2
        good like "$status|$error|${output##*$'\n'}" "0||sum of requests 3 W, reading left $((load - 3)) W: *"
    done
    for load in 2 3; do
        call settle "$stick" "$load" 1
        good test "$status|$error|${output##*$'\n'}" = \
            "0||gap left $((load - 2)) W, within half the band: no further pass changes a request"
    done
    call settle "$stick" 100000001 0
    good like "$status $output" '1 LOAD 100000001: refused 5*BUDGET 0: refused 5*'
    check 2 '' "import: $stick: $fault" settle "$stick" 77
    for place in 0 39 40000 40326; do
        cp "$result" "$work/bad"
        patch "$work/bad" "$place" EE
        call table "$stick" "$work/bad"
        good like "$status $output" "1 *, from byte $(commas $((place - place % 40))) on"$'\n*\ndiffers *'
        head -c "$place" "$result" >"$work/bad"
        call summary "$stick" "$work/bad"
        good like "$status $output" "1 *, from byte $(commas $((place - place % 40))) on"$'\n*'" missing*"
    done
    # The same with two inverters, which the highest byte of the seconds says.
    patch "$stick" 5 02
    check 0 "$stick: complete, 336 steps" '' run "$stick" "$result"
    good test "$(wc -c <"$result")" = $(((40 * 3 + 29 * 2) * 336 + 7))
    call table "$stick" "$result"
    good test "$status|$error|$(wc -l <"$work/output")" = '0||1681'
    good test "$(fronts <"$work/output")" = "$(decoded "$result")"
    line=$(summed_roof 3600 <"$work/output"
        echo
        var_ends <"$work/output")
    call summary "$stick" "$result"
    good like "$status|$error|$output" '0||*'$'\n''3 units, 2 inverters, 336 steps of 3,600 s (1 h), 14 days'$'\n*'
    good test "$(columns <"$work/output" | tail -n 11)" = "$line"
    for place in 0 119 120 148 149 177 178 59808 59814; do
        cp "$result" "$work/bad"
        patch "$work/bad" "$place" EE
        call summary "$stick" "$work/bad"
        good like "$status $output" "1 *: wrong: *"$'\n*\ndiffers *'
        head -c "$place" "$result" >"$work/bad"
        call table "$stick" "$work/bad"
        good like "$status $output" "1 *: wrong: *"$'\n*'" missing*"
    done
    # The same in edition 2, with the stand-in's limits and its largest vars.
    patch "$stick" 3 02
    call summary "$stick" "$result"
    good test "$(grep -A 3 '^unit .*S_VA' "$work/output")" = \
        'unit  S_VA  request_var  provide_var  absorb_var        out_var  in_var
   0     2           -3            1           0  2,139,062,143       0
   1     2           -3            1           0  2,139,062,143       0
   2     2           -3            1           0  2,139,062,143       0'
    # The same lines in edition 3, and in the fourth that the plan is of the older model.
    line=$(sed "3a $older_words" "$work/output")
    patch "$stick" 3 03
    check 0 "$line" '' summary "$stick" "$result"
    # A last unit that is refused, and its limits.
    for line in 5 8; do
        for edition in 01 02 03; do
            patch "$stick" 3 "$edition" 03 "0200000$line"
            call run "$stick" "$result"
            check 2 '' "import: $stick: $fault" summary "$stick" "$result"
            check 2 '' "import: $stick: $fault" summary "$stick"
        done
    done
    patch "$stick" 3 01
    # A room of another size, a run that is refused, powers that are none, one above that of its array, a draw that is
    # too large, a room and a number of bytes that are, a place that is none, and an end that is too long.
    for line in '1 run' '2 run' '3 table' '6 table' '7 table' '9 table' '6 summary' '7 summary' '9 summary' 'A run' \
        'B run' 'C run' 'D run'; do
        patch "$stick" 5 "0200000${line% *}"
        echo old >"$work/target"
        if [ "${line#* }" = run ]; then
            call run "$stick" "$work/target"
        else
            call run "$stick" "$result"
            call "${line#* }" "$stick" "$result"
        fi
        good test "$status|$output|$error|$(cat "$work/target")" = "2||import: $stick: $fault|old"
        good test "$(find "$work" -name '.import-unfinished-*')" = ''
    done
    cp examples/season.stick "$stick"
    # Answers that the library never gives.
    for line in '1 settle' '2 settle' '1 run' '2 run' '1 table' '2 table' '3 table' '0 summary' '3 summary' \
        '4 summary'; do
        patch "$stick" 5 "0000000${line% *}"
        echo old >"$work/target"
        call "${line#* }" "$stick" "$([ "${line#* }" = settle ] && echo 77 || echo "$work/target")"
        case $line in
        '3 table' | *' summary')
            call run "$stick" "$result"
            call "${line#* }" "$stick" "$result"
            ;;
        esac
        good test "$status|$output|$error|$(cat "$work/target")" = "2||import: $stick: $fault|old"
        cp examples/season.stick "$stick"
    done
    # What the stick says is refused, when its study is made.
    for line in 4 5; do
        patch "$stick" 5 "0000000$line"
        check 2 '' "import: $stick: $fault" settle "$stick" 1
    done
    # Fleets and steps that no complete file has.
    for command in 'run R' 'settle 1' 'table R' 'summary R'; do
        for answers in '0 4 7 0 0' '0 4 7 0 0 65' '0 4 7 0 0 256' '0 4 7 0 0 4294967295' '0 4 65536 0 0 1' \
            '0 4 4294967295 0 0 64' '0 4 7 0 0 1 65' '0 4 7 0 0 64 256' '0 4 7 0 0 1 4294967295'; do
            printf '%s' "$answers" >"$stick"
            # shellcheck disable=SC2086 # the command is words
            call ${command% *} "$stick" "${command#* }"
            good test "$status|$output|$error" = "2||import: $stick: $fault"
        done
        for place in '4 00' '4 41' '4 FF' '5 41' '5 FF'; do
            head -c 100 examples/season.stick >"$stick"
            patch "$stick" "${place% *}" "${place#* }"
            # shellcheck disable=SC2086 # the command is words
            call ${command% *} "$stick" "${command#* }"
            good test "$status|$output|$error" = "2||import: $stick: $fault"
        done
    done
}

# A stick of many chunks over the stand-in.
canned_feed_suite() {
    long_stick
    check 0 "$work/long: complete, 65535 steps" '' run "$work/long" "$work/long.result"
    good test "$(wc -c <"$work/long.result")" = $((40 * 65535 + 7))
    call table "$work/long" "$work/long.result"
    good test "$status|$error|$(wc -l <"$work/output")|$(tail -n 1 "$work/output" | cut -f 1-2)" = \
        "0||65536|$(printf '65534\t0')"
    call summary "$work/long" "$work/long.result"
    good test "$status|$error|$(columns <"$work/output" | wc -l)" = '0||6'
    call check - <"$work/long"
    good test "$status|$error|$output" = "0||-: complete, 65535 steps"$'\n'"$(measured "$work/long")"$'\n'"$about"
    # One byte is another, far behind.
    patch "$work/long.result" 2000000 EE
    call summary "$work/long" "$work/long.result"
    good like "$status $output" "1 *, from byte 2,000,000 on
    $(due Step 50000 unit 0) is due there. What differs: tag.*"
    # A field that no chunk holds, which the stand-in takes.
    { head -c 76 "$work/long" && bytes 09 FFFF && head -c 200000 /dev/zero; } >"$work/stick"
    check 2 '' "import: $work/stick: $fault"$'\n''import: 1 of 1 file not checked' check "$work/stick"
    # More before the first step than any stick has.
    { head -c 76 "$work/long" && repeated '02 0000' 30000; } >"$work/stick"
    check 2 '' "import: $work/stick: $fault"$'\n''import: 1 of 1 file not checked' check "$work/stick"
    rm "$work/long" "$work/long.result" "$work/stick"
}
