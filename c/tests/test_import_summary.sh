# shellcheck shell=bash
# shellcheck disable=SC2034,SC2154 # the variables are those of test_import.sh
# Sourced by test_import.sh: summary of sticks alone and of many; what its figures say in words; how wide it is.

# words_of LINES..: these lines are among those of a summary, one behind the other.
words_of() {
    local lines
    lines=$(printf '%s\n' "$@")
    [ "${output/"$lines"/}" != "$output" ]
}

# Of two words the second is a result, unless it begins like a stick; all other words are sticks.
two_words_suite() {
    local season=examples/season.stick one two name lines
    one=$("$import" summary "$season") two=$("$import" summary "$work/giving")
    check 0 "$one"$'\n\n'"$two" '' summary "$season" "$work/giving"
    check 0 "$two"$'\n\n'"$two"$'\n\n'"$one" '' summary "$work/giving" "$work/giving" "$season"
    check 0 "$one" '' summary "$season" "$work/season.result"
    # A second stick that is damaged, but not in its first bytes.
    head -c 100 "$season" >"$work/cut"
    call summary "$season" "$work/cut"
    lines=$one$'\n\n'"$work/cut: refused 1 (field cut short) at byte 61 after 0 steps"$'\n*'
    good test "$status|$error" = "1|import: $work/cut: refused; nothing is shown
import: 1 of 2 files refused"
    good like "$output" "$lines"
    # One that is damaged there, or empty, or anything else, is a result that is wrong, and so is a pipe.
    for name in 00 0100; do
        cp "$season" "$work/cut"
        patch "$work/cut" 0 "$name"
        [ "$name" != 0100 ] || patch "$work/cut" 2 07
        call summary "$season" "$work/cut"
        good test "$status|$error" = "1|import: $work/cut: not shown; it is not what the run gives"
        good like "$output" "$work/cut: wrong: *"
    done
    : >"$work/cut"
    call summary "$season" "$work/cut"
    good like "$status|$output" "1|$work/cut: wrong: not the result of $season, from byte 0 on"$'\n*It is empty*'
    check 0 "$one" '' summary "$season" - <"$work/season.result"
    call summary "$season" - <"$work/giving"
    good like "$status|$output" "1|-: wrong: not the result of $season, from byte 0 on"$'\n*'
    # Of three there is no result.
    call summary "$season" "$work/season.result" "$season"
    lines=$one$'\n\n'"$work/season.result: refused 2 *"$'\n\n'$one
    good test "$status|$error" = "1|import: $work/season.result: refused; nothing is shown
import: 1 of 3 files refused"
    good like "$output" "$lines"
    check 2 "$one"$'\n\n'"$one" 'import: none: cannot be read: No such file or directory
import: 1 of 3 files not shown' summary "$season" none "$season"
    check 2 '' 'import: none: cannot be read: No such file or directory' summary none
    check 2 '' 'import: none: cannot be read: No such file or directory
import: nothing: cannot be read: No such file or directory
import: examples: cannot be read: it is a folder
import: 3 of 3 files not shown' summary none nothing examples
    rm "$work/cut"
}

# Every stick there is, in one call: one that is bad stops no other.
many_suite() {
    local name good=0 bad=0
    call summary examples/*.stick
    for name in examples/*.stick; do
        if [[ $name == *refused* ]]; then bad=$((bad + 1)); else good=$((good + 1)); fi
    done
    good test "$status|${error##*$'\n'}" = "1|import: $bad of $((bad + good)) files refused"
    good test "$(grep -c '^examples/.*: complete, ' "$work/output")" = "$good"
    good test "$(grep -c '^examples/.*: refused ' "$work/output")" = "$bad"
    # Each as it is by itself, with an empty line before the next one.
    for name in examples/*.stick; do
        [ "$name" = examples/dairy.stick ] || echo
        "$import" summary "$name" 2>/dev/null
    done >"$work/each"
    good cmp "$work/output" "$work/each"
    call peak examples/*.stick none
    good test "$status|$(tail -n 2 <<<"$error")" = "2|import: $bad of $((bad + good + 1)) files refused
import: 1 of $((bad + good + 1)) files not shown"
    # The progress is for a terminal alone.
    name=$(printf "$work/giving %.0s" {1..12})
    error=$(script -qec "$import summary $name >'$work/output'" /dev/null </dev/null 2>&1)
    status=$? output='' called='summary of 12 files, at a terminal'
    good test "$status|$(grep -c ': complete, 3 steps$' "$work/output")" = '0|12'
    good like "$error" $'\r1 of 12 files*12 of 12 files* \r'
    error=$("$import" summary examples/mill.stick examples/roof.stick 2>&1 >/dev/full)
    status=$? called='summary of two >/dev/full'
    good test "$status|$error" = '2|import: the lines cannot be written'
    rm "$work/each"
}

# The figures in words: directions, half watts, one and none.
figure_words_suite() {
    peak_sticks
    call summary "$work/peaky"
    good words_of "$work/peaky: complete, 4 steps" '1 unit, 4 steps of 60 s (1 min), 4 min' \
        'mode 1 (PeakShave), target 1.000 kW, band 0.000 kW, factor 1,000 thousandths' '' \
        'The measure, as the meter logged it; 1 reading is missing' '    smallest  0.500 kW at step 3, the 4th row' \
        '    largest   2.000 kW at step 1, the 2nd row' \
        '    2 steps are above the target by more than half the band: above 1.000 kW' '' 'The net measure' \
        '    smallest  0.000 kW at step 3, the 4th row' '    largest   1.000 kW at step 0, the 1st row' \
        '    no step is above 1.000 kW' "$net_words"
    call summary "$work/low"
    good words_of '    smallest  -2.000 kW at step 1, the 2nd row' '    largest   -0.500 kW at step 3, the 4th row' \
        '    2 steps are below the target by more than half the band: below -1.000 kW' '' 'The net measure' \
        '    smallest  -1.000 kW at step 0, the 1st row' '    largest    0.000 kW at step 3, the 4th row' \
        '    no step is below -1.000 kW'
    # Measure and target together: above minus the target.
    call summary "$work/support"
    good words_of '    smallest  -1.500 kW at step 3, the 4th row' '    largest    0.000 kW at step 1, the 2nd row' \
        '    2 steps are above 0 together with the target by more than half the band: above -1.000 kW' '' \
        'The net measure' '    smallest  -2.000 kW at step 3, the 4th row' \
        '    largest   -1.000 kW at step 0, the 1st row' '    no step is above -1.000 kW'
    # Half of an odd band is half a watt more; on either side of 0.
    for words in '1 00000000 00000001 above 0.0005 kW' '1 FFFFFFFF 00000001 above -0.0005 kW' \
        '1 FFFFFFFE 00000001 above -0.0015 kW' '1 00000001 00000003 above 0.0025 kW' \
        '3 00000000 00000001 below -0.0005 kW' '3 00000001 00000001 below 0.0005 kW' \
        '2 00000001 00000001 above -0.0005 kW' '1 FA0A1F00 0BEBC200 above 0.000 kW' \
        '1 05F5E100 0BEBC200 above 200,000.000 kW' '3 FA0A1F00 0BEBC200 below -200,000.000 kW' \
        '2 05F5E100 00000000 above -100,000.000 kW' '2 FA0A1F00 0BEBC200 above 200,000.000 kW'; do
        # shellcheck disable=SC2086 # mode, target, band and words
        set -- $words
        cp "$work/peaky" "$work/half"
        patch "$work/half" 64 "0$1 $2 $3"
        call summary "$work/half"
        good test "$status|$error|$(grep -c "by more than half the band: $4 $5 kW\$" "$work/output")" = '0||1'
        good narrow
    done
    # How long it is, in the words that it fills.
    for words in '1 4 steps of 1 s, 4 s' '59 4 steps of 59 s, 3 min 56 s' '61 4 steps of 61 s (1 min 1 s), 4 min 4 s' \
        '3600 4 steps of 3,600 s (1 h), 4 h' '86399 4 steps of 86,399 s (23 h 59 min 59 s), 3 days 23 h 59 min 56 s' \
        '86400 4 steps of 86,400 s (1 day), 4 days' '21600 4 steps of 21,600 s (6 h), 1 day'; do
        cp "$work/peaky" "$work/half"
        patch "$work/half" 5 "$(printf %08X "${words%% *}")"
        call summary "$work/half"
        good test "$status|$error|$(sed -n 2p "$work/output")" = "0||1 unit, ${words#* }"
    done
    rm "$work/half"
}

# As wide as it can be, in every mode and edition: 64 units and 64 inverters of the largest values.
width_suite() {
    local mode edition
    [ "$has_python" = yes ] || return
    for mode in 1 2 3 4 5; do
        for edition in 1 2 3; do
            python3 c/tests/test_import_figures.py widest "$work/widest" "$mode" "$edition"
            call summary "$work/widest"
            good test "$status|$error" = '0|'
            good narrow
            good test "$(columns <"$work/output" | grep -c '^fleet ')" = 2
            call peak "$work/widest"
            good test "$status|$error" = '0|'
            good narrow
        done
    done
    rm "$work/widest"
}
