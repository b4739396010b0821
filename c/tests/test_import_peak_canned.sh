# shellcheck shell=bash
# shellcheck disable=SC2034,SC2154 # the variables are those of test_import.sh
# Sourced by test_import.sh: figures that the library does not give, over the stand-in.

# figures FIGURE..: the tool over a stand-in that answers with these, the refusal's number before them.
figures() {
    export CANNED_PEAKS=$*
}

canned_peak_suite() {
    local stick=$work/stick result=$work/result command which
    local right='0 336 9 -33000 251 205800 151 129 -32332 251 206468 151 130 135015299 6 869 237101 196'
    cp examples/season.stick "$stick"
    call run "$stick" "$result"
    # What is told is what the library says.
    figures "$right"
    call summary "$stick"
    good test "$status|$error|$(sed -n '5,18p' "$work/output")" = "0||\
The measure, as the meter logged it; 9 readings are missing
    smallest  -33.000 kW at step 251, the 252nd row
    largest   205.800 kW at step 151, the 152nd row
    129 steps are above the target by more than half the band: above 0.000 kW

The net measure
    smallest  -32.332 kW at step 251, the 252nd row
    largest   206.468 kW at step 151, the 152nd row
    130 steps are above 0.000 kW
$net_words

The fleet
    lowest store  37.504 kWh after step 6, the 7th row"
    good test "$(sed -n '19,20p' "$work/output")" = '    losses        241.455 kWh
    not_met       in 196 steps some unit gives or takes another power than it is asked for;'
    # More than 64 bits hold of joules.
    figures "${right% * * *} 9223372036854775807 999999 196"
    call summary --json "$stick"
    good like "$status|$error|$output" '0||*"loss_J": 9223372036854775807999999, "not_met_steps": 196, *'
    call summary "$stick"
    good like "$status|$output" '0|*'$'\n''    losses        2,562,047,788,015,215,502.222 kWh'$'\n*'
    good narrow
    call peak "$stick" 0 1 1
    good like "$status|$output" '0|* 2,562,047,788,015,215,502.222 *'
    good narrow
    # The smallest and the largest there can be.
    figures '0 336 0 -300000000 0 300000000 335 336 -7340000000 0 7340000000 335 336 640000000000000 335 0 0 336'
    call summary "$stick"
    good like "$status|$output" '0|*'$'\n''    largest    300,000.000 kW at step 335, the 336th row'$'\n*'
    good like "$status|$output" '0|*'$'\n''    smallest  -7,340,000.000 kW at step 0, the 1st row'$'\n*'
    good narrow
    # Figures that are not about the stick: steps, counts and places that it has not, and parts that are none.
    while read -r which; do
        # shellcheck disable=SC2086 # the figures are words
        set -- $right
        figures "${*:1:${which% *}} ${which#* } ${*:${which% *}+2}"
        for command in "summary $stick" "summary $stick $result" "peak $stick" "peak $stick 0 5 5" "check $stick"; do
            # shellcheck disable=SC2086 # the command is words
            call $command
            good like "$status|$output|$error" "2||import: $stick: $fault*"
        done
        call peak --json "$stick"
        good test "$status|$output" = "2|{\"file\": \"$stick\", \"status\": \"failed\", \"what\": \"$fault\"}"
    done <<'END'
0 5
0 10
0 12
1 335
1 337
1 -1
2 -1
2 337
4 336
4 -1
6 336
6 -1
3 205801
3 -300000001
5 -33001
5 300000001
5 9223372036854775807
3 -9223372036854775808
END
    # Those that check has no need of.
    while read -r which; do
        # shellcheck disable=SC2086 # the figures are words
        set -- $right
        figures "${*:1:${which% *}} ${which#* } ${*:${which% *}+2}"
        for command in "summary $stick" "peak $stick"; do
            # shellcheck disable=SC2086 # the command is words
            call $command
            good like "$status|$output|$error" "2||import: $stick: $fault*"
        done
    done <<'END'
7 -1
7 337
8 206469
8 -7340000001
8 -9223372036854775808
9 336
9 -1
10 -32333
10 7340000001
11 336
11 -1
12 -1
12 337
13 -1
13 640000000000001
14 336
14 -1
15 -1
16 -1
16 1000000
17 337
17 -1
END
    unset CANNED_PEAKS
    # A measure that is refused, of no step, of two, missing, above itself, or of another step.
    for which in '5 1 0 7 0 7' '0 0 0 7 0 7' '0 2 0 7 0 7' '0 1 1 7 0 7' '0 1 0 8 0 7' '0 1 0 7 1 7'; do
        export CANNED_MEASURE=$which
        call table "$stick" "$result"
        good test "$status|$error" = "2|import: $stick: $fault"
        good lines 1
    done
    export CANNED_MEASURE='0 1 0 -300000000 0 -300000000'
    call table "$stick" "$result"
    good test "$status|$error|$(sed -n 2p "$work/output" | cut -f 8-)" = $'0||-300000000\t3000\t-300003000'
    unset CANNED_MEASURE
    rm "$stick" "$result"
}
