# shellcheck shell=bash
# shellcheck disable=SC2034,SC2154 # the variables are those of test_import.sh
# Sourced by test_import.sh: sticks of sites that buy by current.

# joined VOLTS PHASES..: connections of units that have so many phases, at so many volts each.
joined() {
    local volts=$1
    shift
    printf '0A %04X' $((3 * $#))
    printf " %02X $(printf %04X "$volts")" "$@"
}

# 1.5 A, no current, 0.0625 A; a current below 0; 1 kW.
amperes='09 0018 3FF8000000000000 0000000000000000 3FB0000000000000'
below_zero='09 0018 3FF8000000000000 BFF0000000000000 3FB0000000000000'
kilowatt='04 0018 3FF0000000000000 0000000000000000 0000000000000000'
two_d="$(unit_d 500000) $efficiencies_d $(unit_d 500000) $efficiencies_d"

# current_sticks: two units with one phase and three, in modes 4 and 5; in mode 1 with connections; one of no steps.
current_sticks() {
    bytes "$fleet_2" "$two_d" "$(settings 4 0 1000)" "$(joined 230 1 3)" "$amperes" "$missing" "$(end 2)" \
        >"$work/current4"
    bytes "$fleet_2" "$two_d" "$(settings 5 3000 1000)" "$(joined 230 1 3)" "$amperes" "$(end 1)" >"$work/current5"
    bytes "$fleet_2" "$two_d" "$(settings 1 0 0)" "$(joined 230 1 3)" "$kilowatt" "$(end 1)" >"$work/joined1"
    bytes "$fleet_2" "$two_d" "$(settings 1 0 0)" "$kilowatt" "$(end 1)" >"$work/alone1"
    bytes "$fleet_2" "$two_d" "$(settings 4 -1 0 | sed 's/FFFFFFFF\(FFFFFFFF\)/\1/')" "$(joined 40000 3 3)" "$(end 0)" \
        >"$work/current0"
}

# What a summary says of the sample by current.
dairy_words="3 units, 1 inverter, 120 steps of 3,600 s (1 h), 5 days
mode 4 (I-PeakShave), target 63.000 A, band 2.000 A, factor 800 thousandths

The measure, as the meter logged it; 2 readings are missing
    smallest  29.600 A at step 0, the 1st row
    largest   86.300 A at step 16, the 17th row
    10 steps are above the target by more than half the band: above 64.000 A

The stick goes by current, so that there is no measure less the fleet's power: this is in watts,
and what it takes off the meter's amperes no stick says.

The fleet
    lowest store  257.858 kWh after step 115, the 116th row
    losses        135.387 kWh
    not_met       in 22 steps$not_met_words
$below
 unit  request_kW  out_kW  in_kW  out_kWh  in_kWh  loss_kWh  low_kWh  at_step  not_met
    0       9.893   9.893  0.125  286.901  10.625    42.749   70.975      115        0
    1       0.824   0.824  0.017    9.209   1.802     3.592    1.001       43       22
    2      20.000  20.000  0.261  597.257  22.185    89.046  185.882      115        0
fleet      30.717  30.717  0.403  893.367  34.612   135.387  257.858      115       22

inverter  out_kW  at_step    out_kWh    on_h  unused_kWh
       0  49.457       13  1,658.500  70.000      96.608
    roof  49.457       13  1,658.500  70.000      96.608

      unit  high_var  at_step  low_var  at_step
         0     3,000        0    3,000        0
         1         0        0        0        0
         2    -6,000        0   -6,000        0
inverter 0         0        0        0        0"

current_suite() {
    local name stick=examples/dairy.stick
    current_sticks
    while read -r name steps; do
        complete "$work/$name" "$steps"
        check 0 "$work/$name: complete, $steps steps" '' run "$work/$name" "$work/$name.result"
        call table "$work/$name" "$work/$name.result"
        good test "$status|$(fronts <"$work/output")|$error" = "0|$(decoded "$work/$name.result")|"
    done <<<$'current4 2\ncurrent5 1\njoined1 1\nalone1 1\ncurrent0 0'

    # 1,562 mA are 359 W and 1,077 W; 1,438 mA less than the target are -330 W and -992 W.
    good test "$("$import" table "$work/current4" "$work/current4.result" | cut -f 1-3 | tail -n +2 | tr '\t\n' ' ;')" = \
        '0 0 179;0 1 538;1 0 179;1 1 538;'
    good test "$("$import" table "$work/current5" "$work/current5.result" | cut -f 1-3 | tail -n +2 | tr '\t\n' ' ;')" = \
        '0 0 -165;0 1 -496;'
    # By watts connections change nothing.
    good cmp "$work/joined1.result" "$work/alone1.result"

    # Amperes where they are meant, and only there.
    call summary "$work/current4" "$work/current4.result"
    good test "$status|$error|$(sed -n 3p <<<"$output")" = \
        '0||mode 4 (I-PeakShave), target 0.000 A, band 1.000 A, factor 1,000 thousandths'
    call summary "$work/current5" "$work/current5.result"
    good test "$status|$error|$(sed -n 3p <<<"$output")" = \
        '0||mode 5 (I-PeakShaveLow), target 3.000 A, band 1.000 A, factor 1,000 thousandths'
    call summary "$work/current0" "$work/current0.result"
    good test "$status|$error|$(sed -n 3p <<<"$output")" = \
        '0||mode 4 (I-PeakShave), target -0.001 A, band 0.000 A, factor 1,000 thousandths'
    call summary "$work/joined1" "$work/joined1.result"
    good like "$status|$error|$output" '0||*'$'\n''mode 1 (PeakShave), target 0.000 kW, band 0.000 kW, factor 1,000 *'
    complete "$stick" 120
    check 0 "$stick: complete, 120 steps" '' run "$stick" "$work/dairy.result"
    call summary "$stick" "$work/dairy.result"
    good test "$status|$error|$(sed -n '2,$p' "$work/output")" = "0||$dairy_words"

    # A study is by watts, and says so.
    local words="a study is in mode 1 (PeakShave) and by watts; the stick's mode is" mA=', and its target and band, '
    mA+='which are in mA, are taken as W'
    call settle "$work/current4" 1000
    good like "$status|$error|$output" \
        "0||*: settled *"$'\n'"$words 4 (I-PeakShave)$mA"$'\n'"$from_0"$'\nunit\trequest W\trating W\n*'
    call settle "$work/current5" 5000 1
    good like "$status|$error|$output" \
        "0||*: not settled *"$'\n'"$words 5 (I-PeakShaveLow)$mA"$'\n'"$from_0"$'\nunit\t*'
    call settle "$work/joined1" 1000
    good like "$status|$error|$output" "0||*: settled *"$'\n'"$from_0"$'\nunit\trequest W\trating W\n*'
}

# turned_down NUMBER WORDS PLACE STEPS ADVICE HEX..: a stick of these bytes is refused, with this advice.
turned_down() {
    local number=$1 words=$2 place=$3 steps=$4 advice=$5
    shift 5
    bytes "$@" >"$work/current"
    refused "$work/current" "$number" "$words" "$place" "$steps"
    advised "$advice"
}

current_words_suite() {
    local four two="$fleet_2 $two_d" one order='field out of order' range='value out of range' place phase
    four="$two $(settings 4 0 0)" one="$two $(settings 1 0 0)"
    local copy='Copy the stick again; if it stays so,' connected
    local anew="a stick says the phases and volts of every unit. $copy do not repair the file; ask the manager to \
write the stick anew, with the connections."
    connected=$(joined 230 1 3)
    turned_down 4 "$order" 128 0 "Here the file has a reading, where the connections should be: in mode 4 \
(I-PeakShave) $anew" "$four" "$amperes"
    turned_down 4 "$order" 128 0 "Here the file has the end, where the connections should be: in mode 4 *" \
        "$four" "$(end 0)"
    turned_down 4 "$order" 137 0 'Here the file has the connections, where an inverter, the function, a step or the *' \
        "$four" "$connected" "$connected"
    turned_down 4 "$order" 164 1 'Here the file has the connections, where a step or the end should be: connections, *' \
        "$four" "$connected" "$amperes" "$connected"
    turned_down 4 "$order" 9 0 'Here the file has the connections, where unit 0, the 1st unit, should be: *' \
        "$fleet_2" "$connected"
    turned_down 4 "$order" 128 0 'Here the file has the settings, where the connections, an inverter, the function, *' \
        "$one" "$(settings 1 0 0)"
    turned_down 3 'wrong length' 128 0 "Here the file has the connections, with the tag hex 0A (10) and the length hex \
0003 (3); the length should be hex 0006 (6) for 2 units: bytes were changed or lost here. $copy ask *" \
        "$four" "$(joined 230 1)"
    turned_down 3 'wrong length' 76 0 'Here the file has the connections, *; the length should be hex 0003 (3) for 1 '\
'unit: *' \
        "$fleet_1 $(unit_d 1) $efficiencies_d $(settings 4 0 0)" "$(joined 230 1 3)"
    turned_down 3 'wrong length' 0 0 'This is no stick, or its beginning was changed: *this file with 0A 00 03. *' \
        "$(joined 230 1)"
    turned_down 5 "$range" 137 0 "In mode 4 (I-PeakShave), which goes by current, a reading has currents or is \
missing; the reading of step 0, the 1st row, has powers. $copy ask the manager for that row in amperes, or whether the mode of \
the settings is right, and to write the stick anew." "$four" "$connected" "$kilowatt"
    turned_down 5 "$range" 155 1 "In mode 1 (PeakShave), which goes by watts, a reading has powers or is missing; the \
reading of step 1, the 2nd row, has currents. $copy ask the manager for that row in kW, or whether the mode of the *" \
        "$one" "$kilowatt" "$amperes"
    turned_down 6 'reading not usable' 137 0 "The current of phase 2 in step 0, the 1st row, is -1.000 A, below 0; it \
may be 0 to 100,000 A. $copy ask the manager for that row, and have it entered again or marked as missing." \
        "$four" "$connected" "$below_zero"
    # A reading of the other kind is that, whatever its doubles are.
    turned_down 5 "$range" 137 0 'In mode 4 (I-PeakShave), *has powers. *' "$four" "$connected" "${kilowatt/3FF0/7FF8}"
    # The sample sticks.
    refused examples/refused-04-connections-missing.stick 4 "$order" 180 0
    advised 'Here the file has inverter 0, the 1st inverter, where the connections should be: in mode 4 (I-PeakShave) *'
    refused examples/refused-05-reading-does-not-fit.stick 5 "$range" 3208 61
    advised 'In mode 4 (I-PeakShave), which *; the reading of step 61, the 62nd row, has powers. *'
    refused examples/refused-06-current-below-zero.stick 6 'reading not usable' 4402 88
    advised 'The current of phase 2 in step 88, the 89th row, is -63.200 A, below 0; it may be 0 to 100,000 A. *'
}

current_rescue_suite() {
    call rescue examples/refused-06-current-below-zero.stick "$work/saved"
    good like "$status|$error|$output" "0||*
$(unusable 89th 4,402)
$work/saved: 120 steps kept, 1 reading made missing; *"
    complete "$work/saved" 120
    call rescue examples/refused-05-reading-does-not-fit.stick "$work/saved"
    good like "$status|$error|$output" '0||*'$'\n''the reading at byte 3,208 is of another kind than the mode goes by: 61 '\
'steps before it are kept, with a new end, and 2,673 bytes were left out from byte 3,189 on, where a weather waited*'
    complete "$work/saved" 61
    call rescue examples/refused-04-connections-missing.stick "$work/unsaved"
    good like "$status|$error|$output" \
        '1|*cannot be rescued: what comes before its steps must be good; nothing is written|*the connections should be*'
    good test ! -e "$work/unsaved"
    call rescue examples/dairy.stick "$work/saved"
    good cmp examples/dairy.stick "$work/saved"
}
