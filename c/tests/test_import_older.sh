# shellcheck shell=bash
# shellcheck disable=SC2034,SC2154 # the variables are those of test_import.sh
# Sourced by test_import.sh: sticks of edition 3, whose plans were made with the older storage model.

# What the fourth line of a summary says of such a stick.
older_words='older storage model (edition 3): idle loss at the grid'

# The fields of such sticks: fleets of one unit and of two; and the unit with everything as large as it can be, the idle
# loss too, no other losses, and nothing stored.
fleet_e3='01 0006 03 01 0000003C'
fleet_e3_2='01 0006 03 02 0000003C'
largest_unit='02 0039 000009184E72A000 0000000000000000 0000000000000000 05F5E100 05F5E100 00989680 00000000 0001 2710
2710 2710 00 05F5E100 05F5E100'

# older_sticks: figure D5's 900 W, then 3 W, which is less than the idle loss, and then nothing left to give; its 1,000
# W, then 2 W, and then no room left; two units, of which the second, that of figure D4, has an idle loss of 2,000 W,
# above its S; the largest draw that there can be, and one next to it; one of no steps; and one with an inverter.
older_sticks() {
    local no_kw='0000000000000000 0000000000000000'
    bytes "$fleet_e3" "$(wide_d 175374)" "$(settings 1 0 0)" 04 0018 3FECCCCCCCCCCCCD "$no_kw" "$missing" "$missing" \
        "$(end 3)" >"$work/older_giving"
    bytes "$fleet_e3" "$(wide_d 956752)" "$(settings 3 0 0)" 04 0018 BFF0000000000000 "$no_kw" "$missing" "$missing" \
        "$(end 3)" >"$work/older_taking"
    bytes "$fleet_e3_2" "$(wide_d 600000)" "$(unit_v 0 700 600 300)" "$(settings 1 0 0)" "$two_steps" \
        >"$work/older_two"
    patch "$work/older_two" 104 000007D0
    bytes "$fleet_e3" "$largest_unit" "$(settings 3 0 0)" 04 0018 C0F86A0000000000 "$no_kw" "$missing" "$(end 2)" \
        >"$work/older_largest"
    cp "$work/older_largest" "$work/older_next"
    patch "$work/older_next" 44 0098967F
    bytes "$fleet_e3" "$(wide_d 500000)" "$(settings 1 0 0)" "$(end 0)" >"$work/older0"
    bytes "$fleet_e3" "$(wide_d 500000)" "$(settings 1 0 0)" "$(inverter 10000 100 5000)" "$(level 10000)" \
        "$(level 9500)" "$clear" "$missing" "$missing" "$(end 2)" >"$work/older_roof"
}

# another_edition NAME FROM EDITION: a stick in another edition, and its result.
another_edition() {
    cp "$work/$2" "$work/$1"
    patch "$work/$1" 3 "$3"
    call run "$work/$1" "$work/$1.result"
}

older_suite() {
    local name steps narrow='unit S_VA request_var provide_var absorb_var out_var in_var'
    local ends='unit high_var at_step low_var at_step'
    older_sticks
    while read -r name steps; do
        complete "$work/$name" "$steps"
        check 0 "$work/$name: complete, $steps steps" '' run "$work/$name" "$work/$name.result"
        call table "$work/$name" "$work/$name.result"
        good test "$status|$(fronts <"$work/output")|$error" = "0|$(decoded "$work/$name.result")|"
    done <<<$'older_giving 3\nolder_taking 3\nolder_two 2\nolder_largest 2\nolder_next 2\nolder0 0\nolder_roof 2'

    # Tables: the power is that at the grid, and negative where a unit gives less than its idle loss.
    check 0 "$heading$beside
0	0	900	0.890	0	100374	21600	900	890	10
1	0	900	-0.007	0	100074	720	missing	-7	-
2	0	900	-0.010	0	100074	600	missing	-10	-" '' table "$work/older_giving" "$work/older_giving.result"
    check 0 "$heading$beside
0	0	-1000	-1.010	0	999952	17400	-1000	-1010	10
1	0	-1000	-0.012	0	1000000	672	missing	-12	-
2	0	-1000	-0.010	0	1000000	600	missing	-10	-" '' table "$work/older_taking" "$work/older_taking.result"
    check 0 "$heading$beside
0	0	500	0.490	0	558300	12300	1000	-1010	2010
0	1	500	-1.500	600	3570000	120000	1000	-1010	2010
1	0	500	0.490	0	516600	12300	missing	-1010	-
1	1	500	-1.500	600	3540000	120000	missing	-1010	-" '' table "$work/older_two" "$work/older_two.result"
    # A draw may be more than a reading may be.
    check 0 "$heading$beside
0	0	-100000000	-110000.000	0	6000000000	600000000	-100000000	-110000000	10000000
1	0	-100000000	-110000.000	0	12000000000	600000000	missing	-110000000	-" '' \
        table "$work/older_largest" "$work/older_largest.result"
    check 0 "$heading$beside
0	0	-100000000	-109999.999	0	6000000000	599999940	-100000000	-109999999	9999999
1	0	-100000000	-109999.999	0	12000000000	599999940	missing	-109999999	-" '' \
        table "$work/older_next" "$work/older_next.result"

    # Summaries: a request is met where the inverter meets it, and the fourth line says that the model is the older one.
    check 0 "$work/older_giving: complete, 3 steps
1 unit, 3 steps of 60 s (1 min), 3 min
mode 1 (PeakShave), target 0.000 kW, band 0.000 kW, factor 1,000 thousandths
$older_words

The measure, as the meter logged it; 2 readings are missing
    smallest  0.900 kW at step 0, the 1st row
    largest   0.900 kW at step 0, the 1st row
    1 step is above the target by more than half the band: above 0.000 kW

The net measure
    smallest  0.010 kW at step 0, the 1st row
    largest   0.010 kW at step 0, the 1st row
    1 step is above 0.000 kW
$net_words

The fleet
    lowest store  0.028 kWh after step 1, the 2nd row
    losses        0.006 kWh
    not_met       in 2 steps$not_met_words
$below
 unit  request_kW  out_kW  in_kW  out_kWh  in_kWh  loss_kWh  low_kWh  at_step  not_met
    0       0.900   0.890  0.010    0.015   0.000     0.006    0.028        1        2
fleet       0.900   0.890  0.010    0.015   0.000     0.006    0.028        1        2

$var_heading
   0  5,000            0        5,000       5,000        0       0

$no_vars" '' \
        summary "$work/older_giving" "$work/older_giving.result"
    summed_up older_taking "0 -1.000 0.000 1.010 0.000 0.017 0.005 0.278 0 2
fleet -1.000 0.000 1.010 0.000 0.017 0.005 0.278 0 2

$narrow
0 5,000 0 5,000 5,000 0 0

$ends
0 0 0 0 0"
    summed_up older_two "0 0.500 0.490 0.000 0.016 0.000 0.007 0.144 1 0
1 0.500 0.000 1.500 0.000 0.050 0.067 0.983 1 0
fleet 1.000 0.000 1.010 0.016 0.050 0.074 1.127 1 0

$narrow
0 5,000 0 5,000 5,000 0 0
1 1,000 700 600 300 600 0

$ends
0 0 0 0 0
1 600 0 600 0"
    local sums='-100,000.000 0.000 110,000.000 0.000 3,666.667 333.333 1,666.667 0 0'
    summed_up older_largest "0 $sums
fleet $sums

$narrow
0 100,000,000 0 100,000,000 100,000,000 0 0

$ends
0 0 0 0 0"
    call summary "$work/older0" "$work/older0.result"
    good like "$status $output" "0 *factor 1,000 thousandths"$'\n'"$older_words"$'\n*'
    call summary "$work/older_roof" "$work/older_roof.result"
    good like "$status $output" \
        "0 *"$'\n''1 unit, 1 inverter, *thousandths'$'\n'"$older_words"$'\n*\n    roof   5.000 *'

    # Without an idle loss the model does not matter; with one, neither result is the other's.
    for name in provide absorb two limited_roof; do
        another_edition same "$name" 03
        good cmp "$work/same.result" "$work/$name.result"
    done
    another_edition older giving2 03
    not_shown "$work/older" "$work/giving2.result" 0 "$(due Step 0 unit 0) is due there. What differs: delivered kW*"
    not_shown "$work/giving2" "$work/older.result" 0 "$(due Step 0 unit 0) is due there. What differs: delivered kW*"
    # The study is about requests alone, whose passes no idle loss changes.
    cp "$work/older_two" "$work/newer"
    patch "$work/newer" 3 02
    patch "$work/newer" 104 00000000
    check 0 "$("$import" settle "$work/newer" 3000 | sed "s|^$work/newer:|$work/older_two:|")" '' \
        settle "$work/older_two" 3000
}

# What the person is told of a refused stick of edition 3.
older_words_suite() {
    local stick=$work/pieces place value words
    local anew='fleet and units are not of one edition. Copy the stick again; *in one edition.'
    local copy='Copy the stick again; if it stays so, ask the manager to correct it and to write the stick anew. '
    # Units of another edition.
    cp "$work/older_giving" "$stick"
    patch "$stick" 3 01
    length_advised "$stick" 9 "Here the file has unit 0, the 1st unit, with the tag hex 02 (2) and the length hex 0039 \
(57); the length should be hex 0031 (49) in edition 1, which the fleet names: $anew"
    bytes "$fleet_e3_2" "$(wide_d 1)" "$(unit_d 1)" "$efficiencies_d" "$(settings 1 0 0)" "$(end 0)" >"$stick"
    length_advised "$stick" 69 "Here the file has unit 1, the 2nd unit, with the tag hex 02 (2) and the length hex \
0031 (49); the length should be hex 0039 (57) in edition 3, which the fleet names: $anew"
    not_run "$stick"
    # Limits beyond S, and an idle loss beyond its range; an idle loss above S is for edition 3 alone.
    while IFS='|' read -r place value words; do
        cp "$work/older_two" "$stick"
        patch "$stick" "$place" "$value"
        refused "$stick" 5 'value out of range' 69 0
        advised "The $words. $copy"
    done <<'END'
121|000003E9|provide limit of unit 1, the 2nd unit, is 1,001 var; it may be 0 to its kVA rating S, which is 1,000 VA
125|000003E9|absorb limit of unit 1, the 2nd unit, is 1,001 var; it may be 0 to its kVA rating S, which is 1,000 VA
104|00989681|idle loss of unit 1, the 2nd unit, is 10,000,001 W; it may be 0 to 10,000,000 W
END
    not_run "$stick"
    patch "$stick" 104 00989680
    complete "$stick" 2
    patch "$stick" 3 02
    refused "$stick" 5 'value out of range' 69 0
    advised "The idle draw of unit 1, the 2nd unit, is 10,000,000 W, which an idle loss of 10,000,000 W makes at an \
inverter efficiency of 10,000 parts in 10,000; it may be 0 to its kVA rating S, which is 1,000 VA. $copy"
}
