# shellcheck shell=bash
# shellcheck disable=SC2034,SC2154 # the variables are those of test_import.sh
# Sourced by test_import.sh: sticks of edition 2, whose units have var limits.

# The fields of such sticks: fleets of one unit and of two; and the unit of figure D4, without losses, R and S 1,000,
# with a priority, a var request and its limits.
fleet_e2='01 0006 02 01 0000003C'
fleet_e2_2='01 0006 02 02 0000003C'
d4_head='000000000036EE80 0000000000000000 000000000036EE80 000003E8 000003E8 00000000'
unit_v() {
    printf '02 0039 %s %08X 0001 2710 2710 2710 %02X %08X %08X' "$d4_head" $(($2 & 0xFFFFFFFF)) "$1" "$3" "$4"
}
one_kw='04 0018 3FF0000000000000 0000000000000000 0000000000000000'
two_steps="$one_kw $missing $(end 2)"
# The unit of the figures D1 to D3 with a store, and with limits of S.
wide_d() { printf '%s %s 00001388 00001388' "$(unit_d "$1" | sed 's/0031/0039/')" "$efficiencies_d"; }

# limited_sticks: figure D4 with vars first, either way; two units, one with watts first and one that may provide
# nothing; one of no steps; one with an inverter; and one that has figures D1 and D2 in edition 1, with limits of S.
limited_sticks() {
    bytes "$fleet_e2" "$(unit_v 1 700 600 300)" "$(settings 1 0 0)" "$two_steps" >"$work/provide"
    bytes "$fleet_e2" "$(unit_v 1 -700 600 300)" "$(settings 1 0 0)" "$two_steps" >"$work/absorb"
    bytes "$fleet_e2_2" "$(unit_v 0 -700 600 300)" "$(unit_v 1 700 0 1000)" "$(settings 1 0 0)" "$two_steps" \
        >"$work/two"
    bytes "$fleet_e2" "$(unit_v 0 0 1000 0)" "$(settings 1 0 0)" "$(end 0)" >"$work/limited0"
    bytes "$fleet_e2" "$(unit_v 1 700 600 300)" "$(settings 1 0 0)" "$(inverter 10000 100 5000)" "$(level 10000)" \
        "$(level 9500)" "$clear" "$two_steps" >"$work/limited_roof"
    bytes "$fleet_e2" "$(wide_d 251499)" >"$work/giving2"
    tail -c +62 "$work/giving" >>"$work/giving2"
}

var_heading='unit   S_VA  request_var  provide_var  absorb_var  out_var  in_var'

# summed_up STICK LINES: the columns of a stick's summary, without their first heading and with one blank between them.
summed_up() {
    call summary "$work/$1" "$work/$1.result"
    good test "$status|$error|$(columns <"$work/output")" = "0||$fleet_columns"$'\n'"$2"
}

limits_suite() {
    local name steps
    limited_sticks
    while read -r name steps; do
        complete "$work/$name" "$steps"
        check 0 "$work/$name: complete, $steps steps" '' run "$work/$name" "$work/$name.result"
    done <<<$'provide 2\nabsorb 2\ntwo 2\nlimited0 0\nlimited_roof 2\ngiving2 3'

    # Tables as ever; every number is that of the rules.
    check 0 "$heading$beside
0	0	1000	0.800	600	3552000	0	1000	800	200
1	0	1000	0.800	600	3504000	0	missing	800	-" '' table "$work/provide" "$work/provide.result"
    check 0 "$heading$beside
0	0	1000	0.953	-300	3542820	0	1000	953	47
1	0	1000	0.953	-300	3485640	0	missing	953	-" '' table "$work/absorb" "$work/absorb.result"
    check 0 "$heading$beside
0	0	500	0.500	-300	3570000	0	1000	1000	0
0	1	500	0.500	0	3570000	0	1000	1000	0
1	0	500	0.500	-300	3540000	0	missing	1000	-
1	1	500	0.500	0	3540000	0	missing	1000	-" '' table "$work/two" "$work/two.result"
    check 0 "$heading$beside" '' table "$work/limited0" "$work/limited0.result"

    # Summaries: below the fleet's line what each unit may provide and absorb, and what it did.
    check 0 "$work/provide: complete, 2 steps
1 unit, 2 steps of 60 s (1 min), 2 min
mode 1 (PeakShave), target 0.000 kW, band 0.000 kW, factor 1,000 thousandths

The measure, as the meter logged it; 1 reading is missing
    smallest  1.000 kW at step 0, the 1st row
    largest   1.000 kW at step 0, the 1st row
    1 step is above the target by more than half the band: above 0.000 kW

The net measure
    smallest  0.200 kW at step 0, the 1st row
    largest   0.200 kW at step 0, the 1st row
    1 step is above 0.000 kW
$net_words

The fleet
    lowest store  0.973 kWh after step 1, the 2nd row
    losses        0.000 kWh
    not_met       in 2 steps$not_met_words
$below
 unit  request_kW  out_kW  in_kW  out_kWh  in_kWh  loss_kWh  low_kWh  at_step  not_met
    0       1.000   0.800  0.000    0.027   0.000     0.000    0.973        1        2
fleet       1.000   0.800  0.000    0.027   0.000     0.000    0.973        1        2

$var_heading
   0  1,000          700          600         300      600       0

unit  high_var  at_step  low_var  at_step
   0       600        0      600        0" '' summary "$work/provide" "$work/provide.result"
    local narrow='unit S_VA request_var provide_var absorb_var out_var in_var'
    local ends='unit high_var at_step low_var at_step'
    summed_up absorb "0 1.000 0.953 0.000 0.032 0.000 0.000 0.968 1 2
fleet 1.000 0.953 0.000 0.032 0.000 0.000 0.968 1 2

$narrow
0 1,000 -700 600 300 0 300

$ends
0 -300 0 -300 0"
    summed_up two "0 0.500 0.500 0.000 0.017 0.000 0.000 0.983 1 0
1 0.500 0.500 0.000 0.017 0.000 0.000 0.983 1 0
fleet 1.000 1.000 0.000 0.033 0.000 0.000 1.967 1 0

$narrow
0 1,000 -700 600 300 0 300
1 1,000 700 0 1,000 0 0

$ends
0 -300 0 -300 0
1 0 0 0 0"
    summed_up limited0 "0 0.000 0.000 0.000 0.000 0.000 0.000 - - 0
fleet 0.000 0.000 0.000 0.000 0.000 0.000 - - 0

$narrow
0 1,000 0 1,000 0 0 0

$ends
0 - - - -"
    # The inverters' lines come behind those of the units.
    call summary "$work/limited_roof" "$work/limited_roof.result"
    good test "$status|$error|$(sed -n '2,3p; /^unit .*S_VA/,$p' "$work/output")" = "0||1 unit, 1 inverter, 2 steps of \
60 s (1 min), 2 min
mode 1 (PeakShave), target 0.000 kW, band 0.000 kW, factor 1,000 thousandths
$var_heading
   0  1,000          700          600         300      600       0

inverter  out_kW  at_step  out_kWh   on_h  unused_kWh
       0   5.000        0    0.083  0.017       0.083
    roof   5.000        0    0.083  0.017       0.083

      unit  high_var  at_step  low_var  at_step
         0       600        0      600        0
inverter 0         0        1   -3,000        0"

    # Limits of S change nothing, and edition 1 has none to show.
    good cmp "$work/giving.result" "$work/giving2.result"
    check 0 "$giving_table" '' table "$work/giving2" "$work/giving2.result"
    summed_up giving2 "$("$import" summary "$work/giving" "$work/giving.result" | columns | sed -n '2,3p')

$narrow
0 5,000 0 5,000 5,000 0 0

$ends
0 0 0 0 0"
    # The study is about watts alone.
    check 0 "$work/two: settled after 1 changing pass
$from_0
unit	request W	rating W
0	1000	1000
1	1000	1000
sum of requests 2000 W, reading left 1000 W: not within half the band (0 W) of the target (0 W)" '' \
        settle "$work/two" 3000
    not_shown "$work/provide" "$work/absorb.result" 0 \
        "$(due Step 0 unit 0) is due there. What differs: delivered kW, vars, stored J."
}

# length_advised FILE PLACE WORDS: a unit's length is refused, with these words.
length_advised() {
    refused "$1" 3 'wrong length' "$2" 0
    advised "$3"
}

# What the person is told where the edition, or a unit by its edition, is refused.
limits_words_suite() {
    local stick=$work/pieces anew='fleet and units are not of one edition. Copy the stick again; if it stays so, ask '
    local name place words wrong='Here the file has unit 0, the 1st unit, with the tag hex 02 (2) and the length'
    local copy='Copy the stick again; if it stays so, ask the manager to correct it and to write the stick anew. '
    anew+='the manager to write it anew, all of it in one edition.'

    # Units of another edition than the fleet's: all of them, and one.
    cp "$work/two" "$stick"
    patch "$stick" 3 01
    length_advised "$stick" 9 \
        "$wrong hex 0039 (57); the length should be hex 0031 (49) in edition 1, which the fleet names: $anew"
    not_run "$stick"
    cp "$work/giving" "$stick"
    patch "$stick" 3 02
    length_advised "$stick" 9 \
        "$wrong hex 0031 (49); the length should be hex 0039 (57) in edition 2, which the fleet names: $anew"
    not_run "$stick"
    bytes "$fleet_e2_2" "$(unit_v 0 0 0 0)" "$(unit_d 1)" "$efficiencies_d" "$(settings 1 0 0)" "$(end 0)" >"$stick"
    length_advised "$stick" 69 "${wrong/unit 0, the 1st/unit 1, the 2nd} hex 0031 (49); the length should be hex 0039 \
(57) in edition 2, *: $anew"
    bytes "$fleet_2" "$(unit_d 1)" "$efficiencies_d" "$(unit_v 0 0 0 0)" "$(settings 1 0 0)" "$(end 0)" >"$stick"
    length_advised "$stick" 61 "${wrong/unit 0, the 1st/unit 1, the 2nd} hex 0039 (57); the length should be hex 0031 \
(49) in edition 1, *: $anew"
    # Of no edition; and cut short.
    cp "$work/provide" "$work/provide3"
    patch "$work/provide3" 3 03
    while read -r name words; do
        for place in 10 11; do
            cp "$work/$name" "$stick"
            patch "$stick" "$place" 30
            length_advised "$stick" 9 "$wrong hex *; the length should be $words, which the fleet names: bytes were \
changed or lost here. Copy the stick again; if it stays so, ask the manager for a new one."
        done
        for place in 12 60; do
            head -c "$place" "$work/$name" >"$stick"
            refused "$stick" 1 'field cut short' 9 0
            advised "The file ends in the middle of unit 0, the 1st unit: $((place - 9)) of its * bytes are there. The \
copy is not whole."
        done
    done <<'END'
giving hex 0031 (49) in edition 1
provide hex 0039 (57) in edition 2
provide3 hex 0039 (57) in edition 3
END
    # Before any fleet.
    tail -c +10 "$work/provide" >"$stick"
    length_advised "$stick" 0 "$wrong hex 0039 (57); the length should be hex 0031 (49): the fleet, which comes first, \
is not there. Copy the stick again; if it stays so, ask the manager for a new one."
    tail -c +10 "$work/giving" >"$stick"
    refused "$stick" 4 'field out of order' 0 0
    advised 'Here the file has unit 0, the 1st unit, where the fleet should be: a field is missing'
    # A unit too many, and one too few.
    bytes "$fleet_e2" "$(unit_v 0 0 0 0)" "$(unit_v 0 0 0 0)" >"$stick"
    refused "$stick" 4 'field out of order' 69 0
    advised 'Here the file has unit 1, the 2nd unit, where the settings should be: a field is missing'
    bytes "$fleet_e2_2" "$(unit_v 0 0 0 0)" "$(settings 1 0 0)" >"$stick"
    refused "$stick" 4 'field out of order' 69 0
    advised 'Here the file has the settings, where unit 1, the 2nd unit, should be: a field is missing'

    # Editions that there are not, and other values of the fleet.
    for words in '3 00' '3 04' '3 FF' '4 00' '4 41' '5 01' '8 00'; do
        cp "$work/provide" "$stick"
        # shellcheck disable=SC2086 # place and byte are words
        patch "$stick" $words
        refused "$stick" 5 'value out of range' 0 0
        advised "The * of the fleet is *; it may be * $copy"
    done
    # Limits beyond S, and another value of such a unit; in edition 1 no limits are named.
    for words in '1000 1001' '1001 0' '4294967295 1000'; do
        # shellcheck disable=SC2086 # the limits are words
        bytes "$fleet_e2_2" "$(unit_v 0 0 1000 1000)" "$(unit_v 0 0 $words)" "$(settings 1 0 0)" "$(end 0)" >"$stick"
        refused "$stick" 5 'value out of range' 69 0
        advised "The * limit of unit 1, the 2nd unit, is * var; it may be 0 to its kVA rating S, which is 1,000 VA. \
$copy"
    done
    not_run "$stick"
    cp "$work/provide" "$stick"
    patch "$stick" 40 FFFFFFFF
    refused "$stick" 5 'value out of range' 9 0
    advised "The kVA rating S of unit 0, the 1st unit, is 4,294,967,295 VA; it may be 1 to 100,000,000 VA. $copy"
    cp "$work/giving" "$stick"
    patch "$stick" 60 02
    refused "$stick" 5 'value out of range' 9 0
    advised "The priority of unit 0, the 1st unit, is 2; it may be 0 (watts first) or 1 (vars first). $copy"
}
