# shellcheck shell=bash
# shellcheck disable=SC2034,SC2154 # the variables are those of test_import.sh
# Sourced by test_import.sh: run, table and summary of sticks with inverters and weather.

# The fields of a roof: an inverter with an array, a cut-in and a limit, S 8,000 VA, cut-out 50, var request -3,000 and
# watts first; a level curve; a dim weather, of 0.006 kW/m2, and a clear one, of 1 kW/m2, both at 25 degrees C.
inverter() { printf '06 0013 %08X 00001F40 %04X 0032 %04X FFFFF448 00' "$1" "$2" "$3"; }
level() { printf '07 0081 02 00000000 %08X 000003E8 %08X %0224d' "$1" "$1" 0; }
dim='08 0010 3F789374BC6A7EFA 4039000000000000'
clear='08 0010 3FF0000000000000 4039000000000000'

# roof_sticks: an inverter that turns on in the clear, stays on in the dim, and turns off without weather; the same with
# a second one that never turns on; one of no steps; and one that is on for a minute.
roof_sticks() {
    local head first second steps
    head="$fleet_1 $(unit_d 500000) $efficiencies_d $(settings 1 0 0)"
    first="$(inverter 10000 100 5000) $(level 10000) $(level 9500)"
    second="$(inverter 1000 10000 10000) $(level 10000) $(level 9500)"
    steps="$dim $missing $clear $missing $dim $missing $missing $(end 4)"
    bytes "$head $first $steps" >"$work/sunny"
    bytes "$head $first $second $steps" >"$work/sunny2"
    bytes "$head $first $(end 0)" >"$work/sunny0"
    bytes "$head $first $clear $missing $missing $(end 2)" >"$work/sunny1"
}

sunny_table="$heading	on	DC W$beside
0	0	0	-0.012	0	500000	720	-	-	missing	-12	-
0	inverter 0	-	0.000	0	-	-	0	60	missing	-12	-
1	0	0	-0.012	0	500000	720	-	-	missing	-12	-
1	inverter 0	-	5.000	-3000	-	-	1	10000	missing	-12	-
2	0	0	-0.012	0	500000	720	-	-	missing	-12	-
2	inverter 0	-	0.057	-3000	-	-	1	60	missing	-12	-
3	0	0	-0.012	0	500000	720	-	-	missing	-12	-
3	inverter 0	-	0.000	0	-	-	0	0	missing	-12	-"
sunny_fleet="mode 1 (PeakShave), target 0.000 kW, band 0.000 kW, factor 1,000 thousandths

The measure, as the meter logged it; 4 readings are missing
    No step has a reading: there is no smallest and no largest.

The fleet
    lowest store  0.139 kWh after step 0, the 1st row
    losses        0.001 kWh
    not_met       in no step: every unit gives or takes what it is asked for
$below
 unit  request_kW  out_kW  in_kW  out_kWh  in_kWh  loss_kWh  low_kWh  at_step  not_met
    0       0.000   0.000  0.012    0.000   0.001     0.001    0.139        0        0
fleet       0.000   0.000  0.012    0.000   0.001     0.001    0.139        0        0"

roof_summary="examples/roof.stick: complete, 96 steps
3 units, 3 inverters, 96 steps of 900 s (15 min), 1 day
mode 3 (PeakShaveLow), target -15.000 kW, band 3.000 kW, factor 700 thousandths

The measure, as the meter logged it; 7 readings are missing
    smallest  -54.880 kW at step 48, the 49th row
    largest    37.390 kW at step 76, the 77th row
    23 steps are below the target by more than half the band: below -16.500 kW

The net measure
    smallest  -47.697 kW at step 53, the 54th row
    largest    49.374 kW at step 45, the 46th row
    11 steps are below -16.500 kW
$net_words

The fleet
    lowest store  125.000 kWh after step 0, the 1st row
    losses        31.950 kWh
    not_met       in 29 steps$not_met_words
$below
 unit  request_kW  out_kW    in_kW  out_kWh   in_kWh  loss_kWh  low_kWh  at_step  not_met
    0     -60.000   0.000   60.000    0.000  173.890    18.890   45.000        0       19
    1     -40.000   0.000   40.000    0.000   70.804    10.804   60.000        0       24
    2     -10.000   0.000    6.964    0.000    7.256     2.256   20.000        0       28
fleet    -110.000   0.000  100.064    0.000  251.950    31.950  125.000        0       29

inverter   out_kW  at_step  out_kWh    on_h  unused_kWh
       0   49.457       52  322.059  13.250      18.177
       1   63.000       42  470.087  13.500      38.972
       2   14.000       42  116.551  18.750      25.326
    roof  126.457       52  908.697  19.000      82.474

      unit  high_var  at_step  low_var  at_step
         0         0        0        0        0
         1     9,000        0        0       44
         2         0        0        0        0
inverter 0         0        0        0        0
inverter 1         0        0  -12,000       20
inverter 2    10,500       21        0        0"

# summed_roof SECONDS <TABLE: the inverters' block of a summary, made of a table by other means, with one blank between
# the columns.
summed_roof() {
    echo "$roof_columns"
    awk -F '\t' -v seconds="$1" "$grouping"'
        function see(i, step, watts) { if (watts > out[i]) { out[i] = watts; at[i] = step } }
        function close_step() { if (step != "") { see("roof", step, w); on["roof"] += any } w = any = 0 }
        function line(i) {
            print i, thousandths(out[i]), out[i] ? commas(at[i]) : "-", kwh(given[i]), kwh(1000 * on[i] * seconds),
                kwh(unused[i])
        }
        sub(/^inverter /, "", $2) {
            if ($1 "" != step) { close_step(); step = $1 "" }
            watts = int($4 * 1000 + 0.5)
            see($2, $1, watts)
            w += watts
            any = any || $8
            on[$2] += $8
            given[$2] += watts * seconds; given["roof"] += watts * seconds
            unused[$2] += ($9 - watts) * seconds; unused["roof"] += ($9 - watts) * seconds
            if ($2 >= inverters) inverters = $2 + 1
        }
        END { close_step(); for (i = 0; i < inverters; i++) line(i); line("roof") }'
}

roof_result_suite() {
    local stick=examples/roof.stick name expected
    roof_sticks
    for name in sunny sunny2; do
        check 0 "$work/$name: complete, 4 steps" '' run "$work/$name" "$work/$name.result"
    done
    check 0 "$work/sunny0: complete, 0 steps" '' run "$work/sunny0" "$work/sunny0.result"
    good test "$(hex "$work/sunny0.result")" = 1f000400000000
    good test "$(wc -c <"$work/sunny.result")" = $(((40 + 29) * 4 + 7))

    # Tables and summaries whose every number is that of the rules.
    check 0 "$sunny_table" '' table "$work/sunny" "$work/sunny.result"
    check 0 "$heading	on	DC W$beside" '' table "$work/sunny0" "$work/sunny0.result"
    call table "$work/sunny2" "$work/sunny2.result"
    good test "$status|$error|$(grep -v 'inverter 1' "$work/output")" = "0||$sunny_table"
    good test "$(grep 'inverter 1' "$work/output")" = '0	inverter 1	-	0.000	0	-	-	0	6	missing	-12	-
1	inverter 1	-	0.000	0	-	-	0	1000	missing	-12	-
2	inverter 1	-	0.000	0	-	-	0	6	missing	-12	-
3	inverter 1	-	0.000	0	-	-	0	0	missing	-12	-'
    check 0 "$work/sunny: complete, 4 steps
1 unit, 1 inverter, 4 steps of 60 s (1 min), 4 min
$sunny_fleet

inverter  out_kW  at_step  out_kWh   on_h  unused_kWh
       0   5.000        1    0.084  0.033       0.084
    roof   5.000        1    0.084  0.033       0.084

      unit  high_var  at_step  low_var  at_step
         0         0        0        0        0
inverter 0         0        0   -3,000        1" '' \
        summary "$work/sunny" "$work/sunny.result"
    check 0 "$work/sunny2: complete, 4 steps
1 unit, 2 inverters, 4 steps of 60 s (1 min), 4 min
$sunny_fleet

inverter  out_kW  at_step  out_kWh   on_h  unused_kWh
       0   5.000        1    0.084  0.033       0.084
       1   0.000        -    0.000  0.000       0.017
    roof   5.000        1    0.084  0.033       0.101

      unit  high_var  at_step  low_var  at_step
         0         0        0        0        0
inverter 0         0        0   -3,000        1
inverter 1         0        0        0        0" '' \
        summary "$work/sunny2" "$work/sunny2.result"
    check 0 "$work/sunny0: complete, 0 steps
1 unit, 1 inverter, 0 steps of 60 s (1 min), 0 s
$(tail -n +3 <<<"$none_summary" | head -n 10)

inverter  out_kW  at_step  out_kWh   on_h  unused_kWh
       0   0.000        -    0.000  0.000       0.000
    roof   0.000        -    0.000  0.000       0.000

      unit  high_var  at_step  low_var  at_step
         0         -        -        -        -
inverter 0         -        -        -        -" '' \
        summary "$work/sunny0" "$work/sunny0.result"

    # Kilowatt-hours and hours are the nearest ones.
    call run "$work/sunny1" "$work/sunny1.result"
    call summary "$work/sunny1" "$work/sunny1.result"
    good test "$(grep roof "$work/output" | sed 's/^ *//; s/  */ /g')" = \
        'roof 5.000 0 0.083 0.017 0.083'

    # The sample, beside what other means make of it, and as a planner sees it.
    complete "$stick" 96
    check 0 "$stick: complete, 96 steps" '' run "$stick" "$work/roof.result"
    good test "$(wc -c <"$work/roof.result")" = $(((40 * 3 + 29 * 3) * 96 + 7))
    call table "$stick" "$work/roof.result"
    good test "$status|$error|$(wc -l <"$work/output")" = "0||$((1 + 6 * 96))"
    good test "$(fronts <"$work/output")" = "$(decoded "$work/roof.result")"
    good test "$(cut -f 2 "$work/output" | sort | uniq -c | sed 's/^ *//')" = '96 0
96 1
96 2
96 inverter 0
96 inverter 1
96 inverter 2
1 unit'
    expected=$(summed 900 <"$work/output"
        echo
        summed_roof 900 <"$work/output"
        echo
        var_ends <"$work/output")
    call summary "$stick" "$work/roof.result"
    good test "$(columns <"$work/output")" = "$expected"
    check 0 "$roof_summary" '' summary "$stick" "$work/roof.result"

    # A stick without inverters has none of it, with weather or without.
    bytes "$fleet_1" "$(unit_d 251499)" "$efficiencies_d" "$(settings 1 0 0)" "$clear" \
        04 0018 3FECCCCCCCCCCCCD 0000000000000000 0000000000000000 "$dim" "$missing" "$missing" "$(end 3)" \
        >"$work/weather"
    check 0 "$work/weather: complete, 3 steps" '' run "$work/weather" "$work/weather.result"
    good cmp "$work/giving.result" "$work/weather.result"
    check 0 "$giving_table" '' table "$work/weather" "$work/weather.result"
    call summary "$work/weather" "$work/weather.result"
    good test "$(tail -n +2 "$work/output")" = "$("$import" summary "$work/giving" "$work/giving.result" | tail -n +2)"
    # The study is over the fleet alone.
    call settle "$stick" 50000
    good like "$status|$error|$output" "0||$stick: settled after *"
    call settle "$work/sunny" 6000
    good like "$status|$error|$output" "0||$work/sunny: settled after 1 changing pass"$'\nunit*\n0\t5000\t5000\n*'
}

other_roof_suite() {
    local stick=examples/roof.stick right=$work/roof.result place from len part due
    # One byte changed, in every part of an inverter's record and beside it: that of step 50, inverter 1 begins at
    # 10499.
    while read -r place from len due part; do
        # shellcheck disable=SC2086 # step, whose and which are words
        other_byte "$stick" "$right" "$place" "$from" "$len" "$part" "$(due Step ${due//:/ })"
    done <<'END'
0 0 40 0:unit:0 tag
119 80 40 0:unit:2 loss J
120 120 29 0:inverter:0 tag
149 149 29 0:inverter:1 tag
206 178 29 0:inverter:2 DC W
207 207 40 1:unit:0 tag
10469 10430 40 50:unit:2 loss J
10470 10470 29 50:inverter:0 tag
10498 10470 29 50:inverter:0 DC W
10499 10499 29 50:inverter:1 tag
10500 10499 29 50:inverter:1 length
10501 10499 29 50:inverter:1 length
10502 10499 29 50:inverter:1 step
10505 10499 29 50:inverter:1 step
10506 10499 29 50:inverter:1 inverter
10507 10499 29 50:inverter:1 on
10508 10499 29 50:inverter:1 delivered kW
10515 10499 29 50:inverter:1 delivered kW
10516 10499 29 50:inverter:1 vars
10519 10499 29 50:inverter:1 vars
10520 10499 29 50:inverter:1 DC W
10527 10499 29 50:inverter:1 DC W
10528 10528 29 50:inverter:2 tag
19871 19843 29 95:inverter:2 DC W
END
    # What is ours, beside what other means make of it.
    good test "$(column 4 | sed -n '3p; 4s/^/inverter /p; 6,7p; 5p; 8p' | tr '\n' '\t')" = \
        "$(decoded "$right" | grep $'^95\tinverter 2\t' | cut -f 1,2,4,5,8,9 | awk -F '\t' -v OFS='\t' \
            '{ print $1, $2, $5, $3, $4, $6 }')"$'\t'
    for place in '19872 tag' '19873 length' '19875 number of steps' '19878 number of steps'; do
        other_byte "$stick" "$right" "${place%% *}" 19872 7 "${place#* }" 'The end'
    done
    # Cut, and other files'.
    lacking "$stick" "$right" 0 1057 27 "$(due step 0 unit 0)"
    lacking "$stick" "$right" 120 1057 27 "$(due step 0 inverter 0)"
    cut_result "$stick" "$right" 128 120 29 "$(due Step 0 inverter 0)"
    lacking "$stick" "$right" 207 1103 27 "$(due step 1 unit 0)"
    cut_result "$stick" "$right" 10527 10499 29 "$(due Step 50 inverter 1)"
    lacking "$stick" "$right" 19872 5153 7 'the end'
    cut_result "$stick" "$right" 19878 19872 7 'The end'
    not_shown "$stick" "$work/season.result" 0 "$(due Step 0 unit 0) is due there. What differs: *delivered kW*"
    not_shown examples/season.stick "$right" 0 "$(due Step 0 unit 0) is due there. What differs: *delivered kW*"
    not_shown "$work/sunny" "$work/sunny2.result" 69 "$(due Step 1 unit 0) is due there. What differs: tag, length, *"
    not_shown "$work/sunny2" "$work/sunny.result" 69 "$(due Step 0 inverter 1) is due there. What differs: tag, length*"
    not_shown "$work/sunny0" "$work/sunny.result" 0 'The end is due there. What differs: tag, length.'
    not_shown "$work/sunny" "$work/sunny0.result" 0 "$(due Step 0 unit 0) is due there, and is cut short: 7 of its 40*"
    # The two in the wrong order.
    call table "$work/roof.result" "$stick"
    good like "$status $output" $'1 *: refused 2 (unknown tag) at byte 0 after 0 steps\n*\n    It looks like a result *'
}

# As many inverters and steps as there can be, under the largest sun: more joules than 64 bits hold.
largest_roof_suite() {
    local i
    {
        bytes 01 0006 01 01 00015180
        bytes "$(unit_d 500000)" "$efficiencies_d" "$(settings 1 0 0)"
        for ((i = 0; i < 64; i++)); do
            bytes 06 0013 05F5E100 05F5E100 0000 0000 2710 00000000 00 "$(level 20000)" "$(level 10000)"
        done
        head -c 65535 /dev/zero | tr '\0' x |
            sed 's/x/\x08\x00\x10\x40\xF8\x6A\x00\x00\x00\x00\x00\x40\x39\x00\x00\x00\x00\x00\x00\x05\x00\x00/g'
        bytes "$(end 65535)"
    } >"$work/largest"
    check 0 "$work/largest: complete, 65535 steps" '' run "$work/largest" "$work/largest.result"
    good test "$(wc -c <"$work/largest.result")" = $(((40 + 29 * 64) * 65535 + 7))
    call summary "$work/largest" "$work/largest.result"
    good test "$status|$error|$(columns <"$work/output" | sed -n '6p; 70p; 73p; 137p; $p')" = "0||0 100,000.000 0 \
157,284,000,000.000 1,572,840.000
roof 6,400,000.000 0 10,066,176,000,000.000 1,572,840.000
0 31,456,642,716,000,000.000
roof 2,013,225,133,824,000,000.000
inverter 63 0 0 0 0"
    good narrow
    large_json "$work/largest" '67946688000 67946688000 67946688000 36238233600000000000 7247610481766400000000000'
    rm "$work/largest" "$work/largest.result"
}
