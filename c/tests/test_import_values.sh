# shellcheck shell=bash
# shellcheck disable=SC2034,SC2154 # the variables are those of test_import.sh
# Sourced by test_import.sh: every value of every field, out of its range or not usable, and what is said of it.

# values_stick: two units with var limits and connections, an inverter, a function, and one step of a weather, a voltage
# and a reading. Its fields are at 0 (fleet), 9 and 69 (units), 129 (settings), 144 (connections), 153 (inverter), 175
# and 307 (its curves), 439 (function), 443 (volt-var curve), 575 (weather), 594 (voltage), 599 (reading) and 626 (end).
values_stick() {
    bytes "$fleet_e2_2 $(unit_v 0 700 600 300) $(unit_v 1 -700 600 300) $(settings 1 0 0) $(joined 230 1 3)" \
        "$(inverter 10000 100 5000) $(level 10000) $(level 9500) $(function_of 0) $volt_var" \
        "$clear $(voltage 9500) $half_kw $(end 1)" >"$work/values"
    complete "$work/values" 1
}

# spelled WORDS: the words of the tables below in full, with what stands for those that come often.
spelled() {
    sed -E 's/@/unit 1, the 2nd unit,/g; s/#/unit 0, the 1st unit,/g; s/ = /; it may be /
        s/ > 0$/, and all that is past them is 0/; s/> /it must be above that of the point before it, which is /
        s/ ~i/, which an idle loss of 1,001 W makes at an inverter efficiency of/; s/~v/phase-to-neutral voltage of/
        s/~T/of the temperature curve of %/; s/~E/of the efficiency curve of %/; s/~V/of the volt-var curve/
        s/%/inverter 0, the 1st inverter,/g; s/~p/parts in 10,000/g; s/~q/part in 10,000/g
        s/~t(s?)/thousandth\1 of a degree C/g; s/~d(s?)/thousandth\1 of DC power per kVA/g
        s/~u(s?)/ten-thousandth\1 of per unit/g' <<<"The $1"
}

copy_then='Copy the stick again; if it stays so, ask the manager to correct it and to write the stick anew. '

# wrong_value FIELD PLACE HEX NAME WORDS: with other bytes at a place the field is out of range; the value of that name
# is the one that show marks, and what is said of it is all that is said but the advice.
wrong_value() {
    cp "$work/values" "$work/wrong"
    # shellcheck disable=SC2086 # several patches are words
    patch "$work/wrong" "$2" $3
    refused "$work/wrong" 5 'value out of range' "$1" 0
    good like "$(tail -n +2 "$work/output" | sed 's/^ *//' | tr '\n' ' ')" "$5. Copy the stick again; *"
    [ "$1" -gt 575 ] || advised "$copy_then"
    call show "$work/wrong"
    good test "$(sed -n 's/^wrong *\(.*[^ ]\)  .*  .*  .*/\1/p' "$work/output" | sed 's/  .*//')" = "$4"
    good test "$(tail -n +2 "$work/output" | wc -L)" -le 100
}

# One below its least, and one above its most, where its bytes hold that.
wrong_values_suite() {
    local field place hex name words
    values_stick
    while IFS='|' read -r field place hex name words; do
        wrong_value "$field" "$place" "$hex" "$name" "$(spelled "$words")"
    done <<'END'
0|3|00|edition|edition of the fleet is 0 = 1, 2 or 3
0|3|04|edition|edition of the fleet is 4 = 1, 2 or 3
0|4|00|number of units|number of units of the fleet is 0 = 1 to 64
0|4|41|number of units|number of units of the fleet is 65 = 1 to 64
0|5|00000000|step length s|step length of the fleet is 0 s = 1 to 86,400 s
0|5|00015181|step length s|step length of the fleet is 86,401 s = 1 to 86,400 s
69|72|0000000000000000|rated energy J|rated energy of @ is 0 J = 1 to 10,000,000,000,000 J
69|72|000009184E72A001|rated energy J|rated energy of @ is 10,000,000,000,001 J = 1 to 10,000,000,000,000 J
69|72|FFFFFFFFFFFFFFFF|rated energy J|rated energy of @ is 18,446,744,073,709,551,615 J = 1 to 10,000,000,000,000 J
69|96|00000000|power rating R W|power rating R of @ is 0 W = 1 to 100,000,000 W
69|96|05F5E101|power rating R W|power rating R of @ is 100,000,001 W = 1 to 100,000,000 W
69|100|00000000|kVA rating S VA|kVA rating S of @ is 0 VA = 1 to 100,000,000 VA
69|100|05F5E101|kVA rating S VA|kVA rating S of @ is 100,000,001 VA = 1 to 100,000,000 VA
69|104|00989681|idle loss W|idle loss of @ is 10,000,001 W = 0 to 10,000,000 W
69|108|FA0A1EFF|var request var|var request of @ is -100,000,001 var = -100,000,000 to 100,000,000 var
69|108|05F5E101|var request var|var request of @ is 100,000,001 var = -100,000,000 to 100,000,000 var
69|112|0000|weight|weight of @ is 0 = 1 to 10,000
69|112|2711|weight|weight of @ is 10,001 = 1 to 10,000
69|114|03E7|inverter efficiency|inverter efficiency of @ is 999 ~p = 1,000 to 10,000
69|114|2711|inverter efficiency|inverter efficiency of @ is 10,001 ~p = 1,000 to 10,000
69|116|03E7|charge efficiency|charge efficiency of @ is 999 ~p = 1,000 to 10,000
69|116|2711|charge efficiency|charge efficiency of @ is 10,001 ~p = 1,000 to 10,000
69|118|03E7|discharge efficiency|discharge efficiency of @ is 999 ~p = 1,000 to 10,000
69|118|2711|discharge efficiency|discharge efficiency of @ is 10,001 ~p = 1,000 to 10,000
69|120|02|priority|priority of @ is 2 = 0 (watts first) or 1 (vars first)
129|133|FA0A1EFF|target W|target of the settings is -100,000,001 W = -100,000,000 to 100,000,000 W
129|133|05F5E101|target W|target of the settings is 100,000,001 W = -100,000,000 to 100,000,000 W
129|137|0BEBC201|band W|band of the settings is 200,000,001 W = 0 to 200,000,000 W
129|132|04 05F5E101|target mA|target of the settings is 100,000,001 mA = -100,000,000 to 100,000,000 mA
129|132|05 00000000 0BEBC201|band mA|band of the settings is 200,000,001 mA = 0 to 200,000,000 mA
129|141|0000|factor thousandths|factor of the settings is 0 thousandths = 1 to 1,000 thousandths
129|141|03E9|factor thousandths|factor of the settings is 1,001 thousandths = 1 to 1,000 thousandths
144|147|00|number of phases of unit 0|number of phases of # in the connections is 0 = 1 or 3
144|147|02|number of phases of unit 0|number of phases of # in the connections is 2 = 1 or 3
144|150|04|number of phases of unit 1|number of phases of @ in the connections is 4 = 1 or 3
144|148|0000|phase-to-neutral voltage of unit 0 V|~v # in the connections is 0 V = 1 to 40,000 V
144|151|9C41|phase-to-neutral voltage of unit 1 V|~v @ in the connections is 40,001 V = 1 to 40,000 V
153|156|00000000|array power W|array power of % is 0 W = 1 to 100,000,000 W
153|156|05F5E101|array power W|array power of % is 100,000,001 W = 1 to 100,000,000 W
153|160|00000000|kVA rating S VA|kVA rating S of % is 0 VA = 1 to 100,000,000 VA
153|160|05F5E101|kVA rating S VA|kVA rating S of % is 100,000,001 VA = 1 to 100,000,000 VA
153|164|2711|cut-in|cut-in of % is 10,001 ~p = 0 to 10,000
153|168|2711|limit|limit of % is 10,001 ~p = 0 to 10,000
153|170|FA0A1EFF|var request var|var request of % is -100,000,001 var = -100,000,000 to 100,000,000 var
153|170|05F5E101|var request var|var request of % is 100,000,001 var = -100,000,000 to 100,000,000 var
153|174|02|priority|priority of % is 2 = 0 (watts first) or 1 (vars first)
175|178|01|number of points|number of points ~T is 1 = 2 to 16
175|178|11|number of points|number of points ~T is 17 = 2 to 16
175|179|FA0A1EFF|x of point 0|x of point 0, the 1st point, ~T is -100,000,001 ~ts = -100,000,000 to 100,000,000
175|187|05F5E101|x of point 1|x of point 1, the 2nd point, ~T is 100,000,001 ~ts = -100,000,000 to 100,000,000
175|183|FFFFFFFF|y of point 0|y of point 0, the 1st point, ~T is -1 ~q = 0 to 20,000
175|191|00004E21|y of point 1|y of point 1, the 2nd point, ~T is 20,001 ~p = 0 to 20,000
307|310|00|number of points|number of points ~E is 0 = 2 to 16
307|310|FF|number of points|number of points ~E is 255 = 2 to 16
307|311|FFFFFFFF|x of point 0|x of point 0, the 1st point, ~E is -1 ~d = 0 to 100,000,000
307|319|05F5E101|x of point 1|x of point 1, the 2nd point, ~E is 100,000,001 ~ds = 0 to 100,000,000
307|315|FFFFFFFF|y of point 0|y of point 0, the 1st point, ~E is -1 ~q = 0 to 10,000
307|323|00002711|y of point 1|y of point 1, the 2nd point, ~E is 10,001 ~p = 0 to 10,000
439|442|02|base|base of the function is 2 = 0 (S) or 1 (what the watts leave of S)
439|442|FF|base|base of the function is 255 = 0 (S) or 1 (what the watts leave of S)
443|446|01|number of points|number of points ~V is 1 = 2 to 16
443|446|11|number of points|number of points ~V is 17 = 2 to 16
443|447|FFFFFFFF|x of point 0|x of point 0, the 1st point, ~V is -1 ~u = 0 to 20,000
443|471|00004E21|x of point 3|x of point 3, the 4th point, ~V is 20,001 ~us = 0 to 20,000
443|451|00002711|y of point 0|y of point 0, the 1st point, ~V is 10,001 ~p = -10,000 to 10,000
443|475|FFFFD8EF|y of point 3|y of point 3, the 4th point, ~V is -10,001 ~p = -10,000 to 10,000
594|597|4E21|voltage|voltage in step 0, the 1st row, is 20,001 ~us = 0 to 20,000
594|597|FFFF|voltage|voltage in step 0, the 1st row, is 65,535 ~us = 0 to 20,000
END
    # What is chosen from has its names.
    words='it may be 1 (PeakShave), 2 (Support), 3 (PeakShaveLow), 4 (I-PeakShave) or 5 (I-PeakShaveLow)'
    wrong_value 129 132 00 mode "The mode of the settings is 0; $words"
    wrong_value 129 132 06 mode "The mode of the settings is 6; $words"
    words='it may be 0 (the sum of the phases), 1 (phase 1), 2 (phase 2), 3 (phase 3), 4 (the largest phase) or 5 (the '
    wrong_value 129 143 06 'phase choice' "The phase choice of the settings is 6; ${words}smallest phase)"
    wrong_value 129 143 FF 'phase choice' "The phase choice of the settings is 255; ${words}smallest phase)"
    # Their counts, as people say them.
    cp "$work/values" "$work/wrong"
    patch "$work/wrong" 3 00 00
    refused "$work/wrong" 5 'value out of range' 0 0
    advised 'The edition of the fleet is 0; it may be 1, 2 or 3. Besides, 1 more of its values is wrong; import show '\
'marks it. Copy *'
    patch "$work/wrong" 5 00000000
    refused "$work/wrong" 5 'value out of range' 0 0
    advised 'The edition of the fleet is 0; it may be 1, 2 or 3. Besides, 2 more of its values are wrong; import show '\
'marks them. Copy *'
    call show "$work/wrong"
    good test "$(grep -c '^wrong ' "$work/output")" = 3
}

# Every pair of values that can be at odds, both of which are said; and the most that goes.
odd_values_suite() {
    local field place hex name words base=$work/values
    values_stick
    while IFS='|' read -r field place hex name words; do
        wrong_value "$field" "$place" "$hex" "$name" "$(spelled "$words")"
    done <<'END'
69|80|000000000036EE81|reserve J|reserve of @ is 3,600,001 J = 0 to its rated energy, which is 3,600,000 J
69|88|000000000036EE81|stored energy J|stored energy of @ is 3,600,001 J = 0 to its rated energy, which is 3,600,000 J
69|121|000003E9|provide limit var|provide limit of @ is 1,001 var = 0 to its kVA rating S, which is 1,000 VA
69|125|000003E9|absorb limit var|absorb limit of @ is 1,001 var = 0 to its kVA rating S, which is 1,000 VA
69|125|FFFFFFFF|absorb limit var|absorb limit of @ is 4,294,967,295 var = 0 to its kVA rating S, which is 1,000 VA
69|104|000003E9|idle loss W|idle draw of @ is 1,001 W ~i 10,000 ~p = 0 to its kVA rating S, which is 1,000 VA
153|166|0065|cut-out|cut-out of % is 101 ~p = 0 to its cut-in, which is 100 ~p
153|166|FFFF|cut-out|cut-out of % is 65,535 ~p = 0 to its cut-in, which is 100 ~p
175|187|00000000|x of point 1|x of point 1, the 2nd point, ~T is 0 ~ts; > 0 ~ts
307|319|00000000|x of point 1|x of point 1, the 2nd point, ~E is 0 ~ds; > 0 ~ds
443|455|000023EF|x of point 1|x of point 1, the 2nd point, ~V is 9,199 ~us; > 9,200 ~us
443|471|000027D8|x of point 3|x of point 3, the 4th point, ~V is 10,200 ~us; > 10,200 ~us
175|195|00000001|x of point 2|x of point 2, the 3rd point, ~T is 1 ~t; the curve has 2 points > 0
443|571|00000080|y of point 15|y of point 15, the 16th point, ~V is 128 ~p; the curve has 4 points > 0
END
    # An idle draw is rounded up: 900 W at 89.99 % are 1,001 W, and at 90 % 1,000 W, which is S.
    cp "$base" "$work/wrong"
    patch "$work/wrong" 104 00000384
    patch "$work/wrong" 114 2327
    refused "$work/wrong" 5 'value out of range' 69 0
    advised 'The idle draw of unit 1, the 2nd unit, is 1,001 W, which an idle loss of 900 W makes at an inverter '\
'efficiency of 8,999 parts in 10,000; it may be 0 to its kVA rating S, which is 1,000 VA. Copy *'
    patch "$work/wrong" 114 2328
    complete "$work/wrong" 1
    # In the older model there is no such draw, and the limits are as ever.
    patch "$work/wrong" 3 03
    patch "$work/wrong" 114 03E8
    complete "$work/wrong" 1
    patch "$work/wrong" 121 000003E9
    refused "$work/wrong" 5 'value out of range' 69 0
    advised 'The provide limit of unit 1, the 2nd unit, is 1,001 var; it may be 0 to its kVA rating S, *'
    # What bounds another is what is said where it is wrong itself.
    cp "$base" "$work/wrong"
    patch "$work/wrong" 72 0000000000000000 0000000000000001
    refused "$work/wrong" 5 'value out of range' 69 0
    advised 'The rated energy of unit 1, the 2nd unit, is 0 J; it may be 1 to 10,000,000,000,000 J. Copy *'
    # All that goes, at its most: one value too many is all that is said.
    cp "$base" "$work/wrong"
    patch "$work/wrong" 72 000009184E72A000 000009184E72A000 000009184E72A000 05F5E100 05F5E100 00989680 FA0A1F00 2710 \
        2710 2710 2710 01 05F5E100 05F5E100
    complete "$work/wrong" 1
    patch "$work/wrong" 120 02
    refused "$work/wrong" 5 'value out of range' 69 0
    advised 'The priority of unit 1, the 2nd unit, is 2; it may be 0 (watts first) or 1 (vars first). Copy *'
    # A unit of edition 1 has no limits, and its own length.
    bytes "$fleet_1 $(unit_d 1000001) $efficiencies_d $(settings 1 0 0) $(end 0)" >"$work/wrong"
    refused "$work/wrong" 5 'value out of range' 9 0
    advised 'The stored energy of unit 0, the 1st unit, is 1,000,001 J; it may be 0 to its rated energy, which is '\
'1,000,000 J. Copy *'
    call show "$work/wrong"
    good test "$(grep -c 'limit' "$work/output")|$(grep -c 'discharge efficiency  ' "$work/output")" = '0|1'
}

# unusable_value FIELD PLACE HEX NAME WORDS: a double at a place cannot be used.
unusable_value() {
    cp "$work/values" "$work/wrong"
    [ "$1" != current ] || cp "$work/by_current" "$work/wrong"
    patch "$work/wrong" "$2" "$3"
    call check "$work/wrong"
    good like "${output%%$'\n'*}" "$work/wrong: refused 6 (reading not usable) at byte * after 0 steps"
    good below
    advised "The $4 in step 0, the 1st row, is $5. Copy the stick again; if it stays so, ask the manager for *"
    call show "$work/wrong"
    good like "$(grep '^wrong' "$work/output")" "wrong *$4 *"
    good test "$(grep -c '^wrong' "$work/output")" = 1
}

# Each phase, and each part of a weather: no number, infinite, too large, below 0.
unusable_suite() {
    local phase place
    values_stick
    # The same by current, without an inverter and a function: its reading is at 153.
    bytes "$fleet_e2_2 $(unit_v 0 700 600 300) $(unit_v 1 -700 600 300) $(settings 4 0 0) $(joined 230 1 3) $amperes" \
        "$(end 1)" >"$work/by_current"
    complete "$work/by_current" 1
    for phase in 1 2 3; do
        place=$((602 + 8 * (phase - 1)))
        while IFS='|' read -r hex words; do
            unusable_value power "$place" "$hex" "power of phase $phase" "$words; it may be -100,000 to 100,000 kW"
        done <<'END'
7FF8000000000000|no number
FFF8000000000001|no number
7FF0000000000001|no number
7FF0000000000000|infinite
FFF0000000000000|minus infinite
40F86A0100000000|100,000.062 kW, too large
C0F86A0100000000|-100,000.062 kW, too far below 0
7E37E43C8800759C|1e+300 kW, too large
FE37E43C8800759C|-1e+300 kW, too far below 0
426D1A94A2000000|1e+12 kW, too large
426D1A94A1FFFFE0|999,999,999,999.996 kW, too large
END
        place=$((156 + 8 * (phase - 1)))
        while IFS='|' read -r hex words; do
            unusable_value current "$place" "$hex" "current of phase $phase" "$words; it may be 0 to 100,000 A"
        done <<'END'
7FF8000000000000|no number
7FF0000000000000|infinite
FFF0000000000000|minus infinite
BFF0000000000000|-1.000 A, below 0
BF44000000000000|-0.001 A, below 0
C0F86A0100000000|-100,000.062 A, below 0
40F86A0100000000|100,000.062 A, too large
END
    done
    while IFS='|' read -r place hex name words; do
        unusable_value weather "$place" "$hex" "$name" "$words"
        advised 'ask the manager for the weather of that row, and have it entered again or left out; without it the '\
'step has no sun.'
    done <<'END'
578|7FF8000000000000|irradiance|no number; it may be 0 to 100,000 kW/m2
578|FFF0000000000000|irradiance|minus infinite; it may be 0 to 100,000 kW/m2
578|BFF0000000000000|irradiance|-1.000 kW/m2, below 0; it may be 0 to 100,000 kW/m2
578|40F86A0100000000|irradiance|100,000.062 kW/m2, too large; it may be 0 to 100,000 kW/m2
586|7FF8000000000000|temperature|no number; it may be -100,000 to 100,000 degrees C
586|FFF0000000000000|temperature|minus infinite; it may be -100,000 to 100,000 degrees C
586|C0F86A0100000000|temperature|-100,000.062 degrees C, too far below 0; it may be -100,000 to 100,000 degrees C
586|40F86A0100000000|temperature|100,000.062 degrees C, too large; it may be -100,000 to 100,000 degrees C
END
    # What is next to 0 on the other side of it is taken, and so is the most.
    cp "$work/by_current" "$work/wrong"
    patch "$work/wrong" 156 BF1A36E2EB1C432D 40F86A0000000000 8000000000000000
    complete "$work/wrong" 1
    cp "$work/values" "$work/wrong"
    patch "$work/wrong" 578 BF1A36E2EB1C432D C0F86A0000000000
    complete "$work/wrong" 1
    # Several: each is said.
    cp "$work/values" "$work/wrong"
    patch "$work/wrong" 602 7FF8000000000000
    patch "$work/wrong" 618 FFF0000000000000
    refused "$work/wrong" 6 'reading not usable' 599 0
    advised 'The power of phase 1 in step 0, the 1st row, is no number; it may be -100,000 to 100,000 kW. Its power '\
'of phase 3 is minus infinite; it may be -100,000 to 100,000 kW. Copy *'
    call show "$work/wrong"
    good test "$(grep -c '^wrong' "$work/output")" = 2
    cp "$work/values" "$work/wrong"
    patch "$work/wrong" 578 BFF0000000000000 7FF8000000000000
    refused "$work/wrong" 6 'reading not usable' 575 0
    advised 'The irradiance in step 0, the 1st row, is -1.000 kW/m2, below 0; it may be 0 to 100,000 kW/m2. Its '\
'temperature is no number; it may be -100,000 to 100,000 degrees C. Copy *'
    # The end's count, by one and by many, and of a file that has one step.
    for words in '00000000|0 steps' '00000002|2 steps' 'FFFFFFFF|4,294,967,295 steps'; do
        cp "$work/values" "$work/wrong"
        patch "$work/wrong" 629 "${words%|*}"
        refused "$work/wrong" 7 'wrong step count' 626 1
        advised "The end counts ${words#*|}, and the file has 1: rows were lost or added. Copy *"
    done
    bytes "$led_head $(end 1)" >"$work/wrong"
    refused "$work/wrong" 7 'wrong step count' 220 0
    advised 'The end counts 1 step, and the file has 0: rows were lost or added. Copy *'
}
