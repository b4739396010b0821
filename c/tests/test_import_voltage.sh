# shellcheck shell=bash
# shellcheck disable=SC2034,SC2154 # the variables are those of test_import.sh
# Sourced by test_import.sh: sticks with a function, whose vars go by the voltage.

# A function's base and its curve, that of the grid operators: all vars up to 0.92 per unit, none from 0.98 to 1.02, and
# all the other way from 1.08 on; and a voltage in ten-thousandths of per unit.
function_of() { printf '0B 0001 %02X' "$1"; }
curve_of() { printf '07 0081 %02X %s %0*d' "$1" "$2" $((2 * (128 - 8 * $1))) 0; }
volt_var=$(curve_of 4 '000023F0 00002710 00002648 00000000 000027D8 00000000 00002A30 FFFFD8F0')
voltage() { printf '0C 0002 %04X' "$1"; }

# Half a kW; no power. What comes before the function, of 84 bytes; that with a function, of 220; and with
# an inverter before it, of 370, whose curves are at 106 and 238.
half_kw='04 0018 3FE0000000000000 0000000000000000 0000000000000000'
no_kw="04 0018 $(printf '%048d' 0)"
plain_head="$fleet_e2 $(unit_v 0 700 600 300) $(settings 1 0 0)"
led_head="$plain_head $(function_of 0) $volt_var"
sunny_head="$plain_head $(inverter 10000 100 5000) $(level 10000) $(level 9500)"
led_steps="$half_kw $(voltage 9500) $missing $missing $(voltage 10800) $missing $missing $(voltage 10000) $missing"
sunny_steps="$clear $(voltage 9500) $missing $missing $clear $missing $clear $(voltage 10800) $missing $(end 4)"

# led_sticks: a unit of 1,000 VA that gives 500 W, of which 866 var are left, under either base; an inverter beside it,
# of 8,000 VA and 5,000 W; a function and no voltage; none of both; and a function without steps.
led_sticks() {
    bytes "$led_head $led_steps $(end 6)" >"$work/led0"
    bytes "$plain_head $(function_of 1) $volt_var $led_steps $(end 6)" >"$work/led1"
    bytes "$sunny_head $(function_of 0) $volt_var $sunny_steps" >"$work/led_roof0"
    bytes "$sunny_head $(function_of 1) $volt_var $sunny_steps" >"$work/led_roof1"
    bytes "$led_head $half_kw $missing $(end 2)" >"$work/not_led"
    bytes "$plain_head $half_kw $missing $(end 2)" >"$work/plain"
    bytes "$led_head $(end 0)" >"$work/led_none"
}

# vars_of NAME: the vars of a stick's table, of each step those of the unit and then of the inverter.
vars_of() {
    "$import" table "$work/$1" "$work/$1.result" | tail -n +2 | cut -f 5 | tr '\n' ' '
}

# ends_of NAME: the last lines of a stick's summary, with one blank between the columns.
ends_of() {
    "$import" summary "$work/$1" "$work/$1.result" | sed -n '/high_var/,$p' | tail -n +2 | sed 's/^ *//; s/  */ /g'
}

voltage_suite() {
    local name steps stick=examples/voltage.stick
    led_sticks
    while read -r name steps; do
        complete "$work/$name" "$steps"
        check 0 "$work/$name: complete, $steps steps" '' run "$work/$name" "$work/$name.result"
        call table "$work/$name" "$work/$name.result"
        good test "$status|$(fronts <"$work/output")|$error" = "0|$(decoded "$work/$name.result")|"
    done <<<$'led0 6\nled1 6\nled_roof0 4\nled_roof1 4\nnot_led 2\nplain 2\nled_none 0'

    # Its own 700 var before the first voltage, of which 600 may be provided; half of the base; the same without a
    # voltage; the whole base, of which 300 may be absorbed; the same; and none.
    good test "$(vars_of led0)" = '600 500 500 -300 -300 0 '
    good test "$(vars_of led1)" = '600 433 433 -300 -300 0 '
    good test "$(ends_of led0)" = '0 600 0 -300 3'
    good test "$(ends_of led1)" = '0 600 0 -300 3'
    # Of an inverter that is off none; what was requested of it stands. Beside 5,000 W there are 6,244 var.
    good test "$(vars_of led_roof0)" = '500 4000 500 0 500 4000 -300 -6244 '
    good test "$(vars_of led_roof1)" = '500 3122 500 0 500 3122 -300 -6244 '
    good test "$(ends_of led_roof0)" = $'0 500 0 -300 3\ninverter 0 4,000 0 -6,244 3'
    good test "$(ends_of led_roof1)" = $'0 500 0 -300 3\ninverter 0 3,122 0 -6,244 3'
    good test "$(ends_of led_none)" = '0 - - - -'
    # A function changes nothing before the first voltage.
    good cmp "$work/not_led.result" "$work/plain.result"
    not_shown "$work/led0" "$work/led1.result" 40 "$(due Step 1 unit 0) is due there. What differs: vars."

    # The sample: the vars beside what other means make of them.
    complete "$stick" 48
    check 0 "$stick: complete, 48 steps" '' run "$stick" "$work/voltage.result"
    good test "$(wc -c <"$work/voltage.result")" = $(((40 * 3 + 29 * 2) * 48 + 7))
    call table "$stick" "$work/voltage.result"
    good test "$status|$(fronts <"$work/output")|$error" = "0|$(decoded "$work/voltage.result")|"
    steps=$(var_ends <"$work/output")
    call summary "$stick" "$work/voltage.result"
    good test "$status|$error|$(tail -n 6 "$work/output" | sed 's/^ *//; s/  */ /g')" = "0||$steps"
    good test "$(tail -n 6 "$work/output")" = "$voltage_ends"
    # The study is about requests alone.
    call settle "$stick" 60000
    good like "$status|$error|$output" "0||$stick: settled after *"
    # The same through a pipe, and in chunks that cut every field.
    old
    piped "$stick" run - "$work/out/result"
    good test "$status|$output|$error" = '0|-: complete, 48 steps|'
    good cmp "$work/out/result" "$work/voltage.result"
    { bytes "$led_head" && repeated "$clear $(voltage 9500) $no_kw" 3000 && bytes "$(end 3000)"; } >"$work/led_long"
    good test "$(wc -c <"$work/led_long")" = $((220 + 51 * 3000 + 7))
    check 0 "$work/led_long: complete, 3000 steps" '' run "$work/led_long" "$work/led_long.result"
    good test "$("$import" table "$work/led_long" "$work/led_long.result" | tail -n +2 | cut -f 5 | sort | uniq -c |
        sed 's/^ *//')" = '3000 500'
}

voltage_ends='      unit  high_var  at_step  low_var  at_step
         0    28,495       43  -15,000       12
         1    15,626       43  -19,999       13
         2     8,999       19   -8,999       13
inverter 0    49,860       19  -15,133       15
inverter 1    74,760       19  -40,693       13'

# Fields that stand where they may not, and what should be there.
voltage_order_suite() {
    local order='field out of order' led none lone
    local anew='a field is missing, or this one is there twice or in the wrong place. Copy the stick again; if it*'
    local early='connections, inverters, the function and all curves come before the first step. Copy the stick *'
    local copy='Copy the stick again; if it stays so, ' first='inverter 0, the 1st inverter,' temperature
    temperature="the temperature curve of $first"
    led=$(function_of 0)
    none='Here the file has a voltage, and the stick has no function, whose curve would say which vars it asks for. '
    none+="${copy}ask the manager for the function, or to leave all voltages out, and to write the stick anew."
    # A voltage without a function, wherever one could stand with it; and where none could.
    turned_down 4 "$order" 84 0 "$none" "$plain_head $(voltage 9500) $missing $(end 1)"
    turned_down 4 "$order" 87 1 "$none" "$plain_head $missing $(voltage 9500) $missing"
    turned_down 4 "$order" 103 0 "$none" "$plain_head $clear $(voltage 9500) $missing"
    turned_down 4 "$order" 90 0 "$none" "$plain_head $(joined 230 1) $(voltage 9500) $missing"
    turned_down 4 "$order" 370 0 "$none" "$sunny_head $(voltage 9500) $missing"
    lone='Here the file has a voltage, where'
    turned_down 4 "$order" 0 0 "$lone the fleet should be: $anew" "$(voltage 9500)"
    turned_down 4 "$order" 9 0 "$lone unit 0, the 1st unit, should be: $anew" "$fleet_e2 $(voltage 9500)"
    turned_down 4 "$order" 106 0 "$lone $temperature should be: $anew" \
        "$plain_head $(inverter 10000 100 5000) $(voltage 9500)"
    turned_down 4 "$order" 84 0 "$lone the connections should be: in mode 4 (I-PeakShave) *, with the connections." \
        "$fleet_e2 $(unit_v 0 0 0 0) $(settings 4 0 0) $(voltage 9500)"
    turned_down 4 "$order" 88 0 "$lone the volt-var curve should be: $anew" "$plain_head $led $(voltage 9500)"

    # A function too early, twice, behind a step, and without its curve.
    turned_down 4 "$order" 0 0 "Here the file has the function, where the fleet should be: $anew" "$led"
    turned_down 4 "$order" 238 0 "Here the file has the function, where the efficiency curve of $first should be: *" \
        "$plain_head $(inverter 10000 100 5000) $(level 10000) $led"
    turned_down 4 "$order" 88 0 "Here the file has the function, where the volt-var curve should be: $anew" \
        "$plain_head $led $led"
    turned_down 4 "$order" 220 0 "Here the file has the function, where a step or the end should be: $anew" \
        "$led_head $led"
    turned_down 4 "$order" 223 1 "Here the file has the function, where a step or the end should be: $early" \
        "$led_head $missing $led"
    turned_down 4 "$order" 87 1 "Here the file has the function, where a step or the end should be: $early" \
        "$plain_head $missing $led"
    turned_down 4 "$order" 225 0 "*the function, where the reading that follows a voltage should be: $early" \
        "$led_head $(voltage 0) $led"
    turned_down 4 "$order" 88 0 "Here the file has a reading, where the volt-var curve should be: $anew" \
        "$plain_head $led $missing"
    turned_down 4 "$order" 88 0 "Here the file has the end, where the volt-var curve should be: $anew" \
        "$plain_head $led $(end 0)"
    turned_down 4 "$order" 88 0 "Here the file has $first where the volt-var curve should be: $anew" \
        "$plain_head $led $(inverter 10000 100 5000)"
    # Behind the function there are only steps.
    turned_down 4 "$order" 220 0 "Here the file has a curve, where a step or the end should be: $anew" \
        "$led_head $volt_var"
    turned_down 4 "$order" 220 0 "Here the file has $first where a step or the end should be: $anew" \
        "$led_head $(inverter 10000 100 5000)"
    turned_down 4 "$order" 506 0 "Here the file has inverter 1, the 2nd inverter, where a step or the end should *" \
        "$sunny_head $led $volt_var $(inverter 10000 100 5000)"
    turned_down 4 "$order" 220 0 "Here the file has the connections, where a step or the end should be: $anew" \
        "$led_head $(joined 230 1)"

    # A weather or a voltage whose reading does not follow.
    turned_down 4 "$order" 239 0 "*a weather, where the voltage or the reading that follows a weather should be: *" \
        "$led_head $clear $clear"
    turned_down 4 "$order" 225 0 "*a weather, where the reading that follows a voltage should be: $anew" \
        "$led_head $(voltage 1) $clear $missing"
    turned_down 4 "$order" 244 0 "*a voltage, where the reading that follows a voltage should be: $anew" \
        "$led_head $clear $(voltage 1) $(voltage 1)"
    turned_down 4 "$order" 239 0 '*the end, and the weather before it has no reading, *leave that weather out, *' \
        "$led_head $clear $(end 0)"
    none='Here the file has the end, and the voltage before it has no reading, which would close'
    lone=". ${copy}ask the manager for that row, or to leave that voltage out, with its weather if it has one, and to \
write the stick anew. import rescue keeps *"
    turned_down 4 "$order" 225 0 "$none step 0, the 1st row$lone" "$led_head $(voltage 1) $(end 0)"
    turned_down 4 "$order" 247 1 "$none step 1, the 2nd row$lone" "$led_head $missing $clear $(voltage 1) $(end 1)"
    turned_down 8 'end field missing' 225 0 'The file stops after 0 steps, where the reading that follows a voltage '\
'should be: *' "$led_head $(voltage 1)"
    turned_down 8 'end field missing' 242 1 'The file stops after 1 step, where the voltage or the reading that '\
'follows a weather should be: *' "$led_head $missing $clear"
}

# Values out of range, lengths, and fields that are cut short.
voltage_words_suite() {
    local range='value out of range' words place tag len
    for words in 0 20000; do
        bytes "$led_head $(voltage "$words") $missing $(end 1)" >"$work/current"
        complete "$work/current" 1
    done
    bytes "$plain_head $(function_of 1) $(curve_of 2 '00000000 FFFFD8F0 00004E20 00002710') $(end 0)" >"$work/current"
    complete "$work/current" 0
    # An inverter's curve is called by its own name, with a function behind it or not.
    turned_down 5 "$range" 106 0 'The number of points of the temperature curve of inverter 0, the 1st inverter, is *' \
        "$plain_head $(inverter 10000 100 5000) ${volt_var/0081 04/0081 11} $(level 9500) $(function_of 0) $volt_var"

    # Each field with a wrong length and cut short.
    bytes "$led_head $clear $(voltage 9500) $missing $(end 1)" >"$work/led"
    while IFS='|' read -r place tag len words; do
        cp "$work/led" "$work/current"
        patch "$work/current" $((place + 1)) 01
        refused "$work/current" 3 'wrong length' "$place" 0
        advised "Here the file has $words, with the tag hex $tag ($((16#$tag))) and the length hex 01$len \
($((16#01$len))); the length should be hex 00$len ($((16#$len))): bytes were changed or lost here."
        head -c $((place + 3)) "$work/led" >"$work/current"
        refused "$work/current" 1 'field cut short' "$place" 0
        advised "The file ends in the middle of $words: 3 of its $((16#$len + 3)) bytes are there. The copy is not *"
    done <<'END'
84|0B|01|the function
88|07|81|the volt-var curve
220|08|10|the weather of step 0, the 1st row
239|0C|02|the voltage of step 0, the 1st row
END
    # The sample sticks.
    refused examples/refused-04-voltage-without-function.stick 4 'field out of order' 887 2
    advised 'Here the file has a voltage, and the stick has no function, *'
    refused examples/refused-05-volt-var-order.stick 5 "$range" 780 0
    advised 'The x of point 1, the 2nd point, of the volt-var curve is 10,200 ten-thousandths of per unit; it must be '\
'above that of the point before it, which is 10,800 ten-thousandths of per unit. Besides, 2 more of its values are *'
    refused examples/refused-05-voltage-out-of-range.stick 5 "$range" 2213 26
    advised 'The voltage in step 26, the 27th row, is 23,140 ten-thousandths of per unit; it may be 0 to 20,000. Copy '\
'the stick again; if it stays so, ask the manager for the voltage of that row, and have it entered again or left *'
}

# after_cut BYTES STEPS LINE: what is kept of the stick with two led steps that is cut there.
after_cut() {
    head -c "$1" "$work/led" >"$work/damaged"
    rescued "$work/damaged" "$2" '0 readings' "$3"
}

voltage_rescue_suite() {
    local one both kept_one place word
    rescued examples/refused-04-voltage-without-function.stick '2 steps' '0 readings' \
        "the field at byte 887 is out of order: $(ended '2 steps') and 2,275 bytes were left out from byte 868 on, \
where a weather waited for its reading"
    rescued examples/refused-05-voltage-out-of-range.stick '26 steps' '0 readings' \
        "the voltage at byte 2,213 is larger than it may be: $(ended '26 steps') and 1,085 bytes were left out from \
byte 2,194 on, where a weather waited for its reading"
    not_rescued examples/refused-05-volt-var-order.stick
    unchanged examples/voltage.stick 48

    # A step of a voltage, at 220, and one of a weather, at 252, a voltage, at 271, and a reading, at 276.
    bytes "$led_head $(voltage 9500) $half_kw $clear $(voltage 9900) $half_kw $(end 2)" >"$work/led"
    unchanged "$work/led" 2
    one='where a voltage waited for its reading' both='where a weather and a voltage waited for their reading'
    kept_one=$(ended '1 step')
    after_cut 225 '0 steps' "the stick broke off at byte 225, without its end: $(ended '0 steps') and 5 bytes were \
left out from byte 220 on, $one"
    after_cut 230 '0 steps' "the stick broke off within the field at byte 225: $(ended '0 steps') and 10 bytes were \
left out from byte 220 on, $one"
    after_cut 271 '1 step' "the stick broke off at byte 271, without its end: $kept_one and 19 bytes were left out \
from byte 252 on, where a weather waited for its reading"
    after_cut 274 '1 step' "the stick broke off within the field at byte 271: $kept_one and 22 bytes were left out \
from byte 252 on, where a weather waited for its reading"
    after_cut 276 '1 step' "the stick broke off at byte 276, without its end: $kept_one and 24 bytes were left out \
from byte 252 on, $both"
    after_cut 302 '1 step' "the stick broke off within the field at byte 276: $kept_one and 50 bytes were left out \
from byte 252 on, $both"
    after_cut 220 '0 steps' "the stick broke off at byte 220, without its end: $(ended '0 steps') and nothing was left \
out"

    # A voltage out of range, alone; a reading that cannot be used keeps its voltage; one of the wrong kind does not.
    cp "$work/led" "$work/damaged"
    patch "$work/damaged" 223 4E21
    rescued "$work/damaged" '0 steps' '0 readings' "the voltage at byte 220 is larger than it may be: \
$(ended '0 steps') and 90 bytes were left out from there on"
    cp "$work/led" "$work/damaged"
    patch "$work/damaged" 228 7FF8
    patch "$work/damaged" 279 7FF8
    rescued "$work/damaged" '2 steps' '2 readings' "$(unusable 1st 225)" "$(unusable 2nd 276)"
    good test "$(hex "$work/out/result")" = \
        "$(bytes "$led_head $(voltage 9500) $missing $clear $(voltage 9900) $missing $(end 2)" | hex /dev/stdin)"
    cp "$work/led" "$work/damaged"
    patch "$work/damaged" 276 09
    rescued "$work/damaged" '1 step' '0 readings' "the reading at byte 276 is of another kind than the mode goes by: \
$kept_one and 58 bytes were left out from byte 252 on, $both"

    # A field due before the steps, which a function is until a weather, a voltage or a reading has come.
    for place in '84 0D' '85 01' '87 02' '88 05' '91 11' '100 7F'; do
        cp "$work/led" "$work/damaged"
        # shellcheck disable=SC2086 # place and byte are words
        patch "$work/damaged" $place
        word=${place% *}
        if [ "$word" = 84 ]; then
            rescued "$work/damaged" '0 steps' '0 readings' "no field begins like the bytes at byte 84: \
$(ended '0 steps') and 226 bytes were left out from there on"
        else
            not_rescued "$work/damaged"
        fi
    done
    bytes "$led_head $(function_of 0) $missing $(end 1)" >"$work/damaged"
    not_rescued "$work/damaged"
    bytes "$led_head $missing $(function_of 0) $(end 1)" >"$work/damaged"
    rescued "$work/damaged" '1 step' '0 readings' "the field at byte 223 is out of order: $kept_one and 11 bytes were \
left out from there on"
    bytes "$led_head $(voltage 1) $(function_of 0) $(end 1)" >"$work/damaged"
    rescued "$work/damaged" '0 steps' '0 readings' "the field at byte 225 is out of order: $(ended '0 steps') and 16 \
bytes were left out from byte 220 on, $one"
    # A voltage without a function is no field due before the steps.
    bytes "$plain_head $(voltage 1) $missing $(end 1)" >"$work/damaged"
    rescued "$work/damaged" '0 steps' '0 readings' "the field at byte 84 is out of order: $(ended '0 steps') and 15 \
bytes were left out from there on"
}
