# shellcheck shell=bash
# shellcheck disable=SC2034,SC2154 # the variables are those of test_import.sh
# Sourced by test_import.sh: refused sticks with inverters and weather, and what the person is told.

# Sticks that are cut, in every kind of field and between them, that go on, or that another program wrote.
refused_roof_suite() {
    local place
    for place in 180 182 183 201 202 300 466 1038 1040 1056 1057 1058 1084 5153 5159; do
        head -c "$place" examples/roof.stick >"$work/cut"
        not_run "$work/cut"
        check 1 "$("$import" check "$work/cut" 2>/dev/null)" "import: $work/cut: refused; nothing is shown" \
            table "$work/cut" "$work/roof.result"
    done
    head -c 1057 examples/roof.stick >"$work/cut"
    refused "$work/cut" 8 'end field missing' 1057 0
    cat examples/roof.stick examples/season.stick >"$work/joined"
    refused "$work/joined" 9 'bytes after the end' 5160 96
    not_run "$work/joined"
    # The head of one and the steps of the other.
    { head -c 1038 examples/roof.stick && tail -c +181 examples/season.stick; } >"$work/joined"
    complete "$work/joined" 336
    not_shown "$work/joined" "$work/season.result" 0 "$(due Step 0 unit 0) is due there. What differs: *delivered kW*"
    { head -c 180 examples/season.stick && tail -c +1039 examples/roof.stick; } >"$work/joined"
    complete "$work/joined" 96
    tr '\006' '\011' <examples/roof.stick >"$work/joined"
    refused "$work/joined" 3 'wrong length' 0 0
    cp examples/roof.stick "$work/joined"
    patch "$work/joined" 180 0D
    refused "$work/joined" 2 'unknown tag' 180 0
}

# piece FROM BYTES..: bytes of the sample; its inverters begin at 180, 466 and 752, with their curves 22 and 154 bytes
# further, and its first two steps at 1038 and 1084, each a weather of 19 bytes and a reading of 27.
piece() {
    while [ $# != 0 ]; do
        tail -c +$(($1 + 1)) examples/roof.stick | head -c "$2"
        shift 2
    done
}

# out_of_order PLACE STEPS WORDS FROM BYTES..: a stick of these pieces has a field out of order.
out_of_order() {
    local place=$1 steps=$2 words=$3
    shift 3
    piece "$@" >"$work/pieces"
    refused "$work/pieces" 4 'field out of order' "$place" "$steps"
    advised "Here the file has $words"
}

# The words for each field, where it is out of order, of the wrong length, cut short, or has a value that is refused.
roof_words_suite() {
    local inverter='180 22' curve='202 132' weather='1038 19' reading='1057 27' end='5153 7' place words name k
    local anew='a field is missing, or this one is there twice or in the wrong place. Copy the stick again; if it*'
    local early='connections, inverters, the function and all curves come before the first step. Copy the stick *'
    local copy='Copy the stick again; if it stays so,' third='unit 2, the 3rd unit,'
    # shellcheck disable=SC2086 # the pieces are words
    {
        out_of_order 0 0 "inverter 0, the 1st inverter, where the fleet should be: $anew" $inverter
        out_of_order 0 0 "a curve, where the fleet should be: $anew" $curve
        out_of_order 0 0 "a weather, where the fleet should be: $anew" $weather
        out_of_order 9 0 "inverter 0, the 1st inverter, where unit 0, the 1st unit, should be: $anew" 0 9 $inverter
        out_of_order 61 0 "a weather, where unit 1, the 2nd unit, should be: $anew" 0 61 $weather
        out_of_order 61 0 "the settings, where unit 1, the 2nd unit, should be: $anew" 0 61 165 15
        out_of_order 113 0 "the end, where $third should be: $anew" 0 113 $end
        out_of_order 165 0 "unit 3, the 4th unit, where the settings should be: $anew" 0 165 9 52
        out_of_order 165 0 "a reading, where the settings should be: $anew" 0 165 $reading
        out_of_order 180 0 "a curve, where the connections, an inverter, the function, a step or the end should be: \
$anew" 0 180 $curve
        out_of_order 180 0 "the settings, where the connections, an inverter, the function, a step or the end should \
be: $anew" 0 180 165 15
        out_of_order 202 0 "inverter 1, the 2nd inverter, where the temperature curve of inverter 0, the 1st inverter, \
should be: $anew" 0 202 $inverter
        out_of_order 202 0 "a weather, where the temperature curve of inverter 0, the 1st inverter, should be: $anew" \
            0 202 $weather
        out_of_order 334 0 "a reading, where the efficiency curve of inverter 0, the 1st inverter, should be: $anew" \
            0 334 $reading
        out_of_order 334 0 "the end, where the efficiency curve of inverter 0, the 1st inverter, should be: $anew" \
            0 334 $end
        out_of_order 466 0 "a curve, where an inverter, the function, a step or the end should be: $anew" 0 466 $curve
        out_of_order 620 0 "inverter 2, the 3rd inverter, where the efficiency curve of inverter 1, the 2nd inverter, \
should be: $anew" 0 620 $inverter
        out_of_order 1057 0 "a weather, where the reading that follows a weather should be: $anew" 0 1057 $weather
        out_of_order 1057 0 "the settings, where the reading that follows a weather should be: $anew" 0 1057 165 15
        out_of_order 1057 0 "inverter 3, the 4th inverter, where the reading that follows a weather should be: $early" \
            0 1057 $inverter
        out_of_order 1057 0 "the end, and the weather before it has no reading, which would close step 0, the 1st row. \
$copy ask the manager for that row, or to leave that weather out, and to write the stick anew. import rescue keeps *" \
            0 1057 $end
        out_of_order 1084 1 "inverter 3, the 4th inverter, where a step or the end should be: $early" 0 1084 $inverter
        out_of_order 1084 1 "a curve, where a step or the end should be: $early" 0 1084 $curve
        out_of_order 1103 1 'the end, and the weather *, which would close step 1, the 2nd row. *' 0 1103 $end
        out_of_order 1084 1 "the fleet, where a step or the end should be: $anew" 0 1084 0 9
    }
    # Behind all the inverters that there can be.
    head -c 18484 examples/refused-04-inverter-too-many.stick >"$work/pieces"
    cp "$work/pieces" "$work/inverters"
    piece 202 132 >>"$work/pieces"
    refused "$work/pieces" 4 'field out of order' 18484 0
    advised 'Here the file has a curve, where the function, a step or the end should be: a field is missing*'

    # A cut-out above its cut-in, in inverters of many numbers; and each curve.
    while read -r k words; do
        cp "$work/inverters" "$work/pieces"
        patch "$work/pieces" $((180 + 286 * k + 13)) 7FFF
        refused "$work/pieces" 5 'value out of range' $((180 + 286 * k)) 0
        advised "The cut-out of inverter $k, the $words inverter, is 32,767 parts in 10,000; it may be 0 to its \
cut-in, which is 300 parts in 10,000. $copy ask the manager to correct it and to write the stick anew."
        for name in 'temperature 22' 'efficiency 154'; do
            cp "$work/inverters" "$work/pieces"
            place=$((180 + 286 * k + ${name#* }))
            patch "$work/pieces" $((place + 3)) 11
            refused "$work/pieces" 5 'value out of range' "$place" 0
            advised "The number of points of the ${name% *} curve of inverter $k, the $words inverter, is 17; it may \
be 2 to 16. $copy ask the manager to correct it and to write the stick anew."
        done
    done <<'END'
0 1st
1 2nd
2 3rd
3 4th
10 11th
11 12th
12 13th
20 21st
21 22nd
22 23rd
63 64th
END

    # Cut short, and of a wrong length.
    while IFS='|' read -r place k name words; do
        head -c $((place + 3)) examples/roof.stick >"$work/pieces"
        refused "$work/pieces" 1 'field cut short' "$place" "$k"
        advised "The file ends in the middle of $words: 3 of its $((16#${name#* } + 3)) bytes are there. The copy is \
not whole. $copy ask the manager for a new one."
        cp examples/roof.stick "$work/pieces"
        patch "$work/pieces" $((place + 1)) 01
        refused "$work/pieces" 3 'wrong length' "$place" "$k"
        advised "Here the file has $words, with the tag hex ${name% *} ($((16#${name% *}))) and the length hex \
01${name#* } ($((16#01${name#* }))); the length should be hex 00${name#* } ($((16#${name#* }))): bytes were changed *"
    done <<'END'
0|0|01 06|the fleet
165|0|03 0C|the settings
180|0|06 13|inverter 0, the 1st inverter
202|0|07 81|the temperature curve of inverter 0, the 1st inverter
334|0|07 81|the efficiency curve of inverter 0, the 1st inverter
752|0|06 13|inverter 2, the 3rd inverter
906|0|07 81|the efficiency curve of inverter 2, the 3rd inverter
1038|0|08 10|the weather of step 0, the 1st row
1057|0|04 18|the reading of step 0, the 1st row
1084|1|08 10|the weather of step 1, the 2nd row
5153|96|7F 04|the end
END
    head -c 182 examples/roof.stick >"$work/pieces"
    refused "$work/pieces" 1 'field cut short' 180 0
    advised "The file ends in the middle of a field's tag and length. The copy is not whole. $copy ask the manager *"
}

# The sample sticks: what each message says, where, and what to do.
roof_check_suite() {
    local copy='Copy the stick again; if it stays so,'
    refused examples/refused-04-curve-missing.stick 4 'field out of order' 620 0
    advised "Here the file has inverter 2, the 3rd inverter, where the efficiency curve of inverter 1, the 2nd \
inverter, should be: a field is missing, or this one is there twice or in the wrong place. $copy do not repair the file; ask the \
manager to write the stick anew. "
    refused examples/refused-04-inverter-too-many.stick 4 'field out of order' 18484 0
    advised "Here the file has inverter 64, the 65th inverter, and a stick holds at most 64. $copy ask the manager to \
write it anew with no more inverters than that. "
    refused examples/refused-04-weather-without-reading.stick 4 'field out of order' 5172 96
    advised "Here the file has the end, and the weather before it has no reading, which would close step 96, the 97th \
row. $copy ask the manager for that row, or to leave that weather out, and to write the stick anew. import rescue *"
    refused examples/refused-05-curve-out-of-order.stick 5 'value out of range' 202 0
    advised "The x of point 1, the 2nd point, of the temperature curve of inverter 0, the 1st inverter, is 75,000 \
thousandths of a degree C; it must be above that of the point before it, which is 100,000 thousandths of a degree C. \
Besides, 2 more of its values are wrong; import show marks them. $copy ask the manager to correct it and to write the \
stick anew. "
    refused examples/refused-05-cut-out-above-cut-in.stick 5 'value out of range' 466 0
    advised "The cut-out of inverter 1, the 2nd inverter, is 150 parts in 10,000; it may be 0 to its cut-in, which is \
100 parts in 10,000. $copy ask the manager to correct it and to write the stick anew. "
    refused examples/refused-06-irradiance-below-zero.stick 6 'reading not usable' 1176 3
    advised "The irradiance in step 3, the 4th row, is -0.004 kW/m2, below 0; it may be 0 to 100,000 kW/m2. $copy ask \
the manager for the weather of that row, and have it entered again or left out; without it the step has no sun. *"
    refused examples/refused-06-weather-not-usable.stick 6 'reading not usable' 3564 60
    advised "The temperature in step 60, the 61st row, is infinite; it may be -100,000 to 100,000 degrees C. $copy *"
}
