# shellcheck shell=bash
# shellcheck disable=SC2034,SC2154 # the variables are those of test_import.sh
# Sourced by test_import.sh: show: the refused field by its names, and all that a complete stick says; and files that
# are no sticks.

# The refused field of each kind, with tag and length, and what of it is there.
show_refused_suite() {
    local stick=examples/season.stick name
    call show examples/refused-01-cut-short.stick
    shown '    At byte 5,412: the reading of step 200, the 201st row, 14 of its 27 bytes:' \
        '                value           here              may be                    bytes' \
        '                  tag  power reading                                           04' \
        '               length             24                  24                    00 18' \
        '  power of phase 1 kW         63.800  100,000 either way  40 4F E6 66 66 66 66 66' \
        '  power of phase 2 kW      cut short  100,000 either way                 40 51 46' \
        '  power of phase 3 kW        missing  100,000 either way                        -'
    call show examples/refused-02-unknown-tag.stick
    shown '    At byte 1,776: an unknown field, 27 bytes:' '        value     here  may be  bytes' \
        'wrong     tag  unknown             84' '       length       24          00 18' \
        '    The 24 value bytes that its length says:' \
        '        1779  C0 17 33 33 33 33 33 33 C0 23 00 00 00 00 00 00' '        1795  C0 2A 66 66 66 66 66 66'
    call show examples/refused-03-wrong-length.stick
    shown '    At byte 61: unit 1, the 2nd unit, 3 bytes:' '        value  here  may be  bytes' \
        '          tag  unit             02' 'wrong  length     0      49  00 00'
    call show examples/refused-03-unit-without-var-limits.stick
    shown '    At byte 69: unit 1, the 2nd unit, 52 bytes:' '        value  here  may be  bytes' \
        '          tag  unit             02' 'wrong  length    49      57  00 31' \
        '    The 49 value bytes that its length says:' \
        '          72  00 00 00 00 13 4F D9 00 00 00 00 00 01 EE 62 80' \
        '          88  00 00 00 00 11 2A 88 00 00 00 4E 20 00 00 52 08' \
        '         104  00 00 00 6E 00 00 3A 98 00 02 25 80 25 1C 25 1C' '         120  00'
    call show examples/refused-04-out-of-order.stick
    shown '    At byte 113: the settings, 15 bytes:' \
        '               value                       here                  may be        bytes' \
        '                 tag                   settings                                   03' \
        '              length                         12                      12        00 0C' \
        '                mode              1 (PeakShave)                  1 to 5           01' \
        '            target W                    120,000  100,000,000 either way  00 01 D4 C0' \
        '              band W                      6,000        0 to 200,000,000  00 00 17 70' \
        '  factor thousandths                      1,000              1 to 1,000        03 E8' \
        '        phase choice  0 (the sum of the phases)                  0 to 5           00'
    call show examples/refused-05-cut-out-above-cut-in.stick
    shown '    At byte 466: inverter 1, the 2nd inverter, 22 bytes:' \
        '                 value             here                  may be        bytes' \
        '                   tag         inverter                                   06' \
        '                length               19                      19        00 13' \
        '         array power W           90,000        1 to 100,000,000  00 01 5F 90' \
        '       kVA rating S VA           75,000        1 to 100,000,000  00 01 24 F8' \
        '                cut-in              100             0 to 10,000        00 64' \
        'wrong          cut-out              150         0 to the cut-in        00 96' \
        '                 limit            7,000             0 to 10,000        1B 58' \
        '       var request var          -12,000  100,000,000 either way  FF FF D1 20' \
        '              priority  0 (watts first)                  0 to 1           00' \
        '    In parts in 10,000: cut-in, cut-out, limit.'
    call show examples/refused-06-irradiance-below-zero.stick
    shown '    At byte 1,176: the weather of step 3, the 4th row, 19 bytes:' \
        '                  value     here              may be                    bytes' \
        '                    tag  weather                                           08' \
        '                 length       16                  16                    00 10' \
        'wrong  irradiance kW/m2   -0.004        0 to 100,000  BF 70 62 4D D2 F1 A9 FC' \
        '            temperature   10.800  100,000 either way  40 25 99 99 99 99 99 9A' '    In degrees C: temperature.'
    call show examples/refused-06-current-below-zero.stick
    shown '    At byte 4,402: the reading of step 88, the 89th row, 27 bytes:' \
        '                      value             here        may be                    bytes' \
        '                        tag  current reading                                     09' \
        '                     length               24            24                    00 18' \
        '       current of phase 1 A           78.260  0 to 100,000  40 53 90 A3 D7 0A 3D 71' \
        'wrong  current of phase 2 A          -63.200  0 to 100,000  C0 4F 99 99 99 99 99 9A' \
        '       current of phase 3 A           72.240  0 to 100,000  40 52 0F 5C 28 F5 C2 8F'
    call show examples/refused-07-wrong-count.stick
    shown '    At byte 9,009: the end, 7 bytes:' '                 value  here  may be        bytes' \
        '                   tag   end                   7F' '                length     4       4        00 04' \
        'wrong  number of steps   336     335  00 00 01 50'
    call show examples/refused-08-end-missing.stick
    shown '    There is no field to show: the file ends before it.'
    call show examples/refused-09-bytes-after-end.stick
    shown '    The first bytes behind the end:' '        9043  04 00 18 40 3B 19 99 99 99 99 9A 40 37 66 66 66' \
        '        9059  66 66 66 40 33 B3 33 33 33 33 33 04 00 18 40 35'
    call show examples/refused-12-too-many-steps.stick
    shown '    At byte 196,785: the reading of step 65,535, the 65,536th row, 3 bytes:' \
        '   value             here  may be  bytes' '     tag  missing reading             05' \
        '  length                0       0  00 00'
    head -c 5414 "$stick" >"$work/header"
    call show "$work/header"
    shown '    The bytes that are there of its tag and length:' '        5412  04 00'
    head -c 5415 "$stick" >"$work/header"
    call show "$work/header"
    shown '    At byte 5,412: the reading of step 200, the 201st row, 3 of its 27 bytes:' \
        '                value           here              may be  bytes' \
        '                  tag  power reading                         04' \
        '               length             24                  24  00 18' \
        '  power of phase 1 kW        missing  100,000 either way      -' \
        '  power of phase 2 kW        missing  100,000 either way      -' \
        '  power of phase 3 kW        missing  100,000 either way      -'
    : >"$work/empty"
    call show "$work/empty"
    shown '    There is no field to show: the file ends before it.'
    { cat "$stick" && printf '\xEE'; } >"$work/header"
    call show "$work/header"
    shown '    The first bytes behind the end:' '        9043  EE'
}

# The longest tables: a curve without a row for what is 0 past its last point, and with one for what is not; connections
# of as many units as there can be; and a unit whose every byte is the largest.
show_large_suite() {
    local points='    Past the last point 24 values are 0, as they should be.'
    call show examples/refused-05-curve-out-of-order.stick
    good test "$(grep -c ' of point ' "$work/output")|$(grep -c "$points" "$work/output")" = '9|1'
    good test "$(grep '^wrong\|^    In' "$work/output")" = \
        'wrong      x of point 1   75,000  100,000,000 either way  00 01 24 F8
wrong      x of point 2   25,000  100,000,000 either way  00 00 61 A8
wrong      x of point 3        0  100,000,000 either way  00 00 00 00
    In thousandths of a degree C: x. In parts in 10,000: y.'
    values_stick
    cp "$work/values" "$work/wrong"
    patch "$work/wrong" 303 00000005
    call show "$work/wrong"
    good test "$(grep -c '^ *[xy] of point \|^wrong' "$work/output")|$(grep '^wrong' "$work/output")" = \
        '5|wrong     y of point 15       5             0 to 20,000  00 00 00 05'
    good test "$(grep -c 'Past the last point 27 values are 0, as they should be.' "$work/output")" = 1
    # Where the number of points is wrong nothing is left out.
    patch "$work/wrong" 178 11
    call show "$work/wrong"
    good test "$(grep -c '[xy] of point ' "$work/output")|$(grep -c '^wrong' "$work/output")" = '32|1'

    {
        bytes 01 0006 02 40 0000003C
        repeated "$(unit_v 0 0 1000 1000)" 64
        bytes "$(settings 4 0 0)" 0A 00C0
        repeated '01 00E6' 63
        bytes '02 9C41'
    } >"$work/wrong"
    refused "$work/wrong" 5 'value out of range' 3864 0
    advised 'The number of phases of unit 63, the 64th unit, in the connections is 2; it may be 1 or 3. Besides, 1 *'
    call show "$work/wrong"
    good test "$(grep -c ' of unit ' "$work/output")|$(grep '^wrong' "$work/output")" = \
        '129|wrong            number of phases of unit 63            2       1 or 3     02
wrong  phase-to-neutral voltage of unit 63 V       40,001  1 to 40,000  9C 41'
    cp examples/vineyard.stick "$work/wrong"
    patch "$work/wrong" 12 "$(printf 'FF%.0s' {1..57})"
    call show "$work/wrong"
    good test "$(grep -c '^wrong' "$work/output")|$(tail -n +2 "$work/output" | wc -L)" = '9|99'
    good test "$(grep 'rated energy J' "$work/output")" = 'wrong        rated energy J  18446744073709551615  1 to '\
'10,000,000,000,000  FF FF FF FF FF FF FF FF'
}

voltage_contents='examples/voltage.stick: complete, 48 steps
    Edition 2: 3 units, 2 inverters, a function, 48 steps of 3,600 s. All are counted from 0, as in
    the file: unit 0 is the 1st unit.
    Mode 1 (PeakShave): the units give while the measure is above the target. The measure is the sum
    of the three phases. Target 45.000 kW, band 3.000 kW, factor 0.700.

unit  rated kWh  reserve kWh  stored kWh    R kW   S kVA  idle loss W  weight
   0    300.000       30.000     280.000  30.000  33.000          160       4
   1    180.000       18.000     170.000  20.000  20.000          110       3
   2     25.000        5.000      25.000   8.000   9.000           50       2

unit  inverter %  charge %  discharge %  request var  first  provide var  absorb var
   0       97.00     96.00        96.00        5,000  watts       33,000      15,000
   1       97.00     96.00        96.00            0   vars       20,000      20,000
   2       97.00     96.00        96.00       -1,000  watts        9,000       9,000

inverter  array kW   S kVA  cut-in %  cut-out %  limit %  request var  first
       0    60.000  50.000      2.00       1.00   100.00            0  watts
       1    90.000  75.000      1.50       1.00    70.00      -12,000  watts

    The temperature curve of inverter 0, the 1st inverter: 120.00 % at 0.000 degrees C, 100.00 % at
    25.000, 80.00 % at 75.000, 60.00 % at 100.000.
    The efficiency curve of inverter 0, the 1st inverter: 86.00 % at 0.100 kW DC per kVA, 90.00 % at
    0.200, 93.00 % at 0.400, 97.00 % at 1.000.
    The temperature curve of inverter 1, the 2nd inverter: 118.00 % at -20.000 degrees C, 76.00 % at
    85.000.
    The efficiency curve of inverter 1, the 2nd inverter: 90.00 % at 0.050 kW DC per kVA, 95.00 % at
    0.100, 97.60 % at 0.300, 98.00 % at 0.500, 97.50 % at 1.000.
    The function gives vars by the voltage, as a part of what the watts leave of S.
    The volt-var curve: 100.00 % at 0.9200 per unit, 0.00 % at 0.9800, 0.00 % at 1.0200, -100.00 %
    at 1.0800.

    Smallest measure 11.300 kW at step 11, the 12th row.
    Largest measure 98.500 kW at step 41, the 42nd row; 2 readings missing.
    Missing: step 13, the 14th row; step 32, the 33rd row.'

# says LINE..: these lines are among those of a complete stick that was shown.
says() {
    local line
    good test "$status|$error" = '0|'
    for line in "$@"; do
        good grep -qxF -e "$line" "$work/output"
    done
}

# What each of the sample sticks says, and that it fits a screen; and what the smallest and the largest say.
show_complete_suite() {
    local name steps mode phase
    for name in examples/*.stick; do
        call show "$name"
        good like "$status" '[01]'
        good test "$(tail -n +2 "$work/output" | wc -L)" -le 100
        good test "$(grep -c ' $' "$work/output")" = 0
    done
    check 0 "$voltage_contents"$'\n'"$about" '' show examples/voltage.stick
    call show examples/dairy.stick
    says '    Mode 4 (I-PeakShave): the units give while the measure is above the target. The measure is the' \
        '    largest of the three phases. Target 63.000 A, band 2.000 A, factor 0.800.' 'unit  phases   volts' \
        '   0       3     230' '   1       1     230' '   2       3  10,000' \
        '    Smallest measure 29.600 A at step 0, the 1st row.' \
        'unit  inverter %  charge %  discharge %  request var  first' \
        '   2       96.00     95.00        95.00       -6,000  watts'
    call show examples/mill.stick
    says '    Edition 3 (the older storage model: idle loss at the grid): 3 units, 96 steps of 900 s. All are' \
        '    Missing: step 0, the 1st row; step 1, the 2nd row; step 2, the 3rd row; step 3, the 4th row;' \
        '    step 23, the 24th row; and 2 more.'
    call show examples/roof.stick
    says '    Mode 3 (PeakShaveLow): the units take while the measure is below the target. The measure is the' \
        '    sum of the three phases. Target -15.000 kW, band 3.000 kW, factor 0.700.'

    # One of each; none that is missing, and none at all; and settings of every kind.
    values_stick
    call show "$work/values"
    says '    Edition 2: 2 units, 1 inverter, a function, 1 step of 60 s. All are counted from 0, as in the' \
        '    The function gives vars by the voltage, as a part of S.' \
        '    Largest measure 0.500 kW at step 0, the 1st row; 0 readings missing.' 'unit  phases  volts' \
        '   1       3    230'
    good test "$(grep -c Missing: "$work/output")" = 0
    call show "$work/none"
    says '    Edition 1: 1 unit, 0 steps of 60 s. All are counted from 0, as in the file: unit 0 is the 1st' \
        '    It has no readings.'
    call show "$work/whole"
    says '    It has no measure: 1 reading missing, which is all.' '    Missing: step 0, the 1st row.'
    bytes "$head_d $missing $missing $(end 2)" >"$work/wrong"
    complete "$work/wrong" 2
    call show "$work/wrong"
    says '    It has no measure: 2 readings missing, which is all.' \
        '    Missing: step 0, the 1st row; step 1, the 2nd row.'
    while IFS='|' read -r mode phase name steps; do
        steps="${steps%@*}. Target -1.001 ${steps#*@}, band 1.001 ${steps#*@}"
        bytes "$fleet_1 $(unit_d 500000) $efficiencies_d 03 000C $mode FFFFFC17 000003E9 0001 $phase" \
            "$([ "$mode" -lt 4 ] || joined 400 3) $(end 0)" >"$work/wrong"
        call show "$work/wrong"
        good test "$(sed -n '/^    Mode/,/^$/p' "$work/output" | sed 's/^ *//' | tr '\n' ' ')" = "Mode $((10#$mode)) \
($name. The measure is $steps, factor 0.001.  "
    done <<'END'
01|00|PeakShave): the units give while the measure is above the target|the sum of the three phases@kW
02|01|Support): the units give while measure and target together are above 0|phase 1@kW
03|02|PeakShaveLow): the units take while the measure is below the target|phase 2@kW
04|04|I-PeakShave): the units give while the measure is above the target|the largest of the three phases@A
05|05|I-PeakShaveLow): the units take while the measure is below the target|the smallest of the three phases@A
01|03|PeakShave): the units give while the measure is above the target|phase 3@kW
END
    # As many units and inverters as there can be, each value as wide as it gets.
    {
        bytes 01 0006 02 40 00015180
        repeated "02 0039 000009184E72A000 000009184E72A000 000009184E72A000 05F5E100 05F5E100 00989680 FA0A1F00 2710
            2710 2710 2710 01 05F5E100 05F5E100" 64
        bytes "$(settings 1 0 0)"
        repeated "06 0013 05F5E100 05F5E100 2710 2710 2710 FA0A1F00 01 $(level 10000) $(level 9500)" 64
        bytes "$(end 0)"
    } >"$work/wrong"
    call show "$work/wrong"
    says '  63  2,777,777.778  2,777,777.778  2,777,777.778  100,000.000  100,000.000   10,000,000  10,000' \
        '  63      100.00    100.00       100.00  -100,000,000   vars  100,000,000  100,000,000' \
        '      63  100,000.000  100,000.000    100.00     100.00   100.00  -100,000,000   vars'
    good test "$(grep -c '^  63 ' "$work/output")|$(grep -c 'curve of inverter' "$work/output")" = '2|128'
    good test "$(tail -n +2 "$work/output" | wc -L)" -le 100
}

# foreign NUMBER NAME WORDS HEX..: a file of these bytes is told to be no stick.
foreign() {
    local number=$1 name=$2 words=$3
    shift 3
    bytes "$@" >"$work/foreign"
    refused "$work/foreign" "$number" "$name" 0 0
    advised "$words Copy the stick again, and see that it is the stick's own file; if it stays so, ask the manager \
which file that is. "
    call show "$work/foreign"
    shown '    The first bytes of the file:' \
        "           0  $(printf '%s' "$@" | tr -d ' ' | head -c 32 | sed 's/../& /g; s/ $//')"
}

foreign_suite() {
    local text='This looks like text: a spreadsheet or a letter, no stick.' kind
    for kind in 'a zip archive, such as a spreadsheet of the kind xlsx or ods|504B0304' \
        'a document of an office program, such as a spreadsheet of the kind xls|D0CF11E0' 'a PDF|255044462D312E34' \
        'a picture (JPEG)|FFD8FFE0' 'a picture (PNG)|89504E470D0A1A0A' 'a picture (GIF)|474946383961' \
        'a gzip archive|1F8B08' 'a 7z archive|377ABCAF271C' 'a RAR archive|526172211A07' 'a program|4D5A9000'; do
        foreign 2 'unknown tag' "This looks like ${kind%|*}, no stick." "${kind#*|}"
    done
    foreign 3 'wrong length' 'This looks like a program, no stick.' 7F454C46
    # Text in several writings, which may begin like a field, or be shorter than one.
    for kind in 737465703B6B57 EFBBBF73746570 FFFE7300 FEFF0073 4772C3BCC39F6520617573 4772FCDF6520617573; do
        foreign 2 'unknown tag' "$text" "$kind"
    done
    foreign 3 'wrong length' "$text" 096B57
    foreign 3 'wrong length' "$text" 0A6B57
    foreign 1 'field cut short' "$text" 61
    foreign 1 'field cut short' "$text" 6162
    for kind in c/import/import.c README.md Makefile; do
        refused "$kind" 2 'unknown tag' 0 0
        advised "$text Copy *"
    done
    refused build/x86_64/import 3 'wrong length' 0 0
    advised 'This looks like a program, no stick. Copy *'
    # Nothing but zeros; and bytes of no kind, which may be a stick whose beginning was changed.
    foreign 2 'unknown tag' \
        'This is no stick: it begins with nothing but zeros, as a file does that was never written.' 0000000000000000
    local none='This is no stick, or its beginning was changed: a stick begins with the bytes 01 00 06, and this file '
    none+=with
    foreign 2 'unknown tag' "$none EE 00 06." EE0006
    foreign 2 'unknown tag' "$none 41 00 06." 410006
    foreign 1 'field cut short' "$none 04." 04
    foreign 1 'field cut short' "$none 04 00 18." 040018
    foreign 3 'wrong length' "$none 7F 00 05." 7F0005
    foreign 3 'wrong length' "$none 02 00 00." 020000
    # A result, and what only begins like its end.
    "$import" run "$work/none" "$work/none.result" >/dev/null
    refused "$work/none.result" 2 'unknown tag' 0 0
    advised 'This is no stick: a stick begins with the bytes 01 00 06, and this file with 1F 00 04. Copy *'
    good test "${output##*$'\n'}" = \
        "    It looks like a result file; where a command takes both, the stick's file comes first."
    foreign 2 'unknown tag' "$none 11 25 00." 112500
    # A stick that is cut within its first field, and one whose fleet has another length, are sticks.
    head -c 8 examples/season.stick >"$work/foreign"
    refused "$work/foreign" 1 'field cut short' 0 0
    advised 'The file ends in the middle of the fleet: 8 of its 9 bytes are there. *'
    bytes 010A0600 >"$work/foreign"
    refused "$work/foreign" 3 'wrong length' 0 0
    advised 'Here the file has the fleet, with the tag hex 01 (1) and the length hex 0A06 (2,566); the length should *'
    rm "$work/foreign"
    # The same of a file that is longer than is taken as a whole.
    head -c 2097153 /dev/zero | tr '\0' a >"$work/foreign"
    for kind in rescue partner; do
        old
        call "$kind" "$work/foreign" "$work/out/result"
        good test "$status|${output%%$'\n'*}" = \
            "1|$work/foreign: refused 12 (too many bytes or steps) at byte 0 after 0 steps"
        advised "$text Copy *"
    done
    rm "$work/foreign"
}

# What the README shows of a damaged stick, its field and its rescue, of a season and of its peak is what is printed.
readme_suite() {
    local line folder=$work/readme
    mkdir "$folder"
    ln -s "$PWD/examples" "$folder/examples"
    sed -n '/^## A damaged stick/,/^## A partner/s/^    //p' README.md >"$work/shown"
    good test "$(grep -c '^\$ build/import ' "$work/shown")" = 8
    while read -r line; do
        echo "$line"
        # shellcheck disable=SC2001 # every one of them
        (cd "$folder" && eval "$(sed "s#^\\\$ build/import#'$OLDPWD/$import'#" <<<"$line")" 2>&1)
    done < <(grep '^\$ ' "$work/shown") >"$work/printed"
    called='what the README shows' status='' output='' error=''
    good diff "$work/shown" <(grep . "$work/printed")
    rm -r "$folder" "$work/shown" "$work/printed"
}
