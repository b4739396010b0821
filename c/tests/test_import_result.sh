# shellcheck shell=bash
# shellcheck disable=SC2034,SC2154 # the variables are those of test_import.sh
# Sourced by test_import.sh: table and summary: results, and files that are none.

# The tables of small sticks: what the result says, and behind it what the meter saw beside the fleet.
heading=$'step\tunit\trequest W\tdelivered kW\tvars\tstored J\tloss J'
beside=$'\tmeasure W\tfleet W\tnet W'
giving_table="$heading$beside
0	0	900	0.900	0	175749	21750	900	900	0
1	0	900	0.899	0	100074	21735	missing	899	-
2	0	900	-0.012	0	100074	720	missing	-12	-"
taking_table="$heading$beside
0	0	-1000	-1.000	0	957281	17280	-1000	-1000	0
1	0	-1000	-0.999	0	999953	17268	missing	-999	-
2	0	-1000	-0.012	0	999953	720	missing	-12	-"

# fronts <TABLE: a table without its last three columns, as the result says it.
fronts() {
    sed 's/\(\t[^\t]*\)\{3\}$//'
}

# decoded RESULT: the front of the table of a result file, read by other means.
decoded() {
    od -An -v -tu1 -w1 "$1" | awk -v heading="$heading" '
        function number(from, width,    n) { for (n = 0; width-- > 0; from++) n = n * 256 + byte[from]; return n }
        function sign(n) { return n < 2147483648 ? n : n - 4294967296 }
        function kw(from,    e, m) {
            e = byte[from] % 128 * 16 + int(byte[from + 1] / 16)
            m = byte[from + 1] % 16 * 2 ^ 48 + number(from + 2, 6)
            m = e == 0 ? m * 2 ^ -1074 : (m + 2 ^ 52) * 2 ^ (e - 1075)
            return byte[from] < 128 ? m : -m
        }
        function unit(v) {
            return sprintf("%.0f\t%d\t%.0f\t%.3f\t%.0f\t%.0f\t%.0f", number(v, 4), byte[v + 4],
                sign(number(v + 5, 4)), kw(v + 9), sign(number(v + 17, 4)), number(v + 21, 8), number(v + 29, 8))
        }
        function inverter(v) {
            return sprintf("%.0f\tinverter %d\t-\t%.3f\t%.0f\t-\t-\t%d\t%.0f", number(v, 4), byte[v + 4], kw(v + 6),
                sign(number(v + 14, 4)), byte[v + 5], number(v + 18, 8))
        }
        { byte[NR - 1] = $1 }
        END {
            for (at = n = 0; at < NR; at += 3 + number(at + 1, 2)) {
                if (byte[at] == 17) { lines[n] = unit(at + 3); is_unit[n++] = 1 }
                if (byte[at] == 18) { lines[n++] = inverter(at + 3); heads = "\ton\tDC W" }
            }
            print heading heads
            for (at = 0; at < n; at++) print lines[at] (is_unit[at] && heads != "" ? "\t-\t-" : "")
        }'
}

# What awk scripts share that make a summary of a table: numbers with commas, and joules as kWh.
grouping='
    function commas(text,    sign, rest, end) {
        sign = sub(/^-/, "", text) ? "-" : ""
        end = match(text, /\./) ? substr(text, RSTART) : ""
        rest = end == "" ? text : substr(text, 1, RSTART - 1)
        for (; length(rest) > 3; rest = substr(rest, 1, length(rest) - 3)) end = "," substr(rest, length(rest) - 2) end
        return sign rest end
    }
    function thousandths(n) { return commas(sprintf("%.3f", n / 1000)) }
    function kwh(j) { return commas(sprintf("%.3f", int((j + 1800) / 3600) / 1000)) }'

# columns <SUMMARY: the blocks of a summary, with one blank between the columns.
columns() {
    sed -n '/^Below, units, inverters and steps are counted from 0/,$p' | tail -n +3 | sed 's/^ *//; s/  */ /g'
}
fleet_columns='unit request_kW out_kW in_kW out_kWh in_kWh loss_kWh low_kWh at_step not_met'
roof_columns='inverter out_kW at_step out_kWh on_h unused_kWh'

# summed SECONDS <TABLE: the units' block of a summary, made of a table by other means.
summed() {
    echo "$fleet_columns"
    awk -F '\t' -v seconds="$1" "$grouping"'
        function size(n) { return n < 0 ? -n : n }
        function see(u, step, request, watts, stored, met) {
            if (size(request) > size(most[u])) most[u] = request
            if (watts > out[u]) out[u] = watts
            if (-watts > into[u]) into[u] = -watts
            if (!(u in low) || stored < low[u]) { low[u] = stored; at[u] = step }
            not_met[u] += !met
        }
        function close_step() { if (step != "") see("fleet", step, r, w, s, m); r = w = s = 0; m = 1 }
        function line(u) {
            print u, thousandths(most[u]), thousandths(out[u]), thousandths(into[u]), kwh(given[u]), kwh(taken[u]),
                kwh(lost[u]), kwh(low[u]), commas(at[u]), commas(not_met[u] + 0)
        }
        NR == 1 || $2 ~ /inverter/ { next }
        $1 "" != step { close_step(); step = $1 "" }
        {
            watts = $4 * 1000; watts = int(watts + (watts < 0 ? -0.5 : 0.5)); met = $3 == 0 || watts == $3
            see($2, $1, $3, watts, $6, met)
            r += $3; w += watts; s += $6; m = m && met
            if (watts > 0) { given[$2] += watts * seconds; given["fleet"] += watts * seconds }
            else { taken[$2] -= watts * seconds; taken["fleet"] -= watts * seconds }
            lost[$2] += $7; lost["fleet"] += $7
            if ($2 >= units) units = $2 + 1
        }
        END { close_step(); for (u = 0; u < units; u++) line(u); line("fleet") }'
}

# var_ends <TABLE: the same of the last lines, those of the largest and the smallest vars.
var_ends() {
    awk -F '\t' "$grouping"'
        NR == 1 { next }
        !($2 in high) { name[n++] = $2; high[$2] = low[$2] = $5; high_at[$2] = low_at[$2] = $1 }
        $5 + 0 > high[$2] + 0 { high[$2] = $5; high_at[$2] = $1 }
        $5 + 0 < low[$2] + 0 { low[$2] = $5; low_at[$2] = $1 }
        END {
            print "unit high_var at_step low_var at_step"
            for (i = 0; i < n; i++) print name[i], commas(high[name[i]]), commas(high_at[name[i]]),
                commas(low[name[i]]), commas(low_at[name[i]])
        }'
}

# The last lines of a stick of one unit that gives no vars, and of one without steps.
no_vars='unit  high_var  at_step  low_var  at_step
   0         0        0        0        0'
never_vars='unit  high_var  at_step  low_var  at_step
   0         -        -        -        -'

# The lines that a summary has before its columns, and those that say what a net measure is.
below='
Below, units, inverters and steps are counted from 0, as in the files: at_step 0 is the 1st row.
'
net_words="The net measure is the measure less the fleet's power: what the meter would have shown with the
fleet at work, if the log was taken without it. Of any other log it says nothing."
not_met_words=' some unit gives or takes another power than it is asked for;
                  that alone says nothing of the peak'

none_summary="$work/none: complete, 0 steps
1 unit, 0 steps of 60 s (1 min), 0 s
mode 1 (PeakShave), target 0.000 kW, band 0.000 kW, factor 1,000 thousandths

The measure, as the meter logged it; no reading is missing
    No step has a reading: there is no smallest and no largest.
$below
 unit  request_kW  out_kW  in_kW  out_kWh  in_kWh  loss_kWh  low_kWh  at_step  not_met
    0       0.000   0.000  0.000    0.000   0.000     0.000        -        -        0
fleet       0.000   0.000  0.000    0.000   0.000     0.000        -        -        0

$never_vars"

giving_summary="$work/giving: complete, 3 steps
1 unit, 3 steps of 60 s (1 min), 3 min
mode 1 (PeakShave), target 0.000 kW, band 0.000 kW, factor 1,000 thousandths

The measure, as the meter logged it; 2 readings are missing
    smallest  0.900 kW at step 0, the 1st row
    largest   0.900 kW at step 0, the 1st row
    1 step is above the target by more than half the band: above 0.000 kW

The net measure
    smallest  0.000 kW at step 0, the 1st row
    largest   0.000 kW at step 0, the 1st row
    no step is above 0.000 kW
$net_words

The fleet
    lowest store  0.028 kWh after step 1, the 2nd row
    losses        0.012 kWh
    not_met       in 2 steps$not_met_words
$below
 unit  request_kW  out_kW  in_kW  out_kWh  in_kWh  loss_kWh  low_kWh  at_step  not_met
    0       0.900   0.900  0.012    0.030   0.000     0.012    0.028        1        2
fleet       0.900   0.900  0.012    0.030   0.000     0.012    0.028        1        2

$no_vars"

taking_summary="$work/taking: complete, 3 steps
1 unit, 3 steps of 60 s (1 min), 3 min
mode 3 (PeakShaveLow), target 0.000 kW, band 0.000 kW, factor 1,000 thousandths

The measure, as the meter logged it; 2 readings are missing
    smallest  -1.000 kW at step 0, the 1st row
    largest   -1.000 kW at step 0, the 1st row
    1 step is below the target by more than half the band: below 0.000 kW

The net measure
    smallest  0.000 kW at step 0, the 1st row
    largest   0.000 kW at step 0, the 1st row
    no step is below 0.000 kW
$net_words

The fleet
    lowest store  0.266 kWh after step 0, the 1st row
    losses        0.010 kWh
    not_met       in 2 steps$not_met_words
$below
 unit  request_kW  out_kW  in_kW  out_kWh  in_kWh  loss_kWh  low_kWh  at_step  not_met
    0      -1.000   0.000  1.000    0.000   0.034     0.010    0.266        0        2
fleet      -1.000   0.000  1.000    0.000   0.034     0.010    0.266        0        2

$no_vars"

season_summary="examples/season.stick: complete, 336 steps
3 units, 336 steps of 3,600 s (1 h), 14 days
mode 1 (PeakShave), target 120.000 kW, band 6.000 kW, factor 1,000 thousandths

The measure, as the meter logged it; 9 readings are missing
    smallest  -33.000 kW at step 251, the 252nd row
    largest   205.800 kW at step 151, the 152nd row
    129 steps are above the target by more than half the band: above 123.000 kW

The net measure
    smallest  -32.332 kW at step 251, the 252nd row
    largest   206.468 kW at step 151, the 152nd row
    130 steps are above 123.000 kW
$net_words

The fleet
    lowest store  37.504 kWh after step 6, the 7th row
    losses        241.455 kWh
    not_met       in 196 steps$not_met_words
$below
 unit  request_kW  out_kW  in_kW  out_kWh   in_kWh  loss_kWh  low_kWh  at_step  not_met
    0     100.000  75.986  0.363  118.500  121.242   132.740   20.002        6      196
    1      50.000  21.257  0.209   31.366   69.806    73.439   15.001        6      196
    2      15.000  10.628  0.096   19.287   32.064    35.276    2.501        6      167
fleet     165.000  94.754  0.668  169.153  223.112   241.455   37.504        6      196

unit  high_var  at_step  low_var  at_step
   0    20,000        0   20,000        0
   1    -8,000        0   -8,000        0
   2         0        0        0        0"

result_suite() {
    local stick=examples/season.stick
    for name in '' "$stick" "$stick $stick $stick"; do
        # shellcheck disable=SC2086 # the names are words
        check 2 '' 'import: table needs a FILE and its RESULT'$'\n'"$usage" table $name
    done
    check 2 '' 'import: summary needs a FILE or several, or a FILE and its RESULT'$'\n'"$usage" summary

    # Tables and summaries whose every number is the document's.
    check 0 "$heading$beside"$'\n''0	0	0	-1.000	0	3600000	60000	missing	-1000	-' '' \
        table "$work/whole" "$work/whole.result"
    check 0 "$heading$beside" '' table "$work/none" "$work/none.result"
    check 0 "$giving_table" '' table "$work/giving" "$work/giving.result"
    check 0 "$taking_table" '' table "$work/taking" "$work/taking.result"
    check 0 "$none_summary" '' summary "$work/none" "$work/none.result"
    check 0 "$giving_summary" '' summary "$work/giving" "$work/giving.result"
    check 0 "$taking_summary" '' summary "$work/taking" "$work/taking.result"

    # The season, beside what other means make of it, and as a planner sees it.
    call table "$stick" "$work/season.result"
    good test "$status|$error|$(wc -l <"$work/output")" = "0||$((1 + 3 * 336))"
    good test "$(fronts <"$work/output")" = "$(decoded "$work/season.result")"
    local expected
    expected=$(summed 3600 <"$work/output"
        echo
        var_ends <"$work/output")
    call summary "$stick" "$work/season.result"
    good test "$(columns <"$work/output")" = "$expected"
    check 0 "$season_summary" '' summary "$stick" "$work/season.result"
    # The same without a result.
    check 0 "$season_summary" '' summary "$stick"
    check 0 "$giving_summary" '' summary "$work/giving"
}

other_result_suite() {
    local stick=examples/season.stick place part
    # One byte changed, in every part of a record and of the end: that of step 111, unit 2 begins at 13400.
    other_byte "$stick" "$work/season.result" 0 0 40 tag "$(due Step 0 unit 0)"
    while read -r place part; do
        other_byte "$stick" "$work/season.result" "$place" 13400 40 "$part" "$(due Step 111 unit 2)"
    done <<END
13400 tag
13401 length
13402 length
13403 step
13406 step
13407 unit
13408 request W
13411 request W
13412 delivered kW
13419 delivered kW
13420 vars
13424 stored J
13431 stored J
13432 loss J
13439 loss J
END
    # What is ours, beside what other means make of it.
    good test "$(column 4 | tail -n +3 | tr '\n' '\t')" = \
        "$(decoded "$work/season.result" | grep $'^111\t2\t')"$'\t'
    other_byte "$stick" "$work/season.result" 40319 40280 40 'loss J' "$(due Step 335 unit 2)"
    while read -r place part; do
        other_byte "$stick" "$work/season.result" "$place" 40320 7 "$part" 'The end'
    done <<END
40320 tag
40321 length
40323 number of steps
40326 number of steps
END
    # Cut, and other files'.
    lacking "$stick" "$work/season.result" 0 180 27 "$(due step 0 unit 0)"
    cut_result "$stick" "$work/season.result" 1 0 40 "$(due Step 0 unit 0)"
    lacking "$stick" "$work/season.result" 40 180 27 "$(due step 0 unit 1)"
    cut_result "$stick" "$work/season.result" 20001 20000 40 "$(due Step 166 unit 2)"
    lacking "$stick" "$work/season.result" 40320 9036 7 'the end'
    cut_result "$stick" "$work/season.result" 40326 40320 7 'The end'
    not_shown "$work/giving" "$work/none.result" 0 "$(due Step 0 unit 0) is due there, and is cut short: 7 of its 40 *"
    not_shown "$work/none" "$work/giving.result" 0 'The end is due there. What differs: tag, length.'
    not_shown "$stick" "$work/giving.result" 0 "$(due Step 0 unit 0) is due there. What differs: request W, *"
}

# What is refused or cannot be read or written.
no_result_suite() {
    local stick=examples/season.stick command name
    # The two in the wrong order.
    for name in season none; do
        call summary "$work/$name.result" "$stick"
        good like "$status $output" $'1 *: refused 2 (unknown tag) at byte 0 after 0 steps\n*\n    It looks like a result *'
    done
    for command in table summary; do
        for name in examples/refused-* "$work/empty" "$work/season.result" c/import/import.c; do
            check 1 "$("$import" check "$name" 2>/dev/null)" "import: $name: refused; nothing is shown" \
                "$command" "$name" "$work/season.result"
        done
        check 2 '' 'import: none: cannot be read: No such file or directory' "$command" none "$work/season.result"
        check 2 '' 'import: none: cannot be read: No such file or directory' "$command" "$stick" none
        check 2 '' 'import: examples: cannot be read: it is a folder' "$command" "$stick" examples
        error=$("$import" "$command" "$stick" "$work/season.result" 2>&1 >/dev/full)
        status=$? output='' called="$command >/dev/full"
        good test "$status|$error" = '2|import: the lines cannot be written'
        error=$("$import" "$command" "$stick" "$work/season.result" 2>&1 >&-)
        status=$? called="$command >&-"
        good test "$status|$error" = '2|import: the lines cannot be written'
    done
    # A disk that is full in the middle of the table.
    error=$(ulimit -f 8 && trap '' XFSZ && "$import" table "$stick" "$work/season.result" 2>&1 >"$work/table")
    status=$? called='table, with a limit of 8 KiB'
    good test "$status|$error" = '2|import: the lines cannot be written'
    error=$("$import" help 2>&1 >/dev/full)
    status=$? called='help >/dev/full'
    good test "$status|$error" = '2|import: the lines cannot be written'
}

# As many units and steps as there can be, with the largest draw: more joules than 64 bits hold, and 160 MiB.
largest_suite() {
    local i
    {
        bytes 01 0006 01 40 00015180
        for ((i = 0; i < 64; i++)); do
            bytes 02 0031 000009184E72A000 0000000000000000 000009184E72A000 05F5E100 05F5E100 00989680 00000000 \
                2710 03E8 2710 2710 00
        done
        bytes "$(settings 1 0 0)"
        head -c 65535 /dev/zero | tr '\0' x | sed 's/x/\x05\x00\x00/g'
        bytes "$(end 65535)"
    } >"$work/largest"
    check 0 "$work/largest: complete, 65535 steps" '' run "$work/largest" "$work/largest.result"
    good test "$(wc -c <"$work/largest.result")" = $((40 * 64 * 65535 + 7))
    call summary "$work/largest" "$work/largest.result"
    good test "$status|$error|$(columns <"$work/output" | sed -n '2p; 66p; 69p; 133p; $p')" = "0||0 0.000 0.000 \
100,000.000 0.000 157,284,000,000.000 157,284,000,000.000
fleet 0.000 0.000 6,400,000.000 0.000 10,066,176,000,000.000 10,066,176,000,000.000
0 2,777,777.778 0 0
fleet 177,777,777.778 0 0
63 0 0 0 0"
    good test "$(grep -A 3 '^The fleet' "$work/output")" = 'The fleet
    lowest store  177,777,777.778 kWh after step 0, the 1st row
    losses        10,066,176,000,000.000 kWh
    not_met       in no step: every unit gives or takes what it is asked for'
    good narrow
    large_json "$work/largest" '36238233600000000000 36238233600000000000 36238233600000000000 0 0'
    rm "$work/largest" "$work/largest.result"
}
