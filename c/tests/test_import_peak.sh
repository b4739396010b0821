# shellcheck shell=bash
# shellcheck disable=SC2034,SC2154 # the variables are those of test_import.sh
# Sourced by test_import.sh: peak: a season at other targets.

# The fields of such sticks: a unit without losses, R and S 1,000, and all it can hold, or nothing; readings of one
# phase in kW, which are given as doubles.
full_unit='02 0031 000000000036EE80 0000000000000000 000000000036EE80 000003E8 000003E8 00000000 00000000 0001 2710 2710
2710 00'
empty_unit=${full_unit/000000000036EE80 000003E8/0000000000000000 000003E8}
seen() { printf '04 0018 %s %032d' "$1" 0; }
rows_of() { for double in "$@"; do seen "$double"; done; }

# peak_sticks: 1.5, 2 and 0.5 kW around a missing reading, at a target of 1,000 W; the same below 0, for a fleet that
# charges; -0.5, 0 and -1.5 kW, for one that supports; no reading at all, and no step; and one whose factor is half,
# with R 3,000, where a lower target holds because it begins earlier.
peak_sticks() {
    bytes "$fleet_1 $full_unit $(settings 1 1000 0)" "$(rows_of 3FF8000000000000 4000000000000000) $missing" \
        "$(seen 3FE0000000000000) $(end 4)" >"$work/peaky"
    bytes "$fleet_1 $empty_unit $(settings 3 $((0xFFFFFC18)) 0)" \
        "$(rows_of BFF8000000000000 C000000000000000) $missing" "$(seen BFE0000000000000) $(end 4)" >"$work/low"
    bytes "$fleet_1 $full_unit $(settings 2 1000 0)" "$(rows_of BFE0000000000000 0000000000000000) $missing" \
        "$(seen BFF8000000000000) $(end 4)" >"$work/support"
    bytes "$fleet_1 $full_unit $(settings 1 1000 0) $missing $missing $(end 2)" >"$work/unread"
    bytes "$fleet_1 $full_unit $(settings 1 1000 0) $(end 0)" >"$work/unstepped"
    bytes "$fleet_1 ${full_unit/000003E8 000003E8/00000BB8 00001388} $(settings 1 2500 1000)" \
        "$(rows_of 4008000000000000 4010000000000000) $(end 2)" >"$work/gap"
    patch "$work/gap" 73 01F4
}

# peak_head NAME STEPS MODE TARGET BAND [PEAK [FACTOR]]: the lines before those of the targets.
peak_head() {
    printf '%s: complete, %s steps\n1 unit, %s step%s of 60 s (1 min), %s\n' "$work/$1" "$2" "$2" \
        "$([ "$2" = 1 ] || echo s)" "$([ "$2" = 0 ] && echo '0 s' || echo "$2 min")"
    printf 'mode %s, target %s kW, band %s kW, factor %s thousandths\n%s\n\n' "$3" "$4" "$5" "${7:-1,000}" "${6-}"
}

# What stands below the lines.
from_0_words='Steps are counted from 0, as in the files: at_step 0 is the 1st row.'
own_words='own   the target that the stick itself has'
held_words() {
    printf "held  the %s of these targets that held: in no step is the measure less the fleet's power\n" "$1"
    printf '      %s' "$2"
}

peak_suite() {
    peak_sticks
    # Every number is that of the rules. At 900 W the unit has not enough power in the second step; at 1,000 W and above
    # it has.
    check 0 "$(peak_head peaky 4 '1 (PeakShave)' 1.000 0.000 'largest measure 2.000 kW at step 1, the 2nd row')

     target_kW  net_most_kW  at_step  above  low_kWh  at_step  loss_kWh  not_met
         0.900        1.000        1      1    0.947        3     0.000        0
held own 1.000        1.000        0      0    0.950        3     0.000        0
         1.100        1.100        0      0    0.953        3     0.000        0

$(held_words lowest 'above it by more than half the band')
$own_words
$from_0_words
$net_words" '' peak "$work/peaky" 900 1100 100
    # Where the fleet charges the highest is the best; where it supports too, for its need is measure and target
    # together.
    check 0 "$(peak_head low 4 '3 (PeakShaveLow)' -1.000 0.000 'smallest measure -2.000 kW at step 1, the 2nd row')

      target_kW  net_least_kW  at_step  below  low_kWh  at_step  loss_kWh  not_met
         -1.100        -1.100        0      0    0.007        0     0.000        0
held own -1.000        -1.000        0      0    0.008        0     0.000        0
         -0.900        -1.000        1      1    0.010        0     0.000        0

$(held_words highest 'below it by more than half the band')
$own_words
$from_0_words
$net_words" '' peak "$work/low" -1100 -900 100
    check 0 "$(peak_head support 4 '2 (Support)' 1.000 0.000 'largest measure 0.000 kW at step 1, the 2nd row')

     target_kW  net_most_kW  at_step  outside  low_kWh  at_step  loss_kWh  not_met
         0.900       -0.900        0        0    0.953        3     0.000        0
held own 1.000       -1.000        0        0    0.950        3     0.000        0
         1.100       -1.000        1        1    0.947        3     0.000        0

$(held_words highest 'above 0 together with it by more than half the band')
$own_words
$from_0_words
$net_words" '' peak "$work/support" 900 1100 100
    # A target that holds below one that does not: half of the need is met at once, from the first step on.
    check 0 "$(peak_head gap 2 '1 (PeakShave)' 2.500 1.000 'largest measure 4.000 kW at step 1, the 2nd row' 500)

 target_kW  net_most_kW  at_step  above  low_kWh  at_step  loss_kWh  not_met
held 2.000        2.500        0      0    0.967        1     0.000        0
 own 2.500        3.250        1      1    0.988        1     0.000        0
     3.000        3.500        1      0    0.992        1     0.000        0

$(held_words lowest 'above it by more than half the band')
      Not every higher one held: look at each before you choose.
$own_words
$from_0_words
$net_words" '' peak "$work/gap" 2000 3000 500
    # None held, and the stick's own is not among them.
    check 0 "$(peak_head peaky 4 '1 (PeakShave)' 1.000 0.000 'largest measure 2.000 kW at step 1, the 2nd row')

target_kW  net_most_kW  at_step  above  low_kWh  at_step  loss_kWh  not_met
    0.000        1.000        1      2    0.933        3     0.000        0

None of these targets held: at each there is a step whose measure less the fleet's power is
above it by more than half the band.
Higher targets may hold: FROM TO STEP names those to be tried.
$from_0_words
$net_words" '' peak "$work/peaky" 0 0 1
    call peak "$work/low" 0 500 500
    good like "$output" '*'$'\n''below it by more than half the band.'$'\n''Lower targets may hold: FROM TO STEP *'
    # Nothing to hold.
    check 0 "$(head -n 3 <<<"$(peak_head unread 2 '1 (PeakShave)' 1.000 0.000)")

target_kW  net_most_kW  at_step  above  low_kWh  at_step  loss_kWh  not_met
own 1.000            -        -      -    1.000        0     0.000        0

$own_words
$from_0_words
No step has a reading: there is no peak to hold." '' peak "$work/unread"
    check 0 "$(head -n 3 <<<"$(peak_head unstepped 0 '1 (PeakShave)' 1.000 0.000)")

target_kW  net_most_kW  at_step  above  low_kWh  at_step  loss_kWh  not_met
own 1.000            -        -      -        -        -     0.000        0

$own_words
$from_0_words
No step has a reading: there is no peak to hold." '' peak "$work/unstepped"
}

# targets: the targets that came out, without their marks.
targets() {
    awk '/target_(kW|A) /{ on = 1; next } on && NF == 0 { exit } on' "$work/output" | sed 's/\(held \|own \)//g' |
        awk '{ printf "%s ", $1 }'
}

# The targets that the tool chooses: round ones, the stick's own among them.
sweep_suite() {
    call peak "$work/peaky"
    good test "$status|$error|$(targets)" = "0||$(for ((i = 20; i <= 40; i++)); do printf '%d.%03d ' $((i / 20)) \
        $((i % 20 * 50)); done)"
    good test "$(grep -o '^ *[a-z]* *[a-z]* [01].[0-9]*' "$work/output" | grep -c 'held own 1.000')" = 1
    # A fleet that supports goes the other way, from where it has nothing to do.
    call peak "$work/support"
    good test "$status|$error|$(targets)" = "0||$(for ((i = 0; i <= 20; i++)); do printf '%d.%03d ' $((i / 20)) \
        $((i % 20 * 50)); done)"
    call peak "$work/low"
    good test "$status|$error|$(targets)" = "0||$(for ((i = 40; i >= 20; i--)); do printf -- '-%d.%03d ' $((i / 20)) \
        $((i % 20 * 50)); done)"
    # Its own far from the others.
    cp "$work/peaky" "$work/far"
    patch "$work/far" 65 05F5E100
    call peak "$work/far"
    good test "$status|$error|$(targets | awk '{ print NF, $1, $(NF - 1), $NF }')" = '0||22 1.000 2.000 100,000.000'
    patch "$work/far" 65 FA0A1F00
    call peak "$work/far"
    good test "$status|$error|$(targets | awk '{ print NF, $1, $2, $NF }')" = '0||22 -100,000.000 1.000 2.000'
    # An idle draw stands above the largest measure, and the sweep goes on to where it would be held.
    call peak examples/season.stick
    good test "$status|$error|$(targets | awk '{ print NF, $1, $NF }')" = '0||18 40.000 210.000'
    good like "$output" '*'$'\n''held 210.000 *'
    # By current: between the smallest and the largest measure, and nothing is said to have held.
    call peak examples/dairy.stick
    good test "$status|$error|$(targets | awk '{ print NF, $1, $NF }')" = '0||32 28.000 88.000'
    good test "$(grep -c '[0-9.]  *-  *-  *- ' "$work/output")|$(grep -c '^held' "$work/output")" = '32|0'
    good like "$output" "*The stick goes by current, so that there is no measure less the fleet's power: *"
    # Measures beyond all targets: three phases have more than one may be.
    bytes "$fleet_1 $full_unit $(settings 1 0 0)" 04 0018 40F86A0000000000 40F86A0000000000 40F86A0000000000 \
        "$(end 1)" >"$work/beyond"
    call peak "$work/beyond"
    good test "$status|$error|$(targets)" = '0||0.000 100,000.000 '
    good like "$output" '*None of these targets held: *'
    for name in examples/{season,harvest,mill,dairy,roof,vineyard,voltage}.stick; do
        call peak "$name"
        good narrow
        call summary "$name"
        good narrow
    done
}

# FROM, TO and STEP at the ends of their ranges, and calls that are wrong.
peak_words_suite() {
    local words why stick=$work/peaky
    local three='peak needs FROM, TO and STEP, three whole numbers, or none of them'
    local ends='FROM and TO are targets, -100,000,000 to 100,000,000 W, or mA for sticks by current'
    local none='peak needs a FILE or several; a file whose name is a whole number comes behind --'
    while IFS='|' read -r words why; do
        # shellcheck disable=SC2086 # the words
        check 2 '' "import: $why"$'\n'"$usage" peak $words
    done <<END
|peak needs a FILE or several, and perhaps FROM, TO and STEP
1 2 3|$none
12|$none
$stick 1|$three
$stick 1 2|$three
$stick 1 2 3 4|$three
1 $stick 2|$three
$stick -100000001 0 1|$ends
$stick 0 100000001 1|$ends
$stick 0 18446744073709551616 1|$ends
$stick -99999999999999999999 0 1|$ends
$stick 5 4 1|FROM is above TO
$stick 0 0 0|STEP is at least 1
$stick 0 5 -1|STEP is at least 1
$stick -100000000 100000000 20000|FROM TO STEP make more than 10,000 lines; take a larger STEP
$stick 0 10000 1|FROM TO STEP make more than 10,000 lines; take a larger STEP
END
    # As many lines as there may be, and as far as they may go.
    call peak "$stick" -100000000 100000000 20001
    good test "$status|$error|$(targets | wc -w)" = '0||10000'
    call peak "$stick" 0 9999 1
    good test "$status|$error|$(targets | wc -w)" = '0||10000'
    call peak "$stick" -100000000 100000000 200000000
    good test "$status|$error|$(targets)" = '0||-100,000.000 100,000.000 '
    call peak "$stick" 7 7 99999999999999999999
    good test "$status|$error|$(targets)" = '0||0.007 '
    # What is no whole number is a file.
    call peak "$stick" 1.5 2 3
    good like "$status|$error" "2|import: $three*"
    call peak "$stick" 1,000
    good test "$status|$error" = '2|import: 1,000: cannot be read: No such file or directory
import: 1 of 2 files not shown'
}

# Many sticks, bad ones among them; and one that is too long.
peak_files_suite() {
    local one two
    one=$("$import" peak "$work/peaky") two=$("$import" peak "$work/low")
    check 0 "$one"$'\n\n'"$two" '' peak "$work/peaky" "$work/low"
    check 1 "$one"$'\n\n'"$(told examples/refused-07-wrong-count.stick)"$'\n\n'"$two" \
        'import: examples/refused-07-wrong-count.stick: refused; nothing is shown
import: 1 of 3 files refused' peak "$work/peaky" examples/refused-07-wrong-count.stick "$work/low"
    check 2 "$one"$'\n\n'"$two" 'import: none: cannot be read: No such file or directory
import: examples: cannot be read: it is a folder
import: 2 of 4 files not shown' peak none "$work/peaky" examples "$work/low"
    call peak "$work/long"
    good test "$status|$error" = "1|import: $work/long: refused; nothing is shown"
    good like "$output" "$work/long: refused 12 (too many bytes or steps) at byte 0 after 0 steps"$'\n*2,097,152 bytes*'
    advised 'The file has more than the 2,097,152 bytes*for other targets ask the manager to divide the season, *'
    check 0 "${one/$work\/peaky:/-:}" '' peak - <"$work/peaky"
    # A line says how far it is, at a terminal and from a second on.
    error=$(script -qec "$import peak '$work/just' -1000000 -1000 1000 >'$work/output'" /dev/null </dev/null 2>&1)
    status=$? output='' called='peak of 1,000 targets, at a terminal'
    good test "$status|$(targets | wc -w)" = '0|1000'
    good like "$error" $'\r*[0-9] of 1000 targets*\r* \r'
    error=$(script -qec "$import peak '$work/peaky' >'$work/output'" /dev/null </dev/null 2>&1)
    status=$? called='peak of few targets, at a terminal'
    good test "$status|$error" = '0|'
    # A full disk.
    error=$("$import" peak "$work/peaky" "$work/low" 2>&1 >/dev/full)
    status=$? called='peak >/dev/full'
    good test "$status|$error" = '2|import: the lines cannot be written'
}
