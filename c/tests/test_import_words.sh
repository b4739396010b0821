# shellcheck shell=bash
# shellcheck disable=SC2034,SC2154 # the variables are those of test_import.sh
# Sourced by test_import.sh: the words of a call: options, help, the end of options, and - for standard input and
# output.

commands='check show summary peak table run rescue partner settle help'

# Options: those that a command has, and those that it has not.
options_suite() {
    local name option stick=examples/season.stick
    check 0 'import of Yesbrulka, version 0.1.0' '' --version
    for name in $commands; do
        check 0 'import of Yesbrulka, version 0.1.0' '' "$name" --version
        check 0 "$("$import" help "$name")" '' "$name" --help
        check 0 "$("$import" help "$name")" '' "$name" some words -h
        good narrow
        good like "$output" "usage: import $name *"$'\n\n''[A-Z]*.*'
        # What one command says of itself is a part of what all say.
        good test "${help/"$output"/}" != "$help"
        for option in --jsn --json=1 -j --js -hh; do
            check 2 '' "import: $name has no option $option; a file of that name comes behind --"$'\n'"$usage" \
                "$name" "$stick" "$option"
        done
        for option in --json --csv; do
            case $name$option in
            check--json | summary--json | peak--json | table--csv) continue ;;
            esac
            check 2 '' "import: $name has no option $option; a file of that name comes behind --"$'\n'"$usage" \
                "$name" "$option" "$stick" "$stick"
        done
    done
    check 2 '' "import: there is no such command"$'\n'"$usage" help nothing
    check 2 '' "import: help needs one COMMAND or none"$'\n'"$usage" help check show
    check 0 "$help" '' help
    check 0 "$("$import" help peak)" '' --help peak
    # An option that would break a line.
    check 2 '' "import: check has no option -new?line; a file of that name comes behind --"$'\n'"$usage" \
        check $'-new\nline'
    # An option may stand anywhere before the --, and not behind it.
    check 0 "$("$import" table --csv "$stick" "$work/season.result")" '' table "$stick" "$work/season.result" --csv
    check 0 "$("$import" table --csv "$stick" "$work/season.result")" '' table "$stick" --csv -- "$work/season.result"
    check 2 '' 'import: table needs a FILE and its RESULT'$'\n'"$usage" table "$stick" "$work/season.result" -- --csv
    call summary -- --json
    good test "$status|$error" = '2|import: --json: cannot be read: No such file or directory'
    call check -- --help
    good like "$status|$error" '2|import: --help: cannot be read: No such file or directory*'
}

# Names that look like something else, in the folder where they are.
names_suite() {
    local name here=$PWD
    mkdir "$work/names"
    for name in --json -h -- - 12 -5 --help; do
        cp examples/mill.stick "$work/names/./$name"
    done
    for name in --json -h -- 12 -5 --help ./-; do
        error=$(cd "$work/names" && "$here/$import" summary -- "$name" 2>&1 >"$work/output")
        status=$? output=$(cat "$work/output") called="summary -- $name"
        good test "$status|$error|$(head -n 1 "$work/output")" = "0||$name: complete, 96 steps"
    done
    # Whole numbers are words that are no options.
    error=$(cd "$work/names" && "$here/$import" summary 12 -5 2>&1 >"$work/output")
    status=$? output=$(cat "$work/output") called='summary 12 -5'
    good test "$status|$error|$(grep -c ': complete, 96 steps$' "$work/output")" = '0||2'
    # For peak they are FROM, TO and STEP, wherever they stand; behind -- they are names, and with ./ too.
    for name in '12 20 4 -- 12' '12 -- 12 -5' '12 ./12 20 4' './12 12 20 4'; do
        # shellcheck disable=SC2086 # the words
        error=$(cd "$work/names" && "$here/$import" peak $name 2>&1 >"$work/output")
        status=$? output=$(cat "$work/output") called="peak $name"
        if [ "$name" = '12 -- 12 -5' ]; then
            good like "$status|$error" '2|import: peak needs FROM, TO and STEP, three whole numbers, or none of them*'
        else
            good test "$status|$error|$(targets)" = '0||0.012 0.016 0.020 '
        fi
    done
    rm -r "$work/names"
}

# - is standard input where a file is read, and standard output where one is written.
dash_suite() {
    local stick=examples/season.stick wreck=examples/refused-06-three-faults.stick name
    for name in '' --; do
        # shellcheck disable=SC2086 # it may be no word
        error=$("$import" run $name "$stick" - 2>&1 >"$work/output.bytes")
        status=$? output='' called="run $name $stick -"
        good test "$status|$error" = "0|$stick: complete, 336 steps"
        good cmp "$work/output.bytes" "$work/season.result"
    done
    error=$("$import" run - - <"$stick" 2>&1 >"$work/output.bytes")
    status=$? called='run - -'
    good test "$status|$error" = '0|-: complete, 336 steps'
    good cmp "$work/output.bytes" "$work/season.result"
    # Nothing is written of a stick that is refused, however far behind.
    for name in examples/refused-*; do
        error=$("$import" run "$name" - 2>&1 >"$work/output.bytes")
        status=$? called="run $name -"
        good test "$status|$error" = "1|$("$import" run "$name" "$work/never" 2>&1)"
        good test ! -s "$work/output.bytes"
    done
    # A rescue: the lines that it has anyway, and the rescued stick.
    error=$("$import" rescue "$wreck" - 2>&1 >"$work/output.bytes")
    status=$? called="rescue $wreck -"
    good test "$status|$error" = "0|$("$import" rescue "$wreck" "$work/rescued" | sed "s|^$work/rescued:|-:|")"
    good cmp "$work/output.bytes" examples/rescued-three-faults.stick
    error=$("$import" rescue - - <"$wreck" 2>&1 >"$work/output.bytes")
    status=$? called='rescue - -'
    good like "$status|$error" '0|-: refused 6 (reading not usable) *'
    good cmp "$work/output.bytes" examples/rescued-three-faults.stick
    error=$("$import" rescue examples/refused-05-unknown-edition.stick - 2>&1 >"$work/output.bytes")
    status=$? called='rescue of a stick that cannot be rescued, to -'
    good like "$status|$error" '1|examples/refused-05-unknown-edition.stick: refused 5 *'
    good test ! -s "$work/output.bytes"
    # A pipe from one to the next.
    output=$("$import" rescue "$wreck" - 2>/dev/null | "$import" summary - | head -n 1)
    good test "$output" = '-: complete, 83 steps'
    # A full disk, a standard output that is none, and a terminal.
    for name in "run $stick" "rescue $wreck"; do
        # shellcheck disable=SC2086 # the words
        error=$("$import" $name - 2>&1 >/dev/full)
        status=$? called="$name - >/dev/full"
        good test "$status|$error" = \
            '2|import: -: cannot be written whole; throw away what is there: No space left on device'
        # shellcheck disable=SC2086 # the words
        error=$("$import" $name - 2>&1 >&-)
        status=$? called="$name - >&-"
        good like "$status|$error" '2|import: -: cannot be written: Bad file descriptor*'
        error=$(script -qec "$import $name -" /dev/null </dev/null 2>&1)
        status=$? called="$name - at a terminal"
        good like "$status|$error" '2|import: -: cannot be written: standard output is the terminal; give * a pipe*'
    done
    # Standard input is there once.
    output=$("$import" summary - examples/mill.stick examples/roof.stick <"$stick")
    check 2 "$output" 'import: -: cannot be read: standard input was read already
import: 1 of 4 files not shown' summary - examples/mill.stick examples/roof.stick - <"$stick"
    rm -f "$work/output.bytes" "$work/rescued"
}
