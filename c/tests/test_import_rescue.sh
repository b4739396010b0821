# shellcheck shell=bash
# shellcheck disable=SC2034,SC2154 # the variables are those of test_import.sh
# Sourced by test_import.sh: rescue: what is kept of damaged sticks, and what is said of it; files that cannot be
# rescued, and files of other kinds.

# A reading that cannot be used, its first power a NaN; and what a reading that is made missing is told with.
nan='04 0018 7FF8000000000000 0000000000000000 0000000000000000'
unusable() {
    local step=${1//[!0-9]/}
    printf 'the reading of step %s, the %s row, could not be used and is now missing: 24 bytes left out at byte %s' \
        "$(commas $((step - 1)))" "$1" "$2"
}

# lost STEPS READINGS: the end of the last line of a stick that was changed.
lost() { printf '%s kept, %s made missing; a rescued stick has lost data: keep the damaged one too' "$1" "$2"; }
# ended STEPS: what is said of the steps before an end that was put in.
ended() { printf '%s before it %s kept, with a new end,' "$1" "$([ "${1%% *}" = 1 ] && echo is || echo are)"; }
same='the same bytes; the stick is complete, and nothing had to be changed'

# commas NUMBER: a number, its thousands parted by commas.
commas() { sed -E ':a; s/^([0-9]+)([0-9]{3})/\1,\2/; ta' <<<"$1"; }

# told FILE: what check says of a refused file, but for its being a result.
told() {
    "$import" check "$1" 2>/dev/null | sed '/^    It looks like a result file/,$d'
}

# changes: the lines of a rescue that are no advice.
changes() {
    grep -v '^    ' "$work/output"
}

# rescued FILE STEPS READINGS LINE..: a file is rescued into the old result, with these lines of its changes and these
# words of what is kept; what is written is complete, and rescuing it changes nothing.
rescued() {
    local file=$1 steps=$2 readings=$3 out=$work/out/result
    shift 3
    old
    check 0 "$(told "$file" && printf '%s\n' "$@" "$out: $(lost "$steps" "$readings")")" '' rescue "$file" "$out"
    good test "$(ls -A "$work/out")" = result
    steps=${steps% *}
    check 0 "$out: complete, ${steps//,/} steps
$work/again: $same" '' rescue "$out" "$work/again"
    good cmp "$out" "$work/again"
}

# unchanged FILE STEPS: a complete file comes back as it is.
unchanged() {
    old
    check 0 "$1: complete, $2 steps"$'\n'"$work/out/result: $same" '' rescue "$1" "$work/out/result"
    good cmp "$1" "$work/out/result"
    good test "$(ls -A "$work/out")" = result
}

# not_rescued FILE [WHY]: a file is refused: the lines of check, a message, and what was there is as it was.
no_head='what comes before its steps must be good; nothing is written'
not_rescued() {
    local lines
    lines=$(told "$1")
    old
    check 1 "$lines" "import: $1: cannot be rescued: ${2:-$no_head}" rescue "$1" "$work/out/result"
    good kept
    rm "$work/out/result"
    check 1 "$lines" "import: $1: cannot be rescued: ${2:-$no_head}" rescue "$1" "$work/out/result"
    good test "$(ls -A "$work/out")" = ''
}

# Every sample, complete or damaged.
rescue_examples_suite() {
    local name stick needs='import: rescue needs a FILE and an OUT'
    for name in '' examples/season.stick 'examples/season.stick a b'; do
        # shellcheck disable=SC2086 # the names are words
        check 2 '' "$needs"$'\n'"$usage" rescue $name
    done
    for name in 'season 336' 'harvest 336' 'roof 96' 'mill 96' 'vineyard 96' 'voltage 48' 'rescued-three-faults 83'; do
        unchanged "examples/${name% *}.stick" "${name#* }"
    done

    stick=examples/refused-06-three-faults.stick
    rescued "$stick" '83 steps' '2 readings' "$(unusable 41st 2,773)" "$(unusable 62nd 3,629)" \
        "the stick broke off within the field at byte 4,598: $(ended '83 steps') and 30 bytes were left out from byte \
4,579 on, where a weather waited for its reading"
    good cmp examples/rescued-three-faults.stick "$work/out/result"
    rescued examples/refused-06-reading-not-usable.stick '336 steps' '1 reading' "$(unusable 212th 5,709)"
    good cmp <(hex examples/refused-06-reading-not-usable.stick | sed -E "s/^(.{11418}).{54}/\\1050000/") \
        <(hex "$work/out/result")

    # Where an end is put in: what is wrong there, the steps before it, and the bytes from there on.
    local words steps left
    while IFS='|' read -r name words steps left; do
        rescued "examples/refused-$name.stick" "$steps steps" '0 readings' "$words: $(ended "$steps steps") and $left"
    done <<'END'
01-cut-short|the stick broke off within the field at byte 5,412|200|14 bytes were left out from there on
02-unknown-tag|no field begins like the bytes at byte 1,776|60|7,267 bytes were left out from there on
06-irradiance-below-zero|the weather at byte 1,176 could not be used|3|3,984 bytes were left out from there on
06-weather-not-usable|the weather at byte 3,564 could not be used|60|1,596 bytes were left out from there on
07-wrong-count|the end field at byte 9,009 counted other steps than there are|335|7 bytes were left out from there on
08-end-missing|the stick broke off at byte 9,036, without its end|336|nothing was left out
END
    rescued examples/refused-04-weather-without-reading.stick '96 steps' '0 readings' \
        "the field at byte 5,172 is out of order: $(ended '96 steps') and 26 bytes were left out from byte 5,153 on, \
where a weather waited for its reading"
    rescued examples/refused-12-too-many-steps.stick '65,535 steps' '0 readings' \
        "the stick goes on at byte 196,785 after as many steps as there can be: $(ended '65,535 steps') and 10 bytes \
were left out from there on"
    good test "$(tail -c 7 "$work/out/result" | hex /dev/stdin)" = 7f00040000ffff
    rescued examples/refused-09-bytes-after-end.stick '336 steps' '0 readings' \
        '61 bytes behind the end were left out at byte 9,043'
    good cmp examples/season.stick "$work/out/result"
    for name in 03-unit-without-var-limits 03-wrong-length 04-curve-missing 04-inverter-too-many 04-out-of-order \
        05-curve-out-of-order 05-cut-out-above-cut-in 05-unknown-edition 05-value-out-of-range \
        05-var-limit-beyond-kva 05-volt-var-order; do
        not_rescued "examples/refused-$name.stick"
    done
    # None was left out here and in the parts about currents and voltages.
    good test "$(find examples -name 'refused-*' | wc -l)" = 27
}

# A stick of one unit, without a roof, of five steps, whose fields are at 76 (weather), 95, 122, 125, 152 (weather),
# 171, 174 and 201.
five_steps() {
    bytes "$head_d $row $missing $one_kw $clear $missing $one_kw $(end 5)" >"$work/five"
}

# cut_words BYTES: what is said of the stick that is cut there, and the steps that are kept.
cut_words() {
    local cut=$1 steps=0 from next place kept_from
    for from in 76 122 125 152 174 201; do
        [ "$from" -le "$cut" ] && kept_from=$from
    done
    for next in 122 125 152 174 201; do
        [ "$next" -le "$cut" ] && steps=$((steps + 1))
    done
    # Behind a weather the fault is where its reading should be.
    place=$kept_from
    for next in 95 171; do
        [ "$next" -le "$cut" ] && [ $((next - 19)) = "$kept_from" ] && place=$next
    done
    if [ "$place" = "$cut" ]; then
        printf 'the stick broke off at byte %d, without its end: ' "$cut"
    else
        printf 'the stick broke off within the field at byte %d: ' "$place"
    fi
    printf '%s and ' "$(ended "$steps step$([ "$steps" = 1 ] || echo s)")"
    case $((cut - kept_from)) in
    0) echo 'nothing was left out' ;;
    1) echo '1 byte was left out from there on' ;;
    *)
        printf '%d bytes were left out from ' $((cut - kept_from))
        if [ "$place" = "$kept_from" ]; then echo 'there on'; else
            echo "byte $kept_from on, where a weather waited for its reading"
        fi
        ;;
    esac
}

# Sticks that break off, at every byte; and those with other damage, alone and together.
rescue_damage_suite() {
    local cut words steps stick=$work/damaged name
    five_steps
    unchanged "$work/five" 5
    for ((cut = 0; cut < 208; cut++)); do
        head -c "$cut" "$work/five" >"$stick"
        if [ "$cut" -lt 76 ]; then
            call rescue "$stick" "$work/again"
            good test "$status|$output|$error" = "1|$(told "$stick")|import: $stick: cannot be rescued: $no_head"
            continue
        fi
        words=$(cut_words "$cut")
        steps=${words#*: } steps=${steps%% before*}
        call rescue "$stick" "$work/again"
        good test "$status|$error|$output" = \
            "0||$(told "$stick")"$'\n'"$words"$'\n'"$work/again: $(lost "$steps" '0 readings')"
        words=${words##*and } words=${words%% *}
        [ "$words" != nothing ] || words=0
        good test "$(hex "$work/again")" = \
            "$(head -c $((cut - words)) "$stick" | hex /dev/stdin)$(bytes "$(end "${steps% *}")" | hex /dev/stdin)"
    done
    # One step, and one byte.
    { head -c 122 "$work/five" && printf '\x04'; } >"$stick"
    rescued "$stick" '1 step' '0 readings' \
        "the stick broke off within the field at byte 122: $(ended '1 step') and 1 byte was left out from there on"
    { cat "$work/five" && printf '\0'; } >"$stick"
    rescued "$stick" '5 steps' '0 readings' '1 byte behind the end was left out at byte 208'
    good cmp "$work/five" "$work/out/result"
    bytes "$head_d" >"$stick"
    rescued "$stick" '0 steps' '0 readings' \
        "the stick broke off at byte 76, without its end: $(ended '0 steps') and nothing was left out"

    # Readings that cannot be used, of any kind and any phase, and nothing else that is wrong.
    local from
    for name in 7FF0000000000000 FFF8000000000001 40F86A0020000000 C0F86A0020000000; do
        for from in 98 106 114 128 136 144 177; do
            cp "$work/five" "$stick"
            patch "$stick" "$from" "$name"
            case $from in
            98 | 106 | 114) words=$(unusable 1st 95) ;;
            128 | 136 | 144) words=$(unusable 3rd 125) ;;
            177) words=$(unusable 5th 174) ;;
            esac
            call rescue "$stick" "$work/again"
            good test "$status|$error|$(changes | tail -n +2)" = \
                "0||$words"$'\n'"$work/again: $(lost '5 steps' '1 reading')"
            good test "$(wc -c <"$work/again")" = $((208 - 24))
        done
    done
    # Several; and then each of the things that end a stick, with a weather that waits and without.
    bytes "$head_d $clear $nan $nan $missing $nan $(end 4)" >"$stick"
    rescued "$stick" '4 steps' '3 readings' "$(unusable 1st 95)" "$(unusable 2nd 122)" "$(unusable 4th 152)"
    good test "$(hex "$work/out/result")" = \
        "$(bytes "$head_d $clear $missing $missing $missing $missing $(end 4)" | hex /dev/stdin)"
    while IFS='|' read -r name words; do
        bytes "$head_d $nan $missing $name" >"$stick"
        rescued "$stick" '2 steps' '1 reading' "$(unusable 1st 76)" "$words: $(ended '2 steps') and \
$(($(wc -c <"$stick") - 106)) bytes were left out from there on"
        bytes "$head_d $missing $nan $clear $name" >"$stick"
        words=${words/106/125}
        rescued "$stick" '2 steps' '1 reading' "$(unusable 2nd 79)" "$words: $(ended '2 steps') and \
$(($(wc -c <"$stick") - 106)) bytes were left out from byte 106 on, where a weather waited for its reading"
    done <<END
EE 0000 05 0000|no field begins like the bytes at byte 106
05 0001 00 05 0000|the field at byte 106 has a wrong length
04 0018 00|the stick broke off within the field at byte 106
03 000C $(printf '%024d' 0)|the field at byte 106 is out of order
06 0013 $(printf '%038d' 0)|the field at byte 106 is out of order
END
    bytes "$head_d $nan $missing $(end 3) $missing" >"$stick"
    rescued "$stick" '2 steps' '1 reading' "$(unusable 1st 76)" "the end field at byte 106 counted other steps than \
there are: $(ended '2 steps') and 10 bytes were left out from there on"
    bytes "$head_d $nan $missing ${clear/3FF0/BFF0} $missing" >"$stick"
    rescued "$stick" '2 steps' '1 reading' "$(unusable 1st 76)" "the weather at byte 106 could not be used: \
$(ended '2 steps') and 22 bytes were left out from there on"
    bytes "$head_d $nan $(end 1) 00 00" >"$stick"
    rescued "$stick" '1 step' '1 reading' "$(unusable 1st 76)" '2 bytes behind the end were left out at byte 110'
    # An inverter or a curve where a step may begin is no step's; anything else there is.
    for name in "06 0013 $(printf '%038d' 0)" '06 00' '07' "07 0081 $(printf '%0258d' 0)"; do
        bytes "$head_d $name" >"$stick"
        not_rescued "$stick"
    done
    bytes "$head_d $(inverter 10000 100 5000) $(level 10000) $missing" >"$stick"
    not_rescued "$stick"
    bytes "$head_d EE 0000" >"$stick"
    rescued "$stick" '0 steps' '0 readings' \
        "no field begins like the bytes at byte 76: $(ended '0 steps') and 3 bytes were left out from there on"
    rm "$stick"
}

# Many changes, and sticks up to the bytes that a rescue takes and gives.
rescue_large_suite() {
    local stick=$work/damaged too_long="$work/damaged: refused 12 (too many bytes or steps) at byte 0 after 0 steps"
    local words reading expected=''
    { bytes "$head_d" && repeated "$nan" 65535 && bytes "$(end 65535)"; } >"$stick"
    old
    call rescue "$stick" "$work/out/result"
    good test "$status|$error|$(changes | wc -l)" = '0||65537'
    for words in 1st 2nd 3rd 4th 11th 12th 13th 21st 22nd 23rd 101st 111th 112th 113th 121st 122nd 1,001st 1,011th \
        65,535th; do
        reading=${words//[!0-9]/}
        expected+=$(unusable "$words" "$(commas $((76 + 27 * (reading - 1))))")$'\n'
    done
    expected+="$work/out/result: $(lost '65,535 steps' '65,535 readings')"
    good test "$(changes | sed -n '2,5p; 12,14p; 22,24p; 102p; 112,114p; 122,123p; 1002p; 1012p; 65536,$p')" = \
        "$expected"
    good cmp "$work/out/result" <(bytes "$head_d" && repeated "$missing" 65535 && bytes "$(end 65535)")
    # One change more than steps.
    { bytes "$head_d" && repeated "$nan" 65535 && bytes "$missing $(end 65535)"; } >"$stick"
    call rescue "$stick" "$work/again"
    good test "$status|$error|$(changes | wc -l)|$(changes | sed -n 65537p)" = "0||65538|the stick goes on \
at byte 1,769,521 after as many steps as there can be: $(ended '65,535 steps') and 10 bytes were left out from there on"
    good cmp "$work/out/result" "$work/again"

    # As many bytes as there can be; a byte more, of any kind, from a file or a pipe that never ends.
    { bytes "$head_d" && repeated "$row" 45588 && repeated "$missing" 7 && bytes "$(end 45595)"; } >"$stick"
    unchanged "$stick" 45595
    printf '\0' >>"$stick"
    old
    call rescue "$stick" "$work/out/result"
    good test "$status|${output%%$'\n'*}|$error" = \
        "1|$too_long|import: $stick: cannot be rescued: it is longer than a rescue takes; nothing is written"
    advised 'The file has more than the 2,097,152 bytes that are taken as a whole. Check it with import check, *: if '\
'it is complete it needs no rescue, *; else copy the stick again or ask the manager for a new one. '
    good kept
    { bytes "$head_d" && repeated "$row" 45588 && bytes "$clear $missing $(end 45589)"; } >"$stick"
    call rescue "$stick" "$work/out/result"
    good like "$status|$output" "1|$too_long"$'\n*'
    : >"$stick"
    truncate -s 3G "$stick"
    call rescue "$stick" "$work/out/result"
    good like "$status|$output" "1|$too_long"$'\n*'
    call rescue /dev/zero "$work/out/result"
    good like "$status|$output" "1|/dev/zero: refused 12 (too many bytes or steps) at byte 0 after 0 steps"$'\n*'
    good kept

    # The end that is put in makes it too long, by a byte to seven; and just not.
    { bytes "$head_d" && repeated "$row" 45588 && bytes "$clear $missing $missing $missing"; } >"$stick"
    good test "$(wc -c <"$stick")" = 2097152
    local too_much='refused 12, the rescued stick would be longer than the 2,097,152 bytes that it may have; ask the '
    too_much+='manager to divide the season, with a stick for each part; nothing is written'
    not_rescued "$stick" "$too_much"
    truncate -s 2097149 "$stick"
    not_rescued "$stick" "$too_much"
    truncate -s 2097146 "$stick"
    not_rescued "$stick" "$too_much"
    { bytes "$head_d" && repeated "$row" 45588 && repeated "$missing" 7; } >"$stick"
    rescued "$stick" '45,595 steps' '0 readings' "the stick broke off at byte 2,097,145, without its end: \
$(ended '45,595 steps') and nothing was left out"
    good test "$(wc -c <"$work/out/result")" = 2097152
    # A reading that is made missing makes the room.
    { bytes "$head_d $nan" && repeated "$row" 45587 && repeated "$missing" 14 && printf '\5\0\0\5\0'; } >"$stick"
    good test "$(wc -c <"$stick")" = 2097152
    rescued "$stick" '45,603 steps' '1 reading' "$(unusable 1st 76)" "the stick broke off within the field at byte \
2,097,150: $(ended '45,603 steps') and 2 bytes were left out from there on"
    rm "$stick" "$work/again"
}

# Files of other kinds, files that cannot be read, and pipes.
rescue_files_suite() {
    local name
    : >"$work/empty"
    not_rescued "$work/empty"
    not_rescued /dev/null
    not_rescued c/import/import.c
    not_rescued build/x86_64/import
    printf 'step,kW\r\n0,1.5\r\n' >"$work/season.csv"
    not_rescued "$work/season.csv"
    "$import" run examples/season.stick "$work/season.result" >/dev/null
    old
    call rescue "$work/season.result" "$work/out/result"
    good like "$status|$output" '1|*: refused 2 (unknown tag) at byte 0 *
    This is no stick: a stick begins with the bytes 01 00 06, and this file with 11 00 25. *
    It looks like a result file; where a command takes both, the stick*s file comes first.'
    good kept
    check 2 '' 'import: none: cannot be read: No such file or directory' rescue none "$work/out/result"
    check 2 '' 'import: examples: cannot be read: it is a folder' rescue examples "$work/out/result"
    cp examples/season.stick "$work/secret"
    chmod 000 "$work/secret"
    chmod 777 "$work/out"
    chmod 666 "$work/out/result"
    if as_other rescue "$work/secret" "$work/out/result"; then
        good test "$status|$output|$error" = "2||import: $work/secret: cannot be read: Permission denied"
    fi
    rm -f "$work/secret"
    good kept

    for name in - /dev/stdin; do
        old
        piped examples/refused-06-three-faults.stick rescue "$name" "$work/out/result"
        good like "$status|$error|$output" "0||$name: refused 6 (reading not usable) at byte 2773 after 40 steps*"
        good test "$(changes | wc -l)" = 5
        good cmp examples/rescued-three-faults.stick "$work/out/result"
        old
        piped examples/roof.stick rescue "$name" "$work/out/result"
        good test "$status|$error|$output" = "0||$name: complete, 96 steps"$'\n'"$work/out/result: $same"
        good cmp examples/roof.stick "$work/out/result"
        old
        piped examples/refused-05-value-out-of-range.stick rescue "$name" "$work/out/result"
        good like "$status|$error|$output" "1|import: $name: cannot be rescued: $no_head|$name: refused 5 *"
        good kept
        piped /dev/zero rescue "$name" "$work/out/result"
        good like "$status|$output" "1|$name: refused 12 *"
        good kept
    done
    mkfifo "$work/fifo"
    pour examples/refused-07-wrong-count.stick "$work/fifo" &
    call rescue "$work/fifo" "$work/out/result"
    wait $!
    good like "$status|$error|$output" "0||*: 335 steps kept, 0 readings made missing; *"
    rm "$work/fifo"
}
