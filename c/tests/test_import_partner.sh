# shellcheck shell=bash
# shellcheck disable=SC2034,SC2154 # the variables are those of test_import.sh
# Sourced by test_import.sh: partner: results that are right, and those that are not, of which table and summary say the
# same; and files that are none.

other_rules="    It was changed or cut, is another stick's, or was made by other rules; import run FILE NEW makes the \
right one."

# counted NUMBER: which it is, as people count.
counted() {
    local end=th
    case $1 in
    *1[123]) ;;
    *1) end=st ;;
    *2) end=nd ;;
    *3) end=rd ;;
    esac
    echo "$(commas "$1")$end"
}

# due STEP NUMBER WHOSE WHICH: whose record is due, counted both ways, with the sentence's first word small or not as
# that of the step is; due 'The end' and nothing else is the end.
due() {
    local the=The
    if [ $# = 1 ]; then
        echo "$1"
        return
    fi
    [ "$1" = Step ] || the=the
    echo "$the record of $3 $4, the $(counted $(($4 + 1))) $3, in step $(commas "$2"), the $(counted $(($2 + 1))) row,"
}

# not_shown FILE RESULT PLACE WORDS: all three commands say the same of a result that is wrong from a place on, and show
# nothing of it; but for a stick that is too long for partner. The words are a pattern of the second line.
not_shown() {
    local command lines
    call partner "$1" "$2"
    if [ "$(stat -L -c %s "$1")" -gt 2097152 ]; then
        good like "$status|$output" "1|$1: refused 12 *"
        call table "$1" "$2"
        error=
    fi
    good like "$status|$error|$output" "1||$2: wrong: not the result of $1, from byte $(commas "$3") on
    $4
*$other_rules"
    lines=$output
    for command in summary table; do
        if [ "$command" = summary ] && [ "$(part "$2" 0 3)" = 010006 ]; then
            # A second stick is none that is given for a result.
            call summary "$1" "$2"
            good like "$output" "$1: complete, *"$'\n\n'"$2: *"
        else
            check 1 "$lines" "import: $2: not shown; it is not what the run gives" "$command" "$1" "$2"
        fi
    done
}

# column NUMBER: a column of the values that were shown, one below the other.
column() {
    sed -nE 's/^ *((same|differs|cut short|missing)  )/\1/p' "$work/output" | awk -F '  +' -v n="$1" '{ print $n }'
}

# part FILE FROM BYTES: bytes of a file, in hexadecimal.
part() {
    tail -c +$(($2 + 1)) "$1" | head -c "$3" | hex /dev/stdin
}

# shown_bytes RESULT RIGHT FROM BYTES: the bytes that were shown are those of the result and of the right one.
shown_bytes() {
    good test "$(column 5 | tr -d ' \n-' | tr A-F a-f)" = "$(part "$1" "$3" "$4")"
    good test "$(column 6 | tr -d ' \n' | tr A-F a-f)" = "$(part "$2" "$3" "$4")"
}

# other_byte FILE RIGHT PLACE FROM BYTES PART DUE: one byte of a right result is another. The field that begins at FROM
# is shown, and differs in that part.
other_byte() {
    local byte
    cp "$2" "$work/bad"
    byte=$(od -An -v -tu1 -j "$3" -N 1 "$2")
    patch "$work/bad" "$3" "$(printf %02X $((byte ^ 0x81)))"
    not_shown "$1" "$work/bad" "$4" "$7 is due there. What differs: $6."
    good test "$(paste <(column 1) <(column 2) | sed -n 's/^differs\t//p')" = "$6"
    shown_bytes "$work/bad" "$2" "$4" "$5"
}

# cut_words_of THERE BYTES: how many of a field's bytes are there, and how many are missing.
cut_words_of() {
    local missing=$(($2 - $1))
    echo "$1 of its $2 bytes $([ "$1" = 1 ] && echo is || echo are) there, and $missing \
$([ "$missing" = 1 ] && echo is || echo are) missing."
}

# cut_result FILE RIGHT CUT FROM BYTES DUE: a right result is cut within the field that begins at FROM.
cut_result() {
    head -c "$3" "$2" >"$work/bad"
    not_shown "$1" "$work/bad" "$4" "$6 is due there, and is cut short: $(cut_words_of $(($3 - $4)) "$5")"
    good test "$(column 1 | sort -u | tr '\n' ' ' | grep -c differs)" = 0
    good test "$(column 5 | tr -d ' \n-' | tr A-F a-f)" = "$(part "$work/bad" "$4" "$5")"
}

# lacking FILE RIGHT CUT ASKING BYTES DUE: a right result ends before a field, for which a field of the stick asks.
lacking() {
    local which=reading
    head -c "$3" "$2" >"$work/bad"
    [ "$6" = 'the end' ] && which='end field'
    not_shown "$1" "$work/bad" "$3" "The result ends there: $6 is missing. The $which of $1 that asks for it is at \
byte $(commas "$4") and has $5 bytes:"
    good test "$(sed -n 's/^ \{4\} *[0-9]*  \([0-9A-F]\)/\1/p' "$work/output" | tr -d ' \n' | tr A-F a-f)" = \
        "$(part "$1" "$4" "$5")"
    good test "$(sed -n 's/^ *\([0-9]*\)  [0-9A-F].*/\1/p' "$work/output" | head -n 1)" = "$4"
}

# right FILE RESULT STEPS: a result is right.
right() {
    local steps
    steps="$(commas "$3") step$([ "$3" = 1 ] || echo s)"
    check 0 "$2: right: the result of $1, $steps, $(commas "$(stat -L -c %s "$2")") bytes" '' partner "$1" "$2"
}

# A record of the small stick that gives, whose every value is another.
giving_values="                value  theirs    ours              their bytes                our bytes
   same           tag    unit    unit                       11                       11
   same        length      37      37                    00 25                    00 25
   same          step       1       1              00 00 00 01              00 00 00 01
   same          unit       0       0                       00                       00
differs     request W    -100     900              FF FF FF 9C              00 00 03 84
differs  delivered kW  -0.100   0.899  BF B9 99 99 99 99 99 9A  3F EC C4 9B A5 E3 53 F8
differs          vars     -12       0              FF FF FF F4              00 00 00 00
differs      stored J   65536  100074  00 00 00 00 00 01 00 00  00 00 00 00 00 01 86 EA
differs        loss J       0   21735  00 00 00 00 00 00 00 00  00 00 00 00 00 00 54 E7"

partner_suite() {
    local name steps needs='import: partner needs a FILE and a RESULT'
    for name in '' examples/season.stick 'examples/season.stick a b'; do
        # shellcheck disable=SC2086 # the names are words
        check 2 '' "$needs"$'\n'"$usage" partner $name
    done
    for name in examples/[!r]*.stick examples/r[!e]*.stick examples/rescued*.stick; do
        call run "$name" "$work/bad"
        steps=${output##*complete, }
        right "$name" "$work/bad" "${steps% steps}"
    done
    right "$work/whole" "$work/whole.result" 1
    right "$work/none" "$work/none.result" 0
    right "$work/giving" "$work/giving.result" 3
    right "$work/taking" "$work/taking.result" 3
    # The sizes, which the line says too, are those of the layout.
    good test "$(stat -c %s "$work/whole.result" "$work/none.result" "$work/giving.result" | tr '\n' ' ')" = '47 7 127 '

    # All values of a record are others; the whole of what is said.
    cp "$work/giving.result" "$work/bad"
    patch "$work/bad" 48 FFFFFF9C BFB999999999999A FFFFFFF4 0000000000010000 0000000000000000
    check 1 "$work/bad: wrong: not the result of $work/giving, from byte 40 on
    $(due Step 1 unit 0) is due there. What differs: request W, delivered kW, vars, stored J, loss J.
$giving_values
$other_rules" '' partner "$work/giving" "$work/bad"
    # Only the first field that is wrong is shown, cut or not.
    patch "$work/bad" 90 EEEE
    check 1 "$output" '' partner "$work/giving" "$work/bad"
    not_shown "$work/giving" "$work/bad" 40 "$(due Step 1 unit 0) is due there. What differs: *"
    head -c 50 "$work/bad" >"$work/bad2"
    check 1 "$work/bad2: wrong: not the result of $work/giving, from byte 40 on
    $(due Step 1 unit 0) is due there, and is cut short: 10 of its 40 bytes are there, and 30 are missing. What \
differs: request W.
                  value  theirs    ours  their bytes                our bytes
     same           tag    unit    unit           11                       11
     same        length      37      37        00 25                    00 25
     same          step       1       1  00 00 00 01              00 00 00 01
     same          unit       0       0           00                       00
cut short     request W       -     900        FF FF              00 00 03 84
  missing  delivered kW       -   0.899            -  3F EC C4 9B A5 E3 53 F8
  missing          vars       -       0            -              00 00 00 00
  missing      stored J       -  100074            -  00 00 00 00 00 01 86 EA
  missing        loss J       -   21735            -  00 00 00 00 00 00 54 E7
$other_rules" '' partner "$work/giving" "$work/bad2"
    check 1 "$work/none.result: wrong: not the result of $work/giving, from byte 0 on
    $(due Step 0 unit 0) is due there, and is cut short: 7 of its 40 bytes are there, and 33 are missing. What \
differs: tag, length.
                value  theirs    ours  their bytes                our bytes
differs           tag     end    unit           1F                       11
differs        length       4      37        00 04                    00 25
   same          step       0       0  00 00 00 00              00 00 00 00
missing          unit       -       0            -                       00
missing     request W       -     900            -              00 00 03 84
missing  delivered kW       -   0.900            -  3F EC CC CC CC CC CC CD
missing          vars       -       0            -              00 00 00 00
missing      stored J       -  175749            -  00 00 00 00 00 02 AE 85
missing        loss J       -   21750            -  00 00 00 00 00 00 54 F6
$other_rules" '' partner "$work/giving" "$work/none.result"
    rm "$work/bad2"
}

# part_of PLACE STEPS ROOF: where the field of a small result that a byte is in begins, its bytes, and the part of it;
# the result is of one unit and, where the roof's records have bytes, one inverter.
part_of() {
    local place=$1 steps=$2 all=$((40 + $3)) from name
    if [ "$place" -ge $((all * steps)) ]; then
        from=$((all * steps))
        set -- 0 tag 1 length 3 'number of steps' 7
    elif [ $((place % all)) -lt 40 ]; then
        from=$((place - place % all))
        set -- 0 tag 1 length 3 step 7 unit 8 'request W' 12 'delivered kW' 20 vars 24 'stored J' 32 'loss J' 40
    else
        from=$((place - place % all + 40))
        set -- 0 tag 1 length 3 step 7 inverter 8 on 9 'delivered kW' 17 vars 21 'DC W' 29
    fi
    while [ $# -gt 2 ] && [ "$3" -le $((place - from)) ]; do shift 2; done
    name=$2
    while [ $# -gt 1 ]; do shift 2; done
    echo "$from|$1|$name"
}

# due_of WORD PLACE STEPS ROOF: what is due there.
due_of() {
    local step=$(($2 / (40 + $4))) of=$(($2 % (40 + $4))) whose=unit
    [ "$of" -lt 40 ] || whose=inverter
    if [ "$step" -ge "$3" ]; then
        [ "$1" = Step ] && echo 'The end' || echo 'the end'
    else
        due "$1" "$step" "$whose" 0
    fi
}

# Every byte of a small result, changed, and as the first that is not there.
partner_bytes_suite() {
    local name steps roof readings place from len part
    roof_sticks
    call run "$work/sunny" "$work/sunny.result"
    while IFS='|' read -r name steps roof readings; do
        # shellcheck disable=SC2206 # the fields that ask, by place and length, are words
        local asking=($readings) all=$(((40 + roof) * steps + 7))
        for ((place = 0; place < all; place++)); do
            IFS='|' read -r from len part < <(part_of "$place" "$steps" "$roof")
            cp "$work/$name.result" "$work/bad"
            patch "$work/bad" "$place" EE
            call partner "$work/$name" "$work/bad"
            good like "$status|$error|$output" "1||$work/bad: wrong: not the result of $work/$name, from byte $from on
    $(due_of Step "$from" "$steps" "$roof") is due there. What differs: $part.
*"
            shown_bytes "$work/bad" "$work/$name.result" "$from" "$len"
            if [ "$place" != "$from" ]; then
                head -c "$place" "$work/$name.result" >"$work/bad"
                call partner "$work/$name" "$work/bad"
                good like "$status|$error|$output" "1||*, from byte $from on
    $(due_of Step "$from" "$steps" "$roof") is due there, and is cut short: $(cut_words_of $((place - from)) "$len")
*"
            else
                lacking "$work/$name" "$work/$name.result" "$place" "${asking[2 * (place / (40 + roof))]}" \
                    "${asking[2 * (place / (40 + roof)) + 1]}" "$(due_of step "$from" "$steps" "$roof")"
            fi
        done
    done <<'END'
sunny|4|29|381 3 403 3 425 3 428 3 431 7
none|0|0|76 7
END
}

# Powers that no run gives, beside 0.899 kW.
partner_powers_suite() {
    local power text
    while read -r power text; do
        cp "$work/giving.result" "$work/bad"
        patch "$work/bad" 52 "$power"
        call partner "$work/giving" "$work/bad"
        good like "$status|$error|$output" "1||*What differs: delivered kW.
*"
        good test "$(column 3 | sed -n 6p)|$(column 4 | sed -n 6p)" = "$text|0.899"
    done <<'END'
0000000000000000 0.000
8000000000000000 -0
3FECC49BA5E353F9 0.89900000000000013
3FECC49BA5E353F7 0.89899999999999991
7FF8000000000000 no number
FFF8000000000001 no number
7FF0000000000000 inf
FFF0000000000000 -inf
0000000000000001 4.9406564584124654e-324
FFEFFFFFFFFFFFFF -1.7976931348623157e+308
40F86A0000000000 100000.000
C0FADB0000000000 -110000.000
C0FADB0004189375 -110000.001
3FF4000000000000 1.250
3FF4020000000000 1.25048828125
END
}

# behind BYTES WORDS: so many bytes follow the season's result, which is in the file.
behind() {
    not_shown examples/season.stick "$work/bad" 40327 "All that is due is there, and behind it $1"
}

# What follows the end, and results that are those of nothing.
partner_behind_suite() {
    local stick=examples/season.stick name
    { cat "$work/season.result" && printf '\xEE'; } >"$work/bad"
    behind '1 byte:'
    good test "$(sed -n 3p "$work/output")" = '       40327  EE'
    { cat "$work/season.result" && head -c 32 "$stick"; } >"$work/bad"
    behind '32 bytes:'
    good test "$(sed -n '3,4p' "$work/output")" = '       40327  01 00 06 01 03 00 00 0E 10 02 00 31 00 00 00 00
       40343  2A EA 54 00 00 00 00 00 04 4A A2 00 00 00 00 00'
    good lines 5
    { cat "$work/season.result" && head -c 33 "$stick"; } >"$work/bad"
    behind '33 bytes, which begin with:'
    good lines 5
    cat "$work/season.result" "$work/season.result" >"$work/bad"
    behind '40,327 bytes, which begin with:'
    for name in 65535 65536 65537 3000000000; do
        cp "$work/season.result" "$work/bad"
        truncate -s $((40327 + name)) "$work/bad"
        behind "$(commas "$name") bytes, which begin with:"
    done
    # A pipe is read a little further than its result goes, and need not end.
    for name in 65535 65536 65537; do
        cp "$work/season.result" "$work/bad"
        truncate -s $((40327 + name)) "$work/bad"
        piped "$work/bad" partner "$stick" -
        good like "$status|$output" "1|-: wrong: *, from byte 40,327 on
    All that is due is there, and behind it $(commas $((name < 65536 ? name : 65536))) bytes$([ "$name" = 65535 ] ||
            echo ' or more'), which begin with:
*"
    done
    not_shown "$stick" /dev/zero 0 "$(due Step 0 unit 0) is due there. What differs: tag, length, *"
    good like "$(tail -n 2 "$work/output")" '    It does not begin like a result: the first byte is 11, or 1F where *'
    not_shown "$stick" /dev/null 0 "The result ends there: $(due step 0 unit 0) is missing. *:"
    good like "$(tail -n 2 "$work/output")" '    It is empty: it was not written.*'
    # Files of other kinds.
    for name in c/import/import.c build/x86_64/import README.md; do
        not_shown "$stick" "$name" 0 "$(due Step 0 unit 0) is due there. What differs: tag, *"
        good like "$(tail -n 2 "$work/output")" '    It does not begin like a result: the first byte is 11, *'
    done
    for name in "$stick" examples/roof.stick "$work/whole"; do
        not_shown "$stick" "$name" 0 "$(due Step 0 unit 0) is due there. What differs: tag, length, *"
        good like "$(tail -n 2 "$work/output")" \
            '    It looks like a stick, and no result; give the result of FILE in its place.*'
    done
    not_shown "$work/none" "$work/none" 0 'The end is due there. What differs: tag, length, number of steps.'
    # A result that is wrong behind its beginning is none of these.
    not_shown "$work/giving" "$work/taking.result" 0 "$(due Step 0 unit 0) is due there. What differs: request W, *"
    good test "$(grep -c 'It looks like\|It does not begin\|It is empty' "$work/output")" = 0
}

# not_judged FILE [RESULT]: a stick is refused with the words of check, and no result is looked at.
not_judged() {
    check 1 "$(told "$1")" "import: $1: refused; there is no verdict" partner "$1" "${2:-$work/season.result}"
}

# Sticks that are refused, and files that cannot be read or are exchanged.
partner_refused_suite() {
    local stick=examples/season.stick name other too_long
    for name in examples/refused-* "$work/empty" /dev/null c/import/import.c; do
        not_judged "$name"
        not_judged "$name" none
    done
    # The two are exchanged; or one of them is given for both.
    for name in season none; do
        check 1 "$(told "$work/$name.result")
    It looks like a result file, and $stick like a stick: they may have been exchanged; the stick's file comes first." \
            "import: $work/$name.result: refused; there is no verdict" partner "$work/$name.result" "$stick"
        call table "$work/$name.result" "$stick"
        good like "$status|$output" "1|*
    It looks like a result file, and $stick like a stick: they may have been exchanged; *"
        for other in "$work/season.result" none /dev/null -; do
            check 1 "$(told "$work/$name.result")
    It looks like a result file; where a command takes both, the stick's file comes first." \
                "import: $work/$name.result: refused; there is no verdict" partner "$work/$name.result" "$other" \
                </dev/null
        done
    done
    check 2 '' 'import: none: cannot be read: No such file or directory' partner none "$work/season.result"
    check 2 '' 'import: none: cannot be read: No such file or directory' partner "$stick" none
    check 2 '' 'import: examples: cannot be read: it is a folder' partner examples "$work/season.result"
    check 2 '' 'import: examples: cannot be read: it is a folder' partner "$stick" examples
    check 2 '' 'import: -: cannot be read: FILE is standard input already; give RESULT the name of a file' \
        partner - - <"$stick"
    for name in "$stick" "$work/season.result"; do
        cp "$name" "$work/secret"
        chmod 000 "$work/secret"
        if as_other partner "$([ "$name" = "$stick" ] && echo "$work/secret" || echo "$stick")" "$work/secret"; then
            good test "$status|$output|$error" = "2||import: $work/secret: cannot be read: Permission denied"
        fi
        rm -f "$work/secret"
    done
    error=$("$import" partner "$stick" "$work/season.result" 2>&1 >/dev/full)
    status=$? output='' called='partner >/dev/full'
    good test "$status|$error" = '2|import: the lines cannot be written'

    # As many bytes as are taken, and one more, of any kind.
    { bytes "$head_d" && repeated "$row" 45588 && repeated "$missing" 7 && bytes "$(end 45595)"; } >"$work/just"
    call run "$work/just" "$work/just.result"
    right "$work/just" "$work/just.result" 45595
    cut_result "$work/just" "$work/just.result" $((40 * 45594 + 13)) $((40 * 45594)) 40 "$(due Step 45594 unit 0)"
    lacking "$work/just" "$work/just.result" $((40 * 45588)) $((76 + 46 * 45588)) 3 "$(due step 45588 unit 0)"
    printf '\0' >>"$work/just"
    too_long='The file has more than the 2,097,152 bytes that are taken as a whole. Check it with import check, which '
    too_long+='takes any length: if it is complete it needs no rescue, import summary judges its result too, and for '
    too_long+='other targets ask the manager to divide the season, with a stick for each part; else copy the stick again '
    too_long+='or ask the manager for a new one.'
    too_long="refused 12 (too many bytes or steps) at byte 0 after 0 steps"$'\n'$(wrapped "$too_long")
    for name in "$work/just.result" none; do
        check 1 "$work/just: $too_long" "import: $work/just: refused; there is no verdict" partner "$work/just" "$name"
        check 1 "/dev/zero: ${too_long%%$'\n'*}
$(told /dev/zero | tail -n +2)" 'import: /dev/zero: refused; there is no verdict' partner /dev/zero "$name"
        advised 'This is no stick: it begins with nothing but zeros, as a file does that was never written. *'
    done
    # It may be a result, which is longer than its stick.
    for name in {1..53}; do cat "$work/season.result"; done >"$work/just"
    check 1 "$work/just: ${too_long%%$'\n'*}
$(told "$work/season.result" | tail -n +2)
    It looks like a result file, and $stick like a stick: they may have been exchanged; the stick's file comes first." \
        "import: $work/just: refused; there is no verdict" partner "$work/just" "$stick"
    rm "$work/just" "$work/just.result"
}

partner_pipe_suite() {
    local stick=examples/season.stick name
    for name in - /dev/stdin; do
        piped "$stick" partner "$name" "$work/season.result"
        good test "$status|$error|$output" = \
            "0||$work/season.result: right: the result of $name, 336 steps, 40,327 bytes"
        piped "$work/season.result" partner "$stick" "$name"
        good test "$status|$error|$output" = "0||$name: right: the result of $stick, 336 steps, 40,327 bytes"
        head -c 13411 "$work/season.result" >"$work/bad"
        piped "$work/bad" partner "$stick" "$name"
        good like "$status|$error|$output" "1||$name: wrong: not the result of $stick, from byte 13,400 on
    $(due Step 111 unit 2) is due there, and is cut short: 11 of its 40 bytes are there, and 29 are missing.
*"
        piped "$stick" partner "$name" "$work/bad"
        good like "$status|$error|$output" "1||$work/bad: wrong: not the result of $name, from byte 13,400 on*"
        piped /dev/null partner "$stick" "$name"
        good like "$status|$error|$output" "1||$name: wrong: *, from byte 0 on*It is empty*"
        piped examples/refused-07-wrong-count.stick partner "$name" "$work/season.result"
        good like "$status|$error|$output" "1|import: $name: refused; there is no verdict|$name: refused 7 *"
        piped /dev/zero partner "$name" "$work/season.result"
        good like "$status|$output" "1|$name: refused 12 *"
    done
    mkfifo "$work/fifo"
    pour "$work/season.result" "$work/fifo" &
    check 0 "$work/fifo: right: the result of $stick, 336 steps, 40,327 bytes" '' partner "$stick" "$work/fifo"
    wait $!
    rm "$work/fifo"
    # A name that would move the line.
    cp "$work/season.result" "$work/a"$'\n'b
    check 0 "$work/a?b: right: the result of $stick, 336 steps, 40,327 bytes" '' partner "$stick" "$work/a"$'\n'b
    rm "$work/a"$'\n'b
}

# What is read fails, or there is no memory for it: the stick, which is kept, and then the result.
partner_fault_suite() {
    local fault
    for fault in fread:1:5 realloc:1:12 fread:3:5 realloc:2:12; do
        faulty "$fault" examples/season.stick "$hearing" partner
        case $fault in
        fread:1*) fault='examples/season.stick: cannot be read: Input/output error' ;;
        realloc:1*) fault='examples/season.stick: no memory for it; close other programs and call again' ;;
        fread*) fault="$work/out/result: cannot be read: Input/output error" ;;
        realloc*) fault="$work/out/result: no memory for it; close other programs and call again" ;;
        esac
        good test "$status|$output|$error" = "2||import: $fault"
    done
    faulty none examples/season.stick "$hearing" partner
    good like "$status|$error|$output" "1||$work/out/result: wrong: *cut short: 4 of its 40 bytes are there, *"
}
