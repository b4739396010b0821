# shellcheck shell=bash
# shellcheck disable=SC2034,SC2154 # the variables are those of test_import.sh
# Sourced by test_import.sh: partner over a stand-in for the library, for verdicts that the library does not give.

# canned_verdict ANSWERS RESULT: judge a result over the stand-in, whose answers these are.
canned_verdict() {
    called="partner, with the answers $1"
    error=$(CANNED_PARTNER=$1 "$import" partner "$canned_file" "$2" 2>&1 >"$work/output")
    status=$?
    output=$(cat "$work/output")
}

# no_verdict RESULT ANSWERS..: none of these can be about the two files: partner, table and summary say so, and nothing
# else.
no_verdict() {
    local result=$1 command answers
    shift
    for answers in "$@"; do
        for command in partner table summary; do
            called="$command, with the answers $answers"
            error=$(CANNED_PARTNER=$answers "$import" "$command" "$canned_file" "$result" 2>&1 >"$work/output")
            status=$? output=$(cat "$work/output")
            good test "$status|$output|$error" = "2||import: $result: $fault"
        done
    done
}

# Of the season the record of step 111, unit 2 begins at 13400, the end at 40320; step 112 is asked for by 27 bytes of
# the stick at 3180, and the end by 7 at 9036.
canned_partner_suite() {
    local huge=18446744073709551615 number
    canned_file=$work/stick
    cp examples/season.stick "$canned_file"
    call run "$canned_file" "$work/result"
    head -c 13440 "$work/result" >"$work/cut"
    head -c 13411 "$work/result" >"$work/within"
    head -c 40320 "$work/result" >"$work/unended"
    { cat "$work/result" && printf 'more'; } >"$work/longer"
    : >"$work/nothing"

    # Without answers the stand-in compares; those that it has then can be given too.
    check 0 "$work/result: right: the result of $canned_file, 336 steps, 40,327 bytes" '' \
        partner "$canned_file" "$work/result"
    canned_verdict '0 0 0 0' "$work/result"
    good like "$status|$error|$output" '0||*: right: *'
    while read -r name number; do
        call partner "$canned_file" "$work/$name"
        local lines=$output
        canned_verdict "$number" "$work/$name"
        good test "$status|$error|$output" = "1||$lines"
        good like "$output" "$work/$name: wrong: not the result of $canned_file, from byte *"
    done <<'END'
cut 0 2 3180 27
within 0 1 13400 11
unended 0 2 9036 7
longer 0 1 40327 4
nothing 0 2 180 27
END

    # Verdicts that there are not, and numbers of a stick that is complete.
    no_verdict "$work/result" '0 3 0 0' '0 255 0 0' '1 0 0 0' '12 0 0 0' '4294967295 0 0 0'
    # It is right, and something is shown; or it is not just as long.
    no_verdict "$work/result" '0 0 1 0' '0 0 0 1' "0 0 $huge $huge"
    for number in cut within unended longer nothing; do
        no_verdict "$work/$number" '0 0 0 0'
    done
    # Bytes of the result that are as they should be, begin in a field, are none, fewer or more than the field's, or are
    # not there.
    no_verdict "$work/result" '0 1 0 40' '0 1 13400 40' '0 1 40320 7' '0 1 13401 40' '0 1 13401 39' '0 1 13400 0' \
        '0 1 13400 39' '0 1 13400 41' '0 1 40320 6' '0 1 40320 8' '0 1 40327 0' '0 1 40327 1' '0 1 40328 0' \
        "0 1 $huge 1" "0 1 0 $huge" "0 1 $huge $huge" '0 1 9223372036854775808 40'
    no_verdict "$work/within" '0 1 13400 40' '0 1 13400 10' '0 1 13400 12' '0 1 13411 0' '0 1 13440 40' '0 2 3180 27' \
        '0 1 13360 40'
    no_verdict "$work/longer" '0 1 40327 3' '0 1 40327 5' '0 1 40328 3' '0 1 40331 0' '0 2 9036 7' '0 1 40320 7'
    # A field of the stick that asks for something else, or is none; and nothing is missing.
    no_verdict "$work/cut" '0 2 3179 27' '0 2 3180 26' '0 2 3180 28' '0 2 3180 0' '0 2 3153 27' '0 2 3207 27' \
        '0 2 0 9' '0 2 9036 7' '0 2 9043 0' '0 2 9043 7' "0 2 $huge 27" "0 2 3180 $huge" '0 1 13440 0' '0 1 13440 40'
    no_verdict "$work/unended" '0 2 9009 27' '0 2 9036 6' '0 2 9043 0' '0 1 40320 0' '0 1 40320 7'
    no_verdict "$work/nothing" '0 2 0 9' '0 2 207 27' '0 1 0 0' '0 1 0 40'
    no_verdict "$work/result" '0 2 3180 27' '0 2 9036 7' '0 2 9043 0'

    # A stick that is refused: by the number of the check, and by no other; one that is too long by 12.
    canned_file=$work/canned
    printf '5 0 7 3 4' >"$canned_file"
    canned_verdict '5 0 0 0' "$work/result"
    good like "$status|$error|$output" \
        "1|import: $canned_file: refused; there is no verdict|$canned_file: refused 5 (*) at byte 0 after 7 steps*"
    for number in 0 4 6 12 4294967295; do
        canned_verdict "$number 0 0 0" "$work/result"
        good test "$status|$output|$error" = "2||import: $canned_file: $fault"
    done
    head -c 2097153 /dev/zero >"$canned_file"
    canned_verdict '12 0 0 0' "$work/result"
    good like "$status|$error|$output" \
        "1|import: $canned_file: refused; there is no verdict|$canned_file: refused 12 (*) at byte 0 after 0 steps*"
    for number in 0 2 9 4294967295; do
        canned_verdict "$number 0 0 0" "$work/result"
        good test "$status|$output|$error" = "2||import: $canned_file: $fault"
    done
    # A stick without its end, which the stand-in takes: nothing of it asks for the end.
    head -c 9036 examples/season.stick >"$work/stick"
    canned_file=$work/stick
    no_verdict "$work/unended" '0 2 9036 7' '0 2 9036 0' '0 2 9009 27'
    rm "$work/stick" "$work/canned" "$work/result" "$work/cut" "$work/within" "$work/unended" "$work/longer" \
        "$work/nothing"
}
