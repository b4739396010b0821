# shellcheck shell=bash
# shellcheck disable=SC2034,SC2154 # the variables are those of test_import.sh
# Sourced by test_import.sh: rescue over a stand-in for the library, for answers that the library does not give.

# canned_rescue CHECKS ANSWERS [SPOILED]: rescue a sample over the stand-in, whose answers these are.
canned_stick=$wreck
canned_rescue() {
    called="rescue, with the checks $1 and the answers $2${3:+, and byte $3 spoiled}"
    old
    error=$(export CANNED_CHECK="$1" CANNED_RESCUE="$2" && { [ $# -lt 3 ] || export CANNED_SPOILED="$3"; } &&
        "$import" rescue "$canned_stick" "$work/out/result" 2>&1 >"$work/output")
    status=$?
    output=$(cat "$work/output")
}

# no_answer CHECKS ANSWERS [SPOILED]: that cannot be about the file; nothing is said of it, and nothing written.
no_answer() {
    canned_rescue "$@"
    good test "$status|$output|$error" = "2||import: $canned_stick: $fault"
    good kept
}

# Answers that are right, and many that are not. The check is made of the file with its readings made missing, where an
# end was put in, and of the file.
canned_rescue_suite() {
    local checks='1 4550 83 6 2773 40' two='2773 1 24 3629 1 24' answers lines number
    canned_rescue "$checks" "0 4538 3 83 $two 4579 2 30"
    good like "$status|$error|$output" "0||$wreck: refused 6 (reading not usable) at byte 2773 after 40 steps
    *
$(unusable 41st 2,773)
$(unusable 62nd 3,629)
the stick broke off within the field at byte 4,598: $(ended '83 steps') and 30 bytes were left out from byte 4,579 on, \
where a weather waited for its reading
$work/out/result: $(lost '83 steps' '2 readings')"
    good saved
    # Every number where the stick ends, those that it never has among them.
    for number in 1 2 3 4 5 6 7 8 9 12 13 4294967295; do
        canned_rescue "$number 4550 83 6 2773 40" "0 4538 3 83 $two 4579 2 30"
        good like "$status|$error|$(changes | sed -n 4p)" "0||*at byte 4,598*: $(ended '83 steps') *"
        good saved
    done
    # A complete one; one that is refused, for a field before its steps and for its output.
    unset CANNED_CHECK CANNED_RESCUE
    unchanged examples/season.stick 336
    unchanged examples/roof.stick 96
    canned_rescue '5 61 0' '5 0 0 0'
    good like "$status|$error|$output" "1|import: $wreck: cannot be rescued: $no_head|*: refused 5 (value out of \
range) at byte 61 after 0 steps*"
    good kept

    # A room that is longer than the file can need, one short, one more, none, and beyond any.
    for number in 4617 4537 4539 0 7 2097153 4611686018427387904 18446744073709551615; do
        no_answer "$checks" "0 $number 3 83 $two 4579 2 30"
    done
    # Changes left out or made up; more than steps and one.
    no_answer "$checks" "0 4538 2 83 $two"
    no_answer "$checks" "0 4538 0 83"
    no_answer "$checks" "0 4538 2 83 2773 1 24 4579 2 30"
    no_answer "$checks" "0 4538 4 83 $two 4579 2 30 4609 2 0"
    no_answer "$checks" "0 4545 4 83 $two 4579 2 30 4609 2 0"
    no_answer "$checks" "0 4538 4 83 $two 4579 2 30 4609 3 0"
    for number in 85 65537 1152921504606846976 18446744073709551615; do
        no_answer "$checks" "0 4538 $number 83 $two 4579 2 30"
    done
    # Steps that are not those of the readings.
    for number in 0 1 82 84 65535 65536 4294967295; do
        no_answer "$checks" "0 4538 3 $number $two 4579 2 30"
    done
    # Kinds that there are not, and those of another place.
    for number in 0 3 4 255 257; do
        no_answer "$checks" "0 4538 3 83 $two 4579 $number 30"
        no_answer "$checks" "0 4538 3 83 2773 $number 24 3629 1 24 4579 2 30"
    done
    no_answer "$checks" "0 4538 3 83 2773 1 24 3629 2 24 4579 2 30"
    no_answer "$checks" "0 4538 3 83 $two 4579 1 24"
    # Places out of order, twice, in a field, at other fields, and outside.
    no_answer "$checks" "0 4538 3 83 3629 1 24 2773 1 24 4579 2 30"
    no_answer "$checks" "0 4538 3 83 2773 1 24 2773 1 24 4579 2 30"
    for number in 0 2772 2774 2754 3628 4578 4580 4599 4609 4610 9223372036854775808 18446744073709551615; do
        no_answer "$checks" "0 4538 3 83 2773 1 24 $number 1 24 4579 2 30"
        no_answer "$checks" "0 4538 3 83 $two $number 2 30"
    done
    # Bytes that do not add up.
    for number in 0 23 25 18446744073709551615; do
        no_answer "$checks" "0 4538 3 83 2773 1 $number 3629 1 24 4579 2 30"
    done
    for number in 0 29 31 18446744073709551615; do
        no_answer "$checks" "0 4538 3 83 $two 4579 2 $number"
    done
    # A byte of what is kept that no change lists, in a head, a reading, one made missing, and the end.
    for number in 0 1500 2773 2774 2780 4531 4534 4537; do
        no_answer "$checks" "0 4538 3 83 $two 4579 2 30" "$number"
    done
    # Numbers of no file, of a room, and other ones than the check's; steps before a refused field of the head.
    for number in 2 6 9 10 11 12 13 4294967295; do
        no_answer '5 61 0' "$number 0 0 0"
    done
    no_answer '5 61 1' '5 0 0 0'
    no_answer '5 61 0' '5 4538 0 0'
    no_answer '0 0 0' '5 0 0 0'
    # The check finds nothing where something was changed, or something where nothing was; or it ends elsewhere.
    no_answer '1 4550 83 0 0 0' "0 4538 3 83 $two 4579 2 30"
    no_answer '0 0 0 6 2773 40' "0 4538 3 83 $two 4579 2 30"
    no_answer '1 4530 83 6 2773 40' "0 4538 3 83 $two 4579 2 30"
    no_answer '10 4550 83 6 2773 40' "0 4538 3 83 $two 4579 2 30"
    no_answer '1 9999 83 6 2773 40' "0 4538 3 83 $two 4579 2 30"
    # A complete file: the check refuses it, its steps or its room are others, or changes are made up of nothing.
    canned_stick=examples/season.stick
    no_answer '6 2773 40' '0 9043 0 336'
    for answers in '0 9043 0 335' '0 9043 0 337' '0 9042 0 336' '0 9050 0 336' '0 9050 1 336 9043 2 0'; do
        no_answer '0 0 0' "$answers"
    done
    for number in 0 3 4 255; do
        no_answer '9 9043 336' "0 9043 1 336 9043 $number 0"
    done
    canned_stick=$wreck

    # A file that is too long is said to be, and nothing else.
    { cat "$wreck" && head -c 2097152 /dev/zero; } >"$work/damaged"
    for number in '12 0 0 0' '0 4538 0 83' '5 0 0 0'; do
        error=$(CANNED_RESCUE=$number "$import" rescue "$work/damaged" "$work/out/result" 2>&1 >"$work/output")
        status=$? output=$(cat "$work/output") called="rescue of a long file, with the answers $number"
        case $number in
        12*) good like "$status|$output" "1|*: refused 12 (too many bytes or steps) at byte 0 after 0 steps*" ;;
        *) good test "$status|$output|$error" = "2||import: $work/damaged: $fault" ;;
        esac
        good kept
    done
    # What is kept would be too long: only of a file that is so itself, but for the end.
    for number in 2097146 2097145; do
        head -c "$number" "$work/damaged" >"$work/damaged2"
        error=$(CANNED_CHECK='8 4609 9' CANNED_RESCUE='12 0 0 0' "$import" rescue "$work/damaged2" "$work/out/result" \
            2>&1 >"$work/output")
        status=$? output=$(cat "$work/output") called="rescue of $number bytes, refused for the bytes that are kept"
        if [ "$number" = 2097146 ]; then
            good like "$status|$error|$output" \
                "1|import: *: cannot be rescued: refused 12, *; nothing is written|*: refused 8 (end field missing) *"
        else
            good test "$status|$output|$error" = "2||import: $work/damaged2: $fault"
        fi
        good kept
    done
    # Many changes.
    { bytes "$head_d" && repeated "$nan" 1500 && bytes "$(end 1500)"; } >"$work/damaged"
    answers="0 $((76 + 3 * 1500 + 7)) 1500 1500 $(for ((number = 0; number < 1500; number++)); do
        printf '%d 1 24 ' $((76 + 27 * number)); done)"
    error=$(CANNED_CHECK='6 76 0' CANNED_RESCUE=$answers "$import" rescue "$work/damaged" "$work/out/result" 2>&1 \
        >"$work/output")
    status=$? output=$(cat "$work/output") called='rescue of 1,500 readings'
    good test "$status|$error|$(changes | wc -l)|$(changes | sed -n 1501p)" = \
        "0||1502|$(unusable 1,500th 40,549)"
    good cmp "$work/out/result" <(bytes "$head_d" && repeated "$missing" 1500 && bytes "$(end 1500)")
    rm "$work/damaged" "$work/damaged2"
}
