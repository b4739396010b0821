# shellcheck shell=bash
# shellcheck disable=SC2034,SC2154 # the variables are those of test_import.sh
# Sourced by test_import.sh: check and show.

help=$("$import" help)

check_suite() {
    local name lines stick=examples/season.stick

    check 2 '' "$usage"
    check 0 "$help" '' --help
    check 0 "$help" '' -h
    good narrow
    good like "$usage" 'usage: import check FILE..*import help \[COMMAND\] *'$'\n''options: --json *'
    good test "${help:0:${#usage}}" = "$usage"
    good like "$help" '*2 a wrong call, or a file that cannot*Of many files it is the worst.'
    check 2 '' "import: there is no such command"$'\n'"$usage" "$stick"
    check 2 '' "import: there is no such command"$'\n'"$usage" ''
    check 2 '' "import: check needs a FILE or several"$'\n'"$usage" check
    check 2 '' "import: show needs one FILE"$'\n'"$usage" show
    check 2 '' "import: show needs one FILE"$'\n'"$usage" show "$stick" "$stick"

    # The sample sticks.
    complete "$stick" 336
    check 0 "$stick: complete, 336 steps
    Smallest measure -33.000 kW at step 251, the 252nd row.
    Largest measure 205.800 kW at step 151, the 152nd row; 9 readings missing.
$about" '' check "$stick"
    lines=$(head -n 3 "$work/output")
    check 0 "$lines"$'\n'"$lines"$'\n'"$about" '' check "$stick" "$stick"
    for name in 'dairy 120' 'harvest 336' 'mill 96' 'roof 96' 'vineyard 96' 'voltage 48' 'rescued-three-faults 83'; do
        complete "examples/${name% *}.stick" "${name#* }"
    done
    refused examples/refused-01-cut-short.stick 1 'field cut short' 5412 200
    advised 'The file ends in the middle of the reading of step 200, the 201st row: 14 of its 27 bytes are there. The '\
'copy is not whole. Copy the stick again; if it stays so, ask the manager for a new one. import rescue keeps what can *'
    refused examples/refused-02-unknown-tag.stick 2 'unknown tag' 1776 60
    advised 'No field begins with the tag hex 84 (132) and the length hex 0018 (24), which stand here: the bytes are '\
'damaged, or another program wrote them. Copy the stick again; if it stays so, ask the manager what wrote it. *'
    refused examples/refused-03-wrong-length.stick 3 'wrong length' 61 0
    advised 'Here the file has unit 1, the 2nd unit, with the tag hex 02 (2) and the length hex 0000 (0); the length '\
'should be hex 0031 (49) in edition 1, which the fleet names: bytes were changed or lost here. Copy the stick again; *'
    refused examples/refused-04-out-of-order.stick 4 'field out of order' 113 0
    advised 'Here the file has the settings, where unit 2, the 3rd unit, should be: a field is missing, or *. Copy *'
    refused examples/refused-05-value-out-of-range.stick 5 'value out of range' 61 0
    advised 'The stored energy of unit 1, the 2nd unit, is 360,000,001 J; it may be 0 to its rated energy, which is '\
'360,000,000 J. Copy the stick again; if it stays so, ask the manager to correct it and to write the stick anew. '
    refused examples/refused-06-reading-not-usable.stick 6 'reading not usable' 5709 211
    advised 'The power of phase 2 in step 211, the 212th row, is no number; it may be -100,000 to 100,000 kW. Copy '\
'the stick again; if it stays so, ask the manager for that row, and have it entered again or marked as missing. import *'
    refused examples/refused-07-wrong-count.stick 7 'wrong step count' 9009 335
    advised 'The end counts 336 steps, and the file has 335: rows were lost or added. Copy the stick again; *'
    refused examples/refused-08-end-missing.stick 8 'end field missing' 9036 336
    advised 'The file stops after 336 steps, where a step or the end should be: it was not written to its end, or not '\
'copied to it. Copy the stick again; if it stays so, ask the manager to write it anew. import rescue keeps *'
    refused examples/refused-09-bytes-after-end.stick 9 'bytes after the end' 9043 336
    advised 'Something follows the end: a second file, or what an older one left. Copy the stick again; if it stays '\
'so, ask the manager for a stick with this one season on it. import rescue keeps what can be kept of this one. '
    refused examples/refused-12-too-many-steps.stick 12 'too many bytes or steps' 196785 65535
    advised 'The file goes on after 65,535 steps, and a stick holds no more. Ask the manager to divide the season, *'
    local all=(examples/*.stick) bad=(examples/refused-*)
    call check "${all[@]}"
    good test "$status|$error" = "1|import: ${#bad[@]} of ${#all[@]} files refused"
    good test "$(grep -c '^examples/.*: refused' "$work/output") $(grep -c '^examples/' "$work/output")" = \
        "${#bad[@]} ${#all[@]}"
    good test "$(grep -c '^Complete is about' "$work/output")|$(tail -n 1 "$work/output")" = "1|$about"
    # Each number and each kind of field has its own words, and all but one begin with the copy.
    sed '/^ /s/^ *//' "$work/output" | awk '/^examples/ { printf "\n"; next } { printf "%s ", $0 }' >"$work/words"
    good test "$(sed '/^$/d; /Smallest/d' "$work/words" | sort -u | wc -l)" = ${#bad[@]}
    good test "$(grep -c ' Copy the stick again; if it stays so, ' "$work/words")" = $((${#bad[@]} - 1))

    # Files of other kinds, and of every size.
    : >"$work/empty"
    refused "$work/empty" 8 'end field missing' 0 0
    advised 'The file is empty. Copy the stick again; if it stays so, ask the manager to write it anew. '
    head -c 9036 "$stick" >"$work/with two  blanks.stick"
    refused "$work/with two  blanks.stick" 8 'end field missing' 9036 336
    printf '\001' >"$work/one"
    refused "$work/one" 1 'field cut short' 0 0
    advised "The file ends in the middle of a field's tag and length. The copy is not whole. Copy *"
    printf 'step,kW\r\n0,1.5\r\n' >"$work/season.csv"
    refused "$work/season.csv" 2 'unknown tag' 0 0
    refused c/import/import.c 2 'unknown tag' 0 0
    refused build/x86_64/import 3 'wrong length' 0 0
    head -c 2000 "$stick" | tr '\000' '\012' >"$work/text"
    refused "$work/text" 3 'wrong length' 0 0
    cp "$stick" "$work/large"
    for name in 2097152 2097153 3G; do
        truncate -s "$name" "$work/large"
        refused "$work/large" 9 'bytes after the end' 9043 336
    done
    rm "$work/large"
    refused /dev/zero 2 'unknown tag' 0 0
    refused /dev/null 8 'end field missing' 0 0
    check 0 "/dev/stdin:${lines#"$stick":}"$'\n'"$about" '' check /dev/stdin <"$stick"

    # What cannot be read does not keep the others from being checked.
    local no_file='cannot be read: No such file or directory' folder='cannot be read: it is a folder'
    check 2 '' "import: none: $no_file"$'\n''import: 1 of 1 file not checked' check none
    check 2 '' "import: examples: $folder"$'\n''import: 1 of 1 file not checked' check examples
    check 2 '' "import: : $no_file"$'\n''import: 1 of 1 file not checked' show ''
    check 2 '' "import: $stick/x: cannot be read: Not a directory"$'\n''import: 1 of 1 file not checked' \
        check "$stick/x"
    check 2 "$lines"$'\n'"$lines"$'\n'"$about" \
        "import: none: $no_file"$'\n'"import: examples: $folder"$'\n''import: 2 of 4 files not checked' \
        check "$stick" none examples "$stick"
    call check none examples/refused-08-end-missing.stick "$stick"
    good test "$status|$error" = \
        "2|import: none: $no_file"$'\n''import: 1 of 3 files refused'$'\n''import: 1 of 3 files not checked'
    good test "$(grep -c '^examples/' "$work/output")|${output##*$'\n'}" = "2|$about"
    cp "$stick" "$work/secret"
    chmod 000 "$work/secret"
    if as_other check "$work/secret"; then
        good test "$status|$output|$error" = \
            "2||import: $work/secret: cannot be read: Permission denied"$'\n''import: 1 of 1 file not checked'
    fi
    rm -f "$work/secret"

    # Names that would break a line, or look like something else.
    for name in $'new\nline' $'\033[2Jclear' $'tab\there' '-h' '--' 'Größe %s %n'; do
        cp "$stick" "$work/$name"
    done
    check 0 "$work/new?line:${lines#"$stick":}"$'\n'"$about" '' check "$work/"$'new\nline'
    check 0 "$work/?[2Jclear:${lines#"$stick":}"$'\n'"$about" '' check "$work/"$'\033[2Jclear'
    check 0 "$work/tab?here:${lines#"$stick":}"$'\n'"$about" '' check "$work/"$'tab\there'
    complete "$work/Größe %s %n" 336
    check 2 '' "import: no?ne: $no_file"$'\n''import: 1 of 1 file not checked' check $'no\nne'
    error=$(cd "$work" && "$OLDPWD/$import" check -- -h -- 2>&1)
    status=$? output='' called='check -- -h --'
    good test "$status|$error" = "0|-h:${lines#"$stick":}"$'\n'"--:${lines#"$stick":}"$'\n'"$about"

    # Many files in one call. The progress is for a terminal only, and is gone at the end.
    local many=() i
    for i in {1..400}; do many+=("$stick"); done
    call check "${many[@]}"
    good test "$status|$error|$(wc -l <"$work/output")|$(sort -u "$work/output")" = \
        "0||1201|$(printf '%s\n' "$lines" "$about" | sort)"
    for i in 9 10; do
        error=$(script -qec "$import check ${many[*]:0:$i} >'$work/output'" /dev/null </dev/null 2>&1)
        status=$? output=$(cat "$work/output") called="check, $i files at a terminal"
        good test "$status|$(sort -u "$work/output" | wc -l)|$(wc -l <"$work/output")" = "0|4|$((3 * i + 1))"
        if [ "$i" = 9 ]; then
            good test "$error" = ''
        else
            good like "$error" $'\r1 of 10 files*10 of 10 files* \r'
        fi
    done

    # A full device is no success, and nothing is written to a stick.
    "$import" check "$stick" >/dev/full 2>"$work/error"
    status=$? error=$(cat "$work/error") output='' called="check $stick >/dev/full"
    good test "$status|$error" = '2|import: the lines cannot be written'
    cp -r examples "$work/examples"
    chmod -R a-w "$work/examples"
    call check "$work"/examples/*.stick
    good diff -r examples "$work/examples"
    chmod -R u+w "$work/examples"
    rm -rf "$work/examples"
}

# object MEMBERS: what check says of a file, for programs.
object() {
    good test "$status|$output" = "0|{\"file\": \"$1\", \"status\": \"complete\", \"number\": 0, $2}"
}

# The same for programs: an object a line, of each file.
check_json_suite() {
    local name line stick=examples/season.stick measures
    measures='"least_W": -33000, "least_step": 251, "most_W": 205800, "most_step": 151'
    call check --json "$stick"
    object "$stick" "\"steps\": 336, \"bytes\": 9043, \"missing_steps\": 9, $measures"
    good test "$error" = ''
    call check examples/dairy.stick --json
    object examples/dairy.stick '"steps": 120, "bytes": 5862, "missing_steps": 2, "least_mA": 29600, "least_step": 0, '\
'"most_mA": 86300, "most_step": 16'
    # Without a measure, and of a stick that is too long for one, there is nothing.
    measures='"least_W": null, "least_step": null, "most_W": null, "most_step": null'
    call check --json "$work/none"
    object "$work/none" "\"steps\": 0, \"bytes\": 83, \"missing_steps\": 0, $measures"
    call check --json "$work/whole"
    object "$work/whole" "\"steps\": 1, \"bytes\": 86, \"missing_steps\": 1, $measures"
    { bytes "$head_d" && repeated "$row" 45588 && bytes "$clear $missing $(end 45589)"; } >"$work/above"
    call check --json "$work/above"
    object "$work/above" "\"steps\": 45589, \"bytes\": 2097153, \"missing_steps\": null, $measures"
    rm "$work/above"

    # Of each refused one what check says: the words of its line, and below it what is wrong and what to do.
    for name in examples/refused-*; do
        call check "$name"
        line=$(sed -E -n '1s/.*: refused ([0-9]*) \((.*)\) at byte ([0-9]*) after ([0-9]*) steps/"number": \1, '\
'"steps": \4, "words": "\2", "place": \3/p' "$work/output")
        output=$(tail -n +2 "$work/output" | sed 's/^ *//' | tr '\n' ' ')
        measures=${output% }
        call check --json "$name"
        good test "$status|$error" = '1|import: 1 of 1 file refused'
        good like "$output" \
            "{\"file\": \"$name\", \"status\": \"refused\", $line, \"what\": \"*.\", \"advice\": \"*.\"}"
        line=${output#*\"what\": \"} line=${line/\", \"advice\": \"/ }
        good test "${line%\"\}}" = "$measures"
    done
    call check --json examples/refused-06-reading-not-usable.stick
    good test "$output" = '{"file": "examples/refused-06-reading-not-usable.stick", "status": "refused", '\
'"number": 6, "steps": 211, "words": "reading not usable", "place": 5709, "what": "The power of phase 2 in step 211, '\
'the 212th row, is no number; it may be -100,000 to 100,000 kW.", "advice": "Copy the stick again; if it stays so, ask the manager '\
'for that row, and have it entered again or marked as missing. import rescue keeps what can be kept of this one."}'

    # What cannot be read, and names that would break a line; one that is bad stops no other.
    printf 'x' >"$work/a\"b\\c"$'\n\xFF'
    call check --json none "$work/a\"b\\c"$'\n\xFF' "$stick" examples
    good test "$status|$error" = "2|import: none: cannot be read: No such file or directory
import: examples: cannot be read: it is a folder
import: 1 of 4 files refused
import: 2 of 4 files not checked"
    good test "$(sed -n '1p; $p' "$work/output")" = \
        '{"file": "none", "status": "failed", "what": "cannot be read: No such file or directory"}
{"file": "examples", "status": "failed", "what": "cannot be read: it is a folder"}'
    good like "$(sed -n 2p "$work/output")" \
        '{"file": "*/a\\"b\\\\c\\u000A\\uFFFD", "file_hex": "*6122625C630AFF", "status": "refused", *'
    good lines 4
    good test "$(grep -c 'Complete is about' "$work/output")" = 0
    rm "$work/a\"b\\c"$'\n\xFF'
    # Standard input is there once.
    call check --json - - <"$stick"
    good like "$status|$output" '2|{"file": "-", "status": "complete", *}
{"file": "-", "status": "failed", "what": "cannot be read: standard input was read already"}'
    call check - - <"$stick"
    good test "$status|$error" = "2|import: -: cannot be read: standard input was read already
import: 1 of 2 files not checked"
    good like "$output" "-: complete, 336 steps"$'\n*'"$about"
    error=$("$import" check --json "$stick" 2>&1 >/dev/full)
    status=$? output='' called='check --json >/dev/full'
    good test "$status|$error" = '2|import: the lines cannot be written'
}
