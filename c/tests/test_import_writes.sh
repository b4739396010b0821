# shellcheck shell=bash
# shellcheck disable=SC2034,SC2154 # the variables are those of test_import.sh
# Sourced by test_import.sh: nothing is said that is not so, wherever the lines or the bytes of a command cannot go: a
# device that is full, a pipe that nobody reads, a full disk, a limit on the size of files, a signal in between.

# writes_sticks: sticks of several chunks of 65,536 bytes: a complete one; one with a reading that is no number behind
# the first chunk, one that is cut there, and one whose first reading is no number; and the results of the complete ones.
writes_sticks() {
    { bytes "$head_d" && repeated "$row" 3000 && bytes "$(end 3000)"; } >"$work/several"
    cp "$work/several" "$work/spoiled"
    patch "$work/spoiled" $((76 + 46 * 2500 + 19 + 3)) 7FF8
    cp "$work/several" "$work/early"
    patch "$work/early" $((76 + 19 + 3)) 7FF8
    head -c 100000 "$work/several" >"$work/cut"
    "$import" run "$work/several" "$work/several.result" >/dev/null
    "$import" run examples/season.stick "$work/season.result" >/dev/null
    good test "$(stat -c %s "$work/several" "$work/several.result" | tr '\n' ' ')" = '138083 120007 '
}

# The commands that say something of a stick, and have lines alone; S stands for the stick, R for a result.
lines_only='check S
check --json S
check S S
show S
summary S
summary S S
summary --json S S
summary S R
peak S
peak --json S
table S R
table --csv S R
partner S R
settle S 1000'

# words_of LINE STICK RESULT: the words of such a line, one for each element of the list words.
words_of() {
    local word
    words=()
    for word in $1; do
        case $word in
        S) words+=("$2") ;;
        R) words+=("$3") ;;
        *) words+=("$word") ;;
        esac
    done
}

# into PLACE WORD..: call the command with its standard output there: full is /dev/full; deaf a pipe whose reader has
# gone, while SIGPIPE is switched off; disk a new file on the full disk; limit one that may have no bytes. What it says
# on standard error is kept, and what came through in $work/came.
into() {
    local place=$1
    shift
    called="$* >$place" output=''
    rm -f "$work/came" "$work/disk/came"
    : >"$work/came"
    case $place in
    full) error=$("$import" "$@" 2>&1 >/dev/full; echo "|$?") ;;
    deaf) error=$(trap '' PIPE; "$import" "$@" 2>&1 >&9; echo "|$?") ;;
    disk) error=$("$import" "$@" 2>&1 >"$work/disk/came"; echo "|$?"); cp "$work/disk/came" "$work/came" ;;
    limit) error=$(trap '' XFSZ; ulimit -f 0; "$import" "$@" 2>&1 >"$work/came"; echo "|$?") ;;
    esac
    status=${error##*|} error=${error%|*}
    while [[ $error == *$'\n' ]]; do error=${error%$'\n'}; done
}

# why PLACE: what the system says of that place.
why() {
    case $1 in
    full | disk) echo 'No space left on device' ;;
    deaf) echo 'Broken pipe' ;;
    limit) echo 'File too large' ;;
    esac
}

# unsaid: neither what came through nor standard error says that something is complete, right, kept or held.
unsaid() {
    ! { cat "$work/came" && echo "$error"; } | tr -d '\0' | grep -qE ': complete|"complete"|: right| kept, |the same bytes|^held'
}

# no_lines PLACE: the lines of every command, for a stick that is complete and for some that are not.
no_lines() {
    local place=$1 stick result line words
    for stick in examples/season.stick "$work/several" "$wreck" "$work/spoiled" "$work/cut"; do
        result=$work/season.result
        if [ "$stick" = "$work/several" ]; then result=$work/several.result; fi
        while read -r line; do
            words_of "$line" "$stick" "$result"
            into "$place" "${words[@]}"
            good test "$status|${error##*$'\n'}" = '2|import: the lines cannot be written'
            good unsaid
            good test ! -s "$work/came"
        done <<<"$lines_only"
    done
}

# no_bytes PLACE: a result or a rescued stick that goes to standard output, and does not get there. Of a stick that is
# refused nothing goes there, and the lines are on standard error.
no_bytes() {
    local place=$1 words
    for words in 'run examples/season.stick' "run $work/several" "rescue $wreck" "rescue $work/spoiled" \
        "rescue $work/early" "rescue $work/cut" "rescue $work/several"; do
        # shellcheck disable=SC2086 # the words
        into "$place" $words -
        good test "$status|$error" = "2|import: -: cannot be written whole; throw away what is there: $(why "$place")"
        good unsaid
    done
    for words in "$wreck" "$work/spoiled" "$work/early" "$work/cut"; do
        into "$place" run "$words" -
        good like "$status|$error" "1|$words: refused *import: $words: refused; no result is written"
        good unsaid
    done
}

# no_lines_of_files PLACE: the lines about a file that is written elsewhere. It is there, whole, and that is told.
no_lines_of_files() {
    local place=$1 words due
    for words in 'run examples/season.stick' "run $work/several" "rescue $wreck" "rescue $work/spoiled" \
        "rescue $work/several"; do
        # shellcheck disable=SC2086 # the words
        {
            "$import" $words "$work/due" >/dev/null
            old
            into "$place" $words "$work/out/result"
        }
        lines_lost "$work/out/result"
        good unsaid
        good cmp "$work/due" "$work/out/result"
        good test "$(ls -A "$work/out")" = result
    done
    for words in "$wreck" "$work/spoiled" "$work/cut"; do
        old
        into "$place" run "$words" "$work/out/result"
        good test "$status|${error##*$'\n'}" = '2|import: the lines cannot be written'
        good unsaid
        good kept
    done
}

# no_file FOLDER WHY: a result and a rescued stick that cannot be written into a folder where something of that name is.
# Nothing else is said, and that is as it was; of a refused stick the refusal is.
no_file() {
    local words
    echo old >"$1/result"
    for words in 'run examples/season.stick' "run $work/several" "rescue $wreck" "rescue $work/spoiled" \
        "rescue $work/early" "rescue $work/cut" "rescue $work/several"; do
        # shellcheck disable=SC2086 # the words
        call $words "$1/result"
        good like "$status|$output|$error" "2||import: $1/result: cannot be written: $2"$'\n*'
        good test "$(cat "$1/result")|$(ls -A "$1")" = "old|$(ls "$1")"
    done
    for words in "$wreck" "$work/spoiled" "$work/cut"; do
        call run "$words" "$1/result"
        good like "$status|$output|$error" \
            "1|$words: refused *|import: $words: refused; no result is written"
        good test "$(cat "$1/result")" = old
    done
}

# limited_file: the same as no_file, under a limit on the size of files that no result keeps to.
limited_file() {
    local words
    old
    for words in 'run examples/season.stick' "run $work/several" "rescue $wreck" "rescue $work/spoiled" \
        "rescue $work/early" "rescue $work/cut" "rescue $work/several"; do
        # shellcheck disable=SC2086 # the words
        error=$(ulimit -f 2; "$import" $words "$work/out/result" 2>&1 >"$work/output"; echo "|$?")
        status=${error##*|} error=${error%|*} called="$words, with a limit of 2 KiB" output=$(<"$work/output")
        good like "$status|$output|$error" "2||import: $work/out/result: cannot be written: File too large"$'\n*'
        good kept
    done
}

# full_disk: a small disk without any room, at $work/disk. Fails where none can be mounted.
full_disk() {
    mkdir -p "$work/disk"
    mount -t tmpfs -o size=64k none "$work/disk" 2>/dev/null || return 1
    echo old >"$work/disk/result"
    head -c 65536 /dev/zero >"$work/disk/fill" 2>/dev/null
    return 0
}

# stopped: a signal that comes while the bytes are on their way: what is said comes behind them, and so not at all. The
# pipe is full, and nobody reads it.
stopped() {
    local words
    mkfifo "$work/slow"
    exec 8<>"$work/slow"
    for words in "run $work/several" "rescue $work/spoiled"; do
        # shellcheck disable=SC2086 # the words
        error=$(timeout 2 "$import" $words - 2>&1 >&8; echo "|$?")
        status=${error##*|} error=${error%|*} called="$words -, ended while the pipe is full" output=''
        good test "$status|$error" = '124|'
        dd bs=65536 count=1 <&8 status=none >/dev/null
    done
    exec 8>&-
    rm "$work/slow"
}

# kept_of FILE: where the check says that a rescue keeps something of a file, it does; and where it does not, none does.
kept_of() {
    call check "$1"
    output=$(tr -s ' \n' '  ' <"$work/output")
    if [[ $output == *' import rescue keeps what can be kept of this one. '* ]]; then
        good "$import" rescue "$1" "$work/again" >/dev/null
    else
        good test "${output#*import rescue}" = "$output"
        "$import" rescue "$1" "$work/again" >/dev/null 2>&1
        good test $? = 1
    fi
}

# A stick that is longer than a rescue takes is sent to none; of one whose end has not come through a pipe that is said.
rescue_advice() {
    local file keeps='import rescue keeps what can be kept of this one'
    long_stick
    cp "$work/long" "$work/late"
    patch "$work/late" $((76 + 46 * 65000 + 19 + 3)) 7FF8
    cp "$work/long" "$work/soon"
    patch "$work/soon" $((76 + 46 * 100 + 19 + 3)) 7FF8
    head -c 3000000 "$work/long" >"$work/short"
    for file in examples/refused-*.stick "$work/spoiled" "$work/early" "$work/cut" "$work/late" "$work/soon" \
        "$work/short"; do
        kept_of "$file"
    done
    for file in "$work/late" "$work/short"; do
        call check - < <(cat "$file")
        good test "$status|${output#*import rescue}" = "1|$output"
    done
    call check - < <(cat "$work/soon")
    good like "$status|$(tr -s ' \n' '  ' <"$work/output")" "1|* $keeps, if it has no more than 2,097,145 bytes. "
    for file in "$work/cut" "$wreck"; do
        call check - < <(cat "$file")
        good like "$status|$(tr -s ' \n' '  ' <"$work/output")" "1|* $keeps. "
    done
    rm "$work/long" "$work/late" "$work/soon" "$work/short"
}

# What is said where something cannot be written.
writes_suite() {
    local place
    writes_sticks
    mkfifo "$work/deaf"
    : <"$work/deaf" &
    exec 9>"$work/deaf"
    wait $!
    for place in full deaf limit; do
        no_lines "$place"
        no_bytes "$place"
        if [ "$place" != limit ]; then no_lines_of_files "$place"; fi
    done
    # Nobody reads, and SIGPIPE is as it usually is: the command ends by it, and what it says of a file comes behind it.
    for place in 'check S' 'run S -' 'rescue S -' 'run S OUT' 'rescue S OUT'; do
        words_of "${place/OUT/$work/out/result}" "$work/several" ''
        old
        error=$(env "$hearing" "$import" "${words[@]}" 2>&1 >&9; echo "|$?")
        status=${error##*|} error=$(grep -v '^qemu: uncaught target signal' <<<"${error%|*}")
        called="${words[*]} >deaf" output=''
        good test "$status|$error" = '141|'
        if [ "${place#*OUT}" != "$place" ]; then good test "$(ls -A "$work/out")" = result; else good kept; fi
    done
    exec 9>&-
    rm "$work/deaf"
    stopped
    rescue_advice
    # Folders that are not there; disks that are full.
    for place in 'run examples/season.stick' "rescue $wreck" "rescue $work/spoiled" "rescue $work/several"; do
        # shellcheck disable=SC2086 # the words
        call $place /no/such/OUT
        good like "$status|$output|$error" '2||import: /no/such/OUT: cannot be written: there is no such folder'$'\n*'
    done
    if full_disk; then
        no_file "$work/disk" 'No space left on device'
        no_lines disk
        no_bytes disk
        no_lines_of_files disk
        # Room for a part: what came through is of a table, and nobody says that it is whole.
        head -c 40960 /dev/zero >"$work/disk/fill"
        into disk table "$work/several" "$work/several.result"
        good test "$status|$error" = '2|import: the lines cannot be written'
        good test -s "$work/came"
        into disk run "$work/several" -
        good test "$status|$error" = "2|import: -: cannot be written whole; throw away what is there: $(why disk)"
        good test -s "$work/came"
        umount "$work/disk"
    else
        echo 'NOT RUN: what is said on a full disk: no small disk can be mounted here; a limit on the size of files ran'
    fi
    limited_file
}

# faulty_output FAULTS WORD..: a result or a rescued stick to standard output, a file, while these faults happen.
faulty_output() {
    local faults=$1
    shift
    called="$* -, with the faults $faults" output=''
    # shellcheck disable=SC2086 # YB_EMULATOR may be no word
    error=$(ulimit -c 0 && env "$hearing" IMPORT_FAULTS="$faults" $YB_EMULATOR build/x86_64/import_faults "$@" - 2>&1 \
        >"$work/came"; echo "|$?")
    status=${error##*|} error=$(grep -v '^qemu: uncaught target signal' <<<"${error%|*}")
}

# The calls that bring bytes to standard output fail or are interrupted, up to its closing: what is said comes behind.
writes_fault_suite() {
    local stick=examples/season.stick fault words due
    for words in "run $stick" "rescue $wreck"; do
        # shellcheck disable=SC2086 # the words
        due=$("$import" $words - 2>&1 >"$work/due")
        for fault in write:1:28 write:1:5 'write:1:half write:2:28' fsync:1:5 fsync:1:28 close:1:5 close:1:122; do
            # shellcheck disable=SC2086 # the words
            faulty_output "$fault" $words
            good test "$status|$error" = \
                "2|import: -: cannot be written whole; throw away what is there: $(errno_text "${fault##*:}")"
        done
        for fault in none write:1:4 'write:1:half write:2:4 write:3:half' fsync:1:22 fsync:1:95 fsync:1:30; do
            # shellcheck disable=SC2086 # the words
            faulty_output "$fault" $words
            good test "$status|$error" = "0|$due"
            good cmp "$work/due" "$work/came"
        done
        for fault in write:1 'write:1:half write:2' fsync:1 close:1; do
            # shellcheck disable=SC2086 # the words
            faulty_output "$fault:-15" $words
            good test "$status|$error" = '143|'
        done
    done
    rm "$work/due" "$work/came"
}
