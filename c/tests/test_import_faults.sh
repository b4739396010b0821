# shellcheck shell=bash
# shellcheck disable=SC2034,SC2154 # the variables are those of test_import.sh
# Sourced by test_import.sh: run, while the calls that write a result fail or are interrupted.

# A program hears the signals that are switched off for the tests, as they are in the background.
hearing=--default-signal=HUP,INT,QUIT,TERM,PIPE

# faulty FAULTS FILE [SIGNALS [COMMAND]]: run a file, or rescue it, into the old result while these faults happen. Each
# is CALL:TIME:WHAT, as c/tests/test_faults.c says; the signals are env's word for how they are to be taken.
faulty() {
    called="${4:-run} $2, with the faults $1"
    old
    # shellcheck disable=SC2086 # YB_EMULATOR may be no word
    error=$(ulimit -c 0 && env "${3:-$hearing}" IMPORT_FAULTS="$1" $YB_EMULATOR build/x86_64/import_faults \
        "${4:-run}" "$2" "$work/out/result" 2>&1 >"$work/output")
    status=$?
    output=$(cat "$work/output")
    # The emulator has a line of its own about some signals.
    error=$(grep -v '^qemu: uncaught target signal' <<<"$error")
}

# unheard COMMAND FILE: a command into the old result, with nobody to read its lines.
unheard() {
    old
    mkfifo "$work/fifo"
    : <"$work/fifo" &
    exec 9>"$work/fifo"
    wait $!
    # shellcheck disable=SC2086 # YB_EMULATOR may be no word
    error=$(env "$hearing" $YB_EMULATOR build/x86_64/import_faults "$1" "$2" "$work/out/result" 2>&1 >&9)
    status=$? output='' called="$1, with nobody to read its lines"
    exec 9>&-
    rm "$work/fifo"
}

# Every call that makes a result fails, is cut short or is interrupted, one after the other.
fault_suite() {
    local stick=examples/season.stick fault signal told
    told='import: interrupted; nothing under the name of RESULT has changed'
    for fault in openat:1:28 openat:1:13 write:1:28 write:1:27 write:1:5 'write:1:half write:2:28' \
        'write:1:half write:2:half write:3:122' fsync:1:5 fsync:1:28 fsync:1:122 close:1:5 close:1:28 close:1:122 \
        renameat:1:5 renameat:1:13 renameat:1:28 openat:1:30 openat:1:1 renameat:1:1; do
        faulty "$fault" "$stick"
        failed_write "$work/out/result" "$(errno_text "${fault##*:}")"
        good kept
    done
    # Names that are taken, bytes that come in parts, calls that are to be made again, a disk that knows no folders.
    for fault in none 'openat:1:17 openat:2:17' write:1:half 'write:1:half write:2:4 write:3:half' write:1:4 \
        fsync:2:22 fsync:2:95; do
        faulty "$fault" "$stick"
        good test "$status|$output|$error" = "0|$stick: complete, 336 steps|"
        good written season
    done
    faulty fsync:2:5 "$stick"
    good test "$status|$output|$error" = "2||import: $work/out/result: written, but the disk did not confirm its name; \
call again: Input/output error"
    good written season
    # A signal at each of them. From the last on the result is there.
    for signal in 1 2 3 13 15; do
        for fault in openat:1 write:1 'write:1:half write:2' fsync:1 close:1; do
            faulty "$fault:-$signal" "$stick"
            good test "$status|$output|$error" = "$((128 + signal))||$told"
            good kept
        done
        for fault in renameat:1 fsync:2; do
            faulty "$fault:-$signal" "$stick"
            good test "$status|$output|$error" = "$((128 + signal))||"
            good written season
        done
    done
    # One that the caller has switched off ends nothing.
    for fault in openat:1:-1 write:1:-2 fsync:1:-15 renameat:1:-1; do
        faulty "$fault" "$stick" --ignore-signal=HUP,INT,TERM
        good test "$status|$error" = '0|'
        good written season
    done
    # By force there is no time to remove what is unfinished; the result is still the old one, or whole.
    for fault in write:1 'write:1:half write:2' fsync:1 close:1 renameat:1; do
        faulty "$fault:-9" "$stick"
        good test "$status|$(cat "$work/out/result")|$(unfinished)" = '137|old|1'
        call run "$stick" "$work/out/result"
        good cmp "$work/season.result" "$work/out/result"
    done
    faulty fsync:2:-9 "$stick"
    good written season
}

# errno_text NUMBER: what is said of an error; of some it is what the system says.
errno_text() {
    case $1 in
    5) echo 'Input/output error' ;;
    1 | 13) echo "$denied" ;;
    27) echo 'File too large' ;;
    28) echo 'No space left on device' ;;
    30) echo 'the disk can only be read' ;;
    122) echo 'Disk quota exceeded' ;;
    esac
}

# A call that is stopped in the middle of its writing and then ended from outside, as a person would.
ended_suite() {
    local signal pid
    for signal in INT TERM HUP; do
        old
        called="run, ended by $signal" output=
        # shellcheck disable=SC2086 # YB_EMULATOR may be no word
        env "$hearing" IMPORT_FAULTS=write:1:-19 $YB_EMULATOR build/x86_64/import_faults \
            run examples/season.stick "$work/out/result" >/dev/null 2>"$work/error" &
        pid=$!
        until grep -q '^State:.*T' "/proc/$pid/status" 2>/dev/null; do
            kill -0 "$pid" 2>/dev/null || break
            sleep 0.01
        done
        good test "$(unfinished)" = 1
        kill -"$signal" "$pid"
        kill -CONT "$pid"
        wait "$pid" 2>/dev/null
        status=$? error=$(cat "$work/error")
        good test "$status|$error" = "$((128 + $(kill -l "$signal")))|import: interrupted; nothing under the name of \
RESULT has changed"
        good kept
    done
}
