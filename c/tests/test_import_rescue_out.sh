# shellcheck shell=bash
# shellcheck disable=SC2034,SC2154 # the variables are those of test_import.sh
# Sourced by test_import.sh: rescue, where the name that is to be written, the disk or a call goes wrong.

# no_place FILE OUT WHY: the call fails, with this message about the name that is to be written.
no_place() {
    check 2 '' "import: $2: cannot be written: $3" rescue "$1" "$2"
}

# failed_rescue OUT WHY: what is said where a name that is to be written was tried, and nothing else is.
wreck=examples/refused-06-three-faults.stick
failed_rescue() {
    good test "$status|$output|$error" = "2||import: $1: cannot be written: $2"$'\n'"$(then_do "$2" OUT)"
}

rescue_target_suite() {
    local name self='it is FILE itself; give OUT another name'
    local device='it is a device or a pipe, and cannot be replaced whole; give OUT the name of a file'
    mkdir "$work/sticks"
    cp "$wreck" "$work/sticks/a.stick"
    ln -s a.stick "$work/sticks/soft"
    ln "$work/sticks/a.stick" "$work/sticks/hard"
    for name in a.stick ../sticks/a.stick soft hard; do
        no_place "$work/sticks/a.stick" "$work/sticks/$name" "$self"
    done
    no_place "$work/sticks/soft" "$work/sticks/a.stick" "$self"
    for name in - /dev/stdin; do
        # shellcheck disable=SC2094 # that is the question
        call rescue "$name" "$work/sticks/a.stick" <"$work/sticks/a.stick"
        good test "$status|$error" = "2|import: $work/sticks/a.stick: cannot be written: $self"
    done
    good cmp "$wreck" "$work/sticks/a.stick"
    good test "$(ls -A "$work/sticks")" = $'a.stick\nhard\nsoft'
    rm -r "$work/sticks"

    no_place "$wreck" "$work" 'it is a folder; give the name of a file in it'
    no_place "$wreck" "$work/new/" 'it is the name of a folder; give the name of a file in it'
    no_place "$wreck" '' 'it is no name; give OUT the name of a file'
    for name in /dev/null /dev/full; do
        no_place "$wreck" "$name" "$device"
    done
    mkfifo "$work/fifo"
    no_place "$wreck" "$work/fifo" "$device"
    no_place "$wreck" "$work/output" 'it is the file that the lines go to; give OUT another name'
    ln -s nowhere "$work/leading"
    no_place "$wreck" "$work/leading" 'it is a link to a file that is not there; give OUT another name'
    rm "$work/fifo" "$work/leading"

    # Folders that are not there or not to be written to, and files that are protected.
    call rescue "$wreck" "$work/no/folder/out"
    failed_rescue "$work/no/folder/out" 'there is no such folder'
    call rescue "$wreck" "$wreck/out"
    failed_rescue "$wreck/out" 'Not a directory'
    cp "$wreck" "$work/a.stick"
    unwritable rescue "$work/a.stick" OUT failed_rescue "$work/out/result" "$denied"
    # A link stays, and what it leads to is replaced and keeps its permissions; a new file is as the mask says.
    old
    chmod 640 "$work/out/result"
    ln -s out/result "$work/link"
    call rescue "$wreck" "$work/link"
    good test "$status|$error|$(readlink "$work/link")|$(stat -c %a "$work/out/result")" = '0||out/result|640'
    good cmp examples/rescued-three-faults.stick "$work/out/result"
    rm "$work/link" "$work/out/result"
    (umask 027 && "$import" rescue "$wreck" "$work/out/result" >/dev/null)
    good test "$(stat -c %a "$work/out/result")" = 640

    # The lines come when OUT is there: where they cannot be written, that is told.
    local closed
    for closed in '>/dev/full' '>&-' '<&- >&-'; do
        old
        called="rescue $closed" output=''
        error=$(eval "'$import' rescue '$wreck' '$work/out/result' 2>&1 $closed")
        status=$?
        lines_lost "$work/out/result"
        good saved
    done
}

rescue_full_suite() {
    old
    error=$(ulimit -f 4 && "$import" rescue "$wreck" "$work/out/result" 2>&1 >"$work/output")
    status=$? output=$(cat "$work/output") called='rescue, with a limit of 4 KiB'
    failed_rescue "$work/out/result" 'File too large'
    good kept
    mkdir -p "$work/disk"
    if mount -t tmpfs -o size=8k none "$work/disk" 2>/dev/null; then
        rm -rf "$work/out"
        ln -s disk "$work/out"
        echo old >"$work/disk/result"
        call rescue "$wreck" "$work/out/result"
        failed_rescue "$work/out/result" 'No space left on device'
        good kept
        umount "$work/disk"
        rm "$work/out"
    else
        echo 'NOT RUN: rescue on a full disk: no small disk can be mounted here; the made faults stand for it'
    fi
}

# saved: what was rescued is there whole, and nothing beside it.
saved() {
    cmp examples/rescued-three-faults.stick "$work/out/result" && [ "$(ls -A "$work/out")" = result ]
}

# Every call that reads a stick or writes what is kept of it fails, is cut short or is interrupted.
rescue_fault_suite() {
    local fault signal told='import: interrupted; nothing under the name of OUT has changed'
    for fault in fread:1 fread:2 fread:3; do
        faulty "$fault:5" "$wreck" "$hearing" rescue
        good test "$status|$output|$error" = "2||import: $wreck: cannot be read: Input/output error"
        good kept
    done
    for fault in openat:1:28 openat:1:13 write:1:28 write:1:5 'write:1:half write:2:28' fsync:1:5 fsync:1:122 \
        close:1:5 renameat:1:13 renameat:1:28; do
        faulty "$fault" "$wreck" "$hearing" rescue
        failed_rescue "$work/out/result" "$(errno_text "${fault##*:}")"
        good kept
    done
    for fault in none 'openat:1:17 openat:2:17' write:1:half 'write:1:half write:2:4 write:3:half' fsync:2:22; do
        faulty "$fault" "$wreck" "$hearing" rescue
        good test "$status|$error" = '0|'
        good saved
    done
    faulty fsync:2:5 "$wreck" "$hearing" rescue
    good test "$status|$output|$error" = "2||import: $work/out/result: written, but the disk did not confirm its name; \
call again: Input/output error"
    good saved
    for signal in 1 2 3 13 15; do
        # Before there is anything of it, nothing has to be removed or said.
        faulty "fread:1:-$signal" "$wreck" "$hearing" rescue
        good test "$status|$output|$error" = "$((128 + signal))||"
        good kept
        for fault in openat:1 write:1 'write:1:half write:2' fsync:1 close:1; do
            faulty "$fault:-$signal" "$wreck" "$hearing" rescue
            good test "$status|$output|$error" = "$((128 + signal))||$told"
            good kept
        done
        for fault in renameat:1 fsync:2; do
            faulty "$fault:-$signal" "$wreck" "$hearing" rescue
            good test "$status|$output|$error" = "$((128 + signal))||"
            good saved
        done
    done
    for fault in openat:1:-1 write:1:-2 fsync:1:-15; do
        faulty "$fault" "$wreck" --ignore-signal=HUP,INT,TERM rescue
        good test "$status|$error" = '0|'
        good saved
    done
    for fault in write:1 fsync:1 renameat:1; do
        faulty "$fault:-9" "$wreck" "$hearing" rescue
        good test "$status|$(cat "$work/out/result")|$(unfinished)" = '137|old|1'
    done
    faulty fsync:2:-9 "$wreck" "$hearing" rescue
    good saved
    # Nobody reads the lines, which come when OUT is there.
    unheard rescue "$wreck"
    good test "$status|$(grep -v '^qemu: uncaught target signal' <<<"$error")" = '141|'
    good saved
}
