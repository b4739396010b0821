# shellcheck shell=bash
# shellcheck disable=SC2034,SC2154 # the variables are those of test_import.sh
# Sourced by test_import.sh: run: results, refused files, and targets and disks that cannot be written to.

# The result of document 01's whole case.
whole_result=110025000000000000000000BFF000000000000000000000000000000036EE80000000000000EA601F000400000001

# kept: the result is as it was before the call, and nothing is left beside it.
kept() {
    [ "$(cat "$work/out/result")" = old ] && [ "$(ls -A "$work/out")" = result ]
}

# unfinished: how many files are left that were not finished.
unfinished() {
    find "$work/out" -name '.import-unfinished-*' | wc -l
}

# old: there is a result from before, and nothing beside it.
old() {
    rm -rf "$work/out"
    mkdir "$work/out"
    echo old >"$work/out/result"
}

# written NAME: the result of a small stick or of the season is whole, and nothing is beside it.
written() {
    cmp "$work/$1.result" "$work/out/result" && [ "$(ls -A "$work/out")" = result ]
}

run_suite() {
    local name steps stick=examples/season.stick needs='import: run needs a FILE and a RESULT'
    for name in '' "$stick" "$stick a b"; do
        # shellcheck disable=SC2086 # the names are words
        check 2 '' "$needs"$'\n'"$usage" run $name
    done

    # Results, new ones and in place of others.
    while read -r name steps; do
        check 0 "$work/$name: complete, $steps steps" '' run "$work/$name" "$work/$name.result"
    done <<<$'whole 1\nnone 0\ngiving 3\ntaking 3\nc1 1'
    good test "$(hex "$work/whole.result")" = "${whole_result,,}"
    good test "$(hex "$work/none.result")" = 1f000400000000
    check 0 "$stick: complete, 336 steps" '' run "$stick" "$work/season.result"
    good test "$(wc -c <"$work/season.result")" = $((40 * 3 * 336 + 7))
    old
    check 0 "$stick: complete, 336 steps" '' run "$stick" "$work/out/result"
    good written season
    check 0 "$work/giving: complete, 3 steps" '' run "$work/giving" "$work/out/result"
    good written giving
    output=$(cd "$work/out" && "$OLDPWD/$import" run ../whole result 2>&1)
    status=$? error='' called='run ../whole result'
    good test "$status|$output" = '0|../whole: complete, 1 steps'
    good written whole
    check 0 '/dev/stdin: complete, 3 steps' '' run /dev/stdin "$work/out/result" <"$work/taking"
    good written taking

    # A new file is as the mask says, and one that is replaced keeps its permissions.
    chmod 640 "$work/out/result"
    check 0 "$work/giving: complete, 3 steps" '' run "$work/giving" "$work/out/result"
    good test "$(stat -c %a "$work/out/result")" = 640
    rm "$work/out/result"
    (umask 027 && "$import" run "$work/giving" "$work/out/result" >/dev/null)
    good test "$(stat -c %a "$work/out/result")" = 640
    rm "$work/out/result"
    (umask 002 && "$import" run "$work/giving" "$work/out/result" >/dev/null)
    good test "$(stat -c %a "$work/out/result")" = 664

    # A link stays, and what it leads to is replaced.
    old
    mkdir "$work/links"
    ln -s ../out/result "$work/links/link"
    check 0 "$work/giving: complete, 3 steps" '' run "$work/giving" "$work/links/link"
    good written giving
    good test "$(readlink "$work/links/link") $(ls -A "$work/links")" = '../out/result link'
    rm -r "$work/links"
}

# not_run FILE: a file that is refused: the lines of check, a message, and the result as it was.
not_run() {
    local lines
    lines=$("$import" check "$1" 2>/dev/null)
    old
    check 1 "$lines" "import: $1: refused; no result is written" run "$1" "$work/out/result"
    good kept
    rm "$work/out/result"
    check 1 "$lines" "import: $1: refused; no result is written" run "$1" "$work/out/result"
    good test "$(ls -A "$work/out")" = ''
}

refused_run_suite() {
    local name stick=examples/season.stick
    for name in examples/refused-*; do
        not_run "$name"
    done
    : >"$work/empty"
    not_run "$work/empty"
    for name in 1 2 3 8 9 5000 9036 9042; do
        head -c "$name" "$stick" >"$work/cut"
        not_run "$work/cut"
    done
    cp "$stick" "$work/large"
    truncate -s 2097153 "$work/large"
    not_run "$work/large"
    rm "$work/large"
    not_run c/import/import.c
    not_run build/x86_64/import
    not_run "$work/season.result"
    not_run /dev/null
}

# not_written FILE RESULT WHY: the call fails, with this message about the result.
not_written() {
    check 2 '' "import: $2: cannot be written: $3" run "$1" "$2"
}

# then_do WHY [WORD]: what is said to do where a file cannot be written, by why not.
then_do() {
    local then="Give # another name"
    case $1 in
    'there is no such folder') then='Make the folder or give # a name in one that is there' ;;
    'Not a directory') then='Give # a name in a folder' ;;
    "$denied") then='Ask for that permission or give # a name in another folder' ;;
    'the disk can only be read') then='Give # a name on another disk' ;;
    'No space left on device' | 'Disk quota exceeded') then='Make room or give # a name on another disk' ;;
    'File too large') then='Give # a name on a disk that takes files of that size' ;;
    'File name too long') then='Give # a shorter name' ;;
    esac
    echo "    Nothing under that name has changed. ${then/\#/${2:-RESULT}}, and call again."
}
denied='there is no permission to write in its folder'

# failed_write RESULT WHY: the same for a result that was tried; nothing is said but that.
failed_write() {
    good test "$status|$output|$error" = "2||import: $1: cannot be written: $2"$'\n'"$(then_do "$2")"
}

# lines_lost OUT: the file is in its place, and only what there was to say of it could not be written.
lines_lost() {
    good test "$status|$output|$error" = "2||import: $1: written whole; only the lines about it are lost
import: the lines cannot be written"
}

# unwritable COMMAND FILE WORD DENIED..: folders that another user may not write to or even enter, and then a file that
# he may not write; DENIED is the check of what is said of a folder.
unwritable() {
    local command=$1 file=$2 word=$3
    shift 3
    old
    chmod 644 "$file"
    chmod 666 "$work/out/result"
    local mode
    for mode in 555 000; do
        chmod "$mode" "$work/out"
        if as_other "$command" "$file" "$work/out/result"; then
            "$@"
            good kept
        fi
    done
    chmod 777 "$work/out"
    chmod 444 "$work/out/result"
    if as_other "$command" "$file" "$work/out/result"; then
        good test "$status|$output|$error" = "2||import: $work/out/result: cannot be written: it is protected against \
writing; give $word another name"
        good kept
    fi
    chmod 755 "$work/out"
}

target_suite() {
    local stick=examples/season.stick name
    # The stick's own file, by any name.
    mkdir "$work/own"
    cp "$stick" "$work/own/a.stick"
    ln -s a.stick "$work/own/soft"
    ln "$work/own/a.stick" "$work/own/hard"
    for name in a.stick ../own/a.stick soft hard; do
        not_written "$work/own/a.stick" "$work/own/$name" 'it is FILE itself; give RESULT another name'
        good cmp "$stick" "$work/own/a.stick"
    done
    not_written "$work/own/soft" "$work/own/a.stick" 'it is FILE itself; give RESULT another name'
    # shellcheck disable=SC2094 # that is the question
    call run /dev/stdin "$work/own/a.stick" <"$work/own/a.stick"
    good like "$status $error" '2 *: it is FILE itself; give RESULT another name'
    good cmp "$stick" "$work/own/a.stick"
    good test "$(ls -A "$work/own")" = $'a.stick\nhard\nsoft'

    # What is no file.
    local device='it is a device or a pipe, and cannot be replaced whole; give RESULT the name of a file'
    not_written "$stick" "$work" 'it is a folder; give the name of a file in it'
    not_written "$stick" "$work/new/" 'it is the name of a folder; give the name of a file in it'
    not_written "$stick" '' 'it is no name; give RESULT the name of a file'
    for name in /dev/null /dev/full; do
        not_written "$stick" "$name" "$device"
    done
    mkfifo "$work/pipe"
    not_written "$stick" "$work/pipe" "$device"
    output=$("$import" run "$stick" /dev/stdout 2>"$work/error" | cat)
    good test "$output|$(cat "$work/error")" = "|import: /dev/stdout: cannot be written: $device"
    not_written "$stick" "$work/output" 'it is the file that the lines go to; give RESULT another name'
    ln -s nowhere "$work/dangling"
    not_written "$stick" "$work/dangling" 'it is a link to a file that is not there; give RESULT another name'

    # Folders that are not there, or not to be written to.
    call run "$stick" "$work/no/folder/result"
    failed_write "$work/no/folder/result" 'there is no such folder'
    call run "$stick" "$stick/result"
    failed_write "$stick/result" 'Not a directory'
    name=$work/$(printf '%0300d' 1)
    call run "$stick" "$name"
    failed_write "$name" 'File name too long'
    cp "$stick" "$work/season.stick"
    unwritable run "$work/season.stick" RESULT \
        failed_write "$work/out/result" "$denied"

    # Files that cannot be read leave the result as it was.
    old
    check 2 '' 'import: none: cannot be read: No such file or directory' run none "$work/out/result"
    check 2 '' 'import: examples: cannot be read: it is a folder' run examples "$work/out/result"
    good kept
    # The line comes when the result is there: where it cannot be written, that is told.
    error=$("$import" run "$stick" "$work/out/result" 2>&1 >/dev/full)
    status=$? output='' called='run >/dev/full'
    lines_lost "$work/out/result"
    good written season
    old
    error=$("$import" run "$stick" "$work/out/result" 2>&1 >&-)
    status=$? called='run >&-'
    lines_lost "$work/out/result"
    good written season
}

# Disks that are full: one that is really so, and a limit on the size of files.
full_suite() {
    local stick=examples/season.stick
    old
    error=$(ulimit -f 8 && "$import" run "$stick" "$work/out/result" 2>&1 >"$work/output")
    status=$? output=$(cat "$work/output") called='run, with a limit of 8 KiB'
    failed_write "$work/out/result" 'File too large'
    good kept
    mkdir -p "$work/disk"
    if mount -t tmpfs -o size=32k none "$work/disk" 2>/dev/null; then
        rm -rf "$work/out"
        ln -s disk "$work/out"
        echo old >"$work/disk/result"
        call run "$stick" "$work/out/result"
        failed_write "$work/out/result" 'No space left on device'
        good kept
        rm "$work/disk/result"
        call run "$stick" "$work/out/result"
        failed_write "$work/out/result" 'No space left on device'
        good test "$(ls -A "$work/disk")" = ''
        call run "$work/giving" "$work/out/result"
        good written giving
        # One that can only be read, with the result and without.
        echo old >"$work/disk/result"
        mount -o remount,ro "$work/disk"
        not_written "$stick" "$work/out/result" 'the disk can only be read; give RESULT a name on another disk'
        good kept
        call run "$stick" "$work/out/new"
        failed_write "$work/out/new" 'the disk can only be read'
        umount "$work/disk"
        rm "$work/out"
    else
        echo 'NOT RUN: a full disk: no small disk can be mounted here; the made faults stand for it'
    fi
}
