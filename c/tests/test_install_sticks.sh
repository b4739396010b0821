# shellcheck shell=bash
# shellcheck disable=SC2154 # the variables are those of test_install.sh
# Sourced by test_install.sh: a folder of sticks on all cores and on several machines, by GNU parallel, as the README
# shows it. Each line is held to that of a plain loop.

# many_sticks FOLDER COPIES: sticks, under names as people give them, with 21 complete ones for each copy and 31 that are
# bad.
many_sticks() {
    local name i
    mkdir -p "$1"/{east,'north barn',"west's \"old\" barn",damaged}
    for name in dairy harvest mill roof season vineyard voltage; do
        for i in $(seq -w 01 "$2"); do
            cp "examples/$name.stick" "$1/east/$i-$name.stick"
            cp "examples/$name.stick" "$1/north barn/$i \$HOME \\; * $name.stick"
            cp "examples/$name.stick" "$1/west's \"old\" barn/$i"$'\n'"-- $name.stick"
        done
    done
    cp examples/refused-*.stick "$1/damaged"
    : >"$1/damaged/empty.stick"
    cp README.md "$1/damaged/text.stick"
    mkdir "$1/damaged/folder.stick"
    ln -s nowhere "$1/damaged/gone.stick"
}

# plain_loop FOLDER COMMAND END: the sorted lines of a command, by a call for each stick (\;) or one for all (+).
plain_loop() {
    # shellcheck disable=SC2067 # the last word is either
    (cd "$1" && find sticks -name '*.stick' -exec "$tool" "$2" --json -- {} "$3" 2>/dev/null | LC_ALL=C sort)
}

# type_in FOLDER COMMAND: type a command into a shell without a terminal, where the installed tool is on the path, and so
# are the machines that ssh reaches.
type_in() {
    call env -C "$1" PATH="$work/far:$prefix/bin:$PATH" HOME="$work/home" PARALLEL_HOME="$work/home" LC_ALL=C \
        setsid -w bash -c "$2" </dev/null
}

# typed FOLDER: of what is shown on standard input type in each command, and print it with what it prints; what they say
# on standard error is kept.
typed() {
    local line command
    while IFS= read -r line; do
        [[ $line == '$ '* ]] || continue
        echo "$line"
        command=${line#'$ '}
        while [[ $command == *\\ ]]; do
            IFS= read -r line
            echo "$line"
            command=${command%\\}$line
        done
        type_in "$1" "$command"
        cat "$work/output"
        [ -z "$error" ] || echo "$error" >>"$work/errors"
    done
}

# Machines that ssh reaches: each is a folder below far, and knows nothing of where it was called from. The command that
# ssh is given goes to a shell there, which SHELL names, as it does on a machine.
far_machines() {
    mkdir -p "$work"/far/{barn-2,barn-3}
    cat >"$work/far/ssh" <<END
#!/bin/bash
while [[ \$1 == -* ]]; do shift; done
host=\$1
shift
if [ "\$1" = -- ]; then shift; fi
echo "\$host" >>'$work/reached'
export SHELL=/bin/sh
cd '$work/far/'"\$host" && exec sh -c "\$*"
END
    chmod +x "$work/far/ssh"
}

# same_lines FILE EXPECTED NUMBER: the lines are those of the loop, and there are so many.
same_lines() {
    good test "$(LC_ALL=C sort "$1")" = "$2"
    good test "$(wc -l <"$1")" = "$3"
}

# only_told FILE: nothing of what came on standard error is parallel's own.
only_told() {
    [ -s "$1" ] && ! grep -v '^import: ' "$1"
}

sticks_suite() {
    if ! has_parallel; then
        not_run 'a folder of sticks, on all cores and on several machines' parallel
        return
    fi
    mkdir "$work/many" "$work/home"
    many_sticks "$work/many/sticks" 10
    one_machine_suite "$work/many"
    statuses_suite "$work/many"
    terminal_suite "$work/many"
    if command -v rsync >/dev/null; then
        mkdir "$work/few"
        many_sticks "$work/few/sticks" 02
        # A folder that was copied is not taken away again.
        rmdir "$work/few/sticks/damaged/folder.stick"
        machines_suite "$work/few"
    else
        not_run 'a folder of sticks on several machines' rsync
    fi
}

# one_machine_suite FOLDER: the README's commands for one machine; what it shows is what they print.
one_machine_suite() {
    shown 'A thousand sticks' | sed '/^\$ cat machines/,$d' >"$work/shown"
    good test "$(grep -c '^\$ find .* parallel ' "$work/shown")" = 2
    if ! command -v jq >/dev/null; then
        not_run 'the lines of the sticks, picked by jq' jq
        sed -i '/^\$ jq /,/^\$ find /{/^\$ find /!d}' "$work/shown"
    fi
    typed "$1" <"$work/shown" >"$work/printed"
    good diff "$work/shown" "$work/printed"
    good only_told "$work/errors"
    same_lines "$1/checked.jsonl" "$(plain_loop "$1" check \;)" 241
    same_lines "$1/summaries.jsonl" "$(plain_loop "$1" summary +)" 241
}

# statuses_suite FOLDER: how parallel ends: by the number of calls with a bad stick.
statuses_suite() {
    local how='-print0 | parallel --will-cite -0'
    type_in "$1" "find sticks/east -name '*.stick' $how -n 20 yesbrulka-import check --json --"
    good test "$status|$error|$(wc -l <"$work/output")" = '0||70'
    type_in "$1" "find sticks/damaged sticks/east -name '0*.stick' $how -n 1 yesbrulka-import check --json --"
    good test "$status|$error|$(wc -l <"$work/output")" = '0||63'
    type_in "$1" "find sticks/damaged -name '*.stick' $how -n 1 yesbrulka-import peak --json 50000 60000 5000 --"
    good test "$status|$(wc -l <"$work/output")" = '31|31'
}

# terminal_suite FOLDER: at a terminal nobody is asked for anything either.
terminal_suite() {
    local command
    command=$(sed -n 's/^\$ \(find .*\) > checked.jsonl$/\1/p' "$work/shown")
    if command -v script >/dev/null; then
        call env -C "$1" PATH="$prefix/bin:$PATH" HOME="$work/home" PARALLEL_HOME="$work/home" SHELL=/bin/bash \
            script -qec "$command" /dev/null </dev/null
        good test "$(grep -c '^{"file": ' "$work/output")" = 241
        good test "$(tr -d '\r' <"$work/output" | grep -v '^{"file": \|^import: ')" = ''
    fi
}

# machines_suite FOLDER: the README's commands for several machines, which keep nothing; then over a folder that all see.
machines_suite() {
    local summed
    summed=$(plain_loop "$1" summary +)
    far_machines
    printf '%s\n' : barn-2 8/barn-3 >"$1/machines"
    rm "$work/errors"
    shown 'A thousand sticks' | sed -n '/^\$ cat machines/,$p' >"$work/shown"
    good test "$(grep -c '^\$ find .* parallel ' "$work/shown")" = 1
    typed "$1" <"$work/shown" >"$work/printed"
    good diff "$work/shown" "$work/printed"
    # What is not there cannot be copied, which parallel says too.
    sed -i '/^parallel: Warning: sticks\/damaged\/gone.stick is not readable /d' "$work/errors"
    good only_told "$work/errors"
    same_lines "$1/summaries.jsonl" "$summed" 72
    good test "$(sort -u "$work/reached" | tr '\n' ' ')" = 'barn-2 barn-3 '
    good test "$(find "$work"/far/barn-* -mindepth 1)" = ''
    rm "$1/summaries.jsonl"
    sed -i 's/--transferfile {} --cleanup/--workdir ./' "$work/shown"
    good grep -q -e '--workdir \. yes' "$work/shown"
    typed "$1" <"$work/shown" >"$work/printed"
    same_lines "$1/summaries.jsonl" "$summed" 72
}
