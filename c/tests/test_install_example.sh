# shellcheck shell=bash
# shellcheck disable=SC2154 # the variables are those of test_install.sh
# Sourced by test_install.sh: the example program, compiled and linked by what pkg-config says of the installed library,
# as C and as C++, and its numbers beside those of the tool.

# compiled PROGRAM COMPILER FLAG..: compile the example so, against what is installed and nothing else.
compiled() {
    local program=$1
    shift
    call env PKG_CONFIG_PATH="$prefix/lib/pkgconfig" pkg-config --cflags --libs yesbrulka
    good test "$status|$error" = '0|'
    # What pkg-config says is quoted for a shell.
    eval "set -- \"\$@\" \"\$prefix/share/doc/yesbrulka/season.c\" -x none $output"
    # shellcheck disable=SC2086 # YB_STATIC may be no word
    call env -C "$work" "$@" $YB_STATIC -o "$program"
    good test "$status|$output|$error" = '0||'
}

# key NAME: a number of the object in json, which has those of the season before those of its units.
key() {
    [[ $json =~ \"$1\":\ (-?[0-9]+) ]] && echo "${BASH_REMATCH[1]}"
}

# measure_lines WORDS UNIT BEFORE: the lines of a measure, whose keys begin so.
measure_lines() {
    echo "smallest $1 $(key "$3least_$2") $2 in step $(key "$3least_step")"
    echo "largest $1 $(key "$3most_$2") $2 in step $(key "$3most_step")"
    echo "$1 outside the band in $(key "$3outside_steps") steps"
}

# figures_of FILE: what the example must print, made of what the tool says.
figures_of() {
    local json loss unit=W
    json=$("$tool" summary --json "$1") || return
    loss=$(key loss_J)
    if [[ $json == *'"band_mA"'* ]]; then unit=mA; fi
    echo "$1: complete, $(key steps) steps"
    echo "$(key missing_steps) readings missing"
    if [ "$(key missing_steps)" -lt "$(key steps)" ]; then
        measure_lines measure "$unit" ''
        if [ "$unit" = W ]; then measure_lines 'net measure' W net_; fi
    fi
    if [ "$(key steps)" -gt 0 ]; then echo "lowest store $(key store_least_J) J after step $(key store_least_step)"; fi
    printf 'losses %d.%06d MJ\n' $((loss / 1000000)) $((loss % 1000000))
    echo "some request not met in $(key not_met_steps) steps"
}

# A stick without any step, and one whose only reading is missing.
empty_sticks() {
    local site='01 0006 01 01 0000003C 02 0031 00000000000F4240 00000000000186A0 000000000007A120 00001388 00001388
        0000000A 00000000 0001 2328 1F40 1F40 00 03 000C 01 00000000 00000000 03E8 00'
    bytes "$site" '7F 0004 00000000' >"$work/none.stick"
    bytes "$site" '05 0000 7F 0004 00000001' >"$work/missing.stick"
}

# sticks_with PROGRAM: what it says of every sample stick.
sticks_with() {
    local stick expected
    for stick in examples/[!r]*.stick examples/r[!e]*.stick examples/rescued-*.stick "$work"/{none,missing}.stick; do
        expected=$(figures_of "$stick") || expected='no figures'
        # shellcheck disable=SC2086 # YB_EMULATOR may be no word
        call $YB_EMULATOR "$1" "$stick"
        good test "$status|$error|$output" = "0||$expected"
    done
    for stick in examples/refused-*.stick README.md /dev/null; do
        expected=$("$tool" check "$stick" 2>/dev/null | head -n 1)
        # shellcheck disable=SC2086 # YB_EMULATOR may be no word
        call $YB_EMULATOR "$1" "$stick"
        good test "$status|$error|$output" = "1||$expected"
        good like "$output" '*: refused *'
    done
}

# calls_with PROGRAM: what is no stick for it.
calls_with() {
    head -c 2097153 /dev/zero >"$work/long"
    # shellcheck disable=SC2086 # YB_EMULATOR may be no word
    {
        call $YB_EMULATOR "$1" "$work/long"
        good test "$status|$output" = "1|$work/long: refused 12 (too many bytes or steps) at byte 0 after 0 steps"
        call $YB_EMULATOR "$1"
        good test "$status|$output|$error" = '2||usage: season FILE'
        call $YB_EMULATOR "$1" "$work/no such"
        good test "$status|$output|$error" = '2||season: the file cannot be read'
        call $YB_EMULATOR "$1" "$work"
        good test "$status|$output|$error" = '2||season: the file cannot be read'
        error=$($YB_EMULATOR "$1" examples/mill.stick 2>&1 >/dev/full)
        good test "$?|$error" = '2|season: the lines cannot be written'
    }
}

example_suite() {
    good test "$(wc -l <c/example/season.c)" -lt 80
    if ! command -v pkg-config >/dev/null; then
        not_run 'the example over the installed library' pkg-config
        return
    fi
    empty_sticks
    compiled "$work/season" "$YB_CC" -O2 -std=c11 -Wall -Wextra -Wpedantic -Werror
    sticks_with "$work/season"
    calls_with "$work/season"
    compiled "$work/season-99" "$YB_CC" -O0 -std=c99 -Wall -Wextra -Wpedantic -Werror
    if command -v "$cxx" >/dev/null; then
        compiled "$work/season++" "$cxx" -O2 -std=c++11 -Wall -Wextra -Wpedantic -Werror -x c++
        sticks_with "$work/season++"
    else
        not_run 'the example as C++' "$cxx_package"
    fi
}

# The commands by which the README compiles the example, and what it shows of it; those for an Arm machine too, where the
# compiler for x86-64 code goes by its long name. What stands for the emulator on a machine that needs none runs the
# program.
readme_program_suite() {
    local folder=$work/readme commands expected left
    if ! command -v pkg-config >/dev/null; then return; fi
    mkdir -p "$folder/bin"
    ln -s "$PWD/examples" "$folder/examples"
    printf '#!/bin/sh\nexec %s "$@"\n' "$YB_EMULATOR" >"$folder/bin/qemu-x86_64"
    chmod +x "$folder/bin/qemu-x86_64"
    commands=$(shown 'Programs of your own' | sed -n ':a; /\\$/{N; s/\\\n *//; ba;}; s/^\$ //p')
    expected=$(shown 'Programs of your own' | sed -n '/^\$ \.\/season /,/^\$ /{/^\$ /d; p;}')
    good test "$(cut -d ' ' -f 1 <<<"$commands" | tr '\n' ' ')" = \
        'make export cc ./season x86_64-linux-gnu-gcc qemu-x86_64 '
    call env HOME="$folder" bash -c "$(grep '^make ' <<<"$commands")"
    good test "$status|$error" = '0|'
    for left in '^make\|^x86_64\|^qemu' '^make\|^cc\|^\./season'; do
        if [[ $left == *qemu ]] && [ "$(uname -m)" != x86_64 ]; then continue; fi
        if [[ $left != *qemu ]] && ! command -v x86_64-linux-gnu-gcc >/dev/null; then continue; fi
        rm -f "$folder/season"
        call env -C "$folder" HOME="$folder" PATH="$folder/bin:$PATH" bash -c "$(grep -v "$left" <<<"$commands")"
        good test "$status|$error|$output" = "0||$expected"
    done
}
