#!/bin/bash
# The command build/import as people call it, over the sample sticks and over hostile input: its lines, its
# messages and its exit statuses. Each failed check is told on standard error; the last line counts them.
#
#   test_import.sh [plain | sanitized]   one half of them: the tool as it is, or with the compiler's sanitizers
set -u
case ${1-plain sanitized} in
plain | sanitized | 'plain sanitized') halves=${1-plain sanitized} ;;
*) echo "$0: plain or sanitized, not $1" >&2; exit 2 ;;
esac
cd "$(dirname "${BASH_SOURCE[0]}")/../.." || exit 2
# shellcheck source=tools/env.sh
. tools/env.sh
[ -x build/import ] || { echo "no command build/import" >&2; exit 1; }
yb_toolchain || { echo "$YB_CC_WHY" >&2; exit 1; }
import=build/import
passed=0
failed=0
work=$(mktemp -d) && chmod 711 "$work" || exit 2
trap 'umount "$work/disk" 2>/dev/null; rm -rf "$work"' EXIT

# good CONDITION..: count one check; what the command gave is told if it fails.
good() {
    if "$@"; then
        passed=$((passed + 1))
    else
        failed=$((failed + 1))
        printf '%s %s\n  not: %s\n  status %s\n  output: %s\n  error: %s\n' \
            "$import" "$called" "$*" "$status" "$output" "$error" >&2
    fi
}

# like TEXT PATTERN: the whole text is as the pattern says.
like() {
    # shellcheck disable=SC2053 # it is a pattern
    [[ $1 == $2 ]]
}

# lines NUMBER: so many lines came out.
lines() {
    [ "$(wc -l <"$work/output")" = "$1" ]
}

# narrow: no line that came out is wider than 100 columns.
narrow() {
    [ "$(awk 'length > 100' "$work/output")" = '' ]
}

# call ARGUMENT..: call the command and keep what it gives. Its status is told by a shell that has no other child: once in
# some 100,000 calls this one, which has had many, took 0 for it where the command had said that it refused.
call() {
    called=$*
    error=$("$import" "$@" 2>&1 >"$work/output"; echo "|$?")
    status=${error##*|} error=${error%|*}
    while [[ $error == *$'\n' ]]; do error=${error%$'\n'}; done
    output=$(<"$work/output")
}

# check STATUS OUTPUT ERROR ARGUMENT..: call the command and compare all three.
check() {
    local expected="$1|$2|$3"
    shift 3
    call "$@"
    good test "$status|$output|$error" = "$expected"
}

# below: the lines below a file's first are for the person: sentences, in no more columns than a screen has.
below() {
    ! tail -n +2 "$work/output" | grep -qv '^    [^ ]' && like "$output" '*.' &&
        [ "$(tail -n +2 "$work/output" | wc -L)" -le 100 ]
}

# refused NAME NUMBER WORDS PLACE STEPS: one file is refused, and what is below is for the person.
refused() {
    call check "$1"
    good test "$status|$error" = '1|import: 1 of 1 file refused'
    good test "${output%%$'\n'*}" = "$1: refused $2 ($3) at byte $4 after $5 steps"
    good below
}

# advised PATTERN: what is below the first line of a refused file, as one line, is like that between anything.
advised() {
    good like " $(tail -n +2 "$work/output" | sed 's/^ *//' | tr '\n' ' ')" "* $1*"
}

# shown LINE..: the lines of the field, of a refused file that was shown.
shown() {
    good test "$status|$error" = '1|import: 1 of 1 file refused'
    good test "$(sed -nE '/^    (At byte|There is no field|The bytes that are there|The first bytes)/,$p' \
        "$work/output")" = "$(printf '%s\n' "$@")"
}

# wrapped TEXT: a text as it stands below a file's line.
wrapped() {
    fold -s -w 97 <<<"$1" | sed 's/^/    /; s/ *$//'
}

# measured FILE: the lines that check has below that of a complete file, made of the file by other means: its measures
# are the phases that the settings choose, in whole watts or mA. No call of the library takes more than 2,097,152 bytes.
measured() {
    local size
    size=$(wc -c <"$1")
    if [ "$size" -gt 2097152 ]; then
        wrapped "It has $(commas "$size") bytes, more than the 2,097,152 of a call that takes a whole file: it can be \
fed, as the commands here do, and is too long for its smallest and largest measure to be told."
        return
    fi
    od -An -v -tx1 "$1" | tr -d ' \n' | LC_ALL=C awk '
        function byte(at) { return 16 * digit[substr($0, 2 * at + 1, 1)] + digit[substr($0, 2 * at + 2, 1)] }
        function number(at, n,   v) { for (v = 0; n > 0; n--) v = 256 * v + byte(at++); return v }
        function thousandths(at,   first, v) {
            first = number(at, 4)
            v = ((first % 1048576) * 4294967296 + number(at + 4, 4)) / 4503599627370496
            v = (int(first / 1048576) % 2048 ? 1 + v : 2 * v) * 2 ^ (int(first / 1048576) % 2048 - 1023) * 1000
            v = v - int(v) > 0.5 || (v - int(v) == 0.5 && int(v) % 2) ? int(v) + 1 : int(v)
            return first >= 2147483648 ? -v : v
        }
        function chosen(at,   a, b, c) {
            a = thousandths(at); b = thousandths(at + 8); c = thousandths(at + 16)
            if (choice == 0) return a + b + c
            if (choice < 4) return choice == 1 ? a : choice == 2 ? b : c
            if (choice == 4) return a > b ? (a > c ? a : c) : (b > c ? b : c)
            return a < b ? (a < c ? a : c) : (b < c ? b : c)
        }
        function commas(n) { return n < 1000 ? n : commas(int(n / 1000)) sprintf(",%03d", n % 1000) }
        function kilo(n) {
            return (n < 0 ? "-" : "") commas(int((n < 0 ? -n : n) / 1000)) sprintf(".%03d", (n < 0 ? -n : n) % 1000)
        }
        function row(step,   n) {
            n = step + 1
            return "step " commas(step) ", the " commas(n) \
                (n % 100 ~ /^1[123]$/ || n % 10 == 0 || n % 10 > 3 ? "th" : substr("stndrd", 2 * (n % 10) - 1, 2)) " row"
        }
        function readings(n) { return commas(n) (n == 1 ? " reading" : " readings") }
        BEGIN { for (i = 0; i < 16; i++) digit[sprintf("%x", i)] = i }
        {
            for (at = 0; 2 * at < length($0); at += 3 + number(at + 1, 2)) {
                tag = byte(at)
                if (tag == 3) { unit = byte(at + 3) > 3 ? "A" : "kW"; choice = byte(at + 14) }
                if (tag == 4 || tag == 9) {
                    m = chosen(at + 3)
                    if (!seen || m < low) { low = m; low_at = steps }
                    if (!seen || m > high) { high = m; high_at = steps }
                    seen = 1
                }
                missing += tag == 5
                steps += tag == 4 || tag == 5 || tag == 9
            }
            if (!steps) print "    It has no readings."
            else if (!seen) print "    It has no measure: " readings(steps) " missing, which is all."
            else {
                print "    Smallest measure " kilo(low) " " unit " at " row(low_at) "."
                print "    Largest measure " kilo(high) " " unit " at " row(high_at) "; " readings(missing) " missing."
            }
        }'
}

# complete FILE STEPS: check says that a file is complete, what its readings are, and what complete is about.
about=$(sed -n 's/^    "\(Complete is about .*\)";$/\1/p' c/import/import_look.c)
complete() {
    call check "$1"
    good test "$status|$error|$output" = "0||$1: complete, $2 steps
$(measured "$1")
$about"
}

# bytes HEX..: these bytes, from hexadecimal words.
bytes() {
    local hex=$*
    # shellcheck disable=SC2001,SC2059 # the bytes are escapes of a format
    printf "$(sed 's/../\\x&/g' <<<"${hex//[[:space:]]/}")"
}

# hex FILE: the other way, without blanks.
hex() {
    od -An -v -tx1 "$1" | tr -d ' \n'
}

# pour FILE PIPE: write a file into a named pipe. Where nobody reads the pipe it gives up, so that no suite waits for ever.
pour() {
    # shellcheck disable=SC2016 # the inner shell expands them
    timeout 60 bash -c 'cat "$1" >"$2"' pour "$1" "$2"
}

# patch FILE PLACE HEX..: write these bytes over those at a place.
patch() {
    local file=$1 place=$2
    shift 2
    bytes "$@" | dd of="$file" bs=1 seek="$place" conv=notrunc status=none
}

# as_other ARGUMENT..: call the command as a user who is not root, and keep what it gives; fails where there is no
# such user, or none who can get at a copy of the program.
as_other() {
    local program=$import how=()
    called="$* (not as root)"
    if [ "$(id -u)" = 0 ]; then
        how=(setpriv --reuid 65534 --regid 65534 --clear-groups)
        if [ "$import" = build/import ]; then
            program=build/x86_64/import
            # shellcheck disable=SC2206 # YB_EMULATOR may be no word
            how+=($YB_EMULATOR)
        fi
        cp "$program" "$work/import"
        program=$work/import
        if ! "${how[@]}" "$program" help >/dev/null 2>&1; then
            echo "NOT RUN: $called: this is root, and no other user can call the program here"
            return 1
        fi
    fi
    error=$("${how[@]}" "$program" "$@" 2>&1 >"$work/output")
    status=$?
    output=$(cat "$work/output")
}

# shellcheck disable=SC2034 # the suites use it
usage=$("$import" 2>&1)

# What programs are told is read by other means, in Python.
# shellcheck disable=SC2034 # the suites use it
has_python=yes
# shellcheck disable=SC2034 # the same
if ! command -v python3 >/dev/null && ! yb_install python3; then
    has_python=no
    echo 'NOT RUN: what the import tool tells programs, read by other means; install the package python3'
fi

# The fields of small sticks: a fleet of one unit or two and steps of 60 s; the unit of the figures D1 to D3, with a
# reserve of 100,000 J and a given store; settings with a mode, a target and a band; a reading; the end.
fleet_1='01 0006 01 01 0000003C'
fleet_2='01 0006 01 02 0000003C'
missing='05 0000'
unit_d() { printf '02 0031 00000000000F4240 00000000000186A0 %016X 00001388 00001388 0000000A 00000000 0001' "$1"; }
settings() { printf '03 000C %02X %08X %08X 03E8 00' "$1" "$2" "$3"; }
end() { printf '7F 0004 %08X' "$1"; }
efficiencies_d='2328 1F40 1F40 00'

# small_sticks: the whole case of document 01; no step at all; figures D1 and D2, and then nothing left to give;
# figure D3, the last joule, and then no room left; figure C1.
small_sticks() {
    bytes "$fleet_1" 02 0031 000000000036EE80 0000000000000000 000000000036EE80 05F5E100 05F5E100 000003E8 00000000 \
        0001 2710 2710 2710 00 "$(settings 1 0 0)" "$missing" "$(end 1)" >"$work/whole"
    bytes "$fleet_1" "$(unit_d 500000)" "$efficiencies_d" "$(settings 1 0 0)" "$(end 0)" >"$work/none"
    bytes "$fleet_1" "$(unit_d 251499)" "$efficiencies_d" "$(settings 1 0 0)" \
        04 0018 3FECCCCCCCCCCCCD 0000000000000000 0000000000000000 "$missing" "$missing" "$(end 3)" >"$work/giving"
    bytes "$fleet_1" "$(unit_d 914561)" "$efficiencies_d" "$(settings 3 0 0)" \
        04 0018 0000000000000000 BFF0000000000000 0000000000000000 "$missing" "$missing" "$(end 3)" >"$work/taking"
    bytes "$fleet_2" "$(unit_d 500000)" "$efficiencies_d" "$(unit_d 500000)" "$efficiencies_d" \
        "$(settings 1 700 20)" "$missing" "$(end 1)" >"$work/c1"
    patch "$work/c1" 36 00000064
    patch "$work/c1" 88 000003E8
}

# The suites, each in a part of its own.
for part in check run faults settle result limits older roof current advice voltage values show feed rescue rescue_out \
    partner words peak summary json writes canned rescue_canned partner_canned peak_canned; do
    # shellcheck disable=SC1090 # one of the parts beside this
    . "c/tests/test_import_$part.sh" || exit 1
done

# all_suites: every command, as it is called.
all_suites() {
    check_suite
    small_sticks
    check_json_suite
    run_suite
    refused_run_suite
    target_suite
    full_suite
    settle_suite
    settle_rest_suite
    settle_bounds_suite
    result_suite
    other_result_suite
    no_result_suite
    partner_suite
    partner_bytes_suite
    partner_powers_suite
    partner_behind_suite
    partner_refused_suite
    partner_pipe_suite
    limits_suite
    limits_words_suite
    older_suite
    older_words_suite
    roof_check_suite
    roof_words_suite
    roof_result_suite
    other_roof_suite
    refused_roof_suite
    current_suite
    current_words_suite
    current_rescue_suite
    voltage_suite
    voltage_order_suite
    voltage_words_suite
    voltage_rescue_suite
    wrong_values_suite
    odd_values_suite
    unusable_suite
    show_refused_suite
    show_large_suite
    show_complete_suite
    foreign_suite
    readme_suite
    feed_suite
    refused_feed_suite
    pipe_suite
    feed_target_suite
    feed_progress_suite
    options_suite
    names_suite
    dash_suite
    peak_suite
    sweep_suite
    peak_words_suite
    peak_files_suite
    two_words_suite
    many_suite
    figure_words_suite
    width_suite
    json_suite
    csv_suite
    rescue_examples_suite
    rescue_damage_suite
    rescue_large_suite
    rescue_files_suite
    rescue_target_suite
    rescue_full_suite
    writes_suite
    rm -rf "${work:?}"/*
}

# plain_half: the tool as it is, also where a call of the system goes wrong.
plain_half() {
    small_sticks
    "$import" run examples/season.stick "$work/season.result" >/dev/null
    called='' status='' output='' error=''
    # shellcheck disable=SC2086 # YB_STATIC may be no word
    good "$YB_CC" -O2 -Wall -Wextra -Werror -std=c11 $YB_STATIC -Ic -Wl,--wrap=openat,--wrap=write,--wrap=fsync \
        -Wl,--wrap=close,--wrap=renameat,--wrap=fread,--wrap=ferror,--wrap=realloc -o build/x86_64/import_faults \
        c/import/*.c c/tests/test_faults.c "$YB_ARCHIVE"
    fault_suite
    ended_suite
    feed_fault_suite
    rescue_fault_suite
    writes_fault_suite
    partner_fault_suite
    largest_suite
    largest_roof_suite
    all_suites
}

# sanitized_half: the same with the compiler's sanitizers, which end the program at the first wrong step. Their search for
# leaks takes seconds a call on some machines and fails on others.
sanitized_half() {
    mkdir -p build/sanitized
    export ASAN_OPTIONS=detect_leaks=0
    sanitizers='-fsanitize=address,undefined -fno-sanitize-recover=all'
    # shellcheck disable=SC2086 # the sanitizers are words
    if yb_compiles gcc $sanitizers; then
        flags="-g -O1 -Wall -Wextra -Werror -std=c11 -Ic $sanitizers"
        import=build/sanitized/import-canned
        called='' status='' output='' error=''
        good gcc $flags -o "$import" c/import/*.c c/tests/stub_surface.c
        canned_suite
        canned_look_suite
        canned_run_suite
        canned_feed_suite
        canned_rescue_suite
        canned_partner_suite
        canned_peak_suite
        if [ "$(uname -m)" = x86_64 ]; then
            import=build/sanitized/import
            good gcc $flags -o "$import" c/import/*.c "$YB_ARCHIVE"
            all_suites
        else
            echo 'NOT RUN: the import tool with sanitizers over the archive: it is x86-64 code, and this machine is not'
        fi
    else
        echo 'NOT RUN: the import tool with sanitizers: gcc cannot link them here; install gcc and libc6-dev'
    fi
}

for half in $halves; do
    "${half}_half"
done

echo "$passed passed, $failed failed"
[ "$failed" = 0 ]
