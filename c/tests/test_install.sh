#!/bin/bash
# What `make install` puts where and takes away again, as people call it; and over what was installed the example program,
# the manual page beside the tool's own help, and a folder of sticks with GNU parallel, as the README shows it. Each
# failed check is told on standard error; the last line counts them.
set -u
cd "$(dirname "${BASH_SOURCE[0]}")/../.." || exit 2
# shellcheck source=tools/env.sh
. tools/env.sh
[ -f build/proved ] || { echo 'no programs over the proved archive; make sample builds them' >&2; exit 1; }
make --no-print-directory build/proved >/dev/null || exit 1
yb_toolchain || { echo "$YB_CC_WHY" >&2; exit 1; }
passed=0
failed=0
work=$(mktemp -d) && chmod 755 "$work" || exit 2
trap 'rm -rf "$work"' EXIT
# What a caller of the tests has set is no part of them.
unset MAKEFLAGS MFLAGS MAKELEVEL PREFIX DESTDIR PKG_CONFIG_PATH PARALLEL

# The folder of most of the tests: blanks and quotes are in it, as in the homes of people.
prefix="$work/it's the \"barn\""
# shellcheck disable=SC2034 # the suites use it
tool=$prefix/bin/yesbrulka-import

# good CONDITION..: count one check; what was called and what it gave is told if it fails.
good() {
    if "$@"; then
        passed=$((passed + 1))
    else
        failed=$((failed + 1))
        printf '%s\n  not: %s\n  status %s\n  output: %s\n  error: %s\n' "$called" "$*" "$status" "$output" "$error" >&2
    fi
}

# like TEXT PATTERN: the whole text is as the pattern says.
like() {
    # shellcheck disable=SC2053 # it is a pattern
    [[ $1 == $2 ]]
}

# call COMMAND..: call it and keep what it gives.
call() {
    called=$*
    error=$("$@" 2>&1 >"$work/output")
    status=$?
    output=$(cat "$work/output")
}

# made WORD..: call make. A DESTDIR of the caller's is none here.
made() {
    call make --no-print-directory DESTDIR= "$@"
}

# there FOLDER: all that is below it, without the folder itself.
there() {
    (cd "$1" && find . -mindepth 1 | LC_ALL=C sort)
}

# bytes HEX..: these bytes, from hexadecimal words.
bytes() {
    local hex=$*
    # shellcheck disable=SC2001,SC2059 # the bytes are escapes of a format
    printf "$(sed 's/../\\x&/g' <<<"${hex//[[:space:]]/}")"
}

# shown SECTION: what the README has in a section as typed and printed.
shown() {
    sed -n "/^## $1/,/^## /s/^    //p" README.md
}

# not_run TESTS PACKAGE: what is left out, and why.
not_run() {
    echo "NOT RUN: $1: no $2 here; install Debian's package $2"
}

# The commands that the tests need and Debian's packages of them, which are installed where they are missing.
cxx=${YB_CC%gcc}g++
cxx_package=g++
if [ "$(uname -m)" != x86_64 ]; then cxx_package=g++-x86-64-linux-gnu; fi

has_parallel() {
    parallel --version 2>/dev/null </dev/null | grep -q '^GNU parallel'
}

install_needs() {
    local missing=()
    command -v pkg-config >/dev/null || missing+=(pkg-config)
    command -v mandoc >/dev/null || missing+=(mandoc)
    command -v rsync >/dev/null || missing+=(rsync)
    command -v jq >/dev/null || missing+=(jq)
    command -v "$cxx" >/dev/null || missing+=("$cxx_package")
    has_parallel || missing+=(parallel)
    [ "${#missing[@]}" = 0 ] || yb_install "${missing[@]}"
}

# The suites, each in a part of its own.
for part in folders example page sticks; do
    # shellcheck disable=SC1090 # one of the parts beside this
    . "c/tests/test_install_$part.sh" || exit 1
done

called='' status='' output='' error=''
install_needs
install_suite
example_suite
readme_program_suite
page_suite
sticks_suite
uninstall_suite
folders_suite
destdir_suite
unwritable_suite
emulated_suite

echo "$passed passed, $failed failed"
[ "$failed" = 0 ]
