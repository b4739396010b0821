# shellcheck shell=bash
# shellcheck disable=SC2154 # the variables are those of test_install.sh
# Sourced by test_install.sh: the manual page. It renders without a complaint, has every command, operand, option and
# exit status of the tool's own help and no other, and its examples work.

page_lines() {
    mandoc -T ascii -O width=100 "$prefix/share/man/man1/yesbrulka-import.1" | sed $'s/.\b//g'
}

# section NAME: the lines of a section of the page, without what they are indented by.
section() {
    page_lines | sed -n "/^$1\$/,/^[A-Z]/s/^       //p"
}

# usages: how each command is called, by the tool's help.
usages() {
    "$tool" help | sed '/^options: /,$d; s/^usage: //; s/^ *//; s/  .*//; s/^import //'
}

# The options in the lines of standard input, sorted.
options_of() {
    grep -oE -e '(^|[^-a-z])--([a-z]+|($|[ ,;]))' | tr -d ' [,;' | LC_ALL=C sort -u
}

page_suite() {
    local command
    if ! command -v mandoc >/dev/null; then
        not_run 'the manual page beside the help' mandoc
        return
    fi
    # The page has no date: it goes with the tool's version.
    call mandoc -T lint -W warning c/import/import.1
    good test "$(grep -v 'WARNING: missing date' <<<"$output")" = ''
    good test "$(section SYNOPSIS | sed 's/^yesbrulka-import //; s/ \[--[a-z]*\]//')" = "$(usages)"
    good test "$(section COMMANDS | grep '^[^ ]')" = "$(usages)"
    good test "$(section OPTIONS | grep '^--' | options_of)" = "$("$tool" help | grep '^options: ' | options_of)"
    for command in $(usages | cut -d ' ' -f 1 | sort -u); do
        good test "$(section SYNOPSIS | grep "^yesbrulka-import $command " | options_of)" = \
            "$("$tool" help "$command" | grep '^--' | options_of)"
    done
    good test "$(section 'EXIT STATUS' | grep -o '^[0-9]' | tr '\n' ' ')" = \
        "$("$tool" help | sed -n '/^Exit status: /,$p' | grep -oE '(: |; )[0-9] ' | tr -d ':; \n' | sed 's/./& /g')"
    good test "$("$tool" check -h)" = "$("$tool" check --help)"
    found_suite
    page_examples_suite
}

# man finds the page where it was installed.
found_suite() {
    if command -v man >/dev/null; then
        call env MANPATH="$prefix/share/man" man -w yesbrulka-import
        good test "$status|$output" = "0|$prefix/share/man/man1/yesbrulka-import.1"
    fi
    good like "$(section NAME)" 'yesbrulka-import - *'
}

# The examples are typed into a shell, in a folder that has the files in it which they name.
page_examples_suite() {
    local folder=$work/page
    mkdir -p "$folder/sticks"
    cp examples/{mill,season}.stick "$folder/sticks"
    cp examples/harvest.stick "$folder/harvest.stick"
    cp examples/refused-06-three-faults.stick "$folder/damaged.stick"
    section EXAMPLES | sed -n 's/^       //p' | sed 's/^\$ //' >"$folder/typed"
    good test "$(grep -c '^ *yesbrulka-import\|^find' "$folder/typed")" = 9
    has_parallel || sed -i '/^find/,$d' "$folder/typed"
    call env -C "$folder" PATH="$prefix/bin:$PATH" PARALLEL_HOME="$work" bash typed
    good test "$status|$error" = '0|import: 1 of 1 file refused'
    good test "$(grep -c ': complete, ' <<<"$output")" = 5
    good cmp "$folder/rescued.stick" examples/rescued-three-faults.stick
    good like "$(cat "$folder/harvest.csv")" 'step,unit,request_W,*'$'\n''0,0,*'
    if has_parallel; then good test "$(grep -c '"complete"' "$folder/checked.jsonl")" = 2; fi
}
