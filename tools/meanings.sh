#!/bin/bash
# Puts wrong meanings into definitions and code together and says for each what refuses it. A function's proof shows that its
# code is as its definition says, so a meaning that is wrong in both passes every one of them: something else has to refuse it.
# The list is tools/meanings/*.edit, in the form of the must-fail edits: above each meaning a line
#
#     # LABEL [RULE]: which wrong meaning it is
#
# and `file:` names a file from the repository's root; in `old:` and `new:` `\n` is the end of a line. For each there are three
# tests, in trees of their own below build/meanings/:
#
#   theorems  every law of every crate, over the changed definitions; the functions and their proofs are left out
#   table     every row of crates/figures, over the changed definitions
#   cases     the program crates/cases with the changed code, compiled without proof, on its stored cases
#
# usage: tools/meanings.sh [--definitions | --cases | --page] [LABEL..]
#
# prints a line for each meaning (all of them, or these), with the first law that fails and the theorems of docs/PROMISES.md
# that fall with it, the first row, and the byte from which on the output differs; and counts. --definitions leaves out the
# cases, --cases all but them. --page prints the table of docs/MEANINGS.md from what has been seen, without a test. What was
# seen of the very same files is not tried again. The exit status is 1 if a meaning passed every test, 2 if something that
# is needed is missing, or a meaning cannot be tried. Run by hand; no part of the gate. One meaning takes about half a minute.
set -u
cd "$(dirname "${BASH_SOURCE[0]}")/.." || exit 2
for tool in python3 rt; do
    if ! command -v "$tool" >/dev/null; then
        echo "meanings: $tool is not on the path" >&2
        exit 2
    fi
done
mkdir -p build/meanings
exec 9>build/meanings/lock
if ! flock -n 9; then
    echo 'meanings: another run is under way' >&2
    exit 2
fi
exec nice -n 19 python3 tools/meanings.py "$@"
