#!/bin/bash
# Lays the Rattle programs that have tests of their own into target/bin. `rt ci` leaves each in its crate's out/; where one is
# not there, `rt run` builds it.
set -eu
cd "$(dirname "${BASH_SOURCE[0]}")/.."
mkdir -p target/bin
for program in stick_check stick_run settle stick_partner; do
    made=crates/$program/out/$program
    if [ ! -x "$made" ]; then (cd "crates/$program" && rt run) </dev/null >/dev/null 2>&1 || true; fi
    [ -x "$made" ] || { echo "$program: not built; rt run in crates/$program says why" >&2; exit 1; }
    cp "$made" "target/bin/$program"
done
