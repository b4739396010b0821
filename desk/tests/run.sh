#!/bin/bash
# The tests of the desk's commands, as people call them. Each failed one is told; the last line counts them.
set -u
cd "$(dirname "${BASH_SOURCE[0]}")/../.." || exit 2
for name in stick-from-csv import; do
    [ -x "build/$name" ] || { echo "no command build/$name" >&2; exit 1; }
done
exec python3 desk/tests/count.py
