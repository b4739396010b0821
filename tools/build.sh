#!/bin/bash
# Builds the C programs over the archive into build/x86_64/, and beside them build/watts, build/feed and build/import,
# the commands that people call; and the desk's commands, which call these. The archive must be there already; where it is
# the proved one, build/proved is left as a mark for make, which then builds again only what is older than its sources.
set -eu
cd "$(dirname "${BASH_SOURCE[0]}")/.."
. tools/env.sh
yb_toolchain || { echo "$YB_CC_WHY" >&2; exit 1; }

# Each program is named after its first part in c/, and its further parts are named after it.
programs='tests/host tests/test_surface tests/test_stack watts/watts feed/feed import/import'
commands='watts feed import'
# Each command of the desk is one file, made of the package of its name in desk/ and of what they share.
desk='stick-from-csv season-page'

# Nothing of an earlier build may stand in for what fails to build now.
rm -f build/proved
for program in $programs; do
    rm -f "build/x86_64/${program##*/}"
done
for name in $commands $desk; do
    rm -f "build/$name"
done
[ -f "$YB_ARCHIVE" ] || { echo "no archive at $YB_ARCHIVE" >&2; exit 1; }

shopt -s nullglob
mkdir -p build/x86_64
for program in $programs; do
    # shellcheck disable=SC2086 # YB_STATIC may be no word
    "$YB_CC" -O2 -Wall -Wextra -Werror -std=c11 $YB_STATIC -Ic -o "build/x86_64/${program##*/}" "c/$program.c" \
        "c/$program"_*.c "$YB_ARCHIVE"
done

for name in $commands; do
    if [ -z "$YB_EMULATOR" ]; then
        cp "build/x86_64/$name" "build/$name"
    else
        sed "s/@NAME@/$name/g" tools/emulated.in >"build/$name"
        chmod +x "build/$name"
    fi
done

if [ "$YB_ARCHIVE" = target/staticlib/libyesbrulka.a ]; then touch build/proved; fi

if ! yb_python; then
    echo "NOT BUILT: $desk: $YB_PYTHON_WHY" >&2
    exit 0
fi
for name in $desk; do
    package=${name//-/_}
    rm -rf "build/desk/$name"
    mkdir -p "build/desk/$name"
    cp -r "desk/$package" "build/desk/$name/$package"
    cp desk/program.py "build/desk/$name/program.py"
    rm -rf "build/desk/$name/$package/__pycache__"
    python3 -m zipapp -c -p '/usr/bin/env python3' -m "$package.__main__:main" -o "build/$name" "build/desk/$name"
    chmod 755 "build/$name"
done

# What is put into the season's page is Debian's.
yb_charts || echo "season-page can make no page: $YB_CHARTS_WHY" >&2
