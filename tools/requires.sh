#!/bin/bash
# The public functions that ask something of their callers: those that a crate's lib.rt hands on and whose contract has a
# `requires`. docs/DECISIONS.md has them as a table between two marks, and the gate holds that table to this script.
#
# usage: tools/requires.sh [--write | --check]
#
# prints the table; --write puts it into the page; --check compares the page with it. A function that is exported to C
# must have no `requires`: one that has is a failure in every case.
set -u
cd "$(dirname "${BASH_SOURCE[0]}")/.." || exit 2
page=docs/DECISIONS.md
begin='<!-- requires: written by tools/requires.sh -->'
end='<!-- requires: end -->'

# asking FILE..: a line `MODULE NAME` for each public function that has a `requires`; `C NAME` for an exported one.
asking() {
    awk '
        FNR == 1 { name = ""; module = FILENAME; sub(/.*\//, "", module); sub(/\.rt$/, "", module) }
        /^ *pub (extern "C" )?fn / {
            kind = /extern "C"/ ? "C" : module
            name = $0; sub(/.*fn /, "", name); sub(/[^a-z_0-9].*/, "", name); told = 0
        }
        name != "" && !told && /^ *requires / { print kind, name; told = 1 }
        /^ *\{/ { name = "" }' "$@"
}

# handed CRATE: those of them that its lib.rt hands on, or has itself.
handed() {
    local lib=crates/$1/src/lib.rt
    asking "crates/$1"/src/*.rt | while read -r module name; do
        if [ "$module" = lib ] ||
            tr '\n' ' ' <"$lib" | grep -qE "pub use ([a-z_]+::)*$module::($name|\{([^{}]*[ ,{])?$name *[,}][^;]*);"; then
            echo "$name"
        fi
    done | sort
}

table() {
    # shellcheck disable=SC2016 # these are not to expand
    echo '| Crate | Public functions with a `requires` |'
    echo '|---|---|'
    for lib in crates/*/src/lib.rt; do
        crate=${lib#crates/} crate=${crate%%/*}
        # shellcheck disable=SC2016 # nor these
        names=$(handed "$crate" | sed 's/.*/`&`/' | paste -sd, | sed 's/,/, /g')
        [ -z "$names" ] || echo "| \`$crate\` | $names |"
    done
}

exported=$(asking crates/*/src/*.rt | sed -n 's/^C //p')
if [ -n "$exported" ]; then
    echo "requires: exported to C, and with a requires: $exported" >&2
    exit 1
fi
case ${1-} in
'') table ;;
--write)
    BEGIN=$begin END=$end TABLE=$(table) awk '
        $0 == ENVIRON["END"] { inside = 0 }
        !inside { print }
        $0 == ENVIRON["BEGIN"] { inside = 1; print ""; print ENVIRON["TABLE"]; print "" }' "$page" >"$page.new" &&
        mv "$page.new" "$page"
    ;;
--check)
    there=$(BEGIN=$begin END=$end awk '
        $0 == ENVIRON["END"] { inside = 0 }
        inside && NF { print }
        $0 == ENVIRON["BEGIN"] { inside = 1 }' "$page")
    if [ "$there" = "$(table)" ]; then exit 0; fi
    echo "$page does not list the functions with a requires as they are; tools/requires.sh --write mends it"
    exit 1
    ;;
*)
    echo 'usage: tools/requires.sh [--write | --check]' >&2
    exit 2
    ;;
esac
