#!/bin/bash
# Builds and runs the fuzzer: `fuzz.sh [SECONDS [SEED]]` holds the archive's functions to the reference over inputs that
# it makes, in one process of x86-64 code; `fuzz.sh --selftest` does so with an answer of the reference that is wrong on
# purpose, which must be found. The archive must be there already. Ends with 0 if nothing differs, with 1 if something
# does or the build fails, and with 2 if something that it needs cannot be had.
set -eu
cd "$(dirname "${BASH_SOURCE[0]}")/.."
. tools/env.sh
. tools/rust.sh

answers=right
if [ "${1:-}" = --selftest ]; then
    answers=wrong
    shift
fi
seconds=${1:-60}
seed=${2:-1}
folder=build/fuzz
library=$folder/$target/release/libreference_fuzz.a
program=build/x86_64/fuzz

# The compiler's counters, which guide the fuzzer.
counters=(-C codegen-units=1 -C passes=sancov-module -C llvm-args=-sanitizer-coverage-level=3
    -C llvm-args=-sanitizer-coverage-inline-8bit-counters)

# The compiler has such counters.
can_count() {
    echo 'pub fn one() {}' | "$rustc" --crate-type rlib --target "$target" "${counters[@]}" -o "$folder/one.rlib" - \
        2>"$folder/counters.log"
}

# They go into the reference alone. Cargo has no flags for one crate, but it calls what it is told to call for the
# compiler.
counting_compiler() {
    {
        echo '#!/bin/bash'
        echo "case \" \$* \" in *' --crate-name yesbrulka_reference '*) exec \"\$@\" ${counters[*]} ;; esac"
        echo 'exec "$@"'
    } >"$folder/compiler"
    chmod +x "$folder/compiler"
    echo "$PWD/$folder/compiler"
}

# Nothing of an earlier build may stand in for what fails to build now.
build() {
    local wrapper=
    if can_count; then wrapper=$(counting_compiler); fi
    rm -f "$program" "$library"
    RUSTC=$rustc RUSTC_WRAPPER=$wrapper CARGO_TARGET_DIR=$PWD/$folder "$cargo" build --quiet --release --offline \
        --locked --target "$target" --manifest-path reference/fuzz/Cargo.toml || exit 1
    # shellcheck disable=SC2086 # YB_STATIC may be no word
    "$YB_CC" $YB_STATIC -o "$program" "$library" "$YB_ARCHIVE" -lpthread -ldl || exit 1
}

# fuzz FOLDER FILE..: the files come first, and what differs is written to the folder.
fuzz() {
    local into=$1
    shift
    # shellcheck disable=SC2086 # YB_EMULATOR may be no word
    $YB_EMULATOR "$program" "$seed" "$seconds" "$into" "$answers" "$@"
}

rust_beside_archive
mkdir -p "$folder" build/x86_64
build

if [ "$answers" = wrong ]; then
    rm -rf "$folder/selftest"
    mkdir "$folder/selftest"
    if fuzz "$folder/selftest" >"$folder/selftest.log"; then
        echo 'fuzz: an answer that is wrong on purpose was NOT found' >&2
        exit 1
    fi
    sed -n '/^DIFFERENCE/,$p' "$folder/selftest.log"
    grep -q '^DIFFERENCE in yb_check_steps' "$folder/selftest.log" || exit 1
    echo 'selftest: the answer that is wrong on purpose was found'
    exit 0
fi

# What differed in an earlier run comes first.
shopt -s nullglob
status=0
fuzz "$folder" "$folder"/DIFFERENCE-*.bin examples/*.stick || status=$?
# The run is the same for the same seed, up to where the time is over.
if [ "$status" -gt 2 ]; then
    echo "fuzz: the process died with status $status; seed $seed gets there again" >&2
    exit 1
fi
exit "$status"
