#!/bin/bash
# Builds and runs the bench: the archive's check and run beside ones in quick ordinary Rust, in one process of x86-64
# code. The archive must be there already. Ends with 0, with 1 if an answer is wrong or the build fails, and with 2 if
# something that it needs cannot be had. The times decide nothing.
set -eu
cd "$(dirname "${BASH_SOURCE[0]}")/.."
. tools/env.sh
. tools/rust.sh

# The machine's own load spoils times, so that it stands beside them.
heading() {
    if [ -z "$YB_EMULATOR" ]; then
        echo "NATIVE: this machine is $(uname -m), and all that is timed ran on its own processor."
    else
        echo "EMULATED: this machine is $(uname -m), and all that is timed ran as x86-64 code under the kit's emulator."
        echo 'The times say little; their ratios and their growth say something. A ratio is up to a tenth more or less'
        echo 'by where the linker puts the code.'
    fi
    echo "$("$rustc" --version); $(nproc) cores, load $(cut -d ' ' -f 1-3 /proc/loadavg)"
}

rust_beside_archive

# What is timed beside the archive is first held to the plain reference.
mkdir -p build/bench
CARGO_TARGET_DIR=$PWD/build/bench/tests cargo test --quiet --release --offline --locked \
    --manifest-path reference/bench/Cargo.toml >build/bench/tests.log 2>&1 || { cat build/bench/tests.log >&2; exit 1; }

# Nothing of an earlier build may stand in for what fails to build now.
library=build/bench/$target/release/libreference_bench.a
rm -f build/x86_64/bench "$library"
RUSTC=$rustc CARGO_TARGET_DIR=$PWD/build/bench "$cargo" build --quiet --release --offline --locked \
    --target "$target" --manifest-path reference/bench/Cargo.toml || exit 1

mkdir -p build/x86_64
# shellcheck disable=SC2086 # YB_STATIC may be no word
"$YB_CC" -O2 -Wall -Wextra -Werror -std=c11 $YB_STATIC -Ic -o build/x86_64/bench c/bench/bench.c c/bench/bench_*.c \
    "$YB_ARCHIVE" "$library" -lpthread -ldl

# The emulator takes an instruction that sets many bytes a byte at a time, which no processor does: the C library is to
# do without it.
if [ -n "$YB_EMULATOR" ]; then
    export GLIBC_TUNABLES=glibc.cpu.x86_rep_stosb_threshold=4194304
fi

heading
# shellcheck disable=SC2086 # YB_EMULATOR may be no word
$YB_EMULATOR build/x86_64/bench
