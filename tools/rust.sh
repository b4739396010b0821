# shellcheck shell=bash
# shellcheck disable=SC2034 # the scripts that source this use the variables
# Sourced by the scripts that link Rust with the archive, from the repository's root and behind tools/env.sh. Such Rust
# is x86-64 code as the archive is; this finds what compiles it.
#
#   target   the name of x86-64 code
#   cargo    the cargo that builds it, and rustc its compiler, both set by rust_toolchain

target=x86_64-unknown-linux-gnu
cargo=
rustc=

# cannot WHY: say what cannot be had, and end.
cannot() {
    echo "$(basename "$0" .sh): $1" >&2
    exit 2
}

# builds_for_target CARGO RUSTC: both are there, with the standard library for x86-64; then they are taken.
builds_for_target() {
    local lib
    command -v "$1" >/dev/null && command -v "$2" >/dev/null || return 1
    lib=$("$2" --print target-libdir --target "$target" 2>/dev/null) || return 1
    compgen -G "$lib/libstd-*.rlib" >/dev/null || return 1
    cargo=$1 rustc=$2
}

# The toolchain on the path if it can, else Debian's.
find_rust() {
    builds_for_target cargo rustc || builds_for_target /usr/bin/cargo /usr/bin/rustc
}

# Debian's Rust, on an Arm machine with the standard library of the other architecture.
install_rust() {
    [ "$(id -u)" = 0 ] && command -v apt-get >/dev/null || return 1
    case " $* " in
    *:amd64\ *) dpkg --add-architecture amd64 ;;
    esac
    yb_install "$@"
}

rust_toolchain() {
    local packages='rustc cargo' how='install the packages'
    if [ "$(uname -m)" != x86_64 ]; then
        packages="$packages libstd-rust-dev:amd64"
        how='run dpkg --add-architecture amd64 and apt-get update, then install the packages'
    fi
    # shellcheck disable=SC2086 # the packages are words
    find_rust || { install_rust $packages && find_rust; } ||
        cannot "no Rust for x86-64 code; $how $packages, or: rustup target add $target"
}

# All that a program over the archive needs, or the end.
rust_beside_archive() {
    yb_toolchain || cannot "$YB_CC_WHY"
    [ -f "$YB_ARCHIVE" ] || cannot "no archive at $YB_ARCHIVE; tools/archive.sh builds it"
    rust_toolchain
}
