# shellcheck shell=bash
# shellcheck disable=SC2034 # the scripts that source this use the variables
# Sourced by the other scripts, from the repository's root. The archive is x86-64 code on every machine;
# this finds what compiles C for it and what runs the result.
#
#   YB_ARCHIVE   the archive to link; set it to build the programs over another one (the gate never does)
#   YB_CC        the compiler for x86-64 code, empty where it cannot be had
#   YB_CC_WHY    where it is empty: why, and what to do about it
#   YB_STATIC    -static where the programs run under the emulator
#   YB_EMULATOR  the kit's emulator, empty on an x86-64 machine
#   YB_CHARTS_WHY, YB_BROWSER_WHY  where the season's page cannot be made, or not be tried in a browser: what to do
#   YB_PYTHON_WHY  where there is no Python for the desk's commands: why, and what to do about it

YB_ARCHIVE=${YB_ARCHIVE:-target/staticlib/libyesbrulka.a}
YB_CC=
YB_CC_WHY=
YB_STATIC=
YB_EMULATOR=
YB_CHARTS_WHY=
YB_BROWSER_WHY=
YB_PYTHON_WHY=

# yb_install PACKAGE..: install Debian's packages where this is root, and say so on one line.
yb_install() {
    [ "$(id -u)" = 0 ] && command -v apt-get >/dev/null || return 1
    echo "installing: $*"
    { apt-get -q update && DEBIAN_FRONTEND=noninteractive apt-get -qy install --no-install-recommends "$@"; } \
        >build/install.log 2>&1
}

# yb_compiles COMMAND..: the compiler is there and can link a C program.
yb_compiles() {
    command -v "$1" >/dev/null &&
        echo 'int main(void) { return 0; }' | "$@" -x c - -o build/compiles 2>/dev/null &&
        rm -f build/compiles
}

# yb_emulator: find the emulator in the kit that rt belongs to.
yb_emulator() {
    local rt
    if ! rt=$(command -v rt); then
        YB_CC_WHY="no emulator for x86-64 code; put the Rattle kit's rt on the path"
        return 1
    fi
    YB_EMULATOR=$(dirname "$(dirname "$(readlink -f "$rt")")")/on/$(uname -m)/toolchain/bin/qemu-x86_64
    if [ ! -x "$YB_EMULATOR" ]; then
        YB_CC_WHY="no emulator for x86-64 code; the kit has none for $(uname -m)"
        return 1
    fi
}

# yb_toolchain: set the variables above, and install the compiler if it is missing and that can be done.
yb_toolchain() {
    local compiler packages
    mkdir -p build
    if [ "$(uname -m)" = x86_64 ]; then
        compiler=gcc packages='gcc libc6-dev'
    else
        compiler=x86_64-linux-gnu-gcc packages='gcc-x86-64-linux-gnu libc6-dev-amd64-cross'
        YB_STATIC=-static
        yb_emulator || return 1
    fi
    # shellcheck disable=SC2086 # the packages are words, and YB_STATIC may be none
    if yb_compiles $compiler $YB_STATIC || { yb_install $packages && yb_compiles $compiler $YB_STATIC; }; then
        YB_CC=$compiler
    else
        YB_CC_WHY="no compiler for x86-64 code; install the packages $packages"
        return 1
    fi
}

# yb_charts: have the chart library that is put into the season's page.
yb_charts() {
    local library=/usr/share/javascript/dygraphs/dygraph.min.js
    if [ -f "$library" ] || { yb_install libjs-dygraphs && [ -f "$library" ]; }; then
        return 0
    fi
    YB_CHARTS_WHY='no chart library; install the package libjs-dygraphs'
    return 1
}

# yb_browser: have a browser to try the season's page in.
yb_browser() {
    if command -v chromium >/dev/null || { yb_install chromium && command -v chromium >/dev/null; }; then
        return 0
    fi
    YB_BROWSER_WHY='no Chromium; install the package chromium'
    return 1
}

# yb_python: there is a Python that runs the desk's commands, installed if it is missing and that can be done.
yb_python() {
    local has='import tomllib, zoneinfo; zoneinfo.ZoneInfo("Europe/Berlin")'
    mkdir -p build
    if ! python3 -c "$has" 2>/dev/null && ! { yb_install python3 tzdata && python3 -c "$has" 2>/dev/null; }; then
        YB_PYTHON_WHY='no Python 3.11 that knows time zones; install the packages python3 and tzdata'
        return 1
    fi
}
