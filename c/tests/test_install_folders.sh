# shellcheck shell=bash
# shellcheck disable=SC2154 # the variables are those of test_install.sh
# Sourced by test_install.sh: what is installed where, by whom, and what is left when it is taken away.

# The files below PREFIX and the folders that they are in, as there tells them.
files=(bin/yesbrulka-import include/yesbrulka.h lib/libyesbrulka.a lib/pkgconfig/yesbrulka.pc
    share/doc/yesbrulka/{IMPORT,LAYOUTS,RULES}.md share/doc/yesbrulka/season.c share/man/man1/yesbrulka-import.1)
if [ "$(uname -m)" != x86_64 ]; then files+=(lib/yesbrulka/import); fi

# with_folders FILE..: these, and the folders that they are in.
with_folders() {
    local file
    for file in "$@"; do
        while [ "$file" != . ]; do
            echo "./$file"
            file=$(dirname "$file")
        done
    done | LC_ALL=C sort -u
}

# mode MODE FILE..: the files have this mode.
mode() {
    local mode=$1
    shift
    [ "$(stat -c %a "$@" | sort -u)" = "$mode" ]
}

# as_other COMMAND..: call it as a user who is not root, and keep what it gives; fails where there is no such user, or
# none who can read this folder.
as_other() {
    local how=()
    if [ "$(id -u)" = 0 ]; then how=(setpriv --reuid 65534 --regid 65534 --clear-groups); fi
    if ! "${how[@]}" test -r Makefile -a -r build/proved 2>/dev/null; then
        echo "NOT RUN: $* (not as root): this is root, and no other user can read this folder"
        return 1
    fi
    call "${how[@]}" "$@"
}

# Whatever the umask, all may read what is installed and call the tool, from anywhere and with nothing on the path.
install_suite() {
    local stick=$PWD/examples/mill.stick
    called=$(umask 077 && make --no-print-directory install DESTDIR= PREFIX="$prefix" 2>&1)
    status=$? output=$called error=
    good test "$status|$(LC_ALL=C sort <<<"$output")" = \
        "0|$(printf "$prefix/%s\n" "${files[@]}" lib/yesbrulka/folders | LC_ALL=C sort)"
    good test "$(there "$prefix")" = "$(with_folders "${files[@]}" lib/yesbrulka/folders)"
    good mode 644 "$prefix"/{include,lib,lib/pkgconfig,share/man/man1,share/doc/yesbrulka}/*.* "$prefix/lib/yesbrulka/folders"
    good mode 755 "$tool" "$prefix"/{,bin,include,lib,lib/pkgconfig,share/doc/yesbrulka,share/man/man1}
    good cmp "$prefix/lib/libyesbrulka.a" target/staticlib/libyesbrulka.a
    good cmp "$prefix/include/yesbrulka.h" c/yesbrulka.h
    good cmp "$prefix/share/man/man1/yesbrulka-import.1" c/import/import.1
    good cmp "$prefix/share/doc/yesbrulka/season.c" c/example/season.c
    good cmp "$prefix/share/doc/yesbrulka/IMPORT.md" docs/IMPORT.md
    call env -C / -i "$tool" check "$stick"
    good test "$status|$error|$output" = "0||$(build/import check "$stick")"
    call "$tool" --version
    good test "$status|$output" = "0|import of Yesbrulka, version $(sed -n 's/^Version: //p' \
        "$prefix/lib/pkgconfig/yesbrulka.pc")"
}

uninstall_suite() {
    made uninstall PREFIX="$prefix"
    good test "$status|$error|$output" = "0||what was installed below $prefix is gone"
    good test "$(there "$prefix")" = ''
    made uninstall PREFIX="$prefix"
    good test "$status|$error|$output" = "0||nothing of Yesbrulka is below $prefix"
}

# What was there before stays, folders that are empty too; and a second install forgets nothing.
folders_suite() {
    local place=$work/shared before
    mkdir -p "$place"/{bin,lib/pkgconfig,share/man}
    echo other >"$place/lib/libother.a"
    before=$(there "$place")
    made install PREFIX="$place"
    good test "$status|$error" = '0|'
    made install PREFIX="$place"
    good test "$status|$error" = '0|'
    echo later >"$place/include/later.h"
    made uninstall PREFIX="$place"
    good test "$status|$error" = '0|'
    good test "$(there "$place")" = "$(printf '%s\n' "$before" ./include ./include/later.h | LC_ALL=C sort)"
}

# DESTDIR stands before what is written, and in nothing that is.
destdir_suite() {
    local stage="$work/a stage" place=$work/none/usr
    call make --no-print-directory install DESTDIR="$stage" PREFIX="$place"
    good test "$status|$error" = '0|'
    good test "$(there "$stage$place")" = "$(with_folders "${files[@]}" lib/yesbrulka/any | grep -v any)"
    good test ! -e "$place"
    good test "$(head -n 1 "$stage$place/lib/pkgconfig/yesbrulka.pc")" = "prefix=$place"
    good test "$(grep -rlF "$stage" "$stage$place")" = ''
    call make --no-print-directory uninstall DESTDIR="$stage" PREFIX="$place"
    good test "$status|$error|$(find "$stage" -type f)" = '0||'
}

# refused FIRST SECOND: make ended with a line that begins so, one that says what to do, and its own.
refused() {
    [ "$status" = 2 ] && like "$error" "$1"$'\n'"$2"$'\nmake: *'
}

unwritable_suite() {
    # shellcheck disable=SC2016 # whoever reads it has a HOME of his own
    local place choose='Choose another folder (make install PREFIX="$HOME/.local").'
    echo file >"$work/file"
    made install PREFIX="$work/file/usr"
    good refused "install: the folder $work/file/usr cannot be made: Not a directory" "$choose"
    made install PREFIX="$work/file"
    good refused "install: the folder $work/file cannot be made: File exists" "$choose"
    # shellcheck disable=SC2088 # some shells hand it over so
    for place in usr '~/usr' ./usr; do
        made install PREFIX="$place"
        good like "$status|$output|$error" "2||install: PREFIX is $place; it must begin with /"$'\nmake: *'
        good test ! -e "$place"
    done
    made install PREFIX="$work/two"$'\n'lines
    good like "$status|$error" '2|install: PREFIX has a line end or another control character in it*'
    denied_suite "$work/theirs"
}

# denied_suite PLACE: nothing is written, or taken away, by a user who may not.
denied_suite() {
    local place=$1 before root='Do it as root (sudo make install), or choose a folder of your own'
    mkdir "$place" "$place/lib"
    chmod 555 "$place/lib" "$place"
    if as_other make --no-print-directory install DESTDIR= PREFIX="$place"; then
        good refused "install: the folder $place/bin cannot be made: Permission denied" "$root*"
        chmod 777 "$place"
        as_other make --no-print-directory install DESTDIR= PREFIX="$place"
        good refused "install: the folder $place/lib cannot be written to: Permission denied" "$root*"
        good test "$(there "$place")" = ./lib
        chmod 755 "$place" "$place/lib"
        made install PREFIX="$place"
        before=$(there "$place")
        chmod 555 "$place/bin"
        as_other make --no-print-directory uninstall DESTDIR= PREFIX="$place"
        good refused "uninstall: $place/bin/yesbrulka-import cannot be taken away: Permission denied" 'Do it as the *'
        good test "$(there "$place")" = "$before"
    fi
    chmod -R u+w "$place"
}

# As on an Arm machine: there the tool is a script over the emulator of the kit that rt belongs to, and finds both
# wherever it is called. Here the machine says that it is one, and the emulator says so and runs the program.
emulated_suite() {
    local place="$work/an \"Arm's\"" kit="$work/the kit's" qemu
    [ "$(uname -m)" = x86_64 ] || return
    qemu=$kit/on/aarch64/toolchain/bin/qemu-x86_64
    mkdir -p "$kit/bin" "$(dirname "$qemu")" "$work/arm"
    ln -s "$kit/bin/rt" "$work/arm/rt"
    printf '#!/bin/sh\nexit 1\n' >"$kit/bin/rt"
    # shellcheck disable=SC2016 # they are scripts
    printf '#!/bin/sh\n[ "$1" = -m ] && echo aarch64\n' >"$work/arm/uname"
    printf '#!/bin/sh\necho emulated: "$#" >&2\nexec "$@"\n' >"$qemu"
    chmod +x "$kit/bin/rt" "$work/arm/uname" "$qemu"
    PATH=$work/arm:$PATH made install PREFIX="$place"
    good test "$status|$error" = '0|'
    good test "$(there "$place")" = "$(with_folders "${files[@]}" lib/yesbrulka/{import,folders})"
    good cmp "$place/lib/yesbrulka/import" build/x86_64/import
    good mode 755 "$place/lib/yesbrulka/import" "$place/bin/yesbrulka-import"
    call env -C / -i "$place/bin/yesbrulka-import" check "$work/no such" '*'
    good like "$status|$output|$error" "2||emulated: 4"$'\n'"import: $work/no such: *"
    rm "$qemu"
    call "$place/bin/yesbrulka-import" check examples/mill.stick
    good like "$status|$output|$error" "2||yesbrulka-import: no emulator at $qemu; put the Rattle kit's rt on the path *"
    PATH=$work/arm:$PATH made install PREFIX="$place"
    good like "$status|$output|$error" '2||install: no emulator for x86-64 code; the kit has none for aarch64*'
    # Where the machine needs none, no emulated program is left.
    made install PREFIX="$place"
    good test "$(there "$place")" = "$(with_folders "${files[@]}" lib/yesbrulka/folders)"
    made uninstall PREFIX="$place"
    good test "$status|$(there "$place")" = '0|'
}
