#!/bin/bash
# What `make install` and `make uninstall` do: `install.sh install` puts the library, the import tool, its manual page
# and what a programmer reads below PREFIX (/usr/local if it is not set), and `install.sh uninstall` takes them away.
# Where DESTDIR is set, it stands before every path that is written to, and in none of the files. The proved archive and
# the programs over it must be there already. Ends with 0, or with 1 and what to do.
set -eu
cd "$(dirname "${BASH_SOURCE[0]}")/.."
# What is installed is the proved archive and no other.
unset YB_ARCHIVE
. tools/env.sh
umask 022

command=${1:-}
prefix=${PREFIX:-/usr/local}
top=${DESTDIR:-}$prefix

# Below PREFIX: the folders, each behind the one that it is in, and the files. lib/yesbrulka/import is there only where
# the tool needs the emulator. lib/yesbrulka/folders names the folders that were made here: no other is taken away, and
# it goes last.
folders=(bin include lib lib/pkgconfig lib/yesbrulka share share/doc share/doc/yesbrulka share/man share/man/man1)
files=(bin/yesbrulka-import include/yesbrulka.h lib/libyesbrulka.a lib/pkgconfig/yesbrulka.pc
    lib/yesbrulka/import share/doc/yesbrulka/{IMPORT,LAYOUTS,RULES}.md share/doc/yesbrulka/season.c
    share/man/man1/yesbrulka-import.1 lib/yesbrulka/folders)

# cannot WHAT WORDS: say what cannot be done, by the words of the command that failed why, and what to do; and end.
cannot() {
    # shellcheck disable=SC2016 # whoever reads it has a HOME of his own
    local place='make install PREFIX="$HOME/.local"'
    echo "$command: $1: ${2##*: }" >&2
    case "$command ${2##*: }" in
    uninstall*) echo 'Do it as the user who installed it, or as root (sudo make uninstall).' >&2 ;;
    *'Permission denied') echo "Do it as root (sudo make install), or choose a folder of your own ($place)." >&2 ;;
    *) echo "Choose another folder ($place)." >&2 ;;
    esac
    exit 1
}

# The pkg-config file has PREFIX in a line, and is read from anywhere.
check_prefix() {
    case $prefix in
    *[[:cntrl:]]*) echo "$command: PREFIX has a line end or another control character in it" >&2 ;;
    /*) return ;;
    *) echo "$command: PREFIX is $prefix; it must begin with /" >&2 ;;
    esac
    exit 1
}

# take_folders FOLDER..: those that are empty, from the last to the first.
take_folders() {
    local i
    for ((i = $#; i > 0; i--)); do
        rmdir "$top/${!i}" 2>/dev/null || true
    done
}

# All folders, before any file is written, and whether they can be written to; new has those that were not there.
make_folders() {
    local folder why
    new=()
    why=$(LC_ALL=C mkdir -p "$top" 2>&1) || cannot "the folder $top cannot be made" "$why"
    for folder in "${folders[@]}"; do
        if [ -d "$top/$folder" ]; then
            why=$(LC_ALL=C mktemp "$top/$folder/.yesbrulka-XXXXXX" 2>&1) || {
                take_folders "${new[@]}"
                cannot "the folder $top/$folder cannot be written to" "$why"
            }
            rm -f "$why"
        else
            why=$(LC_ALL=C mkdir "$top/$folder" 2>&1) || {
                take_folders "${new[@]}"
                cannot "the folder $top/$folder cannot be made" "$why"
            }
            new+=("$folder")
        fi
    done
}

# put MODE FROM TO: write one file below PREFIX, and say so.
put() {
    local why
    why=$(LC_ALL=C install -T -m "$1" "$2" "$top/$3" 2>&1) || cannot "$top/$3 cannot be written" "$why"
    echo "$top/$3"
}

# put_made FOLDER..: the folders that this and earlier installs made. A tree below DESTDIR has no such list: it is copied to
# where the folders are others', or is thrown away whole.
put_made() {
    if [ -z "${DESTDIR:-}" ]; then
        { cat "$top/lib/yesbrulka/folders" 2>/dev/null || true; printf '%s\n' "$@"; } | sort -u >"$work/folders"
        put 644 "$work/folders" lib/yesbrulka/folders
    fi
}

# pkg_config VERSION: a backslash stands before what would part or quote words.
pkg_config() {
    local escaped
    # shellcheck disable=SC2001 # every one of them
    escaped=$(LC_ALL=C sed "s/[][ '\"\\\\\$()*?&;<>|\`{}#!~^]/\\\\&/g" <<<"$prefix")
    cat <<END
prefix=$escaped
includedir=\${prefix}/include
libdir=\${prefix}/lib

Name: yesbrulka
Description: A proved planning core for farm batteries, x86-64 code
Version: $1
Cflags: -I\${includedir}
Libs: -L\${libdir} -lyesbrulka
END
}

# quoted TEXT: as a word of a script.
quoted() {
    echo "'${1//\'/\'\\\'\'}'"
}

# The command where the tool needs the emulator, which stays in the kit.
emulated() {
    cat <<END
#!/bin/sh
# yesbrulka-import is x86-64 code and this machine is not: the Rattle kit's emulator runs it.
emulator=$(quoted "$YB_EMULATOR")
[ -x "\$emulator" ] || {
    echo "yesbrulka-import: no emulator at \$emulator; put the Rattle kit's rt on the path and install again" >&2
    exit 2
}
exec "\$emulator" $(quoted "$prefix/lib/yesbrulka/import") "\$@"
END
}

put_tool() {
    if [ "$(uname -m)" = x86_64 ]; then
        put 755 build/x86_64/import bin/yesbrulka-import
        rm -f "$top/lib/yesbrulka/import"
    else
        emulated >"$work/import"
        put 755 build/x86_64/import lib/yesbrulka/import
        put 755 "$work/import" bin/yesbrulka-import
    fi
}

install_all() {
    local version page
    if [ "$(uname -m)" != x86_64 ] && ! yb_emulator; then
        echo "install: $YB_CC_WHY" >&2
        exit 1
    fi
    version=$(build/import --version) || { echo "install: build/import cannot be run; make sample builds it" >&2; exit 1; }
    work=$(mktemp -d)
    trap 'rm -rf "$work"' EXIT
    make_folders
    put_made "${new[@]}"
    put 644 "$YB_ARCHIVE" lib/libyesbrulka.a
    put 644 c/yesbrulka.h include/yesbrulka.h
    pkg_config "${version##* }" >"$work/pc"
    put 644 "$work/pc" lib/pkgconfig/yesbrulka.pc
    put_tool
    put 644 c/import/import.1 share/man/man1/yesbrulka-import.1
    for page in IMPORT LAYOUTS RULES; do
        put 644 "docs/$page.md" "share/doc/yesbrulka/$page.md"
    done
    put 644 c/example/season.c share/doc/yesbrulka/season.c
}

uninstall_all() {
    local file why found=no ours=()
    if [ -f "$top/lib/yesbrulka/folders" ]; then
        mapfile -t ours < <(printf '%s\n' "${folders[@]}" | grep -xF -f "$top/lib/yesbrulka/folders")
    fi
    for file in "${files[@]}"; do
        if [ -e "$top/$file" ] || [ -L "$top/$file" ]; then
            why=$(LC_ALL=C rm -f "$top/$file" 2>&1) || cannot "$top/$file cannot be taken away" "$why"
            found=yes
        fi
    done
    take_folders "${ours[@]}"
    if [ "$found" = yes ]; then
        echo "what was installed below $top is gone"
    else
        echo "nothing of Yesbrulka is below $top"
    fi
}

case $command in
install | uninstall)
    check_prefix
    "${command}_all"
    ;;
*)
    echo 'usage: install.sh install | uninstall' >&2
    exit 1
    ;;
esac
