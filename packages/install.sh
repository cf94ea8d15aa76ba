#!/bin/sh
# Installs what is next to this script, or removes it again; `usage` says how. Before it writes anything it looks whether this machine
# can run it.
list=share/doc/yamlcanon/installed

usage() {
    cat <<'END'
usage: install.sh PREFIX              installs into PREFIX (as /usr/local), and prints each file
       install.sh uninstall PREFIX    removes what was installed there, and prints each file
       install.sh --help

A relative PREFIX is taken from the working directory. With DESTDIR in the environment, everything goes
below that folder, and PREFIX has to begin with /. What was installed is listed in
PREFIX/share/doc/yamlcanon/installed: uninstall removes that, and no other file. An older version that
is listed there is removed before the new one is installed.
END
}

refuse() {
    printf 'install.sh: %s\n' "$1" >&2
    exit 1
}

# A folder's name, as an absolute one.
absolute() {
    case $1 in
        /*) printf '%s\n' "$1" ;;
        *) printf '%s/%s\n' "${PWD%/}" "$1" ;;
    esac
}

# Puts the folder below which everything goes into root.
look_at_prefix() {
    [ -n "$1" ] || refuse 'PREFIX is empty (see install.sh --help)'
    case $1 in
        -*) refuse "there is no option $1 (see install.sh --help)" ;;
        /*) ;;
        *) [ -z "${DESTDIR-}" ] || refuse "with DESTDIR, PREFIX has to begin with /, and it is $1" ;;
    esac
    root=$(absolute "$1")
    [ -z "${DESTDIR-}" ] || root=$(absolute "$DESTDIR")$1
    root=${root%/}
}

# The system, and its glibc.
look_at_machine() {
    [ "$(uname -sm)" = 'Linux x86_64' ] || refuse "this is $(uname -sm), and the files are for Linux x86_64"
    glibc=$(getconf GNU_LIBC_VERSION 2>/dev/null) || refuse 'no glibc is found here, and 2.34 is needed'
    number=${glibc#glibc }
    major=${number%%.*} minor=${number#*.}
    minor=${minor%%.*}
    if [ "$major" -lt 2 ] || { [ "$major" -eq 2 ] && [ "$minor" -lt 34 ]; }; then
        refuse "$glibc is here, and the programs need 2.34 (the library alone: 2.17)"
    fi
}

# Makes a folder of root, and those that it is in; prints each that was made, with a / at its end.
make_folder() {
    [ ! -d "$root/$1" ] || return 0
    case $1 in
        */*) make_folder "${1%/*}" || return 1 ;;
    esac
    mkdir -- "$root/$1" && printf '%s/\n' "$1"
}

# Makes root and all folders that files go to; prints each that was made.
make_folders() {
    if [ ! -d "$root/" ]; then
        mkdir -p -- "$root/" || return 1
        printf './\n'
    fi
    for file in $files "$list"; do
        make_folder "${file%/*}" || return 1
    done
}

install_all() {
    cd -- "$(dirname -- "$0")" || exit 1
    look_at_machine
    told=$(printf 'a: 0x1\n' | bin/yamlcanon canon)
    [ "$told" = '--- {"a" : !!int "1"}' ] || refuse 'bin/yamlcanon does not run here'
    files=$(find bin include lib share -type f -o -type l | LC_ALL=C sort)
    [ ! -f "$root/$list" ] || uninstall_all > /dev/null
    made=$(make_folders) || refuse "a folder cannot be made in $root"
    # The list comes first, so that an install that was ended can be removed.
    printf '%s\n' ${made:+"$made"} "$files" "$list" > "$root/$list" || exit 1
    for file in $files; do
        cp -P --preserve=mode --remove-destination -- "$file" "$root/$file" || exit 1
        printf '%s/%s\n' "$root" "$file"
    done
}

# Removes the files of the list, and then the folders that were made, if nothing else is in them, the deepest first.
uninstall_all() {
    [ -f "$root/$list" ] || refuse "nothing was installed in $root: there is no $root/$list"
    listed=$(cat -- "$root/$list") || exit 1
    case /$listed in
        */../* | *"
/"*) refuse "$root/$list names files outside of $root" ;;
    esac
    printf '%s\n' "$listed" | grep -v '/$' | while IFS= read -r file; do
        [ -e "$root/$file" ] || [ -L "$root/$file" ] || continue
        rm -f -- "$root/$file" || exit 1
        printf '%s/%s\n' "$root" "$file"
    done || exit 1
    printf '%s\n' "$listed" | grep '/$' | LC_ALL=C sort -r | while IFS= read -r folder; do
        rmdir -- "$root/${folder#./}" 2>/dev/null
    done
    return 0
}

case $#:${1-} in
    1:-h | 1:--help) usage ;;
    1:uninstall) refuse 'uninstall of which PREFIX? (see install.sh --help)' ;;
    1:*)
        look_at_prefix "$1"
        install_all
        ;;
    2:uninstall)
        look_at_prefix "$2"
        uninstall_all
        ;;
    *) refuse 'usage: install.sh PREFIX, or install.sh uninstall PREFIX (see install.sh --help)' ;;
esac
