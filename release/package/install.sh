#!/bin/sh
# Installs the library, the programs and the pages from this folder, and prints each file:
#   [DESTDIR=ROOT] ./install.sh PREFIX [LIBDIR]
# LIBDIR is the folder for the libraries below PREFIX, by default lib; for instance lib64 or
# lib/x86_64-linux-gnu. It can also begin with PREFIX. No installed file names an absolute path, so
# PREFIX can be moved afterwards. PREFIX/share/doc/cesu8/uninstall.sh removes all of it. It reads the
# list INSTALLED beside it, to which another run adds its files. The list is written first, so that a
# run that fails can be removed too.
#
# With DESTDIR, everything is installed below that folder instead, as for a package. Then PREFIX must be
# absolute, since the file for pkg-config names it, and uninstall.sh is not installed, since the package
# manager knows the files.
#
# If the arguments are wrong, the status is 2, and nothing is written. --help prints the usage.
set -eu
unset CDPATH
export LC_ALL=C
umask 022

usage='usage: [DESTDIR=ROOT] ./install.sh PREFIX [LIBDIR]'

refuse() {
    printf 'install.sh: %s\n%s\n' "$1" "$usage" >&2
    exit 2
}

for word in "$@"; do
    case $word in
        --help)
            printf '%s\n' "$usage"
            exit
            ;;
        -*) refuse "$word is no folder; there are no options" ;;
    esac
done

# Sets `path` to a folder's absolute path, without a slash at its end: `absolute FOLDER`.
absolute() {
    case $1 in
        /*) path=$1 ;;
        *) path=$PWD/$1 ;;
    esac
    while [ "${path%/}" != "$path" ]; do
        path=${path%/}
    done
}

if [ $# -lt 1 ] || [ $# -gt 2 ] || [ -z "$1" ]; then
    refuse 'one or two folders are wanted'
fi
root=${DESTDIR-}
[ -z "$root" ] || case $1 in
    /*) ;;
    *) refuse 'with DESTDIR, PREFIX has to be absolute' ;;
esac
absolute "$1"
prefix=$path
if [ -n "$root" ]; then
    absolute "$root"
    root=$path
fi

libdir=${2-lib}
case $libdir in
    "$prefix"/*) libdir=${libdir#"$prefix"/} ;;
    /*) refuse 'LIBDIR is not below PREFIX' ;;
esac
libdir=${libdir%/}
case /$libdir/ in
    *//* | */./* | */../*) refuse 'LIBDIR has a part that is empty, . or ..' ;;
esac
# The relative path from LIBDIR to PREFIX.
up=..
rest=$libdir
while [ "$rest" != "${rest#*/}" ]; do
    rest=${rest#*/}
    up=../$up
done

to=$root$prefix
here=$(cd "$(dirname "$0")" && pwd -P)
if [ -d "$to/" ] && [ "$(cd "$to/" && pwd -P)" = "$here" ]; then
    refuse 'PREFIX is the folder to install from'
fi
cd "$here"

# The files to install, one a line: HOW as for `put`, the file here, and its path below PREFIX.
plan=

# Adds files to the plan: `put HOW FOLDER FILE..`. FOLDER is below PREFIX, and HOW is a mode or a word
# that `place` knows.
put() {
    how=$1
    folder=$2
    shift 2
    for file in "$@"; do
        # The release for aarch64 has no programs and no pages about them.
        [ -f "$file" ] || continue
        plan="$plan$how $file $folder/${file##*/}
"
    done
}

[ -n "$root" ] || put 755 share/doc/cesu8 uninstall.sh
put 644 include include/*
put 755 bin bin/*
put 644 "$libdir" lib/*.a lib/*.so.*
put link "$libdir" lib/*.so
for number in 1 3; do put 644 "share/man/man$number" "share/man/man$number"/*; done
put 644 share/bash-completion/completions share/bash-completion/completions/*
put 644 share/doc/cesu8 BUILT-FROM LICENSE-* ./*.md
put 644 share/doc/cesu8/examples examples/*.c examples/*.rs
put 755 share/doc/cesu8/examples examples/*.sh
put pkgconfig "$libdir/pkgconfig" lib/pkgconfig/*
put cmake "$libdir/cmake/cesu8" lib/cmake/cesu8/*

# Prints the file for pkg-config, whose variables are relative to its own folder unless DESTDIR is set.
pkgconfig() {
    # shellcheck disable=SC2016
    if [ -n "$root" ]; then
        printf 'prefix=%s\n' "$prefix"
    else
        printf 'prefix=${pcfiledir}/../%s\n' "$up"
    fi
    # shellcheck disable=SC2016
    printf 'libdir=${prefix}/%s\n' "$libdir"
    grep -v -e '^prefix=' -e '^libdir=' "$1"
}

# Installs a file: `place HOW FILE TO`.
place() {
    mkdir -p "${3%/*}"
    case $1 in
        link) ln -sf "$(readlink "$2")" "$3" ;;
        pkgconfig) pkgconfig "$2" >"$3" ;;
        cmake) sed "s|set(_cesu8_up .*|set(_cesu8_up $up)|" "$2" >"$3" ;;
        *) install -m "$1" "$2" "$3" ;;
    esac
}

# The list is written first, so that uninstall.sh also removes the files of a run that fails.
installed=$(printf '%s' "$plan" | cut -d ' ' -f 3-)
if [ -z "$root" ]; then
    list=share/doc/cesu8/INSTALLED
    installed="$installed
$list"
    mkdir -p "$to/${list%/*}"
    { cat "$to/$list" 2>/dev/null || :; printf '%s\n' "$installed"; } | sort -u >"$to/$list.new"
    mv "$to/$list.new" "$to/$list"
fi
printf '%s' "$plan" | while read -r how file path; do place "$how" "$file" "$to/$path"; done

# The names are printed last: if the reader ends early, as head does, the files are already installed.
printf '%s\n' "$installed" | while IFS= read -r path; do printf '%s\n' "$to/$path"; done
