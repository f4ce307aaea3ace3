#!/bin/sh
# Removes what install.sh installed, and prints each file that it removes:
#   PREFIX/share/doc/cesu8/uninstall.sh
# It removes the files below PREFIX that the list INSTALLED beside it names; PREFIX may have been moved.
# Then it removes the folders above these files that are named cesu8 or are below one that is, if they
# are empty. Folders that may have other users, such as bin, are not removed.
#
# With an argument, without a list, or elsewhere than in PREFIX/share/doc/cesu8, the status is 2, and
# nothing is removed. --help prints the usage.
set -eu
unset CDPATH
export LC_ALL=C

usage='usage: PREFIX/share/doc/cesu8/uninstall.sh'

refuse() {
    printf 'uninstall.sh: %s\n%s\n' "$1" "$usage" >&2
    exit 2
}

if [ "${1-}" = --help ]; then
    printf '%s\n' "$usage"
    exit
fi
[ $# -eq 0 ] || refuse 'there are no arguments'
here=$(cd "$(dirname "$0")" && pwd)
[ -f "$here/INSTALLED" ] || refuse 'install.sh has left no list beside this'
prefix=${here%/share/doc/cesu8}
[ "$prefix" != "$here" ] || refuse 'this is not in PREFIX/share/doc/cesu8'

list=$(cat "$here/INSTALLED")
folders=
removed=
while IFS= read -r path; do
    if [ -e "$prefix/$path" ] || [ -L "$prefix/$path" ]; then
        rm -f "$prefix/$path"
        removed="$removed$prefix/$path
"
    fi
    folder=$path
    above=
    while [ "$folder" != "${folder%/*}" ]; do
        folder=${folder%/*}
        case /$folder/ in
            */cesu8/*)
                above="$above$folder
"
                ;;
        esac
    done
    folders=$folders$above
done <<LIST
$list
LIST
# A folder is in this list after each file below it, with the folders between them before it. So it is
# empty when it comes for the last time.
printf '%s' "$folders" | while IFS= read -r folder; do
    rmdir "$prefix/$folder" 2>/dev/null || :
done

# The names are printed last: if the reader ends early, as head does, the files are already removed.
printf '%s' "$removed" | while IFS= read -r path; do printf '%s\n' "$path"; done
