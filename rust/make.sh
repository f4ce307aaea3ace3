#!/usr/bin/env bash
# Makes the Rust crate, and the one that stands for simd_cesu8 in a patch:
#   rust/make.sh FOLDER
# FOLDER gets a folder for each of these packages, with its version in the name. They need nothing
# else. The codec in the first is the source in crates without its contracts (erase.py); the rest is
# rust/crate. The second has the version of the crate that it replaces.
set -euo pipefail
unset CDPATH
export LC_ALL=C
umask 022

if (($# != 1)) || [[ -z $1 || $1 == -* ]]; then
    echo 'usage: rust/make.sh FOLDER' >&2
    exit 2
fi
here=$(cd "$(dirname "${BASH_SOURCE[0]}")" && pwd)
top=$(cd "$here/.." && pwd)
mkdir -p "$1"
folder=$(cd "$1" && pwd)
version=$(<"$top/VERSION")
crate=$folder/cesu8_rattle-$version
patch=$folder/simd_cesu8-1.2.0

rm -rf "$crate" "$patch"
cp -R "$here/crate" "$crate"
cp -R "$here/simd_cesu8" "$patch"
for package in "$crate" "$patch"; do
    cp "$top/LICENSE-APACHE" "$top/LICENSE-MIT" "$package"
done
cp "$here/README.md" "$crate"
cp "$top/tests/cli_cases.txt" "$crate/tests/cases.txt"
python3 "$here/erase.py" "$top/crates" "$crate/src/codec"
