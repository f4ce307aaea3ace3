#!/usr/bin/env bash
# Packs the Rust crate of a release, and the one that stands for simd_cesu8 in a patch:
#   SOURCE_DATE_EPOCH=SECONDS rust/pack.sh RELEASE FOLDER
# RELEASE is the folder that the archive of dist.sh holds; its BUILT-FROM goes into the crates.
# FOLDER gets cesu8_rattle-VERSION.crate and simd_cesu8-1.2.0.crate, and their names are printed. A
# .crate is an archive as cargo makes it, with one folder. Two runs give the same bytes.
#
# It needs python3, GNU tar, gzip, bash, find, grep and the core utilities, but no Rust.
set -euo pipefail
unset CDPATH
export LC_ALL=C
umask 022

if (($# != 2)) || [[ -z ${SOURCE_DATE_EPOCH-} ]]; then
    echo 'usage: SOURCE_DATE_EPOCH=SECONDS rust/pack.sh RELEASE FOLDER' >&2
    exit 2
fi
release=$(cd "$1" && pwd)
folder=$(cd "$2" && pwd)
here=$(cd "$(dirname "${BASH_SOURCE[0]}")" && pwd)
scratch=$(mktemp -d)
trap 'rm -rf "$scratch"' EXIT

"$here/make.sh" "$scratch" >&2
for crate in "$scratch"/*; do
    name=${crate##*/}
    # What was built for a processor is no part of a crate.
    grep -E '^(cesu8|commit|kit) ' "$release/BUILT-FROM" >"$crate/BUILT-FROM"
    find "$crate" -type f -exec chmod 644 {} +
    tar --create --format=ustar --sort=name --owner=0 --group=0 --numeric-owner \
        --mtime="@$SOURCE_DATE_EPOCH" -C "$scratch" "$name" | gzip -n -9 >"$folder/$name.crate"
    echo "$name.crate"
done
