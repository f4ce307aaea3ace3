#!/usr/bin/env bash
# Unpacks Debian's rustc 1.85 for x86-64 (its package is rustc-web) in a folder, without installing
# it:
#   rust_1_85.sh FOLDER
# With it come the libraries of Rust and C for arm64 and i386, and emulators of both, with which
# tests/rust.sh tests the crate for these, if ld.lld is there. It prints the name of a script in
# FOLDER, for RUSTC_1_85 of tests/rust.sh. FOLDER then has 1.3 GB. It needs what tests/debian.sh
# needs.
set -euo pipefail
unset CDPATH

if (($# != 1)); then
    echo 'usage: rust_1_85.sh FOLDER' >&2
    exit 2
fi
mkdir -p "$1"
folder=$(cd "$1" && pwd)
# shellcheck source=tests/debian.sh
source "$(dirname "${BASH_SOURCE[0]}")/debian.sh"

version=$(apt_for amd64 apt-cache madison rustc-web |
    sed -n 's/^[^|]*| *\(1\.85\.[^ ]*\) .*/\1/p' | head -n 1)
if [[ -z $version ]]; then
    echo 'apt knows no rustc-web 1.85' >&2
    exit 1
fi
unpack amd64 "$folder" "rustc-web=$version" "libstd-rust-web-1.85=$version" \
    "libstd-rust-web-dev=$version" libllvm19 qemu-user-static
for architecture in arm64 i386; do
    unpack "$architecture" "$folder" "libstd-rust-web-dev=$version" \
        libc6 libc6-dev libgcc-s1 libgcc-12-dev
done
# Writes a script that links a program for an architecture, by what is in FOLDER, with lld:
# `write_linker ARCHITECTURE TRIPLET GCC_TRIPLET LOADER`. rustc passes to it what it would to ld.
write_linker() {
    local libraries=$folder/usr/lib/$2 gcc=$folder/usr/lib/gcc/$3/12
    printf '#!/bin/sh\n%s\n' "exec ld.lld '--sysroot=$folder' -dynamic-linker '$4' \
    '$libraries/Scrt1.o' '$libraries/crti.o' '$gcc/crtbeginS.o' '-L$gcc' '-L$libraries' \
    '-L$folder/lib/$2' \"\$@\" -lc -lgcc '$gcc/crtendS.o' '$libraries/crtn.o'" >"$folder/link-$1"
    chmod 755 "$folder/link-$1"
}

write_linker arm64 aarch64-linux-gnu aarch64-linux-gnu /lib/ld-linux-aarch64.so.1
write_linker i386 i386-linux-gnu i686-linux-gnu /lib/ld-linux.so.2
{
    echo '#!/bin/sh'
    echo "LD_LIBRARY_PATH='$folder/usr/lib/x86_64-linux-gnu' exec '$folder/usr/bin/rustc' \"\$@\""
} >"$folder/rustc"
chmod 755 "$folder/rustc"
echo "$folder/rustc"
