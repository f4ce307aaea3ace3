#!/bin/sh
# Builds one archive with the code for x86-64-v2 and for x86-64-v3, with chooser.c, which chooses
# between them at run time, and with plain.c:
#   archive.sh [--target aarch64-unknown-linux-gnu] FILE.a
# For aarch64 there is one level, ARMv8-A, and chooser.c only calls it.
#
# It proves the crate and the libraries below it if they are not proved yet, with as many jobs as
# PROOF_JOBS says, or else as rt chooses. It needs the kit's rt, cc, ar, ld, objcopy and nm; for
# aarch64 the tools that tests/cross.sh names.
set -eu
unset CDPATH
# The members of the archive have the same order everywhere.
export LC_ALL=C

crate=$(cd "$(dirname "$0")" && pwd)
# shellcheck source=tests/kit.sh
. "$crate/../../tests/kit.sh"
scratch=$(mktemp -d)
trap 'rm -rf "$scratch"' EXIT

refuse() {
    echo 'usage: archive.sh [--target aarch64-unknown-linux-gnu] FILE.a' >&2
    exit 2
}

levels='v3 v2'
if [ "${1-}" = --target ]; then
    [ "${2-}" = aarch64-unknown-linux-gnu ] || refuse
    levels=v8
    shift 2
    # The tools below are those for aarch64.
    # shellcheck source=tests/cross.sh
    . "$crate/../../tests/cross.sh"
    cc() { "$AARCH64_CC" "$@"; }
    objcopy() { "$AARCH64_OBJCOPY" "$@"; }
    ar() { cross ar "$@"; }
    ld() { cross ld "$@"; }
    nm() { cross nm "$@"; }
fi
[ $# -eq 1 ] || refuse
archive=$1
rm -f "$archive"

# The option of rt for a level: `option LEVEL`.
option() {
    case $1 in
        v8) echo --target=aarch64-unknown-linux-gnu ;;
        *) echo "--cpu=x86-64-$1" ;;
    esac
}

# rt gives each function and each table a section of its own, and the archive keeps these sections.
# So a program that is linked with --gc-sections contains only what its calls reach. Functions are
# aligned to 32 bytes: otherwise the code before a short function changes its time by a tenth. Rows
# of tables are aligned to 16.
#
# The code for x86-64-v2 is built last, so that out/ holds it: it is what rt builds by default.
for level in $levels; do
    if ! (cd "$crate" && rt lib "$(option "$level")" ${PROOF_JOBS:+--jobs "$PROOF_JOBS"}) \
        >"$scratch/rt.log" 2>&1; then
        cat "$scratch/rt.log" >&2
        exit 1
    fi
    mkdir "$scratch/$level"
    (cd "$scratch/$level" && ar x "$crate/out/libcesu8_c.a")
    ld -r -o "$scratch/$level.o" "$scratch/$level"/*.o
    # The level is appended to the name of each export. Functions that the code imports keep theirs.
    nm -g --defined-only "$scratch/$level.o" |
        awk -v level="$level" 'NF == 3 { print $3, $3 "_" level }' >"$scratch/$level/names"
    objcopy --redefine-syms="$scratch/$level/names" --set-section-alignment '.text*=32' \
        --set-section-alignment '.rodata..L*=16' "$scratch/$level.o"
done

for file in chooser plain; do
    cc -std=c11 -O2 -fPIC -ffunction-sections -falign-functions=32 -Wall -Wextra -Werror \
        -I "$crate/include" -c -o "$scratch/$file.o" "$crate/$file.c"
done
ar rcsD "$archive" "$scratch"/*.o
