#!/bin/sh
# Proves and builds the static library, then builds the driver and runs it. README.md describes the
# options. If an argument is unknown or lacks its value, the status is 2 and nothing is built. It
# needs the kit's rt, rustc, objcopy and, for --against, cc.
set -eu

usage() {
    cat >&2 <<'USAGE'
usage: bench/run.sh [--cpu LEVEL] [--against LEVEL].. [--rounds N] [--runs N] [--tables FILE]
    [--picture FILE] [NAME=FILE ..]
USAGE
    exit 2
}

bench=$(cd "$(dirname "$0")" && pwd)
# shellcheck source=tests/kit.sh
. "$bench/../tests/kit.sh"
crate=$bench/../crates/measured
out=$bench/out
kit=$(dirname "$(dirname "$(readlink -f "$(command -v rt)")")")

cpu=x86-64-v2
against=
tables=
# Arguments that are not for this script are passed to the driver: each is appended again after the
# `left` arguments that are still to be read.
left=$#
while [ "$left" -gt 0 ]; do
    word=$1
    shift
    left=$((left - 1))
    case $word in
        --cpu | --against | --tables | --rounds | --runs | --picture)
            [ "$left" -gt 0 ] || usage
            value=$1
            shift
            left=$((left - 1))
            case $word in
                --cpu) cpu=$value ;;
                --against) against="$against $value" ;;
                --tables) tables=$value ;;
                *) set -- "$@" "$word" "$value" ;;
            esac
            ;;
        -*) usage ;;
        *=*) set -- "$@" "$word" ;;
        *) usage ;;
    esac
done

# Proves and builds the archive for one processor level, with as many jobs as PROOF_JOBS says, or
# else as rt chooses. Its functions are aligned to 32 bytes, as those of the release are: otherwise
# the code before a function changes its time by up to a tenth.
build() {
    mkdir -p "$out/$1"
    if ! (cd "$crate" && rt lib --cpu "$1" ${PROOF_JOBS:+--jobs "$PROOF_JOBS"}) >"$out/$1/rt.log" 2>&1; then
        cat "$out/$1/rt.log" >&2
        exit 1
    fi
    tail -n 1 "$out/$1/rt.log" >&2
    objcopy --set-section-alignment '.text*=32' "$crate/out/libmeasured.a" "$out/$1/libmeasured.a"
}

# A build for another level is a shared object, so the kit's C library is linked into it.
for level in $against; do
    build "$level"
    cc -shared -o "$out/$level/measured.so" -Wl,--whole-archive "$out/$level/libmeasured.a" \
        -Wl,--no-whole-archive "$kit/c/liblibc_c.a"
    set -- "$@" --against "$level=$out/$level/measured.so"
done

build "$cpu"
rustc --edition 2024 -O -o "$out/driver" "$bench/driver.rs" \
    -L "native=$out/$cpu" -l static=measured -L "native=$kit/c" -l static=libc_c

machine="$(date +%F), $(grep -m 1 'model name' /proc/cpuinfo | sed 's/.*: //')"
commit=$(git -C "$bench" describe --always --dirty 2>/dev/null || echo 'an unknown commit')

measure() {
    printf '# What was measured\n\n%s, at %s. [README.md](README.md) says how.\n\n' "$machine" "$commit"
    "$out/driver" --level "$cpu" --machine "$machine" "$@"
}

if [ -n "$tables" ]; then
    measure "$@" >"$out/tables.md"
    cp "$out/tables.md" "$tables"
else
    measure "$@"
fi
