#!/usr/bin/env bash
# Times the Rust crate beside shared objects with the calls of other codecs:
#   rust/bench/run.sh [--cpu x86-64-v3] [--rounds N] FILE.so..
# bench/README.md says how such objects are built, and src/main.rs what is printed. Run it on a
# quiet processor: `taskset -c 3 rust/bench/run.sh ..`.
set -euo pipefail
unset CDPATH
export LC_ALL=C

rounds=15
while [[ ${1-} == --* ]]; do
    case $1 in
        --cpu) export RUSTFLAGS="-C target-cpu=$2" ;;
        --rounds) rounds=$2 ;;
        *)
            echo 'usage: rust/bench/run.sh [--cpu CPU] [--rounds N] FILE.so..' >&2
            exit 2
            ;;
    esac
    shift 2
done
here=$(cd "$(dirname "${BASH_SOURCE[0]}")" && pwd)
objects=()
for object; do
    objects+=("$(realpath "$object")")
done
scratch=$(mktemp -d)
trap 'rm -rf "$scratch"' EXIT
"$here/../make.sh" "$scratch" >/dev/null
cp -R "$here" "$scratch/bench"
cd "$scratch/bench"
cargo build --release --offline --quiet
target/release/bench "$rounds" "${objects[@]}"
