#!/usr/bin/env bash
# Builds bench/driver.rs by bench/run.sh, and runs it for one round. Before it measures, the driver
# compares the result of each call for many inputs with that of a plain codec (bench/expected.rs).
# Times are not tested. The script also tests which arguments bench/run.sh rejects, and that the
# measured functions begin at multiples of 32 bytes.
#
# In a clean clone it proves the libraries first. If there is no rustc that knows the edition 2024, it
# says that it skipped everything. The status is 0 if nothing is wrong. It needs the kit's `rt`,
# rustc, bash, grep, sed, readelf, objcopy and the core utilities.
# shellcheck source=tests/lib.sh
source "$(dirname "${BASH_SOURCE[0]}")/lib.sh" || exit 2
# shellcheck source=tests/kit.sh
source "$top/tests/kit.sh" || exit 2

# Tests that bench/run.sh prints its usage, ends with status 2, and builds nothing: `refuses WORD..`.
refuses() {
    PATH=$scratch/none:$PATH bash "$top/bench/run.sh" "$@" >"$scratch/printed" 2>"$scratch/said"
    [[ $? == 2 && ! -s $scratch/printed && $(<"$scratch/said") == 'usage: bench/run.sh '* ]] ||
        wrong "bench/run.sh takes: $*"
}

# With this PATH `rt` and `rustc` fail, so nothing can be built.
mkdir "$scratch/none" || exit 2
printf '#!/bin/sh\nexit 1\n' | tee "$scratch/none/rt" >"$scratch/none/rustc"
chmod +x "$scratch/none"/* || exit 2
refuses --help
refuses -h
refuses --cpu
refuses --rounds
refuses word
refuses --cpu x86-64-v2 --help
can_build_rust "bench's driver" || exit 0
if quietly "$top/bench/run.sh" --rounds 1; then
    echo "bench's driver was built and run"
    readelf -SW "$top/bench/out/x86-64-v2/libmeasured.a" >"$scratch/parts"
    grep -q ' \.text\.' "$scratch/parts" || wrong "bench's library has no functions of their own"
    grep ' \.text.* AX ' "$scratch/parts" | grep -v ' 32$' &&
        wrong "these functions of bench's library begin elsewhere than at multiples of 32 bytes"
else
    wrong "bench's driver does not build, or does not run"
fi
((failed == 0))
