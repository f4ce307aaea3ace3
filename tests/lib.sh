# What the scripts of tests/ share. A script sources this file first. It sets
# - `top`, the repository's folder, and `scratch`, a folder for its files, removed at the end;
# - `program`, the built `cesu8_cli`, and the function `build`, from tests/program.sh;
# - `passed` and `failed`, which the functions below count.
# It needs bash and the core utilities.
# shellcheck shell=bash disable=SC2034
set -u
unset CDPATH
export LC_ALL=C

top=$(cd "$(dirname "${BASH_SOURCE[0]}")/.." && pwd) || exit 2
scratch=$(mktemp -d) || exit 2
trap 'rm -rf "$scratch"' EXIT
# shellcheck source=tests/program.sh
source "$top/tests/program.sh" || exit 2

passed=0
failed=0

# The compilers, and the emulator that runs what they build. For another processor than this a
# script sets others.
c_compiler=cc
cpp_compiler=c++
emulator=()

# Counts a success.
pass() {
    passed=$((passed + 1))
}

# Counts and prints what is wrong: `wrong WHAT`.
wrong() {
    failed=$((failed + 1))
    printf 'wrong: %s\n' "$1"
}

# Counts whether a test succeeds: `expect WHAT TEST..`.
expect() {
    local what=$1
    shift
    if "$@"; then pass; else wrong "$what"; fi
}

# Prints the counts. It fails if anything was wrong.
finish() {
    echo "$passed passed, $failed failed"
    ((failed == 0))
}

# Runs the program on $scratch/input: `run WORD..`. It stores the exit status in `status`, and the
# output in $scratch/output and $scratch/error.
run() {
    "$program" "$@" <"$scratch/input" >"$scratch/output" 2>"$scratch/error"
    status=$?
}

# Prints a file's length and first bytes: `shown FILE`.
shown() {
    echo "$(stat -c %s "$1") bytes:$(od -An -v -tx1 -N 60 -w60 "$1")"
}

# Counts whether a run ended with STATUS, wrote what FILE holds, and printed LINE to standard error,
# or nothing if LINE is empty: `expect_run WHAT STATUS LINE FILE`. It reads what `run` stored.
expect_run() {
    local told='' differs=''
    [[ $status == "$2" ]] || differs+=$'\n'"  status: $status, and not $2"
    # The read succeeds only if there is a null.
    if IFS= read -r -d '' told <"$scratch/error" || [[ $told != "${3:+$3$'\n'}" ]]; then
        differs+=$'\n'"  standard error: $told, and not $3"
    fi
    cmp -s "$4" "$scratch/output" ||
        differs+=$'\n'"  output: $(shown "$scratch/output"), and not $(shown "$4")"
    if [[ -z $differs ]]; then pass; else wrong "$1$differs"; fi
}

# Stores in `bytes` these bytes TIMES times, and nothing if TIMES is 0 or less:
# `repeat TIMES BYTES`.
repeat() {
    local times=$1 piece=$2
    bytes=''
    while ((times > 0)); do
        if ((times % 2 == 1)); then bytes+=$piece; fi
        times=$((times / 2))
        if ((times > 0)); then piece+=$piece; fi
    done
}

# Stores in `length` the number of bytes that `printf %b` makes of these: `measure BYTES`.
measure() {
    printf '%b%n' "$1" length >/dev/null
}

# Prints bytes, written as for `printf %b`, TIMES times: `repeated TIMES BYTES`.
repeated() {
    local bytes times=$1 files=()
    if ((times >= 16384)); then
        repeat 16384 "$2"
        printf '%b' "$bytes" >"$scratch/repeated"
        for (( ; times >= 16384; times -= 16384)); do files+=("$scratch/repeated"); done
        cat "${files[@]}"
    fi
    repeat "$times" "$2"
    printf '%b' "$bytes"
}

# Prints LENGTH bytes, which are these repeated: `filled LENGTH BYTES`.
filled() {
    local length
    measure "$2"
    repeated $(($1 / length + 1)) "$2" | head -c "$1"
}

# Runs a command, and prints its output if it fails: `quietly COMMAND..`.
quietly() {
    "$@" </dev/null >"$scratch/said" 2>&1 && return
    cat "$scratch/said"
    return 1
}

# Whether a compiler or another tool succeeds with these arguments. If not, it prints that WHAT is
# skipped: `can_build WHAT TOOL ARGUMENT..`.
can_build() {
    local what=$1
    shift
    if ! command -v "$1" >/dev/null; then
        echo "$1 is missing: $what skipped"
        return 1
    fi
    if ! quietly "$@"; then
        echo "$1 cannot run: $what skipped"
        return 1
    fi
}

# Builds a program as `cc` does: `compile ARGUMENT..`, with -o PROGRAM among the arguments. If it
# needs an emulator, the program is replaced by a script that runs it in the emulator.
compile() {
    local word before='' program=''
    for word in "$@"; do
        [[ $before != -o ]] || program=$word
        before=$word
    done
    quietly "$c_compiler" "$@" || return
    ((${#emulator[@]} > 0)) || return 0
    mv "$program" "$program.built" &&
        printf '#!/usr/bin/env bash\nexec %s "$@"\n' "${emulator[*]@Q} ${program@Q}.built" >"$program" &&
        chmod 755 "$program"
}

# Whether programs in C, C++ or Rust can be built. If not, WHAT is skipped: `can_build_c WHAT`.
can_build_c() {
    printf '#include <stdio.h>\nint main(void) { return puts("") < 0; }\n' >"$scratch/probe.c"
    can_build "$1" "$c_compiler" -o "$scratch/probe" "$scratch/probe.c"
}

can_build_cpp() {
    echo 'int main() {}' >"$scratch/probe.cpp"
    can_build "$1" "$cpp_compiler" -o "$scratch/probe" "$scratch/probe.cpp"
}

can_build_rust() {
    echo 'fn main() {}' >"$scratch/probe.rs"
    can_build "$1" rustc --edition 2024 -o "$scratch/probe" "$scratch/probe.rs"
}
