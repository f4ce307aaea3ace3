#!/usr/bin/env bash
# Counts what calls and workloads cost, and compares that with bench/costs.txt:
#   tests/costs.sh            tests each cost
#   tests/costs.sh --show     also prints them, each with the cost of allocations and copies
#   tests/costs.sh --write    updates bench/costs.txt
#
# A cost is the number of instructions, plus 15 for each mispredicted branch. callgrind simulates both,
# so they are the same in each run, whatever else the machine does. The script fails if a cost is more
# than a fiftieth above its line, and says by how much. It also fails if one is more than a fiftieth
# below its line, which then needs an update, and if a line is missing or superfluous. It does not see
# how long an instruction takes: bench/run and bench/run.sh measure times.
#
# callgrind predicts a branch by the last bits of its address and by the branches before it. So the
# address of a function determines which branches share a counter, and it depends on all functions
# before it: with the same functions in another order, half of the costs were different, one by 15 of
# 452. Therefore functions are aligned to 512 bytes here, and their order changes no cost. Neither do
# the folder and the environment: the program gets an empty environment, and before a call is counted,
# it is made so often that the code that started the program no longer affects the predictor.
#
# tests/costs.c makes the single calls, each on many different inputs. Only the library's own cost is
# compared; allocations and copies are counted separately. Of each workload in bench/workloads.txt the
# rounds are counted, with the program's own work in them: the cost of a run without rounds, which only
# makes the inputs, is subtracted. For workloads the C library is counted separately.
#
# Calls and workloads are built for x86-64-v2 and x86-64-v3; the builds for x86-64-v2 remain in out/. In
# a clean clone the script first proves the libraries. After that it takes some two minutes of one
# processor. Without valgrind or a C compiler it skips everything, and on a processor without AVX2 it
# skips x86-64-v3; it says so. The status is 0 if nothing is wrong. It needs the kit's `rt`, valgrind,
# `cc`, objcopy, bash, awk and the core utilities.
# shellcheck source=tests/lib.sh
source "$(dirname "${BASH_SOURCE[0]}")/lib.sh" || exit 2
# shellcheck source=tests/kit.sh
source "$top/tests/kit.sh" || exit 2
set -o pipefail
kit=$(dirname "$(dirname "$(readlink -f "$(command -v rt)")")")
lines=$top/bench/costs.txt
levels=(x86-64-v2 x86-64-v3)
rounds=4

# Builds a crate for a level by `rt`, with as many jobs as PROOF_JOBS says if the gate sets it, and
# copies one of the files that this makes: `build_crate LEVEL CRATE FILE COMMAND WORD..`.
build_crate() {
    local level=$1 crate=$2 file=$3 command=$4
    shift 4
    echo "building $crate for $level"
    if ! (cd "$top/crates/$crate" &&
        quietly rt "$command" --cpu "$level" ${PROOF_JOBS:+--jobs "$PROOF_JOBS"} "$@" &&
        cp "out/$file" "$scratch/$level/"); then
        echo "$crate was not built" >&2
        exit 2
    fi
}

# Builds everything for a level, with functions aligned to 512 bytes. Calls within the shared object are
# direct, without the procedure linkage table.
build_level() {
    local at=$scratch/$1 file
    mkdir "$at" || exit 2
    build_crate "$1" measured libmeasured.a lib
    build_crate "$1" workloads workloads.o run -- every 1 1
    cp "$kit"/c/lib{libc,os}_c.a "$at" || exit 2
    for file in "$at"/*.[ao]; do
        objcopy --set-section-alignment '.text*=512' "$file" || exit 2
    done
    quietly cc -shared -o "$at/measured.so" -Wl,-Bsymbolic -Wl,--whole-archive \
        "$at/libmeasured.a" -Wl,--no-whole-archive "$at/liblibc_c.a" || exit 2
    quietly cc -o "$at/workloads" "$at/workloads.o" "$at/libos_c.a" "$at/liblibc_c.a" || exit 2
}

# Builds the program of the single calls. It loads the shared object from the folder in which it runs.
build_calls() {
    (cd "$scratch/${levels[0]}" && quietly cc -std=c11 -O2 -Wall -Wextra -Werror \
        -I "$top/bench" -o "$scratch/costs" "$top/tests/costs.c" ./measured.so) || exit 2
}

# Runs a program under callgrind in the folder of a level: `simulate LEVEL FLAGS PROGRAM WORD..`.
# Afterwards $scratch/counts has what callgrind counted, and $scratch/printed what the program printed.
# The program gets no environment, not even valgrind's, which has the folder's name: its length would
# move the stack, and with it the alignment on which copies in the C library depend.
simulate() {
    local level=$1 flags
    read -r -a flags <<<"$2"
    shift 2
    (cd "$scratch/$level" && exec env -i "$valgrind" -q --tool=callgrind --branch-sim=yes \
        --callgrind-out-file="$scratch/counts" --compress-strings=no --compress-pos=no \
        --combine-dumps=yes --trace-children=yes "${flags[@]}" "$env" -i "$@"
    ) >"$scratch/printed" </dev/null
}

# Prints the single calls at a level, each with its cost and what was counted separately.
cost_of_calls() {
    simulate "$1" '--zero-before=begin_counting --dump-before=end_counting' ../costs || return
    # After the last call comes the end of the program. For each call the program has printed its
    # name, and how often it was made while callgrind counted.
    awk -v library=measured.so -v driver=costs -f "$top/tests/costs.awk" "$scratch/counts" |
        head -n -1 | paste -d ' ' "$scratch/printed" - |
        awk -v level="$1" '{ printf "%s %s %.1f %.1f\n", $1, level, $3 / $2, $4 / $2 }'
}

# Prints the cost of a run of a workload, with the seed 1 for its inputs, and what was counted
# separately: `sums_of LEVEL NAME ROUNDS`.
sums_of() {
    simulate "$1" '' ./workloads "$2" 1 "$3" &&
        awk -v library=workloads -v driver=none -f "$top/tests/costs.awk" "$scratch/counts"
}

# Prints the workloads at a level, each with its cost and what was counted separately.
cost_of_workloads() {
    local name word
    while read -r name _ word _; do
        { sums_of "$1" "$word" "$rounds" && sums_of "$1" "$word" 0; } |
            awk -v what="workload/$name $1" '
                NR == 1 { own = $1; apart = $2 }
                NR == 2 { printf "%s %.1f %.1f\n", what, (own - $1) / 1000, (apart - $2) / 1000 }
            ' || return
    done <"$top/bench/workloads.txt"
}

# Prints the new content of bench/costs.txt.
written() {
    cat <<WORDS
# What calls and workloads cost, as tests/costs.sh counts it: a name, a processor level and a cost.
# A cost is a number of instructions, plus 15 for each branch that callgrind sees mispredicted,
# without allocations and copies.
# - workload/NAME: $rounds rounds of a workload of workloads.txt, in thousands
# - CALL/INPUT/BYTES: one call on an input of a kind in tests/costs.c that has so many bytes
# tests/costs.sh --write writes the lines. One may rise only in a commit that says why.
WORDS
    cut -d ' ' -f 1-3 "$scratch/costs.txt"
}

# Prints what differs from the lines.
compare() {
    awk -v levels=" ${levels[*]} " '
        FNR == NR && (/^#/ || !index(levels, " " $2 " ")) { next }
        { what = $1 " at " $2 }
        FNR == NR { line[what] = $3; next }
        { seen[what] }
        !(what in line) { print what " has no line"; next }
        $3 > 1.02 * line[what] {
            printf "%s costs %s, %.1f%% more than its line, which says %s\n",
                what, $3, ($3 / line[what] - 1) * 100, line[what]
        }
        $3 < 0.98 * line[what] {
            printf "%s costs %s, %.1f%% less than its line, which says %s: it wants a new line\n",
                what, $3, (1 - $3 / line[what]) * 100, line[what]
        }
        END { for (what in line) if (!(what in seen)) print what " has a line, and is not there" }
    ' "$lines" "$scratch/costs.txt" | sort
}

case $#${1-} in
    0 | 1--show | 1--write) ;;
    *)
        echo 'usage: tests/costs.sh [--show|--write]' >&2
        exit 2
        ;;
esac
can_build_c 'the costs of calls' || exit 0
can_build 'the costs of calls' valgrind --tool=callgrind --callgrind-out-file=/dev/null \
    "$scratch/probe" || exit 0
valgrind=$(command -v valgrind) env=$(command -v env)
if ! grep -qw avx2 /proc/cpuinfo; then
    echo 'the processor has no AVX2: the costs at x86-64-v3 skipped'
    levels=(x86-64-v2)
    [[ ${1-} != --write ]] || { echo 'bench/costs.txt has both levels: not written' >&2; exit 2; }
fi

# x86-64-v2 is built last, so that its builds remain.
for ((i = ${#levels[@]} - 1; i >= 0; i--)); do build_level "${levels[i]}"; done
build_calls
for level in "${levels[@]}"; do
    { cost_of_workloads "$level" && cost_of_calls "$level"; } >>"$scratch/costs.txt" || exit 2
done
case ${1-} in
    --show) cat "$scratch/costs.txt" ;;
    --write) { written >"$scratch/new.txt" && cp "$scratch/new.txt" "$lines"; } || exit 2 ;;
esac
compare >"$scratch/differs"
sed 's/^/wrong: /' "$scratch/differs"
if grep -q 'line$' "$scratch/differs"; then
    echo 'tests/costs.sh --write writes bench/costs.txt anew'
fi
echo "$(wc -l <"$scratch/costs.txt") costs, $(wc -l <"$scratch/differs") wrong"
[[ -s $scratch/costs.txt && ! -s $scratch/differs ]]
