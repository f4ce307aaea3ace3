#!/usr/bin/env bash
# Measures how the time of the program cesu8_cli grows with hostile input of 1, 10 and 100 MB. It
# prints the processor time of the process in milliseconds, including reading and writing, and the
# ratio of 100 MB to 10 MB:
#   bench/growth.sh [ROUNDS]
# Each time is the least of ROUNDS runs, 3 by default. README.md says more. It needs the kit's rt, bash,
# awk and the core utilities.
set -eu
# shellcheck source=tests/lib.sh
source "$(dirname "${BASH_SOURCE[0]}")/../tests/lib.sh"
# shellcheck source=tests/hostile_bytes.sh
source "$top/tests/hostile_bytes.sh"

rounds=${1:-3}
lengths=(1000000 10000000 100000000)

# The least time of a command on a file: `best_time COMMAND FILE`.
best_time() {
    local round took user system best='' TIMEFORMAT='%3U %3S'
    for ((round = 0; round < rounds; round++)); do
        took=$({ time "$program" "$1" mutf8 <"$2" >/dev/null 2>&1 || true; } 2>&1)
        read -r user system <<<"$took"
        took=$((10#${user/./} + 10#${system/./}))
        if [[ -z $best ]] || ((took < best)); then
            best=$took
        fi
    done
    echo "$best"
}

# Prints a row of the table: `print_row KIND COMMAND`.
print_row() {
    local length times=()
    for length in "${lengths[@]}"; do
        times+=("$(best_time "$2" "$scratch/$length")")
    done
    awk -v kind="$1" -v command="$2" 'BEGIN {
        growth = ARGV[2] ? sprintf("%.1f", ARGV[3] / ARGV[2]) : "–"
        printf "| %s | `%s` | %d | %d | %d | %s |\n",
            kind, command, ARGV[1], ARGV[2], ARGV[3], growth
    }' "${times[@]}"
}

build >&2
processor=$(grep -m 1 'model name' /proc/cpuinfo | sed 's/.*: //')
echo "$(date +%F), $processor, MUTF-8, best of $rounds rounds"
echo
echo '| bytes | command | 1 MB | 10 MB | 100 MB | 100 to 10 |'
echo '|---|---|--:|--:|--:|--:|'
for kind in half four lead cut null noise; do
    for length in "${lengths[@]}"; do
        hostile_bytes "$kind" "$length" >"$scratch/$length"
    done
    for command in encode needs decode decode-strict lossy lossy-strict java-write java-read; do
        print_row "$kind" "$command"
    done
done
