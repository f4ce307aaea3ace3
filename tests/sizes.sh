#!/usr/bin/env bash
# Measures how much the library for C adds to a program, and how much stack its calls use, and compares
# that with release/sizes.txt:
#   tests/sizes.sh            tests each line
#   tests/sizes.sh --write    updates release/sizes.txt
#
# A program is built with each call, linked with --gc-sections, and one with all calls, without that option.
# Its code and constants are counted as `size` does, less those of the same program without the library.
# tests/stack.c measures the stack, on x86-64 at both levels. The script fails if a number is more than a
# twentieth above its line, or more than a twentieth below it, since the line then needs an update. It also
# fails if the table of docs/C.md has other numbers than the lines.
#
# RELEASE names the folder that release/dist.sh has filled; if it is not set, this script runs
# dist.sh. Without a compiler and an emulator for aarch64 (tests/cross.sh), it skips aarch64, and on
# a processor without x86-64-v3 the stack; it says so. The status is 0 if nothing is wrong. It needs
# what tests/release.sh needs.
# shellcheck source=tests/lib.sh
source "$(dirname "${BASH_SOURCE[0]}")/lib.sh" || exit 2
crate=$top/crates/cesu8_c
lines=$top/release/sizes.txt
# shellcheck source=tests/release.sh
source "$top/tests/release.sh" || exit 2
# shellcheck source=tests/c_library.sh
source "$top/tests/c_library.sh" || exit 2

# Prints the bytes of code and constants of a program with one call, or with none: `text_of CALL FLAG..`.
text_of() {
    local call=$1 program=$scratch/sized
    shift
    printf '%s\n' '#include <cesu8.h>' 'static void (*volatile kept)(void);' 'int main(void) {' \
        "    kept = (void (*)(void))$call;" '    return 0;' '}' >"$program.c"
    quietly "$c_compiler" -I "$unpacked/include" -o "$program" "$program.c" "$@" || exit 2
    "${size[@]}" "$program" | awk 'NR == 2 { print $1 }'
}

# Prints each call with the bytes that it adds, and `all` with those of all calls. One object of the
# archive has all these calls (chooser.c), so without --gc-sections a program that names one of them
# has the code of all.
code_of_calls() {
    local archive=$unpacked/lib/libcesu8.a call base
    base=$(text_of 0) || exit 2
    echo "all $(($(text_of cesu8_encode "$archive") - base))"
    for call in $(exports); do
        echo "cesu8_$call $(($(text_of "cesu8_$call" "$archive" -Wl,--gc-sections) - base))"
    done
}

# Prints the stack of each call: `stack_of_calls FLAG..`. The flags link the library.
stack_of_calls() {
    quietly "$c_compiler" -std=c11 -O2 -Wall -Wextra -Werror -I "$crate/include" -o "$scratch/stack" \
        "$top/tests/stack.c" "$@" -Wl,-z,now && "${emulator[@]}" "$scratch/stack"
}

# Adds the lines of a processor, each with a call, its code and its stack: `measure PROCESSOR [FLAG..]`. The
# flags link the library for a lower level.
measure() {
    local processor=$1
    shift
    { code_of_calls >"$scratch/code" && stack_of_calls "$unpacked/lib/libcesu8.a" >"$scratch/stack.txt"; } ||
        exit 2
    (($# == 0)) || stack_of_calls "$@" >>"$scratch/stack.txt" || exit 2
    awk -v processor="$processor" '
        FNR == NR {
            if ($2 > stack[$1]) stack[$1] = $2
            if ($2 > stack["all"]) stack["all"] = $2
            next
        }
        { print processor, $1, $2, stack[$1] }
    ' "$scratch/stack.txt" "$scratch/code" >>"$scratch/sizes"
}

# Prints the new content of release/sizes.txt. Lines of a processor that was not measured stay.
written() {
    cat <<WORDS
# What the library for C adds to a program, and the stack of a call, as tests/sizes.sh measures it: a
# processor, a call, its bytes of code and constants, and its bytes of stack. The line of all calls has the
# most stack of any. tests/sizes.sh --write writes the lines.
WORDS
    cat "$scratch/sizes"
    awk 'FNR == NR { seen[$1]; next } !/^#/ && !($1 in seen)' "$scratch/sizes" "$lines"
}

# Prints what differs from the lines by more than a twentieth, and by more than SLACK bytes:
# `compare COLUMN WHAT SLACK`.
compare() {
    awk -v column="$1" -v what="$2" -v slack="$3" '
        { name = $2 " on " $1 }
        FNR == NR && /^#/ { next }
        FNR == NR { line[name] = $column; processor[name] = $1; next }
        { seen[name]; measured[$1] }
        !(name in line) { print name " has no line"; next }
        { difference = $column > line[name] ? $column - line[name] : line[name] - $column }
        20 * difference > line[name] && difference > slack {
            print name " has " $column " bytes of " what ", and its line says " line[name]
        }
        END {
            for (name in line)
                if (processor[name] in measured && !(name in seen)) print name " has a line, and is not there"
        }
    ' "$lines" "$scratch/sizes"
}

# Prints the rows of the table of C.md that have other numbers than the lines.
compare_page() {
    awk -v rows=0 '
        function count(n) { return n < 1000 ? n : int(n / 1000) "," sprintf("%03d", n % 1000) }
        FNR == NR { code[$1, $2] = $3; stack[$1, $2] = $4; next }
        /^\| (`cesu8_[a-z0-9_]*`|all) \| [0-9]/ {
            rows++
            split($0, cell, /[`| ]+/)
            name = cell[2]
            row = name == "all" ? name : "`" name "`"
            row = "| " row " | " int(code["x86_64", name] / 1000 + 0.5) " | " \
                int(code["aarch64", name] / 1000 + 0.5) " | " count(stack["x86_64", name]) " | " \
                count(stack["aarch64", name]) " |"
            if ($0 != row) print "C.md has another row than: " row
        }
        END { if (rows < 5) print "C.md has " rows " rows of sizes" }
    ' "$lines" "$top/docs/C.md"
}

case $#${1-} in
    0 | 1--write) ;;
    *)
        echo 'usage: tests/sizes.sh [--write]' >&2
        exit 2
        ;;
esac
find_release 'the sizes' || exit 0
size=(size)
mkdir "$scratch/objects" && (cd "$scratch/objects" && ar x "$unpacked/lib/libcesu8.a" && rm chooser.o) ||
    exit 2
measure x86_64 '-D__builtin_cpu_supports(level)=0' "$crate/chooser.c" "$scratch/objects"/*.o
if for_aarch64 'the sizes on aarch64'; then
    unpacked=$scratch/unpacked/$cross_name
    tar xzf "$release/$cross_name.tar.gz" -C "$scratch/unpacked" || exit 2
    size=(cross size)
    measure aarch64
fi
if [[ ${1-} == --write ]]; then
    { written >"$scratch/new.txt" && cp "$scratch/new.txt" "$lines"; } || exit 2
fi
{
    compare 3 'code and constants' 0
    if grep -qw avx2 /proc/cpuinfo; then
        # Another compiler may save other registers in chooser.c, so 64 bytes are allowed.
        compare 4 stack 64
    else
        echo 'the processor has no AVX2: the stack of calls skipped' >&2
    fi
    compare_page
} | sort -u >"$scratch/differs"
sed 's/^/wrong: /' "$scratch/differs"
[[ ! -s $scratch/differs ]] || echo 'tests/sizes.sh --write writes release/sizes.txt anew'
echo "$(wc -l <"$scratch/sizes") sizes, $(wc -l <"$scratch/differs") wrong"
[[ ! -s $scratch/differs ]]
