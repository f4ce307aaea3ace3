#!/usr/bin/env bash
# Tests the library for C, crates/cesu8_c, in these steps:
# 1. It compares the names of the exports with those of the header, the chooser, the version map, the
#    rows of tests/exports.c and tests/digest.c.
# 2. It compiles tests/header.c, which uses everything that the header declares, in each standard of C and
#    of C++ and with most warnings of each compiler, and tests that the header's attributes give warnings.
# 3. It tests the chooser with stubs for the code of the levels.
# 4. It builds the static library for one level, and links and runs tests/exports.c with it, which
#    calls each export.
# tests/dist.sh builds the release, does the last step with its archive and its shared object, and
# builds and runs all callers.
#
# If there is no C or C++ compiler or no clang, it says what it skipped. The status is 0 if nothing is
# wrong. In a clean clone it first proves the libraries, with as many jobs as PROOF_JOBS says, or else
# as `rt` chooses.
#
# It needs the kit's `rt`, bash, awk, grep, sed and the core utilities, and the compilers `cc`, `c++`,
# `clang` and `clang++` for what they compile.
# shellcheck source=tests/lib.sh
source "$(dirname "${BASH_SOURCE[0]}")/lib.sh" || exit 2
# shellcheck source=tests/kit.sh
source "$top/tests/kit.sh" || exit 2
crate=$top/crates/cesu8_c
header=$crate/include/cesu8.h
# shellcheck source=tests/c_library.sh
source "$top/tests/c_library.sh" || exit 2

# Compares two lists of names, the expected one first: `same_names WHAT`.
same_names() {
    diff "$scratch/wanted" "$scratch/found" || wrong "$1 has other names"
}

# Tests that the rows of tests/exports.c and tests/digest.c, the header, the chooser and the version map
# have every call.
all_are_named() {
    exports | sort >"$scratch/wanted"
    sed -n 's/^    {CALL(\([a-z0-9_]*\)).*/\1/p' "$top/tests/exports.c" | sort -u >"$scratch/found"
    same_names 'the table of tests/exports.c'
    grep -oE '(struct )?cesu8_[a-z0-9_]+' "$top/tests/digest.c" | sed -n 's/^cesu8_//p' |
        sort -u >"$scratch/found"
    same_names tests/digest.c
    sed -n 's/^CHOOSE_.*, cesu8_\([a-z0-9_]*\))$/\1/p' "$crate/chooser.c" | sort >"$scratch/found"
    same_names chooser.c
    { exports; plain_calls; } | sort >"$scratch/wanted"
    sed 's/ *\/\/.*//' "$header" | grep -o 'cesu8_[a-z0-9_]*(' | sed 's/^cesu8_//; s/($//' |
        sort >"$scratch/found"
    same_names cesu8.h
    mapped | sed 's/^cesu8_//; s/@@.*//' | sort >"$scratch/found"
    same_names 'the version map'
}

# Compiles tests/header.c in these standards: `compile_header COMPILER LANGUAGE STANDARDS FLAG..`.
compile_header() {
    local compiler=$1 language=$2 standards=$3 standard
    shift 3
    for standard in $standards; do
        quietly "$compiler" -x "$language" "-std=$standard" -O2 -pedantic -Werror "$@" \
            -I "$crate/include" -S -o /dev/null "$top/tests/header.c" ||
            wrong "$compiler warns of tests/header.c as $standard"
    done
}

# Tests that `cc` warns about these faults in tests/header.c, if it knows the attribute for them:
# `warns_by ATTRIBUTE FAULT..`.
warns_by() {
    local attribute=$1 fault
    shift
    printf '#if !__has_attribute(%s)\n#error unknown\n#endif\nint none;\n' "$attribute" \
        >"$scratch/known.c"
    if ! cc -fsyntax-only "$scratch/known.c" 2>"$scratch/said"; then
        echo "cc does not know the attribute $attribute: its warnings skipped"
        return
    fi
    for fault in "$@"; do
        cc -std=c11 -O2 -Wall -Wextra -Werror "-DWRONG=$fault" -I "$crate/include" \
            -S -o /dev/null "$top/tests/header.c" 2>"$scratch/said" &&
            wrong "cc does not warn of fault $fault of tests/header.c"
    done
}

# Builds the chooser twice: unmodified, and so that it asks a function of the test for the processor's
# level.
run_chooser() {
    local flags=(-std=c11 -O2 -Wall -Wextra -Werror -I "$crate/include" -I "$crate")
    printf 'int made_up_supports(const char *level);\n#include "chooser.c"\n' >"$scratch/made_up.c"
    if quietly cc "${flags[@]}" -D__builtin_cpu_supports=made_up_supports \
        -o "$scratch/chooser" "$scratch/made_up.c" "$top/tests/chooser.c" &&
        quietly cc "${flags[@]}" -DBEFORE_MAIN \
            -o "$scratch/before_main" "$crate/chooser.c" "$top/tests/chooser.c"; then
        "$scratch/chooser" || wrong 'tests/chooser.c ends so'
        "$scratch/before_main" || wrong 'tests/chooser.c ends so before main'
    else
        wrong 'tests/chooser.c does not build'
    fi
}

# Builds the library for the lower level, which remains in out/ for tests/dist.sh.
build_library() {
    echo 'building the static library'
    if ! (cd "$crate" && quietly rt lib ${PROOF_JOBS:+--jobs "$PROOF_JOBS"}); then
        echo 'the static library was not built' >&2
        exit 2
    fi
}

all_are_named
if can_build_c 'the header in C, the chooser and the calls from C'; then
    compile_header cc c 'c99 c11 c17 c2x' -Wall -Wextra -Wconversion
    warns_by warn_unused_result 1 2 8
    warns_by access 3 4 5 6 7 9
    run_chooser
fi
if can_build_cpp 'the header in C++'; then
    compile_header c++ c++ 'c++11 c++14 c++17 c++20' -Wall -Wextra -Wconversion -Wold-style-cast
fi
if can_build 'the header in C by clang' clang -fsyntax-only "$scratch/probe.c"; then
    compile_header clang c 'c99 c11 c17 c2x' -Weverything -Wno-padded
fi
if can_build 'the header in C++ by clang' clang++ -fsyntax-only "$scratch/probe.cpp"; then
    compile_header clang++ c++ 'c++11 c++14 c++17 c++20' -Weverything -Wno-padded
fi
build_library
if can_build_c 'the calls from C'; then
    call_exports "$crate/out/libcesu8_c.a"
fi
((failed == 0))
