# The names of the library for C, and a program that calls them all. A script sources this file
# after tests/lib.sh, and first sets `crate`, the folder of the library.
# shellcheck shell=bash disable=SC2154

# Prints the functions that the crate exports, without the `cesu8_` at the start of each name.
exports() {
    sed -n 's/^pub extern "C" fn cesu8_\([a-z0-9_]*\).*/\1/p' "$crate"/src/*.rt
}

# Prints the functions of plain.c, which the archive has too, also without `cesu8_`.
plain_calls() {
    sed -n 's/^[a-z].*cesu8_\([a-z0-9_]*\)(.*)$/\1/p' "$crate/plain.c"
}

# Prints the full names of the version map, each with its node: NAME@@NODE.
mapped() {
    awk '
        /^CESU8_[0-9.]+ \{$/ { node = $1 }
        /^    cesu8_[a-z0-9_]+;$/ { print substr($1, 1, length($1) - 1) "@@" node }
    ' "$top/release/package/cesu8.map"
}

# Tests that functions begin at multiples of 32 bytes and tables at multiples of 16, from the
# sections that readelf prints. It prints those that do not.
are_aligned() {
    awk '/ \.text\./ && $NF != 32 || / \.rodata\.\./ && $NF != 16 { print; found = 1 } END { exit found }'
}

# Builds tests/exports.c with a library, and runs it: `call_exports FLAG..`. One of the flags is the
# library.
call_exports() {
    if ! quietly "$c_compiler" -std=c11 -O1 -Wall -Wextra -Werror -I "$crate/include" \
        -o "$scratch/exports" "$top/tests/exports.c" "$@"; then
        wrong 'tests/exports.c does not build'
        return
    fi
    "${emulator[@]}" "$scratch/exports" || wrong 'tests/exports.c found the errors above'
}
