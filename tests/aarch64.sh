#!/usr/bin/env bash
# Uses the release for aarch64, with a compiler for it and in an emulator:
# - the release has the right files, and the archive and the shared object define, require and align
#   what they should;
# - tests/exports.c calls each export of the archive and of the shared object;
# - keys.c is built with pkg-config and with CMake, as C.md says; the other examples, cesu8_damage
#   and a C++ file are built and run;
# - tests/digest.c prints the same as on this processor.
# tests/packages.sh and tests/wheel.sh test the packages and the wheel for aarch64.
#
# RELEASE names the folder that release/dist.sh has filled; if it is not set, this script runs
# dist.sh. If a tool that tests/cross.sh names is missing, it says that it skipped everything. If
# pkg-config, CMake, java or a C++ compiler is missing, it says what it skipped. The status is 0 if
# nothing is wrong. It needs what tests/release.sh needs.
# shellcheck source=tests/lib.sh
source "$(dirname "${BASH_SOURCE[0]}")/lib.sh" || exit 2
crate=$top/crates/cesu8_c
# shellcheck source=tests/release.sh
source "$top/tests/release.sh" || exit 2
# shellcheck source=tests/c_library.sh
source "$top/tests/c_library.sh" || exit 2
# shellcheck source=tests/callers.sh
source "$top/tests/callers.sh" || exit 2
# shellcheck source=tests/shown.sh
source "$top/tests/shown.sh" || exit 2
# shellcheck source=tests/run_examples.sh
source "$top/tests/run_examples.sh" || exit 2

# The release for aarch64 has the files of the one for x86-64, without the programs and what belongs
# to them. Only the library and two files that name the processor have other contents.
look_at_files() {
    local file others='^lib/libcesu8\.(a|so\..*)$|^README.md$|/cesu8-config-version.cmake$'
    diff <(cd "$native" && find . ! -type d -printf '%P %M\n' | sort |
        grep -vE '^(bin/|share/man/man1/|share/bash-completion/|PROGRAM.md |examples/.*\.sh )') \
        <(cd "$unpacked" && find . ! -type d -printf '%P %M\n' | sort) ||
        wrong 'the release for aarch64 has different files'
    while read -r file; do
        cmp "$native/$file" "$unpacked/$file" || wrong "$file differs from that for x86-64"
    done < <(cd "$unpacked" && find . -type f -printf '%P\n' | grep -vE "$others")
    grep -rlF -e "$scratch/" -e "$top/" "$unpacked" && wrong 'these name a folder of this machine'
    grep -rlI '@[A-Z][A-Z]*@' "$unpacked" && wrong 'these have unfilled placeholders'
    grep -nIE 'cesu8_cli|cesu8conv' "$unpacked"/{C,README,SECURITY}.md &&
        wrong 'these lines are about the programs'
}

# Tests which names the archive defines, and which it requires. Each export is a function of
# chooser.c that calls the code for ARMv8-A, the only level; that code has the same name with `_v8`
# after it. The archive requires nothing that depends on the processor's features.
look_at_archive() {
    local archive=$unpacked/lib/libcesu8.a asked
    diff <({ exports | sed 's/.*/&\n&_v8/'; plain_calls; } | sed 's/^/T cesu8_/' | sort) \
        <(cross nm -g --defined-only "$archive" 2>/dev/null | awk 'NF == 3 { print $2, $3 }' | sort) ||
        wrong 'the archive exports the wrong names'
    asked=$(cross nm -u "$archive" 2>/dev/null | awk 'NF == 2 { print $2 }' | sort -u |
        grep -vxE 'mem(cpy|move|set|cmp)|cesu8_.*_v8')
    [[ -z $asked ]] || wrong "the archive requires other names: $asked"
    cross readelf -SW "$archive" 2>/dev/null | grep -F ' .debug' && wrong 'the archive is not stripped'
    cross readelf -SW "$archive" 2>/dev/null | are_aligned ||
        wrong 'these parts of the archive have the wrong alignment'
}

look_at_shared() {
    local file=$unpacked/lib/libcesu8.so.$major dynamic needed
    diff <(mapped | sed 's/^/T /' | sort) \
        <(cross nm -D --defined-only "$file" | awk '$2 != "A" { print $2, $3 }' | sort) ||
        wrong 'the shared object exports other names than the version map'
    cross nm -D --defined-only "$file" | grep -E '([13579bdf]0|[^0]) T ' &&
        wrong 'these functions of the shared object do not begin at multiples of 32 bytes'
    dynamic=$(cross readelf -dW "$file")
    grep -q "SONAME.*\[libcesu8.so.$major\]" <<<"$dynamic" || wrong 'the shared object has the wrong name'
    grep -q 'FLAGS.*BIND_NOW' <<<"$dynamic" || wrong 'the shared object uses lazy binding'
    grep -q TEXTREL <<<"$dynamic" && wrong 'the loader would write to the code'
    grep NEEDED <<<"$dynamic" | grep -v '\[libc.so.6\]' && wrong 'the shared object needs more than libc'
    cross readelf -lW "$file" | grep -q 'GNU_STACK .* RW ' ||
        wrong 'the shared object needs an executable stack'
    cross readelf -SW "$file" | grep -E ' \.(symtab|debug)' && wrong 'the shared object is not stripped'
    needed=$(cross objdump -T "$file" | grep -o 'GLIBC_[0-9.]*' | sort -V | tail -n 1)
    grep -qx "aarch64 libcesu8.so.$major needs the GNU C library ${needed#GLIBC_}" "$unpacked/BUILT-FROM" ||
        wrong "BUILT-FROM does not say that the shared object needs $needed"
}

# Builds keys.c for aarch64 with the lines of C.md. The first three are a toolchain file for CMake.
by_the_page() {
    local lines
    lines=$(sed -n '/^    set(CMAKE_SYSTEM_NAME/,/^$/s/^    //p' "$unpacked/C.md")
    (($(grep -c . <<<"$lines") == 6)) || wrong 'C.md does not have six lines for another processor'
    grep '^set' <<<"$lines" | sed "s/aarch64-linux-gnu-gcc/${AARCH64_CC//\//\\/}/" >"$scratch/aarch64.cmake"
    if can_build_by_cmake 'keys.c by CMake for aarch64' "-DCMAKE_TOOLCHAIN_FILE=$scratch/aarch64.cmake"; then
        grep -qxF "cmake -DCMAKE_TOOLCHAIN_FILE=aarch64.cmake -DCMAKE_PREFIX_PATH=\$release -S . -B build" \
            <<<"$lines" || wrong 'C.md calls CMake differently'
        by_cmake 'keys.c by CMake for aarch64' "-DCMAKE_TOOLCHAIN_FILE=$scratch/aarch64.cmake" \
            "-DCMAKE_PREFIX_PATH=$unpacked"
        refuses_the_other "$native" "-DCMAKE_TOOLCHAIN_FILE=$scratch/aarch64.cmake"
        refuses_the_other "$unpacked"
    fi
    if can_build 'keys.c by pkg-config for aarch64' pkg-config --version; then
        grep -qxF "export PKG_CONFIG_LIBDIR=\"\$release/lib/pkgconfig\"" <<<"$lines" ||
            wrong 'C.md names the wrong folder for pkg-config'
        export PKG_CONFIG_LIBDIR=$unpacked/lib/pkgconfig
        by_both 'keys.c by pkg-config for aarch64' -Wl,-rpath,"$unpacked/lib"
        unset PKG_CONFIG_LIBDIR
    fi
}

# Tests that CMake finds no library for another processor: `refuses_the_other RELEASE FLAG..`.
refuses_the_other() {
    local folder=$scratch/other release=$1
    shift
    rm -rf "$folder"
    mkdir "$folder" && printf '%s\n' 'project(other C)' "find_package(cesu8 $version QUIET)" \
        'if(cesu8_FOUND)' '    message(FATAL_ERROR found)' 'endif()' >"$folder/CMakeLists.txt" || exit 2
    quietly cmake -S "$folder" -B "$folder/build" "-DCMAKE_PREFIX_PATH=$release" "$@" ||
        wrong "CMake accepts the library in ${release##*/} for another processor"
}

# Compares what tests/digest.c prints here and on aarch64.
compare_answers() {
    local here there
    if ! quietly cc -std=c11 -O2 -Wall -Wextra -Werror -I "$native/include" -o "$scratch/digest" \
        "$top/tests/digest.c" "$native/lib/libcesu8.a" ||
        ! quietly "$c_compiler" -std=c11 -O2 -Wall -Wextra -Werror -I "$unpacked/include" \
            -o "$scratch/digest_aarch64" "$top/tests/digest.c" "$unpacked/lib/libcesu8.a"; then
        wrong 'tests/digest.c does not build'
        return
    fi
    here=$("$scratch/digest") || wrong 'tests/digest.c fails on x86-64'
    there=$("${emulator[@]}" "$scratch/digest_aarch64") || wrong 'tests/digest.c fails on aarch64'
    printf 'x86-64:  %s\naarch64: %s\n' "$here" "$there"
    [[ $here == "$there" ]] || wrong 'the results on aarch64 differ'
}

for_aarch64 'the release for aarch64' || exit 0
find_release 'the release for aarch64' || exit 0
native=$unpacked
unpacked=$scratch/unpacked/$cross_name
if ! tar xzf "$release/$cross_name.tar.gz" -C "$scratch/unpacked"; then
    wrong "the release has no $cross_name.tar.gz"
    exit 1
fi
look_at_files
look_at_archive
look_at_shared
mkdir "$scratch/shown" || exit 2
# With -DARCHIVE tests/exports.c also tests what only the archive and the shared object have.
call_exports -DARCHIVE "$unpacked/lib/libcesu8.a"
call_exports -DARCHIVE "$unpacked/lib/libcesu8.so.$major" -Wl,-rpath,"$unpacked/lib"
by_the_page
if can_build_cpp 'the C++ file for aarch64'; then
    in_cpp "$unpacked"
fi
shown_in_page
in_class_file
if compile -std=c99 -O2 -Wall -Wextra -Werror -I "$unpacked/include" -o "$scratch/cesu8_damage" \
    "$unpacked/examples/cesu8_damage.c" "$unpacked/lib/libcesu8.a"; then
    in_damaged_file "$scratch/cesu8_damage"
else
    wrong 'cesu8_damage.c does not build'
fi
in_java_units
in_decode_pipe
compare_answers
((failed == 0))
