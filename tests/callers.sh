# Callers of the library for C and of the program, for the scripts that use a release. A script
# sources this file after tests/lib.sh, and first sets `version`, `major` and `crate`, the folder of
# the library.
# shellcheck shell=bash disable=SC2154

# Runs a built example, and compares what it prints: `example FILE WHAT`.
example() {
    if "${emulator[@]}" "$1" 2>&1 | diff - "$crate/examples/keys.stdout"; then
        echo "$2 was built and run"
    else
        wrong "$2 does not print examples/keys.stdout"
    fi
}

# Whether a program needs the shared object: `wants_shared PROGRAM`.
wants_shared() {
    objdump -p "$1" | grep -q "NEEDED *libcesu8.so.$major\$"
}

# Builds keys.c with these flags of the compiler, and runs it: `by_flags WHAT FLAG..`.
by_flags() {
    local what=$1
    shift
    rm -f "$scratch/example"
    if quietly "$c_compiler" -std=c11 -Wall -Wextra -Wconversion -Werror -o "$scratch/example" \
        "$crate/examples/keys.c" "$@"; then
        example "$scratch/example" "$what"
    else
        wrong "$what does not build"
    fi
}

# Builds keys.c with the flags of pkg-config, as in C.md, with the shared object and without it:
# `by_both WHAT FLAG..`. The FLAGs are needed for the loader to find the shared object.
by_both() {
    local what=$1 cflags libs folders
    shift
    # pkg-config escapes some characters of a path with a backslash.
    eval "cflags=($(pkg-config --cflags cesu8))"
    eval "libs=($(pkg-config --libs cesu8))"
    eval "folders=($(pkg-config --libs-only-L cesu8))"
    by_flags "$what" "${cflags[@]}" "${libs[@]}" "$@"
    wants_shared "$scratch/example" || wrong "$what: the shared object is not linked"
    by_flags "$what, static," "${cflags[@]}" "${folders[@]}" -l:libcesu8.a
    ! wants_shared "$scratch/example" || wrong "$what: the static library is not linked"
}

# Whether CMake can build C. If not, WHAT is skipped: `can_build_by_cmake WHAT FLAG..`.
can_build_by_cmake() {
    local folder=$scratch/probe_cmake what=$1
    shift
    rm -rf "$folder"
    mkdir "$folder" && echo 'project(probe C)' >"$folder/CMakeLists.txt" || exit 2
    can_build "$what" cmake -S "$folder" -B "$folder/build" "$@"
}

# Builds keys.c with CMake: `by_cmake WHAT FLAG..`. The FLAGs are needed for CMake to find the library.
by_cmake() {
    local folder=$scratch/cmake what=$1
    shift
    rm -rf "$folder"
    mkdir "$folder" && cp "$crate/examples/keys.c" "$folder" || exit 2
    cat >"$folder/CMakeLists.txt" <<CMAKE
cmake_minimum_required(VERSION 3.13)
project(keys C)
find_package(cesu8 $version REQUIRED)
add_executable(by_archive keys.c)
target_link_libraries(by_archive PRIVATE cesu8::cesu8)
add_executable(by_shared keys.c)
target_link_libraries(by_shared PRIVATE cesu8::shared)
CMAKE
    if ! quietly cmake -S "$folder" -B "$folder/build" "$@" ||
        ! quietly cmake --build "$folder/build"; then
        wrong "$what does not build"
        return
    fi
    ! wants_shared "$folder/build/by_archive" || wrong "$what: the static library is not linked"
    wants_shared "$folder/build/by_shared" || wrong "$what: the shared object is not linked"
    example "$folder/build/by_archive" "$what, static,"
    example "$folder/build/by_shared" "$what"
}

# Builds a C++ file with the static library, and runs it: `in_cpp RELEASE`.
in_cpp() {
    cat >"$scratch/encode.cpp" <<'CPP'
#include "cesu8.h"

#include <cstdio>
#include <cstring>

int main()
{
    const uint8_t text[] = {0xF0, 0x9F, 0x92, 0x96};
    const uint8_t wanted[] = {0xED, 0xA0, 0xBD, 0xED, 0xB2, 0x96};
    uint8_t buffer[sizeof wanted];
    cesu8_answer answer = cesu8_encode(text, sizeof text, buffer, sizeof buffer);
    if (answer.status != CESU8_OK || answer.length != sizeof wanted)
        return 1;
    if (std::memcmp(buffer, wanted, sizeof wanted) != 0)
        return 1;
    std::printf("%s\n", CESU8_VERSION_STRING);
}
CPP
    if ! quietly "$cpp_compiler" -std=c++11 -Wall -Wextra -Werror -pedantic -I "$1/include" \
        -o "$scratch/encode" "$scratch/encode.cpp" "$1/lib/libcesu8.a"; then
        wrong 'the C++ file does not build'
    elif [[ $("${emulator[@]}" "$scratch/encode") == "$version" ]]; then
        echo 'a C++ file was built and run'
    else
        wrong 'the C++ file prints something else'
    fi
}

# Runs the program: `run_program FOLDER`.
run_program() {
    if [[ $(printf 'a\0' | "$1/bin/cesu8_cli" encode mutf8 | od -An -tx1) == ' 61 c0 80' ]]; then
        echo 'the program was run'
    else
        wrong 'the program writes something else'
    fi
}
