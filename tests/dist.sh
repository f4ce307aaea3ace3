#!/usr/bin/env bash
# Builds the release by release/dist.sh, unpacks it in an empty folder, and uses it there without
# the kit on the PATH:
# - tests/exports.c calls each export of the archive, at both levels, and of the shared object;
# - keys.c is built with pkg-config and with CMake, with the archive and with the shared object, from the
#   unpacked release, and after install.sh installed it with the library in lib, lib64 and
#   lib/x86_64-linux-gnu, and below DESTDIR;
# - the other examples, cesu8_damage, what the pages show, a file of C++ and a call from Python are run;
# - tests/sizes.sh compares the size of the library and the stack of its calls with their lines.
#
# For aarch64 it only tests the pages of the release; tests/aarch64.sh tests the rest.
#
# It also tests that two builds, in folders with different names, produce the same bytes of every file;
# the hashes; which files there are, and that the pages name no others; what the archive and the shared
# object export, how they are aligned and for which processors they are marked; that a program contains only
# those parts of the archive that it calls; what install.sh rejects and prints, and that uninstall.sh leaves
# nothing; that the man pages and the completion have the commands and the calls; and that no file contains
# a path of this machine. It builds a commit of a copy of the tree, with what is proved here. In a clean
# clone that takes minutes.
#
# If pkg-config, CMake, c++, clang, rustc, python3, man or java is missing, it says what it skipped.
# If a tool that release/dist.sh needs is missing, it skips everything. The status is 0 if nothing is
# wrong. It needs the kit's `rt`, bash, awk, grep, sed, readelf and the core utilities.
unset "${!GIT_@}"
# shellcheck source=tests/lib.sh
source "$(dirname "${BASH_SOURCE[0]}")/lib.sh" || exit 2
# shellcheck source=tests/kit.sh
source "$top/tests/kit.sh" || exit 2
crate=$top/crates/cesu8_c
kit=$(dirname "$(dirname "$(readlink -f "$(command -v rt)")")")
identity=$(rt version) || exit 2

version=$(<"$top/VERSION")
major=${version%%.*}
name=cesu8-$version-x86_64-linux
unpacked=$scratch/empty/$name
shared=lib/libcesu8.so.$major

# shellcheck source=tests/c_library.sh
source "$top/tests/c_library.sh" || exit 2
# shellcheck source=tests/callers.sh
source "$top/tests/callers.sh" || exit 2
# shellcheck source=tests/installed.sh
source "$top/tests/installed.sh" || exit 2
# shellcheck source=tests/shown.sh
source "$top/tests/shown.sh" || exit 2
# shellcheck source=tests/run_examples.sh
source "$top/tests/run_examples.sh" || exit 2

# Copies the tree, with what is proved here, to a repository with one commit: `copy_tree FOLDER`.
copy_tree() {
    local library
    if [[ ! -f $crate/out/libcesu8_c.a ]]; then
        (cd "$crate" && quietly rt lib ${PROOF_JOBS:+--jobs "$PROOF_JOBS"}) || exit 2
    fi
    mkdir "$1" || exit 2
    tar c -C "$top" --exclude=./.git --exclude=./dist --exclude=out . | tar x -C "$1" || exit 2
    for library in cesu8_text cesu8_bytes cesu8_encode cesu8_decode simd_cesu8 java_text cesu8_stream; do
        mkdir "$1/crates/$library/out" || exit 2
        cp -R "$top/crates/$library/out/rlib" "$1/crates/$library/out" || exit 2
    done
    cp -R "$crate/out" "$1/crates/cesu8_c" || exit 2
    (cd "$1" && git init -q . && git add . && git -c user.name=test -c user.email=test@example.org \
        -c commit.gpgsign=false -c core.hooksPath=/dev/null commit -q -m 'Release') || exit 2
}

# Names the files of the archive that differ.
name_differences() {
    local build
    for build in first second; do
        mkdir "$scratch/files_of_$build"
        tar xzf "$scratch/$build/$name.tar.gz" -C "$scratch/files_of_$build"
    done
    diff -r "$scratch/files_of_first" "$scratch/files_of_second"
    diff <(tar tvzf "$scratch/first/$name.tar.gz") <(tar tvzf "$scratch/second/$name.tar.gz")
}

# Builds twice, in folders with different names. `cesu8_cli` is built once.
build_twice() {
    build
    export PROVED_PROGRAM=$program
    copy_tree "$scratch/tree"
    commit=$(git -C "$scratch/tree" rev-parse HEAD) || exit 2
    quietly bash "$scratch/tree/release/dist.sh" "$scratch/first" || exit 1
    mv "$scratch/tree" "$scratch/a_tree_of_another_name" || exit 2
    quietly bash "$scratch/a_tree_of_another_name/release/dist.sh" "$scratch/second" || exit 1
    if ! diff -r "$scratch/first" "$scratch/second"; then
        wrong 'two builds differ'
        name_differences
    fi
    (cd "$scratch/first" && quietly sha256sum -c SHA256SUMS) || wrong 'the sums do not fit'
    diff <(cd "$scratch/first" && find . -type f ! -name SHA256SUMS -printf '%P\n' | sort) \
        <(sed 's/^[0-9a-f]*  //' "$scratch/first/SHA256SUMS" | sort) ||
        wrong 'SHA256SUMS has other files than there are'
}

# Tests the usage that dist.sh prints.
look_at_usage() {
    local word
    [[ $(bash "$scratch/a_tree_of_another_name/release/dist.sh" --help) == 'usage: dist.sh FOLDER' ]] ||
        wrong 'dist.sh does not say how it is called'
    for word in '' -x --version; do
        [[ $(bash "$scratch/a_tree_of_another_name/release/dist.sh" "$word" 2>&1; echo $?) == \
            'usage: dist.sh FOLDER'$'\n2' ]] || wrong "dist.sh takes: $word"
    done
}

# The PATH without the folders of the kit.
path_without_kit() {
    local folder path=''
    while read -r -d : folder; do
        [[ -x $folder/rt || -x $folder/rattle ]] || path+=:$folder
    done <<<"$PATH:"
    echo "${path#:}"
}

look_at_files() {
    local wanted=(BUILT-FROM C.md CHANGELOG.md LICENSE-APACHE LICENSE-MIT
        LICENSE-simdutf8 PROGRAM.md README.md SECURITY.md bin/cesu8_cli
        bin/cesu8conv
        examples/cesu8_damage.c examples/class_constants.c examples/decode_pipe.c
        examples/java_strings.sh examples/java_units.c examples/keys.c examples/keys.rs
        include/cesu8.h install.sh
        lib/cmake/cesu8/cesu8-config-version.cmake lib/cmake/cesu8/cesu8-config.cmake
        lib/libcesu8.a lib/libcesu8.so "$shared" lib/pkgconfig/cesu8.pc
        share/bash-completion/completions/cesu8_cli share/bash-completion/completions/cesu8conv
        share/man/man1/cesu8_cli.1 share/man/man1/cesu8conv.1 share/man/man3/cesu8.3 uninstall.sh)
    # The man pages of single calls are left out, since look_at_call_pages tests them.
    (cd "$unpacked" && find . ! -type d ! -name 'cesu8_*.3' -printf '%P\n' | sort) >"$scratch/files"
    diff <(printf '%s\n' "${wanted[@]}") "$scratch/files" || wrong 'the release has other files'
    [[ $(readlink "$unpacked/lib/libcesu8.so") == "libcesu8.so.$major" ]] ||
        wrong 'the link has another aim'
    grep -qx "commit $commit" "$unpacked/BUILT-FROM" || wrong 'BUILT-FROM has another commit'
    grep -qx "kit $identity" "$unpacked/BUILT-FROM" || wrong 'BUILT-FROM has another kit'
    grep -rlF -e "$scratch/" -e "$top/" -e "${program%/*}/" -e "$kit/" "$unpacked" &&
        wrong 'these name a folder of this machine'
    grep -rlI '@[A-Z][A-Z]*@' "$unpacked" && wrong 'these are not filled in'
}

# The README names each file, and no page names a file or a page that is not there. dist.sh
# removes links, and the sentences with links to pages that are not there. So there must be no link
# and no section without text.
look_at_pages() {
    local file page
    while read -r file; do
        grep -qF "\`$file\`" "$unpacked/README.md" || wrong "the README does not name $file"
    done < <(grep -v '^README.md$' "$scratch/files")
    # The last grep leaves out two scripts of the repository, and a folder that is only an example.
    # shellcheck disable=SC2016
    while read -r file; do
        grep -qx "$file" "$scratch/files" || wrong "a page names $file, which is not there"
    done < <(cd "$unpacked" && grep -ohE '`[^` ]*`' ./*.md | tr -d '`' |
        grep -E '^(bin|examples|include|lib|share)/|\.(md|sh)$' |
        grep -vxE '(release/)?(dist|vendor)\.sh|lib/x86_64-linux-gnu' | sort -u)
    for page in "$top"/*.md "$top"/docs/*.md; do
        page=${page##*/}
        [[ -f $unpacked/$page ]] || ! grep -rnIw "${page%.md}" "$unpacked" ||
            wrong "these name the page $page, which is not there"
    done
    grep -n ']([^)]*)' "$unpacked"/*.md && wrong 'these are links'
    awk '
        /^#/ && after { print FILENAME ": " $0; found = 1 }
        NF { after = /^## / }
        END { exit !found }
    ' "$unpacked"/*.md && wrong 'nothing stands before these headings'
}

# Tests the pages of the release for aarch64, if there is one.
look_at_cross_pages() {
    local cross=cesu8-$version-aarch64-linux unpacked=$scratch/empty/cesu8-$version-aarch64-linux
    if [[ ! -f $scratch/first/$cross.tar.gz ]]; then
        echo "dist.sh has left out the release for aarch64: its pages skipped"
        return
    fi
    tar xzf "$scratch/first/$cross.tar.gz" -C "$scratch/empty" || exit 1
    (cd "$unpacked" && find . ! -type d ! -name 'cesu8_*.3' -printf '%P\n' | sort) >"$scratch/files"
    look_at_pages
}

# Tests the symbols of the archive: it defines its calls, and needs only functions that copy, set
# and compare bytes, and for the chooser what the compiler's runtime knows of the processor.
look_at_archive() {
    local archive=$unpacked/lib/libcesu8.a asked
    diff <({ exports | sed 's/.*/&\n&_v2\n&_v3/'; plain_calls; } | sed 's/^/T cesu8_/' | sort) \
        <(nm -g --defined-only "$archive" 2>/dev/null | awk 'NF == 3 { print $2, $3 }' | sort) ||
        wrong 'the archive shows other names'
    asked=$(nm -u "$archive" 2>/dev/null | awk 'NF == 2 { print $2 }' | sort -u |
        grep -vxE 'mem(cpy|move|set|cmp)|__cpu_(model|features2)|_GLOBAL_OFFSET_TABLE_|cesu8_.*_v[23]')
    [[ -z $asked ]] || wrong "the archive asks for other names: $asked"
    readelf -SW "$archive" 2>/dev/null | grep -F ' .debug' && wrong 'the archive is not stripped'
    readelf -SW "$archive" 2>/dev/null | are_aligned || wrong 'these parts of the archive are aligned otherwise'
}

# Calls each export of the code for x86-64-v2 too, which a processor with x86-64-v3 would never run.
call_lower_level() {
    local objects=$scratch/objects
    mkdir "$objects" && (cd "$objects" && ar x "$unpacked/lib/libcesu8.a" && rm chooser.o) || exit 2
    call_exports -DARCHIVE '-D__builtin_cpu_supports(level)=0' "$crate/chooser.c" "$objects"/*.o
}

look_at_shared() {
    local file=$unpacked/$shared
    diff <(mapped | sed 's/^/T /' | sort) \
        <(nm -D --defined-only "$file" | awk '$2 != "A" { print $2, $3 }' | sort) ||
        wrong 'the shared object shows other names than the version map'
    nm -D --defined-only "$file" | grep -E '([13579bdf]0|[^0]) T ' &&
        wrong 'these functions of the shared object begin elsewhere than at multiples of 32 bytes'
    objdump -p "$file" | grep -q "SONAME *libcesu8.so.$major\$" ||
        wrong 'the shared object has another name'
    readelf -nW "$file" | grep -q 'x86 ISA needed: x86-64-v2$' ||
        wrong 'the shared object is not marked as x86-64-v2'
    readelf -lW "$file" | grep -q 'GNU_STACK .* RW ' ||
        wrong 'the shared object wants a stack that can be run'
    readelf -dW "$file" | grep -q 'FLAGS.*BIND_NOW' ||
        wrong 'the shared object binds its names late'
    for file in "$file" "$unpacked/bin"/*; do
        readelf -SW "$file" | grep -E ' \.(symtab|debug)' && wrong "$file is not stripped"
    done
}

# Tests that a program with one call, linked with --gc-sections, contains no other call, and is less
# than an eighth as large as the archive.
look_at_sections() {
    local program=$scratch/one_call
    printf '%s\n' '#include <cesu8.h>' 'int main(void) {' \
        '    return (int)cesu8_utf16_len(0, 0).status;' '}' >"$program.c"
    quietly cc -I "$unpacked/include" -o "$program" "$program.c" "$unpacked/lib/libcesu8.a" \
        -Wl,--gc-sections || { wrong 'a program with one call does not build'; return; }
    "$program" || wrong 'a program with one call fails'
    diff <(printf 'cesu8_utf16_len%s\n' '' _v2 _v3) \
        <(nm --defined-only "$program" | sed -n 's/.* T \(cesu8_\)/\1/p' | sort) ||
        wrong 'a program with one call has others'
    (($(stat -c %s "$program") * 8 < $(stat -c %s "$unpacked/lib/libcesu8.a"))) ||
        wrong 'a program with one call is long'
}

# Tests that the loader reads the mark: it rejects a copy that is marked for a level that no processor has,
# with an error message and without a signal.
look_at_mark() {
    local copy=$scratch/marked/libcesu8.so.$major place status=0
    if ! printf 'glibc 2.33\n%s\n' "$(getconf GNU_LIBC_VERSION)" | sort -CV; then
        echo 'the C library is older than 2.33: the refusal of the shared object skipped'
        return
    fi
    place=$(readelf -SW "$unpacked/$shared" |
        sed -n 's/.* \.note\.gnu\.property *NOTE *[0-9a-f]* *\([0-9a-f]*\) .*/\1/p')
    mkdir "$scratch/marked" && cp "$unpacked/$shared" "$copy" || exit 2
    # The section has the header of a note, of 16 bytes, the type and length of the property, of 8, and its
    # 32 bits, of which this sets the highest.
    printf '\200' | dd of="$copy" bs=1 seek=$((0x$place + 27)) conv=notrunc 2>"$scratch/said"
    quietly cc -o "$scratch/example" -I "$unpacked/include" "$unpacked/examples/keys.c" \
        "$unpacked/$shared" || wrong 'keys.c does not build'
    LD_LIBRARY_PATH=$scratch/marked "$scratch/example" >"$scratch/said" 2>&1 || status=$?
    if ((status < 128)) && grep -q 'CPU ISA level is lower than required' "$scratch/said"; then
        echo 'the loader refused what is marked for another processor'
    else
        cat "$scratch/said"
        wrong "the loader does not refuse what is marked for another processor: status $status"
    fi
}

in_rust() {
    if quietly rustc --edition 2024 -D warnings -o "$scratch/example" "$unpacked/examples/keys.rs" \
        -L "native=$unpacked/lib" -l static=cesu8; then
        example "$scratch/example" keys.rs
    else
        wrong 'keys.rs does not build'
    fi
}

in_python() {
    cat >"$scratch/encode.py" <<'PYTHON'
import ctypes
import sys


class Answer(ctypes.Structure):
    _fields_ = [("status", ctypes.c_uint32), ("length", ctypes.c_size_t)]


encode = ctypes.CDLL(sys.argv[1]).cesu8_encode
encode.argtypes = [ctypes.c_char_p, ctypes.c_size_t, ctypes.c_char_p, ctypes.c_size_t]
encode.restype = Answer

text = "a\U0001F496".encode()
buffer = ctypes.create_string_buffer(2 * len(text))
answer = encode(text, len(text), buffer, len(buffer))
print(answer.status, buffer.raw[:answer.length].hex())
PYTHON
    if [[ $(python3 "$scratch/encode.py" "$unpacked/$shared") == '0 61eda0bdedb296' ]]; then
        echo 'the shared object was called from Python'
    else
        wrong 'Python gets something else'
    fi
}

for tool in git cc ar ld nm objcopy objdump readelf strip tar gzip; do
    if ! command -v "$tool" >/dev/null; then
        echo "$tool is missing: the release skipped"
        exit 0
    fi
done
can_build_c 'the release' || exit 0
build_twice
look_at_usage
# Leaves the release in the folder that RELEASE names, for the scripts that test more of it.
[[ -z ${RELEASE-} ]] || cp -R "$scratch/first" "$RELEASE" || exit 2

PATH=$(path_without_kit)
command -v rt rattle && wrong 'the kit is on the path'
mkdir "$scratch/empty" "$scratch/shown" || exit 2
tar xzf "$scratch/first/$name.tar.gz" -C "$scratch/empty" || exit 1
look_at_files
look_at_pages
look_at_cross_pages
look_at_archive
look_at_sections
RELEASE=$scratch/first bash "$top/tests/sizes.sh" || wrong 'the library has other sizes'
look_at_shared
look_at_mark
call_exports -DARCHIVE "$unpacked/lib/libcesu8.a"
call_lower_level
call_exports -DARCHIVE "$unpacked/$shared" -Wl,-rpath,"$unpacked/lib"
has_pkg_config='' has_cmake=''
if can_build 'keys.c by pkg-config' pkg-config --version; then
    has_pkg_config=yes
    by_pkg_config "$unpacked/lib" 'keys.c by pkg-config'
fi
if can_build_by_cmake 'keys.c by CMake'; then
    has_cmake=yes
    by_cmake 'keys.c by CMake' "-DCMAKE_PREFIX_PATH=$unpacked"
    by_toolchain
    look_at_versions
fi
if can_build_cpp 'the file of C++'; then
    in_cpp "$unpacked"
fi
if can_build_rust keys.rs; then
    in_rust
fi
if can_build 'the call from Python' python3 -c 'import ctypes'; then
    in_python
fi
run_program "$unpacked"
shown_lines "$unpacked/README.md"
shown_c
shown_in_page
shown_commands
in_memory_sanitizer
shown_in_program_page
in_class_file
if cc -std=c99 -O2 -Wall -Wextra -Werror -I "$unpacked/include" -o "$scratch/cesu8_damage" \
    "$unpacked/examples/cesu8_damage.c" "$unpacked/lib/libcesu8.a"; then
    in_damaged_file "$scratch/cesu8_damage"
else
    wrong 'cesu8_damage.c does not build'
fi
in_java_file
in_java_units
in_decode_pipe
look_at_words
look_at_call_pages
look_at_refusals
install_to lib ''
install_to lib64 lib64/
install_to lib/x86_64-linux-gnu PREFIX/lib/x86_64-linux-gnu
install_beside
install_twice
install_half
install_below
((failed == 0))
