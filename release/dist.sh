#!/usr/bin/env bash
# Builds the release, for users without the kit:
#   dist.sh FOLDER
# FOLDER gets cesu8-VERSION-x86_64-linux.tar.gz, with the library for C and the programs, and
# SHA256SUMS, with the hash of each file. The script first proves what is not yet proved. Two runs on
# one commit produce the same bytes, with the same kit and C compiler: names are sorted, times are the
# commit's, and owners are 0. BUILT-FROM in the archive says what it was built from and what it needs.
#
# If dpkg-deb is installed, FOLDER also gets the Debian packages, by packages.sh. If python3 is
# installed, it gets the Rust crates, by rust/pack.sh, and, if Python.h is too (Debian's python3-dev),
# the wheel, by python/wheel.py.
#
# If the tools that tests/cross.sh names are installed, FOLDER gets all of this for aarch64 too, except
# the programs: the kit has the C parts of programs only for x86-64.
#
# It needs the kit's `rt`, git, a C compiler `cc` with GNU ld 2.36 or later, ar, ld, nm, objcopy,
# objdump, strip, GNU tar, gzip, bash, awk, find, grep, sed and the core utilities.
set -euo pipefail
unset CDPATH
export LC_ALL=C
umask 022

usage='usage: dist.sh FOLDER'
if [[ $* == --help ]]; then
    echo "$usage"
    exit
fi
if (($# != 1)) || [[ -z $1 || $1 == -* ]]; then
    echo "$usage" >&2
    exit 2
fi
for tool in rt git cc ar ld nm objcopy objdump strip tar gzip; do
    if ! command -v "$tool" >/dev/null; then
        echo "dist.sh needs $tool on the PATH" >&2
        exit 2
    fi
done

mkdir -p "$1"
folder=$(cd "$1" && pwd)
top=$(cd "$(dirname "${BASH_SOURCE[0]}")/.." && pwd)
crate=$top/crates/cesu8_c
kit=$(dirname "$(dirname "$(readlink -f "$(command -v rt)")")")
version=$(<"$top/VERSION")
major=${version%%.*}
name=cesu8-$version-x86_64-linux
commit=$(git -C "$top" rev-parse HEAD)
seconds=$(git -C "$top" log -1 --format=%ct)
day=$(date -u -d "@$seconds" +%F)
# Sources that git does not track would be built in too.
changed=$(git --no-optional-locks -C "$top" status --porcelain --untracked-files=no
    git --no-optional-locks -C "$top" status --porcelain --untracked-files=normal -- crates)
changes=${changed:+, with changes that are not committed}
identity=$(rt version)
compiler=$(cc --version | sed -n 1p)
scratch=$(mktemp -d)
trap 'rm -rf "$scratch"' EXIT
release=$scratch/$name
# The files that FOLDER gets, by name.
made=("$name.tar.gz")
# For aarch64: the name of the archive, and the folder in which the library is built.
cross_name=cesu8-$version-aarch64-linux
cross_library=$scratch/aarch64
has_cross=''

# The first of these sets `program` and defines `build`, which builds it. The second defines
# `has_python_header`, and the third `can_cross` and what else is for aarch64.
# shellcheck source=tests/program.sh
source "$top/tests/program.sh"
# shellcheck source=tests/python_header.sh
source "$top/tests/python_header.sh"
# shellcheck source=tests/cross.sh
source "$top/tests/cross.sh"

# Copies a file to the release and replaces its placeholders, such as @VERSION@: `fill FILE TO`.
# `program_lines` is the sed script for the lines about the programs, and `others` are the processors
# that the library is not built for.
program_lines='/^@PROGRAM@$/d; /^@END@$/d'
others='aarch64|arm64|ARM64'
fill() {
    mkdir -p "$(dirname "$release/$2")"
    sed "s/@VERSION@/$version/g; s/@MAJOR@/$major/g; s/@DATE@/$day/g; s/@OTHERS@/$others/g
        $program_lines" "$top/release/package/$1" >"$release/$2"
}

# Links the static library in a folder as a shared object there: `link_shared FOLDER COMPILER FLAG..`.
# It exports only the calls of the header: neither the code for each level nor the functions that this
# code calls.
link_shared() {
    local folder=$1
    shift
    "$@" -shared -o "$folder/libcesu8.so.$major" -Wl,-soname,"libcesu8.so.$major" \
        -Xlinker --version-script="$top/release/package/cesu8.map" \
        -Wl,--no-undefined-version,--fatal-warnings \
        -Wl,-z,defs,-z,relro,-z,now,-z,noexecstack \
        -Wl,--whole-archive "$folder/libcesu8.a" -Wl,--no-whole-archive
    ln -s "libcesu8.so.$major" "$folder/libcesu8.so"
}

# Sets `conv` to the program for files and streams. It is built here unless the gate has proved it.
build_conv() {
    conv=${PROVED_CESU8CONV:-$top/crates/cesu8conv/out/cesu8conv}
    [[ -z ${PROVED_CESU8CONV-} ]] || return 0
    if ! (cd "$top/crates/cesu8conv" && rt run -- decode cesu8) </dev/null >"$scratch/build" 2>&1; then
        cat "$scratch/build" >&2
        echo 'cesu8conv was not built' >&2
        exit 2
    fi
}

# Writes the man page of the calls, made from the header's comments, and for each call a page that
# includes it.
write_call_pages() {
    local call folder=$release/share/man/man3
    mkdir -p "$folder"
    awk -v version="$version" -v day="$day" -f "$top/release/package/cesu8.3.awk" "$crate/include/cesu8.h" \
        >"$folder/cesu8.3"
    while read -r call; do
        echo '.so man3/cesu8.3' >"$folder/$call.3"
    done < <(sed -n 's/^    \(cesu8_[a-z0-9_]*\);$/\1/p' "$top/release/package/cesu8.map")
}

# The pages that are copied to the release, and the names in it to which their links can lead.
pages=(docs/C.md docs/PROGRAM.md CHANGELOG.md SECURITY.md)
there=" README.md cesu8.h ${pages[*]##*/} "

# Copies a page: `page FILE`. A sentence with a link to a page that is not in the release is dropped,
# and other links become their texts. The path of the program becomes that of an installed one.
page() {
    awk -v there="$there" '
        # Returns a sentence with the texts of its links, or nothing if it is dropped.
        function without_links(sentence,    link, target, text) {
            while (match(sentence, /\[[^]]*\]\([^)]*\)/)) {
                link = substr(sentence, RSTART + 1, RLENGTH - 2)
                text = target = link
                sub(/\]\(.*/, "", text)
                sub(/.*\]\(/, "", target)
                sub(/#.*/, "", target)
                sub(/.*\//, "", target)
                if (target != "" && !index(there, " " target " ")) return ""
                sentence = substr(sentence, 1, RSTART - 1) text substr(sentence, RSTART + RLENGTH)
            }
            return sentence
        }
        /^```/ { is_code = !is_code }
        { sub(/^program=crates\/.*/, "program=cesu8_cli      # in the unpacked archive: program=bin/cesu8_cli") }
        is_code || /^(    .*)?$/ { print; next }
        {
            rest = $0
            line = mark = ""
            if (match(rest, /^ *- /)) {
                mark = substr(rest, 1, RLENGTH)
                rest = substr(rest, RLENGTH + 1)
            }
            while (end = index(rest, ". ")) {
                line = line without_links(substr(rest, 1, end + 1))
                rest = substr(rest, end + 2)
            }
            line = line without_links(rest)
            sub(/ $/, "", line)
            if (line != "") print mark line
        }
    ' "$top/$1" | cat -s >"$release/${1##*/}"
}

# The newest version of the C library whose symbols a file names: `c_library FILE`.
c_library() {
    objdump -T "$1" | grep -o 'GLIBC_[0-9.]*' | sed 's/^GLIBC_//' | sort -Vu | tail -n 1
}

# Prints the lines of BUILT-FROM for a processor: `built_for PROCESSOR NEEDS COMPILER FILE..`. The
# FILEs are those that need the C library.
built_for() {
    local processor=$1 file
    echo "$processor needs $2"
    echo "$processor compiler $3"
    shift 3
    for file in "$@"; do
        echo "$processor ${file##*/} needs the GNU C library $(c_library "$file")"
    done
}

# Builds the library for aarch64, stripped.
build_cross() {
    mkdir "$cross_library"
    sh "$crate/archive.sh" --target aarch64-unknown-linux-gnu "$cross_library/libcesu8.a"
    "$AARCH64_OBJCOPY" -D --strip-unneeded "$cross_library/libcesu8.a"
    link_shared "$cross_library" "$AARCH64_CC"
    "$AARCH64_OBJCOPY" -D --strip-unneeded "$cross_library/libcesu8.so.$major"
    chmod 644 "$cross_library"/*
}

# Makes the archive of the release.
pack() {
    tar --create --format=ustar --sort=name --owner=0 --group=0 --numeric-owner \
        --mtime="@$seconds" -C "$scratch" "$name" |
        gzip -n -9 >"$folder/$name.tar.gz"
}

# Makes the release for aarch64 from that for x86-64: with another library and without the programs.
# `fill` and `pack` see its local variables in place of those for x86-64.
make_cross() {
    local release=$scratch/$cross_name name=$cross_name others='x86_64|amd64|AMD64'
    local program_lines='/^@PROGRAM@$/,/^@END@$/d'
    cp -R "$scratch/cesu8-$version-x86_64-linux" "$release"
    (cd "$release" && rm -r bin share/man/man1 share/bash-completion PROGRAM.md examples/*.sh lib/libcesu8.*)
    find "$release" -type d -empty -delete
    cp -P "$cross_library"/* "$release/lib"
    fill cesu8-config-version.cmake lib/cmake/cesu8/cesu8-config-version.cmake
    fill README.md README.md
    made+=("$name.tar.gz")
    pack
    make_more dpkg-deb 'the Debian packages for arm64' "$top/release/packages.sh"
    if [[ -n $(cross_python_header) ]]; then
        make_more python3 'the wheel for aarch64' "$top/python/wheel.py"
    else
        echo "Python.h for arm64 is missing in $AARCH64_ROOT: the wheel for aarch64 not built" >&2
    fi
}

# The build for aarch64 comes first, so that out/ holds the code for x86-64-v2 at the end, as `rt`
# builds it by default.
if missing=$(can_cross); then
    has_cross=yes
    build_cross
else
    echo "$missing: the release for aarch64 not built" >&2
fi
mkdir -p "$release/bin" "$release/include" "$release/lib" "$release/examples"
build
build_conv
cp "$program" "$release/bin/cesu8_cli"
cp "$conv" "$release/bin/cesu8conv"
sh "$crate/archive.sh" "$release/lib/libcesu8.a"
strip -D --strip-unneeded "$release/lib/libcesu8.a"
# The flag makes the loader reject the library on processors older than x86-64-v2.
link_shared "$release/lib" cc -Wl,-z,x86-64-v2
cp "$crate/include/cesu8.h" "$release/include"
strip -D --strip-unneeded "$release/bin"/* "$release/lib/libcesu8.so.$major"
cp "$crate/examples/"*.c "$crate/examples/"*.rs "$crate/examples/"*.sh "$release/examples"
fill cesu8.pc lib/pkgconfig/cesu8.pc
fill cesu8-config.cmake lib/cmake/cesu8/cesu8-config.cmake
fill cesu8-config-version.cmake lib/cmake/cesu8/cesu8-config-version.cmake
fill cesu8_cli.1 share/man/man1/cesu8_cli.1
fill cesu8conv.1 share/man/man1/cesu8conv.1
write_call_pages
fill cesu8_cli.bash share/bash-completion/completions/cesu8_cli
"$release/bin/cesu8conv" --help | awk -f "$top/release/package/cesu8conv.bash.awk" \
    >"$release/share/bash-completion/completions/cesu8conv"
fill install.sh install.sh
fill uninstall.sh uninstall.sh
fill README.md README.md
for file in "${pages[@]}"; do
    page "$file"
done
cp "$top/LICENSE-APACHE" "$top/LICENSE-MIT" "$release"
# The library contains code of the kit's crate simdutf8.
cp "$kit/rattle/simdutf8/LICENSE" "$release/LICENSE-simdutf8"
{
    printf '%s\n' "cesu8 $version" "commit $commit$changes" "kit $identity"
    built_for x86-64 'Linux on x86-64-v2 or later' "$compiler" "$release"/bin/* \
        "$release/lib/libcesu8.so.$major"
    [[ -z $has_cross ]] || built_for aarch64 Linux "$("$AARCH64_CC" --version | sed -n 1p)" \
        "$cross_library/libcesu8.so.$major"
} >"$release/BUILT-FROM"

find "$release" -type f -exec chmod 644 {} +
chmod 755 "$release/bin"/* "$release/"*install.sh "$release/examples/"*.sh
pack

# Makes another part of the release if its tool is installed: `make_more TOOL WHAT SCRIPT`. The script
# prints the names of the files that it makes.
make_more() {
    local names
    if ! command -v "$1" >/dev/null; then
        echo "$1 is missing: $2 not built" >&2
        return
    fi
    names=$(SOURCE_DATE_EPOCH=$seconds "$3" "$release" "$folder")
    mapfile -t -O "${#made[@]}" made <<<"$names"
}
make_more dpkg-deb 'the Debian packages' "$top/release/packages.sh"
make_more python3 'the Rust crates' "$top/rust/pack.sh"
if ! command -v python3 >/dev/null || has_python_header; then
    make_more python3 'the wheel' "$top/python/wheel.py"
else
    echo 'Python.h of Python 3.10 or later (python3-dev) is missing: the wheel not built' >&2
fi
[[ -z $has_cross ]] || make_cross

(cd "$folder" && sha256sum "${made[@]}" >SHA256SUMS)
printf '%s\n' "${made[@]/#/$folder/}"
