# For tests/dist.sh: installs the release with install.sh, and builds callers there. It uses the
# variables of that script and of tests/callers.sh. `has_pkg_config` and `has_cmake` are empty if
# the tool is missing. `quietly` leaves the output of its command in $scratch/said.
# shellcheck shell=bash disable=SC2154

# Builds keys.c with pkg-config: `by_pkg_config LIBDIR WHAT`. LIBDIR is the folder of the libraries.
by_pkg_config() {
    export PKG_CONFIG_PATH=$1/pkgconfig
    [[ $(pkg-config --modversion cesu8) == "$version" ]] || wrong "$2 has the wrong version"
    [[ $(pkg-config --variable=libdir cesu8) -ef $1 ]] || wrong "$2 has the wrong libdir"
    by_both "$2" -Wl,-rpath,"$(realpath "$(pkg-config --variable=libdir cesu8)")"
    unset PKG_CONFIG_PATH
}

# Builds keys.c with CMake and a toolchain file that makes CMake search only other folders, as C.md says: the
# file of the library is named, or the release is one of these folders.
by_toolchain() {
    local file=$scratch/only.cmake
    printf '%s\n' "set(CMAKE_FIND_ROOT_PATH \"$scratch/other\")" \
        'set(CMAKE_FIND_ROOT_PATH_MODE_PACKAGE ONLY)' >"$file"
    by_cmake 'keys.c by CMake with the folder of its file' "-DCMAKE_TOOLCHAIN_FILE=$file" \
        "-Dcesu8_DIR=$unpacked/lib/cmake/cesu8"
    echo "list(APPEND CMAKE_FIND_ROOT_PATH \"$unpacked\")" >>"$file"
    by_cmake 'keys.c by CMake with the release as a root' "-DCMAKE_TOOLCHAIN_FILE=$file"
}

# Tests which versions CMake accepts, and that it accepts the library neither for a processor of 32
# bits nor for aarch64.
look_at_versions() {
    local folder=$scratch/versions first=$major.0 next=$((major + 1))
    mkdir "$folder" || exit 2
    cat >"$folder/CMakeLists.txt" <<CMAKE
cmake_minimum_required(VERSION 3.19)
project(versions NONE)
function(look wanted)
    unset(cesu8_DIR CACHE)
    find_package(cesu8 \${ARGN} QUIET)
    if(NOT cesu8_FOUND EQUAL wanted)
        message(SEND_ERROR "version \${ARGN}: \${cesu8_FOUND}, and not \${wanted}")
    endif()
endfunction()
look(1)
look(1 $version)
look(1 $version EXACT)
look(1 $first)
look(0 $next)
look(0 $major.99)
look(0 $first.99 EXACT)
look(1 0.5...$version)
look(0 0.5...<$version)
look(1 $version...$next)
look(0 $next...$next.5)
set(CMAKE_SIZEOF_VOID_P 4)
look(0)
look(0 $version)
set(CMAKE_SIZEOF_VOID_P 8)
look(1 $version)
set(CMAKE_SYSTEM_PROCESSOR aarch64)
look(0)
CMAKE
    quietly cmake -S "$folder" -B "$folder/build" -DCMAKE_PREFIX_PATH="$unpacked" ||
        wrong 'CMake accepts the wrong versions'
}

# Installs to a folder, moves the folder, and builds there: `install_to LIBDIR GIVEN`. LIBDIR is the
# folder of the libraries, and GIVEN the argument that names it for install.sh.
install_to() {
    local prefix="$scratch/pre & fix|" moved=$scratch/moved_${1//\//_} flag
    quietly sh "$unpacked/install.sh" "$prefix" ${2:+"${2//PREFIX/"$prefix"}"} ||
        wrong "install.sh fails for $1"
    diff <(find "$prefix" ! -type d | sort) <(sort "$scratch/said") ||
        wrong "install.sh prints other files than it installs for $1"
    mkdir -p "${moved%/*}" && mv "$prefix" "$moved" || exit 2
    diff -r "$unpacked/include" "$moved/include" || wrong "install.sh changes the header for $1"
    diff -r "$unpacked/bin" "$moved/bin" || wrong "install.sh changes the program for $1"
    run_program "$moved"
    if [[ -n $has_pkg_config ]]; then
        by_pkg_config "$moved/$1" "keys.c by pkg-config from $1"
    fi
    if [[ -n $has_cmake ]]; then
        # CMake searches lib64 only on some systems, and the multiarch folder only on Debian and its
        # derivatives.
        flag=-DCMAKE_PREFIX_PATH=$moved
        case $1 in
            lib | "lib/$(cc -print-multiarch)") ;;
            *) flag=-Dcesu8_DIR=$moved/$1/cmake/cesu8 ;;
        esac
        by_cmake "keys.c by CMake from $1" "$flag"
    fi
    uninstall "$moved"
}

# Removes all that was installed in a folder, and leaves a file that was not: `uninstall FOLDER`.
uninstall() {
    local files
    touch "$1/bin/other" || exit 2
    files=$(find "$1" ! -type d ! -name other | sort)
    quietly "$1/share/doc/cesu8/uninstall.sh" || wrong 'uninstall.sh fails'
    diff <(echo "$files") <(sort "$scratch/said") || wrong 'uninstall.sh prints the wrong files'
    diff <(echo "$1/bin/other") <(find "$1" '(' ! -type d -o -name cesu8 ')') ||
        wrong 'uninstall.sh leaves the wrong files'
}

# Installs to a folder given by a relative path. install.sh is called in another folder than the
# release's.
install_beside() {
    local folder=$scratch/beside
    mkdir "$folder" && cp -a "$unpacked" "$folder/release" || exit 2
    (cd "$folder" && quietly sh release/install.sh to/prefix) ||
        wrong 'install.sh fails for a relative PREFIX'
    diff <(find "$folder/to/prefix" ! -type d | sort) <(sort "$scratch/said") ||
        wrong 'install.sh prints other files than it installs for a relative PREFIX'
    [[ -x $folder/to/prefix/bin/cesu8_cli ]] || wrong 'install.sh installs to the wrong folder for a relative PREFIX'
    diff -r "$unpacked" "$folder/release" ||
        wrong 'install.sh writes to the release for a relative PREFIX'
    uninstall "$folder/to/prefix"
}

# After two installations, with the libraries in two folders, one run of uninstall.sh removes
# everything, also the folder cmake between two that are named cesu8. `head` reads only one line of
# what the first installation prints.
install_twice() {
    local prefix=$scratch/twice
    "$unpacked/install.sh" "$prefix" | head -n 1 >"$scratch/said"
    [[ -s $scratch/said ]] || wrong 'install.sh prints nothing the first time'
    quietly "$unpacked/install.sh" "$prefix" lib/cesu8 || wrong 'install.sh fails the second time'
    uninstall "$prefix"
}

# If install.sh fails half-way, uninstall.sh removes what it installed. Here the folder of the man
# pages can't be made.
install_half() {
    local prefix=$scratch/half
    mkdir -p "$prefix/share" && touch "$prefix/share/man" || exit 2
    "$unpacked/install.sh" "$prefix" >"$scratch/said" 2>&1 && wrong 'install.sh does not fail'
    [[ -x $prefix/bin/cesu8_cli && ! -e $prefix/share/doc/cesu8/C.md ]] ||
        wrong 'install.sh does not fail half-way'
    quietly "$prefix/share/doc/cesu8/uninstall.sh" || wrong 'uninstall.sh fails after an incomplete installation'
    diff <(echo "$prefix/share/man") <(find "$prefix" '(' ! -type d -o -name cesu8 ')') ||
        wrong 'uninstall.sh leaves files of an incomplete installation'
}

# Installs below DESTDIR, as for a package, with a /lib that is a link to /usr/lib.
install_below() {
    local root=$scratch/root libdir=lib/x86_64-linux-gnu files line
    (cd "$unpacked" && DESTDIR=$root quietly ./install.sh /usr "$libdir") ||
        wrong 'install.sh fails with DESTDIR'
    ln -s usr/lib "$root/lib" || exit 2
    grep -qx 'prefix=/usr' "$root/usr/$libdir/pkgconfig/cesu8.pc" ||
        wrong 'the file for pkg-config has the wrong prefix'
    grep -rlF "$scratch" "$root" && wrong 'these name DESTDIR'
    # All of the release is there but the two scripts.
    files=$(cd "$unpacked" && find . ! -type d ! -name '*install.sh' -printf '%P %M\n' |
        sed -E -e "s,^lib/,usr/$libdir/," -e 's,^(bin|include|share)/,usr/&,' \
            -e 's,^(examples/.*|[^/]*)$,usr/share/doc/cesu8/&,' | sort)
    diff <(echo "$files") <(cd "$root" && find usr ! -type d -printf '%p %M\n' | sort) ||
        wrong 'install.sh installs the wrong files'
    if [[ -n $has_pkg_config ]]; then
        # The line of C.md.
        line=$(sed -n 's/^    \(export PKG_CONFIG_SYSROOT_DIR=.*\)/\1/p' "$unpacked/C.md")
        line=${line//=ROOT/=\$root}
        eval "${line/\/PREFIX\/lib\//\/usr\/\$libdir\/}"
        [[ $PKG_CONFIG_LIBDIR == "$root/usr/$libdir/pkgconfig" ]] ||
            wrong 'C.md sets the wrong folders for pkg-config'
        export PKG_CONFIG_ALLOW_SYSTEM_CFLAGS=1 PKG_CONFIG_ALLOW_SYSTEM_LIBS=1
        by_both 'keys.c by pkg-config from DESTDIR' -Wl,-rpath,"$root/usr/$libdir"
        unset "${!PKG_CONFIG_@}"
    fi
    if [[ -n $has_cmake ]]; then
        by_cmake 'keys.c by CMake from DESTDIR' "-Dcesu8_DIR=$root/$libdir/cmake/cesu8"
    fi
}

# Tests that install.sh rejects these arguments with status 2, and writes nothing:
# `refuses ARGUMENT..`.
refuses() {
    local status=0
    (cd "$scratch/nowhere" && sh "$unpacked/install.sh" "$@") >"$scratch/printed" 2>"$scratch/said" ||
        status=$?
    ((status == 2)) || wrong "install.sh ends with status $status for: $*"
    [[ ! -s $scratch/printed ]] || wrong "install.sh prints something for: $*"
    grep -q '^usage: ' "$scratch/said" || wrong "install.sh does not print its usage for: $*"
    [[ -z $(find "$scratch/nowhere" -mindepth 1 ! -type l) ]] ||
        wrong "install.sh writes something for: $*"
    diff -r "$unpacked" "$scratch/unpacked_before" || wrong "install.sh writes to the release for: $*"
}

# Tests that a script of the release prints its usage, and nothing else: `helps SCRIPT ARGUMENT..`.
helps() {
    (cd "$unpacked" && sh "$@") >"$scratch/printed" 2>"$scratch/said" ||
        wrong "this fails: $*"
    [[ $(<"$scratch/printed") == 'usage: '* && ! -s $scratch/said ]] ||
        wrong "this does not print its usage: $*"
}

look_at_refusals() {
    local prefix=$scratch/nowhere/prefix libdir word
    mkdir "$scratch/nowhere" && cp -a "$unpacked" "$scratch/unpacked_before" || exit 2
    ln -s "$unpacked" "$scratch/nowhere/link" || exit 2
    refuses
    refuses ''
    refuses "$prefix" lib more
    for libdir in '' . .. ./lib lib/. ../lib lib/../lib lib//x /lib "$scratch/nowhere/pre" \
        "$prefix/../lib"; do
        refuses "$prefix" "$libdir"
    done
    for word in - -h -v -- --prefix "--prefix=$prefix" --version; do
        refuses "$word"
        refuses "$word" "$prefix"
        refuses "$prefix" "$word"
    done
    helps install.sh --help
    helps install.sh "$prefix" --help
    helps uninstall.sh --help
    for word in '' "$prefix" -x; do
        (cd "$scratch/nowhere" && sh "$unpacked/uninstall.sh" ${word:+"$word"}) >"$scratch/said" 2>&1
        [[ $? == 2 && $(<"$scratch/said") == *usage:* ]] || wrong "uninstall.sh accepts: $word"
    done
    refuses "$unpacked"
    refuses "$unpacked/"
    refuses "$scratch/nowhere/link"
    export DESTDIR=$scratch/nowhere/root
    refuses prefix
    refuses ./prefix lib
    refuses "$prefix" ../lib
    # The release was unpacked to $scratch/empty, so this names the folder to install from.
    DESTDIR=$scratch/empty
    refuses "/$name"
    unset DESTDIR
}
