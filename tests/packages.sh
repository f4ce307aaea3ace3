#!/usr/bin/env bash
# Inspects the Debian packages of the release with dpkg-deb, installs them in an empty root with dpkg, and
# uses them there: it links the example in C with the static library and with the shared object, with the
# compiler alone, with pkg-config and with CMake, and runs the programs. Then it removes them.
#
# It also tests that release/packages.sh builds the same bytes again; that no file is in two
# packages; and the hashes, owners, modes and times. It compares the exported symbols with the version
# map, and the needed C library with the files; both also with what dpkg-gensymbols and
# dpkg-shlibdeps find. `lintian` must report no error.
#
# The packages for arm64 are installed together with those for amd64, with apt if it is installed and
# otherwise with dpkg, and used there as C.md says, in an emulator.
#
# RELEASE names the folder that release/dist.sh has filled; if it is not set, this script runs
# dist.sh. Without dpkg-deb it skips everything and says so; it also says which other tools are
# missing. The status is 0 if nothing is wrong. It needs what tests/release.sh needs.
# shellcheck source=tests/lib.sh
source "$(dirname "${BASH_SOURCE[0]}")/lib.sh" || exit 2
umask 022
crate=$top/crates/cesu8_c
# shellcheck source=tests/release.sh
source "$top/tests/release.sh" || exit 2
# shellcheck source=tests/callers.sh
source "$top/tests/callers.sh" || exit 2

debian=$version-1
names=("libcesu8-$major" libcesu8-dev cesu8-tools)
root=$scratch/root
libdir=usr/lib/x86_64-linux-gnu
shared=$libdir/libcesu8.so.$major

# The file of a package: `file_of NAME`.
file_of() {
    echo "$release/$1_${debian}_amd64.deb"
}

# Compares a field with its expected value: `expect_field NAME FIELD WANTED`.
expect_field() {
    local found
    found=$(dpkg-deb --field "$(file_of "$1")" "$2")
    [[ $found == "$3" ]] || wrong "$1 has $2 '$found', and not '$3'"
}

# Prints the newest version of the C library whose symbols files use: `c_library FILE..`.
c_library() {
    readelf --dyn-syms --wide "$@" | grep -o '@GLIBC_[0-9.]*' | sort -Vu | tail -n 1 |
        sed 's/^@GLIBC_//'
}

# What a package takes when it is installed, in KiB, as deb-substvars(7) counts: the bytes of each
# file, rounded up, and 1 for each folder and link: `installed_size FILE`.
installed_size() {
    dpkg-deb --contents "$1" | awk '
        $NF != "./" { sum += /^-/ ? int(($3 + 1023) / 1024) : 1 }
        END { print sum }'
}

look_at_fields() {
    local name library=${names[0]} unpacked_name
    for name in "${names[@]}"; do
        expect_field "$name" Package "$name"
        expect_field "$name" Source cesu8
        expect_field "$name" Version "$debian"
        expect_field "$name" Architecture amd64
        expect_field "$name" Installed-Size "$(installed_size "$(file_of "$name")")"
        [[ $(dpkg-deb --field "$(file_of "$name")" Maintainer) =~ ^[^\<\>]+\ \<[^\<\>\ ]+@[^\<\>\ ]+\>$ ]] ||
            wrong "$name has no maintainer with an address"
        [[ $(dpkg-deb --field "$(file_of "$name")" Description | wc -l) -gt 3 ]] ||
            wrong "$name has a short description alone"
        dpkg-deb --field "$(file_of "$name")" Description | grep -q x86-64-v2 ||
            wrong "the description of $name does not name the level of the processor"
        unpacked_name=$scratch/$name
        dpkg-deb --raw-extract "$(file_of "$name")" "$unpacked_name" || wrong "$name can't be unpacked"
    done
    expect_field "$library" Multi-Arch same
    expect_field libcesu8-dev Multi-Arch same
    expect_field cesu8-tools Multi-Arch foreign
    expect_field "$library" Section libs
    expect_field libcesu8-dev Section libdevel
    expect_field libcesu8-dev Depends "$library (= $debian)"
    expect_field "$library" Depends "libc6 (>= $(c_library "$scratch/$library/$shared"))"
    expect_field cesu8-tools Depends "libc6 (>= $(c_library "$scratch/cesu8-tools/usr/bin"/*))"
}

# The files and links of a package: `files_of NAME`.
files_of() {
    (cd "$scratch/$1" && find . -path ./DEBIAN -prune -o -not -type d -printf '%P\n' | sort)
}

# Prints the expected files of a package, with the examples and man pages that the release has:
# `wanted_files NAME`.
wanted_files() {
    local doc=usr/share/doc/$1 file
    printf '%s\n' "$doc"/{BUILT-FROM,SECURITY.md,changelog.Debian.gz,changelog.gz,copyright}
    case $1 in
        libcesu8-dev)
            printf '%s\n' usr/include/cesu8.h "$libdir"/libcesu8.{a,so} "$libdir/pkgconfig/cesu8.pc" \
                "$libdir"/cmake/cesu8/cesu8-config{,-version}.cmake "$doc/C.md"
            for file in "$unpacked"/examples/*; do echo "$doc/examples/${file##*/}"; done
            for file in "$unpacked"/share/man/man3/*; do echo "usr/share/man/man3/${file##*/}.gz"; done
            ;;
        cesu8-tools)
            printf '%s\n' usr/{bin/,share/man/man1/}cesu8{_cli,conv} \
                usr/share/bash-completion/completions/cesu8{_cli,conv} "$doc/PROGRAM.md" |
                sed '/man1/s/$/.1.gz/'
            ;;
        *) echo "$shared" ;;
    esac
}

look_at_files() {
    local name
    for name in "${names[@]}"; do
        diff <(wanted_files "$name" | sort) <(files_of "$name") || wrong "$name has other files"
        (cd "$scratch/$name" && quietly md5sum --strict --check DEBIAN/md5sums) ||
            wrong "the sums of $name do not fit"
        diff <(cd "$scratch/$name" && find . -path ./DEBIAN -prune -o -type f -printf '%P\n' | sort) \
            <(sed 's/^[^ ]*  //' "$scratch/$name/DEBIAN/md5sums") || wrong "$name has other sums"
        # The owner, the mode and the time of each.
        dpkg-deb --contents "$(file_of "$name")" |
            awk -v time="$(date -u -d "@$seconds" '+%F %R')" '
                { mode = $1 == "drwxr-xr-x" || $1 == "-rw-r--r--" || $1 == "lrwxrwxrwx" }
                $6 ~ /^\.\/usr\/bin\/cesu8|\/examples\/.*\.sh$/ { mode = $1 == "-rwxr-xr-x" }
                !mode || $2 != "root/root" || $4 " " $5 != time { print; found = 1 }
                END { exit found }' || wrong "$name has another owner, mode or time"
        gzip -dc "$scratch/$name/usr/share/doc/$name/changelog.Debian.gz" |
            sed -n 1p | grep -qxF "cesu8 ($debian) unstable; urgency=medium" ||
            wrong "the changes of $name begin with another version"
        cmp <(gzip -dc "$scratch/$name/usr/share/doc/$name/changelog.gz") "$unpacked/CHANGELOG.md" ||
            wrong "$name has other changes"
        grep -q 'Permission is hereby granted' "$scratch/$name/usr/share/doc/$name/copyright" ||
            wrong "$name has no licence"
        grep -rIlF -e "$top/" -e "$scratch/" "$scratch/$name" && wrong 'these name a folder of this machine'
    done
    [[ $(readlink "$scratch/libcesu8-dev/$libdir/libcesu8.so") == "libcesu8.so.$major" ]] ||
        wrong 'the link for development leads elsewhere'
    grep -qx 'prefix=/usr' "$scratch/libcesu8-dev/$libdir/pkgconfig/cesu8.pc" ||
        wrong 'the prefix for pkg-config is not /usr'
    for name in "bin/cesu8_cli cesu8-tools/usr/bin/cesu8_cli" "lib/libcesu8.a libcesu8-dev/$libdir/libcesu8.a" \
        "lib/libcesu8.so.$major ${names[0]}/$shared" "include/cesu8.h libcesu8-dev/usr/include/cesu8.h"; do
        cmp "$unpacked/${name% *}" "$scratch/${name#* }" || wrong "${name% *} is another file in its package"
    done
}

look_at_library() {
    local library=${names[0]} control=$scratch/${names[0]}/DEBIAN dynamic
    diff <(printf '%s\n' control md5sums shlibs symbols triggers) <(cd "$control" && printf '%s\n' *) ||
        wrong "$library has other control files"
    [[ $(<"$control/shlibs") == "libcesu8 $major $library (>= $version)" ]] ||
        wrong 'shlibs says something else'
    [[ $(<"$control/triggers") == 'activate-noawait ldconfig' ]] || wrong 'triggers says something else'
    # By the version map: each node, such as CESU8_1.0, is a symbol too, and version 1.0.0 added it
    # and its names.
    awk '
        $2 == "{" { node = $1; print " " node "@" node, substr(node, 7) ".0" }
        /^ +cesu8_[a-z0-9_]+;$/ {
            gsub(/[ ;]/, "")
            print " " $0 "@" node, substr(node, 7) ".0"
        }' "$top/release/package/cesu8.map" | sort |
        diff <(printf '%s\n' "libcesu8.so.$major $library" '* Build-Depends-Package: libcesu8-dev' &&
            cat) "$control/symbols" || wrong 'the symbols differ from the version map'
    dynamic=$(readelf --dynamic --wide "$scratch/$library/$shared")
    grep -q "SONAME.*\[libcesu8.so.$major\]" <<<"$dynamic" || wrong 'the shared object has another name'
    grep -q 'BIND_NOW' <<<"$dynamic" || wrong 'the shared object is not bound at once'
    grep NEEDED <<<"$dynamic" | grep -v '\[libc.so.6\]' && wrong 'the shared object needs more than libc'
    readelf --sections --wide "$scratch/$library/$shared" | grep -qE '\.(symtab|debug_)' &&
        wrong 'the shared object is not stripped'
}

build_again() {
    local again=$scratch/again name maintainer
    mkdir "$again" && cp -R "$unpacked" "$scratch/moved" || exit 2
    maintainer=$(dpkg-deb --field "$(file_of cesu8-tools)" Maintainer)
    maintainer=${maintainer%>}
    (
        umask 077
        DEBFULLNAME=${maintainer% <*} DEBEMAIL=${maintainer##*<} SOURCE_DATE_EPOCH=$seconds \
            quietly bash "$top/release/packages.sh" "$scratch/moved" "$again"
    ) || wrong 'packages.sh fails'
    for name in "${names[@]}"; do
        cmp "$(file_of "$name")" "$again/${name}_${debian}_amd64.deb" ||
            wrong "packages.sh builds another $name in a second run"
    done
}

# Compares with what Debian's own tools find, in a folder with the parts of a source package that they read.
compare_with_tools() {
    local folder=$scratch/source library=${names[0]}
    mkdir -p "$folder/debian" || exit 2
    printf 'Source: cesu8\n\nPackage: %s\nArchitecture: amd64\n' "$library" >"$folder/debian/control"
    if command -v dpkg-gensymbols >/dev/null; then
        (cd "$folder" && dpkg-gensymbols -q -p"$library" -P"$scratch/$library" -v"$version" \
            -e"$scratch/$library/$shared" -O 2>/dev/null) |
            sed "s/^\(.*\) #MINVER#$/\1/" |
            diff - <(grep -v '^\*' "$scratch/$library/DEBIAN/symbols") ||
            wrong 'dpkg-gensymbols finds other symbols'
    else
        echo 'dpkg-gensymbols is missing: its symbols skipped'
    fi
    if command -v dpkg-shlibdeps >/dev/null && dpkg-query --search libc.so.6 >/dev/null 2>&1; then
        for name in "$library $shared" "cesu8-tools usr/bin/cesu8_cli"; do
            (cd "$folder" && dpkg-shlibdeps -O "$scratch/${name/ //}" 2>/dev/null) |
                grep -qx "shlibs:Depends=$(dpkg-deb --field "$(file_of "${name% *}")" Depends)" ||
                wrong "dpkg-shlibdeps finds that ${name% *} depends on others"
        done
    else
        echo 'dpkg-shlibdeps is missing: what it finds skipped'
    fi
}

# Runs dpkg on a separate root, which knows only this machine's C library: `on_root ARGUMENT..`.
on_root() {
    PATH=$PATH:/usr/sbin:/sbin quietly dpkg --root="$root" --force-not-root --log=/dev/null "$@"
}

install_packages() {
    mkdir -p "$root"/var/lib/dpkg/{info,updates,triggers} || exit 2
    cat >"$root/var/lib/dpkg/status" <<STATUS
Package: libc6
Status: install ok installed
Maintainer: nobody
Architecture: amd64
Multi-Arch: same
Version: $(getconf GNU_LIBC_VERSION | sed 's/.* //')
Description: the C library of this machine

STATUS
    on_root --install "$(file_of libcesu8-dev)" "$(file_of cesu8-tools)" "$(file_of "${names[0]}")" ||
        wrong 'dpkg does not install the packages'
}

remove_packages() {
    on_root --purge "${names[@]}" || wrong 'dpkg does not remove the packages'
    (cd "$root" && find . -path '*cesu8*' -not -path '*/dpkg/*') | grep . && wrong 'these are left'
}

use_packages() {
    # The loader looks for the shared object there.
    export LD_LIBRARY_PATH=$root/$libdir
    by_flags 'keys.c with the static library' -I "$root/usr/include" "$root/$libdir/libcesu8.a"
    wants_shared "$scratch/example" && wrong 'the static library is not linked'
    by_flags 'keys.c with the shared object' -I "$root/usr/include" -L "$root/$libdir" -lcesu8
    wants_shared "$scratch/example" || wrong 'the shared object is not linked'
    if can_build 'keys.c by pkg-config' pkg-config --version; then
        export PKG_CONFIG_SYSROOT_DIR=$root PKG_CONFIG_LIBDIR=$root/$libdir/pkgconfig
        # The compiler searches the system's folders by default, so pkg-config omits them.
        export PKG_CONFIG_ALLOW_SYSTEM_CFLAGS=1 PKG_CONFIG_ALLOW_SYSTEM_LIBS=1
        [[ $(pkg-config --modversion cesu8) == "$version" ]] || wrong 'pkg-config has another version'
        by_both 'keys.c by pkg-config'
    fi
    if can_build_by_cmake 'keys.c by CMake'; then
        by_cmake 'keys.c by CMake' "-DCMAKE_PREFIX_PATH=$root/usr"
    fi
    run_program "$root/usr"
    [[ $(printf 'a\377' | "$root/usr/bin/cesu8conv" check cesu8 | cut -f 1) == 1 ]] ||
        wrong 'cesu8conv finds other damage'
    if can_build 'the man pages' man --version; then
        man -M "$root/usr/share/man" 3 cesu8_mutf8_encode 2>&1 | grep -q 'cesu8_mutf8_encode(' ||
            wrong 'man finds no page of a call'
    fi
}

look_by_lintian() {
    local name files=()
    if ! command -v lintian >/dev/null; then
        echo 'lintian is missing: its look at the packages skipped'
        return
    fi
    for name in "${names[@]}"; do files+=("$(file_of "$name")"); done
    quietly lintian --allow-root --fail-on error "${files[@]}" || wrong 'lintian finds errors'
}

# The packages for arm64, which are tested together with those for amd64.
cross_names=("libcesu8-$major" libcesu8-dev)
cross_libdir=usr/lib/aarch64-linux-gnu

# The file of a package for arm64: `cross_file_of NAME`.
cross_file_of() {
    echo "$release/$1_${debian}_arm64.deb"
}

# Tests the fields, and that a package has the same files as that for amd64, in the folders for arm64. dpkg
# does not install two packages if a file that both have differs.
look_at_cross_packages() {
    local name field needed shared=$cross_libdir/libcesu8.so.$major
    mkdir "$scratch/arm64" || exit 2
    for name in "${cross_names[@]}"; do
        dpkg-deb --raw-extract "$(cross_file_of "$name")" "$scratch/arm64/$name" ||
            wrong "$name for arm64 can't be unpacked"
        for field in Package Source Version Multi-Arch Section Maintainer Description; do
            [[ $(dpkg-deb --field "$(cross_file_of "$name")" "$field") == \
                "$(dpkg-deb --field "$(file_of "$name")" "$field")" ]] ||
                wrong "$name for arm64 has another $field"
        done
        [[ $(dpkg-deb --field "$(cross_file_of "$name")" Architecture) == arm64 ]] ||
            wrong "$name for arm64 is for another architecture"
        [[ $(dpkg-deb --field "$(cross_file_of "$name")" Installed-Size) == \
            "$(installed_size "$(cross_file_of "$name")")" ]] ||
            wrong "$name for arm64 has another Installed-Size"
        # The scripts among the examples run cesu8_cli, which the release for arm64 does not have.
        diff <(files_of "$name" | grep -v '/examples/.*\.sh$' | sed "s,^$libdir/,$cross_libdir/," | sort) \
            <(files_of "arm64/$name") || wrong "$name for arm64 has other files"
        (cd "$scratch/arm64/$name" && quietly md5sum --strict --check DEBIAN/md5sums) ||
            wrong "the sums of $name for arm64 do not fit"
    done
    needed=$(c_library "$scratch/arm64/${cross_names[0]}/$shared")
    [[ $(dpkg-deb --field "$(cross_file_of "${cross_names[0]}")" Depends) == "libc6 (>= $needed)" ]] ||
        wrong "the library for arm64 does not depend on the C library $needed"
    diff "$scratch/${cross_names[0]}/DEBIAN/symbols" "$scratch/arm64/${cross_names[0]}/DEBIAN/symbols" ||
        wrong 'the library for arm64 has other symbols'
    tar xzf "$release/$cross_name.tar.gz" -C "$scratch/unpacked" || exit 2
    cmp "$scratch/unpacked/$cross_name/lib/libcesu8.a" \
        "$scratch/arm64/libcesu8-dev/$cross_libdir/libcesu8.a" || wrong 'the archive for arm64 is another'
    cmp "$scratch/unpacked/$cross_name/lib/libcesu8.so.$major" \
        "$scratch/arm64/${cross_names[0]}/$shared" || wrong 'the shared object for arm64 is another'
}

# Makes a root for both architectures, which knows only the C library of each.
new_root() {
    local architecture
    mkdir -p "$root"/{etc/apt/sources.list.d,etc/apt/preferences.d,var/cache/apt/archives/partial,var/log/apt} \
        "$root"/var/lib/{apt/lists/partial,dpkg/info,dpkg/updates,dpkg/triggers} || exit 2
    for architecture in amd64 arm64; do
        printf '%s\n' 'Package: libc6' 'Status: install ok installed' 'Maintainer: nobody' \
            "Architecture: $architecture" 'Multi-Arch: same' \
            "Version: $(getconf GNU_LIBC_VERSION | sed 's/.* //')" 'Description: the C library' ''
    done >"$root/var/lib/dpkg/status"
    on_root --add-architecture arm64 || wrong 'dpkg knows no arm64'
}

# Runs apt-get on that root: `apt_on_root WORD..`. It knows only the packages that it is given, and reads no
# configuration of this machine.
apt_on_root() {
    cat >"$scratch/apt.conf" <<CONF
Dir "$root";
Dir::State::status "$root/var/lib/dpkg/status";
APT { Architecture "amd64"; Architectures { "amd64"; "arm64"; }; Sandbox::User "root"; };
Dpkg::Options { "--root=$root"; "--force-not-root"; "--log=/dev/null"; };
CONF
    APT_CONFIG=$scratch/apt.conf PATH=$PATH:/usr/sbin:/sbin quietly apt-get --yes "$@"
}

# Installs the packages for amd64 and those for arm64, with apt if it is installed.
install_both() {
    local name all=() cross=()
    for name in "${names[@]}"; do all+=("$(file_of "$name")"); done
    for name in "${cross_names[@]}"; do cross+=("$(cross_file_of "$name")"); done
    if command -v apt-get >/dev/null; then
        apt_on_root install "${all[@]}" || wrong 'apt does not install the packages'
        apt_on_root install "${cross[@]}" || wrong 'apt does not install the packages for arm64'
    else
        echo 'apt-get is missing: dpkg installs the packages for arm64'
        on_root --install "${all[@]}" "${cross[@]}" || wrong 'dpkg does not install all packages'
    fi
    # From here on, `names` are all installed packages, for `remove_packages`.
    names=(cesu8-tools "${cross_names[@]/%/:amd64}" "${cross_names[@]/%/:arm64}")
    for name in "${names[@]}"; do
        [[ $(dpkg-query --admindir="$root/var/lib/dpkg" --show --showformat='${db:Status-Abbrev}' "$name") \
            == 'ii ' ]] || wrong "$name is not installed"
    done
}

# keys.c for arm64 in that root, by pkg-config and by CMake.
use_cross_packages() {
    local flags=("-DCMAKE_PREFIX_PATH=$root/usr" -DCMAKE_SYSTEM_NAME=Linux -DCMAKE_SYSTEM_PROCESSOR=aarch64
        "-DCMAKE_C_COMPILER=$AARCH64_CC")
    # The loader looks for the shared object there.
    emulator+=(-E "LD_LIBRARY_PATH=$root/$cross_libdir")
    by_flags 'keys.c for arm64' -I "$root/usr/include" -L "$root/$cross_libdir" -lcesu8
    wants_shared "$scratch/example" || wrong 'the shared object for arm64 is not linked'
    if can_build 'keys.c by pkg-config for arm64' pkg-config --version; then
        export PKG_CONFIG_SYSROOT_DIR=$root PKG_CONFIG_LIBDIR=$root/$cross_libdir/pkgconfig
        export PKG_CONFIG_ALLOW_SYSTEM_CFLAGS=1 PKG_CONFIG_ALLOW_SYSTEM_LIBS=1
        by_both 'keys.c by pkg-config for arm64'
    fi
    if can_build_by_cmake 'keys.c by CMake for arm64' "${flags[@]}"; then
        by_cmake 'keys.c by CMake for arm64' "${flags[@]}"
    fi
}

test_cross_packages() {
    local name
    for_aarch64 'the Debian packages for arm64' || return 0
    for name in "${cross_names[@]}"; do
        [[ -f $(cross_file_of "$name") ]] || { wrong "the release has no package $name for arm64"; return; }
    done
    unset LD_LIBRARY_PATH "${!PKG_CONFIG_@}"
    root=$scratch/root_of_both
    look_at_cross_packages
    new_root
    install_both
    use_cross_packages
    remove_packages
}

for tool in dpkg-deb dpkg readelf objdump; do
    if ! command -v "$tool" >/dev/null; then
        echo "$tool is missing: the Debian packages skipped"
        exit 0
    fi
done
find_release 'the Debian packages' || exit 0
for name in "${names[@]}"; do
    [[ -f $(file_of "$name") ]] || wrong "the release has no package $name"
done
((failed == 0)) || exit 1
look_at_fields
look_at_files
look_at_library
build_again
compare_with_tools
install_packages
use_packages
remove_packages
look_by_lintian
test_cross_packages
((failed == 0))
