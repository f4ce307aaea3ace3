#!/usr/bin/env bash
# Builds the Debian packages of a release:
#   SOURCE_DATE_EPOCH=SECONDS packages.sh RELEASE FOLDER
# RELEASE is the unpacked archive of dist.sh; its install.sh determines the place of each file. FOLDER
# gets libcesu8-1, named after the first number of the version, with the shared object; libcesu8-dev,
# with what a build needs; and cesu8-tools, with the programs, if RELEASE has them. The script prints
# their names. They are for amd64 or arm64, like the shared object.
#
# The maintainer is DEBFULLNAME with DEBEMAIL, or the author of the last commit. Two runs produce the
# same bytes, with the same dpkg-deb and gzip: times are SOURCE_DATE_EPOCH, and owners are root.
#
# It needs dpkg-deb, md5sum, objdump, gzip, git, bash, awk, grep, sed, find and the core utilities.
set -euo pipefail
unset CDPATH
export LC_ALL=C
umask 022

if (($# != 2)) || [[ -z ${SOURCE_DATE_EPOCH-} ]]; then
    echo 'usage: SOURCE_DATE_EPOCH=SECONDS packages.sh RELEASE FOLDER' >&2
    exit 2
fi
export SOURCE_DATE_EPOCH
release=$(cd "$1" && pwd)
folder=$(cd "$2" && pwd)
top=$(cd "$(dirname "${BASH_SOURCE[0]}")/.." && pwd)
templates=$top/release/package/debian
version=$(<"$top/VERSION")
major=${version%%.*}
debian=$version-1
library=libcesu8-$major
maintainer="${DEBFULLNAME:-$(git -C "$top" log -1 --format=%an)}"
maintainer+=" <${DEBEMAIL:-$(git -C "$top" log -1 --format=%ae)}>"
scratch=$(mktemp -d)
trap 'rm -rf "$scratch"' EXIT
all=$scratch/all

fail() {
    echo "packages.sh: $1" >&2
    exit 1
}

# Debian's names of the architecture and of its library folder, by e_machine in the ELF header of the
# shared object (62 and 183).
case $(od -An -tu2 -j18 -N2 "$release/lib/libcesu8.so.$major" | tr -d ' ') in
    62) architecture=amd64 triplet=x86_64-linux-gnu ;;
    183) architecture=arm64 triplet=aarch64-linux-gnu ;;
    *) fail 'the shared object is for another machine' ;;
esac
libdir=usr/lib/$triplet

# Moves files of the installed release to a package, and fails if one is missing: `take PACKAGE PATH..`.
take() {
    local package=$scratch/$1 path
    shift
    for path in "$@"; do
        mkdir -p "$package/$(dirname "$path")"
        mv "$all/$path" "$package/$path"
    done
}

# Moves pages and examples to the package's own documentation folder: `take_pages PACKAGE NAME..`.
take_pages() {
    local target=$scratch/$1/usr/share/doc/$1 name
    shift
    mkdir -p "$target"
    for name in "$@"; do
        mv "$all/usr/share/doc/cesu8/$name" "$target/$name"
    done
}

has_programs() {
    [[ -d $release/bin ]]
}

# Installs the release, and distributes its files to the packages. The three files that `add_common`
# copies to every package remain, and it is an error if others do.
split() {
    mkdir "$all"
    DESTDIR=$all sh "$release/install.sh" /usr "lib/$triplet" >/dev/null
    take "$library" "$libdir/libcesu8.so.$major"
    take libcesu8-dev "$libdir"/{libcesu8.a,libcesu8.so,pkgconfig,cmake} usr/include usr/share/man/man3
    take_pages libcesu8-dev C.md examples
    if has_programs; then
        take cesu8-tools usr/bin usr/share/man usr/share/bash-completion
        take_pages cesu8-tools PROGRAM.md
    fi
    # The licences are in `copyright`, and README.md describes the archive.
    (cd "$all/usr/share/doc/cesu8" && rm -f LICENSE-* README.md)
    diff <(printf '%s\n' BUILT-FROM CHANGELOG.md SECURITY.md) \
        <(cd "$all" && find . -not -type d -printf '%f\n' | sort) >&2 ||
        fail 'these files of the release belong to no package'
}

# Writes `copyright`, with the text of the MIT licence, whose blank lines become dots.
copyright() {
    cat "$templates/copyright"
    sed -n '/^Permission/,$p' "$release/LICENSE-MIT" | sed 's/^$/./; s/^/ /'
}

# Writes the changelog in Debian's format.
changelog() {
    cat <<CHANGES
cesu8 ($debian) unstable; urgency=medium

  * Built by packages.sh from the release $version, which BUILT-FROM describes.

 -- $maintainer  $(date -u -R -d "@$SOURCE_DATE_EPOCH")
CHANGES
}

# Adds the files that each package has: `add_common PACKAGE`.
add_common() {
    local target=$scratch/$1/usr/share/doc/$1 from=$all/usr/share/doc/cesu8
    mkdir -p "$target"
    copyright >"$target/copyright"
    changelog | gzip -9n >"$target/changelog.Debian.gz"
    gzip -9n <"$from/CHANGELOG.md" >"$target/changelog.gz"
    cp "$from/BUILT-FROM" "$from/SECURITY.md" "$target"
}

# The dependencies of programs or a shared object, in Debian's format: `depends FILE..`.
depends() {
    local needed
    while read -r needed; do
        case $needed in
            libc.so.6 | libm.so.6 | ld-linux-x86-64.so.2 | ld-linux-aarch64.so.1) ;;
            *) fail "$* needs $needed, and no package is known that has it" ;;
        esac
    done < <(objdump -p "$@" | awk '$1 == "NEEDED" { print $2 }')
    echo "libc6 (>= $(objdump -T "$@" | grep -o 'GLIBC_[0-9][0-9.]*' | sed 's/^GLIBC_//' |
        sort -Vu | tail -n 1))"
}

# Writes the symbols file: the names that the shared object exports, each with the version of its node
# in the version map.
symbols() {
    echo "libcesu8.so.$major $library"
    echo '* Build-Depends-Package: libcesu8-dev'
    objdump -T "$scratch/$library/$libdir/libcesu8.so.$major" |
        awk '$2 == "g" && $4 != "*UND*" { print $NF "@" $(NF - 1) }' | sort |
        sed -n 's/^\(.*@CESU8_\([0-9.]*\)\)$/ \1 \2.0/p'
}

# Builds one package: `pack TEMPLATE PACKAGE [FILE..]`. Its dependencies are those of the FILEs.
pack() {
    local tree=$scratch/$2 control=$scratch/$2/DEBIAN size files=("${@:3}")
    add_common "$2"
    size=$(cd "$tree" && find . -mindepth 1 -path ./DEBIAN -prune -o -printf '%y %s\n' |
        awk '{ sum += $1 == "f" ? int(($2 + 1023) / 1024) : 1 } END { print sum }')
    mkdir -p "$control"
    sed -e "s/@MAJOR@/$major/; s/@VERSION@/$version/; s/@SIZE@/$size/; s/@ARCHITECTURE@/$architecture/" \
        -e "s/@DEPENDS@/${3:+$(depends "${files[@]/#/$tree/}")}/" \
        -e "s/@MAINTAINER@/$(sed 's/[\/&]/\\&/g' <<<"$maintainer")/" \
        "$templates/$1.control" >"$control/control"
    (cd "$tree" && find . -path ./DEBIAN -prune -o -type f -printf '%P\n' | sort |
        xargs -d '\n' md5sum) >"$control/md5sums"
    find "$tree" -exec touch -h -d "@$SOURCE_DATE_EPOCH" {} +
    dpkg-deb --root-owner-group -Zgzip --build "$tree" "$folder/$2_${debian}_$architecture.deb" >/dev/null
    echo "$2_${debian}_$architecture.deb"
}

split
gzip -9n "$scratch"/*/usr/share/man/man?/*
mkdir "$scratch/$library/DEBIAN"
symbols >"$scratch/$library/DEBIAN/symbols"
echo "libcesu8 $major $library (>= $version)" >"$scratch/$library/DEBIAN/shlibs"
echo 'activate-noawait ldconfig' >"$scratch/$library/DEBIAN/triggers"
pack libcesu8 "$library" "$libdir/libcesu8.so.$major"
pack libcesu8-dev libcesu8-dev
if has_programs; then
    pack cesu8-tools cesu8-tools usr/bin/cesu8_cli usr/bin/cesu8conv
fi
