#!/usr/bin/env bash
# Compares the file VERSION with every place that names the version: the macros of the header for C,
# the nodes of the version map, the first heading of CHANGELOG.md with a version, the packages for
# Python, Rust and Debian, and on the pages the names of archives, of packages and of the shared
# object, and the version that CMake is asked for. The files of release/package get the version from
# release/dist.sh, so they name none, and the man page, the archive's README and the files for
# pkg-config and CMake have a placeholder for it. It prints each difference. The status is 0 if
# there is none. It needs bash, grep, sed and the core utilities.
set -u
unset CDPATH
export LC_ALL=C

cd "$(dirname "${BASH_SOURCE[0]}")/.." || exit 2
header=crates/cesu8_c/include/cesu8.h
package=release/package
wrong=0

# Compares a value that a file has with the one that it should have:
# `expect FILE WHAT WANTED FOUND`.
expect() {
    [[ $4 == "$3" ]] && return
    echo "wrong: $1 has the $2 '$4', and VERSION gives '$3'"
    wrong=1
}

version=$(<VERSION)
if [[ ! $version =~ ^([1-9][0-9]?)\.(0|[1-9][0-9]?)\.(0|[1-9][0-9]?)$ ]]; then
    echo "wrong: VERSION has '$version', which is not three numbers below 100"
    exit 1
fi
number=$((10000 * BASH_REMATCH[1] + 100 * BASH_REMATCH[2] + BASH_REMATCH[3]))
major=${BASH_REMATCH[1]}
minor=$major.${BASH_REMATCH[2]}

expect "$header" string "$version" "$(sed -n 's/^#define CESU8_VERSION_STRING "\(.*\)"$/\1/p' "$header")"
expect "$header" number "$number" "$(sed -n 's/^#define CESU8_VERSION \(.*\)$/\1/p' "$header")"
expect CHANGELOG.md heading "$version" "$(sed -n 's/^## //p' CHANGELOG.md | head -n 1)"
for page in *.md docs/*.md; do
    while read -r named; do
        expect "$page" archive "$version" "$named"
    done < <(grep -o 'cesu8-[0-9][0-9.]*-x86_64' "$page" | sed 's/^cesu8-//; s/-x86_64$//' | sort -u)
    while read -r named; do
        expect "$page" 'shared object' "$major" "$named"
    done < <(grep -o 'libcesu8\.so\.[0-9][0-9.]*[0-9]*' "$page" | sed 's/^libcesu8\.so\.//; s/\.$//' | sort -u)
    while read -r named; do
        expect "$page" 'version for CMake' "$minor" "$named"
    done < <(sed -n 's/.*find_package(cesu8 \([0-9.]*\).*/\1/p' "$page" | sort -u)
done

# The first node is that of the first version with this major number. A later node is of a version
# up to VERSION, which has a node of its own only if it added a name.
nodes=$(sed -n 's/^CESU8_\([0-9.]*\) {$/\1/p' "$package/cesu8.map")
expect "$package/cesu8.map" 'first node' "$major.0" "${nodes%%$'\n'*}"
expect "$package/cesu8.map" 'newest node' "$minor" \
    "$(printf '%s\n' "$minor" "$nodes" | sort -V | tail -n 1)"
expect "$package/cesu8.map" 'major number of nodes' "$major" "$(cut -d . -f 1 <<<"$nodes" | sort -u)"

while IFS=: read -r page named; do
    grep -qxF "${named#CESU8_}" <<<"$nodes" && continue
    echo "wrong: $page names the node $named, which is not in the version map"
    wrong=1
done < <(grep -oE 'CESU8_[0-9]+(\.[0-9]+)*' ./*.md docs/*.md)

# Tests that a file of package/ has a placeholder for the version: `place FILE LINE`.
place() {
    grep -qxF -- "$2" "$package/$1" && return
    echo "wrong: $package/$1 lacks the line '$2'"
    wrong=1
}
place cesu8.pc 'Version: @VERSION@'
place cesu8-config-version.cmake 'set(PACKAGE_VERSION @VERSION@)'
place README.md '# cesu8 @VERSION@'
place cesu8_cli.1 '.TH CESU8_CLI 1 @DATE@ "cesu8 @VERSION@" "User Commands"'
if grep -rnE '(^|[^0-9.])[0-9]+\.[0-9]+\.[0-9]+' "$package"; then
    echo 'wrong: these name a version, which dist.sh should fill in'
    wrong=1
fi

# The Python package, the fields of the Debian packages, and on the pages the names of the packages
# and of the wheel.
package_version=$(sed -n 's/^__version__ = "\(.*\)"$/\1/p' python/cesu8/__init__.py)
expect python/cesu8/__init__.py version "$version" "$package_version"
expect rust/crate/Cargo.toml version "$version" "$(sed -n 's/^version = "\(.*\)"$/\1/p' rust/crate/Cargo.toml)"
for file in rust/README.md rust/simd_cesu8/Cargo.toml; do
    while read -r named; do
        expect "$file" package "$version" "$named"
    done < <(grep -o 'cesu8_rattle-[0-9.]*[0-9]' "$file" | sed 's/^cesu8_rattle-//' | sort -u)
done
for control in release/package/debian/*.control; do
    expect "$control" version '@VERSION@-1' "$(sed -n 's/^Version: //p' "$control")"
    while read -r named; do
        expect "$control" 'name of the library' 'libcesu8-@MAJOR@' "$named"
    done < <(grep -oE 'libcesu8-[@A-Z0-9]+' "$control" | sort -u)
done
for page in *.md docs/*.md python/*.md; do
    while read -r named; do
        expect "$page" wheel "$version" "$named"
    done < <(grep -oE 'cesu8-[0-9][0-9.]*-cp[0-9]' "$page" | sed 's/^cesu8-//; s/-cp[0-9]$//' | sort -u)
    while read -r named; do
        expect "$page" package "$version-1" "$named"
    done < <(grep -oE '(libcesu8-[a-z0-9]+|cesu8-tools)_[^_ ]+_amd64' "$page" |
        sed 's/^[^_]*_//; s/_amd64$//' | sort -u)
    while read -r named; do
        expect "$page" 'package of the library' "libcesu8-${version%%.*}" "$named"
    done < <(grep -oE 'libcesu8-[0-9]+' "$page" | sort -u)
done
((wrong == 0))
