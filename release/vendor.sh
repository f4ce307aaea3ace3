#!/usr/bin/env bash
# Copies the libraries into another Rattle repository, for its crates to use, and prints the lines
# that its crates.txt lacks:
#   vendor.sh FOLDER >>FOLDER/crates.txt
# FOLDER is the top of that repository. It gets the code, the definitions and the proofs of
# `simd_cesu8`, `java_text` and `cesu8_stream`, and of the crates here on which they depend, with the
# licences, the version, and a .gitignore for what `rt` writes there. Tests are not copied, since a
# crate with tests is proved twice, and neither are the wrong bodies in must-fail. An earlier copy is
# replaced, except its folder out. It needs bash, awk, sed, grep and the core utilities, but no `rt`.
set -euo pipefail
unset CDPATH
export LC_ALL=C

top=$(dirname "$(dirname "$(readlink -f "${BASH_SOURCE[0]}")")")

fail() {
    echo "vendor.sh: $1" >&2
    exit 2
}

# Prints these crates and their dependencies here, in the order of crates.txt: `closure CRATE..`.
closure() {
    sed 's/#.*//' "$top/crates.txt" | awk -F ':' -v wanted="$*" '
        NF == 2 {
            crate[++crates] = $1
            uses[$1] = $2
        }
        END {
            take(wanted)
            for (i = 1; i <= crates; i++) if (crate[i] in is_taken) print crate[i]
        }
        function take(names,    name, count, i) {
            count = split(names, name, " ")
            for (i = 1; i <= count; i++) {
                if (!(name[i] in uses) || name[i] in is_taken) continue
                is_taken[name[i]]
                take(uses[name[i]])
            }
        }
    '
}

# Removes the tests of a file: from their attribute to the line with the closing brace.
without_tests() {
    awk '
        /^#\[cfg\(test\)\]$/ { is_test = 1 }
        !is_test && /^$/ { blank++; next }
        !is_test {
            for (; blank > 0; blank--) print ""
            print
        }
        is_test && /^(}|mod .*;)$/ { is_test = 0 }
    ' "$1"
}

mapfile -t libraries < <(closure simd_cesu8 java_text cesu8_stream)

if (($# != 1)); then
    echo 'usage: vendor.sh FOLDER' >&2
    exit 2
fi
[[ -d $1 ]] || fail "$1 is no folder"
target=$(cd "$1" && pwd -P)
[[ $target != "$top" ]] || fail "$1 is this repository"

# Crates are in the folder crates. If there is none, they are beside a crates.txt that is not empty.
crates=$target
if [[ -d $target/crates || ! -s $target/crates.txt ]]; then
    crates=$target/crates
fi

for library in "${libraries[@]}"; do
    copy=$crates/$library
    if [[ -L $copy || -e $copy && ! -f $copy/VERSION ]]; then
        fail "$copy is there, and is no copy that vendor.sh made"
    fi
done
# If the last line does not end in a newline, one is printed first.
[[ ! -s $target/crates.txt || -z $(tail -c 1 "$target/crates.txt") ]] || echo
for library in "${libraries[@]}"; do
    copy=$crates/$library
    mkdir -p "$copy"
    for folder in src specs proofs; do
        rm -rf "${copy:?}/$folder"
        cp -R "$top/crates/$library/$folder" "$copy"
    done
    while read -r file; do
        without_tests "$top/crates/$library/src/$file" >"$copy/src/$file"
    done < <(cd "$top/crates/$library/src" && grep -rlx --include='*.rt' '#\[cfg(test)\]' .)
    cp "$top/LICENSE-APACHE" "$top/LICENSE-MIT" "$top/VERSION" "$copy"
    echo 'out/' >"$copy/.gitignore"
    grep -qs "^$library:" "$target/crates.txt" || sed -n "/^$library:/p" "$top/crates.txt"
done
