#!/usr/bin/env bash
# Checks that no crate of this repository depends on the internals of another, and prints what is
# wrong and then the counts. It checks that
# - crates.txt lists each crate after the crates that it uses;
# - the crates above the library name nothing of the crates that simd_cesu8 is built on. bytes_tests
#   is not above it: it tests one of those;
# - code, definitions and proofs name no module of another crate's `proofs`, except
#   simd_cesu8.proofs.StdUtf8, which is public. Within the library they may name those of the crates
#   below, and the proofs of std are public;
# - no contract, ghost item or definition uses a name from a proof, except the proof of a trait's
#   law;
# - no module imports itself through others, except those that `known_cycles` lists, now none;
# - only crates whose names end in `_tests` have tests, since `rt ci` proves a crate with tests twice.
# The status is 0 if nothing is wrong. It needs bash, awk, sed and the core utilities.
set -u
unset CDPATH
export LC_ALL=C

cd "$(dirname "${BASH_SOURCE[0]}")/.." || exit 2
scratch=$(mktemp -d) || exit 2
trap 'rm -rf "$scratch"' EXIT

# The modules that may import one another, one a line, each after its crate.
known_cycles() {
    cat <<'MODULES'
MODULES
}

# The crates of crates.txt, each with the crates of this repository that it uses, directly or
# through others.
sed 's/#.*//; s/ staticlib:/:/' crates.txt | awk -F ':' '
    NF == 2 {
        count = split($2, name, " ")
        below = " "
        for (i = 1; i <= count; i++) {
            if (!(name[i] in under)) {
                if ((getline line <("crates/" name[i] "/src/lib.rt")) >= 0)
                    print "crates.txt lists " $1 " before " name[i] | "cat 1>&2"
                continue
            }
            if (index(below, " " name[i] " ") == 0) below = below name[i] " "
            split(under[name[i]], lower, " ")
            for (j in lower) if (index(below, " " lower[j] " ") == 0) below = below lower[j] " "
        }
        under[$1] = below
        print $1 below
    }
' >"$scratch/crates" 2>"$scratch/wrong"
# The crates that simd_cesu8 is built on.
read -r library < <(sed -n 's/^simd_cesu8 //p' "$scratch/crates")

# The laws of the traits in these files, and the laws of std that something here proves, one a line
# as `TRAIT.LAW`: `laws FILE..`. A trait's ghost items after its last function are laws. If it has
# no function, the ghost items that name another of its items are.
laws() {
    echo PartialEq.laws
    awk '
        FNR == 1 { trait = "" }
        { sub(/\/\/.*/, "") }
        /^(pub(\([a-z]+\))? )?trait / {
            trait = $0
            sub(/.*trait /, "", trait)
            sub(/[^A-Za-z0-9_].*/, "", trait)
            has_function = item = ""
            delete type
        }
        trait == "" { next }
        /^    fn / {
            has_function = 1
            item = ""
            delete type
        }
        match($0, /^    ghost [a-z_]+: /) {
            item = substr($0, 11, RLENGTH - 12)
        }
        item != "" { type[item] = type[item] " " $0 }
        /;$/ { item = "" }
        /^}/ {
            for (name in type) if (has_function || type[name] ~ /Self\./) print trait "." name
            trait = ""
        }
    ' "$@"
}

# Prints what the files on standard input name and must not, one a line. `is_word` is whether a line
# can be part of a contract, a ghost item or a definition.
wrong() {
    local file crate
    while read -r file; do
        crate=${file#crates/}
        crate=${crate%%/*}
        awk -v file="$file" -v crate="$crate" -v library=" $library simd_cesu8 " \
            -v laws=" $laws " -v below="$(sed -n "s/^$crate / /p" "$scratch/crates")" '
            BEGIN { is_in_library = index(library " bytes_tests ", " " crate " ") > 0 }
            function trait_of(head) {
                sub(/ for .*/, "", head)
                while (sub(/<[^<>]*>/, "", head));
                sub(/.*[ :]/, "", head)
                return head
            }
            function is_law(line) {
                if (!match(line, /^ *ghost [a-z_]+ = /)) return 0
                line = substr(line, 1, RLENGTH - 3)
                sub(/.* /, "", line)
                return index(laws, " " trait "." line " ") > 0
            }
            { sub(/(--|\/\/).*/, "") }
            {
                if (/^impl[ <].* for /) trait = trait_of($0)
                is_word = file ~ /\/specs\// || file ~ /\/src\// && !/^ *#!?\[tactic/ && !is_law($0)
                # A name that is imported for the proof of a law occurs only in laws.
                if (is_word && file !~ /\/specs\// && match($0, /\.proofs\..*\{.*\}/)) {
                    names = substr($0, RSTART, RLENGTH)
                    gsub(/.*\{|\}.*/, "", names)
                    for (i = split(names, word, /, */); i > 0; i--) {
                        sub(/.* as /, "", word[i])
                        of_laws[word[i]]
                    }
                    is_word = 0
                } else if (!is_law($0)) {
                    for (name in of_laws)
                        if ($0 ~ "(^|[^A-Za-z0-9_])" name "([^A-Za-z0-9_]|$)")
                            print "a contract or definition names a proof: " file ": " name
                }
                gsub(/::/, ".")
                gsub(/crate\.proofs/, crate ".proofs")
                line = $0
                while (match(line, /(^|[^A-Za-z0-9_])cesu8_[a-z]+\./)) {
                    name = substr(line, RSTART, RLENGTH - 1)
                    line = substr(line, RSTART + RLENGTH)
                    sub(/^[^A-Za-z0-9_]/, "", name)
                    if (!is_in_library && index(library, " " name " "))
                        print "a crate that simd_cesu8 is built on: " file ": " name
                }
                while (match($0, /[A-Za-z0-9_]+\.proofs(\.[A-Za-z0-9_]+)?/)) {
                    module = substr($0, RSTART, RLENGTH)
                    $0 = substr($0, RSTART + RLENGTH)
                    owner = module
                    sub(/\..*/, "", owner)
                    if (owner == "std") continue
                    if (is_word) print "a contract or definition names a proof: " file ": " module
                    else if (owner == crate || module == "simd_cesu8.proofs.StdUtf8") continue
                    else if (!is_in_library || index(below, " " owner " ") == 0)
                        print "the proofs of another crate: " file ": " module
                }
            }
        ' "$file"
    done
}

# The modules of each crate that import one another.
cycles() {
    local crate files
    while read -r crate _; do
        mapfile -t files < <(find "crates/$crate/src" -name '*.rt' | sort)
        awk -f tests/cycles.awk "${files[@]}" | sed "s/^/$crate /"
    done <"$scratch/crates"
}

find crates -name out -prune -o \( -path '*/src/*.rt' -o -path '*/specs/*.antt' \
    -o -path '*/proofs/*.antt' \) -print | sort >"$scratch/files"
mapfile -t sources < <(grep '\.rt$' "$scratch/files")
laws=$(laws "${sources[@]}" | tr '\n' ' ')
wrong <"$scratch/files" | sort -u >>"$scratch/wrong"
known_cycles | sort >"$scratch/known"
cycles | sort >"$scratch/cycles"
comm -13 "$scratch/known" "$scratch/cycles" |
    sed 's/^/a module that imports itself through others: /' >>"$scratch/wrong"
comm -23 "$scratch/known" "$scratch/cycles" |
    sed 's/^/no longer in a cycle, and still in the list of tests\/layers.sh: /' >>"$scratch/wrong"

grep -lF '#[test]' "${sources[@]}" | grep -v '^crates/[a-z0-9_]*_tests/' |
    sed 's/^/a test in a crate that is not for tests: /' >>"$scratch/wrong"

sed 's/^/wrong: /' "$scratch/wrong"
echo "$(wc -l <"$scratch/files") files, $(wc -l <"$scratch/cycles") modules in a cycle," \
    "$(wc -l <"$scratch/wrong") wrong"
[[ -s $scratch/files && -n $library && ! -s $scratch/wrong ]]
