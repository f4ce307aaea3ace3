#!/usr/bin/env bash
# Compares the public contracts with docs/PROVED.md, with README.md and with tests/clauses.txt:
#   tests/clauses.sh            compares, and prints what is wrong and then the counts
#   tests/clauses.sh --write    writes tests/clauses.txt again from the sources
# It checks that
# - docs/PROVED.md names each public clause and no other, and its words agree with the clauses
#   beside them in names, numbers and errors (tests/words.awk);
# - each clause and law that README.md names is in the sources, and so is each function that a page
#   passes to `rt check`;
# - a public function has an `ensures` and no `requires`;
# - items that exist once for each encoding or kernel are the same, and items that exist once for
#   both encodings do not name CESU-8 in their clauses;
# - tests/clauses.txt has each public clause, signature and type, and the definitions that these
#   cite, so that changing one changes a line there.
# An item that a crate exports from a crate below it is listed as its own.
set -u
unset CDPATH
export LC_ALL=C

top=$(cd "$(dirname "${BASH_SOURCE[0]}")/.." && pwd) || exit 2
cd "$top" || exit 2
scratch=$(mktemp -d) || exit 2
trap 'rm -rf "$scratch"' EXIT

# What is wrong is noted in a file, since a variable that is set in a pipe is lost.
: >"$scratch/wrong"

# Notes that something is wrong if standard input has lines: `none WHAT`.
none() {
    local line
    while read -r line; do
        echo "wrong: $1: $line" >>"$scratch/wrong"
    done
}

# Prints the public items of a file: `items CRATE PREFIX FILE`. A line has the crate, the name, the
# clause or a mark such as `!fn`, and the text (contracts.awk).
items() {
    echo "crates/$1/src/$3" >>"$scratch/files"
    awk -v crate="$1" -v prefix="$2" -f tests/contracts.awk "crates/$1/src/$3"
}

# The public items of a file, of the public modules below it, of the private modules whose types it
# exports, and of the modules that it exports from a crate below: `public_items CRATE PREFIX FILE`.
public_items() {
    local crate=$1 prefix=$2 file=$3 told below path names
    told=$(items "$crate" "$prefix" "$file")
    grep -v $'\tpub use cesu8_' <<<"$told"
    items_below "$crate" "$prefix" "$file" "$told"
    while read -r below path names; do
        handed_on "$crate" "$prefix" "$below" "$path" "$names"
    done < <(sed -n 's/.*\tpub use \(cesu8_[a-z]*\)::\([a-z_]*\)::{\(.*\)};$/\1 \2 \3/p' \
        <<<"$told")
}

# The public items of the modules that a file names. ITEMS are those of the file:
# `items_below CRATE PREFIX FILE ITEMS`.
items_below() {
    local crate=$1 prefix=$2 folder=${3%.rt}/ told=$4 module
    for module in $(sed -n 's/.*\tpub mod \([a-z0-9_]*\);$/\1/p' <<<"$told"); do
        public_items "$crate" "$prefix$module::" "${folder#lib/}$module.rt"
    done
    for module in $(sed -n 's/.*\tpub use crate::\([a-z0-9_]*\)::.*/\1/p' <<<"$told" | sort -u); do
        public_items "$crate" "$prefix" "$module.rt"
    done
}

# The public items of modules of another crate, listed as the crate's own:
# `handed_on CRATE PREFIX BELOW PATH NAMES`, with commas between the names.
handed_on() {
    local crate=$1 prefix=$2 below=$3 file=$4.rt names="^(${5//, /|})(::|$)" told
    told=$(items "$below" "$prefix" "$file" | awk -F '\t' -v prefix="$prefix" -v names="$names" '
        index($2, prefix) == 1 && substr($2, length(prefix) + 1) ~ names
    ')
    {
        echo "$told"
        items_below "$below" "$prefix" "$file" "$told"
    } | sed "s/^$below\t/$crate\t/"
}

# Prints all items that users can name. The items of cesu8_cli_run, to which the program passes its
# arguments and streams, are listed as those of cesu8_cli.
everything() {
    local file
    public_items simd_cesu8 '' lib.rt
    public_items java_text '' lib.rt
    public_items cesu8_stream '' lib.rt
    for file in crates/cesu8_cli_run/src/*.rt; do
        [[ $file == */lib.rt ]] || items cesu8_cli_run '' "${file##*/}" | sed 's/^cesu8_cli_run\t/cesu8_cli\t/'
    done
    public_items cesu8_c '' lib.rt
}

# The items of functions whose names begin with BEGIN, with the rest of the name:
# `those CRATE BEGIN`.
those() {
    awk -F '\t' -v OFS='\t' -v crate="$1" -v begin="$2" '
        $1 == crate && $3 != "!item" && index($2, begin) == 1 {
            name = substr($2, length(begin) + 1)
            if ($3 == "!fn") is_function[name]
            if (name in is_function && name !~ /::/) print $1, name, $3, $4
        }
    ' "$scratch/everything" | sort
}

# Rewrites items for MUTF-8 as items for CESU-8. One that names CESU-8 by mistake stays different.
of_cesu8() {
    sed 's/Cesu8/(Cesu8 of mutf8)/g; s/Mutf8/Cesu8/g; s/cesu8_mutf8_/cesu8_/g'
}

# Keeps the items that must exist for MUTF-8 too: those that name an encoding, and those that FILE
# has for MUTF-8: `of_encodings FILE`.
of_encodings() {
    awk -F '\t' 'FNR == NR { is_in_mutf8[$2]; next } $2 in is_in_mutf8 || /Cesu8|Mutf8/' "$1" -
}

# Notes the lines in which two files differ: `same WHAT FILE FILE`.
same() {
    diff "$2" "$3" | grep '^[<>]' | none "$1 differ"
}

# The items of the sources. Of items that exist more than once, it keeps one.
sources() {
    local kernel
    everything >"$scratch/everything"
    those simd_cesu8 mutf8:: | of_cesu8 | sort >"$scratch/mutf8"
    those simd_cesu8 '' | of_encodings "$scratch/mutf8" >"$scratch/root"
    same 'the calls of the root and of mutf8' "$scratch/root" "$scratch/mutf8"
    those cesu8_stream mutf8:: | of_cesu8 | sort >"$scratch/stream_mutf8"
    those cesu8_stream '' | of_encodings "$scratch/stream_mutf8" >"$scratch/stream"
    same 'the streams of the two encodings' "$scratch/stream" "$scratch/stream_mutf8"
    those simd_cesu8 implementation::simd:: >"$scratch/simd"
    for kernel in $(told '!fn' | sed -n 's,^simd_cesu8 implementation::\([a-z]*\)::.*,\1,p' |
        sort -u); do
        those simd_cesu8 "implementation::$kernel::" >"$scratch/kernel"
        same "the kernels simd and $kernel" "$scratch/simd" "$scratch/kernel"
    done
    those cesu8_c mutf8:: | of_cesu8 | sort >"$scratch/exports_mutf8"
    those cesu8_c '' | of_encodings "$scratch/exports_mutf8" >"$scratch/exports"
    same 'the exports of the two encodings' "$scratch/exports" "$scratch/exports_mutf8"
    awk -F '\t' -v OFS='\t' '
        $3 != "!item" {
            sub(/^implementation::simd::/, "implementation::", $2)
            sub(/^java::cesu8_/, "cesu8_", $2)
            if ($2 ~ /^(mutf8|implementation::[a-z0-9_]+)::/) next
        }
        { print }
    ' "$scratch/everything" >"$scratch/items"
    awk -F '\t' '$3 !~ /^!/ { print $1, $2, $3 }' "$scratch/items" | sort -u >"$scratch/sources"
}

# Notes public functions that have a requirement or no `ensures`, text that contracts.awk cannot
# read, and exports in modules that are not public.
rules() {
    told '!requires' | none 'a public function requires something of its caller'
    told '!none' | none 'public, and without a contract'
    told '!unread' | none 'tests/contracts.awk cannot read'
    grep -rl --include='*.rt' '^#\[unsafe(no_mangle)\]' crates/cesu8_c/src |
        grep -v '/\(lib\|mutf8\|java\)\.rt$' | none 'an export in a module that is not public'
}

# The items with this mark: `told MARK`.
told() {
    awk -F '\t' -v mark="$1" '$3 == mark { print $1, $2 ": " $4 }' "$scratch/everything"
}

# The contents that tests/clauses.txt should have.
texts() {
    local files
    echo '# What the public contracts say, a line each, and then the definitions that they cite.'
    echo '# Of a definition the head, each equation, each field and each constructor has a line.'
    echo '# Written by tests/clauses.sh --write; docs/PROVED.md has the same in words.'
    awk -F '\t' '$3 !~ /^!(none|unread)$/ { print $1 " " $2 ": " $4 }' "$scratch/items"
    awk -F '\t' '$3 !~ /^!(fn|item)$/ { print $4 }' "$scratch/items" >"$scratch/cited"
    mapfile -t files < <(sort -u "$scratch/files")
    awk -f tests/definitions.awk "$scratch/cited" "${files[@]}" \
        crates/{cesu8_text,cesu8_bytes,simd_cesu8,java_text,cesu8_stream,cesu8_cli_run,cesu8_c}/specs/*.antt |
        sed 's,^crates/\([a-z0-9_]*\)/\([^\t]*\)\t,\1 \2: ,'
}

# The names in the last cells of the page's tables. A cell has entries with a semicolon between
# them, and an entry a name and, after a colon, its clauses. Names with the same clauses share a
# colon.
page() {
    awk '
        /^## / { crate = $2; gsub(/`/, "", crate) }
        /^\|/ && !/^\|---/ && !/\| clause \|$/ {
            cells = split($0, cell, "|")
            entries = split(cell[cells - 1], entry, ";")
            for (i = 1; i <= entries; i++) {
                gsub(/[` ]/, "", entry[i])
                at = match(entry[i], /[^:]:[^:]/)
                if (at == 0) {
                    print crate, entry[i], "-"
                    continue
                }
                owners = split(substr(entry[i], 1, at), owner, ",")
                names = split(substr(entry[i], at + 2), name, ",")
                for (k = 1; k <= owners; k++)
                    for (j = 1; j <= names; j++) print crate, owner[k], name[j]
            }
        }
    ' docs/PROVED.md | sort -u >"$scratch/page"
    comm -13 "$scratch/sources" "$scratch/page" | none 'named in docs/PROVED.md, and not there'
    comm -23 "$scratch/sources" "$scratch/page" | none 'not named in docs/PROVED.md'
    awk -f tests/words.awk "$scratch/clauses.txt" docs/PROVED.md | none 'in docs/PROVED.md'
}

# The clauses and laws that the README names. It names a clause as code after its function's name
# and a colon.
readme() {
    grep -o '`[a-z_:]*`: `[a-z_]*`\(, `[a-z_]*`\)*' README.md | tr -d '` ' |
        awk '{
            at = match($0, /[^:]:[^:]/)
            names = split(substr($0, at + 2), name, ",")
            for (j = 1; j <= names; j++) print substr($0, 1, at), name[j]
        }' | sort -u >"$scratch/pairs"
    [[ -s $scratch/pairs ]] || echo 'the main clauses' | none 'not in README.md'
    cut -d ' ' -f 2- "$scratch/sources" | sort -u | comm -13 - "$scratch/pairs" |
        none 'named in README.md, and not there'
    cut -d ' ' -f 2 "$scratch/sources" | sort -u >"$scratch/names"
    grep -o '`laws::[a-z_]*`' README.md | tr -d '`' | sort -u | comm -13 "$scratch/names" - |
        none 'named in README.md, and not a law'
}

# Tests that the functions that pages pass to `rt check`, as CRATE::MODULE::FUNCTION, are in the
# module's file.
checked() {
    local name path
    grep -ohE 'rt check --(only|start) [a-z0-9_]+(::[a-z0-9_]+)+' README.md docs/*.md bench/README.md |
        sed 's/.* //' | sort -u >"$scratch/checked"
    [[ -s $scratch/checked ]] || echo 'no function for rt check' | none 'not on a page'
    while read -r name; do
        path=${name%::*}
        [[ $path == *::* ]] || path+=::lib
        path=crates/${path%%::*}/src/${path#*::}
        grep -qsE "^( *pub(\([a-z]+\))?)? *fn ${name##*::}[<(]" "${path//:://}.rt" ||
            echo "$name" | none 'on a page for rt check, and not in the sources'
    done <"$scratch/checked"
}

sources
texts >"$scratch/clauses.txt"
if [[ ${1-} == --write ]]; then
    cp "$scratch/clauses.txt" tests/clauses.txt || exit 2
elif (($# > 0)); then
    echo 'usage: tests/clauses.sh [--write]' >&2
    exit 2
fi
rules
page
readme
checked
diff tests/clauses.txt "$scratch/clauses.txt" | grep '^[<>]' |
    none 'tests/clauses.txt (<) is not what the sources say (>)'
cmp -s tests/clauses.txt "$scratch/clauses.txt" ||
    echo 'tests/clauses.sh --write updates tests/clauses.txt'

cat "$scratch/wrong"
echo "$(wc -l <"$scratch/sources") clauses, $(wc -l <"$scratch/wrong") wrong"
[[ -s $scratch/sources && ! -s $scratch/wrong ]]
