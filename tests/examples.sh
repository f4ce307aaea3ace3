#!/usr/bin/env bash
# Runs the examples of the pages and of the doc comments, and tests the quotations of the pages.
#
# It reads README.md, docs/*.md and the doc comments of crates/*/src. A block that begins with three
# backquotes and `rust` is an example. It runs as the body of a test with `rt`, the runtime, `alloc`, its
# allocator, `bytes`, four letters, and the imports below; `?` accepts any error. The test is named after
# the file and the line. CALLING quotes the `main` below. A block that begins with three backquotes, a
# language and the path of a file is a quotation: its lines must be consecutive lines of that file. Other
# blocks are skipped.
#
# The examples are built without proof, in a separate repository with copies of the libraries.
# It prints what is wrong, and the counts at the end. The status is 0 if nothing is wrong. It needs
# the kit's `rt`, bash, awk, grep, sed, find and the core utilities.
# shellcheck source=tests/lib.sh
source "$(dirname "${BASH_SOURCE[0]}")/lib.sh" || exit 2
# shellcheck source=tests/kit.sh
source "$top/tests/kit.sh" || exit 2
mkdir -p "$scratch/blocks" "$scratch/crates/examples/src" || exit 2
cd "$top" || exit 2

examples=0
quotations=0

# Writes each block of a file to a file of its own, and prints that file's name, the number of the line
# before the block and the words after its backquotes. In Rattle's files only doc comments are read.
# shellcheck disable=SC2016
blocks='
    comments { if (!sub(/^[ \t]*\/\/[\/!] ?/, "")) next }
    /^```/ && inside { inside = 0; close(block); next }
    /^```/ {
        inside = 1
        block = folder "/" (before + ++count)
        printf "" >block
        print block, NR, substr($0, 4)
        next
    }
    inside { print >block }
    END { if (inside) print "unclosed", NR, "" }
'

# Prints the name of a test, by file and line.
test_name() {
    local name=${1,,}
    printf '%s_line_%s' "${name//[^a-z0-9]/_}" "$2"
}

# Prints a block as the body of a test: `example FILE LINE BLOCK`.
example() {
    examples=$((examples + 1))
    printf '\n    #[test]\n    fn %s(rt: HostRuntime) -> Result<(), Fail> {\n' "$(test_name "$1" "$2")"
    printf '        let alloc = rt.alloc();\n        let bytes = b"text".as_slice();\n'
    printf '        let _ = (alloc, bytes);\n'
    cat "$3"
    printf '        Ok(())\n    }\n'
}

# Tests that a block is a part of a file: `quotation FILE LINE BLOCK QUOTED`.
quotation() {
    local quoted=$'\n'$4 block
    quotations=$((quotations + 1))
    if [[ ! -f $4 ]]; then
        wrong "$1:$2 quotes $4, and there is no such file"
        return
    fi
    quoted=$'\n'$(<"$4")$'\n'
    block=$'\n'$(<"$3")$'\n'
    if [[ $quoted != *"$block"* ]]; then
        wrong "$1:$2 quotes what does not stand in $4"
    fi
}

# Handles each block of a file: `read_file FILE COMMENTS`. Tests are appended to the file of tests.
read_file() {
    local block line language path found
    found=$(find "$scratch/blocks" -type f | wc -l)
    while read -r block line language path; do
        if [[ $block == unclosed ]]; then
            wrong "$1 ends within a block"
        elif [[ -n $path ]]; then
            quotation "$1" "$line" "$block" "$path"
        elif [[ $language == rust ]]; then
            example "$1" "$line" "$block" >>"$scratch/tests"
        fi
    done < <(awk -v folder="$scratch/blocks" -v before="$found" -v comments="$2" "$blocks" "$1")
}

for file in README.md docs/*.md; do
    read_file "$file" ''
done
while read -r file; do
    read_file "$file" 1
done < <(find crates/*/src -name '*.rt' | sort)
if ((examples == 0)); then
    echo 'no example was found' >&2
    exit 2
fi

# The libraries, each with its line of crates.txt.
libraries=''
while read -r name uses; do
    [[ $name == *: && -f crates/${name%:}/src/lib.rt ]] || continue
    name=${name%:}
    libraries+=" $name"
    printf '%s: %s\n' "$name" "$uses" >>"$scratch/crates.txt"
    mkdir "$scratch/crates/$name" || exit 2
    for folder in src specs proofs; do
        [[ ! -d crates/$name/$folder ]] || cp -R "crates/$name/$folder" "$scratch/crates/$name" || exit 2
    done
done < <(sed 's/#.*//' crates.txt)
printf 'examples:%s\n' "$libraries" >>"$scratch/crates.txt"
{
    printf '//! The examples.\n#![tactic(auto)]\n\n'
    cat <<'FRAME'
use std::test::Fail;

fn main(rt: HostRuntime) -> Result<(), Fail> {
    let (alloc, bytes) = (rt.alloc(), b"text".as_slice());
    let text = simd_cesu8::decode_strict(alloc, bytes)?;
    rt.println(text.as_str())?;
    Ok(())
}
FRAME
    printf '\n#[cfg(test)]\nmod tests {\n'
    printf '    use std::cmp::Ordering;\n    use std::collections::BTreeMap;\n    use std::test::Fail;\n'
    cat "$scratch/tests"
    printf '}\n'
} >"$scratch/crates/examples/src/main.rt"

if ! (cd "$scratch/crates/examples" && rt try --test) </dev/null >"$scratch/run" 2>&1; then
    wrong 'an example fails'
    grep -v '^test .* ok$' "$scratch/run"
fi
ran=$(grep -c '^test .* ok$' "$scratch/run")
echo "$ran of $examples examples ran, $quotations quotations, $failed wrong"
((failed == 0 && ran == examples))
