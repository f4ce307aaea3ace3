#!/usr/bin/env bash
# Makes a new repository with a copy of the libraries, made by release/vendor.sh, and two crates,
# one of them with a proof that cites a clause and a law. It proves and runs them. It tests that the
# copy has the needed files and no others, and no tests; that git ignores everything that `rt` made;
# that a second copy changes nothing; and which folders vendor.sh rejects. The status is 0 if
# nothing is wrong.
#
# The script reuses what is proved here of the same sources. In a clean clone that is nothing, and proving
# takes minutes.
#
# It needs the kit's `rt`, bash, grep, sed and the core utilities, and git for the test of git.
# shellcheck source=tests/lib.sh
source "$(dirname "${BASH_SOURCE[0]}")/lib.sh" || exit 2
# shellcheck source=tests/kit.sh
source "$top/tests/kit.sh" || exit 2

# The program that README.md quotes.
write_program() {
    mkdir -p "$1/keys/src" || exit 2
    cat >"$1/keys/src/main.rt" <<'PROGRAM'
#![tactic(auto)]
use std::io;

fn main(rt: HostRuntime) -> io::Result<()> {
    let key = simd_cesu8::encode(rt.alloc(), "a\u{1F496}")?;
    println!(rt; "{} bytes, borrowed: {}", key.as_bytes().len(), key.is_borrowed())?;

    let text = simd_cesu8::decode_lossy_strict(rt.alloc(), key.as_bytes())?;
    rt.println(text.as_str())
}
PROGRAM
}

# The library that docs/CALLING.md quotes. Only its last function has a proof by hand.
write_library() {
    mkdir -p "$1/sorted/src" "$1/sorted/proofs/there_and_back" || exit 2
    cat >"$1/sorted/src/lib.rt" <<'LIBRARY'
//! Keys that sort as UTF-16 does.
#![tactic(auto)]

ghost use Rattle.std.specs.Prelude.{◌≡◌, IfOk};
ghost use Rattle.std.specs.Str.{chars};
ghost use Rattle.std.specs.String.{string_bytes};
ghost use Rattle.simd_cesu8.specs.Encoding.{Cesu8, encoding};
ghost use Rattle.simd_cesu8.specs.Reading.{IsStrictReading};

use simd_cesu8::DecodeFault;
use std::alloc::{AllocError, Global};

/// Returns the key of a text, its CESU-8.
pub fn key_of(alloc: Global, text: &str) -> Result<Vec<u8>, AllocError>
    ensures { IfOk result (λ key. key.items ≡ encoding Cesu8 (chars text.now)) }
{
    simd_cesu8::encode(alloc, text)?.into_vec(alloc)
}

/// Returns the text of a key.
pub fn text_of(alloc: Global, key: &[u8]) -> Result<String, DecodeFault>
    ensures { IfOk result (λ text. IsStrictReading Cesu8 key.now (chars (string_bytes text))) }
{
    let text = simd_cesu8::decode_strict(alloc, key)?;
    text.into_string(alloc).map_err(DecodeFault::Memory)
}
LIBRARY
    cat >>"$1/sorted/src/lib.rt" <<'FUNCTION'

use simd_cesu8::laws;

/// Makes a key of a text and reads it: returns the text.
pub fn there_and_back(alloc: Global, text: &str) -> Result<String, DecodeFault>
    ensures { IfOk result (λ back. string_bytes back ≡ text.now) }
{
    laws::inverse();
    let key = match key_of(alloc, text) {
        Ok(key) => key,
        Err(error) => return Err(DecodeFault::Memory(error)),
    };
    text_of(alloc, key.as_slice())
}
FUNCTION
    cat >"$1/sorted/proofs/there_and_back/Answers.antt" <<'ANSWERS'
use Rattle.std.proofs.Common.{◌∙◌}
use Rattle.std.specs.String.{string_bytes}
use Rattle.std.proofs.lemmas.Result.{IfOk-weaker}
use Rattle.std.proofs.lemmas.Str.{IsUtf8-string_bytes}
use Rattle.simd_cesu8.specs.Encoding.{Cesu8}
use Rattle.sorted.proofs.there_and_back.Goals as goal

pub returns : goal.returns
returns c =
    IfOk-weaker _ _ _ (λ back. c.inverse.ensures.decoded Cesu8 c.args.text.now _ (string_bytes back) c.utf8.text
    (IsUtf8-string_bytes back) (c.as_slice.ensures.value ∙ c.in-Ok.ensures)) c.text_of.ensures
ANSWERS
}

# Prints the files that a copy must have: those of three folders, and four more.
wanted_files() {
    local library
    for library in "${libraries[@]}"; do
        (cd "$top/crates" && find "$library/src" "$library/specs" "$library/proofs" -type f)
        printf "$library/%s\n" .gitignore LICENSE-APACHE LICENSE-MIT VERSION
    done | sort
}

# Prints the files that it has, except those that `rt` made.
copied_files() {
    (cd "$new/crates" && find . -type f ! -path '*/out/*' ! -path './keys/*' ! -path './sorted/*' \
        -printf '%P\n' | sort)
}

# Copies the libraries, and tests that crates.txt has these lines then: `copy LINES`.
copy() {
    "$top/release/vendor.sh" "$new" >>"$new/crates.txt" || wrong 'vendor.sh fails'
    [[ $(<"$new/crates.txt") == "$1" ]] || wrong "crates.txt has other lines than $1"
    diff <(wanted_files) <(copied_files) || wrong 'the copy has other files'
    compare_code
}

# Tests that the code is the same, except for the tests, which are at the end of a file.
compare_code() {
    local file
    while read -r file; do
        sed '/^#\[cfg(test)\]$/,$d' "$top/crates/$file" | sed '${/^$/d}' |
            diff - "$new/crates/$file" || wrong "the code of $file is other"
    done < <(cd "$top/crates" && find "${libraries[@]}" -path '*/src/*.rt' ! -path '*/out/*')
    grep -r --include='*.rt' '#\[test\]' "$new/crates" && wrong 'a test is copied'
}

# Runs `rt` in a crate of the new repository: `prove_crate CRATE COMMAND`.
prove_crate() {
    (cd "$new/crates/$1" && quietly rt "$2" ${PROOF_JOBS:+--jobs "$PROOF_JOBS"})
}

# Proves the crates and runs the program, with what is already proved here. The library comes first: over one
# that is not built, `rt run` would read all sources once more, to report errors early.
prove() {
    local library made
    for library in "${libraries[@]}"; do
        mkdir "$new/crates/$library/out" || exit 2
        for made in rlib incremental; do
            [[ -d $top/crates/$library/out/$made ]] || continue
            cp -R "$top/crates/$library/out/$made" "$new/crates/$library/out" || exit 2
        done
    done
    if ! prove_crate sorted lib || ! prove_crate keys run; then
        wrong 'the crates are not proved'
    elif ! grep -qx '7 bytes, borrowed: false' "$scratch/said" ||
        ! grep -qx $'a\360\237\222\226' "$scratch/said"; then
        cat "$scratch/said"
        wrong 'the program prints something else'
    fi
}

# Tests that git ignores everything that `rt` made in the copy.
look_at_git() {
    if ! command -v git >/dev/null; then
        echo 'git is missing: the check of what it would take skipped'
        return
    fi
    (cd "$new" && git init -q . && git add "${libraries[@]/#/crates/}") ||
        wrong 'git takes no copy'
    if (cd "$new" && git ls-files) | grep '/out/'; then
        wrong 'git takes what rt made'
    fi
}

# The crates that are copied, and the lines that vendor.sh prints for crates.txt. `simdutf8` is a
# crate of the kit, so it is not copied.
libraries=(cesu8_text cesu8_bytes cesu8_encode cesu8_decode simd_cesu8 java_text cesu8_stream)
lines='cesu8_text:
cesu8_bytes: cesu8_text
cesu8_encode: cesu8_bytes cesu8_text
cesu8_decode: cesu8_bytes cesu8_text simdutf8
simd_cesu8: cesu8_encode cesu8_decode cesu8_bytes cesu8_text
java_text: simd_cesu8
cesu8_stream: simd_cesu8 simdutf8'
new=$scratch/new
mkdir "$new" || exit 2
copy "$lines"
write_program "$new/crates"
write_library "$new/crates"
own='sorted: simd_cesu8
keys: simd_cesu8 sorted'
echo "$own" >>"$new/crates.txt"
prove
look_at_git
# The second copy removes a file that the library here does not have, and prints no line again.
echo 'old' >"$new/crates/simd_cesu8/src/old.rt"
copy "$lines"$'\n'"$own"

# Tests that vendor.sh rejects a folder with status 2, and changes nothing in it:
# `refuses WHAT VENDOR FOLDER`.
refuses() {
    local status=0
    rm -rf "$scratch/before" && cp -a "$3/." "$scratch/before" || exit 2
    "$2" "$3" >"$scratch/printed" 2>"$scratch/said" || status=$?
    [[ $status == 2 && ! -s $scratch/printed && -s $scratch/said ]] || wrong "vendor.sh takes $1"
    diff -r "$scratch/before" "$3/." || wrong "vendor.sh writes to $1"
}

# A repository without a folder crates, and one with a library of its own that has one of these names.
mkdir -p "$scratch/flat" "$scratch/other/crates/simd_cesu8/src" || exit 2
printf 'keys: simd_cesu8' >"$scratch/flat/crates.txt"
# vendor.sh is called by a symbolic link.
ln -s "$top/release/vendor.sh" "$scratch/vendor" || exit 2
"$scratch/vendor" "$scratch/flat" >>"$scratch/flat/crates.txt" ||
    wrong 'vendor.sh fails beside crates.txt'
[[ $(head -n 2 "$scratch/flat/crates.txt") == $'keys: simd_cesu8\ncesu8_text:' ]] ||
    wrong 'a line of crates.txt without an end is lengthened'
[[ -f $scratch/flat/java_text/src/lib.rt ]] || wrong 'the copy does not stand beside crates.txt'
refuses 'a library that it did not copy' "$top/release/vendor.sh" "$scratch/other"

# A copy that is a symbolic link: its target may belong to something else.
mkdir -p "$scratch/linked/crates" || exit 2
ln -s "$scratch/flat/simd_cesu8" "$scratch/linked/crates/simd_cesu8" || exit 2
echo 'own' >"$scratch/flat/simd_cesu8/src/own.rt"
refuses 'a link to a copy' "$top/release/vendor.sh" "$scratch/linked"
[[ -f $scratch/flat/simd_cesu8/src/own.rt ]] || wrong 'vendor.sh writes through a link'

# Its own repository, by name and by a symbolic link: here one whose libraries are copies themselves.
mkdir -p "$scratch/own/crates" "$scratch/own/release" || exit 2
cp "$top/release/vendor.sh" "$scratch/own/release" || exit 2
cp "$top"/{crates.txt,VERSION,LICENSE-APACHE,LICENSE-MIT} "$scratch/own" || exit 2
cp -R "${libraries[@]/#/$scratch/flat/}" "$scratch/own/crates" || exit 2
ln -s own "$scratch/link" || exit 2
refuses 'its own repository' "$scratch/own/release/vendor.sh" "$scratch/own"
refuses 'a link to its own repository' "$scratch/own/release/vendor.sh" "$scratch/link"

((failed == 0)) || exit 1
echo 'a new repository with a copy of the libraries is proved'
