#!/usr/bin/env bash
# Tests the Rust crate: the rules by which rust/erase.py (the eraser) removes the contracts, and the
# packages that rust/make.sh makes:
# - each level, and the plain form, which has no vectors, beside a codec by the standards' tables,
#   on hostile inputs, with debug assertions and overflow checks; the cases of tests/cli_cases.txt;
#   allocations, types and borrowing; the examples of the documentation;
# - the same calls beside the library for C of RELEASE, optimized;
# - a build for x86-64-v3, one that leaves out v3, one without std, and one with the feature
#   simdutf8, with a stand-in for the crate of that name, since no registry is asked;
# - rustc 1.85, if RUSTC_1_85 names it (tests/rust_1_85.sh unpacks one), and by this compiler the
#   crate for arm64 and i386, in the emulators beside it;
# - the levels under the address sanitizer, if rustup has a nightly compiler;
# - programs as a user writes them, from the .crate files of RELEASE, offline: the dependency in one
#   line, [patch.crates-io], panic = "abort", fat LTO, a static relocation model;
# - no warning of rustc, rustdoc, clippy and cargo package, and rustfmt of what is written by hand;
# - that the v3 code of the decoder's pass puts no vector together byte by byte.
#
# RELEASE names the folder that release/dist.sh has filled; without it the crates come from
# rust/make.sh, and nothing is compared with the library for C. It says what it skipped. It needs
# cargo and python3, bash, awk, sed, tar and the core utilities; without cargo or python3 it skips
# everything. The status is 0 if nothing is wrong.
#
#   rust.sh [--inputs N]    N inputs for each comparison, in place of the numbers below
unset "${!CARGO_@}" RUSTFLAGS
# shellcheck source=tests/lib.sh
source "$(dirname "${BASH_SOURCE[0]}")/lib.sh" || exit 2

debug_inputs=300
inputs=20000
if [[ ${1-} == --inputs && ${2-} =~ ^[0-9]+$ && $# == 2 ]]; then
    debug_inputs=$2
    inputs=$2
elif (($# > 0)); then
    echo 'usage: rust.sh [--inputs N]' >&2
    exit 2
fi
for tool in cargo python3; do
    if ! command -v "$tool" >/dev/null; then
        echo "$tool is missing: the Rust crate skipped"
        finish
        exit
    fi
done
export CARGO_NET_OFFLINE=true
version=$(<"$top/VERSION")
packages=$scratch/packages
crate=$packages/cesu8_rattle-$version
# What rustc takes for the level x86-64-v3.
v3_flags='-C target-cpu=x86-64-v3'
# Runs cargo in the crate: `in_crate ARGUMENT..`. It builds in the folder of $scratch that `target`
# names. What cargo writes for a debugger and for later builds would double the time of a debug
# build.
in_crate() {
    (cd "$crate" && CARGO_INCREMENTAL=0 CARGO_PROFILE_DEV_DEBUG=0 \
        CARGO_TARGET_DIR=$scratch/${target:-target} quietly cargo "$@")
}

# The packages: those of the release, or new ones.
lay_out() {
    local name
    mkdir -p "$packages/.cargo" || exit 2
    # Without a registry, cargo needs a folder for the optional dependency to test the crate itself.
    # A program that depends on the crate needs no such line.
    printf '%s\n' '[patch.crates-io]' "simdutf8 = { path = \"$top/rust/tests/simdutf8\" }" \
        >"$packages/.cargo/config.toml" || exit 2
    if [[ -z ${RELEASE-} ]]; then
        quietly "$top/rust/make.sh" "$packages" || exit 2
        return
    fi
    for name in "cesu8_rattle-$version" simd_cesu8-1.2.0; do
        tar xzf "$RELEASE/$name.crate" -C "$packages" || exit 2
    done
}

# Makes a package in a folder, as a user does: `user_package NAME DEPENDENCY [LINE..]`.
user_package() {
    local name=$1 dependency=$2
    shift 2
    mkdir -p "$scratch/users/$name/src" || exit 2
    {
        printf '%s\n' '[package]' "name = \"$name\"" 'version = "0.1.0"' 'edition = "2021"' ''
        printf '%s\n' '[dependencies]' "$dependency" "$@" '' '[workspace]'
    } >"$scratch/users/$name/Cargo.toml"
    cat >"$scratch/users/$name/src/main.rs" <<'RUST'
fn main() {
    let text = "caf\u{E9} \u{1F496}";
    let encoded = simd_cesu8::encode(text);
    assert_eq!(*encoded, *b"caf\xC3\xA9 \xED\xA0\xBD\xED\xB2\x96");
    assert_eq!(simd_cesu8::mutf8::decode(&encoded).unwrap(), text);
    println!("{}", simd_cesu8::decode_lossy(b"a\xFF"));
}

#[test]
fn encodes() {
    assert_eq!(*simd_cesu8::mutf8::encode("a\0"), *b"a\xC0\x80");
}
RUST
}

# Runs a user's package: `run_user NAME WHAT ARGUMENT..`, the arguments of cargo.
run_user() {
    local name=$1 what=$2
    shift 2
    if (cd "$scratch/users/$name" &&
        CARGO_TARGET_DIR=$scratch/users/target quietly cargo "$@"); then
        pass
    else
        wrong "$what"
    fi
}

test_eraser() {
    if quietly python3 "$top/rust/tests/test_erase.py"; then
        pass
    else
        wrong "the eraser's rules"
    fi
}

test_levels() {
    export CESU8_INPUTS=$debug_inputs
    if in_crate test; then pass; else wrong 'the tests with debug assertions'; fi
    export CESU8_INPUTS=$inputs
    if CARGO_PROFILE_RELEASE_OVERFLOW_CHECKS=true in_crate test --release --lib; then
        pass
    else
        wrong 'the levels, optimized, with overflow checks'
    fi
}

# Builds other forms of the crate. That for x86-64-v3 takes the least time, so it is the one that is
# compared with the library for C, if this processor has its level. Its assembly is also written,
# for `look_at_assembly`. The other forms differ in which code a call chooses, and `test_levels`
# tests that code on many inputs, so they are tested on few.
test_forms() {
    local compared=(test --release --test c_library --test cases --test surface)
    local flags="$v3_flags --emit asm"
    [[ -n ${CESU8_LIBRARY-} ]] ||
        echo 'RELEASE is not set: the Rust crate not compared with the library for C'
    if ! grep -q '\bavx2\b' /proc/cpuinfo; then
        flags=''
    fi
    target=v3 RUSTFLAGS=$flags in_crate "${compared[@]}" || wrong 'the build for x86-64-v3'
    export CESU8_INPUTS=$debug_inputs
    target=v2 RUSTFLAGS='--cfg cesu8_level="v2"' \
        in_crate test --lib -- level public_calls || wrong 'the build without v3'
    target=none in_crate check --no-default-features || wrong 'the build without std'
    target=simdutf8 in_crate test --features simdutf8 --test cases || wrong 'the feature simdutf8'
    target=plain RUSTFLAGS='--cfg cesu8_level="plain"' in_crate test --tests || wrong 'the plain form'
    pass
}

# Tests the crate for another processor, by rustc 1.85: `emulate ARCHITECTURE TARGET EMULATOR`. It skips
# what takes long in an emulator, and the comparison with the library for C, which is for x86-64.
emulate() {
    local folder name=${2^^}
    folder=$(dirname "$RUSTC_1_85")
    name=CARGO_TARGET_${name//-/_}
    if ! command -v ld.lld >/dev/null || [[ ! -x $folder/link-$1 || ! -x $folder/usr/bin/$3 ]]; then
        echo "ld.lld, or $folder/link-$1 and $3, are missing: the Rust crate for $1 skipped"
        return
    fi
    if (
        unset CESU8_LIBRARY
        export "${name}_LINKER=$folder/link-$1" "${name}_RUSTFLAGS=-C linker-flavor=ld"
        export "${name}_RUNNER=$folder/usr/bin/$3 -L $folder" RUSTC=$RUSTC_1_85
        export CARGO_PROFILE_TEST_OPT_LEVEL=1
        CESU8_INPUTS=$debug_inputs target=$1 in_crate test --target "$2" --tests -- \
            --skip fast_path
    ); then
        pass
    else
        wrong "the crate for $1"
    fi
}

test_old_compiler() {
    if [[ -z ${RUSTC_1_85-} ]]; then
        echo 'RUSTC_1_85 is not set: rustc 1.85, arm64 and i386 skipped'
        return
    fi
    if target=old RUSTC=$RUSTC_1_85 in_crate test --test cases; then
        pass
    else
        wrong 'rustc 1.85'
    fi
    emulate arm64 aarch64-unknown-linux-gnu qemu-aarch64-static
    emulate i386 i686-unknown-linux-gnu qemu-i386-static
}

# The sanitizer sees what the shim, which takes the place of Rattle's standard library, reads and
# writes by unsafe code at each level.
test_addresses() {
    if ! cargo +nightly --version >/dev/null 2>&1 || [[ $(uname -m) != x86_64 ]]; then
        echo 'no nightly cargo for x86-64: the address sanitizer skipped'
        return
    fi
    export CESU8_INPUTS=$debug_inputs
    if target=sanitized RUSTFLAGS=-Zsanitizer=address in_crate +nightly test \
        --target x86_64-unknown-linux-gnu --lib -- --skip fast_path; then
        pass
    else
        wrong 'the levels under the address sanitizer'
    fi
}

test_users() {
    local line="simd_cesu8 = { package = \"cesu8_rattle\", path = \"$crate\" }"
    user_package one_line "$line"
    run_user one_line 'a program with the one line, tested' test
    run_user one_line 'a program with the one line' run --release
    user_package patched 'simd_cesu8 = "1"' '' '[patch.crates-io]' \
        "simd_cesu8 = { path = \"$packages/simd_cesu8-1.2.0\" }"
    run_user patched 'a program with [patch.crates-io]' run
    user_package both "$line" \
        "other = { package = \"simd_cesu8\", path = \"$packages/simd_cesu8-1.2.0\" }"
    run_user both 'two packages in one program' check
    user_package abort "$line" '' '[profile.release]' 'panic = "abort"' 'lto = "fat"' \
        'codegen-units = 1' 'opt-level = 1'
    RUSTFLAGS='-C relocation-model=static' \
        run_user abort 'panic = "abort", fat LTO, static' run --release
}

look_at_style() {
    local file
    if RUSTDOCFLAGS='-D warnings' in_crate doc --no-deps; then
        pass
    else
        wrong 'warnings of rustdoc'
    fi
    if (cd "$crate" && cargo package --no-verify --allow-dirty --target-dir "$scratch/package") \
        >"$scratch/packaged" 2>&1 && ! grep '^warning' "$scratch/packaged"; then
        pass
    else
        wrong 'warnings of cargo package'
    fi
    if ! command -v cargo-clippy >/dev/null; then
        echo 'clippy is missing: skipped'
    elif in_crate clippy --all-targets -- -D warnings; then
        pass
    else
        wrong 'warnings of clippy'
    fi
    if ! command -v rustfmt >/dev/null; then
        echo 'rustfmt is missing: skipped'
        return
    fi
    # By standard input: otherwise rustfmt would look for the modules that only rust/make.sh writes.
    while read -r file; do
        rustfmt --edition 2024 --config-path "$top/rust/rustfmt.toml" <"$file" >"$scratch/formatted"
        cmp -s "$file" "$scratch/formatted" || wrong "${file#"$top/"} is not what rustfmt makes of it"
    done < <(find "$top/rust" -name '*.rs' | sort)
    pass
}

# rustc may take apart an array of 16 bytes that is passed by value, byte by byte. The eraser's rule
# "array by reference" avoids that.
look_at_assembly() {
    if [[ $(uname -m) != x86_64 ]]; then
        echo 'not x86-64: the assembly skipped'
        return
    fi
    # On a processor without AVX2 there is no such build yet.
    grep -q '\bavx2\b' /proc/cpuinfo ||
        target=v3 RUSTFLAGS="$v3_flags --emit asm" in_crate build --release ||
        wrong 'the assembly for x86-64-v3'
    awk '/^[_A-Za-z].*:/ { is_pass = /write_windows/; passes += is_pass }
        is_pass && /vpinsrb/ { print; found = 1 }
        END { exit found || !passes }' "$scratch/v3/release/deps"/*.s || wrong 'vpinsrb in the pass'
    pass
}

lay_out
if [[ -n ${RELEASE-} ]]; then
    archive=cesu8-$version-x86_64-linux
    mkdir "$scratch/release" || exit 2
    tar xzf "$RELEASE/$archive.tar.gz" -C "$scratch/release" || exit 2
    export CESU8_LIBRARY=$scratch/release/$archive/lib/libcesu8.so
fi
test_eraser
test_levels
test_forms
test_old_compiler
test_addresses
test_users
look_at_style
look_at_assembly
finish
