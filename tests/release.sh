# The release that release/dist.sh makes, for the scripts that use it. A script sources this file
# after tests/lib.sh. It ends with status 1 if something is wrong with the release, and with 2 if the
# script cannot test it.
# shellcheck shell=bash disable=SC2034,SC2154

version=$(<"$top/VERSION")
major=${version%%.*}
name=cesu8-$version-x86_64-linux
cross_name=cesu8-$version-aarch64-linux

# Sets `release`, the folder that dist.sh has filled, `unpacked`, the folder that its archive holds,
# and `seconds`, the time of its commit. If RELEASE is not set, it runs dist.sh. If a tool that this
# needs is missing, it says that WHAT is skipped, and fails: `find_release WHAT`.
find_release() {
    local tool
    release=${RELEASE-}
    if [[ -z $release ]]; then
        for tool in git cc ar ld nm objcopy objdump tar gzip; do
            if ! command -v "$tool" >/dev/null; then
                echo "$tool is missing: $1 skipped"
                return 1
            fi
        done
        can_build_c "$1" || return 1
        # shellcheck source=tests/kit.sh
        source "$top/tests/kit.sh"
        release=$scratch/release
        quietly bash "$top/release/dist.sh" "$release" || exit 1
    fi
    mkdir "$scratch/unpacked" && tar xzf "$release/$name.tar.gz" -C "$scratch/unpacked" || exit 2
    unpacked=$scratch/unpacked/$name
    seconds=$(stat -c %Y "$unpacked/BUILT-FROM") || exit 2
}

# Makes the script build for aarch64 from here on, and run what it builds in an emulator. If a tool
# for that is missing, it says that WHAT is skipped, and fails: `for_aarch64 WHAT`.
for_aarch64() {
    local missing
    # shellcheck source=tests/cross.sh
    source "$top/tests/cross.sh"
    if ! missing=$(can_cross); then
        echo "$missing: $1 skipped"
        return 1
    fi
    if ! command -v "$AARCH64_EMULATOR" >/dev/null; then
        echo "$AARCH64_EMULATOR is missing: $1 skipped"
        return 1
    fi
    c_compiler=$AARCH64_CC
    cpp_compiler=$AARCH64_CXX
    # The emulator looks for the C library in the folder lib of this folder.
    emulator=("$AARCH64_EMULATOR" -L "$(dirname "$("$AARCH64_CC" -print-file-name=libc.so.6)")/..")
}
