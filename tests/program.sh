# The built program `cesu8_cli`, for the scripts that run it. A script sources this file, and first
# sets `top`, the repository's folder, and `scratch`, a folder for the output of the build.
# shellcheck shell=bash disable=SC2154

# The gate sets PROVED_PROGRAM to the program that it has proved, so that it is not proved again.
# shellcheck disable=SC2034
program=${PROVED_PROGRAM:-$top/crates/cesu8_cli/out/cesu8_cli}

# Builds the program by `rt run`, the only command that keeps it in out/ (`rt try` builds without
# proof, and keeps nothing). In a clean clone `rt run` first proves the program and the libraries
# below it. If nothing has changed since the last run, it only runs the program.
build() {
    [[ -z ${PROVED_PROGRAM-} ]] || return 0
    # shellcheck source=tests/kit.sh
    source "$top/tests/kit.sh" || exit 2
    echo "building the program"
    if ! (cd "$top/crates/cesu8_cli" && rt run -- encode cesu8) </dev/null >"$scratch/build" 2>&1; then
        cat "$scratch/build" >&2
        echo "the program was not built" >&2
        exit 2
    fi
}
