# The scripts of tests/ in the gate, and the proofs that they need. .ci/run sources this file, and
# first sets `scratch`. In that folder, `scripts` is a copy of the tree, in which the scripts run.
# Functions that are not defined here are in .ci/run, edits.sh or account.sh.
# shellcheck shell=bash disable=SC2154
#
# The scripts run in lanes: the scripts of a lane run one after another, and the lanes at the same
# time.
# - run_libraries proves the libraries, and then runs the scripts that call `rt` in this copy. `rt`
#   lets only one command at a time work in a crate. Besides, these scripts build a crate for
#   different processor levels in one folder `out`.
# - run_programs begins with what needs no proof. It goes on with what needs only the programs of
#   `rt ci`.
# - run_release begins when exports.sh has built the library for C, which dist.sh copies. When
#   dist.sh has made the release, two lanes share the scripts that use it. The shorter of these
#   lanes also runs vendor.sh, which only copies the proofs of the libraries.
#
# So no script reads what another may be writing. Each writes into a temporary folder of its own,
# except for two places: the folders `out` of this copy, and RELEASE, the folder in which dist.sh
# leaves the release.

without_proof=(examples)
of_programs=(memory cli cesu8conv hostile requests peers)
of_libraries=(bench costs)
of_archive=(rust aarch64)
of_packages=(wheel packages)

# Starts the lanes, in a process group of their own. For each part that has ended, they write a line
# with its status and its name to the file `ended`.
start_lanes() {
    mkdir "$scratch/printed"
    : >"$scratch/ended"
    set -m
    run_lanes </dev/null >"$scratch/ended" &
    lanes=$!
    set +m
}

run_lanes() {
    local keeper
    keep_programs &
    keeper=$!
    run_libraries &
    run_programs
    wait
}

run_libraries() {
    run_in_lane 'rt lib' prove_libraries
    run_scripts_in_lane exports
    run_release &
    run_scripts_in_lane "${of_libraries[@]}"
    wait
}

run_programs() {
    run_in_lane .ci/shows.sh bash "$scratch/scripts/.ci/shows.sh"
    run_scripts_in_lane "${without_proof[@]}"
    ! await_programs || run_scripts_in_lane "${of_programs[@]}"
}

run_release() {
    if await_programs; then
        run_scripts_in_lane dist
        run_scripts_in_lane "${of_archive[@]}" &
        run_scripts_in_lane "${of_packages[@]}"
    fi
    run_scripts_in_lane vendor
    wait
}

# Runs a part: `run_in_lane NAME COMMAND WORD..`. What it prints goes to a file, since other parts
# print at the same time.
run_in_lane() {
    local status=0
    run_timed "$@" >"$scratch/printed/${1//\//_}" 2>&1 || status=$?
    echo "$status $1"
}

run_scripts_in_lane() {
    local script
    for script in "$@"; do
        run_in_lane "tests/$script.sh" bash "$scratch/scripts/tests/$script.sh"
    done
}

# Shows what each part printed as soon as it has ended, and counts it. A part that did not run
# counts as wrong.
count_lanes() {
    local status name expected ended=' '
    while read -r status name; do
        echo "== $name"
        cat "$scratch/printed/${name//\//_}"
        count_part "$status" "$name"
        ended+="$name "
    done < <(tail -n +1 -f --pid="$lanes" "$scratch/ended")
    expected=(exports dist vendor "${without_proof[@]}" "${of_programs[@]}" "${of_libraries[@]}"
        "${of_archive[@]}" "${of_packages[@]}")
    expected=("${expected[@]/#/tests/}")
    for name in 'rt lib' .ci/shows.sh "${expected[@]/%/.sh}"; do
        [[ $ended == *" $name "* ]] || wrong 1 "$name was not run"
    done
}

# Proves the libraries in the scripts' copy, and notes for the edits which are proved. What a crate
# uses comes first: over a library that is not built, `rt` would read all sources once more, to
# report errors early. A static library is not compiled here: the scripts do that.
prove_libraries() {
    local crate name verb
    for crate in $(crates_with_edits); do
        ! is_of_programs "$crate" || continue
        for name in $(used_by "$crate") "$crate"; do
            [[ ! -e $scratch/proved/$name ]] || continue
            verb=lib
            ! grep -q "^$name staticlib" crates.txt || verb=check
            if ! (cd "$scratch/scripts/crates/$name" && rt "$verb" --jobs 1) \
                >"$scratch/lib.output" 2>&1; then
                cat "$scratch/lib.output"
                touch "$scratch/proved/failed"
                return 1
            fi
            touch "$scratch/proved/$name"
        done
    done
}

# Copies a program as soon as `rt ci` says that it has proved and linked it, or has it from an
# earlier run, since `rt ci` removes the program at its end. Fails if `rt ci` says that the program
# is not proved, or ends without having it: `keep_program CRATE FILE`.
keep_program() {
    local is_over=''
    until grep -qE "rt: $1 (proved$|is kept: )" "$scratch/ci.output"; do
        [[ -z $is_over ]] && ! grep -q "rt: $1 NOT PROVED" "$scratch/ci.output" || return 1
        sleep 3
        kill -0 "$proofs" 2>/dev/null || is_over=yes
    done
    cp "$scratch/ci/crates/$1/out/$1" "$2"
}

# Keeps the programs under the names by which scripts find them.
keep_programs() {
    if keep_program cesu8_cli "$PROVED_PROGRAM" && keep_program cesu8conv "$PROVED_CESU8CONV" &&
        keep_program memory_calls "$PROVED_MEMORY_CALLS"; then
        touch "$scratch/programs_are_kept"
    else
        echo 'a program is not proved, so the scripts that need one are not run' >&2
    fi
}

# Waits until keep_programs has ended. It fails if a program is not proved.
await_programs() {
    while kill -0 "$keeper" 2>/dev/null; do sleep 3; done
    [[ -e $scratch/programs_are_kept ]]
}
