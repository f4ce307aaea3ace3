# The check before a push, `.ci/run --quick`. .ci/run sources this file, and first sets `scratch`, a
# folder for temporary files. Functions that are not defined here are in .ci/run, edits.sh or
# account.sh.
#
# It compares this tree with a commit, and tests less than the gate, so only the gate decides. It starts from
# what `rt` has kept in the `out` folders of this clone. Then it
# - proves the crates that differ, and the crates that use them if these have `specs`, or are
#   cesu8_cli or cesu8conv. Of what these use, it proves only what this clone has no proof of in its
#   present form;
# - runs, without proof, the tests of the crates that differ and of all crates that use them;
# - tries the edits that differ and those of files that differ, but leaves .ci/shows.sh to the gate. It also
#   tests that all edits of the crates that differ can be applied;
# - links cesu8_cli and cesu8conv if they were proved, and runs their scripts: cli.sh and
#   requests.sh, or cesu8conv.sh.
#
# If a crate had nothing in its `out` folder, as often `uses` and the tests, its proof is kept there for the
# next run.
#
# It works in two copies of the tree. `tests` has no proofs that were kept. `scripts`, the name that edits.sh
# expects, has the crates that are proved and what was kept of them. The first crate that is not formatted
# or not proved ends the run.
# shellcheck shell=bash disable=SC2034,SC2154

# A crate is above those that it uses, directly or through others. These lists have the crates that
# differ; those above them that are proved; those that have tests; those above that are neither
# proved nor tested here; and the crates to prove with all that they use, each after what it uses.
differing=()
above=()
tested=()
left=()
needed=()

# Whether a file of a crate differs, or a file that every crate is read with.
differs() {
    grep -qE "^(crates/$1/|crates\.txt$|HANDLES$)" "$scratch/paths"
}

# Whether a crate uses one that differs, directly or through others.
is_above() {
    local used
    for used in $(used_by "$1"); do
        if differs "$used" || is_above "$used"; then return; fi
    done
    return 1
}

# Adds a crate to `needed`, after those that it uses.
need() {
    local used
    ! is_needed "$1" || return 0
    for used in $(used_by "$1"); do need "$used"; done
    needed+=("$1")
}

is_needed() {
    [[ " ${needed[*]} " == *" $1 "* ]]
}

# Whether a crate is in `differing` or in `above`.
is_changed() {
    [[ " ${differing[*]} ${above[*]} " == *" $1 "* ]]
}

# Fills the five lists, by how the tree differs from a commit: `choose_crates REV`.
choose_crates() {
    local crate
    if ! git diff --name-only --no-renames "$1" -- >"$scratch/paths"; then
        echo "--quick compares with a commit, which '$1' is not" >&2
        exit 2
    fi
    git ls-files --others --exclude-standard >>"$scratch/paths"
    for crate in $(listed_crates); do
        if differs "$crate"; then
            differing+=("$crate")
        elif ! is_above "$crate"; then
            continue
        elif [[ -d crates/$crate/specs || $crate == cesu8_cli || $crate == cesu8conv ]]; then
            above+=("$crate")
        fi
        if grep -rqF '#[test]' "crates/$crate/src"; then
            tested+=("$crate")
        elif ! is_changed "$crate"; then
            left+=("$crate")
        fi
    done
    for crate in "${differing[@]}" "${above[@]}"; do need "$crate"; done
}

# Prints the edits of files that differ, and those that differ themselves.
edits_to_try() {
    local edit file
    for edit in crates/*/must-fail/*.edit; do
        for file in "$edit" $(sed -n "s|^file: *|${edit%must-fail/*}|p" "$edit"); do
            if grep -qxF "$file" "$scratch/paths"; then
                echo "$edit"
                break
            fi
        done
    done
}

# Whether this clone has a proof of a crate in its present form. `rt` compares what the files contain. This
# compares only their times, which is enough here: nothing is taken as proved because of it.
is_kept() {
    local at=crates/$1
    ! is_changed "$1" && [[ -e $at/out/rlib/stamp &&
        -z $(find "$at"/{src,specs,proofs} -newer "$at/out/rlib/stamp") ]]
}

# Prints what will be done, about how long that takes, and what is left to the gate: `announce REV`. The
# times were measured on a processor at 2.5 GHz.
announce() {
    local seconds=0 again=() new=() crate lines tests lanes=$((processors < 3 ? processors : 3))
    for crate in "${needed[@]}"; do
        if is_kept "$crate"; then
            continue
        elif [[ ! -d crates/$crate/out/incremental ]]; then
            new+=("$crate")
            lines=$(find "crates/$crate/src" -name '*.rt' -exec cat {} + | wc -l)
            seconds=$((seconds + 20 + lines / 5))
        else
            again+=("$crate")
            seconds=$((seconds + 30))
        fi
    done
    for crate in "${tested[@]}"; do
        tests=$(grep -rhF '#[test]' "crates/$crate/src" | wc -l)
        seconds=$((seconds + 20 + 6 * tests))
    done
    seconds=$((seconds + 15 * $(edits_to_try | wc -l)))
    ! is_needed cesu8_cli || seconds=$((seconds + 45))
    echo "differ from $1: ${differing[*]}"
    echo "to prove, over what this clone has of them: ${again[*]:-nothing}"
    echo "to prove for the first time: ${new[*]:-nothing}"
    echo "to test, without proof: ${tested[*]:-nothing}"
    echo "left to the gate: the proofs of tests, other edits and scripts, ${left[*]:-no crate}"
    echo "that takes about $((seconds / 60 + 1)) minutes of a processor, $((seconds / 60 / lanes + 1)) by the clock"
    [[ " ${new[*]} " != *' simd_cesu8 '* ]] || echo 'after rt run in crates/cesu8_cli it takes less'
}

# Makes the copy in which the tests run.
copy_for_tests() {
    mkdir "$scratch/tests"
    tar -c --exclude=.git --exclude=out . | tar -x -C "$scratch/tests"
}

# Makes the copy in which crates are proved: from the copy for tests, with what this clone has kept.
copy_for_proofs() {
    local crate
    cp -r "$scratch/tests" "$scratch/scripts"
    rm -rf "$scratch/scripts"/crates/*/must-fail
    edits_to_try | xargs -r cp --parents -t "$scratch/scripts"
    for crate in $(listed_crates); do
        if is_needed "$crate"; then
            copy_proof "$crate"
        else
            rm -rf "$scratch/scripts/crates/$crate"
            sed -i "/^$crate\b/d" "$scratch/scripts/crates.txt"
        fi
    done
}

# Copies what this clone has kept of a crate's proof: the library, and if the crate has to be proved, what
# `rt` begins with. The library's files are hard links if possible, since `rt` replaces such a file and never
# writes into it.
copy_proof() {
    local out=crates/$1/out
    if [[ -d $out/rlib ]]; then
        cp -rl --parents "$out/rlib" "$scratch/scripts" 2>/dev/null || cp -r --parents "$out/rlib" "$scratch/scripts"
    fi
    if [[ -d $out/incremental ]] && ! is_kept "$1"; then
        cp -r --parents "$out/incremental" "$scratch/scripts"
    fi
}

# Runs a command in a folder below `scratch`. If it fails, prints its output without the lines that report
# success: `run_in FOLDER COMMAND WORD..`.
run_in() {
    local at=$scratch/$1 said
    shift
    said=$(mktemp "$scratch/said.XXXXXX")
    if (cd "$at" && "$@") </dev/null >"$said" 2>&1; then return; fi
    grep -avE '^(fn|struct|enum|trait|impl) .*: proved$|^(so far|library|statements|checked) |^test .* ok$' "$said"
    return 1
}

# Tests that a crate is formatted as `rt fmt` wants, and that all of its edits can be applied. It
# prints what `rt` reports.
look_at_form() {
    local said
    # `rt` does not read the lines `shows:` of edits, which are for .ci/shows.sh, and notes each.
    said=$(
        cd "$scratch/tests/crates/$1" && rt fmt 2>&1 |
            sed '/^rt: note: must-fail\/.* has a line that is not read, .*: shows: /d'
        exit "${PIPESTATUS[0]}"
    ) && [[ -z $said ]] && return
    echo "$said"
    return 1
}

# Proves a crate that differs. The crates above it and its edits need that proof. `rt` also proves what it
# uses, so all crates up to it in `needed` are then marked as proved.
prove_crate() {
    local verb=lib name
    [[ ! -e crates/$1/src/main.rt ]] || verb=check
    run_in "scripts/crates/$1" rt "$verb" || return
    for name in "${needed[@]}"; do
        touch "$scratch/proved/$name"
        [[ $name != "$1" ]] || return 0
    done
}

# Keeps in this clone the proofs of crates of which it had none. The folder is copied first and then renamed,
# so that an `rt` that runs at the same time never finds half of it.
keep_proofs() {
    local crate out
    for crate in "${needed[@]}"; do
        out=crates/$crate/out
        [[ ! -e $out && -d $scratch/scripts/$out ]] || continue
        rm -rf "$out.new"
        cp -r "$scratch/scripts/$out" "$out.new" && mv -T "$out.new" "$out"
    done
}

# Links the program, and compares its output with the file `stdout` of its crate.
link_program() {
    local -a words
    mapfile -t words <args
    rt run -- "${words[@]}" <stdin | cmp - stdout
}

# Runs the tests of a crate without proof. With the checks of `rt try`, one test takes up to a minute of a
# processor.
try_tests() {
    if run_in "tests/crates/$1" rt try --test --seconds 1800; then echo "tests of $1: passed"; fi
    note_seconds "tests of $1"
}

# Tries the edits, and at the same time runs the tests of two crates at once.
try_edits_and_tests() {
    local crate
    try_edits 1 "${differing[@]}" &
    for crate in "${tested[@]}"; do
        while (($(jobs -rp | wc -l) > 2)); do wait -n || :; done
        try_tests "$crate" &
    done
    wait
}

# Counts the crates whose tests passed, by the lines that `try_tests` printed. All others are wrong.
count_tests() {
    local crate
    for crate in "${tested[@]}"; do
        if grep -qxF "tests of $crate: passed" "$scratch/edits.output"; then
            passed=$((passed + 1))
        else
            wrong 1 "tests of $crate"
        fi
    done
}

# Runs a part, and ends the whole run if it fails: `run_or_end NAME COMMAND WORD..`.
run_or_end() {
    run_part "$@"
    ((failed == 0)) || end
}

# Links a program if it was proved, and runs its scripts, which read its path from a variable: `run_with
# CRATE VARIABLE SCRIPT..`.
run_with() {
    local crate=$1 variable=$2
    shift 2
    is_needed "$crate" || return 0
    run_or_end "$crate: link" run_in "scripts/crates/$crate" link_program
    export "$variable=$scratch/scripts/crates/$crate/out/$crate"
    run_scripts "$@"
}

# The whole check before a push: `run_quick REV`.
run_quick() {
    local crate
    choose_crates "$1"
    if ((${#differing[@]} == 0)); then
        echo "no crate differs from $1"
        end
    fi
    announce "$1"
    copy_for_tests
    for crate in "${differing[@]}"; do run_or_end "$crate: form" look_at_form "$crate"; done
    copy_for_proofs
    start_tries try_edits_and_tests
    for crate in "${differing[@]}"; do run_or_end "$crate: proof" prove_crate "$crate"; done
    ((${#above[@]} == 0)) || run_or_end 'proofs above' run_in scripts rt all check --jobs "$processors"
    keep_proofs
    run_with cesu8_cli PROVED_PROGRAM cli requests
    run_with cesu8conv PROVED_CESU8CONV cesu8conv
    count_edits "${differing[@]}"
    count_tests
    echo 'only the whole gate decides: .ci/run'
    end
}
