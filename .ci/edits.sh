# How the gate tries the edits of must-fail. .ci/run sources this file, and first sets `scratch`. In
# that folder, `scripts` is a copy of the tree in which the libraries are proved, and `proved` has a
# file for each crate that is proved already. This file works in `rounds`, and `rooms` has the
# temporary files of checks. The function `note_seconds` is in account.sh. shows.sh sources this
# file too, for `listed_crates`, `used_by` and `print_changed`, which do not need `scratch`.
# shellcheck shell=bash disable=SC2154
#
# Most of a check is loading, so one check tries several edits at once, a round. rounds.awk makes the rounds,
# so that each edit of one changes another function. An edit counts as rejected only if a goal of the
# function that it changes is false: told.awk finds that in the output of the check. A round that changes only
# functions is first tried by a check of these alone. `rt` does not try the goals of a function that calls an
# unproved one, so the edits that this does not reject are tried again in the same way, as long as one is
# rejected each time. Those that are left are tried by a check of the whole crate, which takes longer: first
# together and at last one by one, since an edit that cannot be read breaks its round.

# The crates, each after those that it uses.
listed_crates() {
    sed -n 's/^\([a-z0-9_]*\).*:.*/\1/p' crates.txt
}

# The crates that have edits, in that order.
crates_with_edits() {
    local crate
    for crate in $(listed_crates); do
        [[ ! -d crates/$crate/must-fail ]] || echo "$crate"
    done
}

# What a crate uses of this repository. The kit's crates have no folder here: `used_by CRATE`.
used_by() {
    local name
    for name in $(sed -n "s/^$1\\b.*://p" crates.txt); do
        [[ ! -d crates/$name ]] || echo "$name"
    done
}

# Whether a crate is a program, or a library that only programs and crates of tests use. Nothing that is
# proved in the copy `scripts` needs a proof of it, so its edits are tried without one.
is_of_programs() {
    local user is_used=''
    [[ ! -e crates/$1/src/main.rt ]] || return 0
    for user in $(listed_crates); do
        grep -qxF "$1" <(used_by "$user") || continue
        [[ -e crates/$user/src/main.rt || $user == *_tests ]] || return 1
        is_used=yes
    done
    [[ -n $is_used ]]
}

# Tries the edits of crates, so many crates at once, and prints for each edit a line `edit CRATE/NAME:
# refused: WHY`, or `not refused`: `try_edits AT_ONCE CRATE..`.
try_edits() {
    local at_once=$1 crate
    shift
    for crate in "$@"; do
        [[ -d $scratch/scripts/crates/$crate/must-fail ]] || continue
        while (($(jobs -rp | wc -l) >= at_once)); do wait -n || :; done
        try_crate "$crate" &
    done
    wait
}

# Tries the edits of a crate, in a tree for it, once its libraries are proved.
try_crate() {
    local crate=$1 from=$scratch/scripts plan=$scratch/rounds/$1.plan
    local -a names needed
    mapfile -t needed < <(used_by "$crate")
    is_of_programs "$crate" || needed+=("$crate")
    until are_proved "${needed[@]}"; do
        [[ ! -e $scratch/proved/failed ]] || return
        sleep 3
    done
    make_tree "$crate"
    mkdir "$plan"
    touch "$plan/rounds" "$plan/bad"
    (cd "$from/crates/$crate" && awk -v to="$plan" -f "$from/.ci/rounds.awk" must-fail/*.edit)
    sed "s|^\([^\t]*\)\t|edit $crate/\1: not refused: |" "$plan/bad"
    while read -r -a names; do
        try_round "$(first_check "$crate" "${names[@]}")" "$crate" "${names[@]}"
    done <"$plan/rounds"
    rm -rf "$scratch/rounds/$crate"
    # This runs in a shell of its own, whose children are those of these edits.
    note_seconds "$crate: edits"
}

# Whether crates are proved: `are_proved CRATE..`.
are_proved() {
    local name
    for name in "$@"; do
        [[ -e $scratch/proved/$name ]] || return 1
    done
}

# Makes a tree in which a crate is checked over the proved libraries, with what was kept of its own proof:
# `make_tree CRATE`. The files that `rt` built of proved libraries are hard links if possible, and
# otherwise copies.
make_tree() {
    local tree=$scratch/rounds/$1 from=$scratch/scripts crate
    mkdir -p "$tree"
    cp "$from/crates.txt" "$from/HANDLES" "$tree"
    for crate in "$from"/crates/*; do
        crate=${crate##*/}
        mkdir -p "$tree/crates/$crate/out"
        find "$from/crates/$crate" -mindepth 1 -maxdepth 1 ! -name out ! -name must-fail \
            -exec cp -r {} "$tree/crates/$crate" \;
        [[ -e $scratch/proved/$crate && -d $from/crates/$crate/out/rlib ]] || continue
        cp -rl "$from/crates/$crate/out/rlib" "$tree/crates/$crate/out" 2>/dev/null ||
            cp -r "$from/crates/$crate/out/rlib" "$tree/crates/$crate/out"
    done
    [[ ! -d $from/crates/$1/out/incremental ]] || cp -r "$from/crates/$1/out/incremental" "$tree/crates/$1/out"
}

# The functions that edits change, by their paths below the crate. The kit has names of its own for those of
# an impl, so its module stands for these. It fails if an edit changes something else:
# `functions_of CRATE NAME..`.
functions_of() {
    local owners=("${@:2}")
    owners=("${owners[@]/%/.owners}")
    awk -F '\t' '
        {
            path = $5
            sub(/^proofs\//, "", path)
            sub(/\/?[A-Z].*/, "", path)
            if ($5 == "any" || path == "") exit 1
            gsub(/\//, "::", path)
            if (!seen[path]++) print path
        }
    ' "${owners[@]/#/$scratch/rounds/$1.plan/}"
}

# How a round is checked first: `only` or `whole`, for `first_check CRATE NAME..`. A check of functions alone
# reads far less than a whole one. An edit of something else needs all of the crate.
first_check() {
    if functions_of "$@" >/dev/null; then echo only; else echo whole; fi
}

# Lays edits of a crate into its tree, checks it once, and says which are refused. `only` checks the functions
# that they change alone, and `whole` all of the crate: `try_round only|whole CRATE NAME..`.
try_round() {
    local how=$1 crate=$2 tree=$scratch/rounds/$2 plan=$scratch/rounds/$2.plan status=0 name result why
    local -a again=() owners functions=()
    shift 2
    owners=("${@/%/.owners}")
    [[ $how == whole ]] || mapfile -t functions < <(functions_of "$crate" "$@")
    lay_lines "$crate" "$@"
    # Nothing waits for an edit, so this check has the lowest priority.
    (cd "$tree/crates/$crate" &&
        exec nice -n 10 env TMPDIR="$scratch/rooms" rt check --jobs 1 "${functions[@]/#/--only=}") \
        </dev/null >"$plan/said" 2>&1 || status=$?
    take_lines "$crate"
    while IFS=$'\t' read -r name result why; do
        if [[ $result == refused ]]; then
            echo "edit $crate/$name: refused: $why"
        elif [[ $how == only ]] || (($# > 1)); then
            again+=("$name")
        else
            echo "edit $crate/$name: not refused: $why"
        fi
    done < <(awk -v status="$status" -f "$scratch/scripts/.ci/told.awk" "${owners[@]/#/$plan/}" "$plan/said")
    ((${#again[@]} > 0)) || return 0
    if ((${#again[@]} < $#)); then
        try_round "$how" "$crate" "${again[@]}"
    elif [[ $how == only ]]; then
        try_round whole "$crate" "${again[@]}"
    else
        for name in "${again[@]}"; do try_round whole "$crate" "$name"; done
    fi
}

# Prints a file with the lines that edits change in it, as rounds.awk has written them: `print_changed FILE
# PATH NAME.lines..`.
print_changed() {
    awk -F '\t' -v file="$1" '
        FILENAME ~ /\.lines$/ {
            if ($1 == file) changed[$2] = substr($0, length($1 $2) + 3)
            next
        }
        { print FNR in changed ? changed[FNR] : $0 }
    ' "${@:3}" "$2"
}

# Changes the lines of these edits in the crate's tree: `lay_lines CRATE NAME..`.
lay_lines() {
    local crate=$1 tree=$scratch/rounds/$1/crates/$1 plan=$scratch/rounds/$1.plan file
    local -a lines
    shift
    lines=("${@/%/.lines}")
    lines=("${lines[@]/#/$plan/}")
    cut -f 1 "${lines[@]}" | sort -u >"$plan/files"
    while read -r file; do
        print_changed "$file" "$scratch/scripts/crates/$crate/$file" "${lines[@]}" >"$plan/file"
        # This replaces the file. Writing into it would also change any hard link to it.
        mv "$plan/file" "$tree/$file"
    done <"$plan/files"
}

# Takes the edits out of the crate's tree again: `take_lines CRATE`.
take_lines() {
    local file
    while read -r file; do
        cp --remove-destination "$scratch/scripts/crates/$1/$file" "$scratch/rounds/$1/crates/$1/$file"
    done <"$scratch/rounds/$1.plan/files"
}
