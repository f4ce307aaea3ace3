#!/usr/bin/env bash
# Shows by a run that edits are mistakes: `.ci/shows.sh [EDIT..]`, all if none is named.
#
# A check that rejects an edit does not always show that a goal is false: told.awk says when it
# does. If it does not, the edit has a line `shows: TEST`, an expression of the language: a call
# with its input, compared with the wrong result. TEST has to be true for the changed code, and
# false for the unchanged code. It may use what any crate makes public, `alloc`, and the reader and
# the writer of cli_tests, as `devices`.
#
# Each edit changes a copy of its crate, under another name. The crates through which TEST calls it are copied
# too, and the unchanged ones are there as well. So the edits do not affect each other, and one `rt try`
# compiles all of them and runs the tests, without proof. A test fails with the words "with the change" if the
# edit shows nothing. The copy of a program is a library.
set -euo pipefail
unset CDPATH
export LC_ALL=C
cd "$(dirname "${BASH_SOURCE[0]}")/.."
# shellcheck source=tests/kit.sh
source tests/kit.sh
# shellcheck source=.ci/edits.sh
source .ci/edits.sh

tree=$(mktemp -d)
trap 'rm -rf "$tree"' EXIT
shown=$tree/crates/shown
mapfile -t crates < <(listed_crates | grep .)

# The crates of this repository that a crate uses, directly or through others, between spaces.
declare -A below
for crate in "${crates[@]}"; do
    below[$crate]=' '
    for used in $(used_by "$crate"); do below[$crate]+="$used${below[$used]}"; done
done

# Copies what is compiled of a crate under a name, and changes names in it: `copy_crate CRATE NAME SED`.
copy_crate() {
    local to=$tree/crates/$2
    mkdir -p "$to"
    cp -r "crates/$1/src" "$to"
    [[ ! -d crates/$1/specs ]] || cp -r "crates/$1/specs" "$to"
    if [[ -e $to/src/main.rt ]]; then
        sed '/^use /,$d; s/^mod /pub mod /' "$to/src/main.rt" >"$to/src/lib.rt"
        rm "$to/src/main.rt"
    fi
    sed -n "s/^$1\\b[^:]*:/$2:/p" crates.txt | sed "$3" >>"$tree/crates.txt"
    [[ -z $3 ]] || find "$to" -type f -exec sed -i "$3" {} +
}

# The crates that a test names.
named_in() {
    local name
    for name in "${crates[@]}"; do
        [[ ! $1 =~ (^|[^a-z0-9_])$name([^a-z0-9_]|$) ]] || echo "$name"
    done
}

# Copies the crates through which a test of an edit reaches its change, with the change, under names that
# end in a number. Sets `renamed` to the sed commands that change the names:
# `copy_changed EDIT NUMBER TEST`.
copy_changed() {
    local crate=${1#crates/} name=${1##*/} plan=$tree/$2 needed=' ' changed=() file it
    crate=${crate%%/*}
    mkdir "$plan"
    (cd "crates/$crate" && awk -v to="$plan" -f ../../.ci/rounds.awk "must-fail/$name")
    [[ -e $plan/rounds ]] || { cat "$plan/bad"; return 1; }
    for it in $(named_in "$3"); do needed+="$it${below[$it]}"; done
    renamed=''
    for it in "${crates[@]}"; do
        [[ $it == "$crate" || $needed == *" $it "* && ${below[$it]} == *" $crate "* ]] || continue
        changed+=("$it")
        renamed+="s/\\b$it\\b/${it}_$2/g;"
    done
    for it in "${changed[@]}"; do copy_crate "$it" "${it}_$2" "$renamed"; done
    while read -r file; do
        print_changed "$file" "crates/$crate/$file" "$plan/$name.lines" |
            sed "$renamed" >"$tree/crates/${crate}_$2/$file"
    done < <(cut -f 1 "$plan/$name.lines" | sort -u)
}

# Adds an edit's test to the crate `shown`. The crates that the test names are added to `uses`, with
# and without the change, and these and all below them to `unchanged`: `add_edit EDIT NUMBER`.
add_edit() {
    local test name it renamed
    test=$(sed -n 's/^shows: *//p' "$1")
    name=${1#crates/}
    name=${name/\/must-fail\//__}
    copy_changed "$1" "$2" "$test"
    for it in $(named_in "$test"); do
        unchanged+=" $it${below[$it]}"
        uses+="$it $(sed "$renamed" <<<"$it") "
    done
    cat >>"$shown/src/lib.rt" <<END

#[test]
fn ${name%.edit}(rt: HostRuntime) {
    let alloc = rt.alloc();
    let _ = alloc;
    assert!(rt; $(sed "$renamed" <<<"$test"), "with the change");
    assert!(rt; !($test), "without it");
}
END
}

# Prints the words of a text, each once.
each_once() {
    tr -s ' ' '\n' <<<"$1" | grep . | sort -u
}

mapfile -t edits < <(grep -rl --include='*.edit' '^shows: ' "${@:-crates}")
((${#edits[@]} > 0)) || { echo "no line 'shows:'"; exit 1; }
mkdir -p "$shown/src"
cp HANDLES "$tree"
printf '#![tactic(auto)]\n\nmod devices;\n' >"$shown/src/lib.rt"
cp crates/cli_tests/src/devices.rt "$shown/src"
unchanged=''
uses=''
for number in "${!edits[@]}"; do add_edit "${edits[number]}" "$number"; done
for crate in $(each_once "$unchanged"); do copy_crate "$crate" "$crate" ''; done
echo "shown: $(each_once "$uses" | tr '\n' ' ')" >>"$tree/crates.txt"
cd "$shown"
rt try --test --seconds 600
