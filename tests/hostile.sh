#!/usr/bin/env bash
# Runs the built program `cesu8_cli` with every command on 64 MB of each kind of hostile bytes. The
# variable `table` has the expected results. Output is compared byte for byte.
#
# Each run has a memory limit: the vector that has grown to hold the input (the next power of two),
# the one allocation of the output, and a fifth more. tests/requests.sh tests runs that lack memory.
#
# The expected output for noise, which is random bytes, comes from the plain codec of bench. It
# needs a rustc. If there is none, the script says that it skipped these comparisons.
#
# | command | the allocation for the output |
# |---|---|
# | `encode`, `lossy`, `lossy-strict` | none if the output is the input, else its length |
# | `decode`, `decode-strict` | none if the output is the input, else the input's length |
# | `needs` | none |
# | `java-write` | none, since the text is too long |
# | `java-read` | the bytes that the first two count, 65,535 at most |
#
# It prints what is wrong, and the counts at the end. The status is 0 if nothing is wrong. It needs
# the kit's `rt`, bash, awk and the core utilities, and half a gigabyte for its files.
# shellcheck source=tests/lib.sh
source "$(dirname "${BASH_SOURCE[0]}")/lib.sh" || exit 2
# shellcheck source=tests/hostile_bytes.sh
source "$top/tests/hostile_bytes.sh" || exit 2

# The length of each input, and the capacity of a vector that has grown to hold it.
length=64000000
capacity=67108864

# The expected result of each command for each input. `same` is the input itself, and `-` means that
# the command does not know the flavor. `run_field` has the lines of the errors. The other names are
# those of the files that `write_answers` and `write_input` make.
table='
input flavor encode   needs    decode  decode-strict lossy    lossy-strict java-write java-read
half  cesu8  not_utf8 not_utf8 invalid invalid       replaced replaced     -          -
half  mutf8  not_utf8 not_utf8 invalid invalid       replaced replaced     not_utf8   invalid
four  cesu8  pairs    yes      same    invalid       same     replaced     -          -
four  mutf8  pairs    yes      same    invalid       same     replaced     too_long   invalid
lead  cesu8  not_utf8 not_utf8 invalid invalid       replaced replaced     -          -
lead  mutf8  not_utf8 not_utf8 invalid invalid       replaced replaced     not_utf8   invalid
cut   cesu8  not_utf8 not_utf8 invalid invalid       replaced replaced     -          -
cut   mutf8  not_utf8 not_utf8 invalid invalid       replaced replaced     not_utf8   invalid
null  cesu8  same     no       same    same          same     same         -          -
null  mutf8  nulls    yes      same    invalid       same     replaced     too_long   trailing
noise cesu8  not_utf8 not_utf8 invalid invalid       cesu8    cesu8        -          -
noise mutf8  not_utf8 not_utf8 invalid invalid       mutf8    mutf8        not_utf8   invalid
'

write_answers() {
    echo yes >"$scratch/yes"
    echo no >"$scratch/no"
    repeated "$length" '\xEF\xBF\xBD' >"$scratch/replaced"
}

# Writes an input, and the expected results that only it has: `write_input NAME`.
write_input() {
    rm -f "$scratch"/{pairs,nulls,cesu8,mutf8}
    hostile_bytes "$1" "$length" >"$scratch/input"
    case $1 in
        four) repeated $((length / 4)) '\xED\xAF\xBF\xED\xBF\xBF' >"$scratch/pairs" ;;
        null) repeated "$length" '\xC0\x80' >"$scratch/nulls" ;;
        noise) write_readings ;;
    esac
}

# Writes the expected results for noise: those for the million bytes that are repeated in the input,
# repeated as often.
write_readings() {
    local flavor
    [[ -n $codec ]] || return
    for flavor in cesu8 mutf8; do
        "$codec" decode_lossy_strict "$flavor" <"$scratch/million" >"$scratch/read" ||
            wrong "the plain codec fails for $flavor"
        copies $((length / 1000000)) "$scratch/read" >"$scratch/$flavor"
    done
}

# Runs the program with at most BYTES of memory:
# `run_within BYTES COMMAND FLAVOR STATUS LINE ANSWER`.
run_within() {
    local statuses
    (ulimit -v $(($1 / 1024)) && exec "$program" "$2" "$3") <"$scratch/input" 2>"$scratch/error" |
        cmp -s - "$6"
    statuses=${PIPESTATUS[*]}
    if [[ $statuses == "$4 0" && $(<"$scratch/error") == "$5" ]]; then
        pass
    else
        wrong "$2 $3 of $input within $1 bytes: status and comparison $statuses, and not $4 0;\
 $(<"$scratch/error")"
    fi
}

# Tests one field of the table: `run_field COMMAND FLAVOR OUTCOME`. Without a plain codec, the
# results for noise are not compared.
run_field() {
    local status=0 line='' answer=/dev/null request=0
    [[ -z $codec && ($3 == cesu8 || $3 == mutf8) ]] && return
    case $3 in
        not_utf8) status=1 line='cesu8: input is not UTF-8' ;;
        too_long) status=1 line='cesu8: text is too long' ;;
        trailing) status=1 line='cesu8: bytes after the string' ;;
        invalid) status=1 line='cesu8: invalid input' request=$length ;;
        same) answer=$scratch/input ;;
        yes | no) answer=$scratch/$3 ;;
        *)
            answer=$scratch/$3
            request=$(stat -c %s "$answer")
            ;;
    esac
    [[ $1 == java-read && $3 == invalid ]] && request=65535
    run_within $(((capacity + request) * 6 / 5)) "$1" "$2" "$status" "$line" "$answer"
}

# Tests a row of the table: `run_row INPUT FLAVOR OUTCOME..`.
run_row() {
    local commands=(encode needs decode decode-strict lossy lossy-strict java-write java-read)
    local command flavor=$2
    if [[ $input != "$1" ]]; then
        input=$1
        write_input "$input"
    fi
    shift 2
    for command in "${commands[@]}"; do
        [[ $1 == - ]] || run_field "$command" "$flavor" "$1"
        shift
    done
}

run_table() {
    local input='' fields
    while read -r -a fields; do
        if ((${#fields[@]} > 0)); then
            run_row "${fields[@]}"
        fi
    done < <(tail -n +3 <<<"$table")
}

# Builds the plain codec of bench, which shares no code with the library, if there is a rustc.
build_codec() {
    codec=''
    can_build_rust 'the readings of noise' || return
    codec=$scratch/plain
    quietly rustc --edition 2024 -O -D warnings -o "$codec" "$top/bench/plain.rs" ||
        wrong 'bench/plain.rs does not build'
}

build
build_codec
write_answers
run_table
finish
