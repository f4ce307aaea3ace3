#!/usr/bin/env bash
# Makes allocations of the built program `cesu8_cli` fail, for every command.
#
# First each of its allocations fails in turn, until a run makes fewer. If an allocation for the
# arguments fails, the program must report failed input or output, as docs/PROGRAM.md says of status
# 4, and if a later one fails, out of memory. In both cases it must write nothing. The run without a
# failure must write its output. For short inputs the allocations are counted too: besides those for
# the arguments, there is one for the input, and one more if the output is built. For longer input,
# reading may make any number. If the decoder rejects input after it allocated, it must have
# allocated the input's length, whatever the damage and its offset. (For what is built, a clause
# states the capacity.)
#
# Then the memory of the process is limited, from too little for 10 MB of input to enough, for each
# command. The program must write the whole output, or report out of memory and write nothing. Both must
# occur. This part needs no compiler.
#
# It prints what is wrong, and the counts at the end. The status is 0 if nothing is wrong. It takes
# less than a minute once the program is built.
#
# It needs the kit's `rt`, bash and the core utilities, and `cc` for tests/requests.c, which is loaded
# between the program and the C library. Without `cc` it skips the failures of single allocations.
# shellcheck source=tests/lib.sh
source "$(dirname "${BASH_SOURCE[0]}")/lib.sh" || exit 2

io='cesu8: input or output failed'
memory='cesu8: out of memory'
: >"$scratch/nothing"

# Writes the input and the expected output to files. Both are in the form of `printf %b`:
# `keep INPUT ANSWER`.
keep() {
    printf '%b' "$1" >"$scratch/input"
    printf '%b' "$2" >"$scratch/wanted"
}

# Runs the program on $scratch/input so that its allocation of this number fails, or none if it is 0. Sets
# `sizes` to the sizes of the allocations and `requests` to their number: `run_refusing REFUSED WORD..`.
run_refusing() {
    local refused=$1
    shift
    REFUSED=$refused LD_PRELOAD=$scratch/requests.so "$program" "$@" \
        <"$scratch/input" >"$scratch/output" 2>"$scratch/error" 9>"$scratch/requests"
    status=$?
    mapfile -t sizes <"$scratch/requests"
    requests=${#sizes[@]}
}

# Makes each allocation fail in turn, until a run makes fewer. That run must end with this status and
# line: `refuse_in_turn NAME COMMAND FLAVOR STATUS LINE`.
refuse_in_turn() {
    local refused
    for ((refused = 1; refused <= 1000; refused++)); do
        run_refusing "$refused" "$2" "$3"
        if ((requests < refused)); then
            expect_run "$1" "$4" "$5" "$scratch/wanted"
            return
        elif ((refused <= arguments)); then
            expect_run "$1, request $refused refused" 4 "$io" "$scratch/nothing"
        else
            expect_run "$1, request $refused refused" 3 "$memory" "$scratch/nothing"
        fi
    done
    wrong "$1, its requests, which do not end"
}

# Tests that the last run made COUNT allocations after those for the arguments: `expect_requests WHAT
# COUNT`.
expect_requests() {
    expect "$1, its requests: $requests, and $arguments for the arguments" \
        [ "$requests" -eq $((arguments + $2)) ]
}

# A short input and its output: `row COMMAND FLAVOR REQUESTS INPUT ANSWER`, with the number of
# allocations after those for the arguments.
row() {
    keep "$4" "$5"
    refuse_in_turn "$1 $2 on $4" "$1" "$2" 0 ''
    expect_requests "$1 $2 on $4" "$3"
}

# A short input that is rejected, the error line, and, if the decoder allocates, the number of bytes:
# `refused_row COMMAND FLAVOR REQUESTS INPUT LINE [SIZE]`.
refused_row() {
    keep "$4" ''
    refuse_in_turn "$1 $2 on $4" "$1" "$2" 1 "$5"
    expect_requests "$1 $2 on $4" "$3"
    [[ -z ${6-} ]] || expect "$1 $2 on $4, ${sizes[-1]} bytes requested" [ "${sizes[-1]}" -eq "$6" ]
}

rows() {
    local flavor command heart='\xF0\x9F\x92\x96' pair='\xED\xA0\xBD\xED\xB2\x96' mark='\xEF\xBF\xBD'
    local marks=$mark$mark$mark$mark stays='a\xC8\x85\xE2\x82\xAC' invalid='cesu8: invalid input'

    # The input is empty, so nothing is allocated, except for the count of a Java string.
    for flavor in cesu8 mutf8; do
        for command in encode decode decode-strict lossy lossy-strict; do
            row "$command" "$flavor" 0 '' ''
        done
        row needs "$flavor" 0 '' 'no\n'
    done
    row java-write mutf8 1 '' '\x00\x00'
    refused_row java-read mutf8 0 '' 'cesu8: input is truncated'

    # The output is borrowed: the input, or a constant.
    for flavor in cesu8 mutf8; do
        for command in encode decode decode-strict lossy lossy-strict; do
            row "$command" "$flavor" 1 "$stays" "$stays"
        done
        for command in decode lossy; do
            row "$command" "$flavor" 1 "a$heart\\x00" "a$heart\\x00"
        done
        row needs "$flavor" 1 "$stays" 'no\n'
        row needs "$flavor" 1 "a$heart" 'yes\n'
    done
    for command in encode decode-strict lossy-strict; do
        row "$command" cesu8 1 'a\x00' 'a\x00'
    done
    row needs cesu8 1 'a\x00' 'no\n'
    row needs mutf8 1 'a\x00' 'yes\n'
    row java-read mutf8 1 '\x00\x00' ''
    row java-read mutf8 1 "\\x00\\x06$stays" "$stays"

    # The output is built.
    for flavor in cesu8 mutf8; do
        row encode "$flavor" 2 "a$heart" "a$pair"
        for command in decode decode-strict lossy lossy-strict; do
            row "$command" "$flavor" 2 "a$pair" "a$heart"
        done
        row lossy "$flavor" 2 "$heart\\xFF" "$marks$mark"
        row lossy-strict "$flavor" 2 "a$heart" "a$marks"
    done
    row encode mutf8 2 'a\x00' 'a\xC0\x80'
    for command in decode decode-strict lossy lossy-strict; do
        row "$command" mutf8 2 'a\xC0\x80' 'a\x00'
    done
    row lossy-strict mutf8 2 'a\x00' "a$mark"
    row java-write mutf8 2 'a' '\x00\x01a'
    row java-write mutf8 2 'a\x00' '\x00\x03a\xC0\x80'
    row java-read mutf8 2 '\x00\x03a\xC0\x80' 'a\x00'

    # The input is rejected: before the allocation for the output, or after it.
    for flavor in cesu8 mutf8; do
        refused_row encode "$flavor" 1 'a\xFF' 'cesu8: input is not UTF-8'
        refused_row needs "$flavor" 1 'a\xFF' 'cesu8: input is not UTF-8'
        refused_row decode "$flavor" 2 'a\xFF' "$invalid" 2
        refused_row decode-strict "$flavor" 2 'a\xED\xA0\xBD' "$invalid" 4
        refused_row decode-strict "$flavor" 2 "a$heart" "$invalid" 5
    done
    refused_row decode-strict mutf8 2 'abc\x00' "$invalid" 4
    refused_row java-write mutf8 1 'a\xFF' 'cesu8: input is not UTF-8'
    refused_row java-read mutf8 1 '\x00\x03a\xC0' 'cesu8: input is truncated'
    refused_row java-read mutf8 1 '\x00\x01ab' 'cesu8: bytes after the string'
    refused_row java-read mutf8 2 '\x00\x03\xED\xA0\xBD' "$invalid" 3
    refused_row java-read mutf8 2 '\x00\x04abc\x00' "$invalid" 4
    refused_row java-read mutf8 2 '\x00\x03a\xC0\x80b' 'cesu8: bytes after the string' 3
}

# Writes an input of COUNT bytes that repeats a part and ends in letters, and its output, which has
# ANSWER for each part: `keep_long COUNT PART ANSWER`.
keep_long() {
    local length
    measure "$2"
    { repeated $(($1 / length)) "$2" && repeated $(($1 % length)) a; } >"$scratch/input"
    { repeated $(($1 / length)) "$3" && repeated $(($1 % length)) a; } >"$scratch/wanted"
}

# For each command and flavor except those of Java strings, writes an input of COUNT bytes, whose output
# is built if possible, and calls `WHAT COMMAND FLAVOR`: `on_each COUNT WHAT`.
on_each() {
    local heart='\xF0\x9F\x92\x96' pair='\xED\xA0\xBD\xED\xB2\x96' mark='\xEF\xBF\xBD' command
    keep_long "$1" "$heart" "$pair"
    "$2" encode cesu8
    keep_long "$1" '\x00' '\xC0\x80'
    "$2" encode mutf8
    printf 'yes\n' >"$scratch/wanted"
    "$2" needs mutf8
    printf 'no\n' >"$scratch/wanted"
    "$2" needs cesu8
    keep_long "$1" "$pair" "$heart"
    for command in decode decode-strict; do
        "$2" "$command" cesu8
    done
    keep_long "$1" '\xC0\x80' '\x00'
    for command in decode decode-strict; do
        "$2" "$command" mutf8
    done
    keep_long "$1" '\xFF' "$mark"
    "$2" lossy cesu8
    "$2" lossy mutf8
    keep_long "$1" "$heart" "$mark$mark$mark$mark"
    "$2" lossy-strict cesu8
    keep_long "$1" '\x00' "$mark"
    "$2" lossy-strict mutf8
}

# Writes a Java string with this many bytes of MUTF-8, an even number below 65,536, and its text.
keep_java_string() {
    printf '%b' "$(printf '\\x%02X\\x%02X' $(($1 / 256)) $(($1 % 256)))" >"$scratch/form"
    repeated $(($1 / 2)) '\xC0\x80' >>"$scratch/form"
    repeated $(($1 / 2)) '\x00' >"$scratch/text"
}

# Calls WHAT for the two commands of Java strings, with the longest string and its text:
# `on_java_strings WHAT`.
on_java_strings() {
    keep_java_string 65534
    cp "$scratch/text" "$scratch/input"
    cp "$scratch/form" "$scratch/wanted"
    "$1" java-write mutf8
    cp "$scratch/form" "$scratch/input"
    cp "$scratch/text" "$scratch/wanted"
    "$1" java-read mutf8
}

long_row() {
    refuse_in_turn "$1 $2 on a long input" "$1" "$2" 0 ''
}

# Strict decoding of long input that is rejected: UTF-8 of four bytes, and halves of surrogate pairs.
refused_long_rows() {
    local part
    for part in $'\xF0\x9F\x92\x96' $'\xED\xA0\xBDa'; do
        keep_long 100000 "$part" ''
        : >"$scratch/wanted"
        refuse_in_turn 'decode-strict cesu8 on a long refused input' decode-strict cesu8 1 \
            'cesu8: invalid input'
        expect "decode-strict on a long refused input, ${sizes[-1]} bytes requested" \
            [ "${sizes[-1]}" -eq 100000 ]
    done
}

# Runs a command that rejects the input, and tests how many bytes it allocates: `expect_size COUNT WORD..`.
expect_size() {
    local count=$1
    shift
    run_refusing 0 "$@"
    expect "$* on $count refused bytes, ${sizes[-1]} requested" \
        [ "$status $(<"$scratch/error") ${sizes[-1]}" = "1 cesu8: invalid input $count" ]
}

# Letters with damage at the start, in the middle and at the end: a byte that begins no character in
# either encoding, half of a pair, and for the strict commands a character of four bytes in UTF-8.
refused_sizes() {
    local count at part length
    for count in 4 5 16 17 24 64 65 100 256 1024 4096 65534; do
        for part in '\xFF' '\xED\xA0\xBD' '\xF0\x9F\x92\x96'; do
            measure "$part"
            for at in 0 $(((count - length) / 2)) $((count - length)); do
                { filled "$at" a && printf '%b' "$part" && filled $((count - length - at)) a; } >"$scratch/form"
                cp "$scratch/form" "$scratch/input"
                expect_size "$count" decode-strict cesu8
                expect_size "$count" decode-strict mutf8
                ((length == 4)) || expect_size "$count" decode cesu8
                ((length == 4)) || expect_size "$count" decode mutf8
                printf '%b' "$(printf '\\x%02X\\x%02X' $((count / 256)) $((count % 256)))" |
                    cat - "$scratch/form" >"$scratch/input"
                expect_size "$count" java-read mutf8
            done
        done
    done
}

refuse_requests() {
    if ! command -v cc >/dev/null; then
        echo 'cc is missing: the refusal of single requests skipped'
        return
    fi
    if ! cc -Wall -Wextra -Werror -shared -fPIC -o "$scratch/requests.so" \
        "$top/tests/requests.c" -ldl; then
        wrong 'tests/requests.c does not build'
        return
    fi
    # Arguments that are no command are reported after the allocations for the arguments, before any other.
    : >"$scratch/input"
    run_refusing 0 encode utf9
    arguments=$requests
    expect 'the arguments take no request' [ "$arguments" -gt 0 ]
    keep '' ''
    refuse_in_turn 'words that ask for nothing' encode utf9 2 'usage: cesu8_cli COMMAND FLAVOR'
    rows
    on_each 100000 long_row
    refused_long_rows
    refused_sizes
    on_java_strings long_row
}

# Runs the program on $scratch/input with at most this many KiB of memory: `run_within KIB WORD..`. By
# default the C library reserves 128 KiB more than it needs, into which a Java string and its text would
# fit, so a setting turns this off.
run_within() {
    local kib=$1
    shift
    (ulimit -v "$kib" && MALLOC_TOP_PAD_=0 exec "$program" "$@") \
        <"$scratch/input" >"$scratch/output" 2>"$scratch/error"
    status=$?
}

# Sets `least` to the KiB that the program needs to read its arguments, in pages of 4 KiB. The arguments
# are wrong, and longer than any command and flavor.
find_least() {
    : >"$scratch/input"
    for ((least = 1024; least < 65536; least += 4)); do
        run_within "$least" decode-strict utf-16
        ((status == 2)) && return
    done
    wrong 'the words are not seen in 64 MiB of memory'
}

# Runs with more and more memory, until it was enough twice: `grow STEP COMMAND FLAVOR STATUS LINE`. A run
# with enough memory must end with this status and line.
grow() {
    local kib answered=0 refused=0
    for ((kib = least; answered < 2 && kib < least + 131072; kib += $1)); do
        run_within "$kib" "$2" "$3"
        if ((status == 3)); then
            refused=$((refused + 1))
            expect_run "$2 $3 within $kib KiB" 3 "$memory" "$scratch/nothing"
        else
            answered=$((answered + 1))
            expect_run "$2 $3 within $kib KiB" "$4" "$5" "$scratch/wanted"
        fi
    done
    expect "$2 $3 never has too little memory" [ "$refused" -gt 0 ]
    expect "$2 $3 never has enough memory" [ "$answered" -eq 2 ]
}

grow_by_mebibytes() {
    grow 1024 "$1" "$2" 0 ''
}

grow_by_pages() {
    grow 4 "$1" "$2" 0 ''
}

# No Java string has 10 MB, so such input is rejected as soon as there is memory to read it. The longest
# string is written and read.
limit_java_strings() {
    on_java_strings grow_by_pages
    cp "$scratch/nothing" "$scratch/wanted"
    repeated 10000000 a >"$scratch/input"
    grow 1024 java-write mutf8 1 'cesu8: text is too long'
    { cat "$scratch/form" && repeated 10000000 a; } >"$scratch/input"
    grow 1024 java-read mutf8 1 'cesu8: bytes after the string'
}

limit_memory() {
    find_least
    on_each 10000000 grow_by_mebibytes
    limit_java_strings
}

build
refuse_requests
limit_memory

finish
