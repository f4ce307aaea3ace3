#!/usr/bin/env bash
# Runs the program as a user would: each case of tests/cli_cases.txt, and the cases below, which need more
# than arguments and bytes. It compares the status, standard output and standard error, and prints each case
# that is wrong, and the counts at the end. The status is 0 if no case is wrong.
#
# It needs the kit's `rt`, bash, sed and the core utilities.
# shellcheck source=tests/lib.sh
source "$(dirname "${BASH_SOURCE[0]}")/lib.sh" || exit 2

cases=$top/tests/cli_cases.txt

# Removes the blanks around the text of a variable: `trim NAME`.
trim() {
    local -n text_of=$1
    text_of=${text_of#"${text_of%%[![:blank:]]*}"}
    text_of=${text_of%"${text_of##*[![:blank:]]}"}
}

# Prints the bytes of a list such as '61 C8 85'.
bytes_of() {
    local byte escapes=''
    for byte in $1; do escapes+=\\x$byte; done
    printf '%b' "$escapes"
}

# Compares the last run with the expected status, the list of the bytes that it must write, and the error
# line: `expect_bytes WHAT GOT-STATUS STATUS OUTPUT LINE`.
expect_bytes() {
    status=$2
    bytes_of "$4" >"$scratch/bytes"
    expect_run "$1" "$3" "$5" "$scratch/bytes"
}

# Sets `word_list` to the words of a list such as 'encode cesu8'. A word in double quotes can be empty or
# contain blanks.
split_words() {
    local rest=$1 word
    word_list=()
    while [[ $rest =~ [^[:blank:]] ]]; do
        rest=${rest#"${rest%%[![:blank:]]*}"}
        if [[ $rest == '"'*'"'* ]]; then
            rest=${rest#'"'}
            word=${rest%%'"'*}
            rest=${rest#*'"'}
        else
            word=${rest%%[[:blank:]]*}
            rest=${rest#"$word"}
        fi
        word_list+=("$word")
    done
}

# Runs the cases of the file.
run_cases() {
    local number=0 ran=0 text bars words input wanted output line word_list field
    while IFS= read -r text || [[ -n $text ]]; do
        number=$((number + 1))
        trim text
        case $text in '' | '#'*) continue ;; esac
        bars=${text//[^|]/}
        IFS='|' read -r words input wanted output line <<<"$text"
        for field in words input wanted output line; do trim "$field"; done
        if [[ ${#bars} != 4 || ! $wanted =~ ^[0-9]+$ ]]; then
            wrong "line $number of $cases has other fields than five"
            continue
        fi
        split_words "$words"
        bytes_of "$input" >"$scratch/input"
        run ${word_list[@]+"${word_list[@]}"}
        expect_bytes "line $number: $words | $input" "$status" "$wanted" "$output" "$line"
        ran=$((ran + 1))
    done <"$cases"
    ((ran > 0)) || wrong "no case in $cases"
}

device_failed='cesu8: input or output failed'

bad_word=$'\xFF'

# Runs a function for every command and flavor, with these as arguments: `every_pair COMMAND..`.
every_pair() {
    local command flavor
    for command in encode needs decode decode-strict lossy lossy-strict; do
        for flavor in cesu8 mutf8; do
            "$@" "$command" "$flavor"
        done
    done
    "$@" java-write mutf8
    "$@" java-read mutf8
}

full_output() {
    if [[ $1 == java-read ]]; then
        printf '\x00\x01a' >"$scratch/input"
    else
        printf a >"$scratch/input"
    fi
    : >"$scratch/output"
    "$program" "$1" "$2" <"$scratch/input" >/dev/full 2>"$scratch/error"
    expect_bytes "output of $1 $2 to a full device" $? 4 '' "$device_failed"
}

# The only reader of the pipe at descriptor 4 has ended.
closed_pipe() {
    printf a >"$scratch/input"
    : >"$scratch/output"
    mkfifo "$scratch/pipe" && exec 3<>"$scratch/pipe" 4>"$scratch/pipe" 3>&-
    "$program" encode cesu8 <"$scratch/input" >&4 2>"$scratch/error"
    expect_bytes 'output to a closed pipe' $? 4 '' "$device_failed"
    exec 4>&-
    rm "$scratch/pipe"
}

# The output is longer than a pipe's buffer, and the reader ends early.
early_end() {
    repeated 262144 a >"$scratch/input"
    printf a >"$scratch/wanted"
    "$program" encode cesu8 <"$scratch/input" 2>"$scratch/error" | head -c 1 >"$scratch/output"
    status=${PIPESTATUS[0]}
    expect_run 'output to head' 4 "$device_failed" "$scratch/wanted"
}

closed_streams() {
    printf a >"$scratch/input"
    "$program" encode cesu8 <&- >"$scratch/output" 2>"$scratch/error"
    expect_bytes 'closed standard input' $? 4 '' "$device_failed"
    : >"$scratch/output"
    "$program" encode cesu8 <"$scratch/input" >&- 2>"$scratch/error"
    expect_bytes 'closed standard output' $? 4 '' "$device_failed"
    "$program" encode cesu8 </dev/null >&- 2>"$scratch/error"
    expect_bytes 'closed standard output, and nothing to write' $? 0 '' ''
    : >"$scratch/error"
    "$program" encode cesu8 <"$scratch/input" >"$scratch/output" 2>&-
    expect_bytes 'closed standard error' $? 0 '61' ''
    "$program" encode utf9 <"$scratch/input" >"$scratch/output" 2>&-
    expect_bytes 'closed standard error, and a line for it' $? 2 '' ''
    "$program" encode cesu8 <&- >&- 2>&-
    expect_bytes 'all three closed' $? 4 '' ''
}

# An empty pipe at descriptor 3, whose reads and writes do not block. `dd` sets this for the pipe itself, so
# that it applies to the program too.
open_pipe() {
    mkfifo "$scratch/pipe" && exec 3<>"$scratch/pipe"
    rm "$scratch/pipe"
    dd iflag=nonblock count=0 status=none <&3
}

nothing_in_a_pipe() {
    open_pipe
    "$program" encode cesu8 <&3 >"$scratch/output" 2>"$scratch/error"
    expect_bytes 'a pipe that does not wait, with nothing in it' $? 4 '' "$device_failed"
    printf 'a\xC8' >&3
    "$program" encode cesu8 <&3 >"$scratch/output" 2>"$scratch/error"
    expect_bytes 'a pipe that does not wait, with two bytes in it' $? 4 '' "$device_failed"
    exec 3>&-
}

# Tests that after a failed write $scratch/begun has a beginning of the output in $scratch/wanted:
# `expect_begun WHAT GOT-STATUS`.
expect_begun() {
    local len
    len=$(stat -c %s "$scratch/begun")
    : >"$scratch/output"
    expect_bytes "$1, its status" "$2" 4 '' "$device_failed"
    expect "$1, its bytes: $len of them" is_begun "$len"
}

# Whether this many bytes are a beginning of the output, and not all of it: `is_begun LENGTH`.
is_begun() {
    (($1 > 0 && $1 < $(stat -c %s "$scratch/wanted"))) &&
        cmp -s -n "$1" "$scratch/begun" "$scratch/wanted"
}

# Writes that fail after a part of the output: to a pipe that does not block and is full, and to a file that
# is limited to eight blocks.
begun_output() {
    repeated $((1 << 20)) '\xF0\x9F\x92\x96' >"$scratch/input"
    repeated $((1 << 20)) '\xED\xA0\xBD\xED\xB2\x96' >"$scratch/wanted"
    open_pipe
    "$program" encode cesu8 <"$scratch/input" >&3 2>"$scratch/error"
    status=$?
    cat <&3 >"$scratch/begun" 2>/dev/null
    exec 3>&-
    expect_begun 'output to a pipe that takes no more' "$status"
    (trap '' XFSZ && ulimit -f 8 && exec "$program" encode cesu8) \
        <"$scratch/input" >"$scratch/begun" 2>"$scratch/error"
    expect_begun 'output to a file that may not grow' $?
}

folder_as_input() {
    "$program" encode cesu8 <"$scratch" >"$scratch/output" 2>"$scratch/error"
    expect_bytes 'a folder as standard input' $? 4 '' "$device_failed"
}

# An argument that is not UTF-8 is an error at any position, and with any number of arguments.
argument_not_utf8() {
    local words
    for words in "encode $bad_word" "$bad_word cesu8" "$bad_word" "encode cesu8 $bad_word"; do
        # shellcheck disable=SC2086
        "$program" $words </dev/null >"$scratch/output" 2>"$scratch/error"
        expect_bytes "an argument that is not UTF-8: ${words/$bad_word/FF}" $? 4 '' "$device_failed"
    done
}

# The program reads nothing if its arguments are wrong. So `cat` then copies the whole input to the
# output. Empty arguments are in tests/cli_cases.txt.
many_words() {
    local words
    read -r -a words < <(yes encode cesu8 | head -n 500 | tr '\n' ' ')
    printf 'a\xC8\x85' >"$scratch/input"
    {
        "$program" "${words[@]}" 2>"$scratch/error"
        status=$?
        cat
    } <"$scratch/input" >"$scratch/output"
    expect_bytes 'a thousand words' "$status" 2 '61 C8 85' 'usage: cesu8_cli COMMAND FLAVOR'
    "$program" encode "$(repeated 100000 a)" <"$scratch/input" >"$scratch/output" \
        2>"$scratch/error"
    expect_bytes 'a long word' $? 2 '' 'usage: cesu8_cli COMMAND FLAVOR'
}

full_error() {
    : >"$scratch/error"
    "$program" encode utf9 </dev/null >"$scratch/output" 2>/dev/full
    expect_bytes 'standard error to a full device' $? 2 '' ''
}

# The program does not read the input, so `cat` then copies all of it to the output.
unread_input() {
    printf 'a\xC8\x85' >"$scratch/input"
    {
        "$program" encode utf9 2>"$scratch/error"
        status=$?
        cat
    } <"$scratch/input" >"$scratch/output"
    expect_bytes 'input that is not read' "$status" 2 '61 C8 85' 'usage: cesu8_cli COMMAND FLAVOR'
}

# The pieces are cut inside characters.
input_in_pieces() {
    {
        printf 'a\xF0\x90'
        sleep 0.2
        printf '\x90'
        sleep 0.2
        printf '\x80\xC8'
        sleep 0.2
        printf '\x85'
    } | "$program" encode cesu8 >"$scratch/output" 2>"$scratch/error"
    expect_bytes 'input in pieces' $? 0 '61 ED A0 81 ED B0 80 C8 85' ''
}

# Runs on $scratch/input, and compares the output with $scratch/wanted: `expect_long WHAT COMMAND FLAVOR`.
expect_long() {
    run "$2" "$3"
    expect_run "$1" 0 '' "$scratch/wanted"
}

# Repeats a text of 20 to 25 bytes up to just above 1 MiB of UTF-8: `long_text WHAT COMMAND FLAVOR INPUT
# OUTPUT`.
long_text() {
    repeated 52429 "$4" >"$scratch/input"
    repeated 52429 "$5" >"$scratch/wanted"
    expect_long "$1" "$2" "$3"
}

# The characters U+0061, U+0205, U+20AC, U+10400, U+0000, U+07FF, U+FFFF and U+1F496, repeated.
long_texts() {
    local front='a\xC8\x85\xE2\x82\xAC' back='\xDF\xBF\xEF\xBF\xBF' pair='\xED\xA0\x81\xED\xB0\x80'
    local utf8="$front\\xF0\\x90\\x90\\x80\\x00$back\\xF0\\x9F\\x92\\x96"
    local cesu8="$front$pair\\x00$back\\xED\\xA0\\xBD\\xED\\xB2\\x96"
    local mutf8="$front$pair\\xC0\\x80$back\\xED\\xA0\\xBD\\xED\\xB2\\x96"
    long_text '1 MiB of mixed text' encode cesu8 "$utf8" "$cesu8"
    long_text '1 MiB of mixed text to MUTF-8' encode mutf8 "$utf8" "$mutf8"
    long_text '1 MiB of mixed text from CESU-8' decode-strict cesu8 "$cesu8" "$utf8"
    long_text '1 MiB of mixed text from MUTF-8' decode mutf8 "$mutf8" "$utf8"
}

mark='\xEF\xBF\xBD'

# No byte is part of a character, so each becomes U+FFFD.
long_damage() {
    repeated 65536 '\xFF' >"$scratch/input"
    repeated 65536 "$mark" >"$scratch/wanted"
    expect_long '64 KiB of damage' lossy-strict cesu8
}

# Repeats the first bytes 174763 times, with the second ones in place of each 167th: `mostly BYTES BYTES`.
# For six bytes this is just above 1 MiB.
mostly() {
    local bytes
    repeat 166 "$1"
    repeated 1046 "$bytes$2"
    repeated 81 "$1"
}

# Some surrogate pairs of U+1F496 have FF as their first byte, so that all six bytes become U+FFFD.
long_pairs() {
    local command
    mostly '\xED\xA0\xBD\xED\xB2\x96' '\xFF\xA0\xBD\xED\xB2\x96' >"$scratch/input"
    mostly '\xF0\x9F\x92\x96' "$mark$mark$mark$mark$mark$mark" >"$scratch/wanted"
    for command in lossy lossy-strict; do
        expect_long "1 MiB of pairs, $command" "$command" cesu8
    done
}

# Lengths near 16,384 bytes, the size of a read, with a character of two bytes across the end of each read.
file_lengths() {
    local len
    for len in 1 16383 16384 16385 32767 32768 32769 65536 65537; do
        { printf a && repeated $((len / 2)) '\xC8\x85'; } >"$scratch/input"
        expect_same "a file of $((len / 2 * 2 + 1)) bytes" lossy-strict mutf8
        head -c "$len" /dev/zero >"$scratch/input"
        expect_same "a file of $len nulls" decode-strict cesu8
    done
    { repeated 16383 a && printf '\xF0\x9F'; } >"$scratch/input"
    run encode cesu8
    expect_bytes 'a file that ends within a character' "$status" 1 '' 'cesu8: input is not UTF-8'
}

# Runs on $scratch/input, which the output must equal: `expect_same WHAT COMMAND FLAVOR`.
expect_same() {
    run "$2" "$3"
    expect_run "$1" 0 '' "$scratch/input"
}

# Copies this many pieces of a megabyte, with a pause after each: `slowly PIECES`.
slowly() {
    local piece
    for ((piece = 0; piece < $1; piece++)); do
        head -c 1000000
        sleep 0.01
    done
}

# Both ends wait for the program, and the program waits for them.
slow_pipes() {
    repeated 16000000 '\xF0\x9F\x92\x96' >"$scratch/input"
    repeated 16000000 '\xED\xA0\xBD\xED\xB2\x96' >"$scratch/wanted"
    slowly 64 <"$scratch/input" | "$program" encode cesu8 2>"$scratch/error" |
        slowly 96 >"$scratch/output"
    status=${PIPESTATUS[1]}
    expect_run '64 MB through slow pipes' 0 '' "$scratch/wanted"
}

# The longest Java string, 65,535 bytes after their count, and a text that has one byte more.
java_strings() {
    { repeated 32767 '\x00' && printf a; } >"$scratch/input"
    { printf '\xFF\xFF' && repeated 32767 '\xC0\x80' && printf a; } >"$scratch/wanted"
    expect_long 'the longest Java string' java-write mutf8
    mv "$scratch/wanted" "$scratch/string"
    mv "$scratch/input" "$scratch/wanted"
    mv "$scratch/string" "$scratch/input"
    expect_long 'the longest Java string, read' java-read mutf8
    repeated 32768 '\x00' >"$scratch/input"
    run java-write mutf8
    expect_bytes 'a text too long for a Java string' "$status" 1 '' 'cesu8: text is too long'
}

# Runs on parts of whole lines, by the command in `in_parts`, as for a dump that is larger than
# memory.
run_in_parts() {
    (cd "$scratch" && program="'$program'" && eval "$in_parts") 2>"$scratch/error"
    status=$?
    mv "$scratch/text" "$scratch/output"
}

# A dump of two parts: the limit of 16 MiB is within a surrogate pair, so the first part ends with
# the line before that. Then a line that is longer than a part and is cut within a surrogate pair:
# nothing of it is written.
large_dump() {
    local in_parts pair='\xED\xA0\xBD\xED\xB2\x96'
    # shellcheck disable=SC2016
    in_parts='split -C 16M --filter="$program decode-strict cesu8" dump >text'
    repeated 1200000 "a$pair$pair\xC8\x85$pair\n" >"$scratch/dump"
    repeated 1200000 'a\xF0\x9F\x92\x96\xF0\x9F\x92\x96\xC8\x85\xF0\x9F\x92\x96\n' >"$scratch/wanted"
    run_in_parts
    expect_run 'a dump in parts' 0 '' "$scratch/wanted"
    { printf a && repeated 2800000 "$pair"; } >"$scratch/dump"
    run_in_parts
    sed -i '/^split: /d' "$scratch/error"
    : >"$scratch/wanted"
    expect_run 'a line longer than a part' 1 'cesu8: invalid input' "$scratch/wanted"
}

# No length of input by itself makes the program run out of memory.
very_long_text() {
    repeated $((4 << 20)) '\xC8\x85\xE2\x82\xAC a\n' >"$scratch/input"
    expect_same '32 MiB of text that stays' encode cesu8
}

build
run_cases
every_pair full_output
closed_pipe
early_end
closed_streams
nothing_in_a_pipe
begun_output
folder_as_input
argument_not_utf8
many_words
full_error
unread_input
input_in_pieces
file_lengths
slow_pipes
long_texts
long_damage
long_pairs
java_strings
large_dump
very_long_text

finish
