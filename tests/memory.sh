#!/usr/bin/env bash
# Counts the allocations of each public call of `simd_cesu8`, `java_text` and `cesu8_stream`, and makes
# each of them fail. tests/requests.sh does this for the built program.
#
# The rows below cover every public call, on inputs that are borrowed, converted, rejected and
# empty, and at lengths near the borders of blocks. A row has the expected result and the number of
# allocations. Both come from the standards' table of encoded characters in crates/test_cases, and
# these rules:
# - a result is borrowed, without an allocation, exactly when its bytes are the input's;
# - a call allocates once to build or copy a result, or to reject input, and once to append to a buffer
#   that is full;
# - appending to a full buffer leaves it with twice its capacity, with the needed capacity, or with 8
#   bytes, whichever is greatest, as `Vec::push` does; a buffer with enough space keeps its capacity;
# - an empty copy, a length, a comparison, a result in a slice, a piece, and a Java string that is too
#   long or truncated allocate nothing.
#
# The proved program of crates/memory_calls makes the calls that its standard input names, on one
# input. It prints each result, and how many of three further allocations succeed before one fails.
# tests/requests.c, which is loaded between the program and the C library, makes one allocation of a
# process fail: here always the third after the start of `main`. Before the calls, `main` makes up to
# two allocations itself, and their number decides which allocation of the calls is the third. (`rt
# try` could run the program without proof, but takes a tenth of a second for each process.)
#
# Each allocation of a call fails in turn. Then the call must return out of memory for any input, a
# caller's buffer must keep its content, and what a failed copy borrows must still be there. Each call
# must also succeed if the first allocation after its own fails. So it makes exactly as many
# allocations as its row says. One process tests both with two calls on an input: the first makes all
# of its allocations, and the first allocation of the second fails. Calls without an allocation are
# made between them. A test that several rows have in common is made once.
#
# The script does not see in which order a call allocates, nor what it has read or written before. A
# clause states the capacity of what is built, and tests/requests.sh sees how much is allocated for input
# that is rejected.
#
# It prints what is wrong, and the number of processes at the end. Without `cc` it skips everything, and says
# so. The status is 0 if nothing is wrong. In a clean clone it first proves the program. It needs the kit's
# `rt`, `cc`, bash, sed and the core utilities.
# shellcheck source=tests/lib.sh
source "$(dirname "${BASH_SOURCE[0]}")/lib.sh" || exit 2
mkdir "$scratch"/{cases,wanted} || exit 2
can_build_c 'the allocations of calls' || exit 0

# The gate sets PROVED_MEMORY_CALLS to the program that it has proved, so that it is not proved again.
program=${PROVED_MEMORY_CALLS:-$top/crates/memory_calls/out/memory_calls}

# Builds the program by `rt run`, the only command that keeps it in out/.
build_calls() {
    [[ -z ${PROVED_MEMORY_CALLS-} ]] || return 0
    # shellcheck source=tests/kit.sh
    source "$top/tests/kit.sh" || exit 2
    if ! (cd "$top/crates/memory_calls" && rt run <stdin) >"$scratch/said" 2>&1; then
        cat "$scratch/said" >&2
        echo 'memory_calls was not built' >&2
        exit 2
    fi
}

# The inputs, and for each the calls that allocate nothing, and those that allocate, one a line.
inputs=()
silent=()
asking=()

# The number of each input, under a colon and the input, since a key cannot be empty. By this number
# and the call: what the call prints, and how often it allocates.
declare -A numbers=() printed_by=() made_by=()

# The bytes of a list of test_cases, as `printf %b` takes them: `pattern NAME`.
pattern() {
    sed -n "/^const $1:/,/;\$/s/.*b\"\\(.*\\)\".*/\\1/p" "$top/crates/test_cases/src/pattern.rt"
}

# A row: `row CALL INPUT OUTCOME REQUESTS BYTES`. CALL, which includes the encoding, must make
# REQUESTS allocations, and print OUTCOME and then BYTES.
row() {
    local number=${numbers[:$2]-} call=$1 printed=$3$'\n'$5$'\n'
    if [[ -z $number ]]; then
        number=${#inputs[@]}
        numbers[:$2]=$number
        inputs+=("$2")
        silent+=('')
        asking+=('')
    fi
    if [[ -z ${made_by[$number $call]-} ]]; then
        made_by[$number $call]=$4
        printed_by[$number $call]=$printed
        if (($4 == 0)); then silent[number]+=$call$'\n'; else asking[number]+=$call$'\n'; fi
    elif [[ "${made_by[$number $call]} ${printed_by[$number $call]}" != "$4 $printed" ]]; then
        echo "two rows for $call on one input differ" >&2
        exit 2
    fi
}

# The characters of the rows, in UTF-8, CESU-8 and MUTF-8: two letters, and the scalar values of
# test_cases. Also the lossy reading of their UTF-8 in each encoding.
mark='\xEF\xBF\xBD'
declare -A in_utf8 in_cesu8 in_mutf8 damaged_cesu8 damaged_mutf8

# Adds a character by its bytes in the three forms: `add_character NAME UTF8 CESU8 MUTF8`.
add_character() {
    local bytes
    in_utf8[$1]=$2 in_cesu8[$1]=$3 in_mutf8[$1]=$4
    repeat $((${#2} / 4)) "$mark"
    damaged_cesu8[$1]=$bytes damaged_mutf8[$1]=$bytes
    [[ $3 == "$2" ]] && damaged_cesu8[$1]=$2
    [[ $4 == "$2" ]] && damaged_mutf8[$1]=$2
}

# Adds the scalar values of test_cases, whose rows omit a form that equals the one before it, and keeps
# their names in `scalars`.
add_scalars() {
    local name utf8 cesu8 mutf8
    while read -r name utf8 cesu8 mutf8; do
        cesu8=${cesu8:-$utf8}
        add_character "$name" "$utf8" "$cesu8" "${mutf8:-$cesu8}"
        scalars+=("$name")
    done < <(
        sed -n 's/.*border!("\(U+[0-9A-F]*\)", \(.*\)),$/\1 \2/p' \
            "$top/crates/test_cases/src/borders.rt" | sed 's/b"\([^"]*\)",*/\1/g'
    )
    ((${#scalars[@]} == 21)) && return
    echo "${#scalars[@]} of 21 rows were read from crates/test_cases/src/borders.rt" >&2
    exit 2
}

scalars=()
add_scalars
add_character a a a a
add_character A A A A

# Sets the current text in each form: TIMES times each of these characters: `text TIMES CHARACTER..`.
text() {
    local bytes
    utf8='' cesu8='' mutf8='' read_as_cesu8='' read_as_mutf8=''
    while (($# > 0)); do
        repeat "$1" "${in_utf8[$2]}" && utf8+=$bytes
        repeat "$1" "${in_cesu8[$2]}" && cesu8+=$bytes
        repeat "$1" "${in_mutf8[$2]}" && mutf8+=$bytes
        repeat "$1" "${damaged_cesu8[$2]}" && read_as_cesu8+=$bytes
        repeat "$1" "${damaged_mutf8[$2]}" && read_as_mutf8+=$bytes
        shift 2
    done
}

# Sets `grown` to the capacity to which a buffer grows if it needs NEED bytes: `grow CAPACITY NEED`.
grow() {
    grown=$1
    (($1 < $2)) || return 0
    grown=$(($2 < 2 * $1 ? 2 * $1 : $2))
    ((grown >= 8)) || grown=8
}

# Rows of the calls that take a text, for the current text: `text_rows ENCODING..`.
text_rows() {
    encode_rows "$@"
    append_rows "$@"
}

# Those that encode or measure it. In CESU-8 each of its code units has one byte that is not 80 to BF.
encode_rows() {
    local encoding encoded length
    measure "${cesu8//\\x[89AB]?/}"
    row 'utf16_len cesu8' "$utf8" "$length" 0 ''
    row 'compare_as_utf16 cesu8' "$utf8" yes 0 ''
    row 'text_of cesu8' "$utf8" text 0 "$utf8"
    for encoding in "$@"; do
        encoded=${!encoding}
        measure "$encoded"
        if [[ $encoded == "$utf8" ]]; then
            row "needs_encoded $encoding" "$utf8" no 0 ''
            row "encode $encoding" "$utf8" borrowed 0 "$utf8"
        else
            row "needs_encoded $encoding" "$utf8" yes 0 ''
            row "encode $encoding" "$utf8" owned 1 "$encoded"
        fi
        row "encoded_len $encoding" "$utf8" "$length" 0 ''
        row "counted_len $encoding" "$utf8" "$length" 0 ''
        row "encode_to_slice $encoding" "$utf8" written 0 "$encoded"
        row "stream_encode $encoding" "$utf8" all 0 "$encoded"
    done
}

# Those that copy it, and those that append it: to a buffer without capacity, to one with enough
# space (`room`), to a full one of two bytes (`full`), and to one that is a byte too small (`less`).
append_rows() {
    local encoding encoded length any less grown
    for encoding in "$@"; do
        encoded=${!encoding}
        measure "$encoded"
        any=$((length > 0))
        less=$((length > 1 ? 2 : length))
        row "into_vec $encoding" "$utf8" owned "$any" "$encoded"
        row "encode_into_room $encoding" "$utf8" "appended, capacity $length" "$any" "$encoded"
        grow 0 "$length"
        row "counted $encoding" "$utf8" "appended, capacity $grown" "$any" "$encoded"
        row "encode_into $encoding" "$utf8" "appended, capacity $grown" "$any" "$encoded"
        grow 2 $((2 + length))
        row "encode_into_full $encoding" "$utf8" "appended, capacity $grown" "$((1 + any))" \
            "\\x01\\x02$encoded"
        grow $((length - any)) "$length"
        row "encode_into_less $encoding" "$utf8" "appended, capacity $grown" "$less" "$encoded"
    done
}

# Rows of the kernels, on the UTF-8 of the current text. Their classes are the bytes that the encodings
# change: `kernel_rows ENCODING..`.
kernel_rows() {
    local encoding found module
    for encoding in "$@"; do
        found=yes
        [[ ${!encoding} == "$utf8" ]] && found=no
        for module in active fallback simd word; do
            row "$module $encoding" "$utf8" "$found" 0 ''
        done
    done
}

# Rows of the calls that take bytes, on the encoding of the current text: `encoding_rows ENCODING..`.
encoding_rows() {
    local encoding encoded length outcome requests call
    measure "$utf8"
    for encoding in "$@"; do
        encoded=${!encoding}
        outcome=owned
        requests=1
        [[ $encoded == "$utf8" ]] && outcome=borrowed requests=0
        for call in decode decode_strict decode_lossy decode_lossy_strict; do
            row "$call $encoding" "$encoded" "$outcome" "$requests" "$utf8"
            row "${call}_to_slice $encoding" "$encoded" written 0 "$utf8"
        done
        row "decode_strict_front $encoding" "$encoded" "$outcome" "$requests" "$utf8"
        for call in stream_decode_strict stream_decode_lossy_strict; do
            row "$call $encoding" "$encoded" all 0 "$utf8"
        done
        if ((requests > 0)); then row 'text_of cesu8' "$encoded" none 0 ''; fi
        row "decoded_len $encoding" "$encoded" "$length" 0 ''
        row "lossy_len $encoding" "$encoded" "$length" 0 ''
        measure "$encoded"
        row "valid_up_to $encoding" "$encoded" "$length" 0 ''
        measure "$utf8"
        row "into_string $encoding" "$encoded" owned "$((length > 0))" "$utf8"
    done
}

# Rows of the calls that take bytes, on the UTF-8 of the current text, which is not the encoding of any
# text: lenient calls borrow it and strict calls reject it: `utf8_rows ENCODING..`.
utf8_rows() {
    local encoding name reading length call
    for encoding in "$@"; do
        name=read_as_$encoding
        reading=${!name}
        for call in decode decode_lossy; do
            row "$call $encoding" "$utf8" borrowed 0 "$utf8"
            row "${call}_to_slice $encoding" "$utf8" written 0 "$utf8"
        done
        row "into_string $encoding" "$utf8" owned 1 "$utf8"
        row "decode_strict $encoding" "$utf8" invalid 1 ''
        row "decode_strict_front $encoding" "$utf8" invalid 1 ''
        row "decode_strict_to_slice $encoding" "$utf8" invalid 0 ''
        row "decode_lossy_strict $encoding" "$utf8" owned 1 "$reading"
        row "decode_lossy_strict_to_slice $encoding" "$utf8" written 0 "$reading"
        measure "$reading"
        row "decoded_len $encoding" "$utf8" none 0 ''
        row "lossy_len $encoding" "$utf8" "$length" 0 ''
    done
}

# Rows of the calls that take bytes, on the encoding of the current text and then COUNT damaged bytes:
# `damage_rows COUNT BYTES`. A call allocates before it reads, so if that fails, the damage is not
# reported. The first half of a pair may continue in the next piece.
damage_rows() {
    local encoding damaged reading length call bytes reason=malformed
    [[ $2 == '\xED\xA0\xBD' ]] && reason=incomplete
    repeat "$1" "$mark"
    reading=$utf8$bytes
    measure "$reading"
    for encoding in cesu8 mutf8; do
        damaged=${!encoding}$2
        for call in decode decode_strict; do
            row "$call $encoding" "$damaged" invalid 1 ''
            row "${call}_to_slice $encoding" "$damaged" invalid 0 ''
            call=${call/decode/decode_lossy}
            row "$call $encoding" "$damaged" owned 1 "$reading"
            row "${call}_to_slice $encoding" "$damaged" written 0 "$reading"
        done
        row 'text_of cesu8' "$damaged" none 0 ''
        row "decode_strict_front $encoding" "$damaged" invalid 1 ''
        row "stream_decode_strict $encoding" "$damaged" "$reason" 0 "$utf8"
        row "stream_decode_lossy_strict $encoding" "$damaged" all 0 "$reading"
        row "decoded_len $encoding" "$damaged" none 0 ''
        row "lossy_len $encoding" "$damaged" "$length" 0 ''
        measure "${!encoding}"
        row "valid_up_to $encoding" "$damaged" "$length" 0 ''
        measure "$reading"
    done
}

# Sets `written` to these bytes of MUTF-8 after the two that count them: `form BYTES COUNT`.
form() {
    printf -v written '\\x%02X\\x%02X%s' "$(($2 / 256))" "$(($2 % 256))" "$1"
}

# Rows that write the current text as a Java string. If it is too long, nothing is allocated.
write_rows() {
    local length written grown
    measure "$mutf8"
    if ((length > 65535)); then
        row 'write_utf mutf8' "$utf8" too_long 0 ''
        row 'write_utf_full mutf8' "$utf8" too_long 1 '\x01\x02'
        row 'write_utf_to_slice mutf8' "$utf8" too_long 0 ''
        return
    fi
    form "$mutf8" "$length"
    row 'write_utf_to_slice mutf8' "$utf8" written 0 "$written"
    row 'write_utf_room mutf8' "$utf8" "written, capacity $((2 + length))" 1 "$written"
    grow 0 $((2 + length))
    row 'write_utf mutf8' "$utf8" "written, capacity $grown" 1 "$written"
    grow 2 $((4 + length))
    row 'write_utf_full mutf8' "$utf8" "written, capacity $grown" 2 "\\x01\\x02$written"
    grow $((1 + length)) $((2 + length))
    row 'write_utf_less mutf8' "$utf8" "written, capacity $grown" 2 "$written"
}

# Rows that read the current text as a Java string, with bytes after it, and with a count that is one
# greater.
read_rows() {
    local length written call outcome=owned requests=1
    measure "$mutf8"
    ((length > 65535)) && return
    [[ $mutf8 == "$utf8" ]] && outcome=borrowed requests=0
    for call in read_utf read_utf_lossy; do
        form "$mutf8" "$length"
        row "$call mutf8" "${written}rest" "$outcome" "$requests" "$utf8\\nrest"
        row "${call}_to_slice mutf8" "${written}rest" written 0 "$utf8\\nrest"
        ((length < 65535)) || continue
        form "$mutf8" "$((length + 1))"
        row "$call mutf8" "$written" truncated 0 ''
        row "${call}_to_slice mutf8" "$written" truncated 0 ''
    done
}

# Rows that read a Java string whose counted bytes are the MUTF-8 of the current text and a damaged byte.
damaged_read_rows() {
    local length written
    measure "$mutf8"
    ((length > 65534)) && return
    form "$mutf8\\xED" "$((length + 1))"
    row 'read_utf mutf8' "${written}rest" invalid 1 ''
    row 'read_utf_to_slice mutf8' "${written}rest" invalid 0 ''
    row 'read_utf_lossy mutf8' "${written}rest" owned 1 "$utf8$mark\\nrest"
    row 'read_utf_lossy_to_slice mutf8' "${written}rest" written 0 "$utf8$mark\\nrest"
}

# Sets the current text to one that is unchanged in both encodings, or to one that differs in each:
# `keep_pattern stays` or `keep_pattern changes TIMES`.
keep_pattern() {
    local bytes
    text 0 a
    if [[ $1 == stays ]]; then
        utf8='Gr\xC3\xBC\xC3\x9Fe aus \xE6\x9D\xB1\xE4\xBA\xAC, \xE2\x82\xAC 205, \xEF\xBF\xBD\xEF\xBF\xBF'
        cesu8=$utf8
        mutf8=$utf8
    else
        repeat "$2" "$(pattern UTF8)" && utf8=$bytes
        repeat "$2" "$(pattern CESU8)" && cesu8=$bytes
        repeat "$2" "$(pattern MUTF8)" && mutf8=$bytes
    fi
    if ((${#utf8} == 0 || ${#cesu8} < ${#utf8} || ${#mutf8} < ${#cesu8})); then
        echo 'the pattern was not read from crates/test_cases/src/pattern.rt' >&2
        exit 2
    fi
}

# Every call, on short inputs.
short_rows() {
    local kept
    for kept in empty stays changes; do
        if [[ $kept == empty ]]; then text 0 a; else keep_pattern "$kept" 3; fi
        text_rows cesu8 mutf8
        kernel_rows cesu8 mutf8
        encoding_rows cesu8 mutf8
        damage_rows 1 '\xFF'
        damage_rows 3 '\xED\xA0\xBD'
        write_rows
        read_rows
        damaged_read_rows
    done
    text 1 a 1 U+0000 2 U+1F496
    utf8_rows cesu8 mutf8
    text 1 a 1 U+0000
    text_rows cesu8 mutf8
    encoding_rows cesu8 mutf8
    utf8_rows mutf8
    row 'read_utf mutf8' '' truncated 0 ''
    row 'read_utf_to_slice mutf8' '' truncated 0 ''
    row 'read_utf_lossy mutf8' '\x00' truncated 0 ''
    row 'read_utf_lossy_to_slice mutf8' '\x00' truncated 0 ''
    text 1 A
    row 'into_string cesu8' "$utf8" owned 1 "$utf8"
}

# Each scalar value of test_cases is encoded and measured. Two texts, each with a surrogate pair, are
# also copied and appended.
scalar_rows() {
    local name
    for name in "${scalars[@]}"; do
        text 1 "$name"
        encode_rows cesu8 mutf8
    done
    text 1 a 1 U+10FFFF
    append_rows cesu8
    text 1 a 1 U+1F496
    append_rows cesu8
}

# Calls that have no input, or print what they reject before the outcome.
other_rows() {
    row 'laws cesu8' '' true 0 ''
    local all
    faults=$'text is too long, out of memory\ninput is truncated, out of memory\n'
    all=$'invalid input, out of memory\n'$faults
    all+=$'invalid input, DecodingError, invalid input\n'
    all+=$'buffer too short, buffer too short\ninvalid input\n'
    all+=$'buffer too short, text is too long\n'
    all+=$'buffer too short, text is too long\n'
    all+=$'buffer too short, input is truncated\ninvalid input\nyes'
    row 'faults cesu8' '\xED\xA0\xBD' "$all" 1 ''
    row 'faults mutf8' '\x00' "$all" 1 ''
}

# Inputs of this length: only letters, letters and then a character that an encoding changes, and
# letters and then damage. Also a longer input, with such a character across this length.
border_rows() {
    local length=$1 front=$(($1 > 3 ? $1 - 3 : $1))
    text "$length" a
    text_rows cesu8 mutf8
    kernel_rows cesu8 mutf8
    encoding_rows cesu8 mutf8
    write_rows
    read_rows

    text "$((length - 4))" a 1 U+1F496
    ((length >= 4)) && text_rows cesu8 && kernel_rows cesu8
    text "$((length - 6))" a 1 U+1F496
    ((length >= 6)) && encoding_rows cesu8
    text "$((length - 1))" a 1 U+0000
    ((length >= 1)) && text_rows mutf8 && kernel_rows mutf8
    text "$((length - 2))" a 1 U+0000
    ((length >= 2)) && encoding_rows mutf8 && write_rows && read_rows

    text "$front" a 1 U+1F496 9 a
    text_rows cesu8 mutf8
    encoding_rows cesu8 mutf8
    utf8_rows cesu8 mutf8
    write_rows
    read_rows

    text "$((length - 1))" a
    damage_rows 1 '\xFF'
    text "$((length - 3))" a
    ((length >= 3)) && damage_rows 3 '\xED\xA0\xBD'
    damaged_read_rows
}

# The longest inputs, and the longest Java strings. In most inputs every character needs conversion.
long_rows() {
    local bytes
    # 16,380 bytes of UTF-8.
    keep_pattern changes 819
    encode_rows cesu8 mutf8
    text 16384 U+1F496
    text_rows cesu8 mutf8
    text 10922 U+1F496 4 a
    encoding_rows cesu8 mutf8
    text 65536 U+0000
    text_rows mutf8
    write_rows
    text 32768 U+0000
    encoding_rows mutf8
    write_rows
    text 32767 U+0000 1 a
    write_rows
    read_rows
    text 65534 a
    read_rows
    text 65535 a
    write_rows
    read_rows
    text 0 a
    repeat 65536 '\xFF'
    damage_rows 65536 "$bytes"
}

short_rows
scalar_rows
other_rows
for border in 0 1 63 64 65 256 257 1023 1024 1025 65536; do
    border_rows "$border"
done
long_rows

# Sets `refusal` to what a call on an input prints if its allocation of this number fails:
# `refuse CALL PLACE INPUT`. The first allocation of a call on a full buffer is that of the buffer.
refuse() {
    refusal=$'memory\n\n'
    case $1:$2 in
    into_*) refusal=$'memory\n'$3$'\n' ;;
    *_full*:2) refusal=$'memory\n\\x01\\x02\n' ;;
    faults*) refusal=$'out of memory, out of memory\n'$faults$refusal ;;
    esac
}

# Adds a process that makes these calls, one a line, on an input. BEFORE of their allocations
# succeed. `main` makes 2 - BEFORE first, so that the next one fails. MORE succeed after the calls:
# `process NAME CALLS INPUT BEFORE PRINTED MORE`.
process() {
    local calls=${2%$'\n'} file
    processes=$((processes + 1))
    printf -v file '%04d_%s' "$processes" "${1// /_}"
    printf '%s %s\n%b' "$((2 - $4))" "${calls//$'\n'/, }" "$3" >"$scratch/cases/$file"
    printf '%b%s more\n' "$5" "$6" >"$scratch/wanted/$file"
}

# Moves the first COUNT calls from `waiting`, which allocate nothing, to `between`, one a line, and sets
# `printed` to what they print: `take COUNT NUMBER`.
take() {
    local call
    between='' printed=''
    for call in "${waiting[@]:0:$1}"; do
        between+=$call$'\n'
        printed+=${printed_by[$2 $call]}
    done
    waiting=("${waiting[@]:$1}")
}

# Adds the processes for all calls on the input of this number: `processes_on NUMBER`. Each process makes
# a call that succeeds and then one whose first allocation fails; the former is the one that failed in
# the process before, and in the first process the last one. The calls that allocate nothing come
# between, the same number in each process.
processes_on() {
    local number=$1 input=${inputs[$1]}
    local waiting=() calls=() between printed call previous place share
    mapfile -t waiting < <(printf %s "${silent[number]}")
    mapfile -t calls < <(printf %s "${asking[number]}")
    if ((${#calls[@]} == 0)); then
        take "${#waiting[@]}" "$number"
        process none "$between" "$input" 0 "$printed" 0
        return
    fi
    share=$(((${#waiting[@]} + ${#calls[@]} - 1) / ${#calls[@]}))
    previous=${calls[-1]}
    for call in "${calls[@]}"; do
        refuse "$call" 1 "$input"
        take "$share" "$number"
        process "$call 1" "$previous"$'\n'"$between$call" "$input" "${made_by[$number $previous]}" \
            "${printed_by[$number $previous]}$printed$refusal" 3
        for ((place = 2; place <= ${made_by[$number $call]}; place++)); do
            refuse "$call" "$place" "$input"
            process "$call $place" "$call" "$input" "$((place - 1))" "$refusal" 3
        done
        previous=$call
    done
}

# Runs the program on a case so that its allocation of this number fails: `run_case REFUSED CASE`. It stores
# what is printed in $scratch/printed, and the size of each allocation in $scratch/requests.
run_case() {
    REFUSED=$1 LD_PRELOAD=$scratch/requests.so "$program" <"$scratch/cases/$2" >"$scratch/printed" \
        2>"$scratch/said" 9>"$scratch/requests"
}

# Sets `refused` to the number of the third allocation after the start of `main`. The call here
# allocates nothing, so `main` makes only the three at its end, and the third is the last one of the
# process.
find_refused() {
    printf '0 utf16_len cesu8\na' >"$scratch/cases/none"
    run_case 0 none || { cat "$scratch/said"; exit 2; }
    refused=$(wc -l <"$scratch/requests")
    rm "$scratch/cases/none"
}

# Runs every case, and compares what is printed.
run_cases() {
    local name status
    for name in $(cd "$scratch/cases" && printf '%s\n' *); do
        status=0
        run_case "$refused" "$name" || status=$?
        if ((status == 0)) && cmp -s "$scratch/wanted/$name" "$scratch/printed"; then
            pass
        else
            wrong "$name: status $status"
            echo "  printed: $(shown "$scratch/printed")"
            echo "  and not: $(shown "$scratch/wanted/$name")"
        fi
    done
}

processes=0
for number in "${!inputs[@]}"; do
    processes_on "$number"
done
build_calls
quietly cc -shared -fPIC -o "$scratch/requests.so" "$top/tests/requests.c" -ldl || exit 2
find_refused
run_cases
finish
