# For tests/dist.sh and tests/aarch64.sh: runs cesu8_damage and the examples except keys.c. It uses
# the variables of these scripts.
# shellcheck shell=bash disable=SC2154

# Prints a class file as the Java Virtual Machine Specification defines it (4.1, 4.4), up to the end
# of its constants. It has a constant of each kind, of which a Long and a Double take two places.
# Three constants are strings: "caf" and U+00E9, the empty string, and U+0000 with U+1F496. The last
# constant has half of a surrogate pair.
class_file() {
    printf '\312\376\272\276\0\0\0\101\0\27'
    printf '\1\0\5caf\303\251\3\0\0\0\1\4\0\0\0\0\5\0\0\0\0\0\0\0\1\6\0\0\0\0\0\0\0\0'
    printf '\7\0\1\10\0\1\11\0\1\0\1\12\0\1\0\1\13\0\1\0\1\14\0\1\0\1\17\1\0\1\20\0\1'
    printf '\21\0\1\0\1\22\0\1\0\1\23\0\1\24\0\1\1\0\0\1\0\10\300\200\355\240\275\355\262\226'
    printf '\1\0\4a\355\240\275'
}

# Tests that an example fails and says why if it can't read its input, which is a folder, or can't
# write the strings of a file: `fails_with_system NAME PROGRAM FILE`.
fails_with_system() {
    "$2" "$scratch" >"$scratch/printed" 2>"$scratch/said" &&
        wrong "$1 takes a folder for an empty file"
    grep -q 'Is a directory' "$scratch/said" || wrong "$1 does not say that a read failed"
    [[ ! -s $scratch/printed ]] || wrong "$1 prints something for a folder"
    "$2" "$3" >/dev/full 2>"$scratch/said" && wrong "$1 succeeds if a write fails"
    grep -qE 'No space left|output failed|I/O error' "$scratch/said" ||
        wrong "$1 does not say that a write failed"
}

# Tests that a program stops reading after a failed write. Its input is endless, and it has to end
# with this status: `stops_reading NAME STATUS PROGRAM WORD..`.
stops_reading() {
    local name=$1 wanted=$2 status=0
    shift 2
    timeout 60 "$@" >/dev/full 2>"$scratch/said" || status=$?
    ((status == wanted)) || wrong "$name ends with status $status after a write that failed"
}

in_class_file() {
    local program=$scratch/class_constants
    compile -std=c99 -Wall -Wextra -Wconversion -pedantic -Werror -I "$unpacked/include" \
        -o "$program" "$unpacked/examples/class_constants.c" "$unpacked/lib/libcesu8.a" ||
        { wrong 'class_constants.c does not build'; return; }
    class_file >"$scratch/constants.class"
    "$program" "$scratch/constants.class" >"$scratch/printed" 2>"$scratch/said" ||
        wrong 'class_constants.c fails'
    {
        printf '1 caf\303\251\n20 \n21 \0\360\237\222\226\n'
        printf '22 a\357\277\275\357\277\275\357\277\275\n'
    } | cmp - "$scratch/printed" || wrong 'class_constants.c prints the wrong constants'
    # The last string is at offset 112, and the half pair begins after its first byte.
    diff <(echo "$scratch/constants.class: constant 22, offset 113: invalid input") "$scratch/said" ||
        wrong 'class_constants.c does not report an error'
    in_damaged_class_files "$program"
    fails_with_system class_constants.c "$program" "$scratch/constants.class"
    echo 'class_constants.c was built and run'
}

# Files that class_constants.c has to reject, after it printed the strings before the fault: one with
# a string that is cut off, files that are cut off between two constants and within one, and files
# that begin with other bytes. Another file, which it has to accept, has only one string, as long and
# as damaged as possible. The allocator fills new memory with 01, which would be read as more
# constants.
in_damaged_class_files() {
    local file=$scratch/damaged.class whole=$scratch/constants.class magic marks
    export MALLOC_PERTURB_=254
    head -c -1 "$whole" >"$file"
    refuses_class "$1" "$file" 109 3
    head -c 109 "$whole" >"$file"
    refuses_class "$1" "$file" 109 3
    head -c 20 "$whole" >"$file"
    refuses_class "$1" "$file" 18 1
    for magic in '\0' '\312\376\272\277' '\313\376\272\276' '\312\377\272\276' '\312\376\273\276'; do
        { printf '%b' "${magic//\\/\\0}" && tail -c +5 "$whole"; } >"$file"
        refuses_class "$1" "$file" 0 0
    done
    { printf '\312\376\272\276\0\0\0\101\0\2\1\377\377' && filled 65535 '\xFF'; } >"$file"
    "$1" "$file" >"$scratch/printed" 2>"$scratch/said" || wrong 'class_constants.c rejects a damaged string'
    marks=$(repeated 65535 '\xEF\xBF\xBD')
    diff <(echo "1 $marks") "$scratch/printed" >/dev/null ||
        wrong 'class_constants.c prints a damaged string wrongly'
    unset MALLOC_PERTURB_
}

# Tests that class_constants.c rejects a file at this offset, after COUNT of its strings:
# `refuses_class PROGRAM FILE OFFSET COUNT`.
refuses_class() {
    "$1" "$2" >"$scratch/printed" 2>"$scratch/said"
    [[ $? == 1 && $(<"$scratch/said") == "$2: no class file, from offset $3 on" ]] ||
        { cat "$scratch/said"; wrong "class_constants.c does not reject a file at $3"; }
    printf '1 caf\303\251\n20 \n21 \0\360\237\222\226\n' | head -n "$4" | cmp - "$scratch/printed" ||
        wrong "class_constants.c prints the wrong strings of a file that it rejects at $3"
}

# Prints what cesu8_damage, the program in `teller`, prints for its input, and its status:
# `damage WORD..`.
damage() {
    "$teller" "$@"
    echo $?
}

# Tests that cesu8_damage ends with this status, and prints nothing but one line that says why:
# `damage_fails STATUS LINE WORD..`.
damage_fails() {
    local wanted=$1 line=$2
    shift 2
    diff <(damage "$@" 2>"$scratch/said") <(echo "$wanted") || wrong "cesu8_damage has the wrong status or output for: $*"
    diff "$scratch/said" <(echo "$line") || wrong "cesu8_damage prints the wrong message for: $*"
}

# Runs cesu8_damage on files without damage, with damage of each kind, and of more than one piece.
# The end of a piece cuts a surrogate pair at each place, and also a damaged stretch:
# `in_damaged_file PROGRAM`.
in_damaged_file() {
    local teller=$1 pairs=$scratch/pairs file=$scratch/damaged shown
    printf 'ab\n\377c\n\n\355\240\275d\300\200\0e\342\202' >"$file"
    diff <(damage cesu8 "$file") <(printf '%s\t%s\t%s\t%s\n' 3 2 1 ff 7 4 3 'ed a0 bd' 11 4 2 'c0 80' \
        15 4 2 'e2 82' && echo 1) || wrong 'cesu8_damage finds the wrong damage in CESU-8'
    diff <(damage mutf8 <"$file") <(printf '%s\t%s\t%s\t%s\n' 3 2 1 ff 7 4 3 'ed a0 bd' 13 4 1 00 \
        15 4 2 'e2 82' && echo 1) || wrong 'cesu8_damage finds the wrong damage in MUTF-8'
    # The longest stretch that is shown as a whole has 16 bytes.
    shown=ff$(repeated 15 ' ff')
    diff <({ filled 16 '\xFF' && printf '\n' && filled 17 '\xFF'; } | damage cesu8) \
        <(printf '%s\t%s\t%s\t%s\n' 0 1 16 "$shown" 17 2 17 "$shown .." && echo 1) ||
        wrong 'cesu8_damage prints stretches of 16 and 17 bytes wrongly'
    in_pieces
    { cat "$pairs" && filled 100000 '\xFF' && cat "$pairs"; } >"$file"
    diff <(damage mutf8 "$file") \
        <(printf '180002\t2\t100000\tff%s ..\n1\n' "$(repeated 15 ' ff')") ||
        wrong 'cesu8_damage does not find a long stretch'
    damage_fails 2 'usage: cesu8_damage cesu8|mutf8 [FILE]'
    damage_fails 2 'usage: cesu8_damage cesu8|mutf8 [FILE]' utf8 "$file"
    damage_fails 2 'usage: cesu8_damage cesu8|mutf8 [FILE]' cesu8 "$file" more
    damage_fails 4 'cesu8_damage: none: No such file or directory' cesu8 none
    damage_fails 4 "cesu8_damage: $scratch: Is a directory" cesu8 "$scratch"
    damage_fails 4 'cesu8_damage: standard input: Bad file descriptor' cesu8 <&-
    "$teller" cesu8 "$file" >/dev/full 2>"$scratch/said"
    [[ $? == 4 && $(<"$scratch/said") == 'cesu8_damage: standard output: No space left on device' ]] ||
        wrong 'cesu8_damage does not report that it cannot write'
    stops_reading cesu8_damage 4 "$teller" cesu8 < <(yes $'\xFF' 2>/dev/null)
    # An emulator has memory of its own.
    if ((${#emulator[@]} == 0)); then
        refuse_memory "$file"
        limit_memory
        sanitize_pieces
    fi
    echo 'cesu8_damage was run'
}

# Runs cesu8_damage on surrogate pairs in several pieces: whole, after up to five letters, and cut
# off at the end.
in_pieces() {
    local front
    {
        printf 'a\n'
        repeated 30000 '\xED\xA0\xBD\xED\xB2\x96'
    } >"$pairs"
    diff <(damage cesu8 <"$pairs"; damage mutf8 "$pairs"; damage cesu8 </dev/null) <(printf '0\n0\n0\n') ||
        wrong 'cesu8_damage finds damage where there is none'
    for front in '' a aa aaa aaaa aaaaa; do
        diff <({ printf '%s' "$front" && tail -c +3 "$pairs"; } | damage mutf8) <(echo 0) ||
            wrong "cesu8_damage finds damage after ${#front} letters"
    done
    diff <(head -c -1 "$pairs" | damage cesu8; head -c 100000 "$pairs" | damage mutf8) \
        <(printf '179996\t2\t5\ted a0 bd ed b2\n1\n99998\t2\t2\ted a0\n1\n') ||
        wrong 'cesu8_damage does not find a cut pair'
}

# Runs in_pieces with a build that fails if it accesses bytes outside its arrays.
sanitize_pieces() {
    local teller=$scratch/sanitized flags=(-fsanitize=address -O1 -g)
    # The leak detector does not run everywhere.
    local -x ASAN_OPTIONS=detect_leaks=0
    local what='cesu8_damage with the address sanitizer'
    if can_build "$what" "$c_compiler" "${flags[@]}" -o "$scratch/probe" "$scratch/probe.c" &&
        can_build "$what" "$scratch/probe"; then
        quietly "$c_compiler" -std=c99 "${flags[@]}" -I "$unpacked/include" -o "$teller" \
            "$unpacked/examples/cesu8_damage.c" "$unpacked/lib/libcesu8.a" ||
            { wrong 'cesu8_damage.c does not build with the address sanitizer'; return; }
        in_pieces
    fi
}

# Makes each of the first five allocations of cesu8_damage fail in turn, by requests.c, which writes
# the size of each to descriptor 9. The program has to report the failure, or do without:
# `refuse_memory FILE`.
refuse_memory() {
    local refused status told=0
    quietly cc -shared -fPIC -o "$scratch/requests.so" "$top/tests/requests.c" -ldl ||
        { wrong 'tests/requests.c does not build'; return; }
    for refused in 1 2 3 4 5; do
        status=0
        REFUSED=$refused LD_PRELOAD=$scratch/requests.so "$teller" mutf8 "$1" \
            >"$scratch/printed" 2>"$scratch/said" 9>/dev/null || status=$?
        case $status in
            1) damage mutf8 "$1" | head -n -1 | cmp - "$scratch/printed" || wrong 'cesu8_damage loses a line' ;;
            3)
                told=1
                diff <(echo "cesu8_damage: $1: Cannot allocate memory") "$scratch/said" ||
                    wrong 'cesu8_damage prints the wrong message about memory'
                ;;
            *) wrong "cesu8_damage ends with status $status if an allocation fails" ;;
        esac
    done
    ((told)) || wrong 'cesu8_damage has no status for out of memory'
}

# Runs cesu8_damage on a file of 100 MB with little memory. It would exceed the time limit if it
# read the bytes of a piece again.
limit_memory() {
    local seconds=$SECONDS
    filled 50000000 '\xFF' >"$scratch/long"
    filled 50000000 'a' >>"$scratch/long"
    diff <(ulimit -v 8000 && damage cesu8 "$scratch/long") \
        <(printf '0\t1\t50000000\tff%s ..\n1\n' "$(repeated 15 ' ff')") ||
        wrong 'cesu8_damage does not find a stretch in a large file'
    ((SECONDS - seconds < 60)) || wrong 'cesu8_damage takes too long for a large file'
    rm "$scratch/long"
}

# Runs java_strings.sh on the strings of a file, as writeUTF writes them: those of the class file
# above, the longest string, and one with line ends. In some files the last string is cut off or
# damaged.
in_java_file() {
    local script=$unpacked/examples/java_strings.sh strings=$scratch/strings long
    export CESU8_CLI=$unpacked/bin/cesu8_cli
    long=$(printf '%65535s' '')
    {
        printf '\0\5caf\303\251\0\0\0\10\300\200\355\240\275\355\262\226'
        printf '\377\377%s\0\2\n\n' "$long"
    } >"$strings"
    "$script" "$strings" >"$scratch/printed" || wrong 'java_strings.sh fails'
    printf 'caf\303\251\n\n\0\360\237\222\226\n%s\n\n\n\n' "$long" | cmp - "$scratch/printed" ||
        wrong 'java_strings.sh prints the wrong strings'
    "$script" /dev/stdin < <(cat "$strings") 2>&1 | cmp - "$scratch/printed" ||
        wrong 'java_strings.sh prints the wrong strings from a pipe'
    for damage in '\0' '\0\4abc' '\0\1\377'; do
        { cat "$strings"; printf '%b' "${damage//\\/\\0}"; } >"$scratch/damaged"
        "$script" "$scratch/damaged" >"$scratch/seen" 2>"$scratch/said"
        [[ $? == 1 && -s $scratch/said ]] || wrong "java_strings.sh accepts $damage"
        cmp "$scratch/printed" "$scratch/seen" ||
            wrong "java_strings.sh prints the wrong strings before $damage"
    done
    fails_with_system java_strings.sh "$script" "$strings"
    # For an empty string, only the line end is written.
    printf '\0\0' >"$scratch/empty_string"
    fails_with_system java_strings.sh "$script" "$scratch/empty_string"
    unset CESU8_CLI
    echo 'java_strings.sh was run'
}

# Runs java_units.c, which prints the code units of a file's strings. It keeps unpaired surrogates:
# the two halves of a pair in different strings, in the wrong order, and before a pair. Then it runs
# with the strings of the JDK's own class files, as `readUTF` reads them.
in_java_units() {
    local program=$scratch/java_units strings=$scratch/strings_of_units count
    compile -std=c99 -O2 -Wall -Wextra -Wconversion -pedantic -Werror -I "$unpacked/include" \
        -o "$program" "$unpacked/examples/java_units.c" "$unpacked/lib/libcesu8.a" ||
        { wrong 'java_units.c does not build'; return; }
    {
        printf '\0\4a\355\240\275\0\0\0\7\355\262\226\303\251\300\200'
        printf '\0\6\355\240\275\355\262\226\0\6\355\262\226\355\240\275'
        printf '\0\14\355\240\275\355\240\275\355\262\226\342\202\254'
    } >"$strings"
    diff <("$program" "$strings"; echo $?) \
        <(printf '%s\n' '0061 D83D' '' 'DC96 00E9 0000' 'D83D DC96' 'DC96 D83D' 'D83D D83D DC96 20AC' 0) ||
        wrong 'java_units.c prints the wrong code units'
    refuses_units '\0' 'input is truncated'
    refuses_units '\0\4abc' 'input is truncated'
    for damage in '\0\1\377' '\0\3a\355\240' '\0\1\0' '\0\2\301\201' '\0\3\340\201\201' \
        '\0\4\360\237\222\226' '\0\3\355\240a' '\0\3\355\300\200'; do
        refuses_units "$damage" 'invalid input'
    done
    fails_with_system java_units.c "$program" "$strings"
    stops_reading java_units.c 1 "$program" /dev/zero
    if ! can_build 'java_units.c with the strings of a JDK' java -version; then return; fi
    mkdir "$scratch/jdk" || exit 2
    count=$(cd "$scratch/jdk" && java "$top/tests/peers/Constants.java" 2>"$scratch/said") ||
        { cat "$scratch/said"; echo 'java runs no source: java_units.c with the strings of a JDK skipped'; return; }
    ((${count% *} > 100000)) || wrong "the JDK has too few strings: $count"
    "$program" "$scratch/jdk/strings" | cmp - "$scratch/jdk/units" ||
        wrong 'java_units.c reads the strings of the JDK wrongly'
    echo "java_units.c read the ${count% *} strings of the JDK, ${count#* } with an unpaired surrogate"
    rm -r "$scratch/jdk"
}

# Runs decode_pipe.c on input of more than one piece, with the end of a piece at each offset of a
# character. Then on input that is damaged, that ends within a character, and that is empty, and
# with reads and writes that fail.
in_decode_pipe() {
    local program=$scratch/decode_pipe front
    compile -std=c99 -Wall -Wextra -Wconversion -pedantic -Werror -I "$unpacked/include" \
        -o "$program" "$unpacked/examples/decode_pipe.c" "$unpacked/lib/libcesu8.a" ||
        { wrong 'decode_pipe.c does not build'; return; }
    repeated 20000 '\xED\xA0\xBD\xED\xB2\x96\xC0\x80' >"$scratch/encoded"
    repeated 20000 '\xF0\x9F\x92\x96\x00' >"$scratch/decoded"
    for front in '' a aa aaa aaaa aaaaa aaaaaa aaaaaaa; do
        diff <({ printf '%s' "$front" && cat "$scratch/encoded"; } | "$program" 2>&1 | md5sum) \
            <({ printf '%s' "$front" && cat "$scratch/decoded"; } | md5sum) ||
            wrong "decode_pipe.c gives other text after ${#front} letters"
    done
    decodes_up_to 1 'byte 160000: invalid input' '\xFF'
    decodes_up_to 1 'byte 160001: invalid input' 'a\x00'
    decodes_up_to 1 'byte 160000: input ends within a character' '\xED\xA0\xBD\xED\xB2'
    "$program" </dev/null >"$scratch/printed" || wrong 'decode_pipe.c refuses empty input'
    [[ ! -s $scratch/printed ]] || wrong 'decode_pipe.c makes something of empty input'
    "$program" <"$scratch" >"$scratch/printed" 2>"$scratch/said"
    [[ $? == 2 && $(<"$scratch/said") == 'decode_pipe: Is a directory' ]] ||
        wrong 'decode_pipe.c takes a folder for an empty file'
    "$program" <"$scratch/encoded" >/dev/full 2>"$scratch/said"
    [[ $? == 2 && -s $scratch/said ]] || wrong 'decode_pipe.c succeeds if a write fails'
    stops_reading decode_pipe.c 2 "$program" < <(yes 2>/dev/null)
    echo 'decode_pipe.c was built and run'
}

# Tests that decode_pipe.c writes the text before a fault, and reports it: `decodes_up_to STATUS LINE BYTES`.
decodes_up_to() {
    local status=0
    { cat "$scratch/encoded" && printf '%b' "$3"; } |
        "$scratch/decode_pipe" >"$scratch/printed" 2>"$scratch/said" || status=$?
    ((status == $1)) || wrong "decode_pipe.c ends with status $status for $3"
    diff <(echo "$2") "$scratch/said" || wrong "decode_pipe.c says something else of $3"
    head -c 100000 "$scratch/printed" | cmp - "$scratch/decoded" ||
        wrong "decode_pipe.c loses what precedes $3"
}

# Tests that java_units.c rejects these bytes after the strings of in_java_units:
# `refuses_units BYTES WHY`.
refuses_units() {
    { cat "$scratch/strings_of_units"; printf '%b' "${1//\\/\\0}"; } >"$scratch/damaged"
    "$scratch/java_units" "$scratch/damaged" >"$scratch/printed" 2>"$scratch/said"
    [[ $? == 1 && $(<"$scratch/said") == "$scratch/damaged: $2" ]] || wrong "java_units.c accepts $1"
    (($(wc -l <"$scratch/printed") == 6)) || wrong "java_units.c prints the wrong strings before $1"
}
