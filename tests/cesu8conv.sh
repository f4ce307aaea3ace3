#!/usr/bin/env bash
# Runs cesu8conv as a shell user would: its words, options, statuses, messages, files, pipes and devices.
# tests/cesu8conv.py compares its output with a plain reference in Python, for characters cut at each
# edge of its buffers; if there is no Python, this script says so.
#
#   tests/cesu8conv.sh          all but the largest inputs
#   tests/cesu8conv.sh --large  also 2^32 + 1 bytes from a pipe, and the speed beside `cat`
#
# It prints what is wrong, and the counts at the end. The status is 0 if nothing is wrong. It needs the
# kit's `rt`, bash, grep, sed and the core utilities, and for calls that move one byte a C compiler
# and nm.
# PROVED_CESU8CONV names a program that is proved already.
# shellcheck source=tests/lib.sh
source "$(dirname "${BASH_SOURCE[0]}")/lib.sh" || exit 2

program=${PROVED_CESU8CONV:-$top/crates/cesu8conv/out/cesu8conv}

# Builds the program by `rt run`, which leaves it in out/, unless it is proved already.
build_conv() {
    [[ -z ${PROVED_CESU8CONV-} ]] || return 0
    # shellcheck source=tests/kit.sh
    source "$top/tests/kit.sh" || exit 2
    echo 'building the program'
    if ! (cd "$top/crates/cesu8conv" && rt run -- decode cesu8) </dev/null >"$scratch/build" 2>&1; then
        cat "$scratch/build" >&2
        echo 'the program was not built' >&2
        exit 2
    fi
}

# Runs the program on bytes: `conv INPUT WORD..`, the input in the escapes of printf. It keeps `status`
# and what is written, as `run` does.
conv() {
    printf '%b' "$1" >"$scratch/input"
    shift
    run "$@"
}

# Compares a run with its status, output and standard error: `gives WHAT STATUS OUTPUT ERROR`.
gives() {
    printf '%b' "$3" >"$scratch/wanted"
    if [[ $status != "$2" ]]; then
        wrong "$1: status $status, and not $2: $(<"$scratch/error")"
    elif ! cmp -s "$scratch/wanted" "$scratch/output"; then
        wrong "$1: $(shown "$scratch/output"), and not $(shown "$scratch/wanted")"
    elif [[ $(<"$scratch/error") != "$4" ]]; then
        wrong "$1: standard error is '$(<"$scratch/error")', and not '$4'"
    else
        pass
    fi
}

# Looks for text in what the last run wrote: `says WHAT STATUS TEXT..`.
says() {
    local what=$1 wanted=$2 text
    shift 2
    if [[ $status != "$wanted" ]]; then
        wrong "$what: status $status, and not $wanted"
        return
    fi
    for text in "$@"; do
        cat "$scratch/output" "$scratch/error" | grep -qF -- "$text" || { wrong "$what: no '$text'"; return; }
    done
    pass
}

pair='\xED\xA0\xBD\xED\xB2\x96'
heart='\xF0\x9F\x92\x96'
in='standard input'

try_commands() {
    conv "a$heart" encode cesu8
    gives encode 0 "a$pair" ''
    conv 'a\0' encode mutf8
    gives 'encode to MUTF-8' 0 'a\xC0\x80' ''
    conv "a$pair" decode cesu8
    gives decode 0 "a$heart" ''
    conv "\xFF$pair" lossy cesu8
    gives lossy 0 "\xEF\xBF\xBD$heart" "cesu8conv: replaced 1 bytes by U+FFFD, the first at $in: byte 0"
    conv "$pair$heart" mixed cesu8
    gives mixed 0 "$heart$heart" ''
    conv '\0\xC0\x80' mixed mutf8
    gives 'mixed MUTF-8' 0 '\0\0' ''
    conv "$heart\xFF" mixed cesu8 --lossy
    gives 'mixed --lossy' 0 "$heart\xEF\xBF\xBD" "cesu8conv: replaced 1 bytes by U+FFFD, the first at $in: byte 4"
    conv '' decode cesu8
    gives 'no bytes' 0 '' ''
    conv 'ab\n\xFFc' check mutf8
    gives check 1 '3\t2\t1\tff\n' ''
    conv "a\n\xE2\x82b$heart\n\xC0\x80" check cesu8
    gives 'check lists' 1 '2\t2\t2\te2 82\n5\t2\t4\tf0 9f 92 96\n10\t3\t2\tc0 80\n' ''
    conv "a$pair" check cesu8
    gives 'check of what is right' 0 '' ''
}

try_words() {
    local word
    for word in cesu-8 CESU8 CESU-8 Cesu8; do
        conv "$pair" decode "$word"
        gives "the name $word" 0 "$heart" ''
    done
    for word in mutf-8 MUTF8 MUTF-8; do
        conv '\xC0\x80' decode "$word"
        gives "the name $word" 0 '\0' ''
    done
    conv '' --help
    says '--help' 0 Usage encode decode lossy mixed check --fail-on-damage
    conv '' --version
    says '--version' 0 "cesu8conv $(<"$top/VERSION")"
    conv '' decod cesu8
    says 'an unknown command' 2 decod encode decode lossy mixed check
    conv '' decode utf16
    says 'an unknown encoding' 2 utf16 cesu8 mutf8
    conv ''
    says 'no words' 2 COMMAND FLAVOR
    conv '' decode cesu8 --lossy
    says '--lossy of another command' 2 --lossy mixed
}

# Tests a command that damage stops, with the output before it and the message, which has TEXT after
# the name of the input: `damage INPUT COMMAND FLAVOR OUTPUT TEXT`.
damage() {
    conv "$1" "$2" "$3"
    local right
    right=$(printf '%b' "$4" | wc -c)
    gives "$2 $3 of $1" 1 "$4" "cesu8conv: $in:$5"$'\n'"cesu8conv: $right bytes of output are right"
}

try_messages() {
    damage 'ab\nc\xFFd' decode cesu8 'ab\nc' '2: byte 4: ff: not CESU-8'
    damage '\n\n\x80' decode mutf8 '\n\n' '3: byte 2: 80: not MUTF-8'
    damage "$heart" decode cesu8 '' '1: byte 0: f0 9f 92 96: not CESU-8, but UTF-8: use mixed'
    damage 'a\0b' decode mutf8 a '1: byte 1: 00: not MUTF-8, which has C0 80 for U+0000: use mixed'
    damage 'a\xC0\x80' decode cesu8 a '1: byte 1: c0 80: not CESU-8; it is U+0000 in MUTF-8: use mutf8'
    damage '\xED\xA0\xBDabcdef' mixed cesu8 '' '1: byte 0: ed a0 bd: an unpaired surrogate'
    damage 'a\xE2\x82' decode cesu8 a '1: byte 1: e2 82: the input ends within a character'
    damage 'a\xED\xAF' decode cesu8 a '1: byte 1: ed af: the input ends within a character'
    damage 'a\xC0' decode mutf8 a '1: byte 1: c0: the input ends within a character'
    damage 'a\xF0\x9F' mixed cesu8 a '1: byte 1: f0 9f: the input ends within a character'
    # The input may as well go on after bytes that begin no character of it.
    damage 'a\xF0\x9F' decode cesu8 a '1: byte 1: f0: not CESU-8'
    damage 'a\xED\xB0' decode cesu8 a '1: byte 1: ed: not CESU-8'
    damage 'a\xED\xAF' encode cesu8 a '1: byte 1: ed: not UTF-8'
    damage "a$pair" encode cesu8 a '1: byte 1: ed a0 bd: a surrogate, not UTF-8; is this CESU-8? Then use decode'
    damage 'a\xC0\x80' encode mutf8 a '1: byte 1: c0 80: not UTF-8; it is U+0000 in MUTF-8: use decode mutf8'
    damage '\xFF' encode cesu8 '' '1: byte 0: ff: not UTF-8'
    conv '\xFF' decode cesu8 -q
    gives '-q of damage' 1 '' ''
    conv '\xFF' lossy cesu8 --quiet
    gives '--quiet of what was replaced' 0 '\xEF\xBF\xBD' ''
    conv '\xFF' lossy cesu8 -q --fail-on-damage
    gives '--fail-on-damage' 1 '\xEF\xBF\xBD' ''
    conv 'a' lossy cesu8 --fail-on-damage
    gives '--fail-on-damage without damage' 0 a ''
}

# A pair is cut between two files: `decode` joins it, and `check`, which reads each file by itself,
# reports both parts. Damage is reported by its line and offset in its own file.
try_files() {
    cd "$scratch" || exit 2
    printf 'one\n\xED\xA0' >one
    printf '\xBD\xED\xB2\x96two\n\nx\xFF' >two
    run decode cesu8 one two
    gives 'two files' 1 "one\n${heart}two\n\nx" $'cesu8conv: two:3: byte 10: ff: not CESU-8\ncesu8conv: 14 bytes of output are right'
    conv '\xBD\xED\xB2\x96' decode cesu8 one - one
    gives 'a file, standard input and a file' 1 "one\n${heart}one\n" $'cesu8conv: one:2: byte 4: ed a0: the input ends within a character\ncesu8conv: 12 bytes of output are right'
    run check cesu8 one two
    gives 'check of two files' 1 'one\t4\t2\t2\ted a0\ntwo\t0\t1\t4\tbd ed b2 96\ntwo\t10\t3\t1\tff\n' ''
    run decode cesu8 none
    gives 'no such file' 4 '' 'cesu8conv: none: No such file or directory (os error 2)'
    run decode cesu8 one .
    says 'a folder' 4 'cesu8conv: .: Is a directory'
    cd "$top" || exit 2
}

try_output_files() {
    cd "$scratch" || exit 2
    printf old >out.txt
    chmod 640 out.txt
    conv '\xC0\x80' decode mutf8 -o out.txt
    gives '-o' 0 '' ''
    expect '-o writes the file' cmp -s out.txt <(printf '\0')
    expect '-o keeps the permissions' test "$(stat -c %a out.txt)" = 640
    conv '\xC0\x80\xFF' decode mutf8 -o out.txt
    says 'damage under -o' 1 'byte 2: ff' 'out.txt: not written'
    expect 'after damage the old file is there' cmp -s out.txt <(printf '\0')
    expect 'no draft is left' test "$(echo out.txt*)" = out.txt
    printf '%b' "$pair" >same
    run decode cesu8 same -o same
    expect 'a file may be input and output' cmp -s same <(printf '%b' "$heart")
    ln -s same link
    conv 'new' decode cesu8 -o link
    expect 'a link stays a link' test -L link
    expect 'and its file is written' test "$(<same)" = new
    conv 'a' decode cesu8 -o /dev/null
    gives '-o /dev/null' 0 '' ''
    expect '/dev/null stays a device' test -c /dev/null
    conv 'a' decode cesu8 -o none/out
    says '-o in no folder' 4 'none/out: No such file'
    cd "$top" || exit 2
}

try_devices() {
    local message='No space left on device (os error 28)'
    printf a >"$scratch/input"
    "$program" decode cesu8 <"$scratch/input" >/dev/full 2>"$scratch/error"
    status=$?
    : >"$scratch/output"
    gives /dev/full 4 '' "cesu8conv: standard output: $message"
    conv 'a' decode cesu8 -o /dev/full
    gives '-o /dev/full' 4 '' "cesu8conv: /dev/full: $message"
    # This writes the input of the next run.
    conv '\xFF' check cesu8
    "$program" check cesu8 <"$scratch/input" >/dev/full 2>"$scratch/error"
    status=$?
    : >"$scratch/output"
    gives 'check to /dev/full' 4 '' "cesu8conv: standard output: $message"
    printf a >"$scratch/input"
    "$program" decode cesu8 <&- >"$scratch/output" 2>"$scratch/error"
    status=$?
    says 'a closed standard input' 4 'standard input: Bad file descriptor'
    "$program" decode cesu8 <"$scratch/input" >&- 2>"$scratch/error"
    status=$?
    says 'a closed standard output' 4 'standard output: Bad file descriptor'
    "$program" encode cesu8 < <(yes | head -c 3000000) 2>"$scratch/error" | head -c 1 >"$scratch/output"
    statuses=("${PIPESTATUS[@]}")
    expect 'a reader that goes away leaves no message' test ! -s "$scratch/error"
    expect 'and ends the program' test "${statuses[0]}" != 0
}

# A file that becomes shorter after the program has started. The program first reads a pipe, which
# stays open until the file is cut.
try_shrinking() {
    head -c 1000000 /dev/zero | tr '\0' a >"$scratch/shrinks"
    mkfifo "$scratch/pipe"
    "$program" decode cesu8 - "$scratch/shrinks" <"$scratch/pipe" >"$scratch/output" 2>"$scratch/error" &
    exec 3>"$scratch/pipe"
    printf b >&3
    truncate -s 10 "$scratch/shrinks"
    exec 3>&-
    wait $!
    status=$?
    gives 'a file that shrinks' 0 baaaaaaaaaa ''
}

# Prints at least BYTES bytes of text, in lines like those of a database dump. Each line has a
# surrogate pair and a character of four bytes: `mixed_text BYTES`.
mixed_text() {
    local line block size
    line="INSERT INTO notes VALUES (17, 'caf\\xC3\\xA9 $pair $heart \\xE2\\x82\\xAC 12', NOW());\\n"
    printf '%b' "$line" >"$scratch/line"
    block=$scratch/block
    for ((i = 0; i < 1000; i++)); do cat "$scratch/line"; done >"$block"
    size=$(stat -c %s "$block")
    for ((i = 0; i * size < $1; i++)); do cat "$block"; done
}

# Runs the program with a `read` and a `write` that move one byte a call, whatever it asks for.
try_short_calls() {
    if ! can_build_c 'calls that move one byte'; then return; fi
    local input="a$pair$heart\\xE2\\x82\\xACb\\xFFc" wanted="a$heart$heart\\xE2\\x82\\xACb\\xEF\\xBF\\xBDc"
    cc -shared -fPIC -O1 -o "$scratch/short.so" "$top/tests/short_calls.c" || { wrong 'short_calls.c does not build'; return; }
    expect 'the program reads and writes by the C library' \
        test "$(nm -D "$program" | grep -cE ' U (read|write)(@|$)')" = 2
    printf '%b' "$input" >"$scratch/input"
    LD_PRELOAD=$scratch/short.so "$program" mixed cesu8 --lossy -q <"$scratch/input" >"$scratch/output" 2>"$scratch/error"
    status=$?
    gives 'calls that move one byte' 0 "$wanted" ''
}

# Converts 100 MB in little memory. The expected checksum is that of the text in which `sed` has
# replaced the surrogate pairs.
try_memory() {
    local sum
    sum=$(mixed_text 100000000 | sed "s/$(printf '%b' "$pair")/$(printf '%b' "$heart")/" | cksum)
    expect '100 MB under ulimit -v' test "$sum" = "$( (ulimit -v 8192 && mixed_text 100000000 |
        "$program" mixed cesu8) | cksum)"
    expect 'encode under ulimit -v' test 0 = "$( (ulimit -v 8192 && yes | head -c 100000000 |
        "$program" encode mutf8) | cmp - <(yes | head -c 100000000) >/dev/null; echo $?)"
}

try_parallel() {
    if ! command -v parallel >/dev/null || ! parallel --version 2>/dev/null | grep -q 'GNU parallel'; then
        echo 'GNU parallel is missing: parts on several processors not run'
        return
    fi
    expect 'parallel gives the same' test "$(mixed_text 200000000 | "$program" mixed cesu8 | cksum)" = \
        "$(mixed_text 200000000 | parallel --will-cite --pipe --block 64M -k "$program" mixed cesu8 | cksum)"
}

try_python() {
    if ! command -v python3 >/dev/null; then
        echo 'python3 is missing: the comparison with its codecs not run'
        return
    fi
    local last
    python3 "$top/tests/cesu8conv.py" "$program" "$scratch" >"$scratch/compared"
    sed '$d' "$scratch/compared"
    last=$(tail -n 1 "$scratch/compared")
    [[ $last =~ ^([0-9]+)\ passed,\ ([0-9]+)\ failed$ ]] || { wrong 'tests/cesu8conv.py did not count'; return; }
    passed=$((passed + BASH_REMATCH[1]))
    failed=$((failed + BASH_REMATCH[2]))
}

# Inputs that take minutes: an offset above 2^32, and the times of 4 GB.
try_large() {
    local count=4294967297
    { yes abcdefg | head -c "$count"; printf '\xFF'; } |
        (ulimit -v 8192 && "$program" decode cesu8 2>"$scratch/error") | tail -c 1 >"$scratch/output"
    expect '2^32 + 1 bytes' grep -q "byte $count: ff" "$scratch/error"
    echo '4 GB of mixed text:'
    time (mixed_text 4000000000 | (ulimit -v 8192 && "$program" mixed cesu8) | cksum)
    echo '4 GB of ASCII, by cat and by decode:'
    time (yes abcdefg | head -c 4000000000 | cat >/dev/null)
    time (yes abcdefg | head -c 4000000000 | "$program" decode cesu8 >/dev/null)
}

build_conv
try_commands
try_words
try_messages
try_files
try_output_files
try_devices
try_shrinking
try_short_calls
try_memory
try_parallel
try_python
[[ ${1-} != --large ]] || try_large
finish
