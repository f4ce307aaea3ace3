#!/usr/bin/env bash
# Compares the program `cesu8_cli` with other implementations, if they are installed:
# - for Java strings and MUTF-8 with the JDK's `writeUTF` and `readUTF`;
# - for CESU-8 with the JDK's charset CESU-8, and with ICU's `uconv`.
# For each text the program has to write the same bytes as they do, and each has to read what the
# other wrote. The program also has to read a constant from a class file of `javac`. It prints each
# text that is wrong, which implementation was skipped, and the counts at the end. The status is 0
# if nothing is wrong.
#
# It needs the kit's `rt`, bash, awk and the core utilities, and for the JDK version 11 or later.
# shellcheck source=tests/lib.sh
source "$(dirname "${BASH_SOURCE[0]}")/lib.sh" || exit 2
mkdir "$scratch"/{texts,ours,java,uconv} || exit 2

# The commands that write and read what is compared: the two encodings, and Java strings.
declare -A writes=([cesu8]='encode cesu8' [mutf8]='encode mutf8' [string]='java-write mutf8')
declare -A reads=([cesu8]='decode-strict cesu8' [mutf8]='decode-strict mutf8' [string]='java-read mutf8')

# Reads the scalar values that crates/test_cases lists.
read_borders() {
    mapfile -t borders < <(
        grep -o '"U+[0-9A-F]*"' "$top/crates/test_cases/src/borders.rt" | sed 's/"U+/0x/; s/"//'
    )
}

# Writes the UTF-8 of the scalar values on standard input, one a line: `write_text NAME`.
write_text() {
    local escapes
    escapes=$(awk '
        function escape(byte) { printf "\\x%02x", byte }
        function continuation(value) { escape(128 + int(value) % 64) }
        $1 < 128 { escape($1) }
        $1 >= 128 && $1 < 2048 { escape(192 + int($1 / 64)) }
        $1 >= 2048 && $1 < 65536 { escape(224 + int($1 / 4096)) }
        $1 >= 65536 { escape(240 + int($1 / 262144)); continuation($1 / 4096) }
        $1 >= 2048 { continuation($1 / 64) }
        $1 >= 128 { continuation($1) }
    ')
    # shellcheck disable=SC2059
    printf "$escapes" >"$scratch/texts/$1"
}

# Writes all scalar values in turn, 8,192 in each text. Its MUTF-8 has at most six bytes for each, and
# writeUTF takes up to 65,535. Surrogates are no scalar values.
write_blocks() {
    local first last
    for ((first = 0; first < 0x110000; first += 0x2000)); do
        last=$((first == 0xC000 ? 0xD7FF : first + 0x1FFF))
        seq "$first" "$last" | write_text "$(printf 'from_U+%04X' "$first")"
    done
}

# Writes all texts, and checks their total length: if some were missing, the comparisons would
# succeed all the same.
write_texts() {
    local scalar bytes
    write_text empty </dev/null
    for scalar in "${borders[@]}"; do
        printf '%d\n' "$scalar" | write_text "$(printf 'U+%04X' "$scalar")"
    done
    write_blocks
    bytes=$(cat "$scratch"/texts/* | wc -c)
    # The listed scalar values have 62 bytes, and all scalar values 4,382,592.
    if ((bytes != 62 + 4382592)); then
        echo "the texts were not written: they have $bytes bytes" >&2
        exit 2
    fi
}

# Runs a command from a file to a file, which is removed if the command fails:
# `convert INPUT OUTPUT COMMAND..`.
convert() {
    local input=$1 output=$2
    shift 2
    "$@" <"$input" >"$output" 2>>"$scratch/errors" || rm -f "$output"
}

# Writes each text with the program. The words of a command are separated by blanks.
# shellcheck disable=SC2086
encode_texts() {
    local name form
    for name in "${names[@]}"; do
        for form in "${!writes[@]}"; do
            convert "$scratch/texts/$name" "$scratch/ours/$name.$form" "$program" ${writes[$form]}
        done
    done
}

# Compares what another implementation wrote and read with what the program does:
# `compare PEER FORM NAME`.
# shellcheck disable=SC2086
compare() {
    local text=$scratch/texts/$3 ours=$scratch/ours/$3.$2 theirs=$scratch/$1/$3.$2 differs=''
    cmp -s "$ours" "$theirs" || differs+=$'\n''  what is written differs'
    cmp -s "$text" "$theirs.utf8" || differs+=$'\n'"  $1 reads another text, or none"
    rm -f "$scratch/read"
    [[ -e $theirs ]] && convert "$theirs" "$scratch/read" "$program" ${reads[$2]}
    cmp -s "$text" "$scratch/read" || differs+=$'\n''  the program reads another text, or none'
    if [[ -z $differs ]]; then pass; else wrong "$1 and $2 of $3$differs"; fi
}

# Compares all texts: `compare_all PEER FORM`.
compare_all() {
    local name before=$passed
    for name in "${names[@]}"; do
        compare "$1" "$2" "$name"
    done
    summary+="$1, $2: ${#names[@]} texts compared, $((passed - before)) agree"$'\n'
}

# Reads the constant of tests/peers/Peer.java from its class file, and compares it with its UTF-8.
compare_constant() {
    printf 'a\0\303\251\342\202\254\360\237\222\226' >"$scratch/constant"
    rm -f "$scratch/read"
    convert "$scratch/java/constant" "$scratch/read" "$program" java-read mutf8
    if cmp -s "$scratch/constant" "$scratch/read"; then
        pass
        summary+="javac: the program reads the constant of a class file"$'\n'
    else
        wrong 'the program reads the wrong constant of a class file, or none'
    fi
}

# Stores for the end that an implementation was not run, and why: `not_run PEER WHY [FILE]`. The
# file has the messages of the implementation.
not_run() {
    summary+="$1 $2: skipped"$'\n'
    [[ -z ${3-} ]] || head -n 5 "$3" >&2
}

# The JDK runs once for all texts.
run_java() {
    local word version status
    if ! command -v java >/dev/null; then
        not_run java 'is missing'
        return
    fi
    # A program that only prints its version shows whether this is a JDK that runs.
    cat >"$scratch/Version.java" <<'JAVA'
class Version {
    public static void main(String[] arguments) {
        System.out.println("version " + Runtime.version());
    }
}
JAVA
    (cd "$scratch" && LC_ALL=C.UTF-8 java Version.java) \
        </dev/null >"$scratch/java.output" 2>"$scratch/java.error"
    read -r word version <"$scratch/java.output"
    if [[ ${word-} != version ]]; then
        not_run java 'is here and cannot be run' "$scratch/java.error"
        return
    fi
    # From here on every failure counts.
    cp "$top/tests/peers/Peer.java" "$scratch/" || exit 2
    # In the locale C, java finds no file in a folder whose name is not ASCII.
    (cd "$scratch" && export LC_ALL=C.UTF-8 && javac -d classes Peer.java && java -cp classes Peer) \
        </dev/null 2>"$scratch/java.error"
    status=$?
    summary+="java is version $version"$'\n'
    head -n 20 "$scratch/java.error" >&2
    if ((status != 0)); then
        wrong "tests/peers/Peer.java ended with status $status"
        return
    fi
    compare_all java string
    compare_constant
    compare_all java mutf8
    compare_all java cesu8
}

# Converts each text with ICU.
run_uconv() {
    local name
    if ! command -v uconv >/dev/null; then
        not_run uconv 'is missing'
        return
    fi
    if ! uconv -f UTF-8 -t CESU-8 </dev/null >/dev/null 2>"$scratch/uconv.error"; then
        not_run uconv 'is here and cannot be run' "$scratch/uconv.error"
        return
    fi
    summary+="$(uconv --version)"$'\n'
    for name in "${names[@]}"; do
        convert "$scratch/texts/$name" "$scratch/uconv/$name.cesu8" uconv -f UTF-8 -t CESU-8
        convert "$scratch/ours/$name.cesu8" "$scratch/uconv/$name.cesu8.utf8" \
            uconv -f CESU-8 -t UTF-8
    done
    compare_all uconv cesu8
}

build
read_borders
write_texts
mapfile -t names < <(cd "$scratch/texts" && ls)
summary=''
encode_texts
run_java
run_uconv

printf '%s' "$summary"
finish
