# For tests/dist.sh: runs the examples of the pages and man pages, and compares the man pages and the
# completion with the commands and the calls. It uses the variables of that script.
# shellcheck shell=bash disable=SC2154

# Tests that the shell lines of a page print what the comments after them say: `shown_lines FILE`.
shown_lines() {
    local line count=0
    while read -r line; do
        count=$((count + 1))
        diff <(cd "$unpacked" && PATH=$unpacked/bin:$PATH sh -c "${line%%  #*}" | sed 's/^ *//') \
            <(echo "${line##*# }") || wrong "${1##*/} shows something else than: $line"
    done < <(grep '^printf .*  # ' "$1")
    ((count >= 3)) || wrong "${1##*/} shows $count lines of a shell"
}

# Tests the C program that the README shows, with the command after it.
shown_c() {
    local command
    # shellcheck disable=SC2016
    sed -n '/^```c$/,/^```$/{/^```/d;p;}' "$unpacked/README.md" >"$scratch/shown/key.c"
    command=$(sed -n 's/^    \(cc .*key.c.*\)/\1/p' "$unpacked/README.md")
    if (cd "$scratch/shown" && ln -s "$unpacked/include" "$unpacked/lib" . &&
        sh -c "${command%%  #*}") 2>&1 | diff - <(echo "${command##*# }"); then
        echo 'what the README shows was built and run'
    else
        wrong 'what the README shows prints something else'
    fi
}

# Tests the three blocks of C that C.md shows, each as the body of a program. One prints what it decoded.
# The others make a name, and a text of bytes that mix both encodings, which are printed here.
shown_in_page() {
    local file=$scratch/shown/page.c first
    for first in bytes text mixed; do
        {
            printf '#include <cesu8.h>\n#include <stdio.h>\nint main(void) {\n'
            sed -n "/^    static const uint8_t $first\[\]/,/^\$/p" "$unpacked/C.md"
            case $first in
                text) printf '    fputs(name, stdout);\n' ;;
                mixed) printf '    fwrite(all, 1, length, stdout);\n' ;;
            esac
            printf '    return answer.status != CESU8_OK;\n}\n'
        } >"$file"
        compile -std=c99 -Wall -Wextra -Werror -pedantic -I "$unpacked/include" -o "$file.out" \
            "$file" "$unpacked/lib/libcesu8.a" || wrong "what C.md shows of $first does not build"
        "$file.out" >>"$scratch/shown/printed" || wrong "what C.md shows of $first fails"
    done
    printf 'a\0a\355\240\275\355\262\226a\360\237\222\226b\360\237\222\226' |
        cmp - "$scratch/shown/printed" || wrong 'what C.md shows prints something else'
}

# Tests the commands of C.md that build a program here, with keys.c as the program. The path that the loader
# gets from pkg-config must have no `..`.
shown_commands() {
    local folder=$scratch/shown/commands line setting
    mkdir "$folder" && cp "$crate/examples/keys.c" "$folder/program.c" || exit 2
    setting=$(sed -n 's/^    \(export PKG_CONFIG_PATH=.*\)/\1/p' "$unpacked/C.md")
    sed -n 's/^    \(cc .*program\.c .*\)/\1/p' "$unpacked/C.md" >"$folder/lines"
    (($(wc -l <"$folder/lines") == 3)) || wrong 'C.md does not show three commands of cc'
    while read -r line; do
        [[ $line != *pkg-config* || -n $has_pkg_config ]] || continue
        rm -f "$folder/program"
        (cd "$folder" && release=$unpacked quietly sh -c "$setting; $line -o program") ||
            wrong "this line of C.md fails: $line"
        example "$folder/program" "keys.c as C.md says: ${line:0:50} ..,"
        [[ $line != *-rpath* ]] || readelf -dW "$folder/program" | grep -qF "[$(realpath "$unpacked/lib")]" ||
            wrong "this line of C.md gives the loader another path: $line"
    done <"$folder/lines"
}

# Tests what C.md says of MemorySanitizer, if clang has it: it reports a result that is returned in memory,
# and the buffer, unless __msan_unpoison is called on them.
in_memory_sanitizer() {
    local file=$scratch/shown/sanitized.c part
    local flags=(-g -fsanitize=memory -I "$unpacked/include" -o "$file.out" "$file" "$unpacked/lib/libcesu8.a")
    cat >"$file" <<'C'
#include <cesu8.h>
#include <sanitizer/msan_interface.h>
int main(void)
{
    static const uint8_t text[] = {'a', 0xF0, 0x9F, 0x92, 0x96};
    uint8_t buffer[CESU8_MAX_ENCODED(sizeof text)];
    struct cesu8_progress progress =
        cesu8_stream_encode(text, sizeof text, buffer, sizeof buffer);
#ifndef RESULT
    __msan_unpoison(&progress, sizeof progress);
#endif
    if (progress.status != CESU8_OK)
        return 2;
#ifndef BUFFER
    __msan_unpoison(buffer, progress.written);
#endif
    return buffer[1] == 0xED ? 0 : 3;
}
C
    can_build 'MemorySanitizer' clang -DNONE "${flags[@]}" || return 0
    "$file.out" >"$scratch/said" 2>&1 || { cat "$scratch/said"; wrong 'MemorySanitizer reports an error'; }
    for part in RESULT BUFFER; do
        quietly clang "-D$part" "${flags[@]}" || exit 2
        "$file.out" >"$scratch/said" 2>&1
        grep -q 'MemorySanitizer: use-of-uninitialized-value' "$scratch/said" ||
            wrong "MemorySanitizer does not report ${part,,} as uninitialized, as C.md says"
    done
}

# Tests the shell blocks of PROGRAM.md, as one script for the installed program: it must print what the
# comments after the lines say.
shown_in_program_page() {
    local folder=$scratch/shown/program
    mkdir "$folder" || exit 2
    # shellcheck disable=SC2016
    sed -n '/^```sh$/,/^```$/{/^```/d;p;}' "$unpacked/PROGRAM.md" >"$folder/script"
    diff <(grep '^program=' "$folder/script" | tr -s ' ') \
        <(echo 'program=cesu8_cli # in the unpacked archive: program=bin/cesu8_cli') ||
        wrong 'PROGRAM.md sets another program'
    (cd "$folder" && PATH=$unpacked/bin:$PATH bash ./script) 2>&1 | sed 's/^ //' >"$folder/printed"
    sed -nE '/^(printf|tail|\)) /s/.*  # //p' "$folder/script" | sed 's/, and /\n/' |
        diff - "$folder/printed" || wrong 'PROGRAM.md shows something else'
    echo 'what PROGRAM.md shows was run'
}

# Tests that `man` reads a page without a warning, and writes its text to $scratch/shown_page:
# `reads_page PAGE`.
reads_page() {
    (export LC_ALL=C.UTF-8 MANROFFSEQ='' MANWIDTH=200 && cd "$unpacked/share/man" &&
        man --warnings -E UTF-8 -l "$1") >"$scratch/printed" 2>"$scratch/said" </dev/null ||
        wrong "man does not read $1"
    [[ ! -s $scratch/said ]] || { cat "$scratch/said"; wrong "man warns of $1"; }
    sed 's/^ *//; s/\x1b\[[0-9;]*m//g; s/.\x08//g' "$scratch/printed" >"$scratch/shown_page"
}

# Tests that the man page of the calls names each call and shows its declaration, and that each call has a
# page that includes it.
look_at_call_pages() {
    local folder=$unpacked/share/man/man3 call
    { exports; plain_calls; } | sed 's/^/cesu8_/' | sort >"$scratch/calls"
    diff <(sed 's/$/.3/' "$scratch/calls") <(cd "$folder" && printf '%s\n' cesu8_* | sort) ||
        wrong 'there are man pages of other calls'
    diff <({ echo cesu8 && cat "$scratch/calls"; }) \
        <(sed -n '/^\.SH NAME/{n;s/ .-.*//;s/, /\n/g;p;}' "$folder/cesu8.3" | sort) ||
        wrong 'the man page of the calls names others'
    grep -q "^\.TH CESU8 3 [0-9-]* \"cesu8 ${version//./\\.}\"" "$folder/cesu8.3" ||
        wrong 'the man page of the calls has another version'
    for call in "$folder"/cesu8_*; do
        [[ $(<"$call") == '.so man3/cesu8.3' ]] || wrong "$call leads elsewhere"
    done
    if can_build 'the man pages of the calls' man --version; then
        reads_page man3/cesu8_encode.3
        while read -r call; do
            grep -qE "^[a-z].*[ *]$call\(" "$scratch/shown_page" || wrong "man shows no $call"
        done <"$scratch/calls"
        grep -q 'U+FFFD for each byte that is not part of one' "$scratch/shown_page" ||
            wrong 'man does not show what the header says'
    fi
}

# Tests that the man pages and the completion have the commands of PROGRAM.md. Among its
# commands the man page also has a line for `yes`, which the command `needs` prints.
look_at_words() {
    local page=$unpacked/share/man/man1/cesu8_cli.1 words
    # shellcheck disable=SC2016
    sed -n '/^## `cesu8_cli`/,$s/^| `\([a-z-]*\)` |.*/\1/p' "$unpacked/PROGRAM.md" | sort >"$scratch/commands"
    (($(wc -l <"$scratch/commands") >= 8)) || wrong 'PROGRAM.md has few commands'
    diff "$scratch/commands" <(sed -n '/^\.SH COMMANDS/,/^\.SH EXIT/s/^\.B \([a-z].*\)/\1/p' "$page" |
        sed 's/\\-/-/g' | grep -vx yes | sort) || wrong 'the man page has other commands'
    grep -q "^\.TH CESU8_CLI 1 [0-9-]* \"cesu8 ${version//./\\.}\"" "$page" ||
        wrong 'the man page has another version'
    diff "$scratch/commands" <(complete_words 1 cesu8_cli '' | sort) ||
        wrong 'the completion has other commands'
    [[ $(complete_words 1 cesu8_cli dec | xargs) == 'decode decode-strict' ]] ||
        wrong 'the completion of dec is another'
    while read -r words; do
        [[ $(complete_words 2 cesu8_cli "$words" '' | xargs) == "$(flavors_of "$words")" ]] ||
            wrong "the completion has other flavors for $words"
    done <"$scratch/commands"
    [[ -z $(complete_words 3 cesu8_cli encode cesu8 '') ]] || wrong 'the completion has a third word'
    # shellcheck disable=SC2016
    sed -n '/^## Convert a file/,/^## `cesu8_cli`/s/^| `\([a-z]*\)` |.*/\1/p' "$unpacked/PROGRAM.md" | sort \
        >"$scratch/commands"
    diff "$scratch/commands" <(complete_words 1 cesu8conv '' | sort) ||
        wrong 'the completion of cesu8conv has other commands'
    diff "$scratch/commands" <(sed -n '/^\.SH COMMANDS/,/^\.SH OPTIONS/s/^\.B \([a-z].*\)/\1/p' \
        "$unpacked/share/man/man1/cesu8conv.1" | sort) || wrong 'the man page of cesu8conv has other commands'
    [[ $(complete_words 2 cesu8conv decode '' | xargs) == 'cesu8 mutf8' ]] ||
        wrong 'the completion of cesu8conv has other encodings'
    [[ $(complete_words 3 cesu8conv decode cesu8 --f) == --fail-on-damage ]] ||
        wrong 'the completion of cesu8conv lacks an option'
    if can_build 'the man pages of the programs' man --version; then
        for words in cesu8_cli cesu8conv; do
            reads_page "man1/$words.1"
            shown_lines "$scratch/shown_page"
        done
    fi
}

# Prints the completions that bash offers for the word at an index: `complete_words PLACE PROGRAM WORD..`.
complete_words() {
    bash -c '
        source "$1" && COMP_CWORD=$2 && COMP_WORDS=("${@:3}") && "_$3" &&
            printf "%s\n" "${COMPREPLY[@]}"
    ' - "$unpacked/share/bash-completion/completions/$2" "$@"
}

# Prints the flavors that the program accepts for a command.
flavors_of() {
    local flavor found=''
    for flavor in cesu8 mutf8; do
        "$unpacked/bin/cesu8_cli" "$1" "$flavor" </dev/null >"$scratch/said" 2>&1
        (($? == 2)) || found+=" $flavor"
    done
    echo "${found# }"
}
