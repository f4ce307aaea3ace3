# Hostile input, for scripts that pass it to the program. A script sources this file after
# tests/lib.sh.
# shellcheck shell=bash disable=SC2154

# Prints a file several times: `copies TIMES FILE`.
copies() {
    local time
    for ((time = 0; time < $1; time++)); do
        cat "$2"
    done
}

# Prints a million bytes, the same in each run: first random bytes, and then random ones of those
# that make cut characters and surrogate pairs. The last is a letter, so no character crosses from
# one million to the next.
noise() {
    printf '%b' "$(awk 'BEGIN {
        many = split("0 65 128 150 160 178 189 191 192 194 223 224 237 239 240 244", some)
        random = 1
        for (at = 1; at < 1000000; at++) {
            random = random * 16807 % 2147483647
            byte = int(random / 8192) % 256
            printf "\\0%03o", at <= 500000 ? byte : some[byte % many + 1]
        }
        printf "\\0%03o", 97
    }')"
}

# Prints LENGTH bytes of one kind: first halves of surrogate pairs, U+10FFFF in UTF-8, a lead byte
# that begins no character in CESU-8, pairs that are cut off after two bytes, nulls, or noise. Noise
# comes in whole millions, and one million is left in $scratch/million: `hostile_bytes KIND LENGTH`.
hostile_bytes() {
    case $1 in
        half) filled "$2" '\xED\xA0\xBD' ;;
        four) filled "$2" '\xF4\x8F\xBF\xBF' ;;
        lead) filled "$2" '\xC0' ;;
        cut) filled "$2" '\xED\xA0' ;;
        null) head -c "$2" /dev/zero ;;
        noise)
            noise >"$scratch/million"
            copies $(($2 / 1000000)) "$scratch/million"
            ;;
    esac
}
