#!/bin/sh
# Prints the strings that Java's DataOutput.writeUTF wrote to a file, each on a line:
#   java_strings.sh FILE
# It reads the file once, with `od -N` and `head -c`; GNU's never read beyond the bytes that they
# print. So twice as many strings take twice the time. At a string that is truncated or not Modified
# UTF-8 it stops, with the error line and the status of cesu8_cli. If a read or a write fails, the
# status is not 0 either.
#
# CESU8_CLI names the program, if it is not on the PATH.
set -u

program=${CESU8_CLI:-cesu8_cli}
exec <"${1:?FILE is missing}" || exit
while :; do
    # The two bytes of the string's length, in octal, the high byte first; nothing at the end.
    count=$(od -An -to1 -N2) || exit
    # shellcheck disable=SC2086
    set -- $count
    [ $# -gt 0 ] || break
    {
        # shellcheck disable=SC2059
        printf "\\$1${2:+\\$2}"
        [ $# -lt 2 ] || head -c $((256 * 0$1 + 0$2))
    } | "$program" java-read mutf8 || exit
    echo || exit
done
