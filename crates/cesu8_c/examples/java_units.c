// Prints the UTF-16 code units of the strings that Java's DataOutput.writeUTF wrote to a file, one
// string a line, each code unit as four hexadecimal digits:
//   java_units FILE
// No text has an unpaired surrogate, so cesu8_java_read rejects it and cesu8_java_read_lossy replaces
// it. But a string in Java may have one, and class files contain some. This program prints it, as the
// code unit that Java has.

#include "cesu8.h"

#include <errno.h>
#include <stdio.h>
#include <string.h>

enum { LONGEST = 65535 };

// Whether the bytes begin with a surrogate in MUTF-8: ED, A0 to BF, 80 to BF.
static bool begins_with_surrogate(const uint8_t *bytes, size_t length)
{
    return length >= 3 && bytes[0] == 0xED && bytes[1] >= 0xA0 && bytes[1] <= 0xBF
        && (bytes[2] & 0xC0) == 0x80;
}

// Returns the code unit at offset `at` of bytes that are known to be whole characters or surrogates,
// and moves `at` past it. A code unit has one to three bytes; the first byte determines how many.
static uint16_t next_unit(const uint8_t *bytes, size_t *at)
{
    const uint8_t *unit = bytes + *at;
    if (unit[0] < 0x80) {
        *at += 1;
        return unit[0];
    }
    if (unit[0] < 0xE0) {
        *at += 2;
        return (uint16_t)((unit[0] & 0x1F) << 6 | (unit[1] & 0x3F));
    }
    *at += 3;
    return (uint16_t)((unit[0] & 0x0F) << 12 | (unit[1] & 0x3F) << 6 | (unit[2] & 0x3F));
}

// Writes the code units of MUTF-8 that may contain unpaired surrogates. There are at most as many code
// units as bytes. It returns how many bytes were read: if fewer than `length`, the next one is damage.
static size_t read_units(const uint8_t *bytes, size_t length, uint16_t *units, size_t *count)
{
    size_t at = 0;
    *count = 0;
    while (at < length) {
        size_t end = at + cesu8_mutf8_valid_up_to(bytes + at, length - at).length;
        if (end == at) {
            if (!begins_with_surrogate(bytes + at, length - at))
                break;
            end += 3;
        }
        while (at < end)
            units[(*count)++] = next_unit(bytes, &at);
    }
    return at;
}

// Prints the next string of a file. It returns false at the end of the file, and also if the string is
// truncated or damaged or a read fails: then it sets `problem`.
static bool print_string(FILE *file, const char **problem)
{
    static uint8_t bytes[LONGEST];
    static uint16_t units[LONGEST];
    uint8_t head[2];
    size_t count, got = fread(head, 1, 2, file);
    size_t length = 256u * head[0] + head[1];
    if (got == 2 && fread(bytes, 1, length, file) == length) {
        if (read_units(bytes, length, units, &count) < length) {
            *problem = cesu8_status_text(CESU8_INVALID);
            return false;
        }
        for (size_t i = 0; i < count; i++)
            printf("%s%04X", i == 0 ? "" : " ", (unsigned)units[i]);
        printf("\n");
        return true;
    }
    if (ferror(file))
        *problem = strerror(errno);
    else if (got > 0)
        *problem = cesu8_status_text(CESU8_TRUNCATED);
    return false;
}

int main(int count, char **words)
{
    if (count != 2) {
        fprintf(stderr, "usage: java_units FILE\n");
        return 2;
    }
    FILE *file = fopen(words[1], "rb");
    if (file == NULL) {
        perror(words[1]);
        return 1;
    }
    const char *problem = NULL;
    while (!ferror(stdout) && print_string(file, &problem)) {
    }
    bool is_written = fflush(stdout) == 0 && !ferror(stdout);
    if (!is_written)
        perror("standard output");
    if (problem != NULL)
        fprintf(stderr, "%s: %s\n", words[1], problem);
    fclose(file);
    return is_written && problem == NULL ? 0 : 1;
}
