// Prints which bytes of a file are not part of an encoded character, as `cesu8conv check` does:
//   cesu8_damage cesu8|mutf8 [FILE]
// Without FILE it reads standard input. It prints a line for each run of such bytes, with four columns
// separated by tabs: the offset of the first byte, from 0; the number of its line, from 1; the number
// of bytes; and the bytes in hexadecimal, or the first 16 and ".." if there are more.
//
// The status is 0 if there are none, 1 if there are some, 2 if the arguments are wrong, 3 if memory ran
// out, and 4 if a read or a write failed. For the last three a line on standard error says why.
//
// It reads a piece at a time, so a file may be larger than the memory. The bytes after the whole
// characters of a piece may begin a character that continues in the next piece, if there are at most
// five. If there are six or more, or if the file ends, the first of them is not part of a character.

#include "cesu8.h"

#include <errno.h>
#include <stdio.h>
#include <string.h>

enum { LONGEST = 6, SHOWN = 16 };

// Finds the valid prefix in one of the two encodings.
typedef struct cesu8_answer finder(const uint8_t *bytes, size_t length);

typedef unsigned long long number;

// The state of the scan: the offset and the line of the next byte, and the run of damaged bytes that
// ends before it, whose length is 0 if there is none.
struct scan {
    finder *find;
    number offset, line;
    struct {
        number offset, length;
        uint8_t shown[SHOWN];
    } stretch;
    bool is_damaged;
};

static finder *finder_of(const char *encoding)
{
    if (strcmp(encoding, "cesu8") == 0)
        return cesu8_valid_up_to;
    return strcmp(encoding, "mutf8") == 0 ? cesu8_mutf8_valid_up_to : NULL;
}

// Prints the run of damaged bytes that ends here. It contains no line end, since 0A is a character.
static void end_stretch(struct scan *scan)
{
    if (scan->stretch.length == 0)
        return;
    printf("%llu\t%llu\t%llu\t", scan->stretch.offset, scan->line, scan->stretch.length);
    for (number i = 0; i < scan->stretch.length && i < SHOWN; i++)
        printf("%s%02x", i == 0 ? "" : " ", scan->stretch.shown[i]);
    printf("%s\n", scan->stretch.length > SHOWN ? " .." : "");
    scan->stretch.length = 0;
    scan->is_damaged = true;
}

// Skips whole characters.
static void pass(struct scan *scan, const uint8_t *bytes, size_t length)
{
    if (length > 0)
        end_stretch(scan);
    for (size_t i = 0; i < length; i++)
        scan->line += bytes[i] == '\n';
    scan->offset += length;
}

// Adds a byte that is not part of a character.
static void add(struct scan *scan, uint8_t byte)
{
    if (scan->stretch.length == 0)
        scan->stretch.offset = scan->offset;
    if (scan->stretch.length < SHOWN)
        scan->stretch.shown[scan->stretch.length] = byte;
    scan->stretch.length++;
    scan->offset++;
}

// Scans the next bytes, and returns how many at their end must be scanned again with the bytes that
// follow them.
static size_t look(struct scan *scan, const uint8_t *bytes, size_t length, bool is_end)
{
    size_t at = 0;
    for (;;) {
        size_t whole = scan->find(bytes + at, length - at).length;
        pass(scan, bytes + at, whole);
        at += whole;
        if (at == length || (!is_end && length - at < LONGEST))
            return length - at;
        add(scan, bytes[at++]);
    }
}

// Prints what failed, and returns the status for it.
static int fail(const char *what)
{
    int status = errno == ENOMEM ? 3 : 4;
    fprintf(stderr, "cesu8_damage: %s: %s\n", what, strerror(errno));
    return status;
}

int main(int count, char **words)
{
    static uint8_t bytes[65536];
    struct scan scan = {.line = 1};
    if (count == 2 || count == 3)
        scan.find = finder_of(words[1]);
    if (scan.find == NULL) {
        fprintf(stderr, "usage: cesu8_damage cesu8|mutf8 [FILE]\n");
        return 2;
    }
    const char *name = count == 3 ? words[2] : "standard input";
    FILE *file = count == 3 ? fopen(name, "rb") : stdin;
    if (file == NULL)
        return fail(name);
    size_t kept = 0, read;
    do {
        read = fread(bytes + kept, 1, sizeof bytes - kept, file);
        if (ferror(file))
            return fail(name);
        size_t length = kept + read;
        kept = look(&scan, bytes, length, read == 0);
        memmove(bytes, bytes + length - kept, kept);
    } while (read > 0 && !ferror(stdout));
    end_stretch(&scan);
    if (fflush(stdout) != 0 || ferror(stdout))
        return fail("standard output");
    return scan.is_damaged ? 1 : 0;
}
