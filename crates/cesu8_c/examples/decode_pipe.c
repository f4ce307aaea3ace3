// Decodes MUTF-8 from standard input to UTF-8 on standard output, in constant memory:
//   decode_pipe <FILE
// It stops at damage. The status is 0 if the whole input was decoded, 1 at damage or if the input ends
// within a character, and 2 if a read or a write failed. A line on standard error says why.

#include "cesu8.h"

#include <stdio.h>
#include <string.h>

// A text is never longer than its encoding, so the text of a piece always fits, and no call returns
// CESU8_FULL.
static uint8_t piece[65536], text[sizeof piece];

int main(void)
{
    struct cesu8_progress progress = {CESU8_OK, 0, 0};
    unsigned long long offset = 0;
    size_t length = 0, count;
    // The bytes that a call did not read, at most five unless they are damaged, are read again with the
    // next piece.
    while ((count = fread(piece + length, 1, sizeof piece - length, stdin)) > 0) {
        length += count;
        progress = cesu8_mutf8_stream_decode_strict(piece, length, text, sizeof text);
        fwrite(text, 1, progress.written, stdout);
        offset += progress.read;
        length -= progress.read;
        memmove(piece, piece + progress.read, length);
        if (progress.status == CESU8_INVALID || ferror(stdout))
            break;
    }
    if (ferror(stdin) || fflush(stdout) != 0 || ferror(stdout)) {
        perror("decode_pipe");
        return 2;
    }
    if (progress.status != CESU8_OK) {
        fprintf(stderr, "byte %llu: %s\n", offset, cesu8_status_text(progress.status));
        return 1;
    }
    return 0;
}
