// Reads strings as Java's DataOutput.writeUTF writes them, here in an array, and prints each with its
// key for a store: its CESU-8. Keys that are compared byte by byte have the order of Java's strings.

#include "cesu8.h"

#include <stdio.h>
#include <stdlib.h>

// "caf" and U+00E9, and "a", U+0000 and U+1F496.
static const uint8_t file[] = "\0\x05" "caf\xC3\xA9" "\0\x09" "a\xC0\x80\xED\xA0\xBD\xED\xB2\x96";

static void print(const char *name, const uint8_t *bytes, size_t length)
{
    printf("%s", name);
    for (size_t i = 0; i < length; i++)
        printf(" %02X", bytes[i]);
    printf("\n");
}

// The key of a text, which the caller frees, or NULL if memory runs out.
static uint8_t *key_of(const uint8_t *text, size_t text_length, size_t *key_length)
{
    // The text was decoded, so it is UTF-8, and the buffer has the length of its encoding. So neither
    // call fails.
    *key_length = cesu8_encoded_len(text, text_length).length;
    uint8_t *key = malloc(*key_length + 1); // For 0 bytes malloc may return NULL.
    if (key != NULL && cesu8_encode(text, text_length, key, *key_length).status != CESU8_OK) {
        free(key);
        return NULL;
    }
    return key;
}

int main(void)
{
    const uint8_t *rest = file;
    size_t left = sizeof file - 1;
    while (left > 0) {
        // The UTF-8 of no string is longer than this.
        static uint8_t text[CESU8_MAX_JAVA_READ];
        struct cesu8_reading read = cesu8_java_read(rest, left, text, sizeof text);
        if (read.status != CESU8_OK) {
            fprintf(stderr, "%s at byte %zu\n", cesu8_status_text(read.status),
                    sizeof file - 1 - left);
            return 1;
        }
        size_t key_length;
        uint8_t *key = key_of(text, read.length, &key_length);
        if (key == NULL) {
            fprintf(stderr, "out of memory\n");
            return 1;
        }
        print("text", text, read.length);
        print(" key", key, key_length);
        free(key);
        rest += read.taken;
        left -= read.taken;
    }
    return 0;
}
