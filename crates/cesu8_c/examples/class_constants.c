// Prints the strings of a class file's constant pool, as the Java Virtual Machine Specification (4.4)
// lays it out, each with its index:
//   class_constants FILE.class
// Each is the byte 1, then a length and as many bytes of Modified UTF-8. Java allows an unpaired
// surrogate in a string, but then it is not a text: the string is printed with U+FFFD in place of the
// damage, whose offset in the file is printed to standard error.

#include "cesu8.h"

#include <stdio.h>
#include <stdlib.h>

// A file, and the offset up to which it has been read.
struct file {
    const char *name;
    const uint8_t *bytes;
    size_t length, at;
};

// How many bytes follow this tag of a constant other than a string, or 0 if there is no such tag.
static size_t length_of(uint8_t tag)
{
    switch (tag) {
    case 7: // Class
    case 8: // String
    case 16: // MethodType
    case 19: // Module
    case 20: // Package
        return 2;
    case 15: // MethodHandle
        return 3;
    case 3: // Integer
    case 4: // Float
    case 9: // Fieldref
    case 10: // Methodref
    case 11: // InterfaceMethodref
    case 12: // NameAndType
    case 17: // Dynamic
    case 18: // InvokeDynamic
        return 4;
    case 5: // Long
    case 6: // Double
        return 8;
    default:
        return 0;
    }
}

// Prints the next string, and returns how many bytes it takes, or 0 if the file ends within it.
static size_t print_string(const struct file *file, unsigned index)
{
    static uint8_t text[CESU8_MAX_JAVA_READ_LOSSY]; // Enough for both calls.
    const uint8_t *bytes = file->bytes + file->at;
    size_t length = file->length - file->at;
    struct cesu8_reading read = cesu8_java_read(bytes, length, text, sizeof text);
    if (read.status == CESU8_INVALID) {
        // The string follows its count of two bytes, and the damage follows its valid prefix.
        size_t whole = cesu8_mutf8_valid_up_to(bytes + 2, read.taken - 2).length;
        fprintf(stderr, "%s: constant %u, offset %zu: %s\n", file->name, index,
                file->at + 2 + whole, cesu8_status_text(read.status));
        read = cesu8_java_read_lossy(bytes, length, text, sizeof text);
    }
    if (read.status != CESU8_OK)
        return 0;
    printf("%u ", index);
    fwrite(text, 1, read.length, stdout);
    printf("\n");
    return read.taken;
}

// Prints the strings of a class file, and returns whether its constant pool could be read to the end.
// If not, `at` is the offset of the constant that could not be read, or 0 if it is no class file.
static bool print_strings(struct file *file)
{
    // The pool follows CA FE BA BE and two bytes each of the minor and the major version. Its first
    // two bytes are one more than its last index.
    const uint8_t *bytes = file->bytes;
    if (file->length < 10 || bytes[0] != 0xCA || bytes[1] != 0xFE || bytes[2] != 0xBA
        || bytes[3] != 0xBE)
        return false;
    unsigned end = 256u * bytes[8] + bytes[9];
    file->at = 10;
    for (unsigned index = 1; index < end; index++) {
        if (file->at == file->length)
            return false;
        uint8_t tag = bytes[file->at++];
        size_t taken = tag == 1 ? print_string(file, index) : length_of(tag);
        if (taken == 0 || taken > file->length - file->at) {
            file->at--;
            return false;
        }
        file->at += taken;
        if (tag == 5 || tag == 6) // The index after a Long or a Double is not used.
            index++;
    }
    return true;
}

// The bytes of a file, which the caller frees, or NULL.
static uint8_t *read_file(const char *name, size_t *length)
{
    FILE *file = fopen(name, "rb");
    if (file == NULL)
        return NULL;
    uint8_t *bytes = NULL;
    size_t room = 0;
    *length = 0;
    do {
        room = 2 * room + 4096;
        uint8_t *more = realloc(bytes, room);
        if (more == NULL) {
            free(bytes);
            bytes = NULL;
            break;
        }
        bytes = more;
        *length += fread(bytes + *length, 1, room - *length, file);
    } while (*length == room);
    if (bytes != NULL && ferror(file)) {
        free(bytes);
        bytes = NULL;
    }
    fclose(file);
    return bytes;
}

int main(int count, char **words)
{
    if (count != 2) {
        fprintf(stderr, "usage: class_constants FILE.class\n");
        return 2;
    }
    size_t length;
    uint8_t *bytes = read_file(words[1], &length);
    if (bytes == NULL) {
        perror(words[1]);
        return 1;
    }
    struct file file = {words[1], bytes, length, 0};
    bool is_whole = print_strings(&file);
    bool is_written = fflush(stdout) == 0 && !ferror(stdout);
    if (!is_written)
        perror("standard output");
    if (!is_whole)
        fprintf(stderr, "%s: no class file, from offset %zu on\n", words[1], file.at);
    free(bytes);
    return is_written && is_whole ? 0 : 1;
}
