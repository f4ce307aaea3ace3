// Calls each export of crates/cesu8_c from C, and compares the results with the encodings as the
// standards define them (UTF-8 by the Unicode Standard, CESU-8 by Unicode Technical Report 26, MUTF-8 by
// Java's DataInput). The input and the buffer are placed directly before and directly after a page that no
// call may access. The buffer has each length from 0 to one more than is needed; for the longest results,
// the first and the last hundred of these. No result may be longer than the header's macro for it, and for
// each macro one result is exactly as long. The program prints each call that is wrong, and the counts at
// the end. The status is 0 if none is wrong.
//
// With -DARCHIVE it tests the archive of archive.sh and the shared object: inputs and buffers of length 0
// are null pointers too, which only chooser.c accepts, and it also makes the calls that are written in
// plain C.

#define _DEFAULT_SOURCE

#include "cesu8.h"

#include <limits.h>
#include <stdio.h>
#include <stdlib.h>
#include <string.h>
#include <sys/mman.h>
#include <unistd.h>

// The members have the types of the exports: u32, usize, i32 and bool. A call does not write the padding
// after a bool, so an int in its place would be read with wrong bytes.
#define HAS(record, member, type)                                                                  \
    _Static_assert(_Generic(((struct record *)NULL)->member, type: 1, default: 0),                 \
                   #record " has a " #member " of another type than " #type)
HAS(cesu8_answer, status, enum cesu8_status);
HAS(cesu8_answer, length, size_t);
HAS(cesu8_comparison, status, enum cesu8_status);
HAS(cesu8_comparison, order, int32_t);
HAS(cesu8_decision, status, enum cesu8_status);
HAS(cesu8_decision, is_needed, bool);
HAS(cesu8_reading, status, enum cesu8_status);
HAS(cesu8_reading, length, size_t);
HAS(cesu8_reading, taken, size_t);
HAS(cesu8_progress, status, enum cesu8_status);
HAS(cesu8_progress, read, size_t);
HAS(cesu8_progress, written, size_t);

// With these sizes and members, the calling conventions of x86-64 and of aarch64 return the structs
// in the same way: up to 16 bytes in registers, and 24 in memory.
_Static_assert(sizeof(enum cesu8_status) == 4, "enum cesu8_status");
_Static_assert(sizeof(struct cesu8_answer) == 16, "struct cesu8_answer");
_Static_assert(sizeof(struct cesu8_comparison) == 8, "struct cesu8_comparison");
_Static_assert(sizeof(struct cesu8_decision) == 8, "struct cesu8_decision");
_Static_assert(sizeof(struct cesu8_reading) == 24, "struct cesu8_reading");
_Static_assert(sizeof(struct cesu8_progress) == 24, "struct cesu8_progress");

// The macros take an expression of any type, and multiply it as a size_t.
_Static_assert(CESU8_MAX_ENCODED(INT_MAX - 1 + 1) == 2 * (size_t)INT_MAX, "CESU8_MAX_ENCODED");
_Static_assert(CESU8_MAX_DECODED(INT_MAX - 1 + 1) == (size_t)INT_MAX, "CESU8_MAX_DECODED");
_Static_assert(CESU8_MAX_DECODED_LOSSY(INT_MAX - 1 + 1) == 3 * (size_t)INT_MAX,
               "CESU8_MAX_DECODED_LOSSY");
_Static_assert(CESU8_MAX_JAVA_WRITTEN(INT_MAX - 1 + 1) == 2 + 2 * (size_t)INT_MAX,
               "CESU8_MAX_JAVA_WRITTEN");
// Each macro is a single operand, whatever the expression around it.
_Static_assert(600 / CESU8_MAX_ENCODED(3) == 100, "CESU8_MAX_ENCODED");
_Static_assert(600 / CESU8_MAX_DECODED(3) == 200, "CESU8_MAX_DECODED");
_Static_assert(900 / CESU8_MAX_DECODED_LOSSY(3) == 100, "CESU8_MAX_DECODED_LOSSY");
_Static_assert(5 * CESU8_MAX_JAVA_WRITTEN(3) == 40, "CESU8_MAX_JAVA_WRITTEN");
_Static_assert(655350 / CESU8_MAX_JAVA_READ == 10, "CESU8_MAX_JAVA_READ");
_Static_assert(1966050 / CESU8_MAX_JAVA_READ_LOSSY == 10, "CESU8_MAX_JAVA_READ_LOSSY");

// The result of a call, in one form for all. A decision is a length here, 1 for yes, and so is an order: 0
// for less, 1 for equal and 2 for greater.
struct result {
    enum cesu8_status status;
    size_t length, taken;
};

typedef struct result call(const uint8_t *input, size_t length, uint8_t *buffer, size_t buffer_length);

// Each of these macros defines a `call` for an export that writes to a buffer (PLACES), returns a
// length (TELLS) or a decision (DECIDES), or reads a Java string (READS).
#define PLACES(name)                                                                               \
    static struct result name(const uint8_t *input, size_t n, uint8_t *buffer, size_t m)           \
    {                                                                                              \
        struct cesu8_answer answer = cesu8_##name(input, n, buffer, m);                            \
        return (struct result){answer.status, answer.length, 0};                                   \
    }
#define TELLS(name)                                                                                \
    static struct result name(const uint8_t *input, size_t n, uint8_t *buffer, size_t m)           \
    {                                                                                              \
        (void)buffer, (void)m;                                                                     \
        struct cesu8_answer answer = cesu8_##name(input, n);                                       \
        return (struct result){answer.status, answer.length, 0};                                   \
    }
#define DECIDES(name)                                                                              \
    static struct result name(const uint8_t *input, size_t n, uint8_t *buffer, size_t m)           \
    {                                                                                              \
        (void)buffer, (void)m;                                                                     \
        struct cesu8_decision decision = cesu8_##name(input, n);                                   \
        return (struct result){decision.status, decision.is_needed, 0};                            \
    }
#define READS(name)                                                                                \
    static struct result name(const uint8_t *input, size_t n, uint8_t *buffer, size_t m)           \
    {                                                                                              \
        struct cesu8_reading reading = cesu8_##name(input, n, buffer, m);                          \
        return (struct result){reading.status, reading.length, reading.taken};                     \
    }

// The input is two texts, separated by a byte FE, which no text contains. An input without FE is
// compared with itself.
#define COMPARES(name)                                                                             \
    static struct result name(const uint8_t *input, size_t n, uint8_t *buffer, size_t m)           \
    {                                                                                              \
        (void)buffer, (void)m;                                                                     \
        const uint8_t *between = n == 0 ? NULL : memchr(input, 0xFE, n);                           \
        size_t front = between == NULL ? n : (size_t)(between - input);                            \
        const uint8_t *other = between == NULL ? input : between + 1;                              \
        size_t other_length = between == NULL ? n : n - front - 1;                                 \
        struct cesu8_comparison compared = cesu8_##name(input, front, other, other_length);        \
        size_t order = compared.status == CESU8_OK ? (size_t)(compared.order + 1) : 0;             \
        return (struct result){compared.status, order, 0};                                         \
    }

DECIDES(needs_encoded)
DECIDES(mutf8_needs_encoded)
TELLS(encoded_len)
TELLS(mutf8_encoded_len)
TELLS(utf16_len)
COMPARES(compare_as_utf16)
PLACES(encode)
PLACES(mutf8_encode)
PLACES(decode_strict)
PLACES(mutf8_decode_strict)
PLACES(decode)
PLACES(mutf8_decode)
PLACES(decode_lossy_strict)
PLACES(mutf8_decode_lossy_strict)
PLACES(decode_lossy)
PLACES(mutf8_decode_lossy)
TELLS(decoded_len)
TELLS(mutf8_decoded_len)
TELLS(valid_up_to)
TELLS(mutf8_valid_up_to)
TELLS(lossy_len)
TELLS(mutf8_lossy_len)
PLACES(java_write)
READS(java_read)
READS(java_read_lossy)

struct bytes {
    const char *start;
    size_t length;
};

struct row {
    const char *name;
    call *call;
    struct bytes input;
    enum cesu8_status status; // With a buffer of the needed length.
    struct bytes answer;      // The result, whose length is needed. Its start is null if nothing is written.
    size_t taken;             // With any buffer.
};

#define CALL(name) #name, name
#define BYTES(literal) {literal, sizeof literal - 1}
#define LENGTH(length) {NULL, length}
#define LESS LENGTH(0)
#define EQUAL LENGTH(1)
#define GREATER LENGTH(2)
#define NOTHING {NULL, 0}
#define OK CESU8_OK
#define NOT_UTF8 CESU8_NOT_UTF8
#define INVALID CESU8_INVALID
#define TRUNCATED CESU8_TRUNCATED
#define TOO_LONG CESU8_TOO_LONG

#define ALIKE "a\xC8\x85\xE2\x82\xAC"           // U+0061, U+0205 and U+20AC, in each encoding
#define ZERO "\0"                               // U+0000 in UTF-8 and CESU-8
#define C0_80 "\xC0\x80"                        // and in MUTF-8
#define FOUR_BYTES "\xF0\x90\x90\x80"           // U+10400 in UTF-8
#define SURROGATES "\xED\xA0\x81\xED\xB0\x80"   // and in CESU-8 and MUTF-8

#define REPLACEMENT "\xEF\xBF\xBD"              // U+FFFD in UTF-8
#define U_FFFF "\xEF\xBF\xBF"                   // U+FFFF, which is above each surrogate
#define BETWEEN "\xFE"                           // What is between two texts to compare

// 65,536 letters, one more than a Java string can have; the Java string of the first 65,535; a Java
// string of 65,535 bytes FF, whose count is FF FF too; and the text as which it is read lossily.
static char long_text[65536];
static char long_form[65537];
static char damaged_form[65537];
static char damaged_text[3 * 65535];

#define TIMES_5(part) part part part part part
#define TIMES_20(part) TIMES_5(part) TIMES_5(part) TIMES_5(part) TIMES_5(part)
#define TIMES_100(part) TIMES_20(part) TIMES_20(part) TIMES_20(part) TIMES_20(part) TIMES_20(part)

// For each call an input that equals its result, one that does not, one that is rejected or damaged, the
// empty one, and long ones.
static const struct row rows[] = {
    {CALL(needs_encoded), BYTES(ALIKE ZERO), OK, LENGTH(0), 0},
    {CALL(needs_encoded), BYTES(ALIKE FOUR_BYTES), OK, LENGTH(1), 0},
    {CALL(needs_encoded), BYTES(FOUR_BYTES "\xFF"), NOT_UTF8, NOTHING, 0},
    {CALL(needs_encoded), BYTES(""), OK, LENGTH(0), 0},
    {CALL(mutf8_needs_encoded), BYTES(ALIKE), OK, LENGTH(0), 0},
    {CALL(mutf8_needs_encoded), BYTES(ALIKE ZERO), OK, LENGTH(1), 0},
    {CALL(mutf8_needs_encoded), BYTES(ZERO C0_80), NOT_UTF8, NOTHING, 0},
    {CALL(mutf8_needs_encoded), BYTES(""), OK, LENGTH(0), 0},
    {CALL(encoded_len), BYTES(ALIKE ZERO), OK, LENGTH(7), 0},
    {CALL(encoded_len), BYTES(ALIKE FOUR_BYTES), OK, LENGTH(12), 0},
    {CALL(encoded_len), BYTES(ALIKE SURROGATES), NOT_UTF8, NOTHING, 0},
    {CALL(encoded_len), BYTES(""), OK, LENGTH(0), 0},
    {CALL(mutf8_encoded_len), BYTES(ALIKE), OK, LENGTH(6), 0},
    {CALL(mutf8_encoded_len), BYTES(ALIKE ZERO FOUR_BYTES), OK, LENGTH(14), 0},
    {CALL(mutf8_encoded_len), BYTES(ALIKE C0_80), NOT_UTF8, NOTHING, 0},
    {CALL(mutf8_encoded_len), BYTES(""), OK, LENGTH(0), 0},
    {CALL(utf16_len), BYTES(ALIKE ZERO), OK, LENGTH(4), 0},
    {CALL(utf16_len), BYTES(ALIKE FOUR_BYTES), OK, LENGTH(5), 0},
    {CALL(utf16_len), BYTES(ALIKE SURROGATES), NOT_UTF8, NOTHING, 0},
    {CALL(utf16_len), BYTES(""), OK, LENGTH(0), 0},
    {CALL(compare_as_utf16), BYTES(ALIKE BETWEEN ALIKE), OK, EQUAL, 0},
    {CALL(compare_as_utf16), BYTES(ALIKE FOUR_BYTES BETWEEN ALIKE U_FFFF), OK, LESS, 0},
    {CALL(compare_as_utf16), BYTES(U_FFFF BETWEEN FOUR_BYTES), OK, GREATER, 0},
    {CALL(compare_as_utf16), BYTES(ALIKE BETWEEN ALIKE ZERO), OK, LESS, 0},
    {CALL(compare_as_utf16), BYTES(ALIKE BETWEEN), OK, GREATER, 0},
    {CALL(compare_as_utf16), BYTES(SURROGATES BETWEEN ALIKE), NOT_UTF8, NOTHING, 0},
    {CALL(compare_as_utf16), BYTES(ALIKE BETWEEN SURROGATES), NOT_UTF8, NOTHING, 0},
    {CALL(compare_as_utf16), BYTES(""), OK, EQUAL, 0},
    {CALL(encode), BYTES(ALIKE ZERO), OK, BYTES(ALIKE ZERO), 0},
    {CALL(encode), BYTES(ALIKE FOUR_BYTES), OK, BYTES(ALIKE SURROGATES), 0},
    {CALL(encode), BYTES(ALIKE SURROGATES), NOT_UTF8, NOTHING, 0},
    {CALL(encode), BYTES(""), OK, BYTES(""), 0},
    {CALL(mutf8_encode), BYTES(ALIKE), OK, BYTES(ALIKE), 0},
    {CALL(mutf8_encode), BYTES(ALIKE ZERO FOUR_BYTES), OK, BYTES(ALIKE C0_80 SURROGATES), 0},
    {CALL(mutf8_encode), BYTES(ZERO ZERO ZERO), OK, BYTES(C0_80 C0_80 C0_80), 0},
    {CALL(mutf8_encode), BYTES(ALIKE C0_80), NOT_UTF8, NOTHING, 0},
    {CALL(mutf8_encode), BYTES(""), OK, BYTES(""), 0},
    {CALL(decode_strict), BYTES(ALIKE ZERO), OK, BYTES(ALIKE ZERO), 0},
    {CALL(decode_strict), BYTES(ALIKE ZERO SURROGATES), OK, BYTES(ALIKE ZERO FOUR_BYTES), 0},
    {CALL(decode_strict), BYTES(ALIKE FOUR_BYTES), INVALID, NOTHING, 0},
    {CALL(decode_strict), BYTES(SURROGATES SURROGATES "\xFF"), INVALID, NOTHING, 0},
    {CALL(decode_strict), BYTES(""), OK, BYTES(""), 0},
    {CALL(mutf8_decode_strict), BYTES(ALIKE), OK, BYTES(ALIKE), 0},
    {CALL(mutf8_decode_strict), BYTES(ALIKE C0_80 SURROGATES), OK, BYTES(ALIKE ZERO FOUR_BYTES), 0},
    {CALL(mutf8_decode_strict), BYTES(ALIKE ZERO), INVALID, NOTHING, 0},
    {CALL(mutf8_decode_strict), BYTES(C0_80 C0_80 ZERO), INVALID, NOTHING, 0},
    {CALL(mutf8_decode_strict), BYTES(""), OK, BYTES(""), 0},
    {CALL(decode), BYTES(ALIKE ZERO FOUR_BYTES), OK, BYTES(ALIKE ZERO FOUR_BYTES), 0},
    {CALL(decode), BYTES(ALIKE ZERO SURROGATES), OK, BYTES(ALIKE ZERO FOUR_BYTES), 0},
    {CALL(decode), BYTES(FOUR_BYTES SURROGATES), INVALID, NOTHING, 0},
    {CALL(decode), BYTES(""), OK, BYTES(""), 0},
    {CALL(mutf8_decode), BYTES(ALIKE ZERO FOUR_BYTES), OK, BYTES(ALIKE ZERO FOUR_BYTES), 0},
    {CALL(mutf8_decode), BYTES(ALIKE C0_80 SURROGATES), OK, BYTES(ALIKE ZERO FOUR_BYTES), 0},
    {CALL(mutf8_decode), BYTES(ALIKE ZERO SURROGATES), INVALID, NOTHING, 0},
    {CALL(mutf8_decode), BYTES(""), OK, BYTES(""), 0},
    {CALL(decode_lossy_strict), BYTES(ALIKE ZERO), OK, BYTES(ALIKE ZERO), 0},
    {CALL(decode_lossy_strict), BYTES(ALIKE ZERO SURROGATES), OK, BYTES(ALIKE ZERO FOUR_BYTES), 0},
    {CALL(decode_lossy_strict), BYTES(FOUR_BYTES), OK,
     BYTES(REPLACEMENT REPLACEMENT REPLACEMENT REPLACEMENT), 0},
    {CALL(decode_lossy_strict), BYTES(""), OK, BYTES(""), 0},
    {CALL(mutf8_decode_lossy_strict), BYTES(ALIKE), OK, BYTES(ALIKE), 0},
    {CALL(mutf8_decode_lossy_strict), BYTES(ALIKE C0_80 SURROGATES), OK,
     BYTES(ALIKE ZERO FOUR_BYTES), 0},
    {CALL(mutf8_decode_lossy_strict), BYTES(ALIKE ZERO), OK, BYTES(ALIKE REPLACEMENT), 0},
    {CALL(mutf8_decode_lossy_strict), BYTES(""), OK, BYTES(""), 0},
    {CALL(decode_lossy), BYTES(ALIKE ZERO FOUR_BYTES), OK, BYTES(ALIKE ZERO FOUR_BYTES), 0},
    {CALL(decode_lossy), BYTES(ALIKE ZERO SURROGATES), OK, BYTES(ALIKE ZERO FOUR_BYTES), 0},
    {CALL(decode_lossy), BYTES(SURROGATES "\xFF" FOUR_BYTES), OK,
     BYTES(FOUR_BYTES REPLACEMENT REPLACEMENT REPLACEMENT REPLACEMENT REPLACEMENT), 0},
    {CALL(decode_lossy), BYTES(""), OK, BYTES(""), 0},
    {CALL(mutf8_decode_lossy), BYTES(ALIKE ZERO FOUR_BYTES), OK, BYTES(ALIKE ZERO FOUR_BYTES), 0},
    {CALL(mutf8_decode_lossy), BYTES(ALIKE C0_80 SURROGATES), OK, BYTES(ALIKE ZERO FOUR_BYTES), 0},
    {CALL(mutf8_decode_lossy), BYTES(SURROGATES ZERO), OK, BYTES(FOUR_BYTES REPLACEMENT), 0},
    {CALL(mutf8_decode_lossy), BYTES(""), OK, BYTES(""), 0},
    {CALL(decoded_len), BYTES(ALIKE ZERO), OK, LENGTH(7), 0},
    {CALL(decoded_len), BYTES(ALIKE ZERO SURROGATES), OK, LENGTH(11), 0},
    {CALL(decoded_len), BYTES(ALIKE FOUR_BYTES), INVALID, NOTHING, 0},
    {CALL(decoded_len), BYTES(SURROGATES "\xFF"), INVALID, NOTHING, 0},
    {CALL(decoded_len), BYTES(""), OK, LENGTH(0), 0},
    {CALL(mutf8_decoded_len), BYTES(ALIKE), OK, LENGTH(6), 0},
    {CALL(mutf8_decoded_len), BYTES(C0_80 SURROGATES), OK, LENGTH(5), 0},
    {CALL(mutf8_decoded_len), BYTES(ALIKE ZERO), INVALID, NOTHING, 0},
    {CALL(mutf8_decoded_len), BYTES(""), OK, LENGTH(0), 0},
    {CALL(valid_up_to), BYTES(ALIKE ZERO SURROGATES), OK, LENGTH(13), 0},
    {CALL(valid_up_to), BYTES(ALIKE FOUR_BYTES), OK, LENGTH(6), 0},
    {CALL(valid_up_to), BYTES(SURROGATES "\xFF" SURROGATES), OK, LENGTH(6), 0},
    {CALL(valid_up_to), BYTES(SURROGATES "\xED\xA0\xBD\xED\xB2"), OK, LENGTH(6), 0},
    {CALL(valid_up_to), BYTES("\xFF" ALIKE), OK, LENGTH(0), 0},
    {CALL(valid_up_to), BYTES(""), OK, LENGTH(0), 0},
    {CALL(mutf8_valid_up_to), BYTES(ALIKE C0_80 SURROGATES), OK, LENGTH(14), 0},
    {CALL(mutf8_valid_up_to), BYTES(ALIKE ZERO ALIKE), OK, LENGTH(6), 0},
    {CALL(mutf8_valid_up_to), BYTES(C0_80 "\xC0"), OK, LENGTH(2), 0},
    {CALL(mutf8_valid_up_to), BYTES(""), OK, LENGTH(0), 0},
    {CALL(lossy_len), BYTES(ALIKE ZERO), OK, LENGTH(7), 0},
    {CALL(lossy_len), BYTES(SURROGATES "\xFF" FOUR_BYTES), OK, LENGTH(19), 0},
    {CALL(lossy_len), BYTES(""), OK, LENGTH(0), 0},
    {CALL(mutf8_lossy_len), BYTES(ALIKE), OK, LENGTH(6), 0},
    {CALL(mutf8_lossy_len), BYTES(C0_80 SURROGATES ZERO), OK, LENGTH(8), 0},
    {CALL(mutf8_lossy_len), BYTES(""), OK, LENGTH(0), 0},
    {CALL(java_write), BYTES(ALIKE), OK, BYTES("\0\x06" ALIKE), 0},
    {CALL(java_write), BYTES(ALIKE ZERO FOUR_BYTES), OK, BYTES("\0\x0E" ALIKE C0_80 SURROGATES), 0},
    {CALL(java_write), BYTES(ZERO ZERO), OK, BYTES("\0\x04" C0_80 C0_80), 0},
    {CALL(java_write), BYTES(ALIKE SURROGATES), NOT_UTF8, NOTHING, 0},
    {CALL(java_write), {long_text, 65535}, OK, {long_form, 65537}, 0},
    {CALL(java_write), {long_text, 65536}, TOO_LONG, NOTHING, 0},
    {CALL(java_write), BYTES(""), OK, BYTES("\0\0"), 0},
    {CALL(java_read), BYTES("\0\x06" ALIKE "\0\0"), OK, BYTES(ALIKE), 8},
    {CALL(java_read), BYTES("\0\x08" C0_80 SURROGATES), OK, BYTES(ZERO FOUR_BYTES), 10},
    {CALL(java_read), {long_form, 65537}, OK, {long_text, 65535}, 65537},
    {CALL(java_read), BYTES("\0\x04" FOUR_BYTES "\0"), INVALID, NOTHING, 6},
    {CALL(java_read), BYTES("\0\x03" C0_80), TRUNCATED, NOTHING, 0},
    {CALL(java_read), BYTES("\0"), TRUNCATED, NOTHING, 0},
    {CALL(java_read), BYTES("\0\0\0\0"), OK, BYTES(""), 2},
    {CALL(java_read_lossy), BYTES("\0\x06" ALIKE "\0\0"), OK, BYTES(ALIKE), 8},
    {CALL(java_read_lossy), BYTES("\0\x09" C0_80 SURROGATES "\xFF\0"), OK,
     BYTES(ZERO FOUR_BYTES REPLACEMENT), 11},
    {CALL(java_read_lossy), {damaged_form, 65537}, OK, {damaged_text, 3 * 65535}, 65537},
    {CALL(java_read_lossy), BYTES("\0\x03" C0_80), TRUNCATED, NOTHING, 0},
    {CALL(java_read_lossy), BYTES("\0\0\0\0"), OK, BYTES(""), 2},
    // Long enough for the strategies that begin at 33, 65, 129, 257 and 1,025 bytes.
    {CALL(needs_encoded), BYTES(TIMES_100(ALIKE ZERO) FOUR_BYTES), OK, LENGTH(1), 0},
    {CALL(mutf8_needs_encoded), BYTES(TIMES_100(ALIKE) ZERO), OK, LENGTH(1), 0},
    {CALL(encoded_len), BYTES(TIMES_100(ALIKE FOUR_BYTES)), OK, LENGTH(1200), 0},
    {CALL(mutf8_encoded_len), BYTES(TIMES_100(ALIKE ZERO FOUR_BYTES)), OK, LENGTH(1400), 0},
    {CALL(utf16_len), BYTES(TIMES_100(ALIKE ZERO FOUR_BYTES)), OK, LENGTH(600), 0},
    {CALL(utf16_len), BYTES(TIMES_100(ALIKE) "\xFF"), NOT_UTF8, NOTHING, 0},
    {CALL(compare_as_utf16), BYTES(TIMES_20(ALIKE) FOUR_BYTES BETWEEN TIMES_20(ALIKE) U_FFFF), OK,
     LESS, 0},
    {CALL(compare_as_utf16), BYTES(TIMES_100(ALIKE ZERO) BETWEEN TIMES_100(ALIKE ZERO)), OK, EQUAL,
     0},
    {CALL(encode), BYTES(TIMES_5(ALIKE FOUR_BYTES)), OK, BYTES(TIMES_5(ALIKE SURROGATES)), 0},
    {CALL(encode), BYTES(TIMES_100(ALIKE ZERO)), OK, BYTES(TIMES_100(ALIKE ZERO)), 0},
    {CALL(encode), BYTES(TIMES_100(ALIKE FOUR_BYTES)), OK, BYTES(TIMES_100(ALIKE SURROGATES)), 0},
    {CALL(encode), BYTES(TIMES_100(ALIKE FOUR_BYTES) SURROGATES), NOT_UTF8, NOTHING, 0},
    {CALL(mutf8_encode), BYTES(TIMES_5(ALIKE ZERO)), OK, BYTES(TIMES_5(ALIKE C0_80)), 0},
    {CALL(mutf8_encode), BYTES(TIMES_100(ALIKE ZERO FOUR_BYTES)), OK,
     BYTES(TIMES_100(ALIKE C0_80 SURROGATES)), 0},
    {CALL(decode_strict), BYTES(TIMES_5(ALIKE SURROGATES)), OK, BYTES(TIMES_5(ALIKE FOUR_BYTES)),
     0},
    {CALL(decode_strict), BYTES(TIMES_20(ALIKE SURROGATES)), OK,
     BYTES(TIMES_20(ALIKE FOUR_BYTES)), 0},
    {CALL(decode_strict), BYTES(TIMES_100(ALIKE)), OK, BYTES(TIMES_100(ALIKE)), 0},
    {CALL(decode_strict), BYTES(TIMES_100(ALIKE SURROGATES)), OK,
     BYTES(TIMES_100(ALIKE FOUR_BYTES)), 0},
    {CALL(decode_strict), BYTES(TIMES_100(ALIKE SURROGATES) "\xFF"), INVALID, NOTHING, 0},
    {CALL(mutf8_decode_strict), BYTES(TIMES_20(ALIKE C0_80)), OK, BYTES(TIMES_20(ALIKE ZERO)), 0},
    {CALL(mutf8_decode_strict), BYTES(TIMES_100(ALIKE C0_80 SURROGATES)), OK,
     BYTES(TIMES_100(ALIKE ZERO FOUR_BYTES)), 0},
    {CALL(mutf8_decode_strict), BYTES(TIMES_100(ALIKE C0_80) ZERO), INVALID, NOTHING, 0},
    {CALL(decode), BYTES(TIMES_100(ALIKE ZERO FOUR_BYTES)), OK,
     BYTES(TIMES_100(ALIKE ZERO FOUR_BYTES)), 0},
    {CALL(decode), BYTES(TIMES_100(ALIKE ZERO SURROGATES)), OK,
     BYTES(TIMES_100(ALIKE ZERO FOUR_BYTES)), 0},
    {CALL(decode), BYTES(TIMES_100(ALIKE SURROGATES) FOUR_BYTES), INVALID, NOTHING, 0},
    {CALL(mutf8_decode), BYTES(TIMES_100(ALIKE C0_80 SURROGATES)), OK,
     BYTES(TIMES_100(ALIKE ZERO FOUR_BYTES)), 0},
    {CALL(mutf8_decode), BYTES(TIMES_100(ALIKE SURROGATES) ZERO), INVALID, NOTHING, 0},
    {CALL(decode_lossy_strict), BYTES(TIMES_20(ALIKE "\xFF")), OK,
     BYTES(TIMES_20(ALIKE REPLACEMENT)), 0},
    {CALL(decode_lossy_strict), BYTES(TIMES_100(ALIKE SURROGATES "\xFF")), OK,
     BYTES(TIMES_100(ALIKE FOUR_BYTES REPLACEMENT)), 0},
    {CALL(mutf8_decode_lossy_strict), BYTES(TIMES_100(ALIKE C0_80 ZERO)), OK,
     BYTES(TIMES_100(ALIKE ZERO REPLACEMENT)), 0},
    {CALL(decode_lossy), BYTES(TIMES_100(ALIKE FOUR_BYTES)), OK,
     BYTES(TIMES_100(ALIKE FOUR_BYTES)), 0},
    {CALL(decode_lossy), BYTES(TIMES_100(SURROGATES "\xFF")), OK,
     BYTES(TIMES_100(FOUR_BYTES REPLACEMENT)), 0},
    {CALL(mutf8_decode_lossy), BYTES(TIMES_100(C0_80 ZERO "\xFF")), OK,
     BYTES(TIMES_100(ZERO REPLACEMENT REPLACEMENT)), 0},
    {CALL(decoded_len), BYTES(TIMES_100(ALIKE SURROGATES)), OK, LENGTH(1000), 0},
    {CALL(decoded_len), BYTES(TIMES_100(ALIKE SURROGATES) "\xFF"), INVALID, NOTHING, 0},
    {CALL(mutf8_decoded_len), BYTES(TIMES_100(C0_80 SURROGATES)), OK, LENGTH(500), 0},
    {CALL(mutf8_decoded_len), BYTES(TIMES_100(C0_80) ZERO), INVALID, NOTHING, 0},
    {CALL(valid_up_to), BYTES(TIMES_100(ALIKE SURROGATES)), OK, LENGTH(1200), 0},
    {CALL(valid_up_to), BYTES(TIMES_100(ALIKE SURROGATES) "\xFF"), OK, LENGTH(1200), 0},
    {CALL(mutf8_valid_up_to), BYTES(TIMES_100(C0_80 SURROGATES)), OK, LENGTH(800), 0},
    {CALL(mutf8_valid_up_to), BYTES(TIMES_100(C0_80) ZERO), OK, LENGTH(200), 0},
    {CALL(lossy_len), BYTES(TIMES_100(SURROGATES "\xFF")), OK, LENGTH(700), 0},
    {CALL(mutf8_lossy_len), BYTES(TIMES_100(C0_80 SURROGATES ZERO)), OK, LENGTH(800), 0},
    {CALL(java_write), BYTES(TIMES_100(ALIKE ZERO FOUR_BYTES)), OK,
     BYTES("\x05\x78" TIMES_100(ALIKE C0_80 SURROGATES)), 0},
    {CALL(java_read), BYTES("\x05\x78" TIMES_100(ALIKE C0_80 SURROGATES) "\0"), OK,
     BYTES(TIMES_100(ALIKE ZERO FOUR_BYTES)), 1402},
    {CALL(java_read), BYTES("\x03\x21" TIMES_100(ALIKE C0_80) ZERO), INVALID, NOTHING, 803},
    // Up to 64 bytes with more after them, for which one vector shows whether they are ASCII.
    {CALL(java_read), BYTES("\0\0" TIMES_20(ALIKE)), OK, BYTES(""), 2},
    {CALL(java_read), BYTES("\0\x05" "abcde" TIMES_20(ALIKE)), OK, BYTES("abcde"), 7},
    {CALL(java_read), BYTES("\0\x3C" TIMES_20("abc") ZERO TIMES_20(ALIKE)), OK,
     BYTES(TIMES_20("abc")), 62},
    {CALL(java_read), BYTES("\0\x40" TIMES_20("abc") "abcd" "\xFF"), OK,
     BYTES(TIMES_20("abc") "abcd"), 66},
    {CALL(java_read), BYTES("\0\x41" TIMES_20("abc") "abcde" "\xFF"), OK,
     BYTES(TIMES_20("abc") "abcde"), 67},
    {CALL(java_read), BYTES("\0\x06" "abcd" C0_80 TIMES_20(ALIKE)), OK, BYTES("abcd" ZERO), 8},
    {CALL(java_read), BYTES("\0\x05" "abcd" ZERO TIMES_20(ALIKE)), INVALID, NOTHING, 7},
    {CALL(java_read), BYTES("\0\x05" "abcd" "\xC0" TIMES_20(ALIKE)), INVALID, NOTHING, 7},
    {CALL(java_read_lossy), BYTES("\x03\x20" TIMES_100(ALIKE ZERO "\xFF") "a"), OK,
     BYTES(TIMES_100(ALIKE REPLACEMENT REPLACEMENT)), 802},
};

// The size of a block, which is between two pages that no call may access.
enum { SPACE = 204800, FILLING = '~' };

// Memory for the input or the buffer of a call, which is placed at its start or at its end.
struct block {
    char *start;
};

enum side { FRONT, END };

static struct block new_block(void)
{
    size_t page = (size_t)sysconf(_SC_PAGESIZE);
    char *start = mmap(NULL, SPACE + 2 * page, PROT_NONE, MAP_PRIVATE | MAP_ANONYMOUS, -1, 0);
    if (start == MAP_FAILED || mprotect(start + page, SPACE, PROT_READ | PROT_WRITE) != 0) {
        perror("no memory for a block");
        exit(2);
    }
    return (struct block){start + page};
}

static char *place(struct block block, enum side side, size_t length)
{
    return side == FRONT ? block.start : block.start + SPACE - length;
}

// The expected result, with the expected content of the buffer.
static struct result expected(const struct row *row, size_t buffer_length, char *buffer)
{
    if (row->status != OK)
        return (struct result){row->status, 0, row->taken};
    if (row->answer.start == NULL)
        return (struct result){OK, row->answer.length, row->taken};
    if (buffer_length < row->answer.length)
        return (struct result){CESU8_TOO_SMALL, row->answer.length, row->taken};
    memcpy(buffer, row->answer.start, row->answer.length);
    return (struct result){OK, row->answer.length, row->taken};
}

static void print_wrong(const struct row *row, size_t buffer_length, struct result got,
                        struct result wanted, bool is_buffer_right)
{
    printf("wrong: %s of", row->name);
    for (size_t i = 0; i < row->input.length && i < 32; i++)
        printf(" %02X", (unsigned char)row->input.start[i]);
    printf(" (%zu bytes), a buffer of %zu bytes\n"
           "  status %d, length %zu, taken %zu, and not %d, %zu, %zu; the buffer is %s\n",
           row->input.length, buffer_length, got.status, got.length, got.taken, wanted.status,
           wanted.length, wanted.taken, is_buffer_right ? "right" : "wrong");
}

// Makes the call of a row, with input and buffer on these sides of their blocks. As many bytes of the
// buffer's block are compared as the input, the result and the buffer have together, and 64 more.
static bool agrees(const struct row *row, size_t buffer_length, enum side side, bool is_null)
{
    static struct block inputs, buffers;
    static char *wanted_bytes;
    if (wanted_bytes == NULL) {
        inputs = new_block();
        buffers = new_block();
        wanted_bytes = malloc(SPACE);
    }
    size_t length = row->input.length + row->answer.length + buffer_length + 64;
    size_t seen_length = length < SPACE ? length : SPACE;
    char *seen = place(buffers, side, seen_length);
    char *input = place(inputs, side, row->input.length);
    char *buffer = place(buffers, side, buffer_length);
    memcpy(input, row->input.start, row->input.length);
    memset(seen, FILLING, seen_length);
    memset(wanted_bytes, FILLING, seen_length);
    struct result wanted = expected(row, buffer_length, wanted_bytes + (buffer - seen));

    if (is_null && row->input.length == 0)
        input = NULL;
    if (is_null && buffer_length == 0)
        buffer = NULL;
    struct result got =
        row->call((const uint8_t *)input, row->input.length, (uint8_t *)buffer, buffer_length);

    bool is_buffer_right = memcmp(seen, wanted_bytes, seen_length) == 0;
    if (got.status == wanted.status && got.length == wanted.length && got.taken == wanted.taken
        && is_buffer_right)
        return true;
    print_wrong(row, buffer_length, got, wanted, is_buffer_right);
    return false;
}

static int passed, failed;

static void hold(bool holds, const char *name, const char *what)
{
    if (holds) {
        passed++;
        return;
    }
    failed++;
    printf("wrong: %s: %s\n", name, what);
}

// The macros for buffer lengths that are always enough, each for some of the calls.
static const struct {
    const char *name;
    call *calls[8];
} macros[] = {
    {"CESU8_MAX_ENCODED", {encode, mutf8_encode}},
    {"CESU8_MAX_DECODED", {decode_strict, mutf8_decode_strict, decode, mutf8_decode}},
    {"CESU8_MAX_DECODED_LOSSY",
     {decode_lossy_strict, mutf8_decode_lossy_strict, decode_lossy, mutf8_decode_lossy}},
    {"CESU8_MAX_JAVA_WRITTEN", {java_write}},
    {"CESU8_MAX_JAVA_READ", {java_read}},
    {"CESU8_MAX_JAVA_READ_LOSSY", {java_read_lossy}},
};

// The value of each macro for an input of this length.
static size_t always_enough(size_t macro, size_t n)
{
    const size_t lengths[] = {
        CESU8_MAX_ENCODED(n),      CESU8_MAX_DECODED(n), CESU8_MAX_DECODED_LOSSY(n),
        CESU8_MAX_JAVA_WRITTEN(n), CESU8_MAX_JAVA_READ,  CESU8_MAX_JAVA_READ_LOSSY,
    };
    return lengths[macro];
}

static bool is_for(size_t macro, const struct row *row)
{
    for (call *const *one = macros[macro].calls; *one != NULL; one++)
        if (*one == row->call)
            return row->status == OK;
    return false;
}

// Tests that no result is longer than its macro says, and that one is exactly as long.
static void look_at_macro(size_t macro)
{
    bool is_enough = true, is_needed = false;
    for (const struct row *row = rows; row < rows + sizeof rows / sizeof *rows; row++)
        if (is_for(macro, row)) {
            size_t length = always_enough(macro, row->input.length);
            is_enough &= row->answer.length <= length;
            is_needed |= row->answer.length == length;
        }
    hold(is_enough, macros[macro].name, "a result is longer");
    hold(is_needed, macros[macro].name, "each result is shorter");
}

// A 0 appended to MUTF-8 terminates it, as JNI needs it, since MUTF-8 has no byte 00.
static void look_at_terminated(void)
{
    static const uint8_t text[] = ALIKE ZERO FOUR_BYTES;
    const size_t n = sizeof text - 1;
    char name[CESU8_MAX_ENCODED(sizeof text - 1) + 1];
    memset(name, FILLING, sizeof name);
    struct cesu8_answer answer =
        cesu8_mutf8_encode(text, n, (uint8_t *)name, sizeof name - 1);
    name[answer.length] = 0;
    hold(strcmp(name, ALIKE C0_80 SURROGATES) == 0, "mutf8_encode", "is not ended by a 0");
}

#ifdef ARCHIVE

enum { MOST_NULLS = 1 };

static void look_at_plain_calls(void)
{
    static const char *const texts[] = {"ok",
                                        "input is not UTF-8",
                                        "invalid input",
                                        "input is truncated",
                                        "text is too long",
                                        "buffer too short",
                                        "input ends within a character",
                                        "buffer is full",
                                        "unknown status",
                                        "unknown status"};
    static const uint32_t statuses[] = {
        OK,         NOT_UTF8,   INVALID,        TRUNCATED, TOO_LONG, CESU8_TOO_SMALL,
        CESU8_INCOMPLETE, CESU8_FULL, CESU8_FULL + 1, UINT32_MAX};
    for (size_t i = 0; i < sizeof statuses / sizeof *statuses; i++)
        hold(strcmp(cesu8_status_text(statuses[i]), texts[i]) == 0, "cesu8_status_text", texts[i]);
    hold(cesu8_version() == CESU8_VERSION, "cesu8_version", "another version than the header's");
}

#else

enum { MOST_NULLS = 0 };

static void look_at_plain_calls(void)
{
}

#endif

// A call that converts a piece, with or without an argument that says that the piece is the last.
typedef struct cesu8_progress stream(
    const uint8_t *input, size_t length, uint8_t *buffer, size_t buffer_length, bool is_last);

#define CONVERTS(name)                                                                             \
    static struct cesu8_progress name(                                                             \
        const uint8_t *input, size_t n, uint8_t *buffer, size_t m, bool is_last)                   \
    {                                                                                              \
        (void)is_last;                                                                             \
        return cesu8_##name(input, n, buffer, m);                                                  \
    }
#define CONVERTS_LAST(name)                                                                        \
    static struct cesu8_progress name(                                                             \
        const uint8_t *input, size_t n, uint8_t *buffer, size_t m, bool is_last)                   \
    {                                                                                              \
        return cesu8_##name(input, n, buffer, m, is_last);                                         \
    }

CONVERTS(stream_decode_strict)
CONVERTS(mutf8_stream_decode_strict)
CONVERTS_LAST(stream_decode_lossy_strict)
CONVERTS_LAST(mutf8_stream_decode_lossy_strict)
CONVERTS(stream_encode)
CONVERTS(mutf8_stream_encode)

// The expected result of a call for a piece and a buffer of this length.
struct piece_row {
    const char *name;
    stream *call;
    struct bytes input;
    size_t buffer_length;
    bool is_last;
    enum cesu8_status status;
    size_t read;
    struct bytes written;
};

#define INCOMPLETE CESU8_INCOMPLETE
#define FULL CESU8_FULL
#define CUT_PAIR "\xED\xA0\x81\xED\xB0" // U+10400 in CESU-8 without its last byte

static const struct piece_row piece_rows[] = {
    {CALL(stream_decode_strict), BYTES(ALIKE ZERO SURROGATES), 11, true, OK, 13,
     BYTES(ALIKE ZERO FOUR_BYTES)},
    {CALL(stream_decode_strict), BYTES(ALIKE ZERO SURROGATES), 10, true, FULL, 7, BYTES(ALIKE ZERO)},
    {CALL(stream_decode_strict), BYTES(ALIKE), 2, true, FULL, 1, BYTES("a")},
    {CALL(stream_decode_strict), BYTES(ALIKE), 0, true, FULL, 0, BYTES("")},
    {CALL(stream_decode_strict), BYTES(ALIKE CUT_PAIR), 90, false, INCOMPLETE, 6, BYTES(ALIKE)},
    {CALL(stream_decode_strict), BYTES("\xED\xA0"), 0, false, INCOMPLETE, 0, BYTES("")},
    {CALL(stream_decode_strict), BYTES(ALIKE FOUR_BYTES), 90, true, INVALID, 6, BYTES(ALIKE)},
    {CALL(stream_decode_strict), BYTES(ALIKE C0_80), 90, true, INVALID, 6, BYTES(ALIKE)},
    {CALL(stream_decode_strict), BYTES("\xED\xB0\x80" ALIKE), 90, true, INVALID, 0, BYTES("")},
    {CALL(stream_decode_strict), BYTES("\xED\xA0\x81" ALIKE), 90, true, INVALID, 0, BYTES("")},
    {CALL(stream_decode_strict), BYTES(TIMES_100(ALIKE SURROGATES) "\xE2"), 1000, true, INCOMPLETE,
     1200, BYTES(TIMES_100(ALIKE FOUR_BYTES))},
    {CALL(stream_decode_strict), BYTES(""), 0, true, OK, 0, BYTES("")},
    {CALL(mutf8_stream_decode_strict), BYTES(ALIKE C0_80 SURROGATES), 11, true, OK, 14,
     BYTES(ALIKE ZERO FOUR_BYTES)},
    {CALL(mutf8_stream_decode_strict), BYTES(C0_80 C0_80 "\xC0"), 90, true, INCOMPLETE, 4,
     BYTES(ZERO ZERO)},
    {CALL(mutf8_stream_decode_strict), BYTES(C0_80 C0_80), 1, true, FULL, 2, BYTES(ZERO)},
    {CALL(mutf8_stream_decode_strict), BYTES(ALIKE ZERO), 90, true, INVALID, 6, BYTES(ALIKE)},
    {CALL(mutf8_stream_decode_strict), BYTES(""), 0, true, OK, 0, BYTES("")},
    {CALL(stream_decode_lossy_strict), BYTES("\xFF" SURROGATES "\xFF"), 90, false, OK, 8,
     BYTES(REPLACEMENT FOUR_BYTES REPLACEMENT)},
    {CALL(stream_decode_lossy_strict), BYTES(ALIKE "\xFF" ALIKE), 8, true, FULL, 6, BYTES(ALIKE)},
    {CALL(stream_decode_lossy_strict), BYTES(ALIKE "\xED\xA0"), 90, false, INCOMPLETE, 6,
     BYTES(ALIKE)},
    {CALL(stream_decode_lossy_strict), BYTES(ALIKE "\xED\xA0"), 90, true, OK, 8,
     BYTES(ALIKE REPLACEMENT REPLACEMENT)},
    {CALL(stream_decode_lossy_strict), BYTES(ALIKE "\xED\xA0"), 9, true, FULL, 7,
     BYTES(ALIKE REPLACEMENT)},
    {CALL(stream_decode_lossy_strict), BYTES(FOUR_BYTES C0_80), 90, false, OK, 6,
     BYTES(REPLACEMENT REPLACEMENT REPLACEMENT REPLACEMENT REPLACEMENT REPLACEMENT)},
    {CALL(stream_decode_lossy_strict), BYTES(""), 0, true, OK, 0, BYTES("")},
    {CALL(mutf8_stream_decode_lossy_strict), BYTES(ZERO C0_80 "\xC0"), 90, false, INCOMPLETE, 3,
     BYTES(REPLACEMENT ZERO)},
    {CALL(mutf8_stream_decode_lossy_strict), BYTES(ZERO C0_80 "\xC0"), 90, true, OK, 4,
     BYTES(REPLACEMENT ZERO REPLACEMENT)},
    {CALL(mutf8_stream_decode_lossy_strict), BYTES(""), 0, false, OK, 0, BYTES("")},
    {CALL(stream_encode), BYTES(ALIKE ZERO FOUR_BYTES), 13, true, OK, 11,
     BYTES(ALIKE ZERO SURROGATES)},
    {CALL(stream_encode), BYTES(ALIKE ZERO FOUR_BYTES), 12, true, FULL, 7, BYTES(ALIKE ZERO)},
    {CALL(stream_encode), BYTES(ALIKE "\xF0\x90\x90"), 90, true, INCOMPLETE, 6, BYTES(ALIKE)},
    {CALL(stream_encode), BYTES(ALIKE SURROGATES), 90, true, NOT_UTF8, 6, BYTES(ALIKE)},
    {CALL(stream_encode), BYTES("\xF5\x80"), 90, true, NOT_UTF8, 0, BYTES("")},
    {CALL(stream_encode), BYTES(TIMES_100(ALIKE FOUR_BYTES)), 1199, true, FULL, 996,
     BYTES(TIMES_20(ALIKE SURROGATES) TIMES_20(ALIKE SURROGATES) TIMES_20(ALIKE SURROGATES)
               TIMES_20(ALIKE SURROGATES) TIMES_5(ALIKE SURROGATES) TIMES_5(ALIKE SURROGATES)
                   TIMES_5(ALIKE SURROGATES) ALIKE SURROGATES ALIKE SURROGATES ALIKE SURROGATES
                       ALIKE SURROGATES ALIKE)},
    {CALL(stream_encode), BYTES(""), 0, true, OK, 0, BYTES("")},
    {CALL(mutf8_stream_encode), BYTES(ALIKE ZERO FOUR_BYTES), 14, true, OK, 11,
     BYTES(ALIKE C0_80 SURROGATES)},
    {CALL(mutf8_stream_encode), BYTES(ZERO ZERO ZERO), 5, true, FULL, 2, BYTES(C0_80 C0_80)},
    {CALL(mutf8_stream_encode), BYTES(C0_80), 90, true, NOT_UTF8, 0, BYTES("")},
    {CALL(mutf8_stream_encode), BYTES(""), 0, true, OK, 0, BYTES("")},
};

// Makes the call of a row, with the piece and the buffer on these sides of their blocks.
static void convert_row(const struct piece_row *row, enum side side, bool is_null)
{
    static struct block inputs, buffers;
    static char wanted[4096];
    if (inputs.start == NULL) {
        inputs = new_block();
        buffers = new_block();
    }
    size_t n = row->input.length, m = row->buffer_length;
    char *input = place(inputs, side, n), *buffer = place(buffers, side, m);
    memcpy(input, row->input.start, n);
    memset(buffer, FILLING, m);
    memset(wanted, FILLING, sizeof wanted);
    memcpy(wanted, row->written.start, row->written.length);
    struct cesu8_progress got = row->call(is_null && n == 0 ? NULL : (const uint8_t *)input, n,
                                          is_null && m == 0 ? NULL : (uint8_t *)buffer, m,
                                          row->is_last);
    hold(got.status == row->status, row->name, "stops for another reason");
    hold(got.read == row->read, row->name, "reads another number of bytes");
    hold(got.written == row->written.length, row->name, "writes another number of bytes");
    hold(memcmp(buffer, wanted, m) == 0, row->name, "leaves other bytes in the buffer");
}

// An input that is converted in pieces, and the expected output of all calls together.
struct joined_row {
    const char *name;
    stream *call;
    struct bytes input, written;
};

static const struct joined_row joined_rows[] = {
    {CALL(stream_decode_strict), BYTES(ALIKE SURROGATES ZERO ALIKE SURROGATES),
     BYTES(ALIKE FOUR_BYTES ZERO ALIKE FOUR_BYTES)},
    {CALL(mutf8_stream_decode_strict), BYTES(C0_80 SURROGATES ALIKE C0_80 SURROGATES),
     BYTES(ZERO FOUR_BYTES ALIKE ZERO FOUR_BYTES)},
    {CALL(stream_decode_lossy_strict), BYTES("\xED\xA0" SURROGATES "\xB0" ALIKE CUT_PAIR),
     BYTES(REPLACEMENT REPLACEMENT FOUR_BYTES REPLACEMENT ALIKE REPLACEMENT REPLACEMENT REPLACEMENT
               REPLACEMENT REPLACEMENT)},
    {CALL(mutf8_stream_decode_lossy_strict), BYTES("\xC0" C0_80 ZERO SURROGATES "\xE2\x82" ALIKE),
     BYTES(REPLACEMENT ZERO REPLACEMENT FOUR_BYTES REPLACEMENT REPLACEMENT ALIKE)},
    {CALL(stream_encode), BYTES(FOUR_BYTES ALIKE ZERO FOUR_BYTES ALIKE),
     BYTES(SURROGATES ALIKE ZERO SURROGATES ALIKE)},
    {CALL(mutf8_stream_encode), BYTES(FOUR_BYTES ALIKE ZERO FOUR_BYTES ALIKE),
     BYTES(SURROGATES ALIKE C0_80 SURROGATES ALIKE)},
};

// Converts the input in pieces of `step` bytes, with a buffer of `m` bytes for each call, and compares the
// whole output. A call gets the bytes from `at`, up to which the calls before have read, to `end`, the
// end of the newest piece.
static bool converts_joined(const struct joined_row *row, size_t step, size_t m)
{
    uint8_t output[256];
    size_t at = 0, end = 0, length = 0;
    struct cesu8_progress made;
    do {
        if (end < row->input.length)
            end = row->input.length - end < step ? row->input.length : end + step;
        do {
            made = row->call((const uint8_t *)row->input.start + at, end - at, output + length, m,
                             end == row->input.length);
            at += made.read, length += made.written;
            if (made.status == FULL && made.read == 0)
                return false;
        } while (made.status == FULL);
    } while (made.status == INCOMPLETE ? end < row->input.length
                                       : made.status == OK && at < row->input.length);
    return made.status == OK && at == row->input.length && length == row->written.length
        && memcmp(output, row->written.start, length) == 0;
}

static void look_at_pieces(void)
{
    for (const struct piece_row *row = piece_rows;
         row < piece_rows + sizeof piece_rows / sizeof *piece_rows; row++)
        for (enum side side = FRONT; side <= END; side++)
            for (int is_null = 0; is_null <= MOST_NULLS; is_null++)
                convert_row(row, side, is_null);
    for (const struct joined_row *row = joined_rows;
         row < joined_rows + sizeof joined_rows / sizeof *joined_rows; row++)
        for (size_t step = 1; step <= row->input.length; step++)
            // A character takes at most six bytes, so it fits in each buffer.
            for (size_t m = 6; m <= 20; m++)
                hold(converts_joined(row, step, m), row->name, "converts pieces otherwise");
}

static void call_row(const struct row *row, size_t buffer_length)
{
    for (enum side side = FRONT; side <= END; side++)
        for (int is_null = 0; is_null <= MOST_NULLS; is_null++)
            if (agrees(row, buffer_length, side, is_null))
                passed++;
            else
                failed++;
}

int main(void)
{
    memset(long_text, 'a', sizeof long_text);
    memset(long_form, 'a', sizeof long_form);
    memset(long_form, 0xFF, 2);
    memset(damaged_form, 0xFF, sizeof damaged_form);
    for (size_t i = 0; i < sizeof damaged_text; i++)
        damaged_text[i] = REPLACEMENT[i % 3];
    for (size_t macro = 0; macro < sizeof macros / sizeof *macros; macro++)
        look_at_macro(macro);
    look_at_terminated();
    look_at_plain_calls();
    look_at_pieces();
    for (const struct row *row = rows; row < rows + sizeof rows / sizeof *rows; row++) {
        size_t needed = row->status == OK ? row->answer.length : row->input.length;
        // Each length up to one more than is needed; for long results the first and the last ones. And one
        // with space for a vector after the result.
        for (size_t length = 0; length <= needed + 1; length++) {
            if (length == 100 && needed > 10000)
                length = needed - 100;
            call_row(row, length);
        }
        call_row(row, needed + 64);
    }
    printf("%d passed, %d failed\n", passed, failed);
    return failed != 0;
}
