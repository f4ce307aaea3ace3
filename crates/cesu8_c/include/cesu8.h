// CESU-8, Modified UTF-8 (MUTF-8) and length-prefixed Java strings. C.md says how to build and link
// the library, and what is proved about it.
#ifndef CESU8_H
#define CESU8_H

#ifndef __cplusplus
#include <stdbool.h>
#endif
#include <stddef.h>
#include <stdint.h>

// The version of this header, as a number, 10000 * first + 100 * second + third, and as a string.
#define CESU8_VERSION 10000
#define CESU8_VERSION_STRING "1.0.0"

// If the compiler knows these attributes, it warns about a result that is not used, and about an
// input or a buffer that is null or shorter than its length. None of them is `nonnull`, since a
// pointer may be null if its length is 0.
#ifdef __has_attribute
#if __has_attribute(warn_unused_result)
#define CESU8_RESULT __attribute__((warn_unused_result))
#endif
#if __has_attribute(access)
#define CESU8_INPUT __attribute__((access(read_only, 1, 2)))
#define CESU8_OTHER_INPUT __attribute__((access(read_only, 3, 4)))
#define CESU8_BUFFER __attribute__((access(write_only, 3, 4)))
#endif
#if __has_attribute(returns_nonnull)
#define CESU8_NEVER_NULL __attribute__((returns_nonnull))
#endif
#endif
#ifndef CESU8_RESULT
#define CESU8_RESULT
#endif
#ifndef CESU8_INPUT
#define CESU8_INPUT
#define CESU8_OTHER_INPUT
#define CESU8_BUFFER
#endif
#ifndef CESU8_NEVER_NULL
#define CESU8_NEVER_NULL
#endif
// The attributes of a call that reads one input, of one that reads two, and of one that reads an
// input and writes to a buffer.
#define CESU8_TELLS CESU8_RESULT CESU8_INPUT
#define CESU8_COMPARES CESU8_RESULT CESU8_INPUT CESU8_OTHER_INPUT
#define CESU8_WRITES CESU8_RESULT CESU8_INPUT CESU8_BUFFER

#ifdef __cplusplus
extern "C" {
#endif

enum cesu8_status {
    CESU8_OK = 0,
    CESU8_NOT_UTF8 = 1,  // The input must be UTF-8, and is not.
    CESU8_INVALID = 2,   // The input is not the encoding of any text.
    CESU8_TRUNCATED = 3, // The input ends before the two bytes of the count, or before those it counts.
    CESU8_TOO_LONG = 4,  // The result has more bytes than a Java string or a size_t can count.
    CESU8_TOO_SMALL = 5, // The buffer is shorter than the result.
    // Only the cesu8_stream calls return these:
    CESU8_INCOMPLETE = 6, // The piece ends within a character.
    CESU8_FULL = 7        // The next character does not fit in the rest of the buffer.
};

// The library returns a status in 32 bits.
typedef char cesu8_status_has_32_bits[sizeof(enum cesu8_status) == sizeof(uint32_t) ? 1 : -1];

struct cesu8_answer {
    enum cesu8_status status;
    size_t length; // The result's length in bytes, with CESU8_TOO_SMALL too; otherwise 0.
};

struct cesu8_comparison {
    enum cesu8_status status; // CESU8_OK or CESU8_NOT_UTF8.
    int32_t order;            // -1, 0 or 1: less, equal or greater. 0 unless CESU8_OK.
};

struct cesu8_decision {
    enum cesu8_status status; // CESU8_OK or CESU8_NOT_UTF8.
    bool is_needed;           // False unless CESU8_OK.
};

struct cesu8_reading {
    enum cesu8_status status;
    size_t length; // As in cesu8_answer.
    size_t taken;  // How many bytes of the input the string takes; 0 with CESU8_TRUNCATED.
};

struct cesu8_progress {
    enum cesu8_status status; // Why the call stopped.
    size_t read;              // How many bytes at the start of the input were read.
    size_t written;           // How many bytes at the start of the buffer were written.
};

// Every input and every buffer is a pointer and a length in bytes. A pointer may be null if the
// length is 0, except in the library of one level that `rt lib` builds. A buffer must not overlap
// the input.
//
// There must be as many bytes as the length says. If there are fewer, no call notices, and no
// sanitizer does, since the library is built without one. GCC warns if it knows how many there are.
//
// With CESU8_OK the result is at the start of the buffer, and the bytes after it are unchanged. With
// any other status the whole buffer is unchanged. (The cesu8_stream calls write with every status:
// see there.) No terminating NUL is written. MUTF-8 has no byte 00, so for JNI you can append a 0:
// pass a buffer length of one byte less than the buffer has.
//
// A call returns CESU8_TOO_SMALL exactly when there is a result and it is longer than the buffer. It
// also returns the length of the result, and a buffer of this length is enough. So a call with a
// buffer of length 0 returns the needed length. If the result is empty, it returns CESU8_OK and 0.
//
// No call allocates memory or keeps state, so any number of threads can call at the same time.

// A number as a size_t. Compilers of C++ can warn about the cast of C, so C++ has another one.
#ifdef __cplusplus
#define CESU8_SIZE(n) static_cast<size_t>(n)
#else
#define CESU8_SIZE(n) ((size_t)(n))
#endif

// Lengths of buffers that are always enough for an input of n bytes.
#define CESU8_MAX_ENCODED(n) (2 * CESU8_SIZE(n))
#define CESU8_MAX_DECODED(n) CESU8_SIZE(n)
#define CESU8_MAX_DECODED_LOSSY(n) (3 * CESU8_SIZE(n))
#define CESU8_MAX_JAVA_WRITTEN(n) (2 + 2 * CESU8_SIZE(n))
#define CESU8_MAX_JAVA_READ CESU8_SIZE(65535)
#define CESU8_MAX_JAVA_READ_LOSSY (3 * CESU8_SIZE(65535))

// Whether the encoding of a text in UTF-8 differs from its UTF-8. If not, the text can be used as it
// is. CESU8_OK, CESU8_NOT_UTF8.
CESU8_TELLS struct cesu8_decision cesu8_needs_encoded(const uint8_t *text, size_t text_length);
CESU8_TELLS struct cesu8_decision cesu8_mutf8_needs_encoded(const uint8_t *text, size_t text_length);

// The length of the encoding of a text in UTF-8: at most twice the text's length. CESU8_OK,
// CESU8_NOT_UTF8.
CESU8_TELLS struct cesu8_answer cesu8_encoded_len(const uint8_t *text, size_t text_length);
CESU8_TELLS struct cesu8_answer cesu8_mutf8_encoded_len(const uint8_t *text, size_t text_length);

// The number of UTF-16 code units of a text in UTF-8: the length of the string in Java, JNI and dex
// files. Here `length` counts code units. It is at most the text's length in bytes. CESU8_OK,
// CESU8_NOT_UTF8.
CESU8_TELLS struct cesu8_answer cesu8_utf16_len(const uint8_t *text, size_t text_length);

// Compares two texts in UTF-8 by their UTF-16 code units, as Java's String.compareTo, JavaScript and
// RFC 8785 do. Comparing their CESU-8 with memcmp gives the same order. CESU8_OK, or CESU8_NOT_UTF8
// if one of the texts is not UTF-8.
CESU8_COMPARES struct cesu8_comparison cesu8_compare_as_utf16(
    const uint8_t *text, size_t text_length, const uint8_t *other, size_t other_length);

// Encodes UTF-8 to CESU-8 (Unicode Technical Report 26) or to MUTF-8 (Java's DataOutput, without the
// length prefix). CESU8_OK, CESU8_NOT_UTF8, CESU8_TOO_SMALL.
CESU8_WRITES struct cesu8_answer cesu8_encode(
    const uint8_t *text, size_t text_length, uint8_t *buffer, size_t buffer_length);
CESU8_WRITES struct cesu8_answer cesu8_mutf8_encode(
    const uint8_t *text, size_t text_length, uint8_t *buffer, size_t buffer_length);

// Decodes the encoding to UTF-8. Input that is not the encoding of any text is rejected. This
// includes UTF-8 with a character of four bytes, and for MUTF-8 a zero byte. CESU8_OK,
// CESU8_INVALID, CESU8_TOO_SMALL.
CESU8_WRITES struct cesu8_answer cesu8_decode_strict(
    const uint8_t *bytes, size_t bytes_length, uint8_t *buffer, size_t buffer_length);
CESU8_WRITES struct cesu8_answer cesu8_mutf8_decode_strict(
    const uint8_t *bytes, size_t bytes_length, uint8_t *buffer, size_t buffer_length);

// Leniently: copies input that is UTF-8 as a whole, and decodes any other as cesu8_decode_strict and
// cesu8_mutf8_decode_strict do. It rejects input with both a surrogate pair and a character of four
// bytes, which is neither UTF-8 nor the encoding. CESU8_OK, CESU8_INVALID, CESU8_TOO_SMALL.
CESU8_WRITES struct cesu8_answer cesu8_decode(
    const uint8_t *bytes, size_t bytes_length, uint8_t *buffer, size_t buffer_length);
CESU8_WRITES struct cesu8_answer cesu8_mutf8_decode(
    const uint8_t *bytes, size_t bytes_length, uint8_t *buffer, size_t buffer_length);

// Decodes the encoding, which may be damaged, to UTF-8: each encoded character in the bytes, and
// U+FFFD for each byte that is not part of one. CESU8_OK, CESU8_TOO_LONG, CESU8_TOO_SMALL.
CESU8_WRITES struct cesu8_answer cesu8_decode_lossy_strict(
    const uint8_t *bytes, size_t bytes_length, uint8_t *buffer, size_t buffer_length);
CESU8_WRITES struct cesu8_answer cesu8_mutf8_decode_lossy_strict(
    const uint8_t *bytes, size_t bytes_length, uint8_t *buffer, size_t buffer_length);

// Leniently: copies input that is UTF-8 as a whole, and decodes any other as
// cesu8_decode_lossy_strict and cesu8_mutf8_decode_lossy_strict do. So if a single byte is not
// UTF-8, each character of four bytes becomes four U+FFFD. CESU8_OK, CESU8_TOO_LONG,
// CESU8_TOO_SMALL.
CESU8_WRITES struct cesu8_answer cesu8_decode_lossy(
    const uint8_t *bytes, size_t bytes_length, uint8_t *buffer, size_t buffer_length);
CESU8_WRITES struct cesu8_answer cesu8_mutf8_decode_lossy(
    const uint8_t *bytes, size_t bytes_length, uint8_t *buffer, size_t buffer_length);

// The length of the text that cesu8_decode_strict writes. So the status says whether the input is
// the encoding of a text. CESU8_OK, CESU8_INVALID.
CESU8_TELLS struct cesu8_answer cesu8_decoded_len(const uint8_t *bytes, size_t bytes_length);
CESU8_TELLS struct cesu8_answer cesu8_mutf8_decoded_len(const uint8_t *bytes, size_t bytes_length);

// The length of the longest valid prefix: how many bytes at the start of the input are whole encoded
// characters. This is the whole input if cesu8_decode_strict accepts it, and otherwise the offset of
// the first byte for which cesu8_decode_lossy_strict writes U+FFFD. The bytes after the prefix begin
// with damage, or are at most five bytes of a character whose other bytes come with the next read.
// CESU8_OK.
CESU8_TELLS struct cesu8_answer cesu8_valid_up_to(const uint8_t *bytes, size_t bytes_length);
CESU8_TELLS struct cesu8_answer cesu8_mutf8_valid_up_to(const uint8_t *bytes, size_t bytes_length);

// The length of the text that cesu8_decode_lossy_strict writes. CESU8_OK, CESU8_TOO_LONG.
CESU8_TELLS struct cesu8_answer cesu8_lossy_len(const uint8_t *bytes, size_t bytes_length);
CESU8_TELLS struct cesu8_answer cesu8_mutf8_lossy_len(const uint8_t *bytes, size_t bytes_length);

// Writes a text in UTF-8 as Java's DataOutput.writeUTF does: the length of its MUTF-8 in two bytes,
// the high byte first, and then the MUTF-8, of at most 65,535 bytes. CESU8_OK, CESU8_NOT_UTF8,
// CESU8_TOO_LONG, CESU8_TOO_SMALL.
CESU8_WRITES struct cesu8_answer cesu8_java_write(
    const uint8_t *text, size_t text_length, uint8_t *buffer, size_t buffer_length);

// Reads the string at the start of the input: a count in two bytes, as cesu8_java_write writes it,
// and as many bytes of MUTF-8, which are decoded to UTF-8. The bytes after them never change the
// result. `taken` is the count plus 2, whether or not the counted bytes could be decoded; only with
// CESU8_TRUNCATED it is 0. The next string begins after that many bytes of the input.
//
// cesu8_java_read decodes as cesu8_mutf8_decode_strict does: CESU8_OK, CESU8_TRUNCATED,
// CESU8_INVALID, CESU8_TOO_SMALL. cesu8_java_read_lossy decodes as
// cesu8_mutf8_decode_lossy_strict does: CESU8_OK, CESU8_TRUNCATED, CESU8_TOO_SMALL.
CESU8_WRITES struct cesu8_reading cesu8_java_read(
    const uint8_t *bytes, size_t bytes_length, uint8_t *buffer, size_t buffer_length);
CESU8_WRITES struct cesu8_reading cesu8_java_read_lossy(
    const uint8_t *bytes, size_t bytes_length, uint8_t *buffer, size_t buffer_length);

// The calls for input that comes in pieces, as from a file or a socket. A call converts as much of
// the piece as fits in the buffer. It reads `read` bytes and writes `written` bytes to the start of
// the buffer, whose rest is unchanged. The status says why it stopped:
//
// CESU8_OK: all bytes of the piece were read.
//
// CESU8_INCOMPLETE: the remaining bytes, at most five, are the beginning of a character. Call again
// with these and more. If there are no more, the input ends within a character.
//
// CESU8_FULL: the next character does not fit in the rest of the buffer. Call again with the
// remaining bytes, and more space. With a buffer of six bytes or more, at least one byte was read.
//
// CESU8_INVALID from the decoding calls, CESU8_NOT_UTF8 from the encoding calls: no character begins
// at the remaining bytes, whatever follows them. The offset of this damage in the whole input is the
// sum of `read` over all calls.
//
// However the input is cut and whatever buffers are used, these calls together write what the call
// for the whole input writes.
//
// Decodes a piece of the encoding, as cesu8_decode_strict does. CESU8_OK, CESU8_INVALID,
// CESU8_INCOMPLETE, CESU8_FULL.
CESU8_WRITES struct cesu8_progress cesu8_stream_decode_strict(
    const uint8_t *bytes, size_t bytes_length, uint8_t *buffer, size_t buffer_length);
CESU8_WRITES struct cesu8_progress cesu8_mutf8_stream_decode_strict(
    const uint8_t *bytes, size_t bytes_length, uint8_t *buffer, size_t buffer_length);

// Decodes a piece of the encoding, which may be damaged, as cesu8_decode_lossy_strict does. `is_last`
// says that the input ends with the piece: then an incomplete character at its end is damage too.
// CESU8_OK, CESU8_INCOMPLETE, CESU8_FULL.
CESU8_WRITES struct cesu8_progress cesu8_stream_decode_lossy_strict(
    const uint8_t *bytes, size_t bytes_length, uint8_t *buffer, size_t buffer_length, bool is_last);
CESU8_WRITES struct cesu8_progress cesu8_mutf8_stream_decode_lossy_strict(
    const uint8_t *bytes, size_t bytes_length, uint8_t *buffer, size_t buffer_length, bool is_last);

// Encodes a piece of UTF-8, as cesu8_encode does. CESU8_OK, CESU8_NOT_UTF8, CESU8_INCOMPLETE,
// CESU8_FULL.
CESU8_WRITES struct cesu8_progress cesu8_stream_encode(
    const uint8_t *text, size_t text_length, uint8_t *buffer, size_t buffer_length);
CESU8_WRITES struct cesu8_progress cesu8_mutf8_stream_encode(
    const uint8_t *text, size_t text_length, uint8_t *buffer, size_t buffer_length);

// The library of one level that `rt lib` builds does not have these two calls.
//
// What a status means, in English and without a newline, such as "ok" and "invalid input". For any
// other number it is "unknown status". The string is static: it is never null, and must not be freed.
CESU8_NEVER_NULL const char *cesu8_status_text(uint32_t status);

// CESU8_VERSION of the library that runs, which can differ from that of this header.
uint32_t cesu8_version(void);

#ifdef __cplusplus
}
#endif

#endif
