// The calls of crates/measured, which bench measures, and those of other codecs that it compares them
// with. In a shared object of another codec, or of an older build of this library, the names may
// also begin with cesu8_static_ instead of measured_.
#ifndef MEASURED_H
#define MEASURED_H

#include <stdbool.h>
#include <stddef.h>
#include <stdint.h>

// The result of a call. If there is none although the input is valid, an allocation failed, the
// buffer is too short, or the length of a lossy reading does not fit size_t. A call on many texts
// has other reasons, which `outcome_of_sum` in crates/measured lists.
struct measured_outcome {
    size_t length;    // The length of the result in bytes, or 0 if there is none.
    bool has_answer;  // Whether there is a result.
    bool is_borrowed; // Whether the result borrows from the input; false if there is none.
    bool is_invalid;  // Whether the call rejected the input.
};

// Each call makes its result, copies it to the start of the buffer if it fits, and frees it. Nothing is
// copied to a buffer of length 0. No pointer may be null, and the buffer must not overlap the input.
// The encoders, and the calls that return the length of an encoding, test their input for UTF-8 and
// reject other input. A lossy call rejects no input.
#define MEASURED_CALL(name)                                                                        \
    struct measured_outcome measured_##name(                                                       \
        const uint8_t *input, size_t length, uint8_t *buf, size_t buf_length)

MEASURED_CALL(encode);
MEASURED_CALL(mutf8_encode);
MEASURED_CALL(decode);
MEASURED_CALL(mutf8_decode);
MEASURED_CALL(decode_strict);
MEASURED_CALL(mutf8_decode_strict);
MEASURED_CALL(decode_lossy);
MEASURED_CALL(mutf8_decode_lossy);
MEASURED_CALL(decode_lossy_strict);
MEASURED_CALL(mutf8_decode_lossy_strict);

// The calls that write directly to the buffer. If it is too short, they write nothing.
MEASURED_CALL(encode_to_slice);
MEASURED_CALL(mutf8_encode_to_slice);
MEASURED_CALL(decode_to_slice);
MEASURED_CALL(mutf8_decode_to_slice);
MEASURED_CALL(decode_strict_to_slice);
MEASURED_CALL(mutf8_decode_strict_to_slice);
MEASURED_CALL(decode_lossy_to_slice);
MEASURED_CALL(mutf8_decode_lossy_to_slice);
MEASURED_CALL(decode_lossy_strict_to_slice);
MEASURED_CALL(mutf8_decode_lossy_strict_to_slice);

// The length of the result of encode, and of decode_lossy_strict, is returned as the result's length.
// Nothing is written.
MEASURED_CALL(encoded_len);
MEASURED_CALL(mutf8_encoded_len);
MEASURED_CALL(lossy_len);
MEASURED_CALL(mutf8_lossy_len);

// The length of the longest valid prefix is returned as the result's length. Nothing is written.
MEASURED_CALL(valid_up_to);
MEASURED_CALL(mutf8_valid_up_to);

// Whether some byte is F0 to F7, and whether some byte is 00 or F0 to F7. The result's length is 1 for
// yes and 0 for no. Nothing is written.
MEASURED_CALL(contains_utf8_4_byte_char_header);
MEASURED_CALL(contains_null_or_utf8_4_byte_char_header);

// Calls the library for each of many texts of `length` bytes, one after another, and this `times`
// times. The result's length is the sum of the results' lengths. Nothing is written. The texts are
// tested for UTF-8 once, all together, and other input is rejected. There is no result if a text ends
// within a character.
#define MEASURED_EACH_CALL(name)                                                                   \
    struct measured_outcome measured_##name##_each(                                                \
        const uint8_t *texts, size_t texts_length, size_t length, size_t times)

MEASURED_EACH_CALL(encode);
MEASURED_EACH_CALL(mutf8_encode);
MEASURED_EACH_CALL(encoded_len);
MEASURED_EACH_CALL(mutf8_encoded_len);

// Encoders for input that the caller knows to be UTF-8. The library has none. If another codec has
// them, they are measured instead of the calls on many texts.
MEASURED_CALL(encode_text);
MEASURED_CALL(mutf8_encode_text);

#endif
