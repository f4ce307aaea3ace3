// The calls of the archive that archive.sh builds. Each calls the code for x86-64-v3 if the processor
// has that level, and otherwise the code for x86-64-v2. For aarch64 there is one level, ARMv8-A. This
// file is plain C, and nothing in it is proved.
//
// The compiler's runtime asks the processor once, before main begins, and each call reads what it
// found. A call that comes earlier uses the code for x86-64-v2.
//
// The code of a level does not accept null pointers. So for a null pointer, whose length is 0, it gets
// a pointer to a byte of this file.

#include "cesu8.h"

static uint8_t nothing;

#ifdef __aarch64__
#define CHOOSE(result, name, parameters, arguments)                                                \
    result name##_v8 parameters;                                                                   \
    result name parameters                                                                         \
    {                                                                                              \
        return name##_v8 arguments;                                                                \
    }
#else
#define CHOOSE(result, name, parameters, arguments)                                                \
    result name##_v2 parameters;                                                                   \
    result name##_v3 parameters;                                                                   \
    result name parameters                                                                         \
    {                                                                                              \
        return __builtin_cpu_supports("x86-64-v3") ? name##_v3 arguments : name##_v2 arguments;    \
    }
#endif

// The parameters of a call: one input; two inputs; an input and a buffer; and these with `is_last`.
#define CHOOSE_TOLD(result, name)                                                                  \
    CHOOSE(result, name, (const uint8_t *input, size_t length), (input ? input : &nothing, length))
#define CHOOSE_COMPARED(result, name)                                                              \
    CHOOSE(result, name,                                                                           \
           (const uint8_t *input, size_t length, const uint8_t *other, size_t other_length),       \
           (input ? input : &nothing, length, other ? other : &nothing, other_length))
#define CHOOSE_PLACED(result, name)                                                                \
    CHOOSE(result, name,                                                                           \
           (const uint8_t *input, size_t length, uint8_t *buffer, size_t buffer_length),           \
           (input ? input : &nothing, length, buffer ? buffer : &nothing, buffer_length))
#define CHOOSE_LAST_PLACED(result, name)                                                           \
    CHOOSE(result, name,                                                                           \
           (const uint8_t *input, size_t length, uint8_t *buffer, size_t buffer_length,            \
            bool is_last),                                                                         \
           (input ? input : &nothing, length, buffer ? buffer : &nothing, buffer_length, is_last))

CHOOSE_TOLD(struct cesu8_decision, cesu8_needs_encoded)
CHOOSE_TOLD(struct cesu8_decision, cesu8_mutf8_needs_encoded)
CHOOSE_TOLD(struct cesu8_answer, cesu8_encoded_len)
CHOOSE_TOLD(struct cesu8_answer, cesu8_mutf8_encoded_len)
CHOOSE_TOLD(struct cesu8_answer, cesu8_utf16_len)
CHOOSE_COMPARED(struct cesu8_comparison, cesu8_compare_as_utf16)
CHOOSE_PLACED(struct cesu8_answer, cesu8_encode)
CHOOSE_PLACED(struct cesu8_answer, cesu8_mutf8_encode)
CHOOSE_PLACED(struct cesu8_answer, cesu8_decode_strict)
CHOOSE_PLACED(struct cesu8_answer, cesu8_mutf8_decode_strict)
CHOOSE_PLACED(struct cesu8_answer, cesu8_decode)
CHOOSE_PLACED(struct cesu8_answer, cesu8_mutf8_decode)
CHOOSE_PLACED(struct cesu8_answer, cesu8_decode_lossy_strict)
CHOOSE_PLACED(struct cesu8_answer, cesu8_mutf8_decode_lossy_strict)
CHOOSE_PLACED(struct cesu8_answer, cesu8_decode_lossy)
CHOOSE_PLACED(struct cesu8_answer, cesu8_mutf8_decode_lossy)
CHOOSE_TOLD(struct cesu8_answer, cesu8_decoded_len)
CHOOSE_TOLD(struct cesu8_answer, cesu8_mutf8_decoded_len)
CHOOSE_TOLD(struct cesu8_answer, cesu8_valid_up_to)
CHOOSE_TOLD(struct cesu8_answer, cesu8_mutf8_valid_up_to)
CHOOSE_TOLD(struct cesu8_answer, cesu8_lossy_len)
CHOOSE_TOLD(struct cesu8_answer, cesu8_mutf8_lossy_len)
CHOOSE_PLACED(struct cesu8_answer, cesu8_java_write)
CHOOSE_PLACED(struct cesu8_reading, cesu8_java_read)
CHOOSE_PLACED(struct cesu8_reading, cesu8_java_read_lossy)
CHOOSE_PLACED(struct cesu8_progress, cesu8_stream_decode_strict)
CHOOSE_PLACED(struct cesu8_progress, cesu8_mutf8_stream_decode_strict)
CHOOSE_LAST_PLACED(struct cesu8_progress, cesu8_stream_decode_lossy_strict)
CHOOSE_LAST_PLACED(struct cesu8_progress, cesu8_mutf8_stream_decode_lossy_strict)
CHOOSE_PLACED(struct cesu8_progress, cesu8_stream_encode)
CHOOSE_PLACED(struct cesu8_progress, cesu8_mutf8_stream_encode)
