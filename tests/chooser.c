// Calls each function of crates/cesu8_c/chooser.c with stubs in place of the code for both levels.
// tests/exports.sh compiles the chooser so that it calls `made_up_supports` to ask for the
// processor's level. Each function must call the code for x86-64-v3 if the processor has that
// level, and otherwise the code for x86-64-v2. Each argument must be passed unchanged, except for a
// null pointer. The program prints what is wrong, and the counts at the end. The status is 0 if
// nothing is wrong.
//
// With -DBEFORE_MAIN it is linked with the unmodified chooser, and calls it before any constructor has
// asked for the processor's level: then the code for x86-64-v2 must be used.

#include "cesu8.h"

#include <stdio.h>
#include <string.h>

static struct {
    int level;
    const char *called;
    const uint8_t *input;
    size_t length;
    uint8_t *buffer;
    size_t buffer_length;
} seen;

// Defines a stub for the code of one level. It notes its arguments in `seen`, and returns a status
// other than CESU8_OK, which is 0, so that `look` sees whether the chooser passes the result on.
#define STUB_LEVEL(result, name, number, parameters, to, to_length)                                \
    result name##_v##number parameters;                                                            \
    result name##_v##number parameters                                                             \
    {                                                                                              \
        seen.level = number, seen.called = #name, seen.input = input, seen.length = length;        \
        seen.buffer = to, seen.buffer_length = to_length;                                          \
        result answer;                                                                             \
        memset(&answer, 0, sizeof answer);                                                         \
        answer.status = CESU8_TOO_LONG;                                                            \
        return answer;                                                                             \
    }
// This macro and the next three define the stubs of a call for both levels, and a function that
// makes the call: STUB_TOLD if the call takes an input, STUB_PLACED if it also takes a buffer.
#define STUB_TOLD(result, name)                                                                    \
    STUB_LEVEL(result, name, 2, (const uint8_t *input, size_t length), NULL, 0)                    \
    STUB_LEVEL(result, name, 3, (const uint8_t *input, size_t length), NULL, 0)                    \
    static int call_##name(const uint8_t *input, size_t n, uint8_t *buffer, size_t m)              \
    {                                                                                              \
        (void)buffer, (void)m;                                                                     \
        return name(input, n).status;                                                              \
    }
#define STUB_PLACED(result, name)                                                                  \
    STUB_LEVEL(result, name, 2,                                                                    \
               (const uint8_t *input, size_t length, uint8_t *buffer, size_t buffer_length),       \
               buffer, buffer_length)                                                              \
    STUB_LEVEL(result, name, 3,                                                                    \
               (const uint8_t *input, size_t length, uint8_t *buffer, size_t buffer_length),       \
               buffer, buffer_length)                                                              \
    static int call_##name(const uint8_t *input, size_t n, uint8_t *buffer, size_t m)              \
    {                                                                                              \
        return name(input, n, buffer, m).status;                                                   \
    }

// The second input is recorded as the buffer in `seen`.
#define STUB_COMPARED(result, name)                                                                \
    STUB_LEVEL(result, name, 2,                                                                    \
               (const uint8_t *input, size_t length, const uint8_t *other, size_t other_length),   \
               (uint8_t *)(uintptr_t)other, other_length)                                          \
    STUB_LEVEL(result, name, 3,                                                                    \
               (const uint8_t *input, size_t length, const uint8_t *other, size_t other_length),   \
               (uint8_t *)(uintptr_t)other, other_length)                                          \
    static int call_##name(const uint8_t *input, size_t n, uint8_t *buffer, size_t m)              \
    {                                                                                              \
        return name(input, n, buffer, m).status;                                                   \
    }

// The last argument must be passed unchanged: it is true. If it is not, `seen` has a wrong length.
#define STUB_LAST_PLACED(result, name)                                                             \
    STUB_LEVEL(result, name, 2,                                                                    \
               (const uint8_t *input, size_t length, uint8_t *buffer, size_t buffer_length,        \
                bool is_last),                                                                     \
               buffer, buffer_length + !is_last)                                                   \
    STUB_LEVEL(result, name, 3,                                                                    \
               (const uint8_t *input, size_t length, uint8_t *buffer, size_t buffer_length,        \
                bool is_last),                                                                     \
               buffer, buffer_length + !is_last)                                                   \
    static int call_##name(const uint8_t *input, size_t n, uint8_t *buffer, size_t m)              \
    {                                                                                              \
        return name(input, n, buffer, m, true).status;                                             \
    }

#define CALLS(TOLD, PLACED, COMPARED, LAST_PLACED)                                                 \
    TOLD(struct cesu8_decision, cesu8_needs_encoded)                                               \
    TOLD(struct cesu8_decision, cesu8_mutf8_needs_encoded)                                         \
    TOLD(struct cesu8_answer, cesu8_encoded_len)                                                   \
    TOLD(struct cesu8_answer, cesu8_mutf8_encoded_len)                                             \
    TOLD(struct cesu8_answer, cesu8_utf16_len)                                                     \
    COMPARED(struct cesu8_comparison, cesu8_compare_as_utf16)                                      \
    TOLD(struct cesu8_answer, cesu8_decoded_len)                                                   \
    TOLD(struct cesu8_answer, cesu8_mutf8_decoded_len)                                             \
    TOLD(struct cesu8_answer, cesu8_valid_up_to)                                                   \
    TOLD(struct cesu8_answer, cesu8_mutf8_valid_up_to)                                             \
    TOLD(struct cesu8_answer, cesu8_lossy_len)                                                     \
    TOLD(struct cesu8_answer, cesu8_mutf8_lossy_len)                                               \
    PLACED(struct cesu8_answer, cesu8_encode)                                                      \
    PLACED(struct cesu8_answer, cesu8_mutf8_encode)                                                \
    PLACED(struct cesu8_answer, cesu8_decode_strict)                                               \
    PLACED(struct cesu8_answer, cesu8_mutf8_decode_strict)                                         \
    PLACED(struct cesu8_answer, cesu8_decode)                                                      \
    PLACED(struct cesu8_answer, cesu8_mutf8_decode)                                                \
    PLACED(struct cesu8_answer, cesu8_decode_lossy_strict)                                         \
    PLACED(struct cesu8_answer, cesu8_mutf8_decode_lossy_strict)                                   \
    PLACED(struct cesu8_answer, cesu8_decode_lossy)                                                \
    PLACED(struct cesu8_answer, cesu8_mutf8_decode_lossy)                                          \
    PLACED(struct cesu8_answer, cesu8_java_write)                                                  \
    PLACED(struct cesu8_reading, cesu8_java_read)                                                  \
    PLACED(struct cesu8_reading, cesu8_java_read_lossy)                                            \
    PLACED(struct cesu8_progress, cesu8_stream_decode_strict)                                      \
    PLACED(struct cesu8_progress, cesu8_mutf8_stream_decode_strict)                                \
    LAST_PLACED(struct cesu8_progress, cesu8_stream_decode_lossy_strict)                           \
    LAST_PLACED(struct cesu8_progress, cesu8_mutf8_stream_decode_lossy_strict)                     \
    PLACED(struct cesu8_progress, cesu8_stream_encode)                                             \
    PLACED(struct cesu8_progress, cesu8_mutf8_stream_encode)

CALLS(STUB_TOLD, STUB_PLACED, STUB_COMPARED, STUB_LAST_PLACED)

typedef int call(const uint8_t *input, size_t length, uint8_t *buffer, size_t buffer_length);

#define ROW_TOLD(result, name) {#name, call_##name, false},
#define ROW_PLACED(result, name) {#name, call_##name, true},

static const struct {
    const char *name;
    call *call;
    bool has_buffer;
} rows[] = {CALLS(ROW_TOLD, ROW_PLACED, ROW_PLACED, ROW_PLACED)};

enum { ROWS = sizeof rows / sizeof *rows };

static int passed, failed;

static void hold(bool holds, const char *name, const char *what)
{
    if (holds) {
        passed++;
        return;
    }
    failed++;
    printf("wrong: %s: %s\n", name, what);
}

static uint8_t some_bytes[8], some_buffer[8];

// Makes one call, which must reach the code for this level with these arguments.
static void look(size_t row, int level)
{
    memset(&seen, 0, sizeof seen);
    int status = rows[row].call(some_bytes, 7, some_buffer, 5);
    const char *name = rows[row].name;
    hold(seen.called != NULL && strcmp(seen.called, name) == 0, name, "goes to another name");
    hold(seen.level == level, name, "goes to the wrong level");
    hold(seen.input == some_bytes && seen.length == 7, name, "has another input");
    hold(!rows[row].has_buffer || (seen.buffer == some_buffer && seen.buffer_length == 5), name,
         "has another buffer");
    hold(status == CESU8_TOO_LONG, name, "returns something else");

    rows[row].call(NULL, 0, NULL, 0);
    hold(seen.input != NULL && seen.length == 0, name, "hands a null input on");
    hold(!rows[row].has_buffer || (seen.buffer != NULL && seen.buffer_length == 0), name,
         "hands a null buffer on");
}

#ifdef BEFORE_MAIN

static void look_before_main(void)
{
    for (size_t row = 0; row < ROWS; row++)
        look(row, 2);
}

__attribute__((section(".preinit_array"), used)) static void (*const first)(void) =
    look_before_main;

int main(void)
{
    int level = __builtin_cpu_supports("x86-64-v3") ? 3 : 2;
    for (size_t row = 0; row < ROWS; row++)
        look(row, level);
    printf("%d passed, %d failed\n", passed, failed);
    return failed != 0;
}

#else

static const char *greatest;

// Whether the made-up processor has a level: its own or a lower one.
int made_up_supports(const char *level);
int made_up_supports(const char *level)
{
    return strcmp(level, greatest) <= 0;
}

int main(void)
{
    static const struct {
        const char *greatest;
        int level;
    } processors[] = {{"x86-64", 2}, {"x86-64-v2", 2}, {"x86-64-v3", 3}, {"x86-64-v4", 3}};
    for (size_t i = 0; i < sizeof processors / sizeof *processors; i++) {
        greatest = processors[i].greatest;
        for (size_t row = 0; row < ROWS; row++)
            look(row, processors[i].level);
    }
    printf("%d passed, %d failed\n", passed, failed);
    return failed != 0;
}

#endif
