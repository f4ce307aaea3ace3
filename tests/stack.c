// Prints how many bytes of stack each call of the library for C uses at most, including its return
// address: a line for each call. tests/sizes.sh runs it, and compares the lines with
// release/sizes.txt.
//
// A call runs on a stack of its own, which is filled with a pattern before. The lowest word that
// has changed shows how deep the call went. Memory below it that a function reserves and never
// writes is not seen.
//
// The inputs are the texts below, repeated up to several lengths, each without a fault and with
// each fault at the start, in the middle and at the end. The lengths cover each strategy by which
// the library decodes. The buffer is large enough, or half as long as the input.
//
// Link it with `-z now`: otherwise the first call of `memcpy` goes through the loader, which uses
// more.

#define _DEFAULT_SOURCE

#include "cesu8.h"

#include <stdio.h>
#include <string.h>
#include <sys/mman.h>
#include <ucontext.h>

// WORDS is the size of that stack, in words of eight bytes, and PAGE that of the memory below it, in
// bytes, which cannot be written: a multiple of every page size. ROOM is enough for each result: lossy
// decoding writes at most three bytes for one, and a Java string has at most 65,535 bytes.
enum { WORDS = 4096, PAGE = 65536, LONGEST = 5000, ROOM = 3 * 65535 };

static const uint64_t PATTERN = 0xA5C3965A3C69F00F;

#define LENGTH(array) (sizeof(array) / sizeof *(array))

struct piece {
    const char *bytes;
    size_t length;
};

#define PIECE(literal) {literal, sizeof literal - 1}

// ASCII, UTF-8, CESU-8, MUTF-8 and mixtures, each by the piece that is repeated.
static const struct piece texts[] = {
    PIECE("a"),
    PIECE("\xC3\xA9"),
    PIECE("\xE3\x81\x82"),
    PIECE("\xF0\x9F\x92\x96"),
    PIECE("\xED\xA0\xBD\xED\xB2\x96"),
    PIECE("key\xC0\x80"),
    PIECE("a\xC3\xA9\xE3\x81\x82z\xF4\x8F\xBF\xBF\0"),
    PIECE("a long key with a pair: \xED\xA0\xBD\xED\xB2\x96"),
    PIECE("a long key with a pair: \xED\xA0\xBD\xED\xB2\x96, and a null: \xC0\x80"),
};

static const struct piece faults[] = {
    PIECE("\0"),           PIECE("\x80"), PIECE("\xED\xA0\x80"), PIECE("\xF0\x9F\x92\x96"),
    PIECE("\xE3\x81\x82"), PIECE("\xFF"), PIECE(""),
};

static const size_t lengths[] = {0,  1,   7,   16,  31,  40,  64,   65,   90,
                                 128, 129, 200, 256, 257, 512, 1024, 4096, LONGEST};

static uint8_t input[LONGEST + 2], buffer[ROOM];
static size_t input_length, buffer_length;
static uint64_t *stack;
static ucontext_t here, there;

// The result is stored, so that the call is made.
static volatile enum cesu8_status status;

// Each macro defines a function that makes the call NAME with one kind of arguments: an input, two
// inputs, an input and a buffer, and these with whether the input is the last piece.
#define TELLS(name)                                                                                \
    static void name(void) { status = cesu8_##name(input, input_length).status; }
#define COMPARES(name)                                                                             \
    static void name(void)                                                                         \
    {                                                                                              \
        status = cesu8_##name(input, input_length, input, input_length).status;                    \
    }
#define PLACES(name)                                                                               \
    static void name(void)                                                                         \
    {                                                                                              \
        status = cesu8_##name(input, input_length, buffer, buffer_length).status;                  \
    }
#define PLACES_LAST(name)                                                                          \
    static void name(void)                                                                         \
    {                                                                                              \
        status = cesu8_##name(input, input_length, buffer, buffer_length, true).status;            \
    }

// All calls of the header, each in the macro for its arguments. With ROW in place of these macros,
// the list becomes the table of the calls.
#define CALLS(TELLS, COMPARES, PLACES, PLACES_LAST)                                                \
    TELLS(needs_encoded)                                                                           \
    TELLS(mutf8_needs_encoded)                                                                     \
    TELLS(encoded_len)                                                                             \
    TELLS(mutf8_encoded_len)                                                                       \
    TELLS(utf16_len)                                                                               \
    COMPARES(compare_as_utf16)                                                                     \
    PLACES(encode)                                                                                 \
    PLACES(mutf8_encode)                                                                           \
    PLACES(decode_strict)                                                                          \
    PLACES(mutf8_decode_strict)                                                                    \
    PLACES(decode)                                                                                 \
    PLACES(mutf8_decode)                                                                           \
    PLACES(decode_lossy_strict)                                                                    \
    PLACES(mutf8_decode_lossy_strict)                                                              \
    PLACES(decode_lossy)                                                                           \
    PLACES(mutf8_decode_lossy)                                                                     \
    TELLS(decoded_len)                                                                             \
    TELLS(mutf8_decoded_len)                                                                       \
    TELLS(valid_up_to)                                                                             \
    TELLS(mutf8_valid_up_to)                                                                       \
    TELLS(lossy_len)                                                                               \
    TELLS(mutf8_lossy_len)                                                                         \
    PLACES(java_write)                                                                             \
    PLACES(java_read)                                                                              \
    PLACES(java_read_lossy)                                                                        \
    PLACES(stream_decode_strict)                                                                   \
    PLACES(mutf8_stream_decode_strict)                                                             \
    PLACES_LAST(stream_decode_lossy_strict)                                                        \
    PLACES_LAST(mutf8_stream_decode_lossy_strict)                                                  \
    PLACES(stream_encode)                                                                          \
    PLACES(mutf8_stream_encode)

CALLS(TELLS, COMPARES, PLACES, PLACES_LAST)

static void nothing(void) { status = CESU8_OK; }

typedef void call(void);

#define ROW(name) {#name, name},

static const struct {
    const char *name;
    call *call;
} rows[] = {CALLS(ROW, ROW, ROW, ROW)};

// How many bytes of the stack a function used, including those of the switch to it.
static size_t depth_of(call *function)
{
    // Below the lowest word that the call before changed, the pattern is still there.
    static size_t lowest = 0;
    for (size_t i = lowest; i < WORDS; i++)
        stack[i] = PATTERN;
    getcontext(&there);
    there.uc_stack.ss_sp = stack;
    there.uc_stack.ss_size = WORDS * sizeof *stack;
    there.uc_link = &here;
    makecontext(&there, function, 0);
    swapcontext(&here, &there);
    for (lowest = 0; lowest < WORDS && stack[lowest] == PATTERN;)
        lowest++;
    return (WORDS - lowest) * sizeof *stack;
}

// Fills the input with a text that has a fault at an offset. For a Java string, two bytes with the
// length come first.
static void fill(const struct piece *text, size_t length, const struct piece *fault, size_t offset,
                 bool is_java)
{
    uint8_t *bytes = input + (is_java ? 2 : 0);
    for (size_t i = 0; i < length; i++)
        bytes[i] = (uint8_t)text->bytes[i % text->length];
    for (size_t i = 0; i < fault->length && offset + i < length; i++)
        bytes[offset + i] = (uint8_t)fault->bytes[i];
    if (is_java) {
        input[0] = (uint8_t)(length >> 8);
        input[1] = (uint8_t)length;
    }
    input_length = (size_t)(bytes - input) + length;
}

// Makes a call for the input with a buffer that is large enough, and with one half as long as the
// input, and raises `most` to what it used.
static void measure(call *function, size_t *most)
{
    size_t buffer_lengths[] = {ROOM, input_length / 2};
    for (size_t i = 0; i < LENGTH(buffer_lengths); i++) {
        buffer_length = buffer_lengths[i];
        size_t depth = depth_of(function);
        if (depth > *most)
            *most = depth;
    }
}

// The most that a call uses for any of the inputs.
static size_t most_of(call *function, bool is_java)
{
    size_t most = 0;
    for (size_t text = 0; text < LENGTH(texts); text++)
        for (size_t i = 0; i < LENGTH(lengths); i++)
            for (size_t fault = 0; fault < LENGTH(faults); fault++) {
                size_t length = lengths[i] - lengths[i] % texts[text].length;
                size_t offsets[] = {0, length / 2, length - (length > 0)};
                for (size_t j = 0; j < LENGTH(offsets); j++) {
                    fill(&texts[text], length, &faults[fault], offsets[j], is_java);
                    measure(function, &most);
                }
            }
    return most;
}

int main(void)
{
    // A call that uses more than the stack meets the page below it, and ends by a signal.
    size_t bytes = WORDS * sizeof *stack;
    uint8_t *pages =
        mmap(NULL, PAGE + bytes, PROT_READ | PROT_WRITE, MAP_PRIVATE | MAP_ANONYMOUS, -1, 0);
    if (pages == MAP_FAILED || mprotect(pages, PAGE, PROT_NONE) != 0)
        return 2;
    stack = (uint64_t *)(void *)(pages + PAGE);
    size_t own = depth_of(nothing);
    for (size_t row = 0; row < LENGTH(rows); row++) {
        bool is_java = strncmp(rows[row].name, "java_read", strlen("java_read")) == 0;
        printf("cesu8_%s %zu\n", rows[row].name, most_of(rows[row].call, is_java) - own);
    }
    return 0;
}
