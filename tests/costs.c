// Makes calls of crates/measured for tests/costs.sh, which counts their cost under callgrind.
//
// A row of the table below has a kind of input, its lengths, the number of inputs, and calls. Each call
// is made on all inputs of its row in turn, so that the branch predictor learns none of them. All are made
// twice without counting, so that the code that ran before no longer affects the predictor, and then once
// between begin_counting, at which callgrind resets its counts, and end_counting, at which it writes them.
// The program prints the name of each call, and how many calls were counted. If a result is not what the
// row says, it prints that, and the status is 1.
//
// The inputs come from a fixed seed, by a generator in this file. Allocation and copying are implemented in
// this file too: callgrind has one predictor for all code, so branches in the C library would change the
// predictions for this library, and the C library has different code for different processors.

#include "measured.h"

#include <stdio.h>
#include <stdlib.h>
#include <string.h>

enum { MOST_CALLS = 8, PAGE = 4096 };

// A call on many texts tests all of them for UTF-8 once, and then goes through them this often, so that
// the test costs little in comparison.
enum { TIMES = 4 };

typedef struct measured_outcome one_call(const uint8_t *, size_t, uint8_t *, size_t);
typedef struct measured_outcome each_call(const uint8_t *, size_t, size_t, size_t);

// A call on one input, or on each of many texts. One that writes has a buffer for its answer.
struct call {
    const char *name;
    one_call *one;
    each_call *each;
    bool writes;
};

#define ONE(name) {#name, measured_##name, NULL, false}
#define WRITE(name) {#name "_to_slice", measured_##name##_to_slice, NULL, true}
#define EACH(name) {#name, NULL, measured_##name##_each, false}

// The expected result: one that borrows the input; another one, such as a length, or what is
// written to a buffer; or none because the input is rejected.
enum outcome { BORROWED, OTHER, REFUSED };

// The form in which a character is written.
enum form { UTF8, CESU8, MUTF8 };

typedef uint32_t character(void);
typedef void kind(uint8_t *out, size_t length);

// These functions replace the C library's. A copied byte counts as an instruction. Memory is never freed.
static uint8_t memory[1 << 28];
static size_t taken;

void *malloc(size_t length)
{
    void *start = memory + taken;
    if (length > sizeof memory - taken - PAGE)
        abort();
    taken += (length + 15) / 16 * 16;
    return start;
}

void free(void *start)
{
    (void)start;
}

void *memcpy(void *restrict to, const void *restrict from, size_t length)
{
    void *start = to;
    __asm__ volatile("rep movsb" : "+D"(to), "+S"(from), "+c"(length) : : "memory");
    return start;
}

void *memmove(void *to, const void *from, size_t length)
{
    uint8_t *last_to = (uint8_t *)to + length - 1;
    const uint8_t *last_from = (const uint8_t *)from + length - 1;
    if ((size_t)((uint8_t *)to - (const uint8_t *)from) >= length)
        return memcpy(to, from, length);
    __asm__ volatile("std\n\trep movsb\n\tcld"
                     : "+D"(last_to), "+S"(last_from), "+c"(length) : : "memory");
    return to;
}

void *memset(void *to, int byte, size_t length)
{
    void *start = to;
    __asm__ volatile("rep stosb" : "+D"(to), "+c"(length) : "a"(byte) : "memory");
    return start;
}

// The old length is not known, so this copies as many bytes as the new length. What it reads after
// the old bytes is arbitrary, but it is within `memory`.
void *realloc(void *start, size_t length)
{
    return memcpy(malloc(length), start, length);
}

// The random number generator SplitMix64.
static uint64_t seed;

static uint64_t next(void)
{
    uint64_t z = seed += 0x9E3779B97F4A7C15;
    z = (z ^ z >> 30) * 0xBF58476D1CE4E5B9;
    z = (z ^ z >> 27) * 0x94D049BB133111EB;
    return z ^ z >> 31;
}

static size_t below(size_t count)
{
    return next() % count;
}

static uint32_t within(uint32_t low, uint32_t high)
{
    return low + (uint32_t)below(high - low + 1);
}

static uint32_t ascii(void)
{
    return within(0x01, 0x7F);
}

static uint32_t latin(void)
{
    return below(5) == 0 ? within(0xC0, 0x17F) : ascii();
}

static uint32_t of_two(void)
{
    return within(0x80, 0x7FF);
}

static uint32_t of_three(void)
{
    uint32_t number = within(0x800, 0xFFFF - 0x800);
    return number < 0xD800 ? number : number + 0x800;
}

static uint32_t up_to_three(void)
{
    switch (below(3)) {
    case 0: return ascii();
    case 1: return of_two();
    default: return of_three();
    }
}

static uint32_t emoji(void)
{
    return within(0x1F300, 0x1F64F);
}

static uint32_t any(void)
{
    return below(4) == 0 ? within(0x10000, 0x10FFFF) : up_to_three();
}

static uint32_t any_or_null(void)
{
    return below(5) == 0 ? 0 : any();
}

static uint32_t null(void)
{
    return 0;
}

static uint32_t null_in_30(void)
{
    return below(30) == 0 ? 0 : ascii();
}

static uint32_t quote(void)
{
    return 0x2019;
}

static uint8_t low_bits(uint32_t number, int shift)
{
    return (uint8_t)(0x80 | (number >> shift & 0x3F));
}

// Writes a character of up to three bytes, which may be half of a surrogate pair.
static size_t put_short(uint8_t *out, uint32_t number)
{
    if (number < 0x80) {
        out[0] = (uint8_t)number;
        return 1;
    }
    if (number < 0x800) {
        out[0] = (uint8_t)(0xC0 | number >> 6);
        out[1] = low_bits(number, 0);
        return 2;
    }
    out[0] = (uint8_t)(0xE0 | number >> 12);
    out[1] = low_bits(number, 6);
    out[2] = low_bits(number, 0);
    return 3;
}

// Writes a character of at most six bytes, and returns their number.
static size_t put(uint8_t *out, uint32_t number, enum form form)
{
    if (number == 0 && form == MUTF8) {
        memcpy(out, "\xC0\x80", 2);
        return 2;
    }
    if (number < 0x10000)
        return put_short(out, number);
    if (form == UTF8) {
        out[0] = (uint8_t)(0xF0 | number >> 18);
        out[1] = low_bits(number, 12);
        out[2] = low_bits(number, 6);
        out[3] = low_bits(number, 0);
        return 4;
    }
    put_short(out, 0xD800 + ((number - 0x10000) >> 10));
    put_short(out + 3, 0xDC00 + (number & 0x3FF));
    return 6;
}

// Fills a buffer with characters, and with letters if the next character does not fit.
static void fill(uint8_t *out, size_t length, character *character, enum form form)
{
    uint8_t bytes[6];
    for (size_t at = 0, width; at < length; at += width) {
        width = put(bytes, character(), form);
        if (width > length - at)
            width = put(bytes, 'z', form);
        memcpy(out + at, bytes, width);
    }
}

// Fills a buffer with ASCII and a number of other characters of one width, at random offsets.
static void sprinkle(uint8_t *out, size_t length, size_t odd, character *character, enum form form)
{
    uint8_t bytes[6];
    size_t others = length - odd * put(bytes, character(), form);
    for (; odd + others > 0; length--) {
        if (below(odd + others) < odd) {
            out += put(out, character(), form);
            odd--;
        } else {
            out += put(out, ascii(), form);
            others--;
        }
    }
}

// Replaces one of the first `front` bytes by a byte that is not part of any encoded character.
static void put_wrong_byte(uint8_t *out, size_t front)
{
    static const uint8_t bytes[] = {0xC1, 0xF8, 0xFB, 0xFE, 0xFF};
    uint8_t byte = bytes[below(sizeof bytes)];
    out[below(front)] = byte;
}

#define KIND(name) static void name(uint8_t *out, size_t length)

KIND(all_ascii) { fill(out, length, ascii, UTF8); }
KIND(all_latin) { fill(out, length, latin, UTF8); }
KIND(all_of_two) { fill(out, length, of_two, UTF8); }
KIND(all_of_three) { fill(out, length, of_three, UTF8); }
KIND(all_up_to_three) { fill(out, length, up_to_three, UTF8); }
KIND(any_in_utf8) { fill(out, length, any, UTF8); }
KIND(any_in_cesu8) { fill(out, length, any, CESU8); }
KIND(any_in_mutf8) { fill(out, length, any_or_null, MUTF8); }
KIND(any_with_null) { fill(out, length, any_or_null, UTF8); }
KIND(nulls_in_30) { fill(out, length, null_in_30, UTF8); }

KIND(one_pair) { sprinkle(out, length, 1, emoji, CESU8); }
KIND(one_c0_80) { sprinkle(out, length, 1, null, MUTF8); }
KIND(one_null) { sprinkle(out, length, 1, null, UTF8); }
KIND(nulls_80) { sprinkle(out, length, 80, null, UTF8); }
KIND(one_emoji) { sprinkle(out, length, 1, emoji, UTF8); }
KIND(emoji_60) { sprinkle(out, length, 60, emoji, UTF8); }
KIND(quote_anywhere) { sprinkle(out, length, 1, quote, UTF8); }

KIND(quote_near_end)
{
    all_ascii(out, length - 16);
    sprinkle(out + length - 16, 16, 1, quote, UTF8);
}

KIND(stray_first)
{
    all_ascii(out, length);
    out[0] = 0x80;
}

KIND(one_wrong_byte)
{
    all_latin(out, length);
    put_wrong_byte(out, length);
}

KIND(wrong_in_front)
{
    any_in_cesu8(out, length);
    put_wrong_byte(out, 64);
}

KIND(cut_off)
{
    any_in_cesu8(out, length - 1);
    out[length - 1] = 0xE2;
}

KIND(damaged_in_50)
{
    any_in_cesu8(out, length);
    for (size_t at = 0; at < length; at++)
        if (below(50) == 0)
            out[at] = (uint8_t)next();
}

// Whole characters of either encoding and of UTF-8, halves of pairs, incomplete characters, and bytes
// that are never valid.
KIND(everything)
{
    for (size_t at = 0; at < length;) {
        static const enum form forms[] = {UTF8, CESU8, MUTF8};
        uint8_t bytes[6];
        enum form form = forms[below(3)];
        size_t width = put(bytes, any_or_null(), form);
        if (below(20) == 0)
            width = 1 + below(width);
        if (below(20) == 0)
            put_wrong_byte(bytes, 1);
        if (width > length - at)
            width = length - at;
        memcpy(out + at, bytes, width);
        at += width;
    }
}

static const struct row {
    const char *name;
    kind *kind;
    size_t least, most; // The lengths.
    size_t count;
    enum outcome outcome;
    struct call calls[MOST_CALLS];
} rows[] = {
    // Short ASCII, and other short input that is borrowed.
    {"ascii", all_ascii, 4, 32, 256, BORROWED,
     {ONE(decode_strict), ONE(mutf8_decode_strict), ONE(decode), ONE(decode_lossy)}},
    {"ascii", all_ascii, 24, 24, 256, OTHER,
     {WRITE(decode_strict), WRITE(encode), EACH(encode), EACH(mutf8_encode)}},
    {"latin", all_latin, 24, 48, 256, BORROWED, {ONE(decode_strict), ONE(mutf8_decode)}},
    {"one-of-two-bytes", all_of_two, 2, 2, 256, BORROWED, {ONE(decode_strict)}},
    {"one-of-three-bytes", all_of_three, 3, 3, 256, BORROWED, {ONE(decode_strict)}},

    // Long input that is borrowed.
    {"ascii", all_ascii, 1900, 1900, 64, BORROWED, {ONE(decode_strict), ONE(decode)}},
    {"up-to-three-bytes", all_up_to_three, 1900, 1900, 64, BORROWED,
     {ONE(decode_strict), ONE(decode)}},
    {"any-width-utf8", any_in_utf8, 1024, 1024, 64, BORROWED, {ONE(decode)}},
    {"three-bytes", all_of_three, 16380, 16380, 16, BORROWED,
     {ONE(mutf8_decode_strict), ONE(decode_lossy)}},
    {"quote-near-end", quote_near_end, 600, 600, 256, BORROWED, {ONE(decode_strict)}},
    {"quote-near-end", quote_near_end, 1900, 1900, 256, BORROWED, {ONE(decode_strict)}},
    {"quote-anywhere", quote_anywhere, 1900, 1900, 256, BORROWED, {ONE(decode_strict)}},

    // The valid prefix: all bytes, or those before an emoji.
    {"latin", all_latin, 24, 24, 256, BORROWED, {ONE(decode_strict), ONE(decode)}},
    {"latin", all_latin, 200, 200, 256, BORROWED, {ONE(decode_strict), ONE(decode)}},
    {"latin", all_latin, 1024, 1024, 64, BORROWED, {ONE(decode_strict), ONE(decode)}},
    {"one-pair", one_pair, 200, 200, 256, OTHER, {ONE(decode_strict), WRITE(decode_strict)}},

    // Results that are built.
    {"one-pair", one_pair, 24, 24, 256, OTHER, {ONE(decode_strict), ONE(decode)}},
    {"one-c0-80", one_c0_80, 40, 40, 256, OTHER, {ONE(mutf8_decode_strict)}},
    {"any-width", any_in_cesu8, 24, 24, 256, OTHER, {WRITE(decode)}},
    {"any-width", any_in_cesu8, 200, 200, 256, OTHER,
     {ONE(decode_strict), WRITE(decode_strict), ONE(decode_lossy_strict)}},
    {"any-width", any_in_cesu8, 1024, 1024, 64, OTHER,
     {ONE(decode_strict), ONE(decode_lossy), ONE(lossy_len)}},
    {"any-width", any_in_cesu8, 16380, 16380, 16, OTHER, {ONE(decode), ONE(decode_strict)}},
    {"any-or-null", any_in_mutf8, 200, 200, 256, OTHER, {ONE(mutf8_decode)}},
    {"any-or-null", any_in_mutf8, 16380, 16380, 16, OTHER, {ONE(mutf8_decode_strict)}},

    // Damaged input.
    {"damaged-in-50", damaged_in_50, 1024, 1024, 64, OTHER,
     {ONE(decode_lossy), ONE(mutf8_decode_lossy_strict), WRITE(decode_lossy)}},
    {"one-wrong-byte", one_wrong_byte, 64, 64, 256, OTHER, {ONE(decode_lossy_strict)}},
    {"everything", everything, 4000, 4000, 64, OTHER, {ONE(lossy_len), ONE(mutf8_lossy_len)}},

    // The kernels: no clause keeps one from testing byte by byte, but that costs several times as much.
    {"ascii", all_ascii, 1000, 1000, 64, OTHER,
     {ONE(contains_utf8_4_byte_char_header), ONE(contains_null_or_utf8_4_byte_char_header)}},

    // Rejected input.
    {"stray-first", stray_first, 20, 63, 256, REFUSED, {ONE(decode_strict)}},
    {"one-wrong-byte", one_wrong_byte, 20, 20, 256, REFUSED, {ONE(decode_strict), ONE(decode)}},
    {"one-wrong-byte", one_wrong_byte, 64, 64, 256, REFUSED,
     {ONE(decode_strict), ONE(decode), WRITE(decode_strict)}},
    {"one-wrong-byte", one_wrong_byte, 200, 200, 256, REFUSED, {ONE(decode_strict), ONE(decode)}},
    {"one-wrong-byte", one_wrong_byte, 1024, 1024, 256, REFUSED,
     {ONE(decode_strict), ONE(decode)}},
    {"any-width-utf8", any_in_utf8, 200, 200, 256, REFUSED, {ONE(decode_strict)}},

    // Rejected for a byte in the first 64: the cost of what is read after it.
    {"wrong-in-front", wrong_in_front, 200, 200, 256, REFUSED,
     {ONE(decode_strict), ONE(decode), WRITE(decode_strict), WRITE(decode)}},
    {"wrong-in-front", wrong_in_front, 1900, 1900, 256, REFUSED,
     {ONE(decode_strict), ONE(decode), WRITE(decode_strict), WRITE(decode)}},
    {"wrong-in-front", wrong_in_front, 262144, 262144, 8, REFUSED,
     {ONE(decode_strict), ONE(decode), WRITE(decode_strict), WRITE(decode)}},

    // Rejected because the last character is incomplete: the cost of what is read before it.
    {"cut-off", cut_off, 1024, 1024, 64, REFUSED, {ONE(decode_strict), WRITE(decode_strict)}},

    // Texts that are unchanged by encoding, and texts that are not.
    {"up-to-three-bytes", all_up_to_three, 200, 200, 256, OTHER,
     {EACH(encode), EACH(encoded_len)}},
    {"one-emoji", one_emoji, 8, 8, 256, OTHER, {WRITE(encode)}},
    {"any-width-utf8", any_in_utf8, 24, 24, 256, OTHER, {EACH(encode)}},
    {"any-width-utf8", any_in_utf8, 200, 200, 256, OTHER, {EACH(encode), EACH(encoded_len)}},
    {"any-width-utf8", any_in_utf8, 16380, 16380, 16, OTHER, {EACH(encode)}},
    {"any-or-null", any_with_null, 1024, 1024, 64, OTHER,
     {EACH(mutf8_encode), EACH(mutf8_encoded_len)}},
    {"60-emoji", emoji_60, 4000, 4000, 64, OTHER, {EACH(encode)}},
    {"one-null", one_null, 40, 40, 256, OTHER, {EACH(mutf8_encode)}},
    {"80-nulls", nulls_80, 4000, 4000, 64, OTHER, {EACH(mutf8_encode)}},
    {"null-in-30", nulls_in_30, 16384, 16384, 16, OTHER, {EACH(mutf8_encode)}},

    // The longest valid prefix: all bytes, or those before a damaged one.
    {"any-width", any_in_cesu8, 24, 24, 256, OTHER, {ONE(valid_up_to)}},
    {"any-width", any_in_cesu8, 16380, 16380, 16, OTHER, {ONE(valid_up_to)}},
    {"three-bytes", all_of_three, 16380, 16380, 16, OTHER, {ONE(mutf8_valid_up_to)}},
    {"wrong-in-front", wrong_in_front, 1900, 1900, 256, OTHER, {ONE(valid_up_to)}},
    {.name = NULL},
};

// The inputs of a row, one after another, a buffer for the longest result, and the results.
struct inputs {
    struct input {
        uint8_t *bytes;
        size_t length;
    } *all;
    size_t count;
    uint8_t *buffer;
    size_t room;
    struct measured_outcome *outcomes;
};

static struct inputs inputs_of(const struct row *row)
{
    struct inputs inputs = {malloc(row->count * sizeof *inputs.all), row->count,
                            malloc(3 * row->most), 3 * row->most,
                            malloc(row->count * sizeof *inputs.outcomes)};
    seed = row->most;
    // The inputs begin at a page, so that their alignment does not depend on the rows before.
    taken = (taken + PAGE - 1) / PAGE * PAGE;
    uint8_t *bytes = malloc(row->count * row->most);
    for (size_t i = 0; i < row->count; i++) {
        size_t length = row->least + below(row->most - row->least + 1);
        row->kind(bytes, length);
        inputs.all[i] = (struct input){bytes, length};
        bytes += length;
    }
    return inputs;
}

// callgrind begins and ends counting at these functions, so the compiler must not remove them.
__attribute__((noinline)) void begin_counting(void)
{
    __asm__ volatile("" ::: "memory");
}

__attribute__((noinline)) void end_counting(void)
{
    __asm__ volatile("" ::: "memory");
}

// Makes a call on all inputs, and returns the number of results. Between two calls there is only the
// branch of the loop, so that the predictions for the library do not depend on the compiler of this file.
static size_t make(const struct call *call, struct inputs inputs)
{
    size_t room = call->writes ? inputs.room : 0;
    if (call->each != NULL) {
        size_t length = inputs.all->length;
        *inputs.outcomes = call->each(inputs.all->bytes, inputs.count * length, length, TIMES);
        return 1;
    }
    for (size_t i = 0; i < inputs.count; i++)
        inputs.outcomes[i] = call->one(inputs.all[i].bytes, inputs.all[i].length, inputs.buffer, room);
    return inputs.count;
}

// Makes a call three times, the last time while callgrind counts, and returns how many results are wrong.
static size_t count(const struct call *call, struct inputs inputs, enum outcome outcome)
{
    size_t wrong = 0;
    make(call, inputs);
    make(call, inputs);
    begin_counting();
    size_t answers = make(call, inputs);
    end_counting();
    for (size_t i = 0; i < answers; i++) {
        struct measured_outcome found = inputs.outcomes[i];
        wrong += found.has_answer == (outcome == REFUSED) || found.is_invalid == found.has_answer ||
                 found.is_borrowed != (outcome == BORROWED);
    }
    return wrong;
}

// Prints a call's name and how many calls were counted.
static void print(const struct call *call, const struct row *row)
{
    printf("%s/%s/%zu", call->name, row->name, row->least);
    if (row->most > row->least)
        printf("-%zu", row->most);
    printf(" %zu\n", call->each != NULL ? TIMES * row->count : row->count);
}

int main(void)
{
    size_t all_wrong = 0;
    for (const struct row *row = rows; row->name != NULL; row++) {
        struct inputs inputs = inputs_of(row);
        for (const struct call *call = row->calls; call->name != NULL; call++) {
            size_t wrong = count(call, inputs, row->outcome);
            print(call, row);
            if (wrong > 0)
                fprintf(stderr, "%s/%s: %zu wrong answers\n", call->name, row->name, wrong);
            all_wrong += wrong;
        }
    }
    return all_wrong > 0;
}
