// Uses everything that cesu8.h declares: each call, each member of a struct, each status and each macro.
// tests/exports.sh compiles it as C and as C++, with all warnings of the compilers, and never runs
// it.
//
// With -DWRONG=N it has one of the faults about which a compiler warns if it knows the header's
// attributes. tests/exports.sh lists the numbers for each attribute.

#include "cesu8.h"

static const uint8_t text[] = {0x61, 0xE2, 0x82, 0xAC};
static uint8_t encoded[CESU8_MAX_ENCODED(sizeof text)];
static uint8_t decoded[CESU8_MAX_DECODED(sizeof text)];
static uint8_t decoded_lossily[CESU8_MAX_DECODED_LOSSY(sizeof text)];
static uint8_t written[CESU8_MAX_JAVA_WRITTEN(sizeof text)];
static uint8_t read[CESU8_MAX_JAVA_READ];
static uint8_t read_lossily[CESU8_MAX_JAVA_READ_LOSSY];
static uint8_t *none; // A null pointer, in both languages.

static size_t of_answer(struct cesu8_answer answer)
{
    return answer.status == CESU8_OK ? answer.length : 0;
}

static bool of_comparison(struct cesu8_comparison comparison)
{
    return comparison.status != CESU8_NOT_UTF8 && comparison.order == 0;
}

static bool of_decision(struct cesu8_decision decision)
{
    return decision.status != CESU8_NOT_UTF8 && decision.is_needed;
}

static size_t of_reading(struct cesu8_reading reading)
{
    return reading.status == CESU8_OK ? reading.length + reading.taken : 0;
}

static size_t of_progress(struct cesu8_progress progress)
{
    return progress.status == CESU8_OK ? progress.read + progress.written : 0;
}

static bool is_status(enum cesu8_status status)
{
    bool is_any = status == CESU8_OK || status == CESU8_NOT_UTF8 || status == CESU8_INVALID
        || status == CESU8_TRUNCATED || status == CESU8_TOO_LONG || status == CESU8_TOO_SMALL
        || status == CESU8_INCOMPLETE || status == CESU8_FULL;
    // 8 is no status.
    return is_any && cesu8_status_text(status) != cesu8_status_text(8);
}

#ifdef WRONG
static void do_wrong(void)
{
#if WRONG == 1
    cesu8_needs_encoded(text, sizeof text);
#elif WRONG == 2
    cesu8_java_read(text, sizeof text, read, sizeof read);
#elif WRONG == 3
    of_answer(cesu8_encoded_len(text, sizeof text + 1));
#elif WRONG == 4
    of_answer(cesu8_encode(text, sizeof text, encoded, sizeof encoded + 1));
#elif WRONG == 5
    of_answer(cesu8_encode(NULL, sizeof text, encoded, sizeof encoded));
#elif WRONG == 6
    of_answer(cesu8_encode(text, sizeof text, NULL, sizeof encoded));
#elif WRONG == 7
    of_comparison(cesu8_compare_as_utf16(text, sizeof text, text, sizeof text + 1));
#elif WRONG == 8
    cesu8_stream_encode(text, sizeof text, encoded, sizeof encoded);
#elif WRONG == 9
    of_progress(cesu8_stream_decode_lossy_strict(text, sizeof text, decoded, sizeof decoded + 1, true));
#endif
}
#endif

int main(void)
{
    const size_t n = sizeof text;
    size_t sum = 0;
    bool is_any = of_decision(cesu8_needs_encoded(text, n));
#ifdef WRONG
    do_wrong();
#endif
    is_any |= of_decision(cesu8_mutf8_needs_encoded(text, n));
    is_any |= is_status(cesu8_encode(none, 0, none, 0).status);
    is_any |= cesu8_version() >= CESU8_VERSION && sizeof CESU8_VERSION_STRING > 1;
    sum += of_answer(cesu8_encoded_len(text, n));
    sum += of_answer(cesu8_mutf8_encoded_len(text, n));
    sum += of_answer(cesu8_utf16_len(text, n));
    is_any |= of_comparison(cesu8_compare_as_utf16(text, n, text, n));
    sum += of_answer(cesu8_encode(text, n, encoded, sizeof encoded));
    sum += of_answer(cesu8_mutf8_encode(text, n, encoded, sizeof encoded));
    sum += of_answer(cesu8_decode_strict(text, n, decoded, sizeof decoded));
    sum += of_answer(cesu8_mutf8_decode_strict(text, n, decoded, sizeof decoded));
    sum += of_answer(cesu8_decode(text, n, decoded, sizeof decoded));
    sum += of_answer(cesu8_mutf8_decode(text, n, decoded, sizeof decoded));
    sum += of_answer(
        cesu8_decode_lossy_strict(text, n, decoded_lossily, sizeof decoded_lossily));
    sum += of_answer(
        cesu8_mutf8_decode_lossy_strict(text, n, decoded_lossily, sizeof decoded_lossily));
    sum += of_answer(cesu8_decode_lossy(text, n, decoded_lossily, sizeof decoded_lossily));
    sum += of_answer(cesu8_mutf8_decode_lossy(text, n, decoded_lossily, sizeof decoded_lossily));
    sum += of_answer(cesu8_decoded_len(text, n));
    sum += of_answer(cesu8_mutf8_decoded_len(text, n));
    sum += of_answer(cesu8_valid_up_to(text, n));
    sum += of_answer(cesu8_mutf8_valid_up_to(text, n));
    sum += of_answer(cesu8_lossy_len(text, n));
    sum += of_answer(cesu8_mutf8_lossy_len(text, n));
    sum += of_answer(cesu8_java_write(text, n, written, sizeof written));
    sum += of_reading(cesu8_java_read(text, n, read, sizeof read));
    sum += of_reading(cesu8_java_read_lossy(text, n, read_lossily, sizeof read_lossily));
    sum += of_progress(cesu8_stream_decode_strict(text, n, decoded, sizeof decoded));
    sum += of_progress(cesu8_mutf8_stream_decode_strict(text, n, decoded, sizeof decoded));
    sum += of_progress(cesu8_stream_decode_lossy_strict(text, n, decoded, sizeof decoded, true));
    sum += of_progress(cesu8_mutf8_stream_decode_lossy_strict(text, n, decoded, sizeof decoded, true));
    sum += of_progress(cesu8_stream_encode(text, n, encoded, sizeof encoded));
    sum += of_progress(cesu8_mutf8_stream_encode(text, n, encoded, sizeof encoded));
    return is_any && sum != 0 ? 0 : 1;
}
