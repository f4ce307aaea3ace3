// Prints a line with a digest of the results of each call of the library for C on more than a million
// inputs. tests/aarch64.sh compares the line on aarch64 with that on x86-64.
//
// An input has a length from 0 to 300. It is one of the texts below, which ends with a whole
// character, with a fault at an offset. For each offset there are three inputs, with different
// faults. The input and the buffer also begin at odd addresses. The buffer is large enough for two
// of three inputs, and has half of that for the third. Each input is passed to a quarter of the
// calls, in turn, since even these take an emulator a minute. So each call gets inputs of each
// length, with a fault at each offset, or at three of four offsets if the length is one less than a
// multiple of four.

#include "cesu8.h"

#include <stdio.h>
#include <string.h>

// Inputs and buffers begin at SHIFTS different addresses, in arrays of ROOM bytes, which is more
// than enough. A call gets one of TURNS inputs.
enum { LONGEST = 300, SHIFTS = 33, FAULTS_AT_A_PLACE = 3, TURNS = 4, ROOM = 4096 };

#define LENGTH(array) (sizeof(array) / sizeof *(array))

struct piece {
    const char *bytes;
    size_t length;
};

#define PIECE(literal) {literal, sizeof literal - 1}

// UTF-8, CESU-8, MUTF-8 and mixtures, each by the piece that is repeated.
static const struct piece texts[] = {
    PIECE("a"),
    PIECE("\xC3\xA9"),
    PIECE("\xE3\x81\x82"),
    PIECE("\xF0\x9F\x92\x96"),
    PIECE("\xED\xA0\xBD\xED\xB2\x96"),
    PIECE("key\xC0\x80"),
    PIECE("a\xC3\xA9\xE3\x81\x82z\xF4\x8F\xBF\xBF\0"),
    PIECE("\xEE\x80\x80 \xED\xAF\xBF\xED\xBF\xBF\xC0\x80\xDF\xBF"),
};

static const struct piece faults[] = {
    PIECE("\0"),         PIECE("\x80"),         PIECE("\xC0"),     PIECE("\xC3"),
    PIECE("\xED"),       PIECE("\xF0"),         PIECE("\xFF"),     PIECE("\xED\xA0\x80"),
    PIECE("\xED\xB0\x80"), PIECE("\xE0\x80\x80"), PIECE("\xC0\x80"),
};

static uint64_t digest, inputs, answers;

static void add(uint64_t word)
{
    digest = (digest ^ word) * 0x9E3779B97F4A7C15;
    digest ^= digest >> 32;
}

static void add_bytes(const uint8_t *bytes, size_t length)
{
    uint64_t word = 0;
    for (; length >= sizeof word; bytes += sizeof word, length -= sizeof word) {
        memcpy(&word, bytes, sizeof word);
        add(word);
    }
    word = 0;
    memcpy(&word, bytes, length);
    add(word);
}

// Adds the result of a call to the digest, and the buffer if the call has one.
static void note(uint32_t status, size_t length, size_t taken, const uint8_t *buffer)
{
    answers++;
    add(status);
    add(length);
    add(taken);
    if (buffer != NULL && status == CESU8_OK)
        add_bytes(buffer, length);
}

// Adds the result of a call that converts a piece to the digest, and the buffer.
static void note_progress(struct cesu8_progress progress, const uint8_t *buffer)
{
    note(progress.status, progress.written, progress.read, NULL);
    add_bytes(buffer, progress.written);
}

typedef struct cesu8_answer tells(const uint8_t *, size_t);
typedef struct cesu8_answer places(const uint8_t *, size_t, uint8_t *, size_t);
typedef struct cesu8_decision decides(const uint8_t *, size_t);
typedef struct cesu8_reading reads(const uint8_t *, size_t, uint8_t *, size_t);
typedef struct cesu8_progress streams(const uint8_t *, size_t, uint8_t *, size_t);
typedef struct cesu8_progress lossy_streams(const uint8_t *, size_t, uint8_t *, size_t, bool);

static tells *const telling[] = {
    cesu8_encoded_len,       cesu8_mutf8_encoded_len, cesu8_utf16_len,
    cesu8_decoded_len,       cesu8_mutf8_decoded_len, cesu8_valid_up_to,
    cesu8_mutf8_valid_up_to, cesu8_lossy_len,         cesu8_mutf8_lossy_len,
};
static places *const placing[] = {
    cesu8_encode,        cesu8_mutf8_encode,
    cesu8_decode_strict, cesu8_mutf8_decode_strict,
    cesu8_decode,        cesu8_mutf8_decode,
    cesu8_decode_lossy,  cesu8_mutf8_decode_lossy,
    cesu8_java_write,    cesu8_decode_lossy_strict,
    cesu8_mutf8_decode_lossy_strict,
};
static decides *const deciding[] = {cesu8_needs_encoded, cesu8_mutf8_needs_encoded};
static reads *const reading[] = {cesu8_java_read, cesu8_java_read_lossy};
static streams *const streaming[] = {
    cesu8_stream_decode_strict, cesu8_mutf8_stream_decode_strict,
    cesu8_stream_encode,        cesu8_mutf8_stream_encode,
};
static lossy_streams *const streaming_lossily[] = {
    cesu8_stream_decode_lossy_strict, cesu8_mutf8_stream_decode_lossy_strict,
};

// Makes the calls whose turn it is. The two bytes before the input count its bytes, for the calls that
// read Java strings.
static void call_in_turn(const uint8_t *input, size_t length, uint8_t *buffer)
{
    size_t room = 3 * length + 2, half = length / 2, due = inputs++ % TURNS;
    room = inputs % 3 == 0 ? room / 2 : room;
    for (size_t i = due; i < LENGTH(telling); i += TURNS) {
        struct cesu8_answer answer = telling[i](input, length);
        note(answer.status, answer.length, 0, NULL);
    }
    for (size_t i = due; i < LENGTH(placing); i += TURNS) {
        struct cesu8_answer answer = placing[i](input, length, buffer, room);
        note(answer.status, answer.length, 0, buffer);
    }
    note_progress(streaming[due](input, length, buffer, room), buffer);
    if (due < LENGTH(streaming_lossily))
        note_progress(streaming_lossily[due](input, length, buffer, room, length % 2 == 0), buffer);
    if (due < LENGTH(deciding)) {
        struct cesu8_decision decision = deciding[due](input, length);
        note(decision.status, decision.is_needed, 0, NULL);
    } else {
        struct cesu8_reading answer = reading[due - 2](input - 2, length + 2, buffer, room);
        note(answer.status, answer.length, answer.taken, buffer);
    }
    if (due == 0) {
        struct cesu8_comparison comparison =
            cesu8_compare_as_utf16(input, half, input + half, length - half);
        note(comparison.status, (size_t)(comparison.order + 1), 0, NULL);
    }
}

// Makes the calls on a text of this length, with faults at each offset, the last of them after the text.
// `turn` is another number for each text, so that texts have different faults and addresses at an
// offset.
static void look_at(size_t length, struct piece text, size_t turn)
{
    static _Alignas(64) uint8_t input_room[ROOM], buffer_room[ROOM];
    uint8_t whole[LONGEST];
    memset(whole, 'a', length % text.length);
    for (size_t i = length % text.length; i < length; i += text.length)
        memcpy(whole + i, text.bytes, text.length);
    for (size_t place = 0; place <= length; place++) {
        uint8_t *input = input_room + 2 + (place + turn) % SHIFTS;
        uint8_t *buffer = buffer_room + (3 * place + length) % SHIFTS;
        for (size_t i = 0; i < FAULTS_AT_A_PLACE; i++) {
            struct piece fault = faults[(turn + place + 4 * i) % LENGTH(faults)];
            size_t rest = length - place;
            // Sometimes the count before the input is one more or less.
            size_t count = length + (turn + place) % 7 / 6 - (turn + place) % 11 / 10;
            input[-2] = (uint8_t)(count >> 8), input[-1] = (uint8_t)count;
            memcpy(input, whole, length);
            memcpy(input + place, fault.bytes, fault.length < rest ? fault.length : rest);
            call_in_turn(input, length, buffer);
        }
    }
}

int main(void)
{
    for (size_t length = 0; length <= LONGEST; length++)
        for (size_t i = 0; i < LENGTH(texts); i++)
            look_at(length, texts[i], length + i);
    printf("%llu inputs, %llu answers, digest %016llx\n", (unsigned long long)inputs,
           (unsigned long long)answers, (unsigned long long)digest);
    return inputs < 1000000;
}
