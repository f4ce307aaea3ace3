// Decodes and encodes Python strings with the library's calls. Python's own error handlers for
// damaged bytes are implemented here. Other error handlers, and all handlers for surrogates in a
// string to encode, are called by cesu8/_codec.py. Only native.c includes this file. Nothing in it
// is proved.

#include <Python.h>
#include "cesu8.h"

enum {
    LONGEST = 6, // The bytes of a surrogate pair.
    // Results up to this many bytes are written to the stack, without an allocation.
    FEW = 512,
    // For inputs of this many bytes or more the interpreter lock is released. For shorter ones,
    // waiting for the lock would cost more than the call.
    MANY = 65536
};

// Longer inputs are rejected, so that four times their length does not overflow.
static const size_t MOST = PY_SSIZE_T_MAX / 4;

// The types of the library's calls: those that only return a number, those that write a result, and
// those that also return how much of the input they read.
typedef struct cesu8_answer tells(const uint8_t *, size_t);
typedef struct cesu8_answer writes(const uint8_t *, size_t, uint8_t *, size_t);
typedef struct cesu8_progress streams(const uint8_t *, size_t, uint8_t *, size_t);

// The calls by encoding, with MUTF-8 second. Those in LOOKS return the length of the valid prefix.
// For DECODES the other indices are whether the call is lenient and whether it is lossy.
static const char *const ENCODINGS[2] = {"cesu-8", "mutf-8"};
static tells *const LOOKS[2] = {cesu8_valid_up_to, cesu8_mutf8_valid_up_to};
static streams *const STREAMS[2] = {cesu8_stream_decode_strict, cesu8_mutf8_stream_decode_strict};
static writes *const ENCODES[2] = {cesu8_encode, cesu8_mutf8_encode};
static writes *const DECODES[2][2][2] = {
    {{cesu8_decode_strict, cesu8_decode_lossy_strict}, {cesu8_decode, cesu8_decode_lossy}},
    {{cesu8_mutf8_decode_strict, cesu8_mutf8_decode_lossy_strict},
     {cesu8_mutf8_decode, cesu8_mutf8_decode_lossy}},
};

struct input {
    const uint8_t *bytes;
    size_t length;
};

// What to decode: the bytes from `start` to `stop` of an immutable object. A handler may continue
// at any offset up to `end`. If `is_held`, Python keeps the caller's data locked during the call,
// so the interpreter lock is not released.
struct part {
    PyObject *data;
    Py_ssize_t start, stop, end;
    int is_mutf8, is_held;
};

// Returns bytes objects as they are, and one copy of other data, so that nothing can change while
// it is decoded.
static PyObject *bytes_of(PyObject *data)
{
    if (PyBytes_CheckExact(data))
        return Py_NewRef(data);
    PyObject *view = PyMemoryView_Check(data) ? Py_NewRef(data) : PyMemoryView_FromObject(data);
    PyObject *bytes = view == NULL ? NULL : PyBytes_FromObject(view);
    Py_XDECREF(view);
    return bytes;
}

// Gets the bytes of a view. The stable interface has this function in every Python 3, and Py_buffer
// only from 3.11 on. Headers up to 3.12 deprecate it because it does not lock the data, but the
// view already does.
PyAPI_FUNC(int) PyObject_AsReadBuffer(PyObject *data, const void **bytes, Py_ssize_t *length);
#pragma GCC diagnostic ignored "-Wdeprecated-declarations"

// Returns a tuple of a result and an offset, or null if the result is null.
static PyObject *both(PyObject *result, Py_ssize_t place)
{
    PyObject *number = result == NULL ? NULL : PyLong_FromSsize_t(place);
    PyObject *tuple = number == NULL ? NULL : PyTuple_Pack(2, result, number);
    Py_XDECREF(result);
    Py_XDECREF(number);
    return tuple;
}

// Returns the bytes between two offsets, as far as there are any.
static struct input between(PyObject *data, Py_ssize_t start, Py_ssize_t stop)
{
    Py_ssize_t length = PyBytes_Size(data);
    stop = stop < length ? stop : length;
    start = start < 0 || stop < 0 ? 0 : start < stop ? start : stop;
    const uint8_t *bytes = (uint8_t *)PyBytes_AsString(data);
    return (struct input){bytes + start, stop < 0 ? 0 : (size_t)(stop - start)};
}

// Makes a call. For a long input that is not held, other threads may run meanwhile.
static struct cesu8_answer run(
    writes *call, struct input input, int is_held, uint8_t *buffer, size_t room)
{
    PyThreadState *state = is_held || input.length < MANY ? NULL : PyEval_SaveThread();
    struct cesu8_answer answer = call(input.bytes, input.length, buffer, room);
    if (state != NULL)
        PyEval_RestoreThread(state);
    return answer;
}

static PyObject *text_of(const uint8_t *utf8, size_t length)
{
    return PyUnicode_DecodeUTF8((const char *)utf8, (Py_ssize_t)length, NULL);
}

// Fast path for `bytes.decode`, which passes only a view: decodes up to FEW valid bytes on the
// stack, without an object for the copy, and sets `length` to their number. Otherwise the result is
// null.
static PyObject *text_of_few(
    int is_mutf8, PyObject *const *given, Py_ssize_t count, Py_ssize_t *length)
{
    uint8_t copy[FEW], few[FEW];
    const void *bytes;
    *length = 0;
    if (count != 1 || !PyMemoryView_Check(*given))
        return NULL;
    if (PyObject_AsReadBuffer(*given, &bytes, length) < 0) {
        // The bytes are not contiguous.
        PyErr_Clear();
        return NULL;
    }
    if (*length > FEW)
        return NULL;
    // Code that does not hold the interpreter lock may write to these bytes.
    memcpy(copy, bytes, (size_t)*length);
    struct cesu8_answer answer = DECODES[is_mutf8][0][0](copy, (size_t)*length, few, sizeof few);
    return answer.status == CESU8_OK ? text_of(few, answer.length) : NULL;
}

// Decodes UTF-8 that may contain surrogates. Python's own decoder takes several times as long. A
// `wchar_t` holds any character, since the package is for Linux only.
static PyObject *text_with_surrogates(const uint8_t *utf8, size_t length)
{
    wchar_t *wide = length > MOST ? NULL : PyMem_Malloc(length * sizeof *wide), *end = wide;
    if (wide == NULL)
        return PyErr_NoMemory();
    for (const uint8_t *stop = utf8 + length; utf8 < stop;) {
        uint8_t lead = *utf8++;
        int more = lead < 0x80 ? 0 : lead < 0xE0 ? 1 : lead < 0xF0 ? 2 : 3;
        *end = more == 0 ? lead : lead & (0x3F >> more);
        for (; more > 0; more--)
            *end = *end << 6 | (*utf8++ & 0x3F);
        end++;
    }
    PyObject *text = PyUnicode_FromWideChar(wide, end - wide);
    PyMem_Free(wide);
    return text;
}

// Gets an attribute. The name is interned, since Python keeps the names in its attribute cache.
static PyObject *attribute(PyObject *object, const char *name)
{
    PyObject *interned = object == NULL ? NULL : PyUnicode_InternFromString(name);
    PyObject *value = interned == NULL ? NULL : PyObject_GetAttr(object, interned);
    Py_XDECREF(interned);
    return value;
}

// Calls a function of cesu8/_codec.py with these arguments, which are released.
static PyObject *in_python(const char *name, PyObject *arguments)
{
    PyObject *module = arguments == NULL ? NULL : PyImport_ImportModule("cesu8._codec");
    PyObject *function = attribute(module, name);
    PyObject *result = function == NULL ? NULL : PyObject_CallObject(function, arguments);
    Py_XDECREF(function);
    Py_XDECREF(module);
    Py_XDECREF(arguments);
    return result;
}

// Whether the input is the beginning of a character, and not a whole one.
static int is_cut(int is_mutf8, struct input input)
{
    uint8_t text[LONGEST];
    struct cesu8_progress progress =
        STREAMS[is_mutf8](input.bytes, input.length, text, sizeof text);
    return progress.status == CESU8_INCOMPLETE && progress.read == 0;
}

// Returns the offset of an incomplete character at the end of the part, or the end if there is
// none. With `surrogatepass` a low surrogate is a character too, even without a high one before it,
// so its first two bytes are an incomplete one.
static Py_ssize_t before_cut(const struct part *part, const char *errors)
{
    int is_passed = strcmp(errors, "surrogatepass") == 0;
    for (Py_ssize_t at = part->end < LONGEST ? 0 : part->end - LONGEST + 1; at < part->end; at++) {
        struct input left = between(part->data, at, part->end);
        int is_second = left.length == 2 && left.bytes[0] == 0xED && left.bytes[1] >> 4 == 0xB;
        if (is_cut(part->is_mutf8, left) || (is_passed && is_second))
            return at;
    }
    return part->end;
}

// Returns the exception for a byte that is not part of a character.
static PyObject *error_at(int is_mutf8, PyObject *data, Py_ssize_t place, Py_ssize_t end)
{
    struct input left = between(data, place, end);
    int is_lead = (*left.bytes >= 0xC2 && *left.bytes < 0xF0) || (is_mutf8 && *left.bytes == 0xC0);
    const char *reason = "invalid start byte";
    if (is_lead)
        reason = is_cut(is_mutf8, left) ? "unexpected end of data" : "invalid continuation byte";
    return PyObject_CallFunction(PyExc_UnicodeDecodeError, "sOnns", ENCODINGS[is_mutf8], data,
        place, place + 1, reason);
}

// Replaces the first byte of `left` as one of Python's error handlers does: writes at most four
// bytes to `output`, and advances `left` and `output`. Returns 0 if the handler would raise, or is
// not one of Python's. `surrogateescape` writes U+DC00 plus the byte, and `surrogatepass` copies an
// encoded surrogate. A surrogate has three bytes.
static int replace(const char *errors, struct input *left, uint8_t **output)
{
    uint8_t byte = *left->bytes;
    size_t taken = 1, written = 0;
    if (strcmp(errors, "backslashreplace") == 0) {
        written = 4;
        const char *digits = "0123456789abcdef";
        memcpy(*output, (char[]){'\\', 'x', digits[byte >> 4], digits[byte & 0xF]}, 4);
    } else if (byte >= 0x80 && strcmp(errors, "surrogateescape") == 0) {
        written = 3;
        memcpy(*output, (uint8_t[]){0xED, 0xB0 | byte >> 6, 0x80 | (byte & 0x3F)}, 3);
    } else if (strcmp(errors, "surrogatepass") == 0 && left->length > 2 && byte == 0xED &&
        left->bytes[1] >> 5 == 5 && left->bytes[2] >> 6 == 2) {
        written = taken = 3;
        memcpy(*output, left->bytes, 3);
    } else if (strcmp(errors, "ignore") != 0) {
        return 0;
    }
    *output += written;
    *left = (struct input){left->bytes + taken, left->length - taken};
    return 1;
}

// Decodes a part up to the first byte for which `replace` returns 0, and sets `place` to its
// offset. For `strict` the text is empty, since an exception follows. The handlers whose names
// begin with "surr" write surrogates.
static PyObject *front(const struct part *part, const char *errors, Py_ssize_t *place)
{
    struct input left = between(part->data, part->start, part->stop);
    int is_strict = strcmp(errors, "strict") == 0, has_surrogates = strncmp(errors, "surr", 4) == 0;
    // The most bytes of output for one byte of input.
    size_t widest = strcmp(errors, "backslashreplace") == 0 ? 4
        : strcmp(errors, "surrogateescape") == 0            ? 3
                                                            : !is_strict;
    uint8_t *buffer = left.length > MOST ? NULL : PyMem_Malloc(widest * left.length);
    uint8_t *output = buffer;
    if (buffer == NULL)
        return PyErr_NoMemory();
    do {
        size_t whole = LOOKS[part->is_mutf8](left.bytes, left.length).length;
        if (!is_strict)
            output += DECODES[part->is_mutf8][0][0](left.bytes, whole, output, whole).length;
        left = (struct input){left.bytes + whole, left.length - whole};
    } while (left.length > 0 && replace(errors, &left, &output));
    *place = part->stop - (Py_ssize_t)left.length;
    size_t length = (size_t)(output - buffer);
    PyObject *text = (has_surrogates ? text_with_surrogates : text_of)(buffer, length);
    PyMem_Free(buffer);
    return text;
}

// Decodes a part, up to the first byte for which a handler must be called or an exception raised,
// and sets `place` to its offset, or to the end of the part.
static PyObject *decoded(
    const struct part *part, int is_lenient, const char *errors, Py_ssize_t *place)
{
    struct input input = between(part->data, part->start, part->stop);
    uint8_t few[FEW], *buffer = few;
    int is_lossy = strcmp(errors, "replace") == 0;
    writes *call = DECODES[part->is_mutf8][is_lenient][is_lossy];
    // Counting first pays if the input may be ASCII or otherwise unchanged, so that no buffer is
    // needed. If surrogate pairs (ED) are near the start, it would only take longer.
    int is_counted = is_lossy || input.length <= FEW || memchr(input.bytes, 0xED, FEW) == NULL;
    struct cesu8_answer answer = {CESU8_TOO_SMALL, input.length};
    if (is_counted)
        answer = run(call, input, part->is_held, few, sizeof few);
    *place = part->stop;
    if (answer.status == CESU8_TOO_SMALL) {
        // Every change makes the text shorter unless the call is lossy, so if the lengths are
        // equal, nothing changes.
        if (is_counted && !is_lossy && answer.length == input.length)
            return text_of(input.bytes, input.length);
        buffer = PyMem_Malloc(answer.length);
        if (buffer == NULL)
            return PyErr_NoMemory();
        answer = run(call, input, part->is_held, buffer, answer.length);
    }
    int is_whole = answer.status == CESU8_OK;
    PyObject *text = is_whole ? text_of(buffer, answer.length) : NULL;
    if (buffer != few)
        PyMem_Free(buffer);
    return is_whole ? text : front(part, errors, place);
}

// Decodes a part with an error handler, and sets `place` to the offset at which decoding ended.
static PyObject *text_by(
    const struct part *part, int is_lenient, const char *errors, Py_ssize_t *place)
{
    PyObject *text = decoded(part, is_lenient, errors, place);
    if (text == NULL || *place == part->stop)
        return text;
    if (strcmp(errors, "strict") == 0 || strcmp(errors, "surrogateescape") == 0 ||
        strcmp(errors, "surrogatepass") == 0) {
        PyObject *error = error_at(part->is_mutf8, part->data, *place, part->end);
        if (error != NULL)
            PyErr_SetObject(PyExc_UnicodeDecodeError, error);
        Py_XDECREF(error);
        Py_DECREF(text);
        return NULL;
    }
    PyObject *answer = in_python("decode_by_handler", Py_BuildValue("sOnnnsNn",
        ENCODINGS[part->is_mutf8], part->data, part->start, part->stop, part->end, errors, text,
        *place));
    text = NULL;
    if (answer != NULL && PyArg_ParseTuple(answer, "Un", &text, place))
        Py_INCREF(text);
    Py_XDECREF(answer);
    return text;
}

// Encodes a text with this call, or with an error handler if the text contains surrogates.
static PyObject *bytes_by(writes *call, int is_mutf8, PyObject *text, const char *errors)
{
    PyObject *utf8 = PyUnicode_AsUTF8String(text), *result = NULL;
    if (utf8 == NULL && PyErr_ExceptionMatches(PyExc_UnicodeEncodeError)) {
        PyErr_Clear();
        return in_python(call == cesu8_java_write ? "write_by_handler" : "encode_by_handler",
            Py_BuildValue("sNs", ENCODINGS[is_mutf8], PyUnicode_FromObject(text), errors));
    }
    if (utf8 == NULL)
        return NULL;
    uint8_t few[FEW];
    struct input input = between(utf8, 0, PyBytes_Size(utf8));
    struct cesu8_answer answer = run(call, input, 0, few, sizeof few);
    // Every change makes the encoding longer, so if the lengths are equal, nothing changes.
    if (answer.length == input.length)
        return utf8;
    if (answer.status == CESU8_OK) {
        result = PyBytes_FromStringAndSize((char *)few, (Py_ssize_t)answer.length);
    } else if (answer.status == CESU8_TOO_SMALL) {
        result = PyBytes_FromStringAndSize(NULL, (Py_ssize_t)answer.length);
        if (result != NULL)
            run(call, input, 0, (uint8_t *)PyBytes_AsString(result), answer.length);
    } else {
        PyErr_SetString(PyExc_OverflowError, "the text has more than 65,535 bytes of MUTF-8");
    }
    Py_DECREF(utf8);
    return result;
}
