// The module cesu8._native, with Python's stable interface of 3.10. Its functions parse their
// arguments, and convert.h decodes and encodes. Nothing in this file is proved.

#define Py_LIMITED_API 0x030A0000
#include "convert.h"

// Returns the index of a name, or of the null after the names if it is not among them.
static Py_ssize_t place_of(const char *const *names, PyObject *name)
{
    Py_ssize_t place = 0;
    while (names[place] != NULL && PyUnicode_CompareWithASCIIString(name, names[place]) != 0)
        place++;
    return place;
}

#define REFUSE(...) return PyErr_Format(PyExc_TypeError, __VA_ARGS__), 0

// Parses the arguments of a call, by position and by name, into `found`. The first `needed` ones
// are required. An argument whose bit in `strings` is set must be a string. If the arguments are
// wrong, returns 0 with an exception.
static int take(const char *const *names, int needed, int strings, PyObject *const *given,
    Py_ssize_t count, PyObject *keywords, PyObject **found)
{
    Py_ssize_t named = keywords == NULL ? 0 : PyTuple_Size(keywords);
    for (Py_ssize_t at = 0; at < count + named; at++) {
        Py_ssize_t place = at < count ? at : place_of(names, PyTuple_GetItem(keywords, at - count));
        if (names[place] == NULL || found[place] != NULL)
            REFUSE("an argument too many, twice or of an unknown name");
        if (strings >> place & 1 && !PyUnicode_Check(given[at]))
            REFUSE("argument '%s' must be str, not %R", names[place], Py_TYPE(given[at]));
        found[place] = given[at];
    }
    for (; count < needed; count++)
        if (found[count] == NULL)
            REFUSE("argument '%s' is missing", names[count]);
    return 1;
}

// Returns a string as a C string. If it contains a NUL or a surrogate, returns null with an
// exception.
static const char *said(PyObject *string)
{
    Py_ssize_t length;
    const char *said = PyUnicode_AsUTF8AndSize(string, &length);
    if (said == NULL || strlen(said) == (size_t)length)
        return said;
    PyErr_SetString(PyExc_ValueError, "embedded null character");
    return NULL;
}

static const char *handler(PyObject *errors)
{
    return errors == NULL ? "strict" : said(errors);
}

// Returns 1 for a name of MUTF-8, 0 for one of CESU-8, and -1 with an exception for any other.
static int is_mutf8(PyObject *encoding)
{
    static const char *const SPELLINGS[8] = {
        "cesu-8", "mutf-8", "cesu_8", "mutf_8", "cesu 8", "mutf 8", "cesu8", "mutf8"};
    const char *name = said(encoding);
    for (int at = 0; name != NULL && at < 8; at++)
        if (PyOS_mystricmp(name, SPELLINGS[at]) == 0)
            return at % 2;
    if (name != NULL)
        PyErr_Format(PyExc_LookupError, "cesu8 has no encoding %R", encoding);
    return -1;
}

// Returns bytes objects as they are, and for other data a view that can be sliced by the byte. The
// data is copied only if it is not contiguous and the elements that `len` counts have several
// bytes.
static PyObject *row_of(PyObject *data)
{
    if (PyBytes_CheckExact(data))
        return Py_NewRef(data);
    PyObject *view = PyMemoryView_FromObject(data), *size = attribute(view, "nbytes"), *row = view;
    if (size != NULL && PyLong_AsSsize_t(size) != PyObject_Size(view)) {
        // A view without dimensions has no length: that exception is dropped.
        PyErr_Clear();
        PyObject *cast = attribute(view, "cast");
        row = cast == NULL ? NULL : PyObject_CallFunction(cast, "s", "B");
        if (row == NULL) {
            PyErr_Clear();
            PyObject *copy = PyBytes_FromObject(view);
            row = copy == NULL ? NULL : PyMemoryView_FromObject(copy);
            Py_XDECREF(copy);
        }
        Py_XDECREF(cast);
        Py_DECREF(view);
    }
    Py_XDECREF(size);
    return row;
}

// Sets `part` to the bytes from `start` to `stop` of what row_of returned, or to a copy of them.
// Returns 0 with an exception if the copy fails.
static int cut_out(PyObject *row, Py_ssize_t start, Py_ssize_t stop, struct part *part)
{
    if (PyBytes_CheckExact(row)) {
        *part = (struct part){Py_NewRef(row), start, stop, stop, 1, 0};
        return 1;
    }
    PyObject *slice = PySequence_GetSlice(row, start, stop);
    PyObject *copy = slice == NULL ? NULL : PyBytes_FromObject(slice);
    *part = (struct part){copy, 0, stop - start, stop - start, 1, 0};
    Py_XDECREF(slice);
    return part->data != NULL;
}

// Sets `string` to the bytes of the string whose count is at offset `start`. Returns 0 with an
// exception if bytes are missing. If the count itself is cut off, `length` remains `left`, which is
// too long.
static int cut_string(PyObject *row, Py_ssize_t start, struct part *string)
{
    struct part count;
    Py_ssize_t left = PyObject_Size(row) - start, length = left;
    if (left >= 2) {
        if (!cut_out(row, start, start + 2, &count))
            return 0;
        const uint8_t *bytes = between(count.data, count.start, count.stop).bytes;
        length = 256 * bytes[0] + bytes[1];
        Py_DECREF(count.data);
    }
    if (length <= left - 2)
        return cut_out(row, start + 2, start + 2 + length, string);
    PyErr_Format(PyExc_EOFError, "the string at %zd is cut: %zd bytes are there", start, left);
    return 0;
}

// CALL begins a function of the module. TAKE parses its arguments to `with`, as `take` does.
#define CALL(name) \
    static PyObject *name(PyObject *Py_UNUSED(module), PyObject *const *given, Py_ssize_t count, \
        PyObject *keywords)
#define TAKE(needed, strings, ...) \
    PyObject *with[4] = {NULL}; \
    static const char *const names[] = {__VA_ARGS__, NULL}; \
    if (!take(names, needed, strings, given, count, keywords, with)) \
        return NULL

CALL(encode)
{
    TAKE(2, 7, "text", "encoding", "errors");
    const char *errors = handler(with[2]);
    int encoding = errors == NULL ? -1 : is_mutf8(with[1]);
    return encoding < 0 ? NULL : bytes_by(ENCODES[encoding], encoding, with[0], errors);
}

CALL(decode)
{
    TAKE(2, 6, "data", "encoding", "errors", "lenient");
    const char *errors = handler(with[2]);
    int encoding = errors == NULL ? -1 : is_mutf8(with[1]);
    int is_lenient = encoding < 0 || with[3] == NULL ? 0 : PyObject_IsTrue(with[3]);
    PyObject *data = encoding < 0 || is_lenient < 0 ? NULL : bytes_of(with[0]);
    if (data == NULL)
        return NULL;
    Py_ssize_t length = PyBytes_Size(data);
    struct part part = {data, 0, length, length, encoding, 0};
    PyObject *text = text_by(&part, is_lenient, errors, &length);
    Py_DECREF(data);
    return text;
}

CALL(write_utf)
{
    TAKE(1, 3, "text", "errors");
    const char *errors = handler(with[1]);
    return errors == NULL ? NULL : bytes_by(cesu8_java_write, 1, with[0], errors);
}

CALL(read_utf)
{
    TAKE(1, 4, "data", "start", "errors");
    const char *errors = handler(with[2]);
    Py_ssize_t start = errors == NULL || with[1] == NULL ? 0 : PyNumber_AsSsize_t(with[1], NULL);
    PyObject *row = PyErr_Occurred() ? NULL : row_of(with[0]);
    if (row == NULL)
        return NULL;
    struct part string;
    int is_there = start >= 0 && start <= PyObject_Size(row);
    if (!is_there)
        PyErr_Format(PyExc_ValueError, "start is %R, and the data has %zd bytes", with[1],
            PyObject_Size(row));
    is_there = is_there && cut_string(row, start, &string);
    // An error handler may change the data, so the view is released first.
    Py_DECREF(row);
    if (!is_there)
        return NULL;
    Py_ssize_t place;
    PyObject *text = text_by(&string, 0, errors, &place);
    Py_DECREF(string.data);
    return both(text, start + 2 + string.stop - string.start);
}

// A function of a codec also returns how much of the input it read.
static PyObject *codec_encode(
    int is_mutf8, PyObject *const *given, Py_ssize_t count, PyObject *keywords)
{
    TAKE(1, 3, "input", "errors");
    const char *errors = handler(with[1]);
    writes *call = ENCODES[is_mutf8];
    PyObject *bytes = errors == NULL ? NULL : bytes_by(call, is_mutf8, with[0], errors);
    return both(bytes, PyUnicode_GetLength(with[0]));
}

static PyObject *codec_decode(
    int is_mutf8, PyObject *const *given, Py_ssize_t count, PyObject *keywords)
{
    Py_ssize_t length;
    PyObject *text = text_of_few(is_mutf8, given, keywords == NULL ? count : 0, &length);
    if (text != NULL || PyErr_Occurred())
        return both(text, length);
    TAKE(1, 2, "input", "errors", "final");
    const char *errors = handler(with[1]);
    int is_final = errors == NULL || with[2] == NULL ? 1 : PyObject_IsTrue(with[2]);
    PyObject *data = errors == NULL || is_final < 0 ? NULL : bytes_of(with[0]);
    if (data == NULL)
        return NULL;
    // Python passes a view if it holds a caller's bytearray locked during the call. Then the
    // interpreter lock is not released.
    length = PyBytes_Size(data);
    struct part part = {data, 0, length, length, is_mutf8, PyMemoryView_Check(with[0])};
    if (!is_final)
        part.stop = before_cut(&part, errors);
    text = text_by(&part, 0, errors, &length);
    Py_DECREF(data);
    return both(text, is_final ? part.end : length);
}

#define CODEC(name, does, is_mutf8) CALL(name) { return does(is_mutf8, given, count, keywords); }
CODEC(cesu_8_encode, codec_encode, 0)
CODEC(cesu_8_decode, codec_decode, 0)
CODEC(mutf_8_encode, codec_encode, 1)
CODEC(mutf_8_decode, codec_decode, 1)

// next_text(is_mutf8, data, start, stop): decodes the valid prefix of these bytes, and returns its
// text and the offset after it. cesu8/_codec.py calls it and next_error between error handlers.
static PyObject *next_text(PyObject *Py_UNUSED(module), PyObject *arguments)
{
    struct part part = {NULL, 0, 0, 0, 0, 0};
    Py_ssize_t place;
    if (!PyArg_ParseTuple(
            arguments, "pSnn", &part.is_mutf8, &part.data, &part.start, &part.stop))
        return NULL;
    PyObject *text = front(&part, "", &place);
    return both(text, place);
}

// next_error(is_mutf8, data, place, end): the exception for the byte at `place`, which is not part of
// a character.
static PyObject *next_error(PyObject *Py_UNUSED(module), PyObject *arguments)
{
    PyObject *data;
    Py_ssize_t place, end;
    int is_mutf8;
    int is_right = PyArg_ParseTuple(arguments, "pSnn", &is_mutf8, &data, &place, &end);
    return is_right ? error_at(is_mutf8, data, place, end) : NULL;
}

CALL(decoded_len)
{
    TAKE(2, 2, "data", "encoding");
    int encoding = is_mutf8(with[1]);
    PyObject *data = encoding < 0 ? NULL : bytes_of(with[0]);
    if (data == NULL)
        return NULL;
    struct input input = between(data, 0, PyBytes_Size(data));
    // With an empty buffer the call only returns the length.
    struct cesu8_answer answer = run(DECODES[encoding][0][0], input, 0, NULL, 0);
    Py_DECREF(data);
    return answer.status == CESU8_INVALID ? Py_NewRef(Py_None) : PyLong_FromSize_t(answer.length);
}

CALL(utf16_len)
{
    TAKE(1, 1, "text");
    PyObject *utf8 = PyUnicode_AsUTF8String(with[0]);
    if (utf8 == NULL)
        return NULL;
    struct input input = between(utf8, 0, PyBytes_Size(utf8));
    size_t length = cesu8_utf16_len(input.bytes, input.length).length;
    Py_DECREF(utf8);
    return PyLong_FromSize_t(length);
}

CALL(compare_as_utf16)
{
    TAKE(2, 3, "text", "other");
    PyObject *text = PyUnicode_AsUTF8String(with[0]), *order = NULL;
    PyObject *other = text == NULL ? NULL : PyUnicode_AsUTF8String(with[1]);
    if (other != NULL) {
        struct input left = between(text, 0, PyBytes_Size(text));
        struct input right = between(other, 0, PyBytes_Size(other));
        order = PyLong_FromLong(
            cesu8_compare_as_utf16(left.bytes, left.length, right.bytes, right.length).order);
    }
    Py_XDECREF(text);
    Py_XDECREF(other);
    return order;
}

#define METHOD(name, doc) \
    {#name, (PyCFunction)(void (*)(void))name, METH_FASTCALL | METH_KEYWORDS, #name doc}
static PyMethodDef METHODS[] = {
    METHOD(encode, "(text, encoding, errors='strict')\n--\n\n"
        "Encode a text to `cesu-8` or `mutf-8`, as `text.encode(encoding, errors)` does.\n\n"
        "Raises UnicodeEncodeError for surrogates, which are in no text, and LookupError for\n"
        "another encoding."),
    METHOD(decode, "(data, encoding, errors='strict', lenient=False)\n--\n\n"
        "Decode bytes of `cesu-8` or `mutf-8`, as `data.decode(encoding, errors)` does.\n\n"
        "With `lenient`, data that is UTF-8 as a whole is decoded as UTF-8. Only other data must\n"
        "be in the encoding.\n\n"
        "Raises UnicodeDecodeError for damage. Its `start` is the first byte that is not part of\n"
        "an encoded character. Raises LookupError for another encoding."),
    METHOD(decoded_len, "(data, encoding)\n--\n\n"
        "Return the length in UTF-8 of the text that the data in `cesu-8` or `mutf-8` decodes to,\n"
        "or None if the data is not the encoding of any text.\n\n"
        "So `decoded_len(...) is not None` tests whether data is valid. Raises LookupError for\n"
        "another encoding."),
    METHOD(utf16_len, "(text)\n--\n\n"
        "Count the UTF-16 code units of a text, as `len` of a string in JavaScript does.\n\n"
        "Raises UnicodeEncodeError for surrogates, which are in no text."),
    METHOD(compare_as_utf16, "(text, other)\n--\n\n"
        "Compare two texts by their UTF-16 code units, as Java and JavaScript do: -1, 0 or 1 as\n"
        "the first is less, equal or greater.\n\n"
        "`functools.cmp_to_key` makes a sort key of it. Raises UnicodeEncodeError for surrogates,\n"
        "which are in no text."),
    METHOD(write_utf, "(text, errors='strict')\n--\n\n"
        "Write a text as Java's `DataOutput.writeUTF` does: the number of its bytes in MUTF-8, as\n"
        "two bytes, and then these bytes.\n\n"
        "Raises OverflowError if there are more than 65,535, and UnicodeEncodeError for\n"
        "surrogates."),
    METHOD(read_utf, "(data, start=0, errors='strict')\n--\n\n"
        "Read the string at `start` that Java's `DataOutput.writeUTF` wrote. Returns its text and\n"
        "the offset after it.\n\n"
        "Raises EOFError if the data ends within the string, ValueError if `start` is not in the\n"
        "data, and UnicodeDecodeError for damage. Its `start` is an offset in the whole data. If\n"
        "the data is not a bytes object, it is an offset in a copy of the string's bytes."),
    METHOD(cesu_8_encode, "(input, errors='strict')\n--\n\n"),
    METHOD(cesu_8_decode, "(input, errors='strict', final=True)\n--\n\n"),
    METHOD(mutf_8_encode, "(input, errors='strict')\n--\n\n"),
    METHOD(mutf_8_decode, "(input, errors='strict', final=True)\n--\n\n"),
    {"next_text", next_text, METH_VARARGS, NULL},
    {"next_error", next_error, METH_VARARGS, NULL},
    {NULL, NULL, 0, NULL},
};

// The slot Py_mod_multiple_interpreters (3) with the value 2 says that the module supports
// interpreters with a lock of their own. Python has it from 3.12 on.
static PyModuleDef_Slot SLOTS[] = {{3, (void *)2}, {0, NULL}};
static struct PyModuleDef MODULE = {
    .m_base = PyModuleDef_HEAD_INIT, .m_name = "_native", .m_methods = METHODS, .m_slots = SLOTS,
};

PyMODINIT_FUNC PyInit__native(void)
{
    if (atoi(Py_GetVersion() + strlen("3.")) < 12)
        SLOTS[0].slot = 0;
    return PyModuleDef_Init(&MODULE);
}
