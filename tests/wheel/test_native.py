"""The C module by itself: what it rejects, and that it leaks no object."""

from __future__ import annotations

import codecs
import gc
import sys
import tracemalloc
import unittest
from collections.abc import Callable

import model
import tables
from cesu8 import _native

# Short and long results are made by different code.
COUNTS = (0, 1, 100, 4000)
TEXTS = [count * text for count in COUNTS for text in ("a", "\xe4", "\u20ac", tables.PATTERN[0])]

DATA = b"\0\x02data"
WIDE = memoryview(bytes(8)).cast("I")
HANDLERS = ("replace", "ignore", "backslashreplace", "surrogateescape", "cesu8.own")
CODECS = (
    (_native.cesu_8_encode, _native.cesu_8_decode),
    (_native.mutf_8_encode, _native.mutf_8_decode),
)

# Each call, its arguments by name, and how many of these it needs.
CALLS = [
    (_native.encode, {"text": "a", "encoding": "mutf-8", "errors": "strict"}, 2),
    (_native.decode, {"data": b"a", "encoding": "mutf-8", "errors": "strict", "lenient": False}, 2),
    (_native.decoded_len, {"data": b"a", "encoding": "mutf-8"}, 2),
    (_native.utf16_len, {"text": "a"}, 1),
    (_native.compare_as_utf16, {"text": "a", "other": "a"}, 2),
    (_native.write_utf, {"text": "a", "errors": "strict"}, 1),
    (_native.read_utf, {"data": b"\0\x01a", "start": 0, "errors": "strict"}, 1),
    *((encode, {"input": "a", "errors": "strict"}, 1) for encode, _ in CODECS),
    # A memoryview without a handler is decoded by different code.
    *(
        (decode, {"input": data, "errors": "strict", "final": True}, 1)
        for _, decode in CODECS
        for data in (b"a", memoryview(b"a"))
    ),
]


class Arguments(unittest.TestCase):
    def test_places_and_names(self) -> None:
        for call, arguments, needed in CALLS:
            values = list(arguments.values())
            result = call(*values)
            for count in range(len(values) + 1):
                rest = dict(list(arguments.items())[count:])
                self.assertEqual(call(*values[:count], **rest), result)
                if count >= needed:
                    self.assertEqual(call(*values[:count]), result)
                else:
                    with self.assertRaisesRegex(TypeError, f"'{list(arguments)[count]}'"):
                        call(*values[:count])
            with self.assertRaises(TypeError):
                call(*values, values[0])
            with self.assertRaises(TypeError):
                call(*values, **{next(iter(arguments)): values[0]})
            with self.assertRaisesRegex(TypeError, "unknown name"):
                call(*values[:needed], unknown=values[0])

    def test_types(self) -> None:
        for call, arguments, _ in CALLS:
            for name, value in arguments.items():
                if type(value) is str:
                    said, wrongs = f"'{name}' must be str", (None, 5, b"bytes", bytearray())
                elif type(value) is bytes:
                    said, wrongs = "bytes-like", (None, 5, "text", [65], object())
                elif name == "start":
                    said, wrongs = "integer", (None, 0.0, "0", b"0")
                else:
                    continue
                for wrong in wrongs:
                    with self.assertRaisesRegex(TypeError, said):
                        call(**{**arguments, name: wrong})

    def test_names_with_null(self) -> None:
        for call, arguments, _ in CALLS:
            for name in arguments.keys() & {"encoding", "errors"}:
                with self.assertRaisesRegex(ValueError, "null"):
                    call(**{**arguments, name: arguments[name] + "\0"})

    def test_what_is_said(self) -> None:
        """The message has the name or the numbers that are rejected."""
        for error, said, call, *arguments in (
            (LookupError, "cesu8 has no encoding 'utf-8'", _native.encode, "a", "utf-8"),
            (LookupError, "cesu8 has no encoding ''", _native.decode, b"a", ""),
            (EOFError, "the string at 3 is cut: 3 bytes are there", _native.read_utf, DATA, 3),
            (EOFError, "the string at 0 is cut: 1 bytes are there", _native.read_utf, bytearray(1)),
            (ValueError, "start is 7, and the data has 6 bytes", _native.read_utf, DATA, 7),
            (ValueError, "start is -1, and the data has 8 bytes", _native.read_utf, WIDE, -1),
        ):
            with self.assertRaises(error) as caught:
                call(*arguments)
            self.assertEqual(str(caught.exception), said)

    def test_values_that_raise(self) -> None:
        class Raises:
            def __bool__(self) -> bool:
                raise ZeroDivisionError

            def __index__(self) -> int:
                raise ZeroDivisionError

        with self.assertRaises(ZeroDivisionError):
            _native.decode(b"a", "mutf-8", "strict", Raises())  # type: ignore[arg-type]
        with self.assertRaises(ZeroDivisionError):
            _native.read_utf(DATA, Raises())  # type: ignore[arg-type]


class Results(unittest.TestCase):
    def test_each_length(self) -> None:
        """Lengths near those from which a result is allocated, and the lock is released."""
        for length in (*range(500, 530), *range(65530, 65545)):
            for character in ("a", "\0", "\xe4", "\u20ac", "\ud55c", "\U0001f496"):
                text = (length * character)[: length // len(character.encode()) + 1]
                for encoding, (encode, decode) in zip(model.ENCODINGS, CODECS):
                    encoded = len(text) * model.encoded(character, encoding)
                    self.assertEqual(encode(text), (encoded, len(text)))
                    for data in (encoded, memoryview(encoded)):
                        # A memoryview with a handler is decoded by different code than one without.
                        for handler in ((), ("strict",), ("replace",)):
                            self.assertEqual(decode(data, *handler), (text, len(encoded)))

    def test_changes_that_keep_the_length(self) -> None:
        data = 200 * (b"\xff" + bytes.fromhex(tables.PAIR))
        for _, decode in CODECS:
            text = 200 * (tables.R + "\U0001f496")
            self.assertEqual(decode(data, "replace"), (text, len(data)))

    # next_text(is_mutf8, data, start, stop) decodes up to `stop` or to the first damage, and
    # returns the text and the offset where it ends.
    def test_next_text(self) -> None:
        data = b"\xffdata\xff"
        for start in range(-1, 8):
            for stop in (-sys.maxsize, *range(-1, 8), sys.maxsize):
                text, _ = _native.next_text(False, data, start, stop)
                front = data[max(start, 0) : max(stop, 0)].split(b"\xff")[0]
                self.assertEqual(text, front.decode())
        self.assertEqual(_native.next_text(False, data, 0, 6), ("", 0))
        self.assertEqual(_native.next_text(False, data, 1, 4), ("dat", 4))
        self.assertEqual(_native.next_text(False, data, 1, 6), ("data", 5))

    def test_where_damage_is(self) -> None:
        texts = ["", 70 * "a", 3000 * "\u20ac", 90 * "\U0001f496"]
        fills = [b"", 70 * b"a", 3000 * b"\xe2\x82\xac", 90 * bytes.fromhex(tables.PAIR)]
        for encoding, is_mutf8 in zip(model.ENCODINGS, (False, True)):
            for row in (bytes.fromhex(row) for row, *_ in tables.DAMAGE):
                places = model.damaged(row, encoding)
                for fill, text in zip(fills, texts):
                    # After the row comes a byte that completes no character.
                    data = b"\xff" + fill + row + b"a" + fill
                    place = 1 + len(fill) + places[0] if places else len(data)
                    rest = model.lossy(row[: places[0]] if places else row, encoding)
                    text += rest if places else f"{rest}a{text}"
                    found = _native.next_text(is_mutf8, data, 1, len(data))
                    self.assertEqual(found, (text, place))
                    if places:
                        error = _native.next_error(is_mutf8, data, place, len(data))
                        found = (error.encoding, error.object, error.start, error.end)
                        self.assertEqual(found, (encoding, data, place, place + 1))


class Objects(unittest.TestCase):
    def test_nothing_is_kept(self) -> None:
        codecs.register_error("cesu8.own", lambda error: ("\xe4\U0001f496", error.end))
        for call in (self.convert, self.refuse):
            self.assert_keeps_nothing(call)

    def test_none_is_counted(self) -> None:
        before = sys.getrefcount(None)
        for _ in range(2000):
            _native.decoded_len(b"\xff", "mutf-8")
        self.assertLess(abs(sys.getrefcount(None) - before), 1000)

    def convert(self) -> None:
        for text in TEXTS:
            for encoding, (encode, decode) in zip(model.ENCODINGS, CODECS):
                encoded, _ = encode(text, errors="strict")
                for data in (encoded, bytearray(encoded), memoryview(encoded)):
                    decode(data, errors="strict")
                    _native.decode(data, encoding, "replace", lenient=True)
                for errors in HANDLERS:
                    decode(encoded + b"\xff\xed", errors)
                    _native.encode(text + "\udcff", encoding, errors)
                decode(encoded + b"\xed\xa0\x80", "surrogatepass")
                _native.decoded_len(bytearray(encoded + b"\xff"), encoding)
            _native.utf16_len(text)
            _native.compare_as_utf16(text, text + "a")
            if len(text) < 1000:
                string = _native.write_utf(text)
                reversed_view = memoryview(string[::-1])[::-1]
                column = memoryview(string).cast("B", [len(string), 1])
                # Data is copied whole only if it is not contiguous and its elements, those that `len`
                # counts, have several bytes.
                items = (string[at : at + 2].ljust(2) + b"--" for at in range(0, len(string), 2))
                spread = memoryview(b"".join(items)).cast("H")[::2]
                for data in (string, bytearray(string), reversed_view, column, spread):
                    _native.read_utf(data, start=0, errors="ignore")
                _native.write_utf(text + "\udcff", "ignore")

    def refuse(self) -> None:
        for error, call, *arguments in (
            (UnicodeEncodeError, _native.encode, "a\ud800", "cesu-8"),
            (UnicodeEncodeError, _native.mutf_8_encode, "a\ud800"),
            (LookupError, _native.encode, "a\ud800", "cesu-8", "cesu8.unknown"),
            (LookupError, _native.encode, "a", "utf-8"),
            (TypeError, _native.encode, "a", None),
            (ValueError, _native.encode, "a", "mutf-8", "strict\0"),
            (UnicodeEncodeError, _native.write_utf, "\ud800"),
            (OverflowError, _native.write_utf, 65536 * "a"),
            (OverflowError, _native.write_utf, 65536 * "a" + "\ud800", "ignore"),
            (UnicodeEncodeError, _native.utf16_len, "\ud800"),
            (UnicodeEncodeError, _native.compare_as_utf16, "\ud800", "a"),
            (UnicodeEncodeError, _native.compare_as_utf16, "a", "\ud800"),
            (UnicodeDecodeError, _native.decode, b"a\xff", "mutf-8"),
            (UnicodeDecodeError, _native.decode, b"a\0", "mutf-8", "surrogateescape"),
            (UnicodeDecodeError, _native.mutf_8_decode, bytearray(b"a\xff")),
            (LookupError, _native.decode, b"a\xff", "mutf-8", "cesu8.unknown"),
            (LookupError, _native.decoded_len, b"a", "utf-8"),
            (TypeError, _native.decode, "a", "mutf-8"),
            (ValueError, _native.read_utf, DATA, 7),
            (ValueError, _native.read_utf, WIDE, 9),
            (ValueError, _native.read_utf, WIDE[::2], 9),
            (EOFError, _native.read_utf, DATA, 2),
            (EOFError, _native.read_utf, bytearray(DATA), 5),
            (UnicodeDecodeError, _native.read_utf, b"\0\x01\xff"),
            (UnicodeDecodeError, _native.read_utf, bytearray(b"\0\x01\xff")),
        ):
            with self.assertRaises(error):
                call(*arguments)

    def assert_keeps_nothing(self, call: Callable[[], None]) -> None:
        """Python itself keeps memory in the first calls, so the best of several rounds counts."""
        tracemalloc.start()
        self.addCleanup(tracemalloc.stop)
        best = [sys.maxsize] * len(self.kept())
        for _ in range(4):
            before = self.kept()
            for _ in range(3):
                call()
            after = self.kept()
            best = [min(least, abs(now - then)) for least, now, then in zip(best, after, before)]
        *references, memory = best
        self.assertLess(max(references), 3)
        self.assertLess(memory, 100)

    @staticmethod
    def kept() -> list[int]:
        gc.collect()
        # From 3.12 on, Python does not count references to immortal objects, such as a letter.
        values = [text for text in TEXTS if len(text) > 99]
        references = [sys.getrefcount(value) for value in (*values, DATA)]
        return [*references, tracemalloc.get_traced_memory()[0]]
