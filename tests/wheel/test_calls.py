"""The functions of the package."""

from __future__ import annotations

import array
import codecs
import functools
import itertools
import mmap
import threading
import unittest

import cesu8
import model
import tables

PAIR = bytes.fromhex(tables.PAIR)


class Tables(unittest.TestCase):
    def test_borders(self) -> None:
        for scalar, utf8, *encodings in tables.BORDERS:
            text = chr(scalar)
            self.assertEqual(text.encode(), bytes.fromhex(utf8))
            for encoding, encoded in zip(model.ENCODINGS, map(bytes.fromhex, encodings)):
                with self.subTest(scalar=hex(scalar), encoding=encoding):
                    self.assertEqual(cesu8.encode(text, encoding), encoded)
                    self.assertEqual(cesu8.decode(encoded, encoding), text)
                    self.assertEqual(model.encoded(text, encoding), encoded)

    def test_pattern(self) -> None:
        text, _, *encodings = tables.PATTERN
        for encoding, encoded in zip(model.ENCODINGS, map(bytes.fromhex, encodings)):
            # 819 times the text has 16,380 bytes of UTF-8.
            for count in (0, 1, 819):
                self.assertEqual(cesu8.encode(count * text, encoding), count * encoded)
                self.assertEqual(cesu8.decode(count * encoded, encoding), count * text)

    def test_damage(self) -> None:
        for row, *readings in tables.DAMAGE:
            data = bytes.fromhex(row)
            for encoding, reading in zip(model.ENCODINGS, readings):
                with self.subTest(row=row, encoding=encoding):
                    self.assertEqual(model.lossy(data, encoding), reading)
                    self.assertEqual(cesu8.decode(data, encoding, "replace"), reading)
                    self.assert_strict(data, encoding)

    def test_cut_pairs(self) -> None:
        for encoding in model.ENCODINGS:
            for count in range(1, 6):
                for cut in (PAIR[:count], PAIR[-count:]):
                    lossy = count * tables.R
                    self.assertEqual(cesu8.decode(cut, encoding, "replace"), lossy)
                    self.assertEqual(cesu8.decode(cut, encoding, "replace", True), lossy)
                    self.assert_strict(cut, encoding)
                    with self.assertRaises(UnicodeDecodeError):
                        cesu8.decode(cut, encoding, lenient=True)

    def test_lenient(self) -> None:
        for row, *readings in tables.LENIENT:
            data = bytes.fromhex(row)
            for encoding, strict, lossy in zip(model.ENCODINGS, readings[::2], readings[1::2]):
                with self.subTest(row=row, encoding=encoding):
                    found = cesu8.decode(data, encoding, "replace", lenient=True)
                    self.assertEqual(found, lossy)
                    if strict is None:
                        with self.assertRaises(UnicodeDecodeError):
                            cesu8.decode(data, encoding, lenient=True)
                    else:
                        self.assertEqual(cesu8.decode(data, encoding, lenient=True), strict)

    def test_all_of_two_bytes(self) -> None:
        accepted = dict.fromkeys(model.ENCODINGS, 0)
        for encoding in model.ENCODINGS:
            for number in range(0x10000):
                data = number.to_bytes(2, "big")
                reading = model.lossy(data, encoding)
                if cesu8.decode(data, encoding, "replace") != reading:
                    self.fail(f"{encoding} of {data.hex()} is {reading!r}")
                accepted[encoding] += self.assert_strict(data, encoding)
        # Pairs of 128 or 127 single bytes, 30 * 64 characters of two bytes, and C0 80.
        self.assertEqual(accepted, {"cesu-8": 18304, "mutf-8": 18050})

    def test_all_scalar_values(self) -> None:
        for encoding in model.ENCODINGS:
            for first in range(0, 0x110000, 0x800):
                if first == 0xD800:
                    continue
                text = "".join(map(chr, range(first, first + 0x800)))
                encoded = cesu8.encode(text, encoding)
                self.assertEqual(encoded, model.encoded(text, encoding))
                self.assertEqual(cesu8.decode(encoded, encoding), text)

    def assert_strict(self, data: bytes, encoding: str) -> bool:
        """Compares strict decoding with the model, and returns whether it accepts."""
        places = model.damaged(data, encoding)
        if not places:
            text = model.lossy(data, encoding)
            self.assertEqual(cesu8.decode(data, encoding), text)
            self.assertEqual(cesu8.decoded_len(data, encoding), len(text.encode()))
            return True
        self.assertIsNone(cesu8.decoded_len(data, encoding))
        with self.assertRaises(UnicodeDecodeError) as caught:
            cesu8.decode(data, encoding)
        error = caught.exception
        self.assertEqual((error.encoding, error.object), (encoding, data))
        self.assertEqual((error.start, error.end), (places[0], places[0] + 1))
        return False


class CodeUnits(unittest.TestCase):
    def test_lengths(self) -> None:
        for scalar, *_ in tables.BORDERS:
            self.assertEqual(cesu8.utf16_len(chr(scalar)), len(model.units(scalar)))
        for count in (0, 1, 5, 819):
            self.assertEqual(cesu8.utf16_len(count * tables.PATTERN[0]), 10 * count)

    def test_order(self) -> None:
        for text, other, order in tables.ORDER:
            for front in ("", "a", "\U0010ffff", 9 * "\uffff"):
                self.assertEqual(cesu8.compare_as_utf16(front + text, front + other), order)
                self.assertEqual(cesu8.compare_as_utf16(front + other, front + text), -order)

    def test_order_of_borders(self) -> None:
        texts = [chr(scalar) for scalar, *_ in tables.BORDERS]
        for text in texts:
            for other in texts:
                units, others = model.units_of(text), model.units_of(other)
                order = (units > others) - (units < others)
                self.assertEqual(cesu8.compare_as_utf16(text, other), order)
        by_units = functools.cmp_to_key(cesu8.compare_as_utf16)
        self.assertEqual(sorted(texts, key=by_units), sorted(texts, key=model.units_of))

    def test_surrogates(self) -> None:
        with self.assertRaises(UnicodeEncodeError):
            cesu8.utf16_len("a\ud83d")
        for text, other in (("a\ud83d", "a"), ("a", "\udc96a")):
            with self.assertRaises(UnicodeEncodeError):
                cesu8.compare_as_utf16(text, other)


class JavaStrings(unittest.TestCase):
    def test_table(self) -> None:
        for text, row in tables.JAVA:
            written = bytes.fromhex(row)
            self.assertEqual(cesu8.write_utf(text), written)
            self.assertEqual(cesu8.read_utf(written), (text, len(written)))
            around = b"\0\x01\xff" + written + b"rest"
            self.assertEqual(cesu8.read_utf(around, 3), (text, 3 + len(written)))

    def test_longest(self) -> None:
        longest = 32767 * "\0" + "a"
        written = cesu8.write_utf(longest)
        self.assertEqual(written, b"\xff\xff" + 32767 * b"\xc0\x80" + b"a")
        self.assertEqual(cesu8.read_utf(written), (longest, 65537))
        for text in (32768 * "\0", 65536 * "a", 10923 * "\U00010000"):
            with self.assertRaises(OverflowError):
                cesu8.write_utf(text)

    def test_surrogates(self) -> None:
        with self.assertRaises(UnicodeEncodeError) as caught:
            cesu8.write_utf("ab\ud83d\udc96c")
        error = caught.exception
        self.assertEqual((error.encoding, error.start, error.end), ("mutf-8", 2, 4))

    def test_handlers_of_writing(self) -> None:
        for text, errors, row in (
            ("a\ud800", "ignore", "00 01 61"),
            ("a\ud800\0", "replace", "00 04 61 3F C0 80"),
            ("\ud800\U0001f496", "backslashreplace", "00 0C 5C 75 64 38 30 30 " + tables.PAIR),
            ("\udc80\udcff", "surrogateescape", "00 02 80 FF"),
            ("\ud83d\0", "surrogatepass", "00 05 ED A0 BD C0 80"),
        ):
            self.assertEqual(cesu8.write_utf(text, errors), bytes.fromhex(row))
        self.assertEqual(cesu8.write_utf("\ud800" + 65534 * "a", "replace")[:3], b"\xff\xff?")
        with self.assertRaisesRegex(OverflowError, "65,535"):
            cesu8.write_utf("\ud800" + 65535 * "a", "replace")
        for text, errors, error in (
            ("\ud800", "surrogateescape", UnicodeEncodeError),
            ("\ud800", "cesu8.unknown", LookupError),
        ):
            with self.assertRaises(error):
                cesu8.write_utf(text, errors)

    def test_surrogates_come_back(self) -> None:
        for unit in (*range(0xD800, 0xE000, 0x55), 0xDBFF, 0xDC00, 0xDFFF):
            encoded = b"a" + bytes(model.unit_bytes(unit, "mutf-8")) + b"\xc0\x80"
            data = b"\0\x06" + encoded
            text, end = cesu8.read_utf(data, 0, "surrogateescape")
            self.assertEqual((len(text), end), (5, 8))
            self.assertEqual(cesu8.write_utf(text, "surrogateescape"), data)
            self.assertEqual(cesu8.read_utf(data, 0, "surrogatepass"), (f"a{chr(unit)}\0", 8))
            self.assertEqual(cesu8.write_utf(f"a{chr(unit)}\0", "surrogatepass"), data)

    def test_cut(self) -> None:
        for row in ("", "00", "00 01", "00 03 61 C0", "FF FF 61"):
            data = bytes.fromhex(row)
            for front in (b"", b"front"):
                with self.assertRaises(EOFError):
                    cesu8.read_utf(front + data, len(front))

    def test_damage(self) -> None:
        for row, damaged in (
            ("00 01 00", 2),
            ("00 03 ED A0 BD", 2),
            ("00 04 F0 9F 92 96", 2),
            ("00 04 41 C0 80 FF 80", 5),
            # The bytes after the string complete no character at its end.
            ("00 03 ED A0 BD ED B2 96", 2),
            ("00 01 C0 80", 2),
        ):
            data = b"front" + bytes.fromhex(row) + b"rest"
            with self.assertRaises(UnicodeDecodeError) as caught:
                cesu8.read_utf(data, 5)
            error = caught.exception
            self.assertEqual((error.start, error.end), (5 + damaged, 6 + damaged))
            self.assertEqual(error.object, data)

    def test_handlers(self) -> None:
        data = bytes.fromhex("00 03 ED A0 BD 41")
        self.assertEqual(cesu8.read_utf(data, 0, "replace"), (3 * tables.R, 5))
        self.assertEqual(cesu8.read_utf(data, 0, "ignore"), ("", 5))
        self.assertEqual(cesu8.read_utf(data, 0, "surrogateescape"), ("\udced\udca0\udcbd", 5))
        self.assertEqual(cesu8.read_utf(b"x" + data, 1, "backslashreplace")[1], 6)

    def test_long_strings(self) -> None:
        """Long strings, one after another. Each error handler has another result for them."""
        # Each has more bytes than the buffer on the stack (FEW in convert.h).
        damaged = 100 * bytes.fromhex("41 C0 80 FF C2 A2")
        utf8 = 150 * bytes.fromhex("41 F0 9F 92 96")
        pairs = 120 * bytes.fromhex(tables.PAIR + "C0 80")
        strings = [damaged, utf8, pairs, 513 * b"a", 600 * b"\xc0\x80", 65535 * b"b", damaged]
        data = b"".join(len(string).to_bytes(2, "big") + string for string in strings)
        for row in (data, bytearray(data)):
            for errors in ("replace", "ignore", "backslashreplace"):
                place = 0
                for string in strings:
                    text, end = cesu8.read_utf(row, place, errors)
                    self.assertEqual(text, model.decoded(string, "mutf-8", errors))
                    self.assertEqual(end, place + 2 + len(string))
                    place = end
                self.assertEqual(place, len(data))

    def test_handlers_stay_in_the_string(self) -> None:
        """A character cut off by the end of the string is damage, even if its last byte follows."""
        string = bytes.fromhex("00 04 41 FF E2 82")
        for front, kind in itertools.product((b"", b"front"), (bytes, bytearray)):
            row = kind(front + string + b"\xacrest")
            # For bytes, offsets count from the start of the data, and otherwise from the string.
            first = len(front) + 2 if kind is bytes else 0
            asked = []
            answers = [first + 2, -1, first + 4]

            def handler(error: UnicodeDecodeError) -> tuple[str, int]:
                asked.append((error.start - first, error.reason))
                return "!", answers[len(asked) - 1]

            codecs.register_error("cesu8.own", handler)
            found = cesu8.read_utf(row, len(front), "cesu8.own")
            self.assertEqual(found, ("A!!!", len(front) + 6))
            reasons = ["invalid start byte", "unexpected end of data", "invalid start byte"]
            self.assertEqual(asked, list(enumerate(reasons, 1)))
            # Every offset before the string, and one after it. A negative offset counts from the
            # end of the string, so its first byte is also at -4.
            for place in (*range(first), first + 5, -5, -20):
                asked.clear()
                answers = [place]
                # If it is called again, the handler itself raises another error.
                with self.assertRaisesRegex(IndexError, "position -?[0-9]+ from error handler"):
                    cesu8.read_utf(row, len(front), "cesu8.own")

    def test_places(self) -> None:
        self.assertEqual(cesu8.read_utf(bytes.fromhex("00 00 07")), ("", 2))
        for start in (-1, 4, 1 << 70):
            with self.assertRaises(ValueError):
                cesu8.read_utf(b"\0\0\0", start)
        with self.assertRaises(TypeError):
            cesu8.read_utf(b"\0\0", 0.0)  # type: ignore[arg-type]

    def test_many(self) -> None:
        texts = [chr(0x100 + count) * (count % 9) for count in range(20000)]
        data = bytearray().join(map(cesu8.write_utf, texts))
        place, found = 0, []
        while place < len(data):
            text, place = cesu8.read_utf(data, place)
            found.append(text)
        self.assertEqual(found, texts)

    def test_data_may_grow_after_a_cut_string(self) -> None:
        data = bytearray(b"\0\x02a")
        try:
            cesu8.read_utf(data)
        except EOFError:
            data += b"b"
        self.assertEqual(cesu8.read_utf(data), ("ab", 4))


class Arguments(unittest.TestCase):
    def test_kinds_of_data(self) -> None:
        with mmap.mmap(-1, 6) as mapped:
            mapped[:] = PAIR
            kinds = [PAIR, bytearray(PAIR), memoryview(PAIR), array.array("B", PAIR), mapped]
            kinds.append(memoryview(PAIR[::-1])[::-1])
            for data in kinds:
                self.assertEqual(cesu8.decode(data, "cesu-8"), "\U0001f496")
            # The last is not contiguous, and `str` takes only data that is.
            for data in kinds[:-1]:
                self.assertEqual(str(data, "cesu-8"), "\U0001f496")
                with self.assertRaises(EOFError):
                    cesu8.read_utf(data)

    def test_wrong_types(self) -> None:
        for data in (5, "text", None, [65]):
            with self.assertRaises(TypeError):
                cesu8.decode(data, "cesu-8")  # type: ignore[arg-type]
            with self.assertRaises(TypeError):
                cesu8.read_utf(data)  # type: ignore[arg-type]
            with self.assertRaises(TypeError):
                cesu8.decoded_len(data, "cesu-8")  # type: ignore[arg-type]
        for text in (5, b"bytes", None):
            with self.assertRaises(TypeError):
                cesu8.encode(text, "cesu-8")  # type: ignore[arg-type]
            with self.assertRaises(TypeError):
                cesu8.write_utf(text)  # type: ignore[arg-type]
            with self.assertRaises(TypeError):
                cesu8.utf16_len(text)  # type: ignore[arg-type]
            with self.assertRaises(TypeError):
                cesu8.compare_as_utf16("", text)  # type: ignore[arg-type]

    def test_encodings(self) -> None:
        for name in ("mutf-8", "MUTF-8", "mutf_8", "mutf 8", "MUTF8"):
            self.assertEqual(cesu8.encode("\0", name), b"\xc0\x80")
            self.assertEqual(cesu8.decode(b"\xc0\x80", name), "\0")
        for name in ("utf-8", "mutf", ""):
            with self.assertRaises(LookupError):
                cesu8.encode("", name)
            with self.assertRaises(LookupError):
                cesu8.decode(b"", name)
            with self.assertRaises(LookupError):
                cesu8.decoded_len(b"", name)

    def test_threads(self) -> None:
        text = tables.PATTERN[0] * 5000
        encoded = model.encoded(tables.PATTERN[0], "mutf-8") * 5000
        agreed = []

        def convert() -> None:
            for _ in range(20):
                agreed.append(cesu8.encode(text, "mutf-8") == encoded)
                agreed.append(cesu8.decode(encoded, "mutf-8") == text)

        threads = [threading.Thread(target=convert) for _ in range(4)]
        for thread in threads:
            thread.start()
        for thread in threads:
            thread.join()
        self.assertEqual(agreed, 160 * [True])
