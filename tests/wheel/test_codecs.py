"""The codecs through Python's own calls, with every error handler."""

from __future__ import annotations

import codecs
import unittest

import cesu8
import model
import tables

HANDLERS = ("strict", "ignore", "replace", "backslashreplace", "surrogateescape", "surrogatepass")
ENCODE_HANDLERS = (*HANDLERS, "xmlcharrefreplace", "namereplace")


# Bytes that `surrogatepass` accepts, with pairs as one character, and bytes that it rejects.
SURROGATES = (
    "ED A0 80",
    "ED BF BF",
    "41 ED B2 96 ED A0 BD 42",
    "ED A0 BD ED A0 BD ED B2 96 ED B2 96",
    "ED A0 BD 41",
    "ED B2 96 ED",
    "ED B2 96 ED A0",
    "ED A0 BD ED B2",
    "ED A0 BD FF",
    "ED A0 41",
    "ED A0 C0",
    "ED C0 80",
    "ED B2",
    "EC A0 ED A0 BD",
)


class Place:
    """An integer that is not an `int`, like those of NumPy."""

    def __init__(self, place: int) -> None:
        self.place = place

    def __index__(self) -> int:
        return self.place


class Names(unittest.TestCase):
    def test_lookup(self) -> None:
        for name in ("cesu-8", "CESU-8", "cesu_8", "cesu 8", "cesu8", "CESU8"):
            self.assertEqual(codecs.lookup(name).name, "cesu-8")
        for name in ("mutf-8", "MUTF-8", "mutf_8", "mutf 8", "mutf8", "MUTF8"):
            self.assertEqual(codecs.lookup(name).name, "mutf-8")
        with self.assertRaises(LookupError):
            codecs.lookup("mutf-88")

    def test_calls(self) -> None:
        for encoding in model.ENCODINGS:
            info = codecs.lookup(encoding)
            encoded = model.encoded(tables.PATTERN[0], encoding)
            self.assertEqual(info.encode(tables.PATTERN[0]), (encoded, 8))
            self.assertEqual(info.decode(encoded), (tables.PATTERN[0], len(encoded)))
            self.assertEqual(tables.PATTERN[0].encode(encoding), encoded)
            for data in (encoded, bytearray(encoded)):
                self.assertEqual(data.decode(encoding), tables.PATTERN[0])


class Decoding(unittest.TestCase):
    def test_handlers(self) -> None:
        rows = [bytes.fromhex(row) for row, *_ in tables.DAMAGE]
        rows += [b"start" + row + b"end" for row in rows] + [row + row for row in rows]
        # Damage near offset 4,096: the library decodes longer input in chunks.
        rows += [b"a" * count + row for count in (4090, 4095, 4096, 4097) for row in rows[:12]]
        # A zero byte, which is damage in MUTF-8 alone, among other damage.
        rows += [b"\xff\0\xff\xed\0a", 600 * b"\xff" + b"\0" + 600 * b"\xff"]
        # Unpaired surrogates, next to pairs and cut off.
        rows += [bytes.fromhex(row) for row in SURROGATES]
        for encoding in model.ENCODINGS:
            for errors in HANDLERS:
                for data in rows:
                    self.compare(data, encoding, errors)

    def test_all_of_two_bytes(self) -> None:
        codecs.register_error("cesu8.one_mark", lambda error: ("\ufffd", error.end))
        for encoding in model.ENCODINGS:
            for number in range(0x10000):
                data = number.to_bytes(2, "big")
                # This handler is called for each damaged byte. The library handles 'replace'.
                found = data.decode(encoding, "cesu8.one_mark")
                if found != model.lossy(data, encoding):
                    self.fail(f"{encoding} of {data.hex()} is {found!r}")

    def test_escaped_bytes_come_back(self) -> None:
        for encoding in model.ENCODINGS:
            for first in range(0x80, 0x100):
                for second in range(1, 0x100):
                    data = bytes([first, second])
                    escaped = data.decode(encoding, "surrogateescape")
                    self.assertEqual(escaped.encode(encoding, "surrogateescape"), data)

    def compare(self, data: bytes, encoding: str, errors: str) -> None:
        wanted = model.decoded(data, encoding, errors)
        with self.subTest(data=data[-20:].hex(), encoding=encoding, errors=errors):
            if isinstance(wanted, str):
                self.assertEqual(data.decode(encoding, errors), wanted)
                return
            with self.assertRaises(UnicodeDecodeError) as caught:
                data.decode(encoding, errors)
            error = caught.exception
            self.assertEqual((error.start, error.end), (wanted, wanted + 1))
            self.assertEqual((error.encoding, error.object), (encoding, data))

    def test_handlers_of_encoders(self) -> None:
        for errors in ("xmlcharrefreplace", "namereplace"):
            self.assertEqual(b"A".decode("cesu-8", errors), "A")
            with self.assertRaises(TypeError):
                b"\xff".decode("cesu-8", errors)

    def test_unknown_handler(self) -> None:
        with self.assertRaises(LookupError):
            b"\xff".decode("cesu-8", "cesu8.unknown")
        with self.assertRaises(LookupError):
            "\ud800".encode("cesu-8", "cesu8.unknown")

    def test_all_surrogates(self) -> None:
        for encoded, unit in model.SURROGATES.items():
            for encoding in model.ENCODINGS:
                self.assertEqual(encoded.decode(encoding, "surrogatepass"), unit)
                self.assertEqual(unit.encode(encoding, "surrogatepass"), encoded)
                self.assertEqual(encoded.decode("utf-8", "surrogatepass"), unit)

    def test_reasons(self) -> None:
        for row, encoding, reason in (
            ("80", "cesu-8", "invalid start byte"),
            ("00", "mutf-8", "invalid start byte"),
            ("C0 80", "cesu-8", "invalid start byte"),
            ("C1 80", "mutf-8", "invalid start byte"),
            ("F0 9F 92 96", "cesu-8", "invalid start byte"),
            ("C0 41", "mutf-8", "invalid continuation byte"),
            ("E0 80 80", "cesu-8", "invalid continuation byte"),
            ("ED A0 BD 41", "cesu-8", "invalid continuation byte"),
            ("ED B2 96", "cesu-8", "invalid continuation byte"),
            ("C0", "mutf-8", "unexpected end of data"),
            ("E2 82", "cesu-8", "unexpected end of data"),
            ("ED A0 BD ED B2", "cesu-8", "unexpected end of data"),
        ):
            with self.assertRaises(UnicodeDecodeError) as caught:
                bytes.fromhex(row).decode(encoding)
            self.assertEqual((caught.exception.reason, caught.exception.start), (reason, 0))

    def test_own_handlers(self) -> None:
        data = bytes.fromhex("41 FF 42 43 FF 44")
        for answer, wanted in (
            (lambda error: ("!", error.end), "A!BC!D"),
            (lambda error: ("!", error.end + 1), "A!C!"),
            (lambda error: ("!", -1 if error.start > 1 else error.end), "A!BC!D"),
            (lambda error: ("!", len(error.object)), "A!"),
            (lambda error: ("\ud800\U0001f496", error.end), "A\ud800\U0001f496BC\ud800\U0001f496D"),
            (lambda error: ("!", Place(error.end)), "A!BC!D"),
            (lambda error: ("!", 1 << 70), IndexError),
            (lambda error: ("!", 7), IndexError),
            (lambda error: ("!", -7), IndexError),
            (lambda error: ("!", Place(7)), IndexError),
            (lambda error: (b"!", error.end), TypeError),
            (lambda error: ["!", error.end], TypeError),
            (lambda error: ("!", None), TypeError),
            (lambda error: ("!", float(error.end)), TypeError),
            (lambda error: None, TypeError),
            (lambda error: 1 // 0, ZeroDivisionError),
        ):
            codecs.register_error("cesu8.own", answer)
            if isinstance(wanted, str):
                self.assertEqual(data.decode("mutf-8", "cesu8.own"), wanted)
            else:
                with self.assertRaises((wanted, RuntimeError)) as caught:
                    data.decode("mutf-8", "cesu8.own")
                self.assertIsInstance(caught.exception, wanted)

    def test_what_is_said_of_wrong_answers(self) -> None:
        """The messages are those of Python's own codecs, without the text around them."""
        for answer, said in (
            (("!", 7), "position 7 from error handler out of bounds"),
            (("!", -7), "position -1 from error handler out of bounds"),
            ((b"!", 2), "decoding error handler must return (str, int) tuple"),
            (["!", 2], "decoding error handler must return (str, int) tuple"),
        ):
            codecs.register_error("cesu8.own", lambda error: answer)
            with self.assertRaises((IndexError, TypeError)) as caught:
                cesu8.decode(b"A\xffBC\xffD", "mutf-8", "cesu8.own")
            self.assertEqual(str(caught.exception), said)
        for answer, said in (
            (("!", 6), "position 6 from error handler out of bounds"),
            ((5, 2), "encoding error handler must return (str/bytes, int) tuple"),
            ("!", "encoding error handler must return (str/bytes, int) tuple"),
        ):
            codecs.register_error("cesu8.own", lambda error: answer)
            with self.assertRaises((IndexError, TypeError)) as caught:
                cesu8.encode("a\ud800b\ud801c", "mutf-8", "cesu8.own")
            self.assertEqual(str(caught.exception), said)

    def test_handlers_registered_anew(self) -> None:
        """Decoding does not call a handler that has the name of one of Python's own."""
        data = b"A\xff\xed\xa0\x80B"
        for errors in HANDLERS:
            wanted = model.decoded(data, "mutf-8", errors)
            self.addCleanup(codecs.register_error, errors, codecs.lookup_error(errors))
            codecs.register_error(errors, lambda error: ("anew", error.end))
            if isinstance(wanted, str):
                self.assertEqual(data.decode("mutf-8", errors), wanted)
            else:
                with self.assertRaises(UnicodeDecodeError):
                    data.decode("mutf-8", errors)

    def test_handler_with_other_input(self) -> None:
        def mend(error: UnicodeError) -> tuple[str, int]:
            error.object = b"mended"
            return "!", 0

        codecs.register_error("cesu8.mend", mend)
        for encoding in (*model.ENCODINGS, "utf-8"):
            self.assertEqual(b"A\xffB".decode(encoding, "cesu8.mend"), "A!mended")
        for encoding in model.ENCODINGS:
            found = codecs.lookup(encoding).decode(b"A\xffB", "cesu8.mend")
            self.assertEqual(found, ("A!mended", 3))

    def test_handler_with_other_damaged_input(self) -> None:
        """If a handler replaces the input, damage is searched for again, even after a run of it."""

        def mend(error: UnicodeError) -> tuple[str, int]:
            if len(error.object) == 9:
                error.object = b"ab\xffcd"
                return "!", 1
            return "?", error.end

        codecs.register_error("cesu8.mend", mend)
        for encoding in (*model.ENCODINGS, "utf-8"):
            data = b"\xff\xfe\xff\xfe\xff\xfe\xff\xfeA"
            self.assertEqual(data.decode(encoding, "cesu8.mend"), "!b?cd")

        def take(error: UnicodeError) -> tuple[str, int]:
            error.object = "a text"  # type: ignore[assignment]
            return "", 0

        codecs.register_error("cesu8.take", take)
        for encoding in (*model.ENCODINGS, "utf-8"):
            with self.assertRaises(TypeError):
                b"A\xffB".decode(encoding, "cesu8.take")

    def test_lenient(self) -> None:
        data = bytes.fromhex("F0 9F 92 96 FF")
        # This is not UTF-8 as a whole, so each byte is damage. The other two handlers reject it.
        for errors in HANDLERS[1:5]:
            wanted = model.decoded(data, "mutf-8", errors)
            self.assertEqual(cesu8.decode(data, "mutf-8", errors, lenient=True), wanted)

    def test_much_damage_is_linear(self) -> None:
        data = bytes.fromhex("41 FF ED A0 BD 42") * 20000
        self.assertEqual(data.decode("cesu-8", "ignore"), "AB" * 20000)
        codecs.register_error("cesu8.one_mark", lambda error: ("\ufffd", error.end))
        for byte in (b"\xff", b"\xc3", b"\xed"):
            data = 200000 * byte
            self.assertEqual(data.decode("cesu-8", "backslashreplace"), 200000 * f"\\x{byte.hex()}")
            self.assertEqual(data.decode("cesu-8", "cesu8.one_mark"), 200000 * "\ufffd")


class Encoding(unittest.TestCase):
    """Surrogates are rejected and handled as by Python's UTF-8, which encodes the rest of these
    strings in the same way."""

    TEXTS = (
        "\ud800",
        "a\udfffb",
        "\ud83d\udc96",
        "a\ud800\ud800b\udc80c",
        "\udc80\udcff\ud800\udc80z",
        "\udc7f\udc80",
        "\u20ac\udcff\udcfe\uffff",
    )

    def test_handlers(self) -> None:
        for text in self.TEXTS:
            for encoding in model.ENCODINGS:
                for errors in ENCODE_HANDLERS:
                    with self.subTest(text=ascii(text), encoding=encoding, errors=errors):
                        self.compare(text, encoding, errors)

    def compare(self, text: str, encoding: str, errors: str) -> None:
        try:
            wanted = text.encode("utf-8", errors)
        except UnicodeEncodeError as peer:
            with self.assertRaises(UnicodeEncodeError) as caught:
                text.encode(encoding, errors)
            error = caught.exception
            self.assertEqual(
                (error.encoding, error.object, error.start, error.end, error.reason),
                (encoding, text, peer.start, peer.end, peer.reason),
            )
        else:
            self.assertEqual(text.encode(encoding, errors), wanted)

    def test_what_stands_around(self) -> None:
        for encoding in model.ENCODINGS:
            around = model.encoded("\0\U0001f496", encoding)
            found = "\0\U0001f496\ud800\0\U0001f496".encode(encoding, "replace")
            self.assertEqual(found, around + b"?" + around)

    def test_own_handlers(self) -> None:
        for answer, wanted in (
            (lambda error: ("!", error.end), b"a!b!c"),
            (lambda error: (b"\xff", error.end), b"a\xffb\xffc"),
            (lambda error: ("\0\U0001f496", error.end), "a\0\U0001f496b\0\U0001f496c"),
            (lambda error: ("!", error.end + 1), b"a!!"),
            (lambda error: ("!", -1), b"a!c"),
            (lambda error: ("!", Place(error.end)), b"a!b!c"),
            (lambda error: ("!", 6), IndexError),
            (lambda error: ("\ud800", error.end), UnicodeEncodeError),
            (lambda error: (5, error.end), TypeError),
            (lambda error: "!", TypeError),
        ):
            codecs.register_error("cesu8.own", answer)
            if isinstance(wanted, str):
                wanted = model.encoded(wanted, "mutf-8")
            if isinstance(wanted, bytes):
                self.assertEqual("a\ud800b\ud801c".encode("mutf-8", "cesu8.own"), wanted)
            else:
                with self.assertRaises(wanted):
                    "a\ud800b\ud801c".encode("mutf-8", "cesu8.own")
