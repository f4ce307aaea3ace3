"""Decoding and encoding in pieces: the incremental classes, files, and the stream classes."""

from __future__ import annotations

import codecs
import io
import itertools
import os
import pickle
import tempfile
import unittest
from collections.abc import Iterator

import cesu8  # noqa: F401
import model
import tables
from test_codecs import HANDLERS

ROWS = [bytes.fromhex(row) for row, *_ in tables.DAMAGE]
ROWS += [bytes.fromhex(code) for code in tables.PATTERN[1:]]


def splits(data: bytes) -> Iterator[list[bytes]]:
    """Every way to cut the bytes into pieces. More than ten bytes are cut only into one, two or three
    pieces, and into single bytes."""
    inner = range(1, len(data))
    counts = range(len(data)) if len(data) <= 10 else (0, 1, 2, len(data) - 1)
    for count in counts:
        for cuts in itertools.combinations(inner, count):
            borders = (0, *cuts, len(data))
            yield [data[first:last] for first, last in zip(borders, borders[1:])]


def outcome(convert: object, *arguments: object) -> object:
    """What a call returns, or the byte and the reason of its error."""
    try:
        return convert(*arguments)  # type: ignore[operator]
    except UnicodeDecodeError as error:
        return error.object[error.start], error.reason


class Incremental(unittest.TestCase):
    def test_every_split(self) -> None:
        for encoding in model.ENCODINGS:
            for errors in HANDLERS:
                for data in ROWS:
                    whole = outcome(data.decode, encoding, errors)
                    for pieces in splits(data):
                        found = outcome(self.in_pieces, pieces, encoding, errors)
                        if found != whole:
                            pieces_in_hex = [piece.hex() for piece in pieces]
                            self.fail(f"{encoding} {errors} of {pieces_in_hex} is {whole!r}")

    @staticmethod
    def in_pieces(pieces: list[bytes], encoding: str, errors: str) -> str:
        decoder = codecs.getincrementaldecoder(encoding)(errors)
        text = ""
        for piece in pieces:
            text += decoder.decode(piece)
            kept, _ = decoder.getstate()
            assert len(kept) <= 5
        return text + decoder.decode(b"", True)

    def test_what_is_kept(self) -> None:
        """Only an incomplete character is kept, and all else is returned at once."""
        for encoding in model.ENCODINGS:
            fronts = model.fronts(encoding)
            inputs = {number.to_bytes(2, "big") for number in range(0x10000)}
            for front in sorted(fronts)[::7]:
                inputs |= {front, b"a" + front, b"\xed\xa0\xbd" + front, b"\xed\xa0\xbd\xed" + front}
            for data in inputs:
                ends = (data[start:] for start in range(len(data)))
                kept = next((end for end in ends if end in fronts), b"")
                self.compare_kept(data, kept, encoding)

    def compare_kept(self, data: bytes, kept: bytes, encoding: str) -> None:
        decoder = codecs.getincrementaldecoder(encoding)("replace")
        text = decoder.decode(data)
        if decoder.getstate() != (kept, 0):
            self.fail(f"{encoding} of {data.hex()} keeps {decoder.getstate()}")
        self.assertEqual(text, model.lossy(data[: len(data) - len(kept)], encoding))

    def test_state(self) -> None:
        decoder = codecs.getincrementaldecoder("mutf-8")()
        self.assertEqual(decoder.decode(b"a\xed\xa0\xbd"), "a")
        state = decoder.getstate()
        self.assertEqual(decoder.decode(b"\xed\xb2\x96b\xc0"), "\U0001f496b")
        decoder.setstate(state)
        self.assertEqual(decoder.decode(b"\xed\xb2\x97"), "\U0001f497")
        decoder.decode(b"\xc0")
        decoder.reset()
        self.assertEqual(decoder.decode(b"a", True), "a")

    def test_pickles(self) -> None:
        for encoding in (*model.ENCODINGS, "utf-8"):
            decoder = codecs.getincrementaldecoder(encoding)("replace")
            self.assertEqual(decoder.decode(b"a\xe2\x82"), "a")
            copy = pickle.loads(pickle.dumps(decoder))
            self.assertEqual(copy.decode(b"\xac\xff"), "\u20ac" + tables.R)
            self.assertEqual(decoder.decode(b"", final=True)[-1], tables.R)
            encoder = pickle.loads(pickle.dumps(codecs.getincrementalencoder(encoding)("ignore")))
            self.assertEqual(encoder.encode("a\ud800"), b"a")

    def test_surrogates_in_pieces(self) -> None:
        """With `surrogatepass` an incomplete surrogate is kept, since it may become a character."""
        data = bytes.fromhex("ED B2 96 ED A0 BD ED B2 96 ED A0 BD 41 ED A0 BD")
        for encoding in model.ENCODINGS:
            wanted = "\udc96\U0001f496\ud83dA\ud83d"
            self.assertEqual(data.decode(encoding, "surrogatepass"), wanted)
            for pieces in splits(data):
                self.assertEqual(self.in_pieces(pieces, encoding, "surrogatepass"), wanted)

    def test_iterators(self) -> None:
        text, _, _, row = tables.PATTERN
        encoded = bytes.fromhex(row)
        single = [encoded[place : place + 1] for place in range(len(encoded))]
        self.assertEqual("".join(codecs.iterdecode(single, "mutf-8")), text)
        self.assertEqual(b"".join(codecs.iterencode(text, "mutf-8")), encoded)
        encoder = codecs.getincrementalencoder("mutf-8")("backslashreplace")
        self.assertEqual(encoder.encode("\0\ud83d"), b"\xc0\x80\\ud83d")
        self.assertEqual(encoder.encode("\udc96", final=True), b"\\udc96")


class Files(unittest.TestCase):
    def setUp(self) -> None:
        folder = tempfile.TemporaryDirectory()
        self.addCleanup(folder.cleanup)
        self.path = os.path.join(folder.name, "file")

    def content(self) -> bytes:
        with open(self.path, "rb") as file:
            return file.read()

    def write(self, content: bytes) -> None:
        with open(self.path, "wb") as file:
            file.write(content)

    def test_text_files(self) -> None:
        text = (tables.PATTERN[0] + "\n") * 1000
        for encoding in model.ENCODINGS:
            with open(self.path, "w", encoding=encoding) as file:
                for start in range(0, len(text), 7):
                    file.write(text[start : start + 7])
            self.assertEqual(self.content(), model.encoded(text, encoding))
            with open(self.path, encoding=encoding) as file:
                self.assertEqual(file.read(), text)
            with open(self.path, encoding=encoding) as file:
                self.assertEqual(list(file), 1000 * [tables.PATTERN[0] + "\n"])
            with open(self.path, "a", encoding=encoding) as file:
                file.write("\0end")
            self.assertEqual(self.content(), model.encoded(text + "\0end", encoding))

    def test_newlines(self) -> None:
        self.write(b"a\xc0\x80\r\nb\rc\xed\xa0\xbd\xed\xb2\x96\n")
        for newline, lines in (
            (None, ["a\0\n", "b\n", "c\U0001f496\n"]),
            ("", ["a\0\r\n", "b\r", "c\U0001f496\n"]),
            ("\n", ["a\0\r\n", "b\rc\U0001f496\n"]),
        ):
            with open(self.path, encoding="mutf-8", newline=newline) as file:
                self.assertEqual(file.readlines(), lines)
        with open(self.path, "w", encoding="mutf-8", newline="\r\n") as file:
            file.write("\0\n")
        self.assertEqual(self.content(), b"\xc0\x80\r\n")

    def test_seek_and_tell(self) -> None:
        text = tables.PATTERN[0] * 3000
        self.write(model.encoded(text, "mutf-8"))
        with open(self.path, encoding="mutf-8") as file:
            places = []
            for count in range(0, len(text), 1009):
                places.append((count, file.tell()))
                file.read(1009)
            for count, place in reversed(places):
                file.seek(place)
                self.assertEqual(file.read(50), text[count : count + 50])

    def test_damaged_files(self) -> None:
        data = b"".join(ROWS) * 300
        self.write(data)
        for encoding in model.ENCODINGS:
            with open(self.path, encoding=encoding, errors="replace", newline="") as file:
                self.assertEqual(file.read(), model.lossy(data, encoding))
            with open(self.path, encoding=encoding, newline="") as file:
                with self.assertRaises(UnicodeDecodeError):
                    file.read()

    def test_wrapped_streams(self) -> None:
        raw = io.BytesIO()
        wrapper = io.TextIOWrapper(raw, encoding="cesu-8", errors="surrogateescape")
        wrapper.write("\udcff\U0001f496")
        wrapper.flush()
        self.assertEqual(raw.getvalue(), b"\xff\xed\xa0\xbd\xed\xb2\x96")
        wrapper.seek(0)
        self.assertEqual(wrapper.read(), "\udcff\U0001f496")


class Streams(unittest.TestCase):
    def test_reader(self) -> None:
        text = (tables.PATTERN[0] + "\n") * 100
        for encoding in model.ENCODINGS:
            encoded = model.encoded(text, encoding)
            self.assertEqual(codecs.getreader(encoding)(io.BytesIO(encoded)).read(), text)
            reader = codecs.getreader(encoding)(io.BytesIO(encoded))
            self.assertEqual("".join(iter(lambda: reader.read(1), "")), text)
            # A stream reader splits lines as str.splitlines does.
            reader = codecs.getreader(encoding)(io.BytesIO(encoded))
            self.assertEqual(list(reader), text.splitlines(keepends=True))

    def test_reader_at_the_end(self) -> None:
        for encoding, count in itertools.product(model.ENCODINGS, range(1, 6)):
            cut = b"line\n" + bytes.fromhex(tables.PAIR)[:count]
            reader = codecs.getreader(encoding)
            with self.assertRaises(UnicodeDecodeError):
                reader(io.BytesIO(cut)).read()
            self.assertEqual(reader(io.BytesIO(cut), "replace").read(), "line\n" + count * tables.R)
            with self.assertRaises(UnicodeDecodeError):
                list(reader(io.BytesIO(cut)))

    def test_writer(self) -> None:
        raw = io.BytesIO()
        writer = codecs.getwriter("mutf-8")(raw, "xmlcharrefreplace")
        writer.write("a\0")
        writer.writelines(["\ud800", "\U0001f496"])
        self.assertEqual(raw.getvalue(), b"a\xc0\x80&#55296;\xed\xa0\xbd\xed\xb2\x96")

    def test_recoder(self) -> None:
        raw = io.BytesIO(b"a\xc0\x80")
        recoder = codecs.EncodedFile(raw, "utf-8", "mutf-8")
        self.assertEqual(recoder.read(), b"a\0")
