"""Random cases, compared with the plain model, with Python's handlers and one of a user's own.
The environment variable CASES is their number, and SEED the seed: without SEED they are the same
each time."""

from __future__ import annotations

import codecs
import os
import random
import unittest

import cesu8
import model
from test_codecs import ENCODE_HANDLERS, HANDLERS

CASES = int(os.environ.get("CASES", "1000"))
SEED = os.environ.get("SEED", "1")

# Whole characters, in each encoding and in UTF-8, and fragments of characters.
WHOLE = ["a", "\0", "\x7f", "\xe4", "\u07ff", "\u20ac", "\ud55c", "\uffff"]
WHOLE += ["\U0001f496", "\U0010ffff"]
PIECES = [character.encode() for character in WHOLE]
PIECES += [model.encoded(character, "mutf-8") for character in WHOLE]
PIECES += [b"\xed\xa0\xbd", b"\xed\xb2\x96", b"\xed\xa0", b"\xed\xb2", b"\xed", b"\xc0", b"\xff"]
PIECES += [b"\xe2\x82", b"\xf0\x9f\x92", b"\xc1\xbf", b"\xe0\x9f\xbf", b"\x80", b"a" * 40]
UNITS = ["\ud800", "\ud83d", "\udbff", "\udc00", "\udc80", "\udcff", "\udfff"]


def jump(error: UnicodeError) -> tuple[str, int]:
    """A handler that skips one to three bytes or code units, depending on the first of them."""
    start, whole = error.start, error.object
    step = 1 + (whole[start] if isinstance(whole, bytes) else ord(whole[start])) % 3
    return f"<{start}>", min(start + step, len(whole))


def jumped(data: bytes, encoding: str) -> str:
    """The text with the handler `jump`."""
    text, place = "", 0
    while place < len(data):
        character = model.character_at(data, place, encoding)
        if character is None:
            character = f"<{place}>"
            place = min(place + 1 + data[place] % 3, len(data))
        else:
            place += len(model.encoded(character, encoding))
        text += character
    return text


class Random(unittest.TestCase):
    def setUp(self) -> None:
        codecs.register_error("cesu8.jump", jump)
        self.random = random.Random(SEED)

    def data(self) -> bytes:
        choice = self.random.random()
        if choice < 0.2:
            return self.random.randbytes(self.random.randrange(8))
        pieces = self.random.choices(PIECES, k=self.random.randrange(12))
        if choice < 0.3:
            pieces = self.random.choices(pieces + [b"a"], k=3) * self.random.randrange(1, 90)
        return b"".join(pieces)

    def test_decoding(self) -> None:
        for _ in range(CASES):
            data = self.data()
            encoding = self.random.choice(model.ENCODINGS)
            errors = self.random.choice((*HANDLERS, "cesu8.jump"))
            if errors == "cesu8.jump":
                wanted: str | int = jumped(data, encoding)
            else:
                wanted = model.decoded(data, encoding, errors)
            call = self.random.choice((self.by_codec, self.by_call, self.by_string, self.in_two))
            try:
                found: str | int = call(data, encoding, errors)
            except UnicodeDecodeError as error:
                found = error.start
            if found != wanted:
                self.fail(f"{encoding} {errors} {call.__name__} of {data.hex()} is {found!a}")

    def by_codec(self, data: bytes, encoding: str, errors: str) -> str:
        return self.random.choice((data, bytearray(data))).decode(encoding, errors)

    def by_call(self, data: bytes, encoding: str, errors: str) -> str:
        return cesu8.decode(self.random.choice((data, memoryview(data))), encoding, errors)

    def by_string(self, data: bytes, encoding: str, errors: str) -> str:
        """Read as a Java string between other bytes. For a bytearray, the offset of an error counts
        from the start of the string."""
        if encoding == "cesu-8" or errors == "cesu8.jump":
            return self.by_call(data, encoding, errors)
        front = self.random.randbytes(self.random.randrange(4))
        row = front + len(data).to_bytes(2, "big") + data + self.random.choice((b"", b"\x96\x80"))
        text, end = cesu8.read_utf(bytearray(row), len(front), errors)
        again = cesu8.read_utf(row, len(front), errors)
        self.assertEqual((text, end), again)
        self.assertEqual(end, len(front) + 2 + len(data))
        return text

    def in_two(self, data: bytes, encoding: str, errors: str) -> str:
        """Decoded in two pieces, but only if no error is raised: the error's offset would differ."""
        if errors == "cesu8.jump" or isinstance(model.decoded(data, encoding, errors), int):
            return self.by_call(data, encoding, errors)
        decoder = codecs.getincrementaldecoder(encoding)(errors)
        cut = self.random.randrange(len(data) + 1)
        return decoder.decode(data[:cut]) + decoder.decode(data[cut:], final=True)

    def test_encoding(self) -> None:
        for _ in range(CASES):
            units = [*WHOLE, *UNITS] if self.random.random() < 0.8 else WHOLE
            text = "".join(self.random.choices(units, k=self.random.randrange(9)))
            text *= self.random.choice((1, 1, 1, 70))
            encoding = self.random.choice(model.ENCODINGS)
            errors = self.random.choice(ENCODE_HANDLERS)
            wanted: object
            try:
                # Python's codec for UTF-8 rejects the same code units, so its error is expected.
                text.encode("utf-8", errors)
                wanted = model.encoded_by(text, encoding, errors)
            except UnicodeEncodeError as error:
                wanted = (error.start, error.end, error.reason)
            for call in (str.encode, cesu8.encode):
                try:
                    found: object = call(text, encoding, errors)
                except UnicodeEncodeError as error:
                    found = (error.start, error.end, error.reason)
                self.assertEqual(found, wanted, f"{encoding} {errors} of {text!a}")
            if isinstance(wanted, bytes) and encoding == "mutf-8":
                written = len(wanted).to_bytes(2, "big") + wanted
                self.assertEqual(cesu8.write_utf(text, errors), written)
