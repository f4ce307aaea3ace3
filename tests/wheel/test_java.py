"""Java's own results, which tests/wheel/Strings.java writes to the folder JAVA_STRINGS."""

from __future__ import annotations

import array
import os
import unittest
from pathlib import Path

import cesu8

# The numbers 0x1000 and 0x1800 below are COUNT and STEP of Strings.java.
FOLDER = os.environ.get("JAVA_STRINGS")


@unittest.skipUnless(FOLDER, "Java was not run")
class Java(unittest.TestCase):
    def test_strings(self) -> None:
        data = Path(FOLDER or "", "strings").read_bytes()
        lengths = array.array("I", Path(FOLDER or "", "lengths").read_bytes())
        lengths.byteswap()
        place = 0
        for first in range(0, 0x110000, 0x1000):
            values = range(first, first + 0x1000)
            text = "".join(chr(value) for value in values if not 0xD800 <= value < 0xE000)
            start = place
            found, place = cesu8.read_utf(data, start)
            self.assertEqual(found, text)
            self.assertEqual(cesu8.write_utf(text), data[start:place])
            self.assertEqual(data[start + 2 : place].decode("mutf-8"), text)
            self.assertEqual(text.encode("mutf-8"), data[start + 2 : place])
            self.assertEqual(cesu8.utf16_len(text), lengths[first // 0x1000])
        self.assertEqual(place, len(data))

    def test_order(self) -> None:
        order = iter(Path(FOLDER or "", "order").read_bytes())
        texts = [chr(value) for value in range(0, 0x110000, 0x1800)]
        for text in texts:
            for other in texts:
                # Java's strings may have unpaired surrogates, which cesu8 rejects.
                compared = next(order) - 1
                if not ("\ud800" <= text <= "\udfff" or "\ud800" <= other <= "\udfff"):
                    self.assertEqual(cesu8.compare_as_utf16(text, other), compared)
        self.assertEqual(list(order), [])

    def test_charset(self) -> None:
        data = Path(FOLDER or "", "cesu8").read_bytes()
        values = (*range(0xD800), *range(0xE000, 0x110000))
        text = "".join(map(chr, values))
        self.assertEqual(data.decode("cesu-8"), text)
        self.assertEqual(text.encode("cesu-8"), data)
