"""Inputs with the results that the standards give, in hexadecimal."""

from __future__ import annotations

R = "\ufffd"

# A scalar value, its UTF-8, its CESU-8 and its MUTF-8: the first and last of each length, and
# some between.
BORDERS = [
    (0x0000, "00", "00", "C0 80"),
    (0x0001, "01", "01", "01"),
    (0x007F, "7F", "7F", "7F"),
    (0x0080, "C2 80", "C2 80", "C2 80"),
    (0x07FF, "DF BF", "DF BF", "DF BF"),
    (0x0800, "E0 A0 80", "E0 A0 80", "E0 A0 80"),
    (0x0FFF, "E0 BF BF", "E0 BF BF", "E0 BF BF"),
    (0x1000, "E1 80 80", "E1 80 80", "E1 80 80"),
    (0xCFFF, "EC BF BF", "EC BF BF", "EC BF BF"),
    (0xD000, "ED 80 80", "ED 80 80", "ED 80 80"),
    (0xD7FF, "ED 9F BF", "ED 9F BF", "ED 9F BF"),
    (0xE000, "EE 80 80", "EE 80 80", "EE 80 80"),
    (0xFFFD, "EF BF BD", "EF BF BD", "EF BF BD"),
    (0xFFFF, "EF BF BF", "EF BF BF", "EF BF BF"),
    (0x10000, "F0 90 80 80", "ED A0 80 ED B0 80", "ED A0 80 ED B0 80"),
    (0x103FF, "F0 90 8F BF", "ED A0 80 ED BF BF", "ED A0 80 ED BF BF"),
    (0x10400, "F0 90 90 80", "ED A0 81 ED B0 80", "ED A0 81 ED B0 80"),
    (0x1F496, "F0 9F 92 96", "ED A0 BD ED B2 96", "ED A0 BD ED B2 96"),
    (0xFFFFF, "F3 BF BF BF", "ED AE BF ED BF BF", "ED AE BF ED BF BF"),
    (0x100000, "F4 80 80 80", "ED AF 80 ED B0 80", "ED AF 80 ED B0 80"),
    (0x10FFFF, "F4 8F BF BF", "ED AF BF ED BF BF", "ED AF BF ED BF BF"),
]

# A text with two characters of each width in UTF-8: the text, its UTF-8, its CESU-8 and its MUTF-8.
PATTERN = (
    "a\u0205\u20ac\U00010400\0\u07ff\uffff\U0001f496",
    "61 C8 85 E2 82 AC F0 90 90 80 00 DF BF EF BF BF F0 9F 92 96",
    "61 C8 85 E2 82 AC ED A0 81 ED B0 80 00 DF BF EF BF BF ED A0 BD ED B2 96",
    "61 C8 85 E2 82 AC ED A0 81 ED B0 80 C0 80 DF BF EF BF BF ED A0 BD ED B2 96",
)

PAIR = "ED A0 BD ED B2 96"

# Damaged bytes, and their lossy reading as CESU-8 and as MUTF-8.
DAMAGE = [
    # A surrogate pair with one byte changed.
    ("EC A0 BD ED B2 96", "\uc83d" + 3 * R, "\uc83d" + 3 * R),
    ("ED 9F BD ED B2 96", "\ud7fd" + 3 * R, "\ud7fd" + 3 * R),
    ("ED B0 BD ED B2 96", 6 * R, 6 * R),
    ("ED A0 41 ED B2 96", 2 * R + "A" + 3 * R, 2 * R + "A" + 3 * R),
    ("ED A0 BD EC B2 96", 3 * R + "\ucc96", 3 * R + "\ucc96"),
    ("ED A0 BD ED AF 96", 6 * R, 6 * R),
    ("ED A0 BD ED 9F 96", 3 * R + "\ud7d6", 3 * R + "\ud7d6"),
    ("ED A0 BD ED B2 41", 5 * R + "A", 5 * R + "A"),
    ("ED A0 BD ED B2 C0", 6 * R, 6 * R),
    # Unpaired surrogates, one of them before a pair.
    ("ED A0 BD ED A0 BD ED B2 96", 3 * R + "\U0001f496", 3 * R + "\U0001f496"),
    ("ED B2 96 ED A0 BD", 6 * R, 6 * R),
    # UTF-8 with four bytes.
    ("F0 9F 92 96", 4 * R, 4 * R),
    ("F0 9F 92 96 ED A0 BD ED B2 96", 4 * R + "\U0001f496", 4 * R + "\U0001f496"),
    ("FF F0 9F 92 96", 5 * R, 5 * R),
    # Single bytes, overlong forms, and characters that are cut off.
    ("80", R, R),
    ("C0 41", R + "A", R + "A"),
    ("C1 BF", 2 * R, 2 * R),
    ("C2", R, R),
    ("C2 C2 80", R + "\x80", R + "\x80"),
    ("C2 C0 80", 3 * R, R + "\0"),
    ("E0 80 80", 3 * R, 3 * R),
    ("E0 9F BF", 3 * R, 3 * R),
    ("E2 82", 2 * R, 2 * R),
    ("E2 82 41", 2 * R + "A", 2 * R + "A"),
    ("E2 82 E2 82 AC", 2 * R + "\u20ac", 2 * R + "\u20ac"),
    ("F8", R, R),
    ("FF 41 FF", R + "A" + R, R + "A" + R),
    # U+0000: the bytes are valid in one of the encodings.
    ("C0 80", 2 * R, "\0"),
    ("C0 C0 80", 3 * R, R + "\0"),
    ("00 00 00", "\0\0\0", 3 * R),
    ("41 00 42", "A\0B", "A" + R + "B"),
]

# Bytes, and what the lenient calls return for them. For CESU-8 and then for MUTF-8 there are two
# results: that of the call that reports damage, which is None for damaged bytes, and the lossy one.
LENIENT = [
    (PAIR, "\U0001f496", "\U0001f496", "\U0001f496", "\U0001f496"),
    ("F0 9F 92 96", "\U0001f496", "\U0001f496", "\U0001f496", "\U0001f496"),
    ("F0 9F 92 96 ED A0 BD ED B2 96", None, 4 * R + "\U0001f496", None, 4 * R + "\U0001f496"),
    ("F0 9F 92 96 FF", None, 5 * R, None, 5 * R),
    ("FF F0 9F 92 96", None, 5 * R, None, 5 * R),
    ("41 00 42", "A\0B", "A\0B", "A\0B", "A\0B"),
    ("00", "\0", "\0", "\0", "\0"),
    ("C0 80", None, 2 * R, "\0", "\0"),
    ("00 C0 80", None, "\0" + 2 * R, None, R + "\0"),
    ("C0 C0 80", None, 3 * R, None, R + "\0"),
]

# Two strings, and how the first compares with the second by UTF-16 code units.
ORDER = [
    ("\uffff", "\U00010000", 1),
    ("\ue000", "\U0010ffff", 1),
    ("\0", "A", -1),
    ("", "\0", -1),
    ("A", "A", 0),
]

# Strings, and what writeUTF writes for them.
JAVA = [
    ("", "00 00"),
    ("a\0", "00 03 61 C0 80"),
    ("\U0001f496", "00 06 ED A0 BD ED B2 96"),
]
