#!/usr/bin/env python3
"""Prints the table of families of docs/PERF.md from two files that `bench/run.sh --tables` wrote:

    git show COMMIT:bench/TABLES.md >/tmp/old.md
    bench/families.py /tmp/old.md bench/TABLES.md

A cell is how many times as fast the second file's build is, first at x86-64-v2 and then at v3: the median
over the calls, encodings, inputs and lengths that both files have. It needs Python 3.8.
"""
import re
import statistics
import sys

LENGTHS = {
    "4 to 8": (4, 8), "16 to 48": (16, 48), "64 to 256": (64, 256), "1 KiB": (1024, 1024), "16 KiB": (16380, 16380),
}
BOTH = ("", "mutf8::")
STRICT = [flavor + "decode_strict" for flavor in BOTH]
LENIENT = [flavor + call for flavor in BOTH for call in ("decode", "decode_lossy")]
LOSSY = [flavor + call for flavor in BOTH for call in ("decode_lossy", "decode_lossy_strict")]
REJECTING = STRICT + [flavor + "decode" for flavor in BOTH]
DECODING = STRICT + LENIENT + ["decode_lossy_strict", "mutf8::decode_lossy_strict"]
ENCODING = ["encode", "mutf8::encode"]

# The name of a family, an example of its input, its calls, and the names that the tables have for its inputs.
FAMILIES = [
    ("ASCII, borrowed", "`java/lang/Object`", DECODING, ["ASCII", "ASCII without null"]),
    ("other text that is the same in UTF-8, borrowed", "`Größe`, `東京`", DECODING,
     ["Latin", "two-byte characters", "three-byte characters"]),
    ("ASCII with one emoji", "`well done 💖`", DECODING, ["ASCII and one emoji", "ASCII, one pair in 97"]),
    ("emoji alone", "`💖💖💖`", DECODING, ["surrogate pairs", "surrogate pairs alone"]),
    ("MUTF-8: ASCII with one U+0000", "`key` C0 80 `value`", [call for call in DECODING if "::" in call],
     ["ASCII and one null"]),
    ("MUTF-8: U+0000 alone", "C0 80 C0 80", [call for call in DECODING if "::" in call], ["C0 80 alone"]),
    ("characters of all widths", "`aé東💖`", DECODING,
     ["random widths", "random widths and null", "mixed CESU-8", "mixed MUTF-8", "eight characters in turn"]),
    ("UTF-8 of emoji, lenient calls", "F0 9F 92 96", LENIENT,
     ["four-byte characters in UTF-8", "four-byte characters"]),
    ("few damaged bytes, lossy calls", "`Gr` FF `ße`", LOSSY,
     ["Latin, one damaged byte", "one damaged byte in 500", "one damaged byte in 50", "ASCII, one damaged byte in 500"]),
    ("random bytes, lossy calls", "9C 4F E1 07", LOSSY, ["noise", "noise of 80 to FF"]),
    ("few damaged bytes, rejected", "`Gr` FF `ße`", REJECTING,
     ["Latin, one damaged byte", "one damaged byte in 500", "one damaged byte in 50", "ASCII, one damaged byte in 500",
      "cut characters in text"]),
    ("random bytes, rejected", "9C 4F E1 07", REJECTING, ["noise", "noise of 80 to FF", "fragments of characters"]),
    ("UTF-8 of emoji, rejected by strict calls", "F0 9F 92 96", STRICT, ["four-byte characters in UTF-8"]),
    ("CESU-8 rejected as MUTF-8", "`a` 00 `b`", ["mutf8::decode_strict"], ["the other encoding"]),
    ("`encode`, borrowed", "`Größe`", ENCODING,
     ["ASCII", "ASCII without null", "Latin", "two-byte characters", "three-byte characters"]),
    ("`encode` of emoji or all widths", "`aé東💖`", ENCODING,
     ["ASCII and one emoji", "surrogate pairs", "four-byte characters", "random widths", "random widths and null",
      "ASCII, one emoji in 97", "one to three bytes, one emoji in 97"]),
]


def number(cell):
    """The first number of a cell, or None for a dash and a name."""
    found = re.match(r"[0-9.,]+", cell)
    return float(found[0].replace(",", "")) if found else None


def cells(path):
    """The nanoseconds of each cell, by call, name of the input, length and level."""
    found, title, heads = {}, None, None
    for line in open(path, encoding="utf-8"):
        begin = re.match(r"`([^`]+)`(.*), in (ns|GB/s)(?: a call)?, x86-64-(v[23]):$", line)
        if begin:
            title, heads = begin.groups(), None
        elif line.startswith("#"):
            title = None
        elif title and line.startswith("|"):
            name, *values = (cell.strip() for cell in line.strip().strip("|").split("|"))
            if heads is None:
                heads = values
            elif name != "the worst":
                add(found, title, name, heads, values)
    return found


def add(found, title, name, heads, values):
    """Adds a row. Its columns are lengths, or for 16,380 bytes the two encodings."""
    # `what` is the rest of a table's title, such as "on short strings", and makes the key unique.
    call, what, unit, level = title
    for head, value in zip(heads, map(number, values)):
        if value is not None:
            whole = head in ("CESU-8", "MUTF-8")
            length = 16380 if whole else int(head.replace(",", ""))
            key = ("mutf8::" if head == "MUTF-8" else "") + call, what, name, length, level
            found[key] = length / value if unit == "GB/s" else value


def main(old_path, new_path):
    old, new = cells(old_path), cells(new_path)
    both = old.keys() & new.keys()
    print("| input | example | " + " | ".join(LENGTHS) + " |")
    print("|---|---|" + "--:|" * len(LENGTHS))
    for family, example, calls, names in FAMILIES:
        row = []
        for least, most in LENGTHS.values():
            gains = {"v2": [], "v3": []}
            for key in both:
                call, _, name, length, level = key
                if call in calls and name in names and least <= length <= most:
                    gains[level].append(old[key] / new[key])
            medians = [f"{statistics.median(gain):.2f}" for gain in gains.values() if gain]
            row.append(", ".join(medians) or "–")
        print(f"| {family} | {example} | " + " | ".join(row) + " |")


if __name__ == "__main__":
    main(*sys.argv[1:])
