"""Runs cesu8conv beside a plain reference in Python, for tests/cesu8conv.sh:

    cesu8conv.py PROGRAM FOLDER

The reference reads a character at a time, by the tables of the standards and Python's own codecs: UTF-8
by `utf-8`, a surrogate of three bytes by `utf-8` with `surrogatepass`. Nothing in it is taken from this
repository. FOLDER is for files. It prints what is wrong, and the count of the cases.
"""

import itertools
import os
import random
import re
import subprocess
import sys

PROGRAM, FOLDER = sys.argv[1:3]
# The size of the buffer that the program reads into, at whose edges characters are cut. It is
# `WINDOW` in crates/cesu8conv_run/src/run.rt.
WINDOW = 65536
REPLACEMENT = "\ufffd".encode()
# A byte from 01 to 7F is a character in UTF-8 and in both encodings.
ASCII = re.compile(b"[\x01-\x7f]*")
failed = passed = 0


def encoded(text, flavor):
    """The encoding of a text: each UTF-16 code unit as UTF-8 would write it."""
    units = text.encode("utf-16-le", "surrogatepass")
    out = bytearray()
    for i in range(0, len(units), 2):
        unit = units[i] | units[i + 1] << 8
        out += b"\xc0\x80" if flavor == "mutf8" and unit == 0 else chr(unit).encode("utf-8", "surrogatepass")
    return bytes(out)


def one_unit(data, at, flavor):
    """The code unit that is written at an offset, and its length; or None."""
    if flavor == "mutf8":
        if data[at : at + 1] == b"\0":
            return None
        if data[at : at + 2] == b"\xc0\x80":
            return 0, 2
    for length in 1, 2, 3:
        try:
            char = data[at : at + length].decode("utf-8", "surrogatepass")
        except UnicodeDecodeError:
            continue
        if len(char) == 1 and len(data[at : at + length]) == length:
            return ord(char), length
    return None


def character(data, at, flavor):
    """The character whose encoding begins at an offset, in UTF-8, and its length; or None."""
    unit = one_unit(data, at, flavor)
    if unit is None:
        return None
    value, length = unit
    if 0xD800 <= value < 0xDC00 and at + 3 < len(data):
        low = one_unit(data, at + 3, flavor)
        if low is not None and 0xDC00 <= low[0] < 0xE000:
            return chr(0x10000 + ((value - 0xD800) << 10) + (low[0] - 0xDC00)).encode(), 6
    return None if 0xD800 <= value < 0xE000 else (chr(value).encode(), length)


def in_utf8(data, at, flavor):
    """The character of UTF-8 at an offset that the encoding does not have, and its length; or None."""
    if flavor == "mutf8" and data[at : at + 1] == b"\0":
        return b"\0", 1
    try:
        char = data[at : at + 4].decode("utf-8")
    except UnicodeDecodeError:
        return None
    return (data[at : at + 4], 4) if len(char) == 1 and len(data[at : at + 4]) == 4 else None


def reading(data, command, flavor):
    """The output, and the offset of the damage that stops it, or None; and the replaced offsets."""
    out, at, replaced = bytearray(), 0, []
    if command == "encode":
        try:
            return encoded(data.decode("utf-8"), flavor), None, []
        except UnicodeDecodeError as error:
            return encoded(data[: error.start].decode("utf-8"), flavor), error.start, []
    while at < len(data):
        run = ASCII.match(data, at).group()
        if run:
            out += run
            at += len(run)
            continue
        found = character(data, at, flavor)
        if found is None and command.startswith("mixed"):
            found = in_utf8(data, at, flavor)
        if found is None:
            if command in ("decode", "mixed"):
                return bytes(out), at, []
            replaced.append(at)
            found = REPLACEMENT, 1
        out += found[0]
        at += found[1]
    return bytes(out), None, replaced


def words(command, flavor):
    return [PROGRAM, command.split()[0], flavor, *command.split()[1:]]


def run_file(data, command, flavor):
    """Runs the program on a file."""
    path = os.path.join(FOLDER, "input")
    with open(path, "wb") as file:
        file.write(data)
    return subprocess.run(words(command, flavor) + [path], capture_output=True)


def run_pipe(data, command, flavor, size):
    """Runs the program on a pipe to which this script writes `size` bytes at a time.

    More than 4,096 bytes are given by `communicate`, which also reads the output meanwhile:
    otherwise the program and this script could both wait for a full pipe.
    """
    with subprocess.Popen(words(command, flavor), stdin=subprocess.PIPE, stdout=subprocess.PIPE,
                          stderr=subprocess.PIPE) as child:
        if len(data) > 4096:
            out, err = child.communicate(data)
            return subprocess.CompletedProcess([], child.returncode, out, err)
        try:
            for at in range(0, len(data), size):
                os.write(child.stdin.fileno(), data[at : at + size])
        except BrokenPipeError:
            pass
        out, err = child.communicate()
        return subprocess.CompletedProcess([], child.returncode, out, err)


def compare(what, ran, data, command, flavor, name):
    global failed, passed
    out, damage, replaced = reading(data, command, flavor)
    err = ran.stderr.decode()
    faults = []
    if ran.stdout != out:
        faults.append(f"{len(ran.stdout)} bytes of output, and not {len(out)}")
    if ran.returncode != (0 if damage is None else 1):
        faults.append(f"status {ran.returncode}")
    if damage is not None:
        line = data[:damage].count(b"\n") + 1
        begin = f"cesu8conv: {name}:{line}: byte {damage}: {data[damage]:02x}"
        if not err.startswith(begin):
            faults.append(f"{err!r} does not begin with {begin!r}")
        if f"{len(out)} bytes of output are right" not in err:
            faults.append(f"{err!r} does not count {len(out)} bytes")
    elif replaced:
        want = f"cesu8conv: replaced {len(replaced)} bytes by U+FFFD, the first at {name}: byte {replaced[0]}\n"
        if err != want:
            faults.append(f"{err!r} is not {want!r}")
    elif err:
        faults.append(f"{err!r}")
    if faults:
        failed += 1
        print(f"wrong: {command} {flavor}, {what}: {'; '.join(faults)}")
    else:
        passed += 1


COMMANDS = ["encode", "decode", "lossy", "mixed", "mixed --lossy"]
FLAVORS = ["cesu8", "mutf8"]
PAIR = b"\xed\xa0\xbd\xed\xb2\x96"
# What is put at an edge: characters of the encodings and of UTF-8, cut characters, and damage.
PARTS = [b"\xc3\xa9", b"\xe2\x82\xac", PAIR, b"\xf0\x9f\x92\x96", b"\0", b"\xc0\x80", b"\xff",
         PAIR[:3], PAIR[3:], PAIR[:5], b"\xe2\x82", b"\xf0\x9f\x92"]


def each_edge():
    """Tries each part at 0 to 8 bytes before the end of each of the first two windows in a file,
    and before the end of the first window in a pipe."""
    for part, back, edge in itertools.product(PARTS, range(9), (WINDOW, 2 * WINDOW)):
        data = (b"0123456789abcde\n" * (edge // 16))[: edge - back] + part + b"\nend"
        for command, flavor in (("mixed --lossy", "cesu8"), ("decode", "mutf8"), ("encode", "cesu8")):
            ran = run_file(data, command, flavor)
            compare(f"{part.hex()} at {edge} - {back}", ran, data, command, flavor, os.path.join(FOLDER, "input"))
    for part, back in itertools.product(PARTS, range(9)):
        data = b"x" * (WINDOW - back) + part
        for command, flavor in (("mixed", "mutf8"), ("lossy", "cesu8")):
            ran = run_pipe(data, command, flavor, len(data))
            compare(f"pipe, {part.hex()} at - {back}", ran, data, command, flavor, "standard input")


def each_byte():
    """Tries all parts in pairs, from a pipe that gives one byte at a time."""
    for first, second in itertools.product(PARTS, PARTS):
        data = b"a\n" + first + second
        for command in COMMANDS:
            flavor = FLAVORS[(len(first) + len(second)) % 2]
            compare(f"bytes of {data.hex()}", run_pipe(data, command, flavor, 1), data, command, flavor,
                    "standard input")


def chance():
    """Tries random sequences of the parts and of text."""
    source = random.Random(97)
    for _ in range(60):
        data = b"".join(source.choice(PARTS + [b"text\n", b"\xce\xbb"]) for _ in range(source.randrange(20000)))
        for command in COMMANDS:
            flavor = source.choice(FLAVORS)
            compare("chance", run_file(data, command, flavor), data, command, flavor, os.path.join(FOLDER, "input"))


each_edge()
each_byte()
chance()
print(f"{passed} passed, {failed} failed")
sys.exit(failed > 0)
