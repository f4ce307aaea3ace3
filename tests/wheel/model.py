"""A plain encoder and decoder, written from the text of the standards, to compare the package with.

Unicode Technical Report 26 encodes each UTF-16 code unit by itself. So does Java's DataInput,
except for U+0000. At each offset, the decoder tests whether the encoding of a scalar value begins
there. If none does, it counts one byte as damaged.
"""

from __future__ import annotations

import functools

ENCODINGS = ("cesu-8", "mutf-8")
REPLACEMENT = "\ufffd"


def units(scalar: int) -> list[int]:
    if scalar < 0x10000:
        return [scalar]
    return [0xD800 + (scalar - 0x10000) // 0x400, 0xDC00 + (scalar - 0x10000) % 0x400]


def units_of(text: str) -> list[int]:
    return [unit for character in text for unit in units(ord(character))]


def unit_bytes(unit: int, encoding: str) -> list[int]:
    if encoding == "mutf-8" and unit == 0:
        return [0xC0, 0x80]
    if unit < 0x80:
        return [unit]
    if unit < 0x800:
        return [0xC0 + unit // 0x40, 0x80 + unit % 0x40]
    return [0xE0 + unit // 0x1000, 0x80 + unit // 0x40 % 0x40, 0x80 + unit % 0x40]


def encoded(text: str, encoding: str) -> bytes:
    return bytes(
        byte
        for unit in units_of(text)
        for byte in unit_bytes(unit, encoding)
    )


def candidates(data: bytes, place: int) -> list[int]:
    """The scalar values that one, two, three and six bytes can encode, from their lower bits."""
    bits = [byte % 0x40 for byte in data[place : place + 6]]
    found = [data[place]]
    if len(bits) >= 2:
        found.append(data[place] % 0x20 * 0x40 + bits[1])
    if len(bits) >= 3:
        found.append(data[place] % 0x10 * 0x1000 + bits[1] * 0x40 + bits[2])
    if len(bits) == 6:
        high = bits[1] % 0x10 * 0x40 + bits[2]
        found.append(0x10000 + high * 0x400 + bits[4] % 0x10 * 0x40 + bits[5])
    return found


def character_at(data: bytes, place: int, encoding: str) -> str | None:
    for number in candidates(data, place):
        if number < 0xD800 or 0xE000 <= number <= 0x10FFFF:
            if data.startswith(encoded(chr(number), encoding), place):
                return chr(number)
    return None


@functools.lru_cache(maxsize=None)
def parts(data: bytes, encoding: str) -> tuple[tuple[str | None, int], ...]:
    """The parts of the bytes, each with its offset: a character, or None for a damaged byte."""
    found = []
    place = 0
    while place < len(data):
        character = character_at(data, place, encoding)
        found.append((character, place))
        place += 1 if character is None else len(encoded(character, encoding))
    return tuple(found)


def lossy(data: bytes, encoding: str) -> str:
    return "".join(character or REPLACEMENT for character, _ in parts(data, encoding))


def damaged(data: bytes, encoding: str) -> list[int]:
    """The offsets of all damaged bytes."""
    return [place for character, place in parts(data, encoding) if character is None]


SURROGATES = {bytes(unit_bytes(unit, "cesu-8")): chr(unit) for unit in range(0xD800, 0xE000)}


def surrogate_at(data: bytes, place: int) -> str | None:
    """The surrogate that is encoded there as a character of three bytes."""
    return SURROGATES.get(data[place : place + 3])


def replaced(data: bytes, place: int, errors: str) -> tuple[str, int] | None:
    """What one of Python's handlers returns for a damaged byte, and how many bytes it replaces, or
    None if it raises an error."""
    byte = data[place]
    if errors == "surrogatepass":
        surrogate = surrogate_at(data, place)
        return None if surrogate is None else (surrogate, 3)
    if errors == "surrogateescape":
        return (chr(0xDC00 + byte), 1) if byte >= 0x80 else None
    texts = {"ignore": "", "replace": REPLACEMENT, "backslashreplace": f"\\x{byte:02x}"}
    return (texts[errors], 1) if errors in texts else None


def decoded(data: bytes, encoding: str, errors: str) -> str | int:
    """The text with one of Python's handlers, or the offset of the byte that is rejected."""
    text = ""
    end = 0
    for character, place in parts(data, encoding):
        if place < end:
            continue
        if character is None:
            answer = replaced(data, place, errors)
            if answer is None:
                return place
            character, count = answer
            end = place + count
        text += character
    return text


def encoded_by(text: str, encoding: str, errors: str) -> bytes:
    """The encoding of a string in which UTF-8 with one of Python's handlers encodes surrogates."""
    return b"".join(
        character.encode("utf-8", errors)
        if "\ud800" <= character <= "\udfff"
        else encoded(character, encoding)
        for character in text
    )


def fronts(encoding: str) -> set[bytes]:
    """The proper prefixes of encoded characters."""
    # The last byte takes 64 values in turn, so every 64th character has all prefixes.
    found = set()
    for scalar in range(0, 0x110000, 64):
        if not 0xD800 <= scalar < 0xE000:
            character = encoded(chr(scalar), encoding)
            found.update(character[:count] for count in range(1, len(character)))
    return found
