"""The codecs, and the functions that call error handlers for the module in C."""

from __future__ import annotations

import codecs
import operator
import re
from typing import Any

try:
    from . import _native
except ImportError as error:
    raise ImportError(
        f"cesu8 cannot load its module in C, which is for the wheel's platform: {error}",
        name="cesu8",
        path=error.path,
    ) from error

_SURROGATES = re.compile("[\ud800-\udfff]+")
# With `surrogateescape`, Python's own encoders first escape what they can at the start of a run,
# and then call the handler for the rest of it.
_ESCAPED_OR_SURROGATES = re.compile("[\udc80-\udcff]+|[\ud800-\udfff]+")

_ENCODE = {"cesu-8": _native.cesu_8_encode, "mutf-8": _native.mutf_8_encode}


def encode_by_handler(encoding: str, text: str, errors: str) -> bytes:
    """Encode a text with surrogates, each run of which an error handler replaces."""
    handler = _pass if errors == "surrogatepass" else codecs.lookup_error(errors)
    runs = _ESCAPED_OR_SURROGATES if errors == "surrogateescape" else _SURROGATES
    encode = _ENCODE[encoding]
    parts = []
    place = 0
    run = runs.search(text)
    while run is not None:
        parts.append(encode(text[place : run.start()])[0])
        error = UnicodeEncodeError(encoding, text, *run.span(), "surrogates not allowed")
        replacement, place = _handled(handler(error), (str, bytes), error)
        place = _within(place, 0, len(text))
        if isinstance(replacement, str):
            if _SURROGATES.search(replacement):
                raise error
            replacement = encode(replacement)[0]
        parts.append(replacement)
        run = runs.search(text, place)
    parts.append(encode(text[place:])[0])
    return b"".join(parts)


def write_by_handler(encoding: str, text: str, errors: str) -> bytes:
    """Encode a text with surrogates as `encode_by_handler` does, after the count of its bytes."""
    encoded = encode_by_handler(encoding, text, errors)
    if len(encoded) > 0xFFFF:
        raise OverflowError("the text has more than 65,535 bytes of MUTF-8")
    return len(encoded).to_bytes(2, "big") + encoded


def decode_by_handler(
    encoding: str,
    data: bytes,
    start: int,
    stop: int,
    end: int,
    errors: str,
    front: str,
    place: int,
) -> tuple[str, int]:
    """Decode the bytes from `start` to `stop`, and call an error handler for each byte that is not
    part of an encoded character. Return the text and the offset at which it ends. The first such
    byte is at `place`, and `front` is the text of the bytes before it. A handler may continue at
    any offset from `start` to `end`. If `stop` is not `end`, an incomplete character is between
    them, which is left for the next piece."""
    handler = codecs.lookup_error(errors)
    is_mutf8 = encoding == "mutf-8"
    parts = [front]
    while place < stop:
        error = _native.next_error(is_mutf8, data, place, end)
        replacement, place = _handled(handler(error), str, error)
        parts.append(replacement)
        if error.object is not data:
            # A handler may replace the input, as with Python's own decoders.
            data = memoryview(error.object).tobytes()
            start, stop, end = 0, len(data), len(data)
        place = _within(place, start, end)
        if place < stop:
            text, place = _native.next_text(is_mutf8, data, place, stop)
            parts.append(text)
    return "".join(parts), place


def _pass(error: UnicodeError) -> tuple[bytes, int]:
    """The handler `surrogatepass`. Python's own only works for Python's own encodings."""
    assert isinstance(error, UnicodeEncodeError)
    return error.object[error.start : error.end].encode("utf-8", "surrogatepass"), error.end


def _handled(answer: Any, replaces: Any, error: UnicodeError) -> Any:
    """Check what an error handler returned: a replacement and the offset at which to continue. As
    with Python's own codecs, the offset can be any integer, for instance one of NumPy's, which is
    not an `int`."""
    if isinstance(answer, tuple) and len(answer) == 2 and isinstance(answer[0], replaces):
        return answer[0], operator.index(answer[1])
    if isinstance(error, UnicodeDecodeError):
        raise TypeError("decoding error handler must return (str, int) tuple")
    raise TypeError("encoding error handler must return (str/bytes, int) tuple")


def _within(place: int, start: int, end: int) -> int:
    """Check an offset that an error handler returned. A negative one counts from the end."""
    found = place + end if place < 0 else place
    if not start <= found <= end:
        raise IndexError(f"position {found} from error handler out of bounds")
    return found


# These classes are at the top level of the module, so that they can be pickled.
class CESU8Encoder(codecs.IncrementalEncoder):
    def encode(self, input: str, final: bool = False) -> bytes:
        return _native.cesu_8_encode(input, self.errors)[0]


class MUTF8Encoder(codecs.IncrementalEncoder):
    def encode(self, input: str, final: bool = False) -> bytes:
        return _native.mutf_8_encode(input, self.errors)[0]


class CESU8Decoder(codecs.BufferedIncrementalDecoder):
    _buffer_decode = staticmethod(_native.cesu_8_decode)


class MUTF8Decoder(codecs.BufferedIncrementalDecoder):
    _buffer_decode = staticmethod(_native.mutf_8_decode)


# If a read returns nothing new, the stream is at its end, and an incomplete character is damage.
# Python's own readers drop it.
class CESU8Reader(codecs.StreamReader):
    def decode(self, input: bytes, errors: str = "strict") -> tuple[str, int]:
        return _native.cesu_8_decode(input, errors, input == self.bytebuffer)


class MUTF8Reader(codecs.StreamReader):
    def decode(self, input: bytes, errors: str = "strict") -> tuple[str, int]:
        return _native.mutf_8_decode(input, errors, input == self.bytebuffer)


class CESU8Writer(codecs.StreamWriter):
    encode = staticmethod(_native.cesu_8_encode)


class MUTF8Writer(codecs.StreamWriter):
    encode = staticmethod(_native.mutf_8_encode)


_CESU8 = codecs.CodecInfo(
    name="cesu-8",
    encode=_native.cesu_8_encode,
    decode=_native.cesu_8_decode,
    incrementalencoder=CESU8Encoder,
    incrementaldecoder=CESU8Decoder,
    streamreader=CESU8Reader,
    streamwriter=CESU8Writer,
)
_MUTF8 = codecs.CodecInfo(
    name="mutf-8",
    encode=_native.mutf_8_encode,
    decode=_native.mutf_8_decode,
    incrementalencoder=MUTF8Encoder,
    incrementaldecoder=MUTF8Decoder,
    streamreader=MUTF8Reader,
    streamwriter=MUTF8Writer,
)

# The names as Python passes them to a search function: 'MUTF-8' becomes 'mutf_8'.
codecs.register({"cesu_8": _CESU8, "cesu8": _CESU8, "mutf_8": _MUTF8, "mutf8": _MUTF8}.get)
