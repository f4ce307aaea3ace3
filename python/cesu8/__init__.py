r"""CESU-8 and Modified UTF-8 (MUTF-8) as codecs, and length-prefixed Java strings.

Importing this package registers the codecs `cesu-8` and `mutf-8`:

    >>> import cesu8
    >>> "a\0".encode("mutf-8")
    b'a\xc0\x80'
    >>> b"\xED\xA0\xBD\xED\xB2\x96".decode("cesu-8")
    '💖'

`open(path, encoding="mutf-8")` and the incremental and stream classes of `codecs` work too. The
codecs are strict: UTF-8 with a character of four bytes is damage, and so is a zero byte in MUTF-8.

Every error handler works. A decoder calls it for each byte that is not part of an encoded
character, so `replace` returns one U+FFFD for each. An encoder calls it for each run of surrogates.
With `surrogatepass` an unpaired surrogate is a character of three bytes.
"""

from __future__ import annotations

from typing import TYPE_CHECKING, Union

# Importing `_codec` registers the codecs.
from . import _codec  # noqa: F401
from ._native import (
    compare_as_utf16,
    decode,
    decoded_len,
    encode,
    read_utf,
    utf16_len,
    write_utf,
)

if TYPE_CHECKING:
    from _typeshed import ReadableBuffer as Data
else:
    # The functions read any object with the buffer protocol, for which Python 3.10 has no type.
    Data = Union[bytes, bytearray, memoryview]

# The version in the file VERSION: tests/version.sh compares them.
__version__ = "1.0.0"
__all__ = [
    "Data",
    "compare_as_utf16",
    "decode",
    "decoded_len",
    "encode",
    "read_utf",
    "utf16_len",
    "write_utf",
]


def __dir__() -> list[str]:
    # Without this, `dir(cesu8)` would also list the private modules.
    return __all__
