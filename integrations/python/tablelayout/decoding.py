"""Bytes of text files as text."""
from __future__ import annotations

import codecs
from typing import NamedTuple, Optional

# The longer marks first: that of UTF-32 begins with that of UTF-16.
_MARKS = ((codecs.BOM_UTF8, "utf-8"), (codecs.BOM_UTF32_LE, "utf-32-le"), (codecs.BOM_UTF32_BE, "utf-32-be"),
          (codecs.BOM_UTF16_LE, "utf-16-le"), (codecs.BOM_UTF16_BE, "utf-16-be"))
_SAMPLE_BYTES = 4096
OTHERWISE = "windows-1252"


class Decoded(NamedTuple):
    """A text, the encoding that it was read in, and whether that was guessed because the bytes are not UTF-8."""

    text: str
    encoding: str
    is_guessed: bool


def _without_mark(data: bytes) -> "tuple[bytes, Optional[str]]":
    for mark, encoding in _MARKS:
        if data.startswith(mark):
            return data[len(mark):], encoding
    return data, None


def _wide_encoding(data: bytes) -> Optional[str]:
    """UTF-16 without a byte order mark: of text in Latin letters every other byte is zero."""
    sample = data[:_SAMPLE_BYTES]
    even, odd = sample[::2], sample[1::2]
    if len(sample) >= 4 and even.count(0) * 4 <= len(even) and odd.count(0) * 4 >= 3 * len(odd):
        return "utf-16-le"
    if len(sample) >= 4 and odd.count(0) * 4 <= len(odd) and even.count(0) * 4 >= 3 * len(even):
        return "utf-16-be"
    return None


def decode(data: bytes, encoding: Optional[str] = None) -> Decoded:
    """The text of a file, without its byte order mark.

    Without ``encoding`` it is found: by a byte order mark; UTF-8 if the bytes are; UTF-16 if every other byte is zero; else
    windows-1252, which has Latin-1's letters. Bytes that are none of the encoding become U+FFFD. Raises LookupError for an
    encoding that Python does not know.
    """
    unmarked, marked = _without_mark(data)
    if encoding:
        codecs.lookup(encoding)  # No bytes are of any encoding.
        return Decoded(unmarked.decode(encoding, "replace"), encoding, False)
    if marked:
        return Decoded(unmarked.decode(marked, "replace"), marked, False)
    wide = _wide_encoding(data)
    if wide:
        return Decoded(data.decode(wide, "replace"), wide, True)
    try:
        return Decoded(data.decode("utf-8"), "utf-8", False)
    except UnicodeDecodeError:
        return Decoded(data.decode(OTHERWISE, "replace"), OTHERWISE, True)
