"""Places in a file: the line and the column of a byte."""
from __future__ import annotations

import unicodedata
from typing import NamedTuple

_TAB_COLUMNS = 8
_ORDER_MARKS = "\u200b\u200c\u200d\u200e\u200f\u202a\u202b\u202c\u202d\u202e\u2060\ufeff"


class Place(NamedTuple):
    """A place: its line and column, both from 1, and the bytes of the line. Columns are those of a terminal."""

    line: int
    column: int
    text: bytes
    before: int  # The bytes of the line before the place.


def columns_of(character: str, column: int) -> int:
    """The columns that a character takes on a terminal, if it stands at this column, counted from 0."""
    if character == "\t":
        return _TAB_COLUMNS - column % _TAB_COLUMNS
    if character < "\u0300":
        return 1
    if character in _ORDER_MARKS or unicodedata.category(character) in ("Mn", "Me"):
        return 0
    return 2 if unicodedata.east_asian_width(character) in "WF" else 1


def width_of(text: str) -> int:
    """The columns that a text of one line takes."""
    if text.isascii() and text.isprintable():
        return len(text)
    column = 0
    for character in text:
        column += columns_of(character, column)
    return column


def place_at(data: bytes, at: int) -> Place:
    """The place of the byte ``at`` of a file."""
    begin = data.rfind(b"\n", 0, at) + 1
    end = data.find(b"\n", at)
    line = data[begin:] if end < 0 else data[begin:end]
    before = data[begin:at].decode("utf-8", "replace")
    return Place(data.count(b"\n", 0, begin) + 1, width_of(before) + 1, line, at - begin)


def record_at(data: bytes, number: int) -> int:
    """The place of the byte at which a record of a CSV file begins; records count from 0.

    A field is quoted from a `"` at its beginning to the next that no other follows. Empty lines are no records.
    """
    count = 0
    is_in_record = is_quoted = ends_quoted = False
    begins_field = True
    for at, byte in enumerate(data.decode("latin-1")):
        if not is_in_record and byte not in "\n\r":
            if count == number:
                return at
            count += 1
            is_in_record = True
        if is_quoted:
            is_quoted = byte != '"'
            ends_quoted = not is_quoted
            continue
        is_quoted = byte == '"' and (begins_field or ends_quoted)
        ends_quoted = False
        begins_field = byte in ",\n\r"
        if byte in "\n\r":
            is_in_record = False
    return len(data)
