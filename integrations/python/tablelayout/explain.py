"""Why there is no page, in the words of a user."""
from __future__ import annotations

import unicodedata
from typing import List, NamedTuple, Optional

from .errors import BadInput, Error, TooNarrow
from .places import Place, columns_of, place_at, record_at, width_of
from .sources import Source

_LEAST_ROOM = 20
_DOTS = "..."
# The breakings with which no page is too narrow that another one would fit.
_NARROWEST = ("any", "fit", "0")
# More than the widest terminal shows, but for characters that take no column.
_NEAR_CHARACTERS = 4096


class _Drawn(NamedTuple):
    """A character as it is shown, and the columns at which it begins and ends."""

    text: str
    begin: int
    end: int


def _shown(character: str, column: int) -> str:
    if character == "\t":
        return " " * columns_of(character, column)
    if unicodedata.category(character) in ("Cc", "Cs"):
        return "?"
    # Marks of direction would reorder what is shown.
    return "" if unicodedata.category(character) == "Cf" and character >= "\u0300" else character


def _drawn(text: str, column: int) -> List[_Drawn]:
    """The characters of a part of a line that begins at a column; `?` stands for each byte that is not UTF-8."""
    drawn = []
    for character in text:
        end = column + columns_of(character, column)
        drawn.append(_Drawn(_shown(character, column), column, end))
        column = end
    return drawn


def _drawn_near(place: Place) -> List[_Drawn]:
    """The characters of a line near a place of it: a line may have a million, of which a terminal shows a few."""
    line = place.text[:-1] if place.text.endswith(b"\r") else place.text
    before, after = (part.decode("utf-8", "surrogateescape") for part in (line[:place.before], line[place.before:]))
    begin = max(0, len(before) - _NEAR_CHARACTERS)
    return _drawn(before[begin:] + after[:_NEAR_CHARACTERS], width_of(before[:begin]))


def quoted_place(data: bytes, at: int, room: int) -> List[str]:
    """The line and the column of a byte of a file, that line, and a mark below the byte.

    Of a line that has more columns than ``room`` the part around the byte is shown.
    """
    place = place_at(data, at)
    drawn = _drawn_near(place)
    room = max(room, _LEAST_ROOM)
    past = drawn[-1].end if drawn else 0
    mark = place.column - 1
    begin = mark - room // 2 if past >= room and mark > room // 2 else 0
    end = min(past, begin + room)
    kept = [it for it in drawn if it.begin >= begin + (len(_DOTS) if begin else 0) and it.end <= end - (len(_DOTS) if end < past else 0)]
    before = _DOTS if begin and kept else ""
    indent = mark - kept[0].begin + len(before) if kept else mark
    text = before + "".join(it.text for it in kept) + (_DOTS if end < past else "")
    return [f"line {place.line}, column {place.column}:", text, " " * indent + "^"]


def explained(error: Error, source: Source, width: int, breaking: Optional[str], room: int) -> List[str]:
    """The message of a refusal, and what a user can make of it, line by line."""
    if isinstance(error, TooNarrow):
        lines = [error.message, f"no layout fits {width} columns: the least width is {error.least}"]
        hint = "with --break fit, which breaks words, narrower pages may fit"
        return lines if breaking in _NARROWEST else [*lines, hint]
    if isinstance(error, BadInput) and error.line is not None:
        at = record_at(source.data, error.at) if source.is_csv else error.at
        return [error.message, *quoted_place(source.data, at, room)]
    return [error.message]
