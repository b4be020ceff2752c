"""Texts of cells: what the program reads, and how a space is kept."""
from __future__ import annotations

import re
from typing import Iterable, Set

# The program reads no control characters but white space.
_CONTROL = "[\0-\x08\x0b\x0e-\x1f\x7f-\x9f\ud800-\udfff]"
REPLACEMENT = "\ufffd"

# In texts that are made here: a space at which no line breaks. No text that comes in has it, since it is a control character.
BLANK = "\0"
# It is written as a character that no text has, and a page has a space for it.
_NONCHARACTERS = [*range(0xFDD0, 0xFDF0), *(plane * 0x10000 + 0xFFFE + last for plane in range(1, 17) for last in (0, 1))]

_OPENS_EMBEDDING, _OPENS_ISOLATE = "\u202a\u202b\u202d\u202e", "\u2066\u2067\u2068"
_ENDS_EMBEDDING, _ENDS_ISOLATE = "\u202c", "\u2069"
_MARKS = "[\u202a-\u202e\u2066-\u2069]"


def without_controls(text: str) -> str:
    """The text with U+FFFD in place of control characters that are no white space, and of surrogates."""
    return re.sub(_CONTROL, REPLACEMENT, text)


def ends_of_marks(text: str) -> str:
    """The characters that end the marks in a text that reorder what follows, so that they do not reach into other cells."""
    open_marks = []
    for mark in re.findall(_MARKS, text):
        if mark in _OPENS_EMBEDDING:
            open_marks.append(_ENDS_EMBEDDING)
        elif mark in _OPENS_ISOLATE:
            open_marks.append(_ENDS_ISOLATE)
        elif mark == _ENDS_EMBEDDING:
            if open_marks and open_marks[-1] == _ENDS_EMBEDDING:
                open_marks.pop()
        elif _ENDS_ISOLATE in open_marks:
            # The end of an isolate ends the embeddings in it too.
            while open_marks.pop() != _ENDS_ISOLATE:
                pass
    return "".join(reversed(open_marks))


def blank_for(texts: Iterable[str]) -> str:
    """A noncharacter that none of the texts has: it stands for a space at which no line breaks."""
    used: Set[str] = set()
    for text in texts:
        used.update(text)
    return next(chr(it) for it in _NONCHARACTERS if chr(it) not in used)


def has_marks(data: bytes) -> bool:
    """Whether a file in UTF-8 has marks that reorder text."""
    return any(mark.encode("utf-8") in data for mark in _OPENS_EMBEDDING + _OPENS_ISOLATE)
