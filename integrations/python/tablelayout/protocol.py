"""Requests to ``tablelayout batch`` and its answers, as bytes: docs/COMMAND.md says what each part is.

    request := the words of a command without its names, the number of bytes of each file, LF, and these bytes
    answer  := STATUS PAGE CERT LESS SPENT LF, MESSAGE LF, and the bytes of each
"""
from __future__ import annotations

from typing import Callable, List, NamedTuple, Sequence


class Answer(NamedTuple):
    """What the program says of one request."""

    status: int
    message: str
    page: bytes = b""
    cert: bytes = b""
    less: bytes = b""
    spent: bytes = b""


class BadAnswer(Exception):
    """What came is no answer."""


class Ended(Exception):
    """The program ended before it answered."""


def request(words: Sequence[str], parts: Sequence[bytes]) -> bytes:
    """The bytes of a request with these words and these files.

    Raises ValueError for a word that would end the line, or be none.
    """
    for word in words:
        if not word or not word.isascii() or not word.isprintable() or " " in word:
            raise ValueError(f"{word!r} is no word of a request")
    line = " ".join([*words, *(str(len(part)) for part in parts)])
    return b"".join([line.encode("ascii"), b"\n", *parts])


def _numbers(line: bytes) -> List[int]:
    words = line.split(b" ")
    if len(words) != 5 or not all(word.isdigit() for word in words):
        raise BadAnswer(f"{line[:80]!r} begins no answer")
    return [int(word) for word in words]


def read_answer(read_line: Callable[[], bytes], read_bytes: Callable[[int], bytes]) -> Answer:
    """The next answer. ``read_line`` returns a line without its line feed, ``read_bytes`` as many bytes as it is told."""
    status, *sizes = _numbers(read_line())
    message = read_line().decode("utf-8", "replace")
    page, cert, less, spent = (read_bytes(size) for size in sizes)
    return Answer(status, message, page, cert, less, spent)
