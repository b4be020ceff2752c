"""The terminal: its width, and whether there is one."""
from __future__ import annotations

import os
from typing import Optional, Sequence

_MOST_COLUMNS, _COLUMNS_OTHERWISE = 500, 80


def _columns_of(descriptor: int) -> Optional[int]:
    try:
        return os.get_terminal_size(descriptor).columns or None
    except OSError:
        return None


def _columns_of_control() -> Optional[int]:
    """Those of the terminal that the process runs on, whatever its inputs and outputs are."""
    try:
        descriptor = os.open("/dev/tty", os.O_RDONLY | os.O_NOCTTY)
    except OSError:
        return None
    try:
        return _columns_of(descriptor)
    finally:
        os.close(descriptor)


def columns() -> int:
    """The width: the environment's COLUMNS, that of the terminal, or 80; at most 500."""
    given = os.environ.get("COLUMNS", "")
    found = int(given) if given.isascii() and given.isdigit() and len(given) < 10 else 0
    found = found or _columns_of(1) or _columns_of_control() or _COLUMNS_OTHERWISE
    return min(found, _MOST_COLUMNS)


def is_terminal() -> bool:
    """Whether what is printed appears on a terminal."""
    return os.isatty(1)


def has_errors_on_terminal() -> bool:
    """Whether what is written on standard error appears on a terminal."""
    return os.isatty(2)


def columns_of_errors() -> int:
    """The width of the terminal on which standard error appears."""
    return _columns_of(2) or _COLUMNS_OTHERWISE


def has_bold() -> bool:
    """Whether bold text is shown: on a terminal, unless NO_COLOR is set."""
    return is_terminal() and not os.environ.get("NO_COLOR") and os.environ.get("TERM", "dumb") != "dumb"


def write_page(data: bytes) -> None:
    """Writes all of it on standard output. Raises OSError if that cannot be written, BrokenPipeError if nobody reads it."""
    left = memoryview(data)
    while left:
        # Python's own output may write a part and say nothing, if it is told not to keep what it is given.
        left = left[os.write(1, left):]


def write_error(data: bytes) -> None:
    """Writes bytes on standard error, if it can be written."""
    try:
        os.write(2, data)
    except OSError:
        pass


def write_message(lines: Sequence[str]) -> None:
    """Writes lines on standard error, if it can be written."""
    write_error(("\n".join(lines) + "\n").encode("utf-8", "replace"))
