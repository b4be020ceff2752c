"""What the program refuses, as exceptions.

Each has the ``status`` with which the command ends for the same table, and the command's ``message``.
"""
from __future__ import annotations

from typing import Optional, Tuple


class Error(Exception):
    """A table that is not laid out, or a certificate that is not valid."""

    status = 1

    def __init__(self, message: str) -> None:
        super().__init__(message)
        self.message = message


class ProgramFault(Error):
    """The program could not be started, or ended in the middle of a request, and did so again when it was restarted."""


class BadRequest(Error):
    """The program does not know what was asked for: an option or a value that it does not have."""

    status = 2


class TooNarrow(Error):
    """No layout fits the width.

    ``least`` is the least width in columns that one fits. ``chain`` has what the message says of the cells whose widths
    add up to it, and is empty where it says nothing.
    """

    status = 4

    def __init__(self, message: str, least: int, chain: Tuple[str, ...] = ()) -> None:
        super().__init__(message)
        self.least = least
        self.chain = chain


class BadInput(Error):
    """The file is no table of the subset.

    ``kind`` is one of the kinds of bad input in docs/COMMAND.md. ``at`` is the place in bytes from 0, or the number of
    the record from 0. ``line`` and ``column`` are those of its first byte, both from 1, the columns those of a terminal;
    they are None where the table was given as rows.
    """

    status = 5

    def __init__(self, message: str, kind: str, at: int, line: Optional[int] = None, column: Optional[int] = None) -> None:
        super().__init__(message)
        self.kind = kind
        self.at = at
        self.line = line
        self.column = column


class BadCell(Error, ValueError):
    """A cell of rows is no text that a page can have. ``row`` and ``column`` count from 0."""

    status = 5

    def __init__(self, row: int, column: int, reason: str) -> None:
        super().__init__(f"the cell at row {row}, column {column} {reason}")
        self.row = row
        self.column = column
        self.reason = reason


class Overlap(Error):
    """Two cells of a table cover one place. Tables, rows and columns count from 0."""

    status = 5

    def __init__(self, message: str, table: int, row: int, column: int) -> None:
        super().__init__(message)
        self.table = table
        self.row = row
        self.column = column


class LimitPassed(Error):
    """A limit of the program is passed: ``name`` is that of docs/COMMAND.md, ``number`` what the table has of it."""

    status = 6

    def __init__(self, message: str, name: str, number: int) -> None:
        super().__init__(message)
        self.name = name
        self.number = number


class OutOfMemory(Error, MemoryError):
    """The program had too little memory for this table. The next request is answered as ever."""

    status = 9


class Rejected(Error):
    """The certificate is none for this table, width and options. ``reason`` is that of docs/COMMAND.md."""

    status = 10

    def __init__(self, message: str, reason: str) -> None:
        super().__init__(message)
        self.reason = reason


class TooTall(Error):
    """No page of up to 500 columns holds the table in so few lines. ``height`` is the number of lines asked for."""

    status = 12

    def __init__(self, message: str, height: int) -> None:
        super().__init__(message)
        self.height = height


class NoPageFound(Error):
    """The budget ended the search before any page was found. No page below ``least`` columns is one."""

    status = 3

    def __init__(self, message: str, least: int) -> None:
        super().__init__(message)
        self.least = least
