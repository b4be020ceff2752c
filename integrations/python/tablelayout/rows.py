"""Rows and frames as CSV files."""
from __future__ import annotations

import csv
import io
import re
from typing import Any, Iterable, Iterator, List, Tuple, Union

from .errors import BadCell

# What the program refuses in text: control characters that are no white space.
_CONTROL = "[\0-\x08\x0b\x0e-\x1f\x7f-\x9f]"

_BYTE_ORDER_MARK = "\ufeff"

# Rows of texts, or a frame of pandas or polars. A frame is known by how it iterates, and has no type here.
Rows = Union[Iterable[Iterable[str]], Any]


def _is_frame(rows: Rows) -> bool:
    return hasattr(rows, "columns") and (hasattr(rows, "itertuples") or hasattr(rows, "iter_rows"))


def _cell_of_frame(value: object) -> str:
    try:
        # What is missing in a frame is None, or does not equal itself.
        is_missing = value is None or bool(value != value)
    except TypeError:
        is_missing = True
    return "" if is_missing else str(value)


def _rows_of_frame(frame: Any) -> Iterator[List[str]]:
    yield [str(name) for name in frame.columns]
    rows = frame.iter_rows() if hasattr(frame, "iter_rows") else frame.itertuples(index=False, name=None)
    for row in rows:
        yield [_cell_of_frame(value) for value in row]


def _checked_cell(text: object, row: int, column: int) -> str:
    if not isinstance(text, str):
        raise BadCell(row, column, f"is {text!r} and no text")
    control = re.search(_CONTROL, text)
    if control:
        raise BadCell(row, column, f"has the control character U+{ord(control[0]):04X}")
    try:
        text.encode("utf-8")
    except UnicodeEncodeError:
        raise BadCell(row, column, "has a surrogate, which UTF-8 does not have") from None
    return text


def csv_of(rows: Rows, head: bool = False) -> Tuple[bytes, bool]:
    """A CSV file of rows or of a frame, and whether its first record is a head. A frame always has one: its names.

    Raises BadCell for a cell that is no text, or has a control character that is no white space.
    """
    is_frame = _is_frame(rows)
    file = io.StringIO()
    # With this line end both of its characters are quoted where they stand in a cell.
    writer = csv.writer(file, lineterminator="\r\n")
    for number, row in enumerate(_rows_of_frame(rows) if is_frame else rows):
        cells = [_checked_cell(text, number, column) for column, text in enumerate(row)]
        # A record of no field is an empty line, which is none: it is written as one empty field, and found uneven.
        writer.writerow(cells or [""])
    text = file.getvalue()
    if text.startswith(_BYTE_ORDER_MARK):
        text = _BYTE_ORDER_MARK + text  # The program reads over the first one.
    return text.encode("utf-8"), head or is_frame
