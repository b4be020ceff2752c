"""Records one under the other, for pages that are too narrow for a row: each as two columns of names and values."""
from __future__ import annotations

from typing import List, NamedTuple, Optional

from .flow import blocks_of
from .forming import Table
from .records import Record
from .sizes import MOST_ROWS
from .subset import escaped, flow_html
from .texts import BLANK


class Columns(NamedTuple):
    """Names of columns, and rows; each cell is the HTML of its content."""

    names: List[str]
    rows: List[List[str]]


def columns_of_records(records: List[Record], has_head: bool) -> Columns:
    """The columns of a CSV file: without a head their names are their numbers."""
    cells = [[f"<p>{escaped(field)}</p>" if field.strip() else "" for field in record] for record in records]
    if has_head and cells:
        return Columns(cells[0], cells[1:])
    return Columns([f"<p>{number + 1}</p>" for number in range(len(cells[0]) if cells else 0)], cells)


def columns_of_table(table: Table) -> Optional[Columns]:
    """The columns of a table of a page, or None if its cells cover more than one place, or its rows differ.

    A first row of header cells has the names.
    """
    rows = [row for row in table.rows if row]
    if not rows or any(len(row) != len(rows[0]) or any((it.columns, it.rows) != (1, 1) for it in row) for row in rows):
        return None
    cells = [[flow_html(blocks_of(it.element)) for it in row] for row in rows]
    if all(it.is_header for it in rows[0]):
        return Columns(cells[0], cells[1:])
    return Columns([f"<p>{number + 1}</p>" for number in range(len(rows[0]))], cells)


class Vertical(NamedTuple):
    """A table of names and values, and how many records it leaves out."""

    html: str
    more: int


def vertical_of(columns: Columns) -> Vertical:
    """One table with the records one under the other, each below a row with its number, as many as the program takes.

    No row is of header cells alone, so the table has no head, and no line under one.
    """
    count = max(1, MOST_ROWS // (len(columns.names) + 1))
    parts = ["<table>\n"]
    for number, row in enumerate(columns.rows[:count], 1):
        parts.append(f"<tr><td colspan=2><p>[{BLANK}{number}{BLANK}]</p></td></tr>\n")
        parts.extend(f"<tr><th>{name}</th><td>{value}</td></tr>\n" for name, value in zip(columns.names, row))
    parts.append("</table>\n")
    return Vertical("".join(parts), max(0, len(columns.rows) - count))
