"""A table of a page as rows of cells that do not overlap.

The HTML Standard's "forming a table" says which cell covers which places. It lets two cells cover one place; here the later
one ends before it.
"""
from __future__ import annotations

import re
from typing import Dict, List, NamedTuple
from xml.etree.ElementTree import Element

from .web import name_of, visible_children

_MOST_COLUMNS_SPANNED, _MOST_ROWS_SPANNED = 1000, 65534
_NUMBER = re.compile(r"[ \t\n\f\r]*\+?([0-9]+)")


class Cell(NamedTuple):
    """A cell: its element, whether it is a header cell, its first column, and how many columns and rows it covers."""

    element: Element
    is_header: bool
    column: int
    columns: int
    rows: int


class Group(NamedTuple):
    """Rows that belong together: ``thead``, ``tbody`` or ``tfoot``."""

    name: str
    rows: List[List[Cell]]


class Table(NamedTuple):
    """A table: its captions, and its groups in the order of the page."""

    captions: List[Element]
    groups: List[Group]

    @property
    def rows(self) -> List[List[Cell]]:
        """The rows of all groups."""
        return [row for group in self.groups for row in group.rows]

    @property
    def columns(self) -> int:
        """How many columns its cells cover."""
        return max((cell.column + cell.columns for row in self.rows for cell in row), default=0)


def number_in(element: Element, attribute: str, otherwise: int) -> int:
    """The number of an attribute, by the standard's rules for non-negative integers."""
    match = _NUMBER.match(element.get(attribute, ""))
    return int(match[1]) if match else otherwise


def _columns_spanned(cell: Element) -> int:
    return min(number_in(cell, "colspan", 1) or 1, _MOST_COLUMNS_SPANNED)


def _rows_spanned(cell: Element, rows_left: int) -> int:
    """How many rows the cell covers, of those that are left of its group; 0 is all of them."""
    return min(number_in(cell, "rowspan", 1) or rows_left, _MOST_ROWS_SPANNED, rows_left)


def _formed_row(row: Element, rows_left: int, covered: Dict[int, int]) -> List[Cell]:
    """The cells of a row. ``covered`` says for each column how many more rows, this one counted, a cell above covers."""
    cells, column, taken = [], 0, dict(covered)
    for element in visible_children(row):
        if name_of(element) not in ("td", "th"):
            continue
        while taken.get(column, 0) > 0:
            column += 1
        columns, rows = 1, _rows_spanned(element, rows_left)
        while columns < _columns_spanned(element) and taken.get(column + columns, 0) == 0:
            columns += 1
        cells.append(Cell(element, name_of(element) == "th", column, columns, rows))
        for it in range(column, column + columns):
            taken[it] = rows
        column += columns
    covered.clear()
    covered.update((it, rows - 1) for it, rows in taken.items() if rows > 1)
    return cells


def _formed_group(name: str, rows: List[Element]) -> Group:
    covered: Dict[int, int] = {}
    return Group(name, [_formed_row(row, len(rows) - number, covered) for number, row in enumerate(rows)])


def form(table: Element) -> Table:
    """The table that an element ``table`` of a parsed page is."""
    captions, groups = [], []
    loose: List[Element] = []
    for child in visible_children(table):
        name = name_of(child)
        if name == "tr":
            loose.append(child)
            continue
        if name == "caption":
            captions.append(child)
        elif name in ("thead", "tbody", "tfoot"):
            if loose:
                groups.append(_formed_group("tbody", loose))
                loose = []
            groups.append(_formed_group(name, [it for it in visible_children(child) if name_of(it) == "tr"]))
    if loose:
        groups.append(_formed_group("tbody", loose))
    return Table(captions, groups)
