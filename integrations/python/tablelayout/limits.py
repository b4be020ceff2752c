"""The part of a table of a page that is within what the program takes."""
from __future__ import annotations

from typing import List, NamedTuple

from .forming import Cell, Group, Table
from .sizes import MOST_CELLS, MOST_COLUMNS, MOST_ROWS, in_words

class Part(NamedTuple):
    """A part of a table, and how many rows and columns more the table has."""

    table: Table
    more_rows: int
    more_columns: int

    @property
    def is_whole(self) -> bool:
        """Whether nothing is left out."""
        return not self.more_rows and not self.more_columns

    def rest(self) -> str:
        """How many more there are, in words; empty if none."""
        return in_words(self.more_rows, self.more_columns)


def columns_begun(table: Table) -> List[int]:
    """The columns in which a cell begins: the others take no room."""
    return sorted({cell.column for row in table.rows for cell in row})


def _first_columns(row: List[Cell], end: int) -> List[Cell]:
    return [cell for cell in row if cell.column < end]


def _count_rows(table: Table, most: int) -> int:
    """How many of the first rows are within the limits; rows without a cell take no room."""
    rows = cells = number = 0
    for number, row in enumerate(table.rows):
        rows += bool(row)
        cells += len(row)
        if rows > most or cells > MOST_CELLS:
            return number
    return len(table.rows)


def _first_rows(groups: List[Group], count: int) -> List[Group]:
    kept = []
    for group in groups:
        kept.append(group._replace(rows=group.rows[:count]))
        count -= len(kept[-1].rows)
    return kept


def first_part(table: Table, most_rows: int = MOST_ROWS) -> Part:
    """As many of the first rows, at most so many, and of the first columns as the program takes."""
    begun = columns_begun(table)
    groups = table.groups
    if len(begun) > MOST_COLUMNS:
        end = begun[MOST_COLUMNS]
        groups = [group._replace(rows=[_first_columns(row, end) for row in group.rows]) for group in groups]
    narrowed = table._replace(groups=groups)
    count = _count_rows(narrowed, most_rows)
    cut = table._replace(groups=_first_rows(groups, count))
    return Part(cut, len(table.rows) - count, max(0, len(begun) - MOST_COLUMNS))
