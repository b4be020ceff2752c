"""Tables of pages as files of the subset of HTML that the program reads (docs/READING.md)."""
from __future__ import annotations

import re
from typing import Dict, List, NamedTuple, Optional, Sequence, Tuple
from xml.etree.ElementTree import Element

from .flow import Block, blocks_of, flat_blocks_of
from .forming import Cell, Table, form
from .limits import columns_begun, first_part
from .sizes import MOST_DEPTH, MOST_TABLES
from .texts import BLANK, blank_for


class File(NamedTuple):
    """A file of the subset, and the character that stands in it for a space at which no line breaks."""

    data: bytes
    blank: str

    def shown(self, page: str) -> str:
        """The page with these spaces."""
        return page.replace(self.blank, " ")


def escaped(text: str) -> str:
    """Text with references for what begins a tag or a reference."""
    return text.replace("&", "&amp;").replace("<", "&lt;").replace(">", "&gt;")


def paragraph_html(lines: Tuple[str, ...]) -> str:
    """A paragraph of these lines."""
    return "<p>" + "<br>".join(escaped(line) for line in lines) + "</p>"


# The sides that the program knows, by the words for them in pages, and a style that says one.
_SIDES = {"left": "left", "right": "right", "center": "center", "middle": "center"}
_TEXT_ALIGN = re.compile(r"(?:^|;)\s*text-align\s*:\s*(left|right|center)\s*(?:!\s*important\s*)?(?=;|$)", re.I)


def side_of(cell: Element) -> Optional[str]:
    """The side that a cell asks for, by its ``style``, or else by its ``align``; None if it asks for none."""
    styles: List[str] = _TEXT_ALIGN.findall(cell.get("style", ""))
    return _SIDES.get((styles[-1] if styles else cell.get("align", "")).lower())


# The least widths of cells, in columns of text.
Floors = Dict[Element, int]


def floors_of(table: Table, widths: Sequence[int]) -> Optional[Floors]:
    """For each column the floor of one of its cells, so that the column is at least so wide.

    None if the table has not as many columns, or a column has no cell of its own.
    """
    columns = columns_begun(table)
    own = {cell.column: cell.element for row in table.rows for cell in row if cell.columns == 1}
    if len(columns) != len(widths) or not own.keys() >= set(columns):
        return None
    return {own[column]: width for column, width in zip(columns, widths)}


class _Writer:
    """Writes one file, with no more tables inside one another, and in all, than the program takes."""

    def __init__(self, floors: Optional[Floors] = None) -> None:
        self._tables = 0
        self._floors = floors or {}

    def flow(self, blocks: List[Block], depth: int) -> str:
        """The content of a cell that is inside so many tables: paragraphs, and tables in it."""
        return "".join(self._nested(it, depth) if isinstance(it, Element) else paragraph_html(it) for it in blocks)

    def _nested(self, element: Element, depth: int) -> str:
        """A table in a cell; the paragraphs of its cells alone if it passes a limit."""
        table = form(element)
        if depth < MOST_DEPTH and self._tables < MOST_TABLES and first_part(table).is_whole:
            return self.table(table, depth)
        return self.flow(flat_blocks_of(element), depth)

    def _cell(self, cell: Cell, depth: int) -> str:
        name = "th" if cell.is_header else "td"
        spans = "".join(f" {attribute}={count}" for attribute, count in (("colspan", cell.columns), ("rowspan", cell.rows)) if count > 1)
        floor, side = self._floors.get(cell.element, 0), side_of(cell.element)
        more = (f" data-min={floor}" if floor else "") + (f" align={side}" if side else "")
        return f"<{name}{spans}{more}>{self.flow(blocks_of(cell.element), depth)}</{name}>"

    def table(self, table: Table, depth: int) -> str:
        """A table that is inside so many others."""
        self._tables += 1
        caption = "".join(self.flow(blocks_of(it), depth + 1) for it in table.captions)
        parts = ["<table>\n", f"<caption>{caption}</caption>\n" if caption else ""]
        for group in table.groups:
            rows = ("<tr>" + "".join(self._cell(cell, depth + 1) for cell in row) + "</tr>\n" for row in group.rows)
            parts.extend([f"<{group.name}>\n", *rows, f"</{group.name}>\n"])
        parts.append("</table>\n")
        return "".join(parts)


def flow_html(blocks: List[Block]) -> str:
    """The content of a cell of an outer table: paragraphs, and tables in it."""
    return _Writer().flow(blocks, 1)


def table_html(table: Table, floors: Optional[Floors] = None) -> str:
    """A table of a page as a file, with BLANK in it."""
    return _Writer(floors).table(table, 0)


def file_of(html: str) -> File:
    """The file of a table that is written as the subset, with BLANK in it."""
    blank = blank_for([html])
    return File(html.replace(BLANK, blank).encode("utf-8"), blank)
