"""The tables of a page of HTML."""
from __future__ import annotations

from typing import List, Optional, Sequence, Tuple, Union
from xml.etree.ElementTree import Element

from .flow import blocks_of
from .forming import Table, form
from .items import Item
from .limits import Part, first_part
from .sizes import MOST_BYTES
from .sources import Source
from .subset import File, file_of, floors_of, table_html
from .texts import BLANK
from .vertical import columns_of_table
from .web import parse, tables_of

_FIRST_WORDS = 50


def _words(element: Element) -> str:
    """The first words of an element, those of nested tables left out."""
    lines = [line for block in blocks_of(element) if not isinstance(block, Element) for line in block]
    return " ".join(" ".join(lines).replace(BLANK, " ").split())


def _first_words(elements: List[Element]) -> str:
    words = ""
    for it in elements:
        words = f"{words} {_words(it)}".strip()
        if len(words) > _FIRST_WORDS:
            return words[:_FIRST_WORDS] + ".."
    return words


def _file_of_part(table: Table) -> Tuple[File, Part]:
    """The file of as many of the first rows and columns as the program takes."""
    part = first_part(table)
    file = file_of(table_html(part.table))
    while len(file.data) > MOST_BYTES and len(part.table.rows) > 1:
        # So many rows would fit if all were alike, less a tenth.
        part = first_part(table, max(1, len(part.table.rows) * MOST_BYTES // len(file.data) * 9 // 10))
        file = file_of(table_html(part.table))
    return file, part


def _with_widths(table: Table, widths: Sequence[int]) -> Optional[Source]:
    floors = floors_of(table, widths)
    return None if floors is None else Source(file_of(table_html(table, floors)).data)


def item_of(element: Element) -> Item:
    """The item of a table of a parsed page."""
    table = form(element)
    file, part = _file_of_part(table)
    caption = " ".join(_words(it) for it in table.captions)
    cells = [cell.element for row in table.rows for cell in row]
    return Item(Source(file.data), len(table.rows), table.columns, caption, _first_words(cells), file.blank, part.rest(),
                lambda: columns_of_table(part.table), lambda widths: _with_widths(part.table, widths))


def items_of_page(data: bytes, encoding: Optional[str]) -> List[Item]:
    """The tables of a page that are inside no other. Raises MissingPackage."""
    return [item_of(it) for it in tables_of(parse(data, encoding))]


def parts_of_page(data: bytes, encoding: Optional[str]) -> List[Union[str, Item]]:
    """What a page shows, in order: the lines of each paragraph, and the tables between them. Raises MissingPackage."""
    return [item_of(it) if isinstance(it, Element) else "".join(f"{line}\n" for line in it).replace(BLANK, " ")
            for it in blocks_of(parse(data, encoding))]
