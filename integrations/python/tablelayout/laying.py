"""Lays the tables that are shown out, in the way that fits."""
from __future__ import annotations

from typing import TYPE_CHECKING, NamedTuple, Optional

from .errors import TooNarrow
from .items import Item
from .layouter import Layouter
from .pages import LowPage
from .sources import Options, Source

if TYPE_CHECKING:
    from .vertical import Columns

# How words break where nothing else is asked for: as few as can be, so that a layout fits.
BREAKING = "fit"
# Options of the program that change how a page is written.
TRIM, HTML_PAGE = "--trim", "--html"


class Shown(NamedTuple):
    """A page as it is printed, with the message of the program, and what of the table is left out."""

    text: str
    message: str
    status: int
    more: str


class Way(NamedTuple):
    """How tables are laid out: for which width, by which options, and whether as records.

    ``records`` is True for records, False for never, and None for records where nothing else fits. ``is_bold`` shows heads
    in bold.
    """

    width: int
    options: Options
    records: Optional[bool] = None
    is_bold: bool = False


def _printed(text: str, blank: str, options: Options) -> str:
    """A page as it is printed. ``blank`` stands for a space at which no line breaks; with ``--trim`` no line ends with one."""
    if not blank:
        return text
    if HTML_PAGE in options.more:
        return text.replace(blank, "&nbsp;")
    text = text.replace(blank, " ")
    return "\n".join(line.rstrip(" ") for line in text.split("\n")) if TRIM in options.more else text


def _with_breaking(options: Options, page: LowPage) -> Options:
    """Options by which the words of a part of the page break as they do on the whole page."""
    return options if page.breaking is None else options._replace(breaking=str(page.breaking))


def _lay_records(layouter: Layouter, item: Item, columns: "Columns", way: Way) -> Shown:
    from .subset import file_of
    from .vertical import vertical_of

    vertical = vertical_of(columns)
    file = file_of(vertical.html)
    # The columns of records are names and values, whatever those of the table are.
    page = layouter.lay_source(Source(file.data), way.width, way.options._replace(align=None))
    hint = "; --rows chooses others" if item.source.is_rows and not item.more else ""
    more = " and ".join(it for it in (f"{vertical.more:,} more records" if vertical.more else "", item.more) if it)
    return Shown(_printed(page.text, file.blank, way.options), page.message, page.status, more + (hint if vertical.more else ""))


def lay_item(layouter: Layouter, item: Item, way: Way) -> Shown:
    """The page of a table, or of its records. Raises what Layouter.lay does."""
    columns = item.columns() if way.records else None
    if columns:
        return _lay_records(layouter, item, columns, way)
    try:
        page = layouter.lay_source(item.source, way.width, way.options)
    except TooNarrow:
        columns = item.columns() if way.records is None else None
        if not columns:
            raise
        return _lay_records(layouter, item, columns, way)
    text = _printed(page.text, item.blank, way.options)
    if way.is_bold:
        from .bold import bolded, head_height

        text = bolded(text, head_height(layouter, page, _with_breaking(way.options, page)))
    return Shown(text, page.message, page.status, item.more)
