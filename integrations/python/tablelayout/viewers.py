"""Tables for programs that show files: ``lessopen`` for less, ``textconv`` for git."""
from __future__ import annotations

from typing import Iterable, List, Optional, Sequence, Union

from . import terminal
from .arguments import MOST_WIDTH, STATUS_USAGE, Parser, widths_of_columns
from .errors import Error, TooNarrow
from .faults import BadChoice, BadFile, MissingPackage, PandocFault
from .items import Item, read_parts
from .kinds import CSV, HTML, kind_by_content, kind_by_name
from .laying import BREAKING, Way, lay_item
from .layouter import Layouter
from .pages import TidyPage
from .sources import Options

STATUS_READ_FAULT, STATUS_WRITE_FAULT = 7, 8
_FAULTS = (Error, MissingPackage, PandocFault, BadFile, BadChoice, LookupError, OSError, MemoryError)
# The style, and the spaces that it has between columns.
_STYLE, _GAP = "compact", 1
# A diff is read on other terminals than the one on which it is made.
_DIFF_COLUMNS = 120


def _parts(name: str, data: bytes) -> List[Union[str, Item]]:
    """What the file shows; nothing of a file without a table. A head is not told, and looks as all else."""
    parts = read_parts(data, kind_by_name(name) or kind_by_content(data))
    return parts if any(isinstance(it, Item) for it in parts) else []


def _joined(texts: Iterable[str]) -> bytes:
    return "\n".join(texts).encode("utf-8", "replace")


def _shown_parts(name: str, data: bytes) -> bytes:
    way = Way(terminal.columns(), Options(_STYLE, BREAKING))

    def shown(part: Union[str, Item]) -> str:
        if isinstance(part, str):
            return part
        page = lay_item(layouter, part, way)
        return page.text + (f"{page.more}\n" if page.more else "")

    with Layouter() as layouter:
        return _joined(shown(it) for it in _parts(name, data))


def _shown_document(name: str, data: bytes) -> bytes:
    """A page of HTML as pandoc writes it, where there is pandoc; else with each paragraph on a line, which less wraps."""
    from .page import text_of

    shown = _shown_parts(name, data)
    try:
        return text_of(name, None, terminal.columns()) if shown else shown
    except (MissingPackage, PandocFault):
        return shown


def lessopen(arguments: Sequence[str]) -> int:
    """Prints a file of HTML that has tables, or the table of a CSV file.

    Of all else, and where that fails, it prints nothing, so that less shows the file.
    """
    if len(arguments) != 1:
        terminal.write_message(["usage", "tablelayout lessopen: it takes one file"])
        return STATUS_USAGE
    name = arguments[0]
    kind = kind_by_name(name)
    if kind is None or kind.name not in (CSV.name, HTML.name):
        return 0
    try:
        with open(name, "rb") as file:
            data = file.read()
        terminal.write_page(_shown_document(name, data) if kind == HTML else _shown_parts(name, data))
    except _FAULTS:
        return 0
    return 0


def _page_of_widths(layouter: Layouter, item: Item, widths: Sequence[int]) -> Optional[TidyPage]:
    """The page whose columns have these widths; None if they are not those of the table, or a word is wider than its column."""
    source = item.with_widths(widths)
    # A page that is no wider than its columns at their least leaves them no choice.
    columns = sum(widths) + _GAP * (len(widths) - 1)
    if source is None or not 1 <= columns <= MOST_WIDTH:
        return None
    try:
        return layouter.tidy_source(source, columns, Options(_STYLE, "words"))
    except TooNarrow:
        return None


def _tidy_page(layouter: Layouter, item: Item) -> TidyPage:
    """The page that is the same whatever the search."""
    return layouter.tidy_source(item.source, _DIFF_COLUMNS, Options(_STYLE, BREAKING))


def _diffable_page(layouter: Layouter, item: Item, widths: Sequence[int]) -> str:
    page = (_page_of_widths(layouter, item, widths) if widths else None) or _tidy_page(layouter, item)
    text = page.text.replace(item.blank, " ") if item.blank else page.text
    # A line that ends in spaces is marked in a diff.
    return "".join(line.rstrip() + "\n" for line in text.splitlines())


class _Cut(Exception):
    """A part of a table would be left out."""


def _diffable(name: str, data: bytes, widths: Sequence[int]) -> bytes:
    """What the file shows, each paragraph on its lines. Raises _Cut where a change might not be seen."""

    def diffable(part: Union[str, Item]) -> str:
        if isinstance(part, str):
            return part
        if part.more:
            raise _Cut
        return _diffable_page(layouter, part, widths)

    with Layouter() as layouter:
        return _joined(diffable(it) for it in _parts(name, data))


def _parser() -> Parser:
    it = Parser("textconv", "Prints a file with its tables for a diff, or the file itself. The file is the last argument.")
    it.add_argument("--widths", type=widths_of_columns, default=(), metavar="LIST",
                    help="the widths of the columns, as 12,30,8, for tables of so many columns where each word fits its column")
    return it


def textconv(arguments: Sequence[str]) -> int:
    """Prints a file with its tables for a diff; the file itself where that fails, or it has none, or one is beyond the limits.

    A table whose columns have the widths of ``--widths`` has them; any other is on its tidy page.
    """
    parser = _parser()
    # git names a file as it is, with `-` at its beginning too.
    given = parser.parse(arguments[:-1] if arguments[-1:] != ["--help"] else arguments)
    if not arguments:
        parser.error("a file is missing")
    name = arguments[-1]
    try:
        with open(name, "rb") as file:
            data = file.read()
    except OSError as fault:
        terminal.write_message([f"{name}: {fault.strerror}"])
        return STATUS_READ_FAULT
    try:
        text = _diffable(name, data, given.widths) or data
    except (_Cut, *_FAULTS):
        text = data
    try:
        terminal.write_page(text)
    except OSError:
        return STATUS_WRITE_FAULT
    return 0
