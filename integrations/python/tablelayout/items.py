"""What is shown of a file: its tables, each as a source for the program."""
from __future__ import annotations

from typing import TYPE_CHECKING, Callable, List, NamedTuple, Optional, Sequence, Union

from .decoding import decode
from .kinds import CSV, HTML, JSON_LINES, Kind
from .records import Choice, Record, Records, choose, cleaned, first_part, read_csv, rows_chosen
from .rows import csv_of
from .sources import Source, csv_words

# What a kind of file needs is loaded where it is read, since `show` has to start at once.
if TYPE_CHECKING:
    from .vertical import Columns

_FIRST_WORDS = 50


class Item(NamedTuple):
    """One table: its source, and what is known of it.

    ``blank`` stands in its page for a space. ``more`` says what of it is left out. ``columns`` makes the columns of its
    records, if it has records. ``with_widths`` makes the source with least widths of all columns, in columns of text, or
    None if these are not the widths of its columns.
    """

    source: Source
    rows: int = 0
    width: int = 0
    caption: str = ""
    first_words: str = ""
    blank: str = ""
    more: str = ""
    columns: Callable[[], "Optional[Columns]"] = lambda: None
    with_widths: Callable[[Sequence[int]], Optional[Source]] = lambda _: None


class Found(NamedTuple):
    """The tables of a file, and what was found on the way, a line each."""

    items: List[Item]
    notes: List[str]


class Reading(NamedTuple):
    """How a file is read, as the options say."""

    head: bool = False
    least: "tuple[int, ...]" = ()
    delimiter: Optional[str] = None
    encoding: Optional[str] = None
    rows: Optional[str] = None
    columns: Optional[str] = None

    @property
    def choice(self) -> Choice:
        """The rows and columns that are chosen. Raises BadChoice."""
        return Choice(rows_chosen(self.rows) if self.rows else None, self.columns)


def _first_words(text: str) -> str:
    words = " ".join(text.split())
    return words if len(words) <= _FIRST_WORDS else words[:_FIRST_WORDS] + ".."


def item_of_records(records: List[Record], has_head: bool, reading: Reading) -> Item:
    """The item of records, of which the first ones are taken that the program takes. Raises BadChoice."""
    chosen = choose(records, has_head, reading.choice)
    part = first_part(chosen)
    clean = cleaned(part.records)
    data, _ = csv_of(clean)
    width = len(chosen[0]) if chosen else 0
    source = Source(data, csv_words(has_head and bool(clean), reading.least), is_rows=True)
    rows = len(chosen) - (has_head and bool(chosen))
    words = _first_words(" ".join(clean[0])) if clean else ""
    more = f"{part.rest()}; --rows and --columns choose others" if part.rest() else ""
    return Item(source, rows, width, first_words=words, more=more, columns=lambda: _columns_of(clean, has_head),
                with_widths=lambda widths: _with_widths(source, clean, widths))


def _with_widths(source: Source, records: List[Record], widths: Sequence[int]) -> Optional[Source]:
    has_all = len(widths) == len(records[0]) if records else False
    return source._replace(words=csv_words("--head" in source.words, widths)) if has_all else None


def _columns_of(records: List[Record], has_head: bool) -> "Columns":
    from .vertical import columns_of_records

    return columns_of_records(records, has_head)


def _read_csv(data: bytes, kind: Kind, reading: Reading) -> Found:
    decoded = decode(data, reading.encoding)
    found: Records = read_csv(decoded.text, reading.delimiter or kind.detail)
    notes = [f"read as {decoded.encoding}, since it is not UTF-8"] if decoded.is_guessed else []
    return Found([item_of_records(found.records, reading.head, reading)] if found.records else [], notes + found.notes)


def _read_json(data: bytes, kind: Kind, reading: Reading) -> Found:
    from .json_values import read_json

    decoded = decode(data, reading.encoding)
    table = read_json(decoded.text, kind == JSON_LINES)
    return Found([item_of_records(table.records, table.has_head or reading.head, reading)], [])


def _read_html(data: bytes, reading: Reading) -> Found:
    from .web_items import items_of_page

    return Found(items_of_page(data, reading.encoding), [])


def read_items(data: bytes, kind: Kind, reading: Reading) -> Found:
    """The tables of a file.

    Raises BadChoice, BadFile, PandocFault, MissingPackage, and LookupError for an encoding that is none.
    """
    if kind == HTML:
        return _read_html(data, reading)
    if kind.name == CSV.name:
        return _read_csv(data, kind, reading)
    if kind.name == "pandoc":
        from .documents import html_of

        return _read_html(html_of(data, kind.detail or ""), Reading(encoding="utf-8"))
    return _read_json(data, kind, reading)


def read_parts(data: bytes, kind: Kind) -> List[Union[str, Item]]:
    """What a file shows, in order: the lines of each paragraph, and the tables between them. Raises what read_items does."""
    if kind == HTML or kind.name == "pandoc":
        from .web_items import parts_of_page

        if kind == HTML:
            return parts_of_page(data, None)
        from .documents import html_of

        return parts_of_page(html_of(data, kind.detail or ""), "utf-8")
    return [*read_items(data, kind, Reading()).items]
