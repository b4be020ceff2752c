"""``tablelayout show``: any file's tables on a terminal, or in a pipe."""
from __future__ import annotations

import argparse
from typing import TYPE_CHECKING, List, NamedTuple, Optional, Sequence

from . import terminal
from .arguments import (STATUS_USAGE, Parser, alignment, breaking, number_up_to, whole_number, width_of_page, widths_of_columns,
                        with_defaults)
from .decoding import decode
from .errors import BadInput, BadRequest, Error, LimitPassed, Overlap, TooNarrow
from .explain import explained
from .faults import BadChoice, BadFile, LongFile, MissingPackage, PandocFault
from .inputs import read_input
from .items import Item, Reading, read_items
from .kinds import CSV, HTML, JSON, Kind, kind_by_content, kind_by_name
from .laying import BREAKING, HTML_PAGE, TRIM, Shown, Way, lay_item
from .layouter import Layouter
from .records import NAMED_DELIMITERS, find_delimiter
from .sources import Options, Source, csv_words
from .texts import has_marks

if TYPE_CHECKING:
    from .progress import ProgressLine

STATUS_FAILED, STATUS_BAD_INPUT, STATUS_LIMIT, STATUS_READ_FAULT, STATUS_WRITE_FAULT, STATUS_MEMORY = 1, 5, 6, 7, 8, 9
# What the program takes, so that what it does not is told by its name.
_STYLES, _SOLVERS = ("plain", "compact", "rule", "apart", "frame", "grid", "box"), ("plain", "best", "learn", "rounds")
_MOST_BUDGET, _MOST_WORKERS = 100_000, 16


def _delimiter(text: str) -> str:
    delimiter = NAMED_DELIMITERS.get(text, text)
    if len(delimiter) != 1 or delimiter in '"\r\n':
        raise argparse.ArgumentTypeError(f"{text} is no delimiter: one character, or comma, tab, semicolon, bar")
    return delimiter


def parser() -> Parser:
    """The options."""
    it = Parser("show", "Shows the tables of a file, each on its lowest page.",
                "The environment's TABLELAYOUT_OPTIONS has options that stand before those that are given.")
    it.add_argument("file", nargs="?", default="-", metavar="IN", help="the file; standard input where it is left out or -")
    it.add_argument("--width", type=width_of_page, metavar="N", help="the page's width in columns, that of the terminal without it")
    it.add_argument("--table", type=whole_number, metavar="N", help="the N-th table alone, counted from 1")
    it.add_argument("--list", action="store_true", help="a line for each table in place of its page")
    it.add_argument("--csv", dest="kind", action="store_const", const=CSV, help="IN is a CSV file")
    it.add_argument("--json", dest="kind", action="store_const", const=JSON, help="IN is JSON, or a line of JSON for each row")
    it.add_argument("--markup", dest="kind", action="store_const", const=HTML, help="IN is HTML")
    it.add_argument("--head", action="store_true", help="the first record is a head")
    it.add_argument("--least", type=widths_of_columns, default=(), metavar="LIST", help="the least widths of the first columns, as 5,0,12")
    it.add_argument("--delimiter", type=_delimiter, metavar="CHARACTER", help="what stands between fields; found without it")
    it.add_argument("--encoding", metavar="NAME", help="the encoding of IN; found without it")
    it.add_argument("--rows", metavar="A-B", help="these rows alone, counted from 1")
    it.add_argument("--columns", metavar="LIST", help="these columns alone, as a,c-f, by name or number")
    it.add_argument("--records", action=_Records, help="each row as two columns, of names and values")
    it.add_argument("--strict", action="store_true", help="only what the program itself reads, with the place of what it does not")
    it.add_argument("--style", default="rule", choices=_STYLES, metavar="STYLE",
                    help="how the page is drawn: plain, compact, rule (without it), apart, frame, grid, box")
    it.add_argument("--break", dest="breaking", type=breaking, metavar="words|any|fit|N",
                    help="how words break: not, all, as few as can be (without it), or those wider than N columns")
    it.add_argument("--budget", type=number_up_to(_MOST_BUDGET), metavar="N", help="how many cuts one search may make")
    it.add_argument("--solver", choices=_SOLVERS, metavar="SEARCH", help="which search finds the page")
    it.add_argument("--workers", type=number_up_to(_MOST_WORKERS, 1), metavar="K", help="how many workers search at one time")
    it.add_argument("--align", default="auto", type=alignment, metavar="LIST|auto|cells",
                    help="the side of each column, as l,r,c, or auto (without it): columns of numbers stand at the right; "
                         "or cells: so too, but for cells that ask for a side")
    it.add_argument("--trim", action="store_true", help="no spaces at the ends of lines")
    it.add_argument("--html", action="store_true", help="the page as HTML with its widths")
    it.add_argument("--progress", action="store_true", help="how far a search has come, not on a terminal alone")
    it.add_argument("--quiet", dest="is_verbose", action="store_const", const=False, help="print errors alone")
    it.add_argument("--verbose", dest="is_verbose", action="store_const", const=True,
                    help="print the program's message below each page, in pipes too")
    return it


class _Records(argparse.Action):
    """``--records`` asks for records; without it they are shown where nothing else fits."""

    def __init__(self, option_strings: Sequence[str], dest: str, help: Optional[str] = None) -> None:
        super().__init__(option_strings, dest, nargs=0, default=None, help=help)

    def __call__(self, _: argparse.ArgumentParser, namespace: argparse.Namespace, *__: object) -> None:
        setattr(namespace, self.dest, True)


class _Fault(Exception):
    """Nothing can be shown: a status, and the lines that say why."""

    def __init__(self, status: int, lines: List[str]) -> None:
        super().__init__("\n".join(lines))
        self.status = status
        self.lines = lines


class _Input(NamedTuple):
    data: bytes
    kind: Kind


def _read(given: argparse.Namespace) -> _Input:
    try:
        data = read_input(given.file)
    except OSError as fault:
        raise _Fault(STATUS_READ_FAULT, ["read fault", f"{given.file}: {fault.strerror}"]) from None
    except LongFile as fault:
        raise _Fault(STATUS_LIMIT, [str(fault)]) from None
    return _Input(data, given.kind or kind_by_name(given.file) or kind_by_content(data))


def _as_it_is(given: argparse.Namespace, came: _Input) -> Optional[Source]:
    """The file itself as a source, if the program may read it and no option asks for more."""
    more = [given.list, given.encoding, given.rows, given.columns, given.records]
    if any(more) or given.table is not None or given.delimiter not in (None, ","):
        return None
    if came.kind == HTML:
        return Source(came.data)
    return Source(came.data, csv_words(given.head, given.least)) if came.kind == CSV else None


def _is_changed(came: _Input) -> bool:
    """Whether the front reads the file in another way than the program, which would take it."""
    return has_marks(came.data) or came.kind == CSV and find_delimiter(decode(came.data).text) != ","


class _Show:
    """One run: what is asked for, and what is printed."""

    def __init__(self, given: argparse.Namespace, layouter: Layouter) -> None:
        self._given = given
        self._layouter = layouter
        self._room = terminal.columns()
        self._says_numbers = terminal.is_terminal() if given.is_verbose is None else given.is_verbose
        more = tuple(name for name, is_given in ((TRIM, given.trim), (HTML_PAGE, given.html)) if is_given)
        options = Options(given.style, given.breaking or BREAKING, given.budget, given.solver, given.workers, given.align, more)
        records = False if given.html or given.strict else given.records
        self._way = Way(given.width or self._room, options, records, terminal.has_bold() and not given.html)

    def run(self) -> int:
        """Shows the file, and returns the status."""
        came = _read(self._given)
        source = _as_it_is(self._given, came)
        refused = None
        if self._given.strict and source is None:
            raise _Fault(STATUS_USAGE, ["usage", "tablelayout show: --strict gives a file of HTML or CSV to the program as it is"])
        if source is not None and (self._given.strict or not _is_changed(came)):
            try:
                # If it is too narrow the front may still show its records.
                way = self._way._replace(records=False)
                return self._print(lay_item(self._layouter, Item(source), way))
            except (BadInput, Overlap, LimitPassed, TooNarrow) as error:
                refused = _Fault(error.status, self._explained(error, source))
                if self._given.strict:
                    raise refused from None
        return self._show_items(self._items(came, refused))

    def _items(self, came: _Input, refused: Optional[_Fault]) -> List[Item]:
        """The tables of the file. ``refused`` says why the program does not take it as it is, if it was asked."""
        given = self._given
        if (given.rows or given.columns) and came.kind.name in ("html", "pandoc"):
            raise _Fault(STATUS_USAGE, ["usage", "tablelayout show: --rows and --columns are of CSV and JSON"])
        reading = Reading(given.head, given.least, given.delimiter, given.encoding, given.rows, given.columns)
        try:
            found = read_items(came.data, came.kind, reading)
        except MissingPackage as missing:
            refused = refused or _Fault(STATUS_FAILED, [])
            raise _Fault(refused.status, [*refused.lines, str(missing)]) from None
        except (BadChoice, LookupError) as fault:
            raise _Fault(STATUS_USAGE, ["usage", f"tablelayout show: {fault}"]) from None
        except (BadFile, PandocFault) as fault:
            raise _Fault(STATUS_BAD_INPUT, [f"bad input: {fault}"]) from None
        for note in found.notes:
            self._note(note)
        if not found.items:
            raise _Fault(STATUS_BAD_INPUT, ["bad input: there is no table in it"])
        if given.table is not None and not 1 <= given.table <= len(found.items):
            raise _Fault(STATUS_USAGE, ["usage", f"tablelayout show: there is no table {given.table}: the file has {len(found.items)}"])
        return found.items

    def _show_items(self, items: List[Item]) -> int:
        if self._given.list:
            for number, item in enumerate(items, 1):
                self._write(_line_of(number, item))
            return 0
        if self._given.table is not None:
            return self._show_item(items[self._given.table - 1], 0)
        statuses = []
        for number, item in enumerate(items, 1):
            if number > 1:
                self._write("\n")
            statuses.append(self._show_item(item, number if len(items) > 1 else 0))
        # That a search was ended says less than that there is no page.
        return max(statuses)

    def _show_item(self, item: Item, number: int) -> int:
        if number and not item.caption:
            self._write(f"Table {number}\n")
        try:
            return self._print(lay_item(self._layouter, item, self._way))
        except (BadRequest, MemoryError):
            raise
        except Error as error:
            name = [f"table {number}:"] if number else []
            terminal.write_message([*name, *self._explained(error, item.source)])
            return error.status

    def _print(self, shown: Shown) -> int:
        self._write(shown.text)
        if shown.more:
            self._write(shown.more + "\n")
        self._note(shown.message)
        return shown.status

    def _explained(self, error: Error, source: Source) -> List[str]:
        return explained(error, source, self._way.width, self._way.options.breaking, self._room)

    def _write(self, text: str) -> None:
        terminal.write_page(text.encode("utf-8", "replace"))

    def _note(self, text: str) -> None:
        if self._says_numbers:
            terminal.write_message([text])


def _line_of(number: int, item: Item) -> str:
    words = ": ".join(it for it in (item.caption, item.first_words) if it)
    return f"{number:3}  {item.rows:,} x {item.width:,}  {words}".rstrip() + "\n"


def _progress_line(given: argparse.Namespace) -> "Optional[ProgressLine]":
    """What draws how far a search has come: on a terminal, where more than errors is wanted."""
    if not terminal.has_errors_on_terminal() or given.is_verbose is False and not given.progress:
        return None
    from .progress import ProgressLine

    return ProgressLine()


def main(arguments: Sequence[str]) -> int:
    """Runs ``show`` and returns its status: that of ``lay``, and with several tables the greatest."""
    known = parser()
    given = known.parse(with_defaults(known, arguments))
    try:
        with Layouter(progress=_progress_line(given), says_progress=given.progress) as layouter:
            return _Show(given, layouter).run()
    except _Fault as fault:
        terminal.write_message(fault.lines)
        return fault.status
    except Error as error:
        terminal.write_message([error.message])
        return error.status
    except MemoryError:
        terminal.write_message(["out of memory"])
        return STATUS_MEMORY
    except BrokenPipeError:
        # Who reads the page has read enough of it.
        return STATUS_WRITE_FAULT
    except OSError:
        terminal.write_message(["standard output could not be written"])
        return STATUS_WRITE_FAULT
