"""``tablelayout page``: a whole document, its text and its tables, as pandoc and the filter write it."""
from __future__ import annotations

import os
from typing import List, Optional, Sequence

from . import terminal
from .arguments import Parser, width_of_page
from .decoding import decode
from .documents import run_pandoc
from .faults import LongFile, MissingPackage, PandocFault
from .inputs import read_input
from .kinds import HTML, Kind, kind_by_content, kind_by_name
from .program import find_program
from .show import STATUS_BAD_INPUT, STATUS_FAILED, STATUS_LIMIT, STATUS_READ_FAULT, STATUS_WRITE_FAULT

_FILTER = "tablelayout.lua"
# Where the filter is, from a folder above this package: in a checkout, and below a PREFIX.
_PLACES = ("integrations/pandoc", "share/pandoc/filters")


def find_filter() -> Optional[str]:
    """The filter for pandoc that stands beside this package, or None."""
    folder = os.path.dirname(os.path.realpath(__file__))
    while folder != os.path.dirname(folder):
        folder = os.path.dirname(folder)
        for place in _PLACES:
            path = os.path.join(folder, place, _FILTER)
            if os.path.isfile(path):
                return path
    return None


def _format_of(kind: Kind) -> str:
    if kind.name == "pandoc":
        return kind.detail or "markdown"
    return "html" if kind == HTML else kind.name


def _arguments(form: str, width: int) -> List[str]:
    # pandoc finds a filter that is installed by its name alone.
    return ["-f", form, "-t", "plain", f"--columns={width}", f"--lua-filter={find_filter() or _FILTER}"]


def _read_declared(data: bytes) -> bytes:
    """A page of HTML in UTF-8, from the encoding that it says, or that its bytes are."""
    found = decode(data)
    if found.encoding == "utf-8":
        return data
    import re

    declared = re.search(rb"charset\s*=\s*[\"']?\s*([\w-]+)", data[:1024])
    try:
        return decode(data, declared[1].decode("ascii") if declared else None).text.encode("utf-8")
    except LookupError:
        return found.text.encode("utf-8")


def _for_pandoc(data: bytes) -> bytes:
    """A page of HTML in UTF-8, which alone pandoc reads, with all tags, without which it does not find some tables."""
    from .web import parse, written

    try:
        return written(parse(data))
    except MissingPackage:
        return _read_declared(data)


def _parser() -> Parser:
    it = Parser("page", "Shows a whole document, its text and its tables, for the terminal's width.")
    it.add_argument("file", nargs="?", default="-", metavar="IN", help="the document; standard input where it is left out or -")
    it.add_argument("--width", type=width_of_page, metavar="N", help="the width in columns, that of the terminal without it")
    it.add_argument("--from", dest="form", metavar="FORMAT", help="what pandoc reads; found by the name and content without it")
    return it


def text_of(name: str, form: Optional[str], width: int) -> bytes:
    """The document of a file as text, at most so many columns wide where its tables can be.

    ``form`` is what pandoc reads; None finds it. Raises OSError, LongFile, MissingPackage and PandocFault.
    """
    data = read_input(name)
    form = form or _format_of(kind_by_name(name) or kind_by_content(data))
    if form == "html":
        data = _for_pandoc(data)
    return run_pandoc(_arguments(form, width), data, find_program())


def main(arguments: Sequence[str]) -> int:
    """Runs ``page`` and returns its status: 0, 1 without pandoc, 5 where that cannot read the file, 6, 7 or 8."""
    given = _parser().parse(arguments)
    try:
        text = text_of(given.file, given.form, given.width or terminal.columns())
    except OSError as fault:
        terminal.write_message(["read fault", f"{given.file}: {fault.strerror}"])
        return STATUS_READ_FAULT
    except (LongFile, MissingPackage, PandocFault) as fault:
        terminal.write_message([str(fault)])
        return {LongFile: STATUS_LIMIT, MissingPackage: STATUS_FAILED, PandocFault: STATUS_BAD_INPUT}[type(fault)]
    try:
        terminal.write_page(text)
    except OSError:
        return STATUS_WRITE_FAULT
    return 0
