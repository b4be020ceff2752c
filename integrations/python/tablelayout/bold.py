"""The head of a page in bold, on a terminal."""
from __future__ import annotations

import re
from typing import List, Optional

from .errors import Error
from .layouter import Layouter
from .pages import LowPage
from .sources import Options, Source

_BOLD, _PLAIN = "\x1b[1m", "\x1b[0m"
# The first lines of the page as HTML: docs/COMMAND.md, "The HTML page".
_BEGINNING = re.compile(
    r"<table>\n(?P<caption><caption>(?:(?!<table).)*</caption>\n)?<colgroup>(?P<columns>.*)</colgroup>\n<tr>(?P<cells>(?:<th>.*?</th>)+)</tr>\n")
_WIDTH = re.compile(r"width:(\d+)ch")


def _head_alone(html: str) -> Optional[str]:
    """A table of the caption and the first row, if that is a head of one cell a column, with columns of the same widths."""
    beginning = _BEGINNING.match(html)
    if not beginning or "<table" in beginning["cells"]:
        return None
    widths: List[str] = _WIDTH.findall(beginning["columns"])
    cells = beginning["cells"].split("<th>")[1:]
    if len(cells) != len(widths):
        return None
    row = "".join(f"<th data-min={width}>{cell}" for width, cell in zip(widths, cells))
    return f"<table>{beginning['caption'] or ''}<tr>{row}</table>"


def head_height(layouter: Layouter, page: LowPage, options: Options) -> int:
    """How many of the first lines of a page are its head, with the caption above; 0 if that is not known."""
    head = _head_alone(page.html)
    if head is None:
        return 0
    try:
        # No column can be wider than it is on the page, so each cell has the lines that it has there.
        return layouter.lay_source(Source(head.encode("utf-8")), page.width, options).height
    except Error:
        return 0


def bolded(text: str, count: int) -> str:
    """The page with so many of its first lines in bold."""
    lines = text.split("\n")
    return "\n".join([*(f"{_BOLD}{line}{_PLAIN}" if line.strip() else line for line in lines[:count]), *lines[count:]])
