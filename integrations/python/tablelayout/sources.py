"""What is laid out, and how it is asked for, as words and bytes of a request."""
from __future__ import annotations

from typing import List, NamedTuple, Optional, Sequence, Tuple, Union

from .rows import Rows, csv_of


class Source(NamedTuple):
    """A file, the words that say what it is, and whether it was made from rows."""

    data: bytes
    words: Tuple[str, ...] = ()
    is_rows: bool = False

    @property
    def is_csv(self) -> bool:
        """Whether it is a CSV file; otherwise it is HTML."""
        return "--csv" in self.words


class Options(NamedTuple):
    """How a table is laid out. None leaves a choice to the program; docs/COMMAND.md says what each does.

    ``align`` is a list of letters, as ``l,r,c``, or ``auto``, or ``cells``.
    """

    style: Optional[str] = None
    breaking: Optional[str] = None
    budget: Optional[int] = None
    solver: Optional[str] = None
    workers: Optional[int] = None
    align: Optional[str] = None
    more: Tuple[str, ...] = ()

    def words(self) -> List[str]:
        """The options as words of a request."""
        named = (("style", self.style), ("break", self.breaking), ("budget", self.budget), ("solver", self.solver),
                 ("workers", self.workers), ("align", self.align))
        words = [word for name, value in named if value is not None for word in (f"--{name}", str(value))]
        return [*words, *self.more]


def _bytes_of(file: Union[str, bytes]) -> bytes:
    return file.encode("utf-8") if isinstance(file, str) else bytes(file)


def csv_words(head: bool, least: Sequence[int]) -> Tuple[str, ...]:
    """The words that say that a file is CSV."""
    words = ["--csv"]
    if head:
        words.append("--head")
    if least:
        words.extend(["--least", ",".join(str(width) for width in least)])
    return tuple(words)


def source_of(rows: Optional[Rows], html: Union[str, bytes, None], csv: Union[str, bytes, None], head: bool,
              least: Sequence[int]) -> Source:
    """The one source that is given. Raises TypeError if none is, or several are; BadCell for a cell of rows."""
    given = [name for name, it in (("rows", rows), ("html", html), ("csv", csv)) if it is not None]
    if len(given) != 1:
        raise TypeError(f"one of rows, html and csv is laid out, and here {' and '.join(given) or 'none'} is given")
    if html is not None:
        if head or least:
            raise TypeError("head and least are of rows and of CSV files")
        return Source(_bytes_of(html))
    if csv is not None:
        return Source(_bytes_of(csv), csv_words(head, least))
    data, has_head = csv_of(rows, head)
    return Source(data, csv_words(has_head, least), is_rows=True)
