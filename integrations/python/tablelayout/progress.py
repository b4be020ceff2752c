"""How far a search has come, as one line on the terminal."""
from __future__ import annotations

from typing import Dict, NamedTuple, Optional

from . import terminal

# What a line says.
_NAMES = [b"table", b"cuts", b"height", b"lower"]
# The columns that stay free: for the two that a terminal writes of an interrupt, and for the cursor.
_FREE_COLUMNS = 3


class Step(NamedTuple):
    """What a line says of a search: its table, its cuts, the height that it has found, and a bound that none is below."""

    table: int
    cuts: int
    height: int
    lower: int

    @property
    def gap(self) -> int:
        """The lines by which the height may be above the lowest."""
        return self.height - self.lower


class _Search(NamedTuple):
    first: Step
    last: Step


def step_of(line: bytes) -> Optional[Step]:
    """The step that a line says, or None if it is another line."""
    words = line.split()
    names, numbers = words[1::2], words[2::2]
    if words[:1] != [b"progress"] or names != _NAMES or len(numbers) != len(names) or not all(it.isdigit() for it in numbers):
        return None
    return Step(*map(int, numbers))


def _told(search: _Search) -> str:
    step, first_gap = search.last, search.first.gap
    closed = 100 * (first_gap - step.gap) // first_gap if first_gap > 0 else 100
    name = f"nested table {step.table}: " if step.table else ""
    return f"{name}height {step.height:,} so far, lower bound {step.lower:,}, {closed} % of the gap closed"


class ProgressLine:
    """The line, on standard error. It stands there while a search goes on, and is gone when the page comes."""

    def __init__(self) -> None:
        self._searches: Dict[int, _Search] = {}
        self._columns = 0

    def take(self, line: bytes) -> None:
        """Draws what a line says of a search. Any other line is written as it is."""
        step = step_of(line)
        if step is None:
            self._erase()
            terminal.write_error(line)
        else:
            self._draw(_told(self._searched(step)))

    def end(self) -> None:
        """Takes the line away. What comes next is another search."""
        self._searches.clear()
        self._erase()

    def _searched(self, step: Step) -> _Search:
        """The search that the step is one of: a table is searched anew where it has no more cuts than before."""
        before = self._searches.get(step.table)
        first = before.first if before and before.last.cuts < step.cuts else step
        self._searches[step.table] = search = _Search(first, step)
        return search

    def _draw(self, text: str) -> None:
        text = text[:max(0, terminal.columns_of_errors() - _FREE_COLUMNS)]
        columns, before = len(text), self._columns
        # An interrupt may come before the next statement.
        self._columns = max(columns, before)
        terminal.write_error(b"\r" + text.ljust(before).encode("ascii") + b"\b" * max(0, before - columns))
        self._columns = columns

    def _erase(self) -> None:
        if self._columns:
            terminal.write_error(b"\r" + b" " * (self._columns + _FREE_COLUMNS - 1) + b"\r")
            self._columns = 0
