"""What the program's messages say."""
from __future__ import annotations

import re
from typing import Dict, NamedTuple, Optional

from . import errors
from .places import place_at, record_at
from .protocol import Answer
from .sources import Source

LOWEST, USAGE, BOUNDED, NARROW, BAD_INPUT, LIMIT, MEMORY, REJECTED, TOO_TALL = 0, 2, 3, 4, 5, 6, 9, 10, 12

# They are compiled where one is first needed, since `show` has to start at once.
_NARROW = r"narrow least (\d+) width \d+\s*(.*)"
_OVERLAP = r"bad input: overlap in table (\d+) at row (\d+) column (\d+)"
_BAD_INPUT = r"bad input: (.*) at (\d+)"
_LIMIT = r"limit: (\S+) (\d+)"


class Headline(NamedTuple):
    """A message of status 0 or 3, as ``lowest height 3 width 7``: its first word, and what it says of each name."""

    kind: str
    numbers: Dict[str, str]

    def number(self, name: str, otherwise: int) -> int:
        """The number of this name."""
        return int(self.numbers.get(name, otherwise))

    @property
    def breaking(self) -> Optional[int]:
        """The number of columns above which words may break, if ``--break fit`` found that whole words do not fit."""
        return int(self.numbers["break"]) if "break" in self.numbers else None


_KINDS = frozenset(("lowest", "bounded", "slimmest", "tidy", "untidy"))


def headline(message: str) -> Headline:
    """What a message says. Raises ProgramFault for one that is none of status 0 or 3."""
    kind, *words = message.split() or [""]
    if kind not in _KINDS:
        raise errors.ProgramFault(f"the program's message is {message!r}")
    # In ``untidy choice`` no number follows the name.
    words = words[1:] if words[:1] == ["choice"] else words
    return Headline(kind, dict(zip(words[::2], words[1::2])))


def _bad_input(message: str, source: Source) -> errors.Error:
    overlap = re.match(_OVERLAP, message)
    if overlap:
        return errors.Overlap(message, *(int(number) for number in overlap.groups()))
    match = re.match(_BAD_INPUT, message)
    if not match:
        return errors.Error(message)
    kind, at = match[1], int(match[2])
    if source.is_rows:
        return errors.BadInput(message, kind, at)
    place = place_at(source.data, record_at(source.data, at) if source.is_csv else at)
    return errors.BadInput(message, kind, at, place.line, place.column)


def _narrow(message: str) -> errors.Error:
    match = re.match(_NARROW, message)
    return errors.TooNarrow(message, int(match[1]), tuple(match[2].split())) if match else errors.Error(message)


def _limit(message: str) -> errors.Error:
    match = re.match(_LIMIT, message)
    return errors.LimitPassed(message, match[1], int(match[2])) if match else errors.Error(message)


def refusal(answer: Answer, source: Source) -> errors.Error:
    """The exception for an answer without a page."""
    message = answer.message
    if answer.status == USAGE:
        return errors.BadRequest(f"the program does not know what was asked for: {message}")
    if answer.status == NARROW:
        return _narrow(message)
    if answer.status == BAD_INPUT:
        return _bad_input(message, source)
    if answer.status == LIMIT:
        return _limit(message)
    if answer.status == MEMORY:
        return errors.OutOfMemory("the program is out of memory")
    if answer.status == REJECTED:
        return errors.Rejected(message, message.partition(": ")[2])
    if answer.status == TOO_TALL:
        return errors.TooTall(message, int(message.rpartition(" ")[2]))
    return errors.ProgramFault(f"the program answered with status {answer.status}: {message}")
