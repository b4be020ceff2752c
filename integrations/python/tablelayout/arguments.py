"""How the commands of the front read their arguments."""
from __future__ import annotations

import argparse
import os
from os.path import commonprefix
from typing import Callable, List, NoReturn, Optional, Sequence

from . import terminal

STATUS_USAGE = 2
# In how many characters a word may differ from the one that is meant, as for the program.
_MOST_DIFFERENCES = 2
MOST_WIDTH, _MOST_WIDTHS = 500, 60


class _Help(argparse.HelpFormatter):
    """Knows its width, for which argparse would load what takes its time."""

    def __init__(self, prog: str) -> None:
        super().__init__(prog, max_help_position=28, width=terminal.columns() - 2)


def _differences(one: str, other: str) -> int:
    """How long the longer of the two is between what both begin with and what both end with."""
    front = len(commonprefix([one, other]))
    one, other = one[front:], other[front:]
    return max(len(one), len(other)) - len(commonprefix([one[::-1], other[::-1]]))


def _nearest(word: str, names: Sequence[str]) -> Optional[str]:
    """The first of the names that differ least from the word, if it is near enough."""
    name = min(names, key=lambda it: _differences(word, it))
    return name if _differences(word, name) <= _MOST_DIFFERENCES else None


class Parser(argparse.ArgumentParser):
    """A parser that says why arguments are refused, and ends with the status of the program."""

    def __init__(self, command: str, description: str, epilog: str = "") -> None:
        super().__init__(prog=f"tablelayout {command}", allow_abbrev=False, formatter_class=_Help, description=description, epilog=epilog)

    def parse(self, arguments: Sequence[str]) -> argparse.Namespace:
        """What is given. Of a word that is not known it says which option is nearest, and ends."""
        given, unknown = self.parse_known_args(arguments)
        # After `--` none is an option.
        before = set(arguments[:arguments.index("--")] if "--" in arguments else arguments)
        options = [it for it in unknown if it.startswith("-") and it != "-" and it in before]
        if options:
            names = [name for action in self._actions for name in action.option_strings if name.startswith("--")]
            nearest = _nearest(options[0], names)
            self.error(f"unknown option '{options[0]}'" + (f": did you mean '{nearest}'?" if nearest else ""))
        if unknown:
            self.error(f"one file is read, and '{unknown[0]}' is one more")
        return given

    def error(self, message: str) -> NoReturn:
        """Says that the arguments are invalid, and ends."""
        terminal.write_message(["usage", f"{self.prog}: {message}"])
        self.exit(STATUS_USAGE)


def whole_number(text: str) -> int:
    """A number without a sign. Raises ArgumentTypeError."""
    if not text.isascii() or not text.isdigit():
        raise argparse.ArgumentTypeError(f"{text} is no number")
    return int(text)


def number_up_to(most: int, least: int = 0) -> Callable[[str], int]:
    """A number in a range, as the type of an argument."""

    def read(text: str) -> int:
        number = whole_number(text)
        if not least <= number <= most:
            raise argparse.ArgumentTypeError(f"{text} is no number from {least} to {most}")
        return number

    return read


def alignment(text: str) -> str:
    """The side of each column, as l,r,c, or auto, or cells. Raises ArgumentTypeError."""
    sides = text.split(",")
    if text not in ("auto", "cells") and (len(sides) > _MOST_WIDTHS or not all(side in ("l", "r", "c") for side in sides)):
        raise argparse.ArgumentTypeError(
            f"{text} is no alignment: auto, cells, or letters of l, r, c for up to {_MOST_WIDTHS} columns, as l,r")
    return text


def breaking(text: str) -> str:
    """How words break, as the program takes it. Raises ArgumentTypeError."""
    if text not in ("words", "any", "fit") and (not text.isascii() or not text.isdigit() or text != str(int(text)) or int(text) > MOST_WIDTH):
        raise argparse.ArgumentTypeError(f"{text} is none of words, any, fit, and no number from 0 to {MOST_WIDTH}")
    return text


def width_of_page(text: str) -> int:
    """The width of a page, in columns. Raises ArgumentTypeError."""
    if not text.isascii() or not text.isdigit() or not 1 <= int(text) <= MOST_WIDTH:
        raise argparse.ArgumentTypeError(f"{text} is no width from 1 to {MOST_WIDTH}")
    return int(text)


def widths_of_columns(text: str) -> "tuple[int, ...]":
    """A list of widths, as ``5,0,12``, in columns of text. Raises ArgumentTypeError."""
    widths = tuple(whole_number(it) for it in text.split(","))
    if len(widths) > _MOST_WIDTHS or max(widths) > MOST_WIDTH:
        raise argparse.ArgumentTypeError(f"{text} is no list of at most {_MOST_WIDTHS} widths up to {MOST_WIDTH}")
    return widths


def with_defaults(parser: Parser, arguments: Sequence[str]) -> List[str]:
    """The arguments after the options of the environment's TABLELAYOUT_OPTIONS, so that those that are given count."""
    options = os.environ.get("TABLELAYOUT_OPTIONS")
    if not options:
        return list(arguments)
    import shlex

    try:
        return [*shlex.split(options), *arguments]
    except ValueError as fault:
        parser.error(f"TABLELAYOUT_OPTIONS: {fault}")
