"""Pages of text, and what is known of them."""
from __future__ import annotations

from functools import cached_property
from typing import TYPE_CHECKING, Any, Callable, Dict, NamedTuple, Optional, Sequence

from .errors import ProgramFault, TooNarrow
from .messages import headline
from .places import width_of
from .protocol import Answer

if TYPE_CHECKING:
    from rich.console import Console, ConsoleOptions, RenderResult
    from rich.measure import Measurement

_MOST_WIDTH = 500

# Asks for the same page once more, with further words; and lays the same table out for another width.
Again = Callable[[Sequence[str]], Answer]
Relay = Callable[[int], "Page"]


class Page:
    """A page of text. ``str()`` and ``print()`` give its text.

    ``text`` has the lines, each with a line feed. ``height`` counts lines and ``width`` columns of a terminal; where the
    message has no width it is that of the widest line. ``message`` is that of the command. With ``breaking="fit"`` the page's ``breaking`` is the number of columns above which
    words may break, and None where whole words fit; with any other it is None.
    """

    def __init__(self, answer: Answer, again: Again, relay: Relay) -> None:
        self.text = answer.page.decode("utf-8")
        self.message = answer.message
        self.status = answer.status
        self.height = self.text.count("\n")
        said = headline(answer.message)
        self.width = said.number("width", 0) or max(width_of(line) for line in self.text.split("\n"))
        self.breaking = said.breaking
        self._again = again
        self._relay = relay

    def __str__(self) -> str:
        return self.text[:-1]

    def __repr__(self) -> str:
        return f"<{type(self).__name__}: {self.message}>"

    @cached_property
    def certificate(self) -> str:
        """The certificate, which ``check`` judges. The program is asked for it when it is first read."""
        return self._certificates.cert.decode("ascii")

    @cached_property
    def _certificates(self) -> Answer:
        answer = self._again(["--cert"])
        if answer.status != self.status:
            raise ProgramFault(f"asked once more, the program answered {answer.message!r}, and before {self.message!r}")
        return answer

    @cached_property
    def html(self) -> str:
        """The table as HTML with the widths of the page's columns (the command's ``--html``)."""
        return self._again(["--html"]).page.decode("utf-8")

    def _repr_html_(self) -> str:
        return self.html

    def _repr_mimebundle_(self, **_: Any) -> Dict[str, str]:
        return {"text/plain": str(self), "text/html": self.html}

    def __rich__(self) -> "RichPage":
        return RichPage(self._relay)


class LowPage(Page):
    """The page of ``lay``.

    ``lower`` is a number of lines that no page of the width is below. ``is_lowest`` says that it is the height.
    """

    def __init__(self, answer: Answer, again: Again, relay: Relay) -> None:
        super().__init__(answer, again, relay)
        said = headline(answer.message)
        self.height = said.number("height", self.height)
        self.lower = said.number("lower", self.height)
        self.is_lowest = self.lower == self.height


class NarrowPage(Page):
    """The page of ``narrow``.

    ``least`` is a number of columns that no page of so few lines is below. ``is_narrowest`` says that it is the width.
    """

    def __init__(self, answer: Answer, again: Again, relay: Relay) -> None:
        super().__init__(answer, again, relay)
        said = headline(answer.message)
        self.least = said.number("least", self.width)
        self.is_narrowest = self.least == self.width

    @property
    def less(self) -> Optional[str]:
        """The certificate that a page of ``least`` - 1 columns is too narrow, or too high; None if that is no page."""
        return self._certificates.less.decode("ascii") or None

    @property
    def spent(self) -> Optional[str]:
        """The certificate of the page at which the budget ended the search; None if it did not."""
        return self._certificates.spent.decode("ascii") or None


class TidyPage(NarrowPage):
    """The page of ``tidy``: ``is_lowest``, ``is_narrowest`` of those, and ``is_chosen`` by the rule that knows no search.

    ``lower`` and ``least`` are the bounds of its height and width.
    """

    def __init__(self, answer: Answer, again: Again, relay: Relay) -> None:
        Page.__init__(self, answer, again, relay)
        said = headline(answer.message)
        self.height = said.number("height", self.height)
        self.lower = said.number("lower", self.height)
        # Where the height is open nothing is known of widths.
        self.least = said.number("least", 1 if said.kind == "bounded" else self.width)
        self.is_lowest = self.lower == self.height
        self.is_narrowest = self.is_lowest and self.least == self.width
        self.is_chosen = answer.status == 0


class Verdict(NamedTuple):
    """What a valid certificate says.

    ``claim`` is ``lowest``, ``bounded`` or ``narrow``. ``height`` and ``width`` are those of the page, ``lower`` a number
    of lines that none is below; with ``narrow`` they are None, and no page has fewer columns than ``least``. ``breaking`` is
    that of a page.
    """

    claim: str
    message: str
    height: Optional[int] = None
    width: Optional[int] = None
    lower: Optional[int] = None
    least: Optional[int] = None
    breaking: Optional[int] = None


def verdict_of(message: str) -> Verdict:
    """The verdict that a message of ``check`` gives, of status 0 or 3."""
    said = headline(message)
    height = said.number("height", 0)
    return Verdict(said.kind, message, height, said.number("width", 0), said.number("lower", height), breaking=said.breaking)


class RichPage:
    """A page for ``rich``, laid out for the width of the console."""

    def __init__(self, relay: Relay) -> None:
        self._relay = relay

    def __rich_console__(self, console: "Console", options: "ConsoleOptions") -> "RenderResult":
        from rich.text import Text

        page = self._relay(max(1, min(options.max_width, _MOST_WIDTH)))
        for line in str(page).split("\n"):
            yield Text(line, no_wrap=True)

    def __rich_measure__(self, console: "Console", options: "ConsoleOptions") -> "Measurement":
        from rich.measure import Measurement

        most = max(1, min(options.max_width, _MOST_WIDTH))
        try:
            least = self._relay(1).width
        except TooNarrow as refusal:
            least = refusal.least
        try:
            widest = self._relay(most).width
        except TooNarrow:
            widest = most
        return Measurement(min(least, most), widest)
