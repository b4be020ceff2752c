"""The Layouter: it asks the program again and again."""
from __future__ import annotations

import atexit
import os
import threading
import weakref
from typing import TYPE_CHECKING, Callable, Optional, Sequence, Type, TypeVar, Union

from .coprocess import CoProcess
from .errors import NoPageFound, ProgramFault, TooNarrow
from .messages import BOUNDED, LOWEST, USAGE, headline, refusal
from .pages import LowPage, NarrowPage, Page, TidyPage, Verdict, verdict_of
from .program import find_program, is_runnable
from .protocol import Answer, Ended, request
from .rows import Rows
from .sources import Options, Source, source_of

if TYPE_CHECKING:
    from .progress import ProgressLine

File = Union[str, bytes]
_AnyPage = TypeVar("_AnyPage", bound=Page)


class Layouter:
    """Lays tables out by one process of the program, which answers one request after the other.

    It may be shared between threads: each request waits for the one before it. After a fork the child starts a program of
    its own. A program that ended is started once more. It is a context manager, and its program ends with it, or when
    Python ends.

        with Layouter() as layouter:
            print(layouter.lay([["a", "b"], ["c", "d"]], 72))
    """

    def __init__(self, command: Optional[Sequence[str]] = None, progress: "Optional[ProgressLine]" = None,
                 says_progress: bool = False) -> None:
        """``command`` is the program with the arguments that stand before all others; without it the program is looked for.

        ``progress`` draws how far a search has come; with ``says_progress`` alone the lines of the program say it, on standard
        error. Nothing is started before the first request.
        """
        self._command = command
        self._progress = progress
        self._says_progress = says_progress
        self._process: Optional[CoProcess] = None
        self._lock = threading.Lock()
        self._is_closed = False
        _ALL.add(self)

    def __enter__(self) -> "Layouter":
        return self

    def __exit__(self, *_: object) -> None:
        self.close()

    def close(self) -> None:
        """Ends the program. What is asked for afterwards is refused with ProgramFault."""
        with self._lock:
            self._is_closed = True
            self._stop()
            if self._progress:
                self._progress.end()

    @property
    def pid(self) -> Optional[int]:
        """The number of the running process, or None."""
        return self._process.pid if self._process else None

    def ask(self, words: Sequence[str], *parts: bytes) -> Answer:
        """The program's answer to the words of a command and its files.

        Raises ProgramFault if there is no program, if it ends before it answers, and does so again, or if the Layouter is
        closed; ValueError for a word that has a space or is empty.
        """
        asked = request(words, parts)
        with self._lock:
            if self._is_closed:
                raise ProgramFault("the Layouter is closed")
            try:
                answer = self._exchange(asked)
            except BaseException:
                # What it would answer now is not the answer to what comes next.
                self._kill()
                raise
            finally:
                if self._progress:
                    self._progress.end()
            if answer.status == USAGE:
                self._stop()  # It ends by itself.
            return answer

    def _exchange(self, asked: bytes) -> Answer:
        if self._process is not None:
            try:
                return self._process.exchange(asked)
            except Ended:
                self._kill()
        self._process = self._start()
        try:
            return self._process.exchange(asked)
        except Ended as ended:
            raise ProgramFault(str(ended)) from ended

    def _start(self) -> CoProcess:
        command = self._command or [find_program() or ""]
        if not command[0]:
            raise ProgramFault("there is no program tablelayout: TABLELAYOUT names none, and none is beside this package "
                               "or in the path")
        if not is_runnable(command[0]):
            raise ProgramFault(f"there is no program {command[0]} that can be run")
        try:
            words = ["batch", "--progress"] if self._progress or self._says_progress else ["batch"]
            return CoProcess([*command, *words], self._progress.take if self._progress else None)
        except OSError as fault:
            raise ProgramFault(f"{command[0]} could not be started: {fault.strerror}") from fault

    def _stop(self) -> None:
        if self._process is not None:
            self._process.end()
            self._process = None

    def _kill(self) -> None:
        if self._process is not None:
            self._process.kill()
            self._process = None

    def after_fork(self) -> None:
        """Lets go of the parent's program and lock, in the child."""
        self._lock = threading.Lock()
        if self._process is not None:
            self._process.forget()
            self._process = None

    def lay(self, rows: Optional[Rows] = None, width: int = 72, *, html: Optional[File] = None, csv: Optional[File] = None,
            head: bool = False, least: Sequence[int] = (), style: Optional[str] = None, breaking: Optional[str] = None,
            budget: Optional[int] = None, solver: Optional[str] = None, workers: Optional[int] = None,
            align: Optional[str] = None, more: Sequence[str] = ()) -> LowPage:
        """The lowest page of at most ``width`` columns, 1 to 500.

        The table is one of ``rows`` (lists of texts, or a frame), ``html`` and ``csv`` (files as text or bytes). White space
        separates words, and the words of a cell are one paragraph. ``head`` says that the first row is a head, and
        ``least`` how many columns of text the first columns have at least.

        ``style``, ``breaking``, ``budget`` (in cuts), ``solver``, ``workers`` and ``align`` are the command's options
        ``--style``, ``--break``, ``--budget``, ``--solver``, ``--workers`` and ``--align``; None leaves them to the program.
        With ``breaking="fit"`` as few words as can be break, and the page's ``breaking`` says which. ``align`` is a list, as
        ``"l,r,c"``, or ``"auto"``, or ``"cells"``, with which the attribute ``align`` of a cell of ``html`` counts. ``more`` has
        the words of further options.

        Raises TooNarrow, BadInput, BadCell, Overlap, LimitPassed, OutOfMemory, BadRequest or ProgramFault. That the budget
        ended the search is no error: the page fits, and ``is_lowest`` is False.
        """
        options = Options(style, breaking, budget, solver, workers, align, tuple(more))
        return self._page("lay", width, source_of(rows, html, csv, head, least), options, LowPage)

    def narrow(self, rows: Optional[Rows] = None, height: int = 24, *, html: Optional[File] = None,
               csv: Optional[File] = None, head: bool = False, least: Sequence[int] = (), style: Optional[str] = None,
               breaking: Optional[str] = None, budget: Optional[int] = None, solver: Optional[str] = None,
               workers: Optional[int] = None, align: Optional[str] = None, more: Sequence[str] = ()) -> NarrowPage:
        """The narrowest page of at most ``height`` lines. Arguments and errors are those of ``lay``.

        Raises TooTall too, and NoPageFound if the budget ended the search before it found a page.
        """
        options = Options(style, breaking, budget, solver, workers, align, tuple(more))
        return self._page("narrow", height, source_of(rows, html, csv, head, least), options, NarrowPage)

    def tidy(self, rows: Optional[Rows] = None, width: int = 72, *, html: Optional[File] = None, csv: Optional[File] = None,
             head: bool = False, least: Sequence[int] = (), style: Optional[str] = None, breaking: Optional[str] = None,
             budget: Optional[int] = None, solver: Optional[str] = None, workers: Optional[int] = None,
             align: Optional[str] = None, more: Sequence[str] = ()) -> TidyPage:
        """The lowest page, on the narrowest page that is as low, whatever the search.

        Arguments and errors are those of ``lay``.
        """
        options = Options(style, breaking, budget, solver, workers, align, tuple(more))
        return self._page("tidy", width, source_of(rows, html, csv, head, least), options, TidyPage)

    def check(self, rows: Optional[Rows] = None, width: int = 72, certificate: File = "", *, html: Optional[File] = None,
              csv: Optional[File] = None, head: bool = False, least: Sequence[int] = (), style: Optional[str] = None,
              breaking: Optional[str] = None, budget: Optional[int] = None, workers: Optional[int] = None,
              more: Sequence[str] = ()) -> Verdict:
        """Judges a certificate for a table, a width and options, without any search. Arguments are those of ``lay``.

        Raises Rejected if it is not valid, and otherwise what ``lay`` raises, but never TooNarrow: a valid certificate that
        no layout fits has the claim ``narrow``.
        """
        options = Options(style, breaking, budget, None, workers, more=tuple(more))
        source = source_of(rows, html, csv, head, least)
        cert = certificate.encode("utf-8") if isinstance(certificate, str) else certificate
        answer = self.ask(["check", str(width), *options.words(), *source.words], source.data, cert)
        if answer.status in (LOWEST, BOUNDED):
            return verdict_of(answer.message)
        refused = refusal(answer, source)
        if isinstance(refused, TooNarrow):
            return Verdict("narrow", answer.message, least=refused.least)
        raise refused

    def lay_source(self, source: Source, width: int, options: Options) -> LowPage:
        """As ``lay``, of a source."""
        return self._page("lay", width, source, options, LowPage)

    def tidy_source(self, source: Source, width: int, options: Options) -> TidyPage:
        """As ``tidy``, of a source."""
        return self._page("tidy", width, source, options, TidyPage)

    def _page(self, command: str, size: int, source: Source, options: Options, kind: Type[_AnyPage]) -> _AnyPage:
        words = [command, str(size), *options.words(), *source.words]

        def again(more: Sequence[str]) -> Answer:
            return self.ask([*words, *more], source.data)

        def relay(width: int) -> Page:
            return self.lay_source(source, width, options)

        answer = again([])
        if answer.status not in (LOWEST, BOUNDED):
            raise refusal(answer, source)
        said = headline(answer.message)
        if said.numbers.get("width") == "none":
            raise NoPageFound(answer.message, said.number("least", 1))
        return kind(answer, again, relay)


_ALL: "weakref.WeakSet[Layouter]" = weakref.WeakSet()


def _for_all(do: Callable[[Layouter], None]) -> None:
    for layouter in list(_ALL):
        do(layouter)


if hasattr(os, "register_at_fork"):
    os.register_at_fork(after_in_child=lambda: _for_all(Layouter.after_fork))
atexit.register(lambda: _for_all(Layouter.close))
